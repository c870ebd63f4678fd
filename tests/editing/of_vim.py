"""The files of editors/vim, tried in Vim itself."""
import re

from editing import labels, lexical, sources, vim
from editing.of_vscode import UNLIKE, difference


def syntax(count, texts, folder):
    """The syntax groups of all sources."""
    faulty = {f"faulty_{at}.fss": text for at, (text, _) in enumerate(sources.FAULTY)}
    behind = {f"recovered_{at}.fss": text for at, text in enumerate(sources.RECOVERED)}
    asked = {name: text.encode() for name, text in {**texts, **faulty, **behind}.items()}
    rows = vim.each(folder, "Groups", asked)
    for name, text in texts.items():
        wanted = [labels.SHOWN[it][1] for it in labels.labels(text)[0]]
        count.take(f"Vim on {name}", difference(text, wanted, vim.groups(text, rows[name])))
    for name, (text, at) in zip(faulty, sources.FAULTY):
        shown = vim.groups(text, rows[name])[at]
        count.take(f"Vim on the fault of {text!r}",
                   "" if shown in labels.FAULTS else f"it is shown as {shown}")
    for name, text in behind.items():
        shown = vim.groups(text, rows[name])[-1]
        count.take(f"Vim behind the fault of {text!r}",
                   "" if shown == "fssControl" else f"`end` is shown as {shown}")


def indentation(count, folder):
    """The examples, with all white space at the front of lines gone, are indented as they were."""
    texts = {it.name: it.read_text() for it in sources.examples() if it.name not in UNLIKE}
    texts["each_form.fss"] = sources.INDENTED
    asked = {name: sources.unindented(text).encode() for name, text in texts.items()}
    for name, lines in vim.each(folder, "Indented", asked).items():
        wanted = texts[name].removesuffix("\n").split("\n")
        wrong = [f"{want!r} becomes {is_!r}" for want, is_ in zip(wanted, lines) if want != is_]
        count.take(f"Vim's indentation of {name}", "; ".join(wrong[:3]))


def quickfix(count, notes, folder, program):
    """`:make` lists each note at its place, in bytes, and other notes; but not `accepted`."""
    asked = {name: text.encode() for name, (text, _) in notes.items()}
    asked["a name:1:2.fss"] = b" *"
    asked["good.fss"] = (sources.TOP / "examples/hello.fss").read_bytes()
    asked["large.fss"] = b" " * 1_048_577
    rows = vim.each(folder, "Listed", asked, program)
    for name, (text, note) in notes.items():
        before = text.split("\n")[note.line - 1][: note.column - 1]
        wanted = [[1, name, note.line, len(before.encode()) + 1, note.rule,
                   f"rule {note.rule} {note.name}"]]
        count.take(f"the quickfix list of {name}", "" if rows[name] == wanted else
                   f"it is {rows[name]}, not {wanted}")
    others = {"a name:1:2.fss": [[1, "a name:1:2.fss", 1, 2, 102, "rule 102 BadCharacter"]],
              "good.fss": [], "large.fss": [[0, "", 0, 0, -1, "file too large"]]}
    for name, wanted in others.items():
        count.take(f"the quickfix list of {name}", "" if rows[name] == wanted else f"{rows[name]}")


def digraphs(count, folder):
    """README's digraphs are Vim's, and there is one for each Unicode spelling."""
    table = (vim.FILES / "README.md").read_text()
    keys = dict(re.findall(r"`([^\x00-\x7f])` \| `(..)`", table))
    made = [f"digraph_get({vim.quoted(it)})" for it in keys.values()]
    script = f"edit a.fss\ncall writefile([json_encode([{', '.join(made)}])], 'answers')"
    (folder / "a.fss").write_text("")
    (told,) = vim.run(folder, script)
    for sign in sorted(lexical.PAIRS.keys() | keys.keys()):
        got = told[list(keys).index(sign)] if sign in keys and isinstance(told, list) else told
        count.take(f"the digraph of {sign}", "" if got == sign else f"it is {got}")


def tries(count, texts, notes, folder, program):
    """All tests of these files."""
    if not vim.is_here():
        count.skip("all of Vim", "there is no Vim with syntax highlighting")
        return
    syntax(count, texts, folder)
    indentation(count, folder)
    quickfix(count, notes, folder, program)
    digraphs(count, folder)
