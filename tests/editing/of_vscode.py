"""The files of editors/vscode: the grammar on all sources, and what package.json names."""
import json
import re
import shutil
import subprocess

from editing import engines, labels, lexical, sources, textmate

FOLDER = sources.TOP / "editors/vscode"
UNLIKE = {"loose.fss"}


def read(name):
    """A file of JSON."""
    return json.loads((FOLDER / name).read_text())


def innermost(scopes):
    """The innermost name without the grammar's own ending, or None."""
    return scopes[-1].removesuffix(".fortress") if scopes else None


def difference(text, wanted, shown):
    """The first character that is shown otherwise than it is wanted, in words, or nothing."""
    for at, (want, is_) in enumerate(zip(wanted, shown)):
        if want != is_ and text[at] != "\n":
            line, column = text[:at].count("\n") + 1, at - text.rfind("\n", 0, at)
            return f"{text[at]!r} at {line}:{column} is shown as {is_ or 'nothing'}, not {want}"
    return ""


def grammar(count, texts, engine):
    """The grammar's scopes of all sources, by one engine of expressions."""
    made = textmate.Grammar(FOLDER / "syntaxes/fortress.tmLanguage.json", engine)
    for name, text in texts.items():
        wanted, _ = labels.labels(text)
        shown = [innermost(it) for it in made.scopes(text)]
        wanted = [labels.SHOWN[it][0] for it in wanted]
        count.take(f"VS Code ({engine.name}) on {name}", difference(text, wanted, shown))
    for text, at in sources.FAULTY:
        shown = innermost(made.scopes(text)[at])
        count.take(f"VS Code ({engine.name}) on the fault of {text!r}",
                   "" if shown in labels.FAULTS else f"it is shown as {shown}")
    for text in sources.RECOVERED:
        shown = innermost(made.scopes(text)[-1])
        count.take(f"VS Code ({engine.name}) behind the fault of {text!r}",
                   "" if shown == "keyword.control" else f"`end` is shown as {shown}")


def matcher(count, notes):
    """The problem matcher reads each note, and nothing else that the program says."""
    (it,) = read("package.json")["contributes"]["problemMatchers"]
    pattern = it["pattern"]
    for name, (_, note) in notes.items():
        found = re.search(pattern["regexp"], note.text.rstrip("\n"))
        fields = ("file", "line", "column", "message", "code")
        got = [found[pattern[field]] for field in fields] if found else None
        wanted = ["T.fss", str(note.line), str(note.column), f"rule {note.rule} {note.name}",
                  str(note.rule)]
        count.take(f"the problem matcher on {name}", "" if got == wanted else f"it reads {got}")
    for line in ("accepted", "read fault", "out of fuel", "record refused: pick 3"):
        count.take(f"the problem matcher on {line}", "it matches" if
                   re.search(pattern["regexp"], line) else "")


def snippets(count):
    """Each Unicode spelling has a snippet, under its ASCII one."""
    listed = read("snippets/fortress.json")
    made = {sign: (it["prefix"], it["body"]) for sign, it in listed.items()}
    wanted = {sign: (first, sign) for sign, first in lexical.PAIRS.items()}
    for sign in sorted(made.keys() | wanted.keys()):
        count.take(f"the snippet of {sign}", "" if made.get(sign) == wanted.get(sign) else
                   f"it is {made.get(sign)}, not {wanted.get(sign)}")


def reindented(text, rules, engine):
    """A source as VS Code's "Reindent Lines" leaves it; lines that begin in comments stay."""
    def fits(name, line):
        """Whether a pattern of the rules fits a line."""
        return engine.search(rules[name]["pattern"], line, 0) is not None
    lines, depth, now = [], 0, 0
    for line, kept in zip(sources.unindented(text).split("\n"), text.split("\n")):
        if line == kept and line[:1].isspace() or not line:
            lines.append(kept)
            continue
        if fits("decreaseIndentPattern", line):
            depth, now = max(depth - 1, 0), max(now - 1, 0)
        lines.append("  " * now + line)
        if fits("increaseIndentPattern", line):
            depth = now = now + 1
        else:
            now = now + 1 if fits("indentNextLinePattern", line) else depth
    return "\n".join(lines)


# Reads patterns, flags and lines, and writes for each pattern whether it fits each line.
SCRIPT = """const [patterns, lines] = JSON.parse(require('fs').readFileSync(0));
console.log(JSON.stringify(patterns.map(([pattern, flags]) => {
  const made = new RegExp(pattern, flags); return lines.map(line => made.test(line)); })));"""


def javascript(count, texts, notes, engine):
    """JavaScript, which VS Code asks of all but the grammar, reads them as Python does."""
    parts = read("language-configuration.json")
    asked = {**parts["indentationRules"], "wordPattern": parts["wordPattern"]}
    patterns = {name: (it["pattern"], it["flags"]) for name, it in asked.items()}
    (matcher_,) = read("package.json")["contributes"]["problemMatchers"]
    patterns["problemMatcher"] = (matcher_["pattern"]["regexp"], "")
    lines = [line for text in texts.values() for line in text.split("\n")]
    lines += [note.text.strip() for _, note in notes.values()]
    if not shutil.which("node"):
        count.skip("the patterns of JavaScript", "node isn't here")
        return
    done = subprocess.run(["node", "-e", SCRIPT], capture_output=True, text=True,
                          input=json.dumps([list(patterns.values()), lines]))
    told = json.loads(done.stdout) if done.returncode == 0 else [[]] * len(patterns)
    for (name, (pattern, _)), got in zip(patterns.items(), told):
        wanted = [engine.search(pattern, line, 0) is not None for line in lines]
        count.take(f"JavaScript reads {name}", "" if got == wanted and any(got) else
                   done.stderr[:300] or "it fits other lines than by Python")


def indentation(count, engine):
    """The examples are indented as the rules say, but APIs and where a line ends with `=`."""
    rules = read("language-configuration.json")["indentationRules"]
    texts = {it.name: it.read_text() for it in sources.examples()}
    for name, text in {**texts, "each form": sources.INDENTED}.items():
        if name not in UNLIKE and not re.search(r"=$|^api\b", text, re.M):
            wanted, got = text.split("\n"), reindented(text, rules, engine).split("\n")
            wrong = [f"{want!r} becomes {is_!r}" for want, is_ in zip(wanted, got) if want != is_]
            count.take(f"VS Code's indentation of {name}", "; ".join(wrong[:3]))


def manifest(count):
    """The files that package.json names are there, and are JSON."""
    parts = read("package.json")["contributes"]
    named = [it["path"] for kind in ("grammars", "snippets") for it in parts[kind]]
    named += [it["configuration"] for it in parts["languages"]]
    for name in named:
        count.take(f"package.json names {name}", "" if read(name) else "it is empty")
    scope = read("syntaxes/fortress.tmLanguage.json")["scopeName"]
    count.take("the grammar's scope", "" if parts["grammars"][0]["scopeName"] == scope else scope)
    listed = [tuple(it) for it in read("language-configuration.json")["brackets"]]
    wanted = [("[\\", "\\]"), ("⟦", "⟧"), ("(", ")"), ("[", "]"), ("{", "}")]
    count.take("brackets", "" if listed == wanted else f"they are {listed}")
    words = sorted(word for it in labels.WORDS.values() for word in it.split())
    count.take("the words of the groups", "" if words == sorted(lexical.WORDS) else f"{words}")


def tries(count, texts, notes):
    """All tests of these files."""
    here = engines.engines()
    for engine in here:
        grammar(count, texts, engine)
    if len(here) == 1:
        count.skip("VS Code's grammar by Oniguruma", "the library (libonig) isn't here")
    matcher(count, notes)
    snippets(count)
    indentation(count, engines.Python())
    javascript(count, texts, notes, engines.Python())
    manifest(count)
