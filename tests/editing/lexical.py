"""The chapter "Tokens" of docs/LANGUAGE.md, as far as an editor shows it: what kind each character
of a source is of. Words, operators and spellings are read from the chapter's own tables."""
import dataclasses
import pathlib
import re

LANGUAGE = (pathlib.Path(__file__).resolve().parents[2] / "docs/LANGUAGE.md").read_text()


def chapter(head, text=LANGUAGE):
    """What stands under a head of docs/LANGUAGE.md, up to the next one of its depth or above."""
    depth = head.split()[0]
    behind = re.split(rf"^{re.escape(head)}$", text, maxsplit=1, flags=re.M)[1]
    return re.split(rf"^#{{1,{len(depth)}}} ", behind, maxsplit=1, flags=re.M)[0]


def spellings(text):
    """What stands between back quotes."""
    return re.findall(r"`([^`]+)`", text)


def reserved_words():
    """The table of reserved words."""
    text = chapter("### Names, words and operator words")
    return spellings(text.partition("instead:\n\n")[2].split("\n\n")[0])[0].split()


def operators():
    """The spellings of the operators, both of each."""
    rows = re.findall(r"^\| [a-z ]+ \| (.*) \|$", chapter("### Spellings and groups"), re.M)
    return [it for row in rows for it in spellings(row)]


def symbols():
    """The symbols that are no operators, both spellings of each."""
    table = chapter("### Symbols").split("\n\n")[2]
    return [it for it in spellings(table) if it != "Unicode"]


def pairs():
    """Each Unicode spelling and the ASCII one that means the same."""
    table = chapter("### Spellings and groups").split("\n\n")[2]
    found = re.findall(r"`([^`]+)` `([^`\w]+)`", table)
    found += re.findall(r"`([^`]+)` \| `([^`\x00-\x7f]+)` U", chapter("### Symbols"))
    return {second: first for first, second in [*found, ("SUM", "∑"), ("PROD", "∏")]}


def built_in():
    """The built-in names: those of types, of exceptions and of functions."""
    types, exceptions = [], []
    for names, kind in re.findall(r"^\| (`.*?) \| (trait|leaf|object)", LANGUAGE, re.M):
        (exceptions if kind == "object" else types).extend(spellings(names))
    text = chapter("### Names at the top")
    functions = spellings(re.search(r"built-in functions (.*?) count", text)[1])
    return {**dict.fromkeys([*types, "Any", "Array"], "type"),
            **dict.fromkeys(exceptions, "exception"), **dict.fromkeys(functions, "function")}


WORDS, OPERATORS, SYMBOLS = set(reserved_words()), set(operators()), set(symbols())
PAIRS, BUILT_IN = pairs(), built_in()
SIGNS = sorted((it for it in OPERATORS | SYMBOLS | {"∑", "∏"} if not it.isascii() or
                not it.isalpha()), key=len, reverse=True)


@dataclasses.dataclass
class Token:
    """A token, a part of one, a comment or a fault; `gap` is what stands before it."""
    start: int
    stop: int
    kind: str
    text: str
    gap: str = ""


class Fault(Exception):
    """A rule of 101 to 106 is broken at a character, whose number this is."""


def starts_name(it):
    """XID_Start or `_`; Python's identifiers begin so."""
    return it.isidentifier()


def continues_name(it):
    """XID_Continue; Python's identifiers go on so."""
    return ("a" + it).isidentifier()


def end_of_comment(text, start):
    """Where a nested comment that opens at `start` has been closed."""
    depth, at = 0, start
    while depth or at == start:
        if text.startswith("(*", at):
            depth, at = depth + 1, at + 2
        elif text.startswith("*)", at):
            depth, at = depth - 1, at + 2
        elif at < len(text):
            at += 1
        else:
            raise Fault(start)
    return at


def text_parts(text, start):
    """A text's parts: its escapes, and all else between them."""
    found = re.compile(r'"(?:[^"\\\n]|\\[^\n])*"').match(text, start)
    if not found:
        raise Fault(start)
    at = start
    for escape in re.finditer(r"\\.|[\x00-\x1f\x7f-\x9f]", found[0]):
        yield Token(at, start + escape.start(), "text", text[at : start + escape.start()])
        if escape[0] not in (r"\n", r"\t", r"\"", r"\\"):
            raise Fault(start + escape.start())
        at = start + escape.end()
        yield Token(start + escape.start(), at, "escape", escape[0])
    yield Token(at, found.end(), "text", text[at : found.end()])


def kind_of_word(word):
    """What a name's spelling is: a reserved word, an operator, an operator word, or a name."""
    if word in WORDS:
        return "word"
    if word in OPERATORS:
        return "operator"
    if re.fullmatch(r"[A-Z][A-Z_]*[A-Z]", word) and len(set(word) - {"_"}) > 1:
        return "own operator"
    return "name"


def end_of_run(text, start, belongs):
    """Where the characters from `start` on end that all belong."""
    while start < len(text) and belongs(text[start]):
        start += 1
    return start


def parts_at(text, at):
    """The parts of the comment or token that begins at a character."""
    if text.startswith("(*)", at):
        stop = end_of_run(text, at, lambda it: it != "\n")
        yield Token(at, stop, "line comment", text[at:stop])
    elif text.startswith("(*", at):
        stop = end_of_comment(text, at)
        yield Token(at, stop, "comment", text[at:stop])
    elif text[at] == '"':
        yield from text_parts(text, at)
    elif text[at] in "0123456789":
        stop = end_of_run(text, at, "0123456789".__contains__)
        if int(text[at:stop]) > 9223372036854775807:
            raise Fault(at)
        yield Token(at, stop, "number", text[at:stop])
        if stop < len(text) and continues_name(text[stop]):
            raise Fault(stop)
    elif starts_name(text[at]):
        stop = end_of_run(text, at, continues_name)
        yield Token(at, stop, kind_of_word(text[at:stop]), text[at:stop])
    else:
        sign = next((it for it in SIGNS if text.startswith(it, at)), None)
        if sign is None:
            raise Fault(at)
        kind = "word" if sign in "∑∏" else "operator" if sign in OPERATORS else "symbol"
        yield Token(at, at + len(sign), kind, sign)


def read(text):
    """The tokens and comments of a text in their order, and the place of its fault, or None."""
    found, at, gap = [], 0, ""
    try:
        while at < len(text):
            if text[at] in " \t\f\r\n" or text[at] == "\ufeff" and at == 0:
                gap, at = gap + text[at], at + 1
                continue
            for part in parts_at(text, at):
                part.gap, at = gap, part.stop
                found.append(part)
                gap = gap + part.text if part.kind.endswith("comment") else ""
    except Fault as fault:
        return found, fault.args[0]
    return found, None


def canonical(text):
    """The canonical text of a source without a fault."""
    shown, unicode_of = "", {first: second for second, first in PAIRS.items()}
    for token in read(text)[0]:
        if token.kind.endswith("comment"):
            continue
        if shown:
            shown += "\n" if "\n" in token.gap else " " if token.gap else ""
        if token.kind == "number":
            shown += str(int(token.text))
        elif token.kind in ("operator", "symbol", "word"):
            shown += unicode_of.get(token.text, token.text)
        else:
            shown += token.text
    return shown + "\n"
