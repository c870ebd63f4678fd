"""How the two editors show each kind of token: a label for each character of a source, and for
each label the scope of VS Code and the group of Vim."""
import re

from editing import lexical

WORDS = {
    "declaration": "component api import export trait object extends excludes comprises opr var fn"
                   " array",
    "control": "do also if then elif else while for seq case typecase of try catch finally throw"
               " spawn end",
    "atomic": "atomic tryatomic",
    "reduction": "BIG SUM PROD",
    "constant": "true false",
    "self": "self",
}
LABEL_OF = {word: label for label, words in WORDS.items() for word in words.split()}
LABEL_OF.update({sign: "reduction" for sign in "∑∏"})

SHOWN = {
    "comment": ("comment.block", "fssComment"),
    "line comment": ("comment.line", "fssLineComment"),
    "text": ("string.quoted.double", "fssText"),
    "escape": ("constant.character.escape", "fssEscape"),
    "number": ("constant.numeric.integer", "fssNumber"),
    "declaration": ("keyword.declaration", "fssDeclaration"),
    "control": ("keyword.control", "fssControl"),
    "atomic": ("keyword.control.atomic", "fssAtomic"),
    "reduction": ("keyword.operator.reduction", "fssReduction"),
    "constant": ("constant.language", "fssConstant"),
    "self": ("variable.language.self", "fssSelf"),
    "operator": ("keyword.operator.word", "fssOperator"),
    "own operator": ("keyword.operator.own", "fssOwnOperator"),
    "sign": ("keyword.operator", "fssSign"),
    "assign": ("keyword.operator.assignment", "fssAssign"),
    "arrow": ("keyword.operator.arrow", "fssArrow"),
    "bracket": ("punctuation.section.brackets", "fssPunctuation"),
    "separator": ("punctuation.separator", "fssPunctuation"),
    "type name": ("entity.name.type", "fssTypeName"),
    "type": ("support.type", "fssType"),
    "exception": ("support.class.exception", "fssException"),
    "function": ("support.function", "fssBuiltIn"),
    "called": ("entity.name.function", "fssCalled"),
    "name": ("variable.other", "fssName"),
    None: (None, ""),
}
FAULTS = {"invalid.illegal.character", "invalid.illegal.escape",
          "fssFault", "fssHidden", "fssJoined", "fssTextFault"}


def label_of_symbol(text):
    """The label of a symbol that is no operator."""
    if text in (":=", "+=", "-="):
        return "assign"
    if text in ("<-", "->", "=>", "←", "→", "⇒"):
        return "arrow"
    return "separator" if text in (",", ";", ".") else "bracket"


def label_of_name(before, token, behind):
    """The label of a name, which depends on the tokens beside it."""
    if before and before.text in ("component", "api", "trait", "object") and \
            re.fullmatch(r"[ \t]+", token.gap):
        return "type name"
    if token.text in lexical.BUILT_IN:
        return lexical.BUILT_IN[token.text]
    return "called" if behind and behind.text == "(" and not behind.gap else "name"


def labels(text):
    """The label of each character up to the first fault, and the fault's place, or None."""
    parts, fault = lexical.read(text)
    found = [None] * (len(text) if fault is None else fault)
    tokens = [it for it in parts if not it.kind.endswith("comment")]
    places = {id(token): at for at, token in enumerate(tokens)}
    for part in parts:
        label = part.kind
        if part.kind == "word":
            label = LABEL_OF[part.text]
        elif part.kind == "operator" and not (part.text.isascii() and part.text.isalpha()):
            label = "sign"
        elif part.kind == "symbol":
            label = label_of_symbol(part.text)
        elif part.kind == "name":
            at = places[id(part)]
            label = label_of_name(tokens[at - 1] if at else None, part,
                                  tokens[at + 1] if at + 1 < len(tokens) else None)
        found[part.start : part.stop] = [label] * (part.stop - part.start)
    return found, fault


def without_line_feeds(text, names):
    """Names of characters, with nothing for line feeds, which editors show in no way."""
    return ["" if it == "\n" else name for it, name in zip(text, names)]
