"""The text of a component of the subset, read into a tree, and the prelude of docs/LANGUAGE.md.

A tree is a tuple whose first part names its form. The subset is that of the head of tests/threads;
what is outside of it is refused here by `Unread`.
"""
import functools
import pathlib
import re

TOP = pathlib.Path(__file__).resolve().parent.parent.parent
TOKEN = re.compile(r"""(?P<gap>\s*)(?:(?P<name>[A-Za-z_][\w']*)|(?P<number>\d+)|(?P<text>"[^"\\]*")
    |(?P<sign>=/=|===|:=|\+=|-=|->|=>|<-|<=|>=|[-+=<>()\[\]{}.,;:\#]))""", re.X)
WORDS = set("""component export end trait object extends comprises self var do also if then elif
    else while for seq typecase of try catch finally throw fn atomic tryatomic spawn true
    false""".split())
LEVELS = [{"OR"}, {"AND"}, {"=", "=/=", "<", "<=", ">", ">=", "==="}, {"#", ":"}, {"+", "-"},
          {"TIMES", "DIV", "MOD", "REM", "MAX", "MIN"}]
LEVEL = {name: level for level, names in enumerate(LEVELS) for name in names}
OPERATORS = set().union(*LEVELS) | {"NOT"}
UNIT = ("unit",)


class Unread(Exception):
    """The text isn't one of the subset."""


class Tokens:
    """The tokens of a text, and how far they are read."""

    def __init__(self, text):
        self.kinds, self.words, self.lines, self.gaps, self.at = [], [], [], [], 0
        self.signs = []
        place, text = 0, text.rstrip()
        while place < len(text):
            found = TOKEN.match(text, place)
            if not found:
                raise Unread(text[place:place + 20])
            kind, word = found.lastgroup, found[found.lastgroup]
            if kind == "name" and (word in WORDS or word in OPERATORS):
                kind = "sign"
            self.kinds.append(kind)
            self.words.append(word)
            self.signs.append(word if kind == "sign" else None)
            self.lines.append("\n" in found["gap"])
            self.gaps.append(bool(found["gap"]))
            place = found.end()
        self.kinds.append("end")
        self.words.append("")
        self.signs.append(None)
        self.lines.append(True)
        self.gaps.append(True)

    @property
    def word(self):
        """The next token, where it is a sign or a reserved word."""
        return self.signs[self.at]

    def takes(self, word):
        """Whether the next token is this sign; then it is read."""
        if self.signs[self.at] == word:
            self.at += 1
            return True
        return False

    def wants(self, word):
        if not self.takes(word):
            raise Unread(f"{word} before {self.words[self.at:self.at + 8]}")

    def name(self):
        if self.kinds[self.at] != "name":
            raise Unread(f"a name before {self.words[self.at:self.at + 8]}")
        self.at += 1
        return self.words[self.at - 1]

    def starts_line(self):
        return self.lines[self.at]

    # Expressions

    def expression(self):
        """An expression, with its head or as an assignment."""
        word = self.word
        if word in ("atomic", "tryatomic"):
            self.at += 1
            return ("atomic", word == "tryatomic", self.expression())
        if word in ("throw", "spawn"):
            self.at += 1
            return (word, self.expression())
        if word == "fn":
            self.at += 1
            self.wants("(")
            self.wants(")")
            self.wants("=>")
            return ("fn", self.expression())
        left = self.flat()
        for sign in (":=", "+=", "-="):
            if self.takes(sign):
                return ("assign", sign, left, self.expression())
        return left

    def flat(self, least=0):
        """A flat expression, grouped by its operators, of those from a level on."""
        left = self.juxtaposed()
        while True:
            name = self.word
            level = LEVEL.get(name)
            if level is None or level < least or self.starts_line():
                return left
            self.at += 1
            left = ("op", name, [left, self.flat(level + 1)])
            if level == 2 and LEVEL.get(self.word) == 2:
                raise Unread("a chain of two relations")

    def juxtaposed(self):
        left = self.unit()
        while self.begins_atom() and self.gaps[self.at] and not self.starts_line():
            left = ("op", "juxtaposition", [left, self.unit()])
        return left

    def begins_atom(self):
        kind = self.kinds[self.at]
        return kind in ("name", "number", "text") or self.word in ("(", "true", "false")

    def unit(self):
        if self.takes("NOT"):
            return ("op", "NOT", [self.run()])
        return self.run()

    def run(self):
        """An atom and what stands right behind it."""
        it = self.atom()
        while not self.gaps[self.at]:
            if self.takes("."):
                name = self.name()
                it = ("method", it, name, self.list()) if self.opens() else ("field", it, name)
            elif self.opens():
                arguments = self.list()
                if it[0] == "name":
                    it = ("call", it[1], arguments)
                elif arguments:
                    raise Unread("an application with arguments")
                else:
                    it = ("apply", it, UNIT)
            else:
                break
        return it

    def opens(self):
        return self.word == "(" and not self.gaps[self.at]

    def list(self):
        """Expressions in parentheses."""
        self.wants("(")
        found = []
        while not self.takes(")"):
            if found:
                self.wants(",")
            found.append(self.expression())
        return found

    def atom(self):
        kind, word = self.kinds[self.at], self.words[self.at]
        self.at += 1
        if kind == "name":
            return ("name", word)
        if kind == "number":
            return ("value", int(word))
        if kind == "text":
            return ("value", word[1:-1])
        if word in ("true", "false"):
            return ("value", word == "true")
        if word == "self":
            return ("name", "self")
        if word == "(":
            if self.takes(")"):
                return UNIT
            it = self.expression()
            self.wants(")")
            return it
        form = getattr(self, f"form_{word}", None) if kind == "sign" else None
        if form is None:
            raise Unread(f"an atom before {self.words[self.at - 1:self.at + 8]}")
        return form()

    def form_do(self):
        blocks = [self.block()]
        while self.takes("also"):
            self.wants("do")
            blocks.append(self.block())
        self.wants("end")
        return blocks[0] if len(blocks) == 1 else ("also", blocks)

    def form_if(self):
        test = self.flat()
        self.wants("then")
        first = self.block()
        if self.takes("elif"):
            return ("if", test, first, self.form_if())
        second = self.block() if self.takes("else") else UNIT
        self.wants("end")
        return ("if", test, first, second)

    def form_while(self):
        test = self.flat()
        self.wants("do")
        body = self.block()
        self.wants("end")
        return ("while", test, body)

    def form_for(self):
        name = self.name()
        self.wants("<-")
        in_order = self.takes("seq")
        source = self.flat()
        self.wants("do")
        body = self.block()
        self.wants("end")
        return ("for", name, in_order, source, body)

    def form_typecase(self):
        name = self.name()
        self.wants("=")
        subject = self.flat()
        self.wants("of")
        clauses, other = self.clauses(), None
        if self.takes("else"):
            self.wants("=>")
            other = self.expression()
            self.takes(";")
        self.wants("end")
        return ("typecase", name, subject, clauses, other)

    def form_try(self):
        body, name, clauses, last = self.block(), None, [], None
        if self.takes("catch"):
            name = self.name()
            clauses = self.clauses()
        if self.takes("finally"):
            last = self.block()
        self.wants("end")
        return ("try", body, name, clauses, last)

    def clauses(self):
        found = []
        while self.word not in ("else", "end", "finally"):
            kind = self.type()
            self.wants("=>")
            found.append((kind, self.expression()))
            while self.takes(";"):
                pass
        return found

    def type(self):
        if self.takes("("):
            self.wants(")")
            it = "()"
        else:
            it = self.name()
        if self.takes("->"):
            self.type()
            return "->"
        return it

    def block(self):
        items = []
        while self.word not in ("end", "also", "elif", "else", "catch", "finally"):
            items.append(self.item())
            self.takes(";")
        return ("block", items)

    def item(self):
        if self.takes("var"):
            name = self.name()
            self.wants(":")
            kind = self.type()
            self.wants(":=")
            return ("var", name, kind, self.expression())
        if self.kinds[self.at] == "name" and self.words[self.at + 1] == ":":
            name = self.name()
            self.wants(":")
            kind = self.type()
            self.wants("=")
            return ("let", name, kind, self.expression())
        return self.expression()

    # Declarations

    def declarations(self):
        """The declarations up to an `end` or the end of the text."""
        found = []
        while self.kinds[self.at] != "end" and self.word != "end":
            found.append(self.declaration())
            self.takes(";")
        return found

    def declaration(self):
        if self.takes("var"):
            name = self.name()
            self.wants(":")
            self.type()
            self.wants(":=")
            return ("variable", name, self.flat())
        if self.takes("trait"):
            name = self.name()
            if self.takes("comprises"):
                self.wants("{")
                self.name()
                self.wants("}")
            while not self.takes("end"):
                self.name()
                self.parameters()
                self.wants(":")
                self.type()
            return ("trait", name)
        if self.takes("object"):
            return self.object()
        return self.function(self.name())

    def object(self):
        name, parameters, above = self.name(), None, None
        if self.opens():
            parameters = self.parameters()
        if self.takes("extends"):
            above = self.name()
        fields, methods = [], []
        while not self.takes("end"):
            if self.takes("var"):
                field = self.name()
                self.wants(":")
                self.type()
                self.wants(":=")
                fields.append((field, self.flat()))
            else:
                methods.append(self.function(self.name()))
        return ("object", name, parameters, above, fields, methods)

    def function(self, name):
        parameters = self.parameters()
        self.wants(":")
        self.type()
        self.wants("=")
        return ("function", name, parameters, self.expression())

    def parameters(self):
        """The names of parameters."""
        self.wants("(")
        found = []
        while not self.takes(")"):
            if found:
                self.wants(",")
            found.append(self.name())
            self.wants(":")
            self.type()
        return found


def component(text):
    """The declarations of a component."""
    tokens = Tokens(text)
    tokens.wants("component")
    tokens.name()
    tokens.wants("export")
    tokens.name()
    found = tokens.declarations()
    tokens.wants("end")
    return found


@functools.cache
def prelude():
    """The declarations of the prelude, as docs/LANGUAGE.md prints it."""
    page = (TOP / "docs/LANGUAGE.md").read_text()
    chapter = page[page.index("### What it means\n"):]
    return Tokens(chapter.split("```")[1]).declarations()
