"""What a TextMate grammar makes of a source, as VS Code reads one: line by line, with a stack of
open rules; of the patterns the one that matches first, and of these the first one listed.
What this grammar hasn't isn't here: `while`, `contentName`, references to `begin` in `end`."""
import json
import pathlib

RULE_KEYS = {"name", "match", "begin", "end", "captures", "patterns", "include"}


class Grammar:
    """A grammar of one file."""

    def __init__(self, path, engine):
        """Reads and checks the file."""
        self.data, self.engine = json.loads(pathlib.Path(path).read_text()), engine
        self.check(self.data["patterns"])
        for rule in self.data["repository"].values():
            self.check([rule])

    def check(self, patterns):
        """Refuses what isn't read here."""
        for rule in patterns:
            if not rule.keys() <= RULE_KEYS or ("begin" in rule) != ("end" in rule):
                raise ValueError(f"not read here: {rule}")
            for key in {"match", "begin", "end"} & rule.keys():
                self.engine.compile(rule[key])
            self.check(rule.get("patterns", []))

    def flat(self, patterns):
        """The patterns with each `include` replaced by what it names."""
        for rule in patterns:
            if "include" in rule:
                yield from self.flat([self.data["repository"][rule["include"][1:]]])
            elif "match" in rule or "begin" in rule:
                yield rule
            else:
                yield from self.flat(rule["patterns"])

    def first(self, stack, line, at):
        """The next match: its spans and its rule, which is None where the open rule ends."""
        best = None
        asked = [(None, stack[-1]["end"])] if stack else []
        patterns = stack[-1].get("patterns", []) if stack else self.data["patterns"]
        asked += [(rule, rule.get("match") or rule["begin"]) for rule in self.flat(patterns)]
        for rule, pattern in asked:
            spans = self.engine.search(pattern, line, at)
            if spans and (best is None or spans[0][0] < best[0][0][0]):
                best = spans, rule
        return best

    def paint(self, scopes, offset, spans, rule):
        """Gives the characters of a match the names of its rule and of its captures."""
        def put(span, name):
            """Adds a name over a span."""
            for at in range(*span) if span and name else ():
                scopes[offset + at] = scopes[offset + at] + (name,)
        put(spans[0], rule.get("name"))
        for number, capture in rule.get("captures", {}).items():
            put(spans[int(number)], capture["name"])

    def line(self, stack, line, offset, scopes):
        """Reads a line, with its line feed, and changes the stack."""
        at = 0
        while at <= len(line):
            found = self.first(stack, line, at)
            until = found[0][0][0] if found else len(line)
            for rule in stack:
                self.paint(scopes, offset, [(at, until)], {"name": rule.get("name")})
            if not found:
                return
            spans, rule = found
            around = [*stack, *([rule] if rule and "begin" in rule else [])]
            for it in around:
                self.paint(scopes, offset, [spans[0]], {"name": it.get("name")})
            if rule is None:
                stack.pop()
            elif "begin" in rule:
                stack.append(rule)
            else:
                self.paint(scopes, offset, spans, rule)
            if spans[0][1] == at and rule is not None and "match" in rule:
                raise ValueError(f"an empty match of {rule}")
            at = spans[0][1]
            if at >= len(line):
                return

    def scopes(self, text):
        """The names over each character of a text, from the outermost to the innermost."""
        scopes, stack, offset = [()] * (len(text) + 1), [], 0
        for line in text.split("\n"):
            self.line(stack, line + "\n", offset, scopes)
            offset += len(line) + 1
        return scopes[: len(text)]
