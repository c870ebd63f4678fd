"""Random components of the subset. All that they are made of is accepted by the rules, and most of
them end: threads wait for those that were spawned before them, loops have bounds, and what a form
sleeps for comes in most."""
import random

FUELS = [4000] * 16 + [8000] * 3 + [None]


class Scope:
    """The names that are visible: numbers, those that can be assigned to, threads, those that have
    ended, variables of threads; and where it is: how deep, in how many attempts, and whether an
    exception is caught."""

    def __init__(self, numbers=(), mutables=(), threads=(), over=(), kept=(), depth=0, inside=0,
                 safe=False):
        self.numbers, self.mutables, self.threads = list(numbers), list(mutables), list(threads)
        self.over, self.kept, self.depth = list(over), list(kept), depth
        self.inside, self.safe = inside, safe

    def inner(self, inside=None, safe=None, threads=None):
        threads, over = self.threads if threads is None else threads, self.over
        return Scope(self.numbers, self.mutables, threads, [it for it in over if it in threads],
                     self.kept, self.depth + 1, self.inside if inside is None else inside,
                     self.safe if safe is None else safe)


def indented(lines):
    return ["  " + line for line in lines]


class Maker:
    def __init__(self, seed):
        self.rng = random.Random(seed)
        self.names, self.budget = 0, self.rng.choice([6, 10, 15, 20, 28, 40])
        self.spawns = self.rng.random() < 0.95
        self.risky = self.rng.random() < 0.08
        self.functions = {kind: [] for kind in ("number", "unit", "asks", "makes", "pair", "holds")}
        kinds = self.statements()
        for name in kinds:
            if name not in ("say", "use") and self.rng.random() < 0.3:
                kinds[name] *= self.rng.choice([0, 0.3, 3])
        if not self.spawns:
            for name in ("spawn", "use", "gated", "undone", "given_up", "crowd", "again", "chain"):
                kinds[name] = 0
        self.kinds, self.weights = list(kinds), list(kinds.values())

    def statements(self):
        return {"say": 14, "assign": 9, "local": 5, "changing": 4, "choose": 5, "loop": 2.5,
                "count": 2, "also": 5, "attempt": 8, "guard": 6, "fail": 1.2, "call": 7,
                "spawn": 16, "use": 18, "gated": 3, "undone": 3, "given_up": 3, "crowd": 0.4,
                "again": 0.5, "keep": 1, "chain": 1, "outside": 0.4, "gate": 2}

    def chance(self, part):
        return self.rng.random() < part

    def pick(self, *things):
        return self.rng.choice(things)

    def name(self, letter):
        self.names += 1
        return f"{letter}{self.names}"

    # Expressions

    def number(self, scope, depth=2):
        roll = self.rng.random()
        if depth == 0 or roll < 0.3:
            return str(self.rng.randrange(6))
        if roll < 0.6:
            return self.rng.choice(scope.numbers + ["g", "h", "gate"])
        if roll < 0.9:
            sign = self.rng.choice(["+", "+", "-", "TIMES", "DIV", "MOD", "MAX", "MIN", "REM"])
            if sign in ("DIV", "MOD", "REM") and self.chance(0.8):
                return f"({self.number(scope, depth - 1)} {sign} {self.rng.randrange(1, 4)})"
            return f"({self.number(scope, depth - 1)} {sign} {self.number(scope, depth - 1)})"
        if roll < 0.95 and self.functions["number"]:
            return f"{self.rng.choice(self.functions['number'])}({self.number(scope, depth - 1)})"
        if roll < 0.98 and self.functions["pair"]:
            both = self.number(scope, depth - 1), self.number(scope, depth - 1)
            return f"{self.rng.choice(self.functions['pair'])}({both[0]}, {both[1]})"
        first, second = self.number(scope, 0), self.number(scope, 0)
        return f"(if {self.truth(scope, 1)} then {first} else {second} end)"

    def truth(self, scope, depth=2):
        roll = self.rng.random()
        if roll < 0.1 or depth == 0:
            return self.pick("go", "NOT go", "true")
        if roll < 0.3 and scope.threads:
            it = f"{self.thread(scope)}.ready()"
            return f"NOT {it}" if self.chance(0.3) else it
        if roll < 0.36 and scope.threads:
            return f"{self.thread(scope)} === {self.thread(scope)}"
        if roll < 0.46:
            sign = self.pick("AND", "OR")
            return f"({self.truth(scope, depth - 1)}) {sign} ({self.truth(scope, 0)})"
        sign = self.pick("=", "=/=", "<", "<=", ">", ">=")
        return f"{self.number(scope, 1)} {sign} {self.number(scope, 1)}"

    def thread(self, scope):
        kept = scope.kept if not scope.inside or self.risky else []
        return self.rng.choice(scope.threads + kept or scope.kept)

    def word(self):
        return f'"{self.pick("a", "b", "c", "x", "y", "on", "off")}{self.rng.randrange(9)}"'

    def printed(self, scope):
        roll = self.rng.random()
        if roll < 0.35:
            return self.word()
        if roll < 0.75:
            return f"{self.word()} {self.number(scope, 2)}"
        if roll < 0.85:
            return self.number(scope)
        if roll < 0.92 and scope.threads:
            return self.thread(scope)
        return self.truth(scope, 1)

    # Blocks

    def block(self, scope, most=3, last=None):
        """The lines of a block; `last` gives its last item, in the scope of all others."""
        lines, before = [], len(scope.threads)
        for _ in range(self.rng.randrange(1, most + 1)):
            if self.budget <= 0:
                break
            self.budget -= 1
            lines += self.statement(scope)
        for it in scope.threads[before:]:
            if not scope.inside and it not in scope.over and self.chance(0.4):
                lines += self.asking(scope, it)
        if last is not None:
            lines += last(scope)
        return lines or ["()"]

    def statement(self, scope):
        if (scope.threads or scope.kept and not scope.inside) and self.spawns and self.chance(0.25):
            lines = self.use(scope)
            if lines:
                return lines
        while True:
            kind = self.rng.choices(self.kinds, self.weights)[0]
            lines = getattr(self, kind)(scope)
            if lines:
                return lines

    def say(self, scope):
        return [f"{self.pick('println', 'println', 'println', 'print')}({self.printed(scope)})"]

    def target(self, scope):
        return self.rng.choice(scope.mutables + ["g", "h"])

    def assign(self, scope):
        target = self.target(scope)
        if self.chance(0.1):
            return [self.pick("go := true", "go := NOT go")]
        if self.chance(0.5):
            return [f"{target} {self.pick('+=', '+=', '-=')} {self.number(scope, 1)}"]
        return [f"{target} := {self.number(scope)}"]

    def local(self, scope):
        name = self.name("n")
        if self.chance(0.15):
            inner = scope.inner(scope.inside + 1)
            body = self.block(inner, 2, lambda it: [self.number(it)])
            lines = [f"{name}: ZZ32 = atomic do", *indented(body), "end"]
        elif self.chance(0.15):
            inner, other = scope.inner(), scope.inner()
            first = self.block(inner, 1, lambda it: [self.number(it)])
            second = self.block(other, 1, lambda it: [self.number(it)])
            lines = [f"{name}: ZZ32 = if {self.truth(scope)} then", *indented(first), "else",
                     *indented(second), "end"]
        else:
            lines = [f"{name}: ZZ32 = {self.number(scope)}"]
        scope.numbers.append(name)
        return lines

    def changing(self, scope):
        name = self.name("v")
        lines = [f"var {name}: ZZ32 := {self.number(scope, 1)}"]
        scope.numbers.append(name)
        scope.mutables.append(name)
        return lines

    def choose(self, scope):
        if scope.depth > 4:
            return None
        lines = [f"if {self.truth(scope)} then", *indented(self.block(scope.inner(), 2))]
        if self.chance(0.2):
            lines += [f"elif {self.truth(scope)} then", *indented(self.block(scope.inner(), 2))]
        if self.chance(0.5):
            lines += ["else", *indented(self.block(scope.inner(), 2))]
        return [*lines, "end"]

    def loop(self, scope):
        if scope.depth > 3:
            return None
        name, inner = self.name("w"), scope.inner()
        inner.numbers.append(name)
        return [f"var {name}: ZZ32 := 0", f"while {name} < {self.rng.randrange(1, 4)} do",
                *indented(self.block(inner, 2)), f"  {name} += 1", "end"]

    def count(self, scope):
        if scope.depth > 3:
            return None
        name, inner = self.name("i"), scope.inner()
        inner.numbers.append(name)
        span = self.pick(f"0#{self.rng.randrange(5)}", f"1:{self.rng.randrange(4)}")
        source = f"seq({span})" if self.chance(0.5) else span
        return [f"for {name} <- {source} do", *indented(self.block(inner, 2)), "end"]

    def also(self, scope):
        if scope.depth > 3:
            return None
        lines = []
        for number in range(self.pick(2, 2, 3)):
            inner = scope.inner()
            if scope.safe and self.chance(0.08):
                body = [f"throw {self.exception(scope)}"]
            else:
                body = self.block(inner, 3)
            lines += ["also do" if number else "do", *indented(body)]
        return [*lines, "end"]

    # Exceptions

    def exception(self, scope):
        roll = self.rng.random()
        if roll < 0.45:
            return "E"
        if roll < 0.8 or not scope.threads:
            return f"F({self.number(scope, 1)})"
        return f"Keep({self.thread(scope)})"

    def fail(self, scope):
        if not scope.safe and not self.chance(0.15):
            return None
        thrown = f"throw {self.exception(scope)}"
        if self.chance(0.6):
            return [f"if {self.truth(scope)} then {thrown} end"]
        return ["do", f"  {thrown}", "end"]

    def outside(self, scope):
        if scope.inside:
            return None
        return ["try abort() catch e0 AbortOutside => println(\"outside\") end"]

    def caught(self, body, scope, *clauses):
        """A `try` of lines."""
        name = self.name("e")
        found = list(clauses)
        if self.chance(0.4):
            found.append("E => " + self.say(scope)[0])
        if self.chance(0.4):
            found.append(f"F => println(\"F \" {name}.n)")
        if self.chance(0.3) and self.spawns:
            asked = self.pick(f"{name}.t.ready()", f"{name}.t")
            found.append(f"Keep => println({asked})")
        if self.chance(0.2):
            found.append(f"DivisionByZero => {self.say(scope)[0]}")
        if self.chance(0.85) or not found:
            found.append(f"Exception => println(\"caught \" {name})")
        lines = ["try", *indented(body), f"catch {name}", *indented(found)]
        if self.chance(0.1):
            lines += ["finally", *indented(self.say(scope))]
        return [*lines, "end"]

    def guard(self, scope):
        if scope.depth > 4:
            return None
        body = self.block(scope.inner(safe=True), 3)
        if self.chance(0.3):
            body += [f"throw {self.exception(scope)}"]
        return self.caught(body, scope)

    # Attempts

    def attempt(self, scope):
        if scope.depth > 4 or scope.inside > 2:
            return None
        inner = scope.inner(scope.inside + 1, threads=self.ended(scope))
        if self.chance(0.2):
            return ["atomic " + self.assign(scope)[0]]
        body = self.block(inner, 4)
        if scope.safe and self.chance(0.25):
            body += [f"throw {self.exception(inner)}"]
        return ["atomic do", *indented(body), "end"]

    def ended(self, scope):
        """The threads that an attempt may ask: those that have ended, but where it is risked."""
        return scope.threads if self.risky or self.chance(0.05) else scope.over

    def gate(self, scope):
        return ["atomic gate += 1"]

    def gated(self, scope):
        """An attempt that is aborted until a thread has passed the gate."""
        if scope.inside > 1 or scope.depth > 3:
            return None
        if scope.inside and not self.risky and self.chance(0.9):
            return None
        name, inner = self.name("t"), scope.inner(scope.inside + 1, threads=self.ended(scope))
        lines = []
        if self.chance(0.95) and not scope.inside:
            feeds = self.block(scope.inner(0, False, []), 2)
            lines += [f"{name}: Thread = spawn do", *indented([*feeds, "atomic gate += 1"]), "end"]
        first = self.block(inner, 2) if self.chance(0.7) else []
        lines += ["atomic do", *indented(first), "  if gate < 1 then abort() end"]
        if self.chance(0.5):
            lines += indented(self.block(inner, 2))
        if lines[0].startswith(name):
            scope.threads.append(name)
        return [*lines, "end"]

    def undone(self, scope):
        """Threads that are spawned in an attempt that fails."""
        if scope.depth > 3:
            return None
        inner = scope.inner(scope.inside + 1, True, self.ended(scope))
        body = ["atomic do"]
        lines = self.spawn(inner) + (self.block(inner, 2) if self.chance(0.5) else [])
        lines += [f"throw {self.exception(inner)}"] if self.chance(0.7) else \
            [f"if {self.truth(inner)} then throw {self.exception(inner)} end"]
        return self.caught([*body, *indented(lines), "end"], scope)

    def given_up(self, scope):
        """Threads that are spawned in an attempt that is aborted and not tried again."""
        if scope.depth > 3:
            return None
        inner = scope.inner(scope.inside + 1, threads=self.ended(scope))
        lines = self.spawn(inner) if self.chance(0.7) else []
        lines += self.block(inner, 2)
        lines += ["abort()"] if self.chance(0.5) else [f"if {self.truth(inner)} then abort() end"]
        return self.caught(["tryatomic do", *indented(lines), "end"], scope,
                           "TryAtomicFailure => println(\"gave up\")")

    # Functions

    def call(self, scope):
        kind = self.rng.choice(list(self.functions))
        if not self.functions[kind]:
            return None
        name = self.rng.choice(self.functions[kind])
        if kind == "number":
            it = self.name("n")
            lines = [f"{it}: ZZ32 = {name}({self.number(scope)})"]
            scope.numbers.append(it)
        elif kind == "unit":
            lines = [f"{name}({self.number(scope)})"]
        elif kind == "makes":
            it = self.name("t")
            lines = [f"{it}: Thread = {name}({self.number(scope)})"]
            scope.threads.append(it)
        elif kind == "pair":
            it = self.name("n")
            lines = [f"{it}: ZZ32 = {name}({self.number(scope)}, {self.number(scope)})"]
            scope.numbers.append(it)
        elif kind == "holds":
            if scope.threads and self.chance(0.4):
                held = self.thread(scope)
            else:
                does = self.pick("E", "(throw E)", self.number(scope), "println(\"held\")")
                held = f"spawn {does}"
            lines = [f"{name}({held}, {self.number(scope)})"]
        elif scope.threads:
            it = self.thread(scope)
            if not self.may_wait(scope, it):
                return None
            lines = [f"{name}({it})"]
        else:
            return None
        return lines

    def function(self):
        kinds = list(self.functions) if self.spawns else ["number", "unit", "pair"]
        kind = self.rng.choice(kinds)
        name, it, other = self.name("f"), self.name("p"), self.name("p")
        if kind == "holds":
            scope = Scope(numbers=[other], threads=[it])
            result, parameter = "()", f"Thread, {other}: ZZ32"
            body = self.block(scope, 3)
        elif kind == "pair":
            scope, result, parameter = Scope(numbers=[it, other]), "ZZ32", f"ZZ32, {other}: ZZ32"
            body = self.block(scope, 2, lambda inner: [self.number(inner)])
        elif kind == "asks":
            scope = Scope(threads=[it])
            result, body = "()", self.block(scope, 2, self.use)
            parameter = "Thread"
        else:
            scope, parameter = Scope(numbers=[it]), "ZZ32"
            if kind == "number":
                result, body = "ZZ32", self.block(scope, 2, lambda inner: [self.number(inner)])
            elif kind == "unit":
                result, body = "()", self.block(scope, 3)
            else:
                value = ["spawn do", *indented(self.block(scope.inner(0, False, []), 2)), "end"]
                result = "Thread"
                body = value if self.chance(0.5) else [*self.block(scope, 1), *value]
        self.functions[kind].append(name)
        if len(body) == 1 and result == "ZZ32":
            return [f"{name}({it}: {parameter}): {result} = {body[0]}"]
        return [f"{name}({it}: {parameter}): {result} = do", *indented(body), "end"]

    def chain(self, scope):
        """A function that spawns itself, or a tree of threads."""
        if not self.chains or scope.inside:
            return None
        return [f"{self.rng.choice(self.chains)}({self.rng.randrange(1, 4)})"]

    def chain_function(self):
        name, it, first, second = self.name("c"), self.name("p"), self.name("t"), self.name("t")
        self.chains.append(name)
        lines = [f"{name}({it}: ZZ32): () = if {it} > 0 then",
                 f"  {first}: Thread = spawn {name}({it} - 1)"]
        if self.chance(0.5):
            lines.append(f"  {second}: Thread = spawn {name}({it} - 1)")
        if self.chance(0.5):
            lines.append(f"  println(\"chain \" {it})")
        if self.chance(0.7):
            lines.append(f"  {first}.wait()")
        return [*lines, "end"]

    # Threads

    def spawned(self, scope):
        """What stands behind `spawn`, as lines."""
        roll, inner = self.rng.random(), scope.inner(0, False)
        if roll < 0.1:
            return [self.assign(scope)[0]]
        if roll < 0.18:
            return [self.say(scope)[0]]
        if roll < 0.28:
            return [self.pick("E", "6", "true", self.word(), "()", self.number(scope), "(throw E)",
                              f"(throw F({self.number(scope, 0)}))", "1 DIV 0", "(spawn 5)",
                              "(atomic gate += 1)")]
        if roll < 0.4:
            kind = self.pick("number", "unit", "makes")
            if self.functions[kind]:
                return [f"{self.rng.choice(self.functions[kind])}({self.number(scope)})"]
        if roll < 0.5:
            body = self.block(inner, 2, lambda it: [f"throw {self.exception(it)}"])
        elif roll < 0.65:
            body = self.block(
                inner, 2, lambda it: [self.pick(self.number(it), self.word(), "E", "go")])
        elif roll < 0.72:
            body = self.block(inner, 1, lambda it: ["spawn " + self.number(it)])
        else:
            body = self.block(inner, 3)
        return ["do", *indented(body), "end"]

    def spawn(self, scope):
        if scope.depth > 4:
            return None
        if scope.kept and self.chance(0.15):
            lines = self.spawned(scope)
            if " := " in lines[0] or "= " in lines[0] and lines[0] != "do":
                lines = [f"({lines[0]})"]
            return [f"{self.rng.choice(scope.kept)} := spawn {lines[0]}", *lines[1:]]
        lines, name = self.spawned(scope), self.name("t")
        if self.chance(0.12) and scope.inside < 2:
            inner = scope.inner(scope.inside + 1, threads=[])
            behind = ["spawn " + self.number(inner)]
            lines = ["do", *indented([*self.block(inner, 1), *behind]), "end"]
            lines = [f"{name}: Thread = atomic {lines[0]}", *lines[1:]]
        elif self.chance(0.15):
            name = self.name("u")
            lines = [f"var {name}: Thread := spawn {lines[0]}", *lines[1:]]
            scope.kept.append(name)
        else:
            lines = [f"{name}: Thread = spawn {lines[0]}", *lines[1:]]
        scope.threads.append(name)
        if self.chance(0.1):
            lines += [f"slot := {name}"]
        return lines

    def keep(self, scope):
        """A thread that a variable at the top keeps."""
        if not self.spawns:
            return None
        if scope.threads and self.chance(0.5):
            return [f"slot := {self.thread(scope)}"]
        name = self.name("x")
        does = self.pick(f"println({name}.ready())", f"println({name})")
        if self.risky and self.chance(0.5):
            does = f"{name}.wait()"
        return [f"typecase {name} = slot of Thread => {does}; else => println(\"none\") end"]

    def may_wait(self, scope, it):
        return not scope.inside or it in scope.over or self.risky or self.chance(0.05)

    def use(self, scope):
        """Something with a thread."""
        if not scope.threads and not scope.kept:
            return None
        it, roll = self.thread(scope), self.rng.random()
        if roll < 0.1:
            return [f"println({it}.ready())"]
        if roll < 0.15:
            return [f"println({it} === {self.thread(scope)})"]
        if roll < 0.2:
            return [f"println({self.pick(it, self.word() + ' ' + it)})"]
        if roll < 0.25:
            return [f"if {it}.ready() then", *indented(self.say(scope)), "end"]
        if roll < 0.4 and scope.inside < 2 and self.may_wait(scope, it):
            inner, lines = scope.inner(scope.inside + 1, threads=self.ended(scope)), []
            if self.chance(0.3):
                lines += self.block(inner, 2)
            lines.append(f"if NOT {it}.ready() then abort() end")
            if self.chance(0.5):
                lines += self.block(inner, 2)
            if not scope.inside:
                self.is_over(scope, it)
            return ["atomic do", *indented(lines), "end"]
        if not self.may_wait(scope, it):
            return None
        if roll < 0.6 and scope.inside < 2:
            risks = it in scope.over or self.risky and self.chance(0.2)
            first = [] if risks else [f"{it}.wait()"]
            self.is_over(scope, it)
            inner = scope.inner(scope.inside + 1, True, threads=scope.over)
            body = self.block(inner, 3, lambda now: self.asking(now, it))
            if self.chance(0.3):
                body += self.block(inner, 2)
            if self.chance(0.2):
                body.append(f"throw {self.exception(inner)}")
            kind = self.pick("atomic", "atomic", "tryatomic")
            if kind == "tryatomic" and self.chance(0.5):
                body.append(f"if {self.truth(inner)} then abort() end")
            return [*first, *self.caught([f"{kind} do", *indented(body), "end"], scope)]
        return self.asking(scope, it)

    def is_over(self, scope, it):
        if it not in scope.over and it in scope.threads and not it.startswith("u"):
            scope.over.append(it)

    def asking(self, scope, it):
        """Waits for a thread, or asks for its value."""
        if self.chance(0.35):
            self.is_over(scope, it)
            return [f"{it}.wait()"]
        name = self.name("x")
        asks = self.pick([f"println({it}.val())"], [f"println(\"val \" {it}.val())"],
                         [f"typecase {name} = {it}.val() of", f"  ZZ32 => println({name} + 1)",
                          f"  String => println(\"text \" {name})",
                          f"  Thread => {self.pick(name + '.wait()', f'println({name}.val())')}",
                          f"  Exception => println({name})", "  else => println(\"other\")",
                          "end"])
        self.is_over(scope, it)
        if self.chance(0.85):
            return self.caught(asks, scope)
        return asks

    def crowd(self, scope):
        """Threads up to the limit, and more."""
        if scope.inside or scope.depth > 1 or self.crowded:
            return None
        self.crowded = True
        name, it = self.name("i"), self.name("t")
        number = self.pick(60, 63, 64, 65, 66)
        span = f"1:{number}"
        span = f"seq({span})" if self.chance(0.5) else span
        does = self.pick("(atomic gate += 1)", "g += 1", "()", f"println({name})", "(throw E)",
                         "do atomic if gate < 1 then abort() end end")
        lines = [f"for {name} <- {span} do {it}: Thread = spawn {does} end"]
        if self.chance(0.3):
            lines = ["atomic do", *indented(lines), "end"]
        lines = self.caught(lines, scope, "TooManyThreads => println(\"too many\")")
        return [*lines, "atomic gate += 1"]

    def again(self, scope):
        """`run` called by the source."""
        if scope.inside:
            return None
        does = self.pick(["run()"], [f"{self.name('t')}: Thread = spawn run()"])
        return ["if rounds < 1 then", "  rounds += 1", *indented(does), "end"]

    def component(self):
        """The lines of a component."""
        self.chains, self.crowded = [], False
        lines = ["component T", "export Executable", "var g: ZZ32 := 1", "var h: ZZ32 := 2",
                 "var gate: ZZ32 := 0", "var rounds: ZZ32 := 0", "var go: Boolean := false",
                 "var slot: Any := ()", "object E extends Exception end",
                 "object F(n: ZZ32) extends Exception end"]
        if self.spawns:
            lines.append("object Keep(t: Thread) extends Exception end")
            if self.chance(0.4):
                lines += self.chain_function()
        whole = self.budget
        for _ in range(self.rng.randrange(4)):
            self.budget = self.rng.randrange(2, 7)
            lines += self.function()
        self.budget = whole
        body = self.block(Scope(), 14)
        return [*lines, "run(): () = do", *indented(body), "end", "end"]


def made(seed):
    """The text of a component, and the fuel and the workers of its run."""
    for turn in range(100):
        maker = Maker(f"{seed} {turn}")
        text = "\n".join(maker.component()) + "\n"
        if not maker.spawns or " spawn " in text:
            break
    fuel = maker.rng.choice(FUELS) or maker.rng.randrange(1, 2500)
    if maker.crowded:
        fuel += 8000
    return text, fuel, maker.rng.choice([1, 2, 4])
