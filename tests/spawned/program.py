"""A component as a program of the machine (docs/TRANSLATION.md), in one of three ways: as it is
where it spawns no thread; rewritten, with the prelude; and for the machine with spawned threads,
where `spawn e` and the calls of `wait`, `val` and `ready` are forms of its own.

The types, the opening store and all locations of the last two are the same.
"""
from spawned.source import UNIT, Unread, prelude
from spawned.terms import (Abort, Also, Apply, Atomic, Call, Const, Fn, For, If, Let, Local,
                           Mutable, New, Operator, Print, Range, ReadField, ReadLocal, ReadTop,
                           Then, Throw, Try, Typecase, While, WriteField, WriteLocal, WriteTop,
                           same)

BUILT_IN = """Object Exception ZZ32 ZZ64 String Boolean Range IntegerOverflow DivisionByZero
    NegativeExponent IndexOutOfRange NegativeSize EmptyReduction MatchFailure DepthExceeded
    TryAtomicFailure AbortOutside""".split()
EXCEPTIONS = BUILT_IN[7:]
ASKED = "wait", "val", "ready"
PLAIN, REWRITTEN, THREADS = range(3)


class Declaration:
    """A declaration with a body: the body, and how many variables it binds."""

    body, slots = None, 0


class Program:
    def __init__(self, declarations, way, forms=None):
        """`forms` makes the forms of the machine with spawned threads."""
        self.way, self.forms = way, forms
        before = [] if way == PLAIN else prelude()
        names = list(BUILT_IN)
        names += [it[1] for it in [*before, *declarations] if it[0] in ("object", "trait")]
        self.names, self.kinds = names, {name: number for number, name in enumerate(names)}
        self.fields, self.constants, self.above = {}, {}, {self.kinds[it]: 1 for it in EXCEPTIONS}
        self.tops, self.store, self.singles = {}, {}, {}
        self.functions, self.methods, self.constructors = {}, {}, {}
        whole = [(it, True) for it in before] + [(it, False) for it in declarations]
        for it, _ in whole:
            if it[0] == "variable":
                self.tops[it[1]] = len(self.tops)
                self.store[self.tops[it[1]]] = self.constant(it[2])
        for name in EXCEPTIONS:
            self.single(name)
        for it, _ in whole:
            if it[0] == "object":
                self.declare(it)
        bodies = []
        for it, is_prelude in whole:
            if it[0] == "function":
                name = "run'" if way != PLAIN and not is_prelude and it[1] == "run" else it[1]
                self.functions[name] = Declaration()
                bodies.append((self.functions[name], it, [], is_prelude))
            elif it[0] == "object":
                for method in it[5]:
                    self.methods[method[1]] = Declaration()
                    bodies.append((self.methods[method[1]], method, [it], is_prelude))
        self.answers = self.operators()
        for declaration, it, around, self.is_prelude in bodies:
            if not (self.is_prelude and way == THREADS):
                self.compile(declaration, it, around)
        if way != PLAIN:
            self.tag()
        self.is_prelude = False
        self.first = Call(self.functions["run'" if way == THREADS else "run"], [])

    def constant(self, tree):
        return () if tree == UNIT else tree[1]

    def single(self, name):
        base = len(self.store)
        self.store[base] = ()
        self.singles[name] = (self.kinds[name], base)

    def declare(self, it):
        _, name, parameters, above, fields, _ = it
        kind = self.kinds[name]
        self.fields[kind] = [*(parameters or []), *(field for field, _ in fields)]
        self.constants[kind] = [self.constant(initial) for _, initial in fields]
        self.above[kind] = self.kinds[above] if above else 0
        if parameters is None:
            self.single(name)
        else:
            self.constructors[name] = kind

    def tag(self):
        """Marks the places of the prelude by which the picks of the machine with spawned threads
        are told."""
        if self.way == REWRITTEN:
            wait, val = self.methods["wait"].body, self.methods["val"].body
            wait.tag, val.tag = "wait", "in val"
            val.rest.first.tag = val.rest.second.tag = "val"
            self.methods["ready"].body.parts[0].tag = "ready"
            spawning = self.functions["spawn'"].body.rest
            spawning.tag, spawning.part.tag = "in spawn", "spawn"
            trying = self.functions["go'"].body.part
            trying.body.part.tag = "begin"
            trying.body.rest.rest.tag = "end"
            trying.clauses[0][1].rest.tag = "end"
            tagged = [wait, val.rest.first, val.rest.second, spawning.part, trying.body.part]
            kinds = [Atomic, Typecase, ReadField, Atomic, Apply]
            ends = [trying.body.rest.rest, trying.clauses[0][1].rest]
            if [type(it) for it in tagged] != kinds or any(it.name != "state'" for it in ends):
                raise Unread("the prelude isn't the one that is known here")

    # Types and texts

    def test(self, name):
        """Whether a value has a type."""
        if name == "Any":
            return lambda value: True
        if name == "()":
            return lambda value: value == ()
        if name in ("ZZ32", "Boolean", "String"):
            kind = {"ZZ32": int, "Boolean": bool, "String": str}[name]
            return lambda value: type(value) is kind
        wanted = self.kinds[name]
        return lambda value: type(value) is tuple and len(value) == 2 and (
            value[0] == wanted or self.above[value[0]] == wanted)

    def text(self, value):
        """The text of a value."""
        if type(value) is bool:
            return "true" if value else "false"
        if type(value) is tuple:
            return self.names[value[0]] if value else "()"
        return value if type(value) is str else str(value)

    # Bodies

    def compile(self, declaration, it, around):
        self.scope, self.slots, self.around = {}, 0, around
        for name in [*(["self"] if around else []), *it[2]]:
            self.bind(name)
        declaration.body = self.of(it[3])
        declaration.slots = self.slots

    def bind(self, name, is_mutable=False):
        self.scope[name] = self.slots, is_mutable
        self.slots += 1
        return self.slots - 1

    def made(self, node):
        node.prelude = self.is_prelude
        return node

    def of(self, tree):
        return self.made(getattr(self, f"of_{tree[0]}")(*tree[1:]))

    def of_unit(self):
        return Const(())

    def of_value(self, value):
        return Const(value)

    def of_name(self, name):
        if name in self.scope:
            slot, is_mutable = self.scope[name]
            return ReadLocal(slot) if is_mutable else Local(slot)
        if self.around and any(name == field for field, _ in self.around[0][4]):
            return ReadField(self.fields, name, self.of(("name", "self")))
        if name in self.tops:
            return ReadTop(self.tops[name])
        if name in self.singles:
            return Const(self.singles[name])
        raise Unread(f"the name {name}")

    def parts(self, trees):
        return [self.of(it) for it in trees]

    def of_call(self, name, arguments):
        if name in self.scope:
            return Apply(self.of(("name", name)), Const(()))
        if name in ("print", "println"):
            return Print(self.text, "\n" if name == "println" else "", self.parts(arguments))
        if name == "abort":
            return Abort(self.singles["AbortOutside"])
        if name in self.constructors:
            kind = self.constructors[name]
            return New(kind, self.constants[kind], self.parts(arguments))
        if name == "run" and self.way == THREADS:
            name = "run'"
        return Call(self.functions[name], self.parts(arguments))

    def of_method(self, receiver, name, arguments):
        if self.way == THREADS and name in ASKED:
            return self.forms(name, self.parts([receiver]))
        return Call(self.methods[name], self.parts([receiver, *arguments]))

    def of_field(self, target, name):
        return ReadField(self.fields, name, self.of(target))

    def of_apply(self, function, argument):
        return Apply(self.of(function), self.of(argument))

    def of_fn(self, body):
        return Fn(self.of(body))

    def of_spawn(self, body):
        function = self.made(Fn(self.of(body)))
        if self.way == THREADS:
            return self.forms("spawn", [function])
        return Call(self.functions["spawn'"], [function])

    def of_op(self, name, parts):
        return Operator(self.answers[name], self.parts(parts))

    def of_assign(self, sign, target, right):
        if target[0] == "field":
            if sign != ":=":
                raise Unread("a field changed by an operator")
            return WriteField(self.fields, target[2], self.of(target[1]), self.of(right))
        part = self.of(right)
        if sign != ":=":
            part = self.made(Operator(self.answers[sign[0]], [self.of(target), part]))
        if target[1] in self.scope:
            slot, is_mutable = self.scope[target[1]]
            if not is_mutable:
                raise Unread("an assignment to what isn't mutable")
            return WriteLocal(slot, part)
        return WriteTop(self.tops[target[1]], part)

    def of_also(self, blocks):
        return Also(self.parts(blocks))

    def of_if(self, test, first, second):
        return If(self.of(test), self.of(first), self.of(second))

    def of_while(self, test, body):
        return While(self.of(test), self.of(body))

    def of_for(self, name, in_order, source, body):
        part = self.of(source)
        kept = dict(self.scope)
        slot = self.bind(name)
        it = For(in_order, slot, part, self.of(body))
        self.scope = kept
        return it

    def of_typecase(self, name, subject, clauses, other):
        part = self.of(subject)
        kept = dict(self.scope)
        slot = self.bind(name)
        found = [(self.test(kind), self.of(it)) for kind, it in clauses]
        default = Throw(Const(self.singles["MatchFailure"])) if other is None else self.of(other)
        self.scope = kept
        return Typecase(slot, part, found, default)

    def of_try(self, body, name, clauses, last):
        part = self.of(body)
        kept = dict(self.scope)
        slot = self.bind(name) if name else None
        found = [(self.test(kind), self.of(it)) for kind, it in clauses]
        self.scope = kept
        return Try(part, slot, found, None if last is None else self.of(last))

    def of_throw(self, thrown):
        return Throw(self.of(thrown))

    def of_atomic(self, gives_up, body):
        return Atomic(gives_up, self.of(body))

    def of_block(self, items):
        kept = self.scope
        self.scope = dict(kept)
        it = self.rest_of(items)
        self.scope = kept
        return it

    def rest_of(self, items):
        if not items:
            return self.made(Const(()))
        first, behind = items[0], items[1:]
        if first[0] in ("let", "var"):
            part = self.of(first[3])
            slot = self.bind(first[1], first[0] == "var")
            kind = Let if first[0] == "let" else Mutable
            return self.made(kind(slot, part, self.rest_of(behind)))
        part = self.of(first)
        return self.made(Then(part, self.rest_of(behind))) if behind else part

    # Operators

    def operators(self):
        """What each operator does with its values."""
        overflow, by_zero = self.singles["IntegerOverflow"], self.singles["DivisionByZero"]

        def number(task, it):
            if -2**31 <= it < 2**31:
                task.gives(it)
            else:
                task.throws(overflow)

        def divided(f):
            return lambda task, run, a, b: number(task, f(a, b)) if b else task.throws(by_zero)

        def quotient(a, b):
            return abs(a) // abs(b) * (1 if (a < 0) == (b < 0) else -1)

        def joined(task, run, a, b):
            if type(a) is int and type(b) is int:
                return number(task, a * b)
            it = self.text(a) + self.text(b)
            run.cost += len(it.encode())
            task.gives(it)

        def count(task, run, a, n):
            if n >= 1 and a + n - 1 >= 2**31:
                task.throws(overflow)
            else:
                task.gives(Range(a, max(n, 0)))

        return {
            "+": lambda task, run, a, b: number(task, a + b),
            "-": lambda task, run, a, b: number(task, a - b),
            "TIMES": lambda task, run, a, b: number(task, a * b),
            "MAX": lambda task, run, a, b: task.gives(max(a, b)),
            "MIN": lambda task, run, a, b: task.gives(min(a, b)),
            "DIV": divided(quotient),
            "MOD": divided(lambda a, b: a % b),
            "REM": divided(lambda a, b: a - b * quotient(a, b)),
            "=": lambda task, run, a, b: task.gives(a == b),
            "=/=": lambda task, run, a, b: task.gives(a != b),
            "<": lambda task, run, a, b: task.gives(a < b),
            "<=": lambda task, run, a, b: task.gives(a <= b),
            ">": lambda task, run, a, b: task.gives(a > b),
            ">=": lambda task, run, a, b: task.gives(a >= b),
            "===": lambda task, run, a, b: task.gives(same(a, b)),
            "AND": lambda task, run, a, b: task.gives(a and b),
            "OR": lambda task, run, a, b: task.gives(a or b),
            "NOT": lambda task, run, a: task.gives(not a),
            "juxtaposition": joined,
            "#": count,
            ":": lambda task, run, a, b: task.gives(Range(a, max(b - a + 1, 0))),
        }
