"""The terms of the machine for the subset, and the step of each ("Steps and costs" of
docs/MACHINE.md).

A term isn't rewritten: a task stands at a form, with the forms round it as a stack of frames, and
the values of variables are in an environment. A frame is a form that goes from left to right, one
of whose parts the task evaluates. Parts of a parallel form have tasks of their own, numbered as
paths number them. `enter` is what happens without a step once a term stands at a place: its next
part is looked for, down to the form that steps. `step` is one step.
"""

OPEN, VALUE, THROW = range(3)


class Refused(Exception):
    """What is said to have happened may not happen."""


class Task:
    """A part of a term that goes by itself, or the root of a machine's term."""

    __slots__ = ("kont", "op", "env", "aux", "kids", "thrown", "state", "value", "stepped", "marks",
                 "came", "parent", "is_quiet")

    def __init__(self, parent=None):
        self.kont, self.op, self.env, self.aux = [], None, None, None
        self.kids, self.thrown, self.state, self.value = None, False, OPEN, None
        self.stepped, self.marks, self.came, self.parent = False, None, False, parent
        self.is_quiet = False

    def gives(self, value):
        """The form at which it stood is a value now."""
        kont = self.kont
        if kont:
            node, env, aux = kont.pop()
            node.resume(self, env, aux, value)
        else:
            self.state, self.value = VALUE, value

    def throws(self, value):
        """The form at which it stood is a throw of a value now."""
        self.value = value
        if self.kont:
            self.op = UNWIND
        else:
            self.state = THROW
            if self.parent is not None:
                self.parent.thrown = True


class Closure:
    """A function of no parameters with what it holds."""

    __slots__ = ("body", "env")

    def __init__(self, body, env):
        self.body, self.env = body, env


class Range:
    __slots__ = ("first", "count")

    def __init__(self, first, count):
        self.first, self.count = first, count


def same(a, b):
    """Whether two values are one, as data."""
    return a is b or (type(a) is type(b) and a == b)


class Node:
    """A form. A simple one is a value where it stands. `prelude` and `tag` are for who asks which
    step it was; `makes` tells whether a step makes locations."""

    simple = False
    makes = False
    prelude = False
    tag = None

    def enter(self, task, env):
        """By itself it steps at once."""
        task.op, task.env = self, env


class Unwinding(Node):
    """A form whose next part is at a throw: it goes to the throw, or tries its clauses."""

    def step(self, task, run, loc):
        node, env, aux = task.kont.pop()
        node.caught(task, env, run)


UNWIND = Unwinding()


class Sequential(Node):
    """A form that goes from left to right, in which a part may throw."""

    def caught(self, task, env, run):
        task.throws(task.value)


class Const(Node):
    simple = True

    def __init__(self, value):
        self.value = value

    def get(self, env):
        return self.value

    def enter(self, task, env):
        task.gives(self.value)


class Local(Node):
    """An immutable local variable, in whose place its value stands."""

    simple = True

    def __init__(self, slot):
        self.slot = slot

    def get(self, env):
        return env[self.slot]

    def enter(self, task, env):
        task.gives(env[self.slot])


class Fn(Node):
    simple = True

    def __init__(self, body):
        self.body = body

    def get(self, env):
        return Closure(self.body, env[:])

    def enter(self, task, env):
        task.gives(Closure(self.body, env[:]))


class ReadTop(Node):
    """A read of a variable at the top."""

    def __init__(self, loc):
        self.loc = loc

    def step(self, task, run, loc):
        task.gives(run.read(self.loc))


class ReadLocal(Node):
    """A read of a mutable local variable."""

    def __init__(self, slot):
        self.slot = slot

    def step(self, task, run, loc):
        task.gives(run.read(task.env[self.slot]))


class One(Sequential):
    """A form of one part that goes before its step."""

    def __init__(self, part):
        self.part = part

    def enter(self, task, env):
        part = self.part
        if part.simple:
            task.op, task.env, task.aux = self, env, part.get(env)
        else:
            task.kont.append((self, env, None))
            part.enter(task, env)

    def resume(self, task, env, aux, value):
        task.op, task.env, task.aux = self, env, value


class WriteTop(One):
    def __init__(self, loc, part):
        self.loc, self.part = loc, part

    def step(self, task, run, loc):
        run.write(self.loc, task.aux)
        task.gives(())


class WriteLocal(One):
    def __init__(self, slot, part):
        self.slot, self.part = slot, part

    def step(self, task, run, loc):
        run.write(task.env[self.slot], task.aux)
        task.gives(())


class ReadField(One):
    def __init__(self, fields, name, part):
        self.fields, self.name, self.part = fields, name, part

    def step(self, task, run, loc):
        kind, base = task.aux
        task.gives(run.read(base + self.fields[kind].index(self.name)))


class WriteField(Sequential):
    """The object is a value wherever it stands in the subset."""

    def __init__(self, fields, name, target, part):
        self.fields, self.name, self.target, self.part = fields, name, target, part

    def enter(self, task, env):
        One.enter(self, task, env)

    def resume(self, task, env, aux, value):
        task.op, task.env, task.aux = self, env, value

    def step(self, task, run, loc):
        kind, base = self.target.get(task.env)
        run.write(base + self.fields[kind].index(self.name), task.aux)
        task.gives(())


class Let(One):
    def __init__(self, slot, part, rest):
        self.slot, self.part, self.rest = slot, part, rest

    def step(self, task, run, loc):
        task.env[self.slot] = task.aux
        self.rest.enter(task, task.env)


class Mutable(One):
    makes = True

    def __init__(self, slot, part, rest):
        self.slot, self.part, self.rest = slot, part, rest

    def step(self, task, run, loc):
        run.make(loc, [task.aux])
        task.env[self.slot] = loc
        self.rest.enter(task, task.env)


class Then(One):
    def __init__(self, part, rest):
        self.part, self.rest = part, rest

    def step(self, task, run, loc):
        self.rest.enter(task, task.env)


class If(One):
    def __init__(self, part, first, second):
        self.part, self.first, self.second = part, first, second

    def step(self, task, run, loc):
        (self.first if task.aux else self.second).enter(task, task.env)


class While(Node):
    def __init__(self, test, body):
        self.round = If(test, Then(body, self), Const(()))

    def step(self, task, run, loc):
        self.round.enter(task, task.env)


class Typecase(One):
    """`has` says of each clause whether a value has its type."""

    def __init__(self, slot, part, clauses, other):
        self.slot, self.part, self.clauses, self.other = slot, part, clauses, other

    def step(self, task, run, loc):
        value = task.env[self.slot] = task.aux
        for has, clause in self.clauses:
            if has(value):
                return clause.enter(task, task.env)
        self.other.enter(task, task.env)


class Throw(Sequential):
    def __init__(self, part):
        self.part = part

    def enter(self, task, env):
        if self.part.simple:
            task.throws(self.part.get(env))
        else:
            task.kont.append((self, env, None))
            self.part.enter(task, env)

    def resume(self, task, env, aux, value):
        task.throws(value)


class Try(Node):
    def __init__(self, body, slot, clauses, last):
        self.body, self.slot, self.clauses, self.last = body, slot, clauses, last

    def enter(self, task, env):
        task.kont.append((self, env, None))
        self.body.enter(task, env)

    def resume(self, task, env, aux, value):
        task.op, task.env, task.aux = self, env, value

    def step(self, task, run, loc):
        if self.last is None:
            return task.gives(task.aux)
        Then(self.last, Const(task.aux)).enter(task, task.env)

    def caught(self, task, env, run):
        thrown = task.value
        following = Throw(Const(thrown))
        for has, clause in self.clauses:
            if has(thrown):
                env[self.slot] = thrown
                following = clause
                break
        if self.last is not None:
            following = Then(self.last, following)
        following.enter(task, env)


class Operator(Sequential):
    def __init__(self, answer, parts):
        self.answer, self.parts = answer, parts

    def enter(self, task, env):
        self.go_on(task, env, [])

    def go_on(self, task, env, values):
        for part in self.parts[len(values):]:
            if part.simple:
                values.append(part.get(env))
            else:
                task.kont.append((self, env, values))
                part.enter(task, env)
                return
        task.op, task.env, task.aux = self, env, values

    def resume(self, task, env, aux, value):
        self.go_on(task, env, [*aux, value])

    def step(self, task, run, loc):
        self.answer(task, run, *task.aux)


class Parallel(Node):
    """A form whose parts go beside each other."""

    def enter(self, task, env):
        values, kids = [], None
        for part in self.parts:
            if part.simple:
                values.append(part.get(env))
            else:
                if kids is None:
                    kids = {}
                kid = kids[len(values)] = Task(task)
                values.append(None)
                part.enter(kid, env)
        task.op, task.env, task.aux, task.kids = self, env, values, kids

    def step(self, task, run, loc):
        kids = task.kids
        if kids:
            task.kids = None
            if task.thrown:
                task.thrown = False
                return task.throws(next(kid.value for kid in kids.values() if kid.state == THROW))
            for number, kid in kids.items():
                task.aux[number] = kid.value
        self.act(task, run, loc, task.aux)


class Also(Parallel):
    def __init__(self, parts):
        self.parts = parts

    def act(self, task, run, loc, values):
        task.gives(())


class Apply(Parallel):
    def __init__(self, function, argument):
        self.parts = [function, argument]

    def act(self, task, run, loc, values):
        it = values[0]
        it.body.enter(task, it.env[:])


class For(One):
    def __init__(self, in_order, slot, part, body):
        self.slot, self.part, self.body, self.in_order = slot, part, body, in_order

    def step(self, task, run, loc):
        it = task.aux
        Items(self, it.first, it.count).step(task, run, loc)

    def body_of(self, number, env):
        env = env[:]
        env[self.slot] = number
        return env


class Items(Node):
    """A `for` over some numbers."""

    def __init__(self, loop, first, count):
        self.loop, self.first, self.count = loop, first, count
        self.prelude = loop.prelude

    def step(self, task, run, loc):
        loop, first, count, env = self.loop, self.first, self.count, task.env
        if not count:
            task.gives(())
        elif loop.in_order:
            task.kont.append((Rest(loop, first + 1, count - 1), env, None))
            loop.body.enter(task, loop.body_of(first, env))
        elif count == 1:
            loop.body.enter(task, loop.body_of(first, env))
        else:
            half = (count + 1) // 2
            halves = Items(loop, first, half), Items(loop, first + half, count - half)
            Halves(loop, halves).enter(task, env)


class Rest(Sequential):
    """An item of a `for` in `seq`, and the items behind it."""

    def __init__(self, loop, first, count):
        self.loop, self.first, self.count = loop, first, count
        self.prelude = loop.prelude

    def resume(self, task, env, aux, value):
        task.op, task.env = self, env

    def step(self, task, run, loc):
        Items(self.loop, self.first, self.count).enter(task, task.env)


class Halves(Also):
    def __init__(self, loop, parts):
        self.parts, self.prelude = parts, loop.prelude


class Call(Parallel):
    """A call of a declaration with a body."""

    def __init__(self, declaration, parts):
        self.declaration, self.parts = declaration, parts

    def act(self, task, run, loc, values):
        it = self.declaration
        it.body.enter(task, values + [None] * (it.slots - len(values)))


class New(Parallel):
    """A call of a constructor."""

    makes = True

    def __init__(self, kind, constants, parts):
        self.kind, self.constants, self.parts = kind, constants, parts

    def act(self, task, run, loc, values):
        run.make(loc, [*values, *self.constants])
        task.gives((self.kind, loc))


class Print(Parallel):
    def __init__(self, text, behind, parts):
        self.text, self.behind, self.parts = text, behind, parts

    def act(self, task, run, loc, values):
        run.print(self.text(values[0]) + self.behind)
        task.gives(())


class Abort(Node):
    """`abort()`: the end of the machine, or in the root machine a throw."""

    def __init__(self, outside):
        self.outside = outside

    def step(self, task, run, loc):
        if run.frames:
            run.frames[-1].aborted = True
        else:
            task.throws(self.outside)


class Atomic(Node):
    def __init__(self, gives_up, body):
        self.gives_up, self.body = gives_up, body

    def enter(self, task, env):
        task.op, task.env, task.marks, task.came = self, env, None, False

    def step(self, task, run, loc):
        raise Refused("a step of an atomic form")
