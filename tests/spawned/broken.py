"""Five ways to break the mapping or the machine with spawned threads; each has to be refused."""
from spawned.terms import THROW
from spawned.threads import Threads

HEAD = "component T\nexport Executable\nvar g: ZZ32 := 0\nobject E extends Exception end\n"


def waits_early(picks):
    """Each wait of a thread comes back right after its call."""
    found = list(picks)
    for pick in picks:
        if pick[0] == "wait":
            call = max(number for number, it in enumerate(found[:found.index(pick)])
                       if it[0] == "s" and it[1:3] == pick[1:3])
            found.remove(pick)
            found.insert(call + 1, pick)
    return found


def begins_twice(picks):
    """Each thread that begins does so once more at the end."""
    return [*picks, *(it for it in picks if it[0] == "begin")]


class LosesValues(Threads):
    def val(self, task, loc):
        root = self.ended(task)
        if root.state == THROW:
            task.throws(root.value)
        else:
            task.gives(())


class KeepsUndone(Threads):
    def undo(self, added):
        pass


class Swallows(Threads):
    def val(self, task, loc):
        root = self.ended(task)
        task.gives(() if root.state == THROW else root.value)


def as_it_is(picks):
    return picks


# What is broken: the mapping and the machine, and the body of a `run` by which it shows.
WAYS = {
    "a wait that comes back before the thread's end": (
        waits_early, Threads, "do\n  t: Thread = spawn g := 5\n  t.wait()\n  println(g)\nend"),
    "a thread that begins twice": (
        begins_twice, Threads, "do\n  t: Thread = spawn g := 5\n  t.wait()\nend"),
    "a value that is lost": (
        as_it_is, LosesValues, "do\n  t: Thread = spawn 5\n  println(t.val())\nend"),
    "the threads of a failed attempt that stay": (
        as_it_is, KeepsUndone,
        "try\n  atomic do\n    t: Thread = spawn g := 5\n    throw E\n  end\n"
        "catch e E => println(g) end"),
    "an exception that is swallowed": (
        as_it_is, Swallows, "do\n  t: Thread = spawn (throw E)\n"
                            "  try println(t.val()) catch e E => println(\"E\") end\nend"),
}


def changed(text, rng):
    """A record with one line of its picks changed, left out, put elsewhere or said twice."""
    head, _, rest = text.partition(b"\n")
    fuel, _, rest = rest.partition(b"\n")
    journal, _, rest = rest.partition(b"\noutput ")
    lines = journal.split(b"\n")
    one, other = (rng.randrange(len(lines)) for _ in range(2))
    way = rng.randrange(6)
    if way == 0:
        del lines[one]
    elif way == 1:
        lines.insert(one, lines[one])
    elif way == 2:
        lines.insert(min(other, one + rng.randrange(1, 6)), lines.pop(one))
    elif way == 3:
        lines[one] = lines[other]
    elif way == 4:
        lines.insert(other, lines[one])
    else:
        word, _, last = lines[one].rpartition(b" ")
        lines[one] = word + b" " + (b"%d" % rng.randrange(40) if last.isdigit() else last + b".0")
    return b"\n".join([head, fuel, b"\n".join(lines) + b"\noutput " + rest])


def component_of(body):
    return f"{HEAD}run(): () = {body}\nend\n"
