"""A run of a program whose picks are chosen by chance, with its record.

What fortress records are the runs of its own order of threads; here each thread that may go on may
be the next one.
"""
from spawned.replay import Replay, parted
from spawned.terms import OPEN, VALUE, Atomic


class Ended:
    """What stands in the place of a record that is read."""

    def __init__(self, fuel):
        self.fuel, self.lines, self.output = fuel, [], b""


class Chosen(Replay):
    """A run by chance. `record` is its text once it is whole."""

    def __init__(self, program, fuel, rng):
        super().__init__(program, Ended(fuel))
        self.rng, self.fuel, self.next = rng, fuel, max(self.store) + 1
        self.sticks = rng.choice([0, 0.5, 0.8, 0.9, 0.97])

    def whole(self):
        self.program.first.enter(self.root, [])
        self.go(self.root, self.picks, True)
        root = self.root
        if self.cost > self.fuel:
            self.ending, ending = "out", b""
        elif root.state == VALUE:
            self.ending, ending = "completed", b"completed\n"
            self.counted = len(self.picks)
        else:
            self.ending, ending = ("uncaught", *root.value), b"uncaught %d %d\n" % root.value
            self.counted = len(self.picks)
        if self.ending != "out":
            self.record.output = b"".join(self.output)
        self.text = b"fortress record 1\nfuel %d\n%s%soutput %d\n%s" % (
            self.fuel, b"".join(line + b"\n" for line in self.lines), ending,
            len(self.record.output), self.record.output)
        return self.picks

    def ready(self, task, path, found):
        """The threads that may be the next, with their paths."""
        if task.state:
            return
        if task.kids:
            waits = False
            for number, kid in task.kids.items():
                if kid.state == OPEN and (kid.stepped or not task.thrown):
                    waits = True
                    self.ready(kid, (*path, number), found)
            if waits:
                return
        found.append((path, task))

    def choice(self, root, last):
        """The next thread: often the last one, or any of those that are awake; where none is, one
        that sleeps."""
        if last and self.rng.random() < self.sticks:
            task = last[1]
            if task.state == OPEN and not task.kids and self.is_awake(task):
                return last
        found = []
        self.ready(root, (), found)
        return self.rng.choice([it for it in found if self.is_awake(it[1])] or found)

    def go(self, root, picks, is_last, is_inner=False):
        last = None
        while root.state == OPEN and self.cost <= self.fuel:
            if is_inner and self.frames[-1].aborted:
                return
            path, task = last = self.choice(root, last)
            self.find(root, path)
            server, rest = None, path
            if not is_inner:
                server, rest = parted(path)
                at, self.counted, printed = len(self.lines), len(picks), len(self.output)
            word = b".".join(b"%d" % number for number in path) or b"-"
            if isinstance(task.op, Atomic):
                self.lines.append(b"a " + word)
                self.attempt(root, task, picks, True, server, rest, is_inner)
            else:
                loc = 0
                if task.op.makes and not (task.kids and task.thrown):
                    loc = self.next = self.next + self.rng.choice([0, 0, 0, 1, 5])
                    self.next += 4
                self.lines.append(b"s %s %d" % (word, loc))
                root.is_quiet = False
                self.step(task, server, rest, loc, picks, is_inner)
            if not is_inner and self.cost > self.fuel:
                self.lines.insert(at, b"out")
                self.record.output = b"".join(self.output[:printed])

    def end_attempt(self):
        self.lines.append(b"z")
