"""A record replayed over the machine (docs/MACHINE.md, docs/RECORDS.md), and its picks as those of
the machine with spawned threads.

A replay of a rewritten component answers mapped picks, as tuples whose first part tells the kind:

    ("s", thread, path, loc)            a step of the thread
    ("a", thread, path, picks, how)     an attempt, with what is in it; how it closed
    ("spawn", thread, path, loc)        the step of a form of `spawn'`, and the thread's location
    ("wait" .., "val" .., "ready", thread, path, 0)
    ("begin", loc), ("end", loc)        of the thread at the location

Threads are named by their locations, the first one by 0; in an attempt no thread is named.
"""
from spawned.terms import OPEN, THROW, UNWIND, VALUE, Atomic, Refused, Task, same

COMPLETED, FAILED, ABORTED = "completed", "failed", "aborted"
PLAIN = 0
KNOWN = {}


def path_of(word):
    """A path as numbers."""
    return () if word == b"-" else tuple(map(int, word.split(b".")))


def parted(path):
    """A path as that of a server or of `run'`, if it leads so far, and what is behind it."""
    length = 1 if path[:1] == (0,) else 7
    return (path[:length], path[length:]) if len(path) >= length else (None, path)


def line_of(line):
    """A line of a record: whether it is a step, its path, also parted, and its location; or None
    where it is no pick."""
    it = KNOWN.get(line)
    if it is None:
        if line[:2] == b"s ":
            _, word, loc = line.split(b" ")
            path = path_of(word)
            it = True, path, *parted(path), int(loc)
            if it[4]:
                return it
        elif line[:2] == b"a ":
            path = path_of(line[2:])
            it = False, path, *parted(path), 0
        else:
            return None
        KNOWN[line] = it
    return it


class Frame:
    """What an open attempt keeps."""

    __slots__ = ("before", "made", "reads", "output", "aborted", "added", "came")

    def __init__(self):
        self.before, self.made, self.reads, self.output = {}, set(), {}, []
        self.aborted, self.added, self.came = False, [], False


class Run:
    """The store and the output of a run, and its open attempts."""

    def __init__(self, program):
        self.program, self.store = program, dict(program.store)
        self.frames, self.output, self.cost = [], [], 0

    def read(self, loc):
        if loc not in self.store:
            raise Refused(f"a read at {loc}, where nothing is")
        value = self.store[loc]
        if self.frames:
            it = self.frames[-1]
            if loc not in it.made and loc not in it.before and loc not in it.reads:
                it.reads[loc] = value
        return value

    def write(self, loc, value):
        if loc not in self.store:
            raise Refused(f"a write at {loc}, where nothing is")
        if self.frames:
            it = self.frames[-1]
            if loc not in it.made and loc not in it.before:
                it.before[loc] = self.store[loc]
        self.store[loc] = value

    def make(self, loc, values):
        for number, value in enumerate(values or [()], loc):
            if number in self.store:
                raise Refused(f"location {number} is there")
            self.store[number] = value
            if self.frames:
                self.frames[-1].made.add(number)

    def print(self, text):
        text = text.encode()
        self.cost += len(text)
        (self.frames[-1] if self.frames else self).output.append(text)

    # Tasks

    def find(self, root, path):
        """The task to which a path leads, each part on the way with its mark."""
        task = root
        if task.state:
            raise Refused("a pick of what has ended")
        for number in path:
            kids = task.kids
            kid = kids.get(number) if kids else None
            if kid is None or kid.state:
                raise Refused(f"{path} leads to no open part")
            if task.thrown and not kid.stepped:
                raise Refused(f"{path} leads to a part that is passed over")
            kid.stepped = True
            task = kid
        kids = task.kids
        if kids:
            for kid in kids.values():
                if kid.state == OPEN and (kid.stepped or not task.thrown):
                    raise Refused(f"{path} waits for its parts")
        return task

    def sleeps(self, task):
        """Whether its marks have their values."""
        if task.marks is None:
            return False
        get = self.store.get
        for loc, value in task.marks:
            if not same(get(loc), value):
                return False
        return True

    def is_awake(self, task):
        return not self.sleeps(task)

    def some_awake(self, task, but):
        """Whether a thread of a term is awake, but for one."""
        if task.state:
            return False
        if task.kids:
            waits = False
            for kid in task.kids.values():
                if kid.state == OPEN and (kid.stepped or not task.thrown):
                    waits = True
                    if self.some_awake(kid, but):
                        return True
            if waits:
                return False
        return task is not but and self.is_awake(task)

    def may_try(self, task, root):
        """Whether a form may be tried: it doesn't sleep, or no other thread of its machine is
        awake. Then it is quiet, until another pick than an attempt that is aborted."""
        if not self.sleeps(task):
            root.is_quiet = False
            return True
        root.is_quiet = root.is_quiet or not self.some_awake(root, task)
        return root.is_quiet

    def open_attempt(self):
        self.frames.append(Frame())

    def close_attempt(self, how):
        """Joins what an attempt did to what is round it."""
        it = self.frames.pop()
        store, out = self.store, self.frames[-1] if self.frames else None
        if out is not None:
            for loc, value in it.reads.items():
                if loc not in out.made and loc not in out.before and loc not in out.reads:
                    out.reads[loc] = value
        if how == COMPLETED:
            (out or self).output.extend(it.output)
            if out is not None:
                for loc, value in it.before.items():
                    if loc not in out.made and loc not in out.before:
                        out.before[loc] = value
        else:
            store.update(it.before)
        if how == ABORTED:
            for loc in it.made:
                del store[loc]
        elif out is not None:
            out.made |= it.made
        return it

    def closes(self, task, root, frame):
        """What an atomic form becomes by its attempt; answers how that closed, or None."""
        if frame.aborted:
            how = ABORTED
        elif root.state == VALUE:
            how = COMPLETED
        elif root.state == THROW:
            how = FAILED
        else:
            return None
        self.close_attempt(how)
        if how == COMPLETED:
            task.marks = None
            task.gives(root.value)
        elif how == FAILED:
            task.marks = None
            task.throws(root.value)
        elif task.op.gives_up:
            task.throws(self.program.singles["TryAtomicFailure"])
        else:
            task.marks = sorted(frame.reads.items(), key=lambda mark: mark[0])
        return how


class Record:
    """The text of a record."""

    def __init__(self, text):
        name, fuel, rest = text.split(b"\n", 2)
        if name != b"fortress record 1" or not fuel.startswith(b"fuel "):
            raise Refused("no record")
        self.fuel = int(fuel[5:])
        journal, _, rest = rest.partition(b"\noutput ")
        size, _, self.output = rest.partition(b"\n")
        if int(size) != len(self.output):
            raise Refused("the output hasn't its size")
        self.lines = journal.split(b"\n")


class Replay(Run):
    """A run of a program by the picks of a record."""

    def __init__(self, program, record):
        super().__init__(program)
        self.record, self.lines, self.at = record, record.lines, 0
        self.serving, self.picks, self.root = {}, [], Task()
        self.ending, self.counted = None, 0

    def whole(self):
        """Replays the record; answers the mapped picks. The first `counted` of them are of the run,
        and what stands behind them is of the pick that was next when it was out of fuel."""
        self.program.first.enter(self.root, [])
        self.go(self.root, self.picks, False)
        line, fuel = self.lines[self.at], self.record.fuel
        self.at, self.counted = self.at + 1, len(self.picks)
        if self.cost > fuel:
            raise Refused("the fuel doesn't reach")
        output = b"".join(self.output)
        if line == b"completed":
            if self.root.state != VALUE or self.root.value != ():
                raise Refused("not completed")
            self.ending = "completed"
        elif line.startswith(b"uncaught "):
            kind, base = map(int, line.split()[1:])
            if self.root.state != THROW or self.root.value != (kind, base):
                raise Refused("not uncaught so")
            self.ending = "uncaught", kind, base
        elif line == b"out":
            self.ending = "out"
            self.go(self.root, self.picks, True)
            if self.cost <= fuel:
                raise Refused("the fuel reaches")
        if self.at != len(self.lines):
            raise Refused("lines behind the ending")
        if output != self.record.output:
            raise Refused(f"printed {output!r}, not {self.record.output!r}")
        return self.picks

    def go(self, root, picks, is_last, is_inner=False):
        """Replays picks of one machine, as far as they go; the last one may be unfinished."""
        lines, size, frame = self.lines, len(self.lines), self.frames[-1] if is_inner else None
        before, task = None, None
        while self.at < size:
            it = line_of(lines[self.at])
            if it is None:
                return
            self.at += 1
            is_step, path, server, rest, loc = it
            if is_inner:
                if frame.aborted:
                    raise Refused("a pick behind an abort")
                server, rest = None, path
            if path != before or task.state or task.kids:
                task = self.find(root, path)
            before = path
            if is_step:
                root.is_quiet = False
                self.step(task, server, rest, loc, picks, is_inner)
            else:
                self.attempt(root, task, picks, is_last, server, rest, is_inner)

    def step(self, task, server, path, loc, picks, is_inner):
        """A step, with what it is on the machine with spawned threads."""
        self.cost += 1
        op = task.op
        node = op if op is not UNWIND else task.kont[-1][0]
        if loc and not op.makes:
            raise Refused("a step that makes nothing makes something")
        if not node.prelude:
            picks.append(("s", None if is_inner else self.thread(server, path), path, loc))
        elif node.tag is not None and (is_inner or server is not None):
            self.tagged(task, op, node, picks, server, path)
        op.step(task, self, loc)

    def thread(self, server, path):
        """The thread that a server goes on with; 0 is that of `run'`, and of the first call. All of
        a component that isn't rewritten is that thread's."""
        if server == (0,) or server is None and path == () or self.program.way == PLAIN:
            return 0
        if server not in self.serving:
            raise Refused(f"no thread takes a step of the source at {server} {path}")
        return self.serving[server]

    def tagged(self, task, op, node, picks, server, path):
        """A step of the prelude that may be one of the other machine."""
        tag, thread = node.tag, None if server is None else self.thread_or_none(server)
        if tag == "begin":
            if op is UNWIND or task.kids and task.thrown:
                raise Refused("a thread without a function")
            if server != (0,):
                loc = self.serving[server] = task.env[0][1]
                picks += ("begin", loc), ("s", loc, (), 0)
        elif tag == "end":
            picks.append(("end", thread))
        elif tag == "ready" or tag == "val":
            picks.append((tag, thread, path, 0))
        elif tag == "in spawn" and op is UNWIND:
            picks.append(("spawn", thread, path, 0))

    def thread_or_none(self, server):
        return 0 if server == (0,) else self.serving.get(server)

    def end_attempt(self):
        if self.at >= len(self.lines) or self.lines[self.at] != b"z":
            raise Refused("an attempt without its end")
        self.at += 1

    def attempt(self, root, task, picks, is_last, server, path, is_inner):
        op = task.op
        if not isinstance(op, Atomic):
            raise Refused("an attempt of what isn't atomic")
        if not self.may_try(task, root):
            raise Refused("a sleeping form is tried while another thread is awake")
        within = []
        inner = Task()
        self.open_attempt()
        frame = self.frames[-1]
        op.body.enter(inner, task.env)
        self.cost += 1
        self.go(inner, within, is_last, True)
        self.end_attempt()
        kont, env = task.kont, task.env
        asks = not kont or kont[-1][0].tag != "in val"
        how = self.closes(task, inner, frame)
        root.is_quiet = root.is_quiet and how == ABORTED and not op.gives_up
        if how is None:
            if not is_last:
                raise Refused("an attempt that hasn't ended")
            self.close_attempt(ABORTED)
        thread = None if is_inner else self.thread_or_none(server)
        if not op.prelude:
            picks.append(("a", thread, path, within, how))
        elif how == COMPLETED and op.tag == "spawn":
            picks.append(("spawn", thread, path, env[1][1]))
        elif how == COMPLETED and op.tag == "wait" and asks:
            picks.append(("wait", thread, path, 0))
