"""The machine with threads (docs/MACHINE.md), and a run of it by mapped picks."""
from spawned.replay import ABORTED, COMPLETED, Run
from spawned.terms import (OPEN, THROW, VALUE, Apply, Atomic, Const, Node, Parallel, Refused,
                           Task)


class ThreadForm(Node):
    """Where a call of `spawn'`, `wait`, `val` or `ready` has led."""

    def __init__(self, kind):
        self.kind = kind

    def step(self, task, run, loc):
        raise Refused(f"a form of {self.kind} takes a step that is another one's")


FORMS = {kind: ThreadForm(kind) for kind in ("spawn", "wait", "val", "ready")}


class ThreadCall(Parallel):
    def __init__(self, kind, parts):
        self.form, self.parts = FORMS[kind], parts

    def act(self, task, run, loc, values):
        task.op, task.aux, task.marks = self.form, values[0], None
        if run.frames:
            run.frames[-1].came = True


class Thread:
    """A thread: the function that it applies, its term, and how far it is."""

    def __init__(self, function):
        self.function, self.root, self.has_begun, self.has_ended = function, Task(), False, False


class Threads(Run):
    def __init__(self, program):
        super().__init__(program)
        first = Thread(None)
        first.has_begun = True
        program.first.enter(first.root, [])
        self.threads = {0: first}

    # Who is awake

    def has_ended(self, loc):
        return loc in self.threads and self.threads[loc].has_ended

    def is_awake(self, task):
        op = task.op
        if op is FORMS["wait"] or op is FORMS["val"]:
            return self.has_ended(task.aux[1])
        return not self.sleeps(task)

    def roots(self):
        return [it.root for it in self.threads.values() if it.has_begun and not it.has_ended]

    def may_be_tried(self, task, root):
        """Whether an atomic form may be tried, in the root machine or in that of an attempt."""
        if task.came or not self.sleeps(task):
            return True
        if root is not None:
            return not self.some_awake(root, task)
        return all(it.has_begun for it in self.threads.values()) and not any(
            self.some_awake(it, task) for it in self.roots())

    # What attempts do to threads

    def close_attempt(self, how):
        frame = super().close_attempt(how)
        out = self.frames[-1] if self.frames else None
        if out is not None:
            out.came = out.came or frame.came
        if how == COMPLETED:
            if out is not None:
                out.added += frame.added
        else:
            self.undo(frame.added)
        return frame

    def undo(self, added):
        for loc in added:
            del self.threads[loc]

    # Picks

    def play(self, picks, root=None):
        """Takes picks: of the machine of an attempt with this root, or of the root machine."""
        for pick in picks:
            kind = pick[0]
            if root is not None and (root.state or self.frames[-1].aborted):
                raise Refused("a pick of an attempt that has ended")
            if kind == "s":
                task = self.find(self.root_of(pick[1], root), pick[2])
                if pick[3] and not task.op.makes:
                    raise Refused("a step that makes nothing makes something")
                task.op.step(task, self, pick[3])
            elif kind == "a":
                self.attempt(pick, root)
            elif kind == "begin":
                self.begin(pick[1])
            elif kind == "end":
                self.end(pick[1])
            else:
                task = self.find(self.root_of(pick[1], root), pick[2])
                if task.op is not FORMS[kind]:
                    raise Refused(f"no form of {kind} is at {pick[2]} of {pick[1]}")
                getattr(self, kind)(task, pick[3])

    def root_of(self, loc, root):
        if root is not None:
            return root
        thread = self.threads.get(loc)
        if thread is None or not thread.has_begun or thread.has_ended:
            raise Refused(f"thread {loc} doesn't go")
        return thread.root

    def attempt(self, pick, root):
        _, loc, path, within, how = pick
        task = self.find(self.root_of(loc, root), path)
        if not isinstance(task.op, Atomic):
            raise Refused("an attempt of what isn't atomic")
        if not self.may_be_tried(task, root):
            raise Refused("a sleeping form is tried while another thread is awake")
        inner = Task()
        self.open_attempt()
        frame = self.frames[-1]
        task.op.body.enter(inner, task.env)
        self.play(within, inner)
        if how is None:
            # It was out of fuel, perhaps in what the prelude does behind the last step of this one.
            self.close_attempt(ABORTED)
            return
        closed = self.closes(task, inner, frame)
        if closed != how:
            raise Refused(f"an attempt that was {how} is {closed}")
        if closed == ABORTED:
            task.came = frame.came

    def begin(self, loc):
        thread = self.threads.get(loc)
        if thread is None:
            raise Refused(f"thread {loc}, which begins, doesn't stand")
        if thread.has_begun:
            raise Refused(f"thread {loc} begins twice")
        thread.has_begun = True
        Apply(Const(thread.function), Const(())).enter(thread.root, [])

    def end(self, loc):
        thread = self.threads.get(loc)
        if thread is None or not thread.has_begun or thread.has_ended or thread.root.state == OPEN:
            raise Refused(f"thread {loc} doesn't end")
        thread.has_ended = True

    def spawn(self, task, loc):
        if len(self.threads) > 64:
            if loc:
                raise Refused("a thread too many")
            return task.throws(self.program.singles["TooManyThreads"])
        if not loc:
            raise Refused("there aren't too many threads")
        self.make(loc, [task.aux, 0, (), ()])
        self.threads[loc] = Thread(task.aux)
        if self.frames:
            self.frames[-1].added.append(loc)
        task.gives((self.program.kinds["Thread'"], loc))

    def ended(self, task):
        loc = task.aux[1]
        if not self.has_ended(loc):
            raise Refused(f"thread {loc}, for which one waits, hasn't ended")
        return self.threads[loc].root

    def wait(self, task, loc):
        self.ended(task)
        task.gives(())

    def val(self, task, loc):
        root = self.ended(task)
        if root.state == THROW:
            task.throws(root.value)
        else:
            task.gives(root.value)

    def ready(self, task, loc):
        task.gives(self.has_ended(task.aux[1]))

    # The end

    def ending(self):
        """How a run is ended, or None."""
        if not all(it.has_ended for it in self.threads.values()):
            return None
        root = self.threads[0].root
        if root.state == VALUE:
            return "completed" if root.value == () else None
        return "uncaught", *root.value


def follows(replay, picks, counted, machine):
    """Plays the picks of a replay on a machine, the first of which are counted to its run; refuses
    where that ends otherwise, or prints something else."""
    machine.play(picks[:counted])
    output = b"".join(machine.output)
    if output != replay.record.output:
        raise Refused(f"printed {output!r}, not {replay.record.output!r}")
    if replay.ending == "out":
        machine.play(picks[counted:])
    elif machine.ending() != replay.ending:
        raise Refused(f"ended by {machine.ending()}, not by {replay.ending}")
