"""One component: recorded, replayed, and run on the machine with spawned threads."""
import pathlib
import re
import subprocess

from spawned.choosing import Chosen
from spawned.program import PLAIN, REWRITTEN, THREADS, Program
from spawned.replay import Record, Replay
from spawned.source import component
from spawned.terms import Refused
from spawned.threads import ThreadCall, Threads, follows

SECONDS = 60


class Trial:
    """The run of a component, replayed; `picks` are the mapped picks, or None where it spawns no
    threads."""

    def __init__(self, program, text, fuel, workers, folder):
        self.program, self.folder = program, pathlib.Path(folder)
        self.file = self.folder / "T.fss"
        self.file.write_text(text)
        words = "record", self.file, "--workers", str(workers), "--fuel", str(fuel)
        self.kept = self.folder / "run.record"
        self.kept.unlink(missing_ok=True)
        self.text = self.said(*words)
        self.kept.write_bytes(self.text)
        self.declarations = component(text)
        self.spawns = re.search(r"\bspawn\b", text)
        self.replayed(Replay(self.rewritten(), Record(self.text)))

    def call(self, *words):
        how = {"stdin": subprocess.DEVNULL, "capture_output": True, "timeout": SECONDS}
        return subprocess.run([self.program, *words], **how)

    def said(self, *words):
        done = self.call(*words)
        if done.returncode not in (0, 5, 6):
            raise Refused(f"{words[0]}: status {done.returncode}: {done.stderr.decode().strip()}")
        return done.stdout

    def audited(self, text):
        """Whether the program accepts a record."""
        record = self.folder / "T.record"
        record.write_bytes(text)
        return self.call("audit", self.file, record).returncode == 0

    def accepted(self, text):
        """Whether our replay does."""
        try:
            Replay(self.rewritten(), Record(text)).whole()
        except (Refused, KeyError, IndexError, ValueError, TypeError, AttributeError):
            return False
        return True

    def rewritten(self):
        return Program(self.declarations, REWRITTEN if self.spawns else PLAIN)

    def replayed(self, replay):
        self.replay = replay
        self.picks = replay.whole() if self.spawns else replay.whole() and None

    def choose(self, fuel, rng):
        """Takes a run by chance in the place of the recorded one, and lets the program audit it."""
        self.replayed(Chosen(self.rewritten(), fuel, rng))
        record = self.folder / "T.record"
        record.write_bytes(self.replay.text)
        if self.said("audit", self.file, record) != self.replay.record.output:
            raise Refused("the audit printed something else")

    def follows(self, mapping=None, machine=Threads):
        """Runs the mapped picks on a machine, which it answers, or None where there are none."""
        if self.picks is None:
            return None
        it = machine(Program(self.declarations, THREADS, ThreadCall))
        picks, counted = self.picks, self.replay.counted
        if mapping is not None:
            picks = mapping(picks[:counted]), picks[counted:]
            picks, counted = [*picks[0], *picks[1]], len(picks[0])
        follows(self.replay, picks, counted, it)
        return it
