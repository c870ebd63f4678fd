"""A check is a function that answers what is wrong, or None; a part is the checks of one kind."""
import concurrent.futures
import os
import pathlib
import shlex
import subprocess
import sys

TOP = pathlib.Path(__file__).resolve().parent.parent.parent
SECONDS = 600


class Program:
    """The program that is tried."""

    def __init__(self, path):
        self.path = path

    def run(self, words, folder):
        """The status, the output and the note of a run of these words in a folder."""
        how = {"cwd": folder, "stdin": subprocess.DEVNULL, "capture_output": True}
        done = subprocess.run([self.path, *words], timeout=SECONDS, **how)
        return done.returncode, done.stdout, done.stderr.decode("utf-8", "replace")

    def compare(self, name, words, folder, wanted):
        """What is wrong with the status, the output and the note of a run."""
        got = self.run(words, folder)
        if got == wanted:
            return None
        lines = [f"{name}: {shlex.join(words)}"]
        for part, want, is_now in zip(("status", "out", "note"), wanted, got):
            if want != is_now:
                lines.append(f"    {part}: wanted {want!r:.300}")
                lines.append(f"    {' ' * len(part)}  but is {is_now!r:.300}")
        return "\n".join(lines)


class Progress:
    """How far a part is: one line, written again, where the output is a terminal."""

    def __init__(self, kind, count):
        self.kind, self.count, self.done = kind, count, 0
        self.is_shown = sys.stdout.isatty()

    def tell(self):
        self.done += 1
        if self.is_shown:
            print(f"\r{self.kind}: {self.done} of {self.count}", end="", flush=True)

    def clear(self):
        if self.is_shown:
            print("\r\033[K", end="")


def answer(check):
    """What a check answers, or how it ended without an answer."""
    try:
        return check()
    except subprocess.TimeoutExpired as ended:
        return f"{shlex.join(map(str, ended.cmd))}: no answer in {SECONDS} s"


def run_part(kind, checks):
    """Calls the checks, says what is wrong, and how many passed; answers whether all did."""
    progress, wrong = Progress(kind, len(checks)), []
    with concurrent.futures.ThreadPoolExecutor(os.cpu_count()) as pool:
        for fault in pool.map(answer, checks):
            progress.tell()
            if fault:
                wrong.append(fault)
    progress.clear()
    for fault in wrong:
        print(fault)
    print(f"{kind}: {len(checks) - len(wrong)} passed, {len(wrong)} failed", flush=True)
    return not wrong
