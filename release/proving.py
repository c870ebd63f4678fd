"""Proves and builds the program by `rt ci` on a copy of the crates that it stands on, without
their tests and wrong bodies, as many side by side as there are processors. What was proved on this
machine before isn't proved again, where the toolchain keeps it.
"""
import contextlib
import os
import pathlib
import re
import shutil
import signal
import subprocess
import sys
import tempfile
import threading
import time

import manifest

NAME = "fortress"
PROGRAM = pathlib.Path("crates", NAME, "out", NAME)
BUILD = manifest.TOP / ".build"
LOG = BUILD / "log"
TESTS = "#[cfg(test)]\nmod tests;\n"
ENDS = signal.SIGINT, signal.SIGTERM, signal.SIGHUP


class NotBuilt(Exception):
    """Why there is no program."""


def say(text):
    """Writes a line to standard error; where it can't be written, the build goes on."""
    with contextlib.suppress(OSError, AttributeError):
        sys.stderr.write(f"fortress: {text}\n")
        sys.stderr.flush()


class Progress:
    """How far the build is: one line, written again, on a terminal; elsewhere a line a crate."""

    def __init__(self, count):
        self.count, self.done, self.began = count, 0, time.monotonic()
        self.is_terminal = sys.stderr is not None and sys.stderr.isatty()
        self.lock, self.ended = threading.Lock(), threading.Event()

    def tell(self, name=None):
        with self.lock:
            self.done += name is not None
            seconds = int(time.monotonic() - self.began)
            text = f"{self.done} of {self.count} crates proved, {seconds} s"
            if self.is_terminal:
                print(f"\rfortress: {text}", end="", file=sys.stderr, flush=True)
            elif name is not None:
                say(f"{text}: {name}")

    def tick(self):
        while not self.ended.wait(1):
            self.tell()

    def __enter__(self):
        threading.Thread(target=self.tick, daemon=True).start()
        return self

    def __exit__(self, *_):
        self.ended.set()
        with self.lock:
            if self.is_terminal:
                print(file=sys.stderr)


def copy(crates, top):
    """Copies the crates to a folder of their own, without their tests and wrong bodies."""
    (top / ".git").mkdir()
    (top / "crates.txt").write_text("".join(f"{line}\n" for line in crates.values()))
    shutil.copy(manifest.TOP / "HANDLES", top)
    left_out = shutil.ignore_patterns("out", "must-fail", "README.md", ".*", "*~")
    for name in crates:
        folder = top / "crates" / name
        shutil.copytree(manifest.TOP / "crates" / name, folder, ignore=left_out)
        root = folder / "src" / ("main.rt" if name == NAME else "lib.rt")
        with_tests = root.read_text()
        without = with_tests.replace(TESTS, "")
        if without != with_tests:
            root.write_text(without.rstrip("\n") + "\n")
            (folder / "src" / "tests.rt").unlink()


def let_end():
    """Lets the signals through that end this process."""
    signal.pthread_sigmask(signal.SIG_UNBLOCK, ENDS)


def end(run):
    """Ends the toolchain, which an interrupt from the terminal has reached too."""
    asks = (None, 1), (signal.SIGINT, 10), (signal.SIGTERM, 5), (signal.SIGKILL, 5)
    for asked, seconds in asks:
        if asked:
            run.send_signal(asked)
        with contextlib.suppress(subprocess.TimeoutExpired):
            run.wait(seconds)
            return


def prove(top, count):
    """Proves and builds the crates of a folder."""
    failed = None
    how = {"stdout": subprocess.PIPE, "stderr": subprocess.STDOUT, "stdin": subprocess.DEVNULL}
    # None may come between the start of the toolchain and the lines that see to its end.
    signal.pthread_sigmask(signal.SIG_BLOCK, ENDS)
    how |= {"text": True, "errors": "replace", "preexec_fn": let_end}
    run = subprocess.Popen(["rt", "ci"], cwd=top, **how)
    try:
        let_end()
        with Progress(count) as progress, open(LOG, "w") as log:
            for line in run.stdout:
                log.write(line)
                told = re.match(r"rt: (\w+) (proved$|is kept:|NOT PROVED$)", line)
                if told and told[2].startswith("NOT"):
                    failed = failed or told[1]
                elif told:
                    progress.tell(told[1])
        run.wait()
    finally:
        end(run)
    if run.returncode != 0 or failed:
        raise NotBuilt(f"{failed or NAME} was not proved; {LOG} has all that was said")


def crates_of(sources):
    """The lines of crates.txt in a list of sources, by crate, without what tests alone may."""
    lines = [line[2:].strip() for line in sources.decode().splitlines() if line.startswith("# ")]
    return {re.match(r"\w+", line)[0]: re.sub(r" tests_may=[\w+]+", "", line) for line in lines}


def build():
    """Proves the program of the sources as they stand, and puts it and its manifest into .build;
    answers its path.
    """
    with tempfile.TemporaryDirectory(prefix="fortress-") as folder:
        top, sources = pathlib.Path(folder), manifest.list_sources()
        crates = crates_of(sources)
        copy(crates, top)
        if manifest.list_sources() != sources:
            raise NotBuilt("the sources were changed while they were read; call again")
        prove(top, len(crates))
        keep((top / PROGRAM).read_bytes(), sources)
    say("built")
    return str(BUILD / NAME)


def keep(program, sources):
    """Writes a program and its manifest into .build, each whole or not at all."""
    text = manifest.manifest_of(program, sources)
    for name, data in ((NAME, program), ("MANIFEST", text.encode())):
        made = BUILD / f"{name}.new"
        try:
            made.write_bytes(data)
            made.chmod(0o755 if name == NAME else 0o644)
            os.replace(made, BUILD / name)
        except BaseException:
            made.unlink(missing_ok=True)
            raise
