"""A copy of the launcher with small sources, a program that stands for the built one, and a
toolchain that proves nothing.
"""
import hashlib
import pathlib
import shutil
import subprocess
import sys
import time

from suite.checks import TOP

SHELL = pathlib.Path("/bin/sh").resolve()
TOOLS = """awk cat cp date env find getconf mkdir mv readlink rm sha256sum sleep sort tail
uname xargs"""
PYTHON = next(it for it in ("/usr/bin/python3", sys.executable) if pathlib.Path(it).exists())
SCRIPTS = "build check make manifest.py program proving.py sources".split()
WHICH = ["-c", "readlink /proc/$$/exe"]
CRATES = """# the crates
low tests_may=Threads+Wait:
aside: low
fortress may_wait=1: low
"""
NO_TOOLCHAIN = "`rt`, which proves and builds the sources, isn't in the path"

# What `rt ci` does after it was called: it builds, fails, or sleeps until it is ended.
BUILDS = """echo built >> "$CALLS"; cp "$SHELL" p; echo more >> p
mkdir -p crates/fortress/out; mv p crates/fortress/out/fortress
echo 'rt: low proved'; echo 'rt: fortress proved'"""
FAILS = "echo failed >> \"$CALLS\"; echo 'rt: low NOT PROVED'; exit 1"
LOOKS = """cat crates.txt crates/low/src/lib.rt > "$CALLS"
find . -type f | sort >> "$CALLS"; exit 1"""
SLEEPS = 'echo $$ > "$CALLS"; exec sleep 60'
WAITS = 'echo began >> "$CALLS"; until [ -e "$CALLS.go" ]; do sleep 0.1; done\n' + BUILDS


class Wrong(Exception):
    """What isn't as it should be."""


def wants(what, is_now, wanted):
    if is_now != wanted:
        raise Wrong(f"{what}: wanted {wanted!r:.300}, but is {is_now!r:.300}")


def wants_part(what, is_now, wanted):
    if wanted not in is_now:
        raise Wrong(f"{what}: wanted {wanted!r} in it, but is {is_now!r:.600}")


class Place:
    """A copy of the launcher with its own sources, its own path and, where wanted, a release."""

    def __init__(self, room, rt=None, has_release=True):
        self.top, self.tools, self.calls = room / "top", room / "tools", room / "calls"
        self.tools.mkdir(parents=True)
        for name in ["sh", *TOOLS.split()]:
            (self.tools / name).symlink_to(shutil.which(name))
        (self.tools / "python3").symlink_to(PYTHON)
        self.env = {"PATH": str(self.tools), "CALLS": str(self.calls), "SHELL": str(SHELL)}
        self.env |= {"TMPDIR": str(room), "HOME": str(room)}
        (self.top / "release").mkdir(parents=True)
        for name in ["fortress", *(f"release/{it}" for it in SCRIPTS)]:
            shutil.copy(TOP / name, self.top / name)
        self.write_sources()
        self.set_rt(BUILDS)
        if has_release:
            self.release()
        self.set_rt(rt)

    def write_sources(self):
        files = {"crates.txt": CRATES, "HANDLES": "none\n"}
        files["crates/low/src/lib.rt"] = "fn low\n#[cfg(test)]\nmod tests;\n"
        files["crates/low/src/tests.rt"] = "fn test\n"
        files["crates/low/specs/Lib.antt"] = "low\n"
        files["crates/low/proofs/Lib.antt"] = "low\n"
        files["crates/aside/src/lib.rt"] = "fn aside\n"
        files["crates/fortress/src/main.rt"] = "fn main\n"
        for name, text in files.items():
            self.write(name, text)

    def write(self, name, text):
        path = self.top / name
        path.parent.mkdir(parents=True, exist_ok=True)
        path.write_text(text)

    def set_rt(self, does):
        """Puts a toolchain in the path that does so when it is to prove, or none."""
        path = self.tools / "rt"
        path.unlink(missing_ok=True)
        if does is not None:
            says = '[ "$1" != version ] || { echo "a toolchain"; exit; }'
            path.write_text(f"#!/bin/sh\n{says}\n{does}\n")
            path.chmod(0o755)

    def release(self):
        """Makes the release as a maintainer does, of what stands for the built program."""
        out = self.top / "crates/fortress/out"
        out.mkdir(parents=True, exist_ok=True)
        shutil.copy(SHELL, out / "fortress")
        subprocess.run([self.top / "release/make"], env=self.env, check=True, capture_output=True)

    def start(self, *words, **how):
        pipes = {"stdin": subprocess.DEVNULL, "stdout": subprocess.PIPE, "stderr": subprocess.PIPE}
        command = [self.top / "fortress", *words]
        return subprocess.Popen(command, env=self.env, text=True, **{**pipes, **how})

    def run(self, *words, **how):
        """The status, the standard output and the notes of a call of the launcher."""
        with self.start(*words, **how) as run:
            out, notes = run.communicate(timeout=600)
        return run.returncode, out, notes

    def runs(self, program, words=WHICH, notes=""):
        """Asks that a call runs this program, and that its notes have this part, or are none."""
        status, out, said = self.run(*words)
        wants("status and program", (status, out), (0, f"{self.top / program}\n"))
        (wants_part if notes else wants)("notes", said, notes)

    def fails(self, *notes, **how):
        """Asks that a call ends as a failure of the launcher, with these parts in its notes."""
        status, out, said = self.run(*WHICH, **how)
        wants("status and output", (status, out), (125, ""))
        for part in notes:
            wants_part("notes", said, part)
        return said

    def stamps(self):
        """What release/program keeps beside the hash of the sources."""
        command = [self.top / "release/sources", "--stamps"]
        listed = subprocess.run(command, env=self.env, check=True, capture_output=True).stdout
        return hashlib.sha256(listed).hexdigest()

    def count_calls(self):
        return self.calls.read_text().count("built") if self.calls.exists() else 0

    def change_manifest(self, old, new):
        path = self.top / "release/MANIFEST"
        path.write_text(path.read_text().replace(old, new))


def wait_for(path):
    for _ in range(400):
        if path.exists() and path.read_text():
            return path.read_text()
        time.sleep(0.05)
    raise Wrong(f"{path.name} isn't there after 20 s")
