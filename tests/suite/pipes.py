"""Runs whose output goes into a pipe.

What a component prints is written while its run goes on: a reader has a line before the run ends.
Where the reader goes away, the run goes on to its end, and the call ends with status 4.
"""
import functools
import os
import pathlib
import select
import subprocess
import tempfile

from suite.checks import SECONDS

WORKERS = 1, 4

# It prints a line, and then goes round until its fuel is out.
LOOPS = """component T
export Executable
run(): () = do
  println("begun")
  while true do () end
end
end
"""

# It prints more bytes than a pipe holds.
PRINTS = f"""component T
export Executable
run(): () = for i <- 0#3000 do println("{'a' * 99}") end
end
"""

FAULT = b"write fault\n"


def begin(program, source, workers, folder):
    """A run of a component by so many workers, with its output and its notes in pipes."""
    (pathlib.Path(folder) / "T.fss").write_text(source)
    words = ["run", "T.fss", "--workers", str(workers), "--fuel", "20000000"]
    pipes = {"stdout": subprocess.PIPE, "stderr": subprocess.PIPE, "bufsize": 0}
    return subprocess.Popen([program.path, *words], cwd=folder, stdin=subprocess.DEVNULL, **pipes)


def stop(run):
    run.kill()
    run.communicate()


def comes_before_the_end(program, workers):
    """The line is there, and a second later the run still goes on."""
    name = f"a line before the end by {workers} workers"
    with tempfile.TemporaryDirectory() as folder:
        run = begin(program, LOOPS, workers, folder)
        try:
            if not select.select([run.stdout], [], [], SECONDS)[0]:
                return f"{name}: nothing in {SECONDS} s"
            line = os.read(run.stdout.fileno(), 100)
            run.wait(1)
            return f"{name}: the run has ended with {run.returncode}"
        except subprocess.TimeoutExpired:
            return None if line == b"begun\n" else f"{name}: {line!r}"
        finally:
            stop(run)


def ends_with_4(program, workers):
    """The reader reads a little, and goes away."""
    name = f"a reader who goes away by {workers} workers"
    with tempfile.TemporaryDirectory() as folder:
        run = begin(program, PRINTS, workers, folder)
        try:
            os.read(run.stdout.fileno(), 100)
            run.stdout.close()
            note = run.stderr.read()
            status = run.wait(SECONDS)
            if (status, note) == (4, FAULT):
                return None
            return f"{name}: status {status}, note {note!r:.100}"
        finally:
            stop(run)


def pipes(program):
    checks = comes_before_the_end, ends_with_4
    return [functools.partial(check, program, count) for check in checks for count in WORKERS]
