"""The rows of tests/words, each a status and the words that end with it."""
import functools
import pathlib
import shlex
import tempfile

from suite.checks import TOP

COMPONENT = 'component T export Executable run(): () = println("a") end'
RECORD = "fortress record 1\nfuel 4\ns - 0\ns - 0\ncompleted\noutput 2\na\n"


def has_status(program, words, wanted):
    """Runs the words in a folder with a component and the record of its run."""
    with tempfile.TemporaryDirectory() as folder:
        (pathlib.Path(folder) / "T.fss").write_text(COMPONENT)
        (pathlib.Path(folder) / "R").write_text(RECORD)
        status, _, note = program.run(words, folder)
    if status == wanted:
        return None
    return f"{shlex.join(words)}: wanted status {wanted}, but it is {status}: {note!r:.100}"


def words(program):
    checks = []
    for line in (TOP / "tests/words").read_text().splitlines():
        if not line.startswith("#"):
            status, *row = shlex.split(line)
            checks.append(functools.partial(has_status, program, row, int(status)))
    return checks
