"""The examples, the cases, and the records of their runs.

An example NAME.fss is run by `run` and has to print NAME.expected; NAME.shown is what `show`
writes of it. The files of a folder NAME beside a NAME.expected are run by `link`, in the order of
their names. A case NAME.fss has its words and what comes of them in NAME.expect:

    args: run FILE --fuel 4      the words; FILE stands for the source's name
    status: 6
    note: out of fuel            what stands on standard error, without its line feed
    out:
    ..                           the exact bytes of standard output

A folder NAME with a file `expect` of this form is a case too: the program runs in the folder, over
the files that the words name.
"""
import functools
import pathlib
import tempfile

from suite.checks import TOP

EXAMPLES = TOP / "examples", TOP / "examples/exercises"
CASES = TOP / "tests/cases"


def sources():
    """The examples, and the solutions of the exercises."""
    return [source for folder in EXAMPLES for source in sorted(folder.glob("*.fss"))]


def linked():
    """The examples of several files: the folder, and its files in the order of their names."""
    for folder in sorted(it for it in EXAMPLES[0].iterdir() if it.with_suffix(".expected").exists()):
        if folder.is_dir():
            yield folder, sorted(it.name for it in folder.glob("*.fss"))


def examples(program):
    checks = []
    for source in sources():
        for suffix, command in ((".expected", "run"), (".shown", "show")):
            wanted = source.with_suffix(suffix)
            if wanted.exists():
                answers = 0, wanted.read_bytes(), ""
                words = [command, source.name]
                row = source.stem, words, source.parent, answers
                call = functools.partial(program.compare, *row)
                checks.append(call)
    for folder, names in linked():
        answers = 0, folder.with_suffix(".expected").read_bytes(), ""
        row = folder.name, ["link", *names], folder, answers
        checks.append(functools.partial(program.compare, *row))
    return checks


def read_case(expect, source):
    """A case's words, and the status, the output and the note that it wants."""
    head, _, out = expect.read_bytes().partition(b"\nout:\n")
    fields = dict(line.partition(":")[::2] for line in head.decode().splitlines())
    words = [source if word == "FILE" else word for word in fields["args"].split()]
    note = fields["note"].strip()
    if note.startswith("FILE:"):
        note = source + note[4:]
    return words, (int(fields["status"]), out, note + "\n" if note else "")


def read_cases():
    """Each case: its name, its words, its folder, and what it wants."""
    for expect in sorted(CASES.glob("*.expect")):
        words, wanted = read_case(expect, expect.with_suffix(".fss").name)
        yield expect.stem, words, CASES, wanted
    for expect in sorted(CASES.glob("*/expect")):
        words, wanted = read_case(expect, "")
        yield expect.parent.name, words, expect.parent, wanted


def cases(program):
    return [functools.partial(program.compare, *row) for row in read_cases()]


def is_recorded(program, words, folder, status, out):
    """`record` ends as `run` does, and the audit of what it writes prints what `run` prints."""
    source = next(word for word in words if word.endswith(".fss"))
    ended, record, _ = program.run(["record", *words], folder)
    if ended != status:
        return f"{source}: `record` ended with {ended}, and `run` ends with {status}"
    with tempfile.NamedTemporaryFile() as kept:
        pathlib.Path(kept.name).write_bytes(record)
        return program.compare(source, ["audit", source, kept.name], folder, (0, out, ""))


def records(program):
    """Of each run among the examples and the cases that has a record."""
    runs = []
    for source in sources():
        wanted = source.with_suffix(".expected").read_bytes()
        runs.append(([source.name], source.parent, 0, wanted))
    for _, (command, *words), folder, (status, out, _) in read_cases():
        if command == "run" and status in (0, 5, 6):
            runs.append((words, folder, status, out))
    return [functools.partial(is_recorded, program, *run) for run in runs]
