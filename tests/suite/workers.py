"""Runs by one worker and by several.

By one worker a run is the same each time: two calls print the same and record the same. By several
it needn't be, since it depends on who comes first. But each record is that of a run of the
component: its audit accepts it, and prints what was recorded. That is what the example or the case
wants, with its status; a case that names its number of workers wants it by that number alone, since
what it prints, or whether its fuel is enough, may depend on the schedule. Of examples/workers.fss
some runs by several differ from the one by one worker.
"""
import functools
import pathlib
import tempfile

from suite.checks import TOP
from suite.files import read_cases, sources

FOLDER, SOURCE = TOP / "examples", "workers.fss"
SEVERAL = 2, 4, 8
RUNS = 0, 5, 6


def parted(words):
    """Words without the number of workers, and that number, or None where they name none."""
    kept, number, left = [], None, list(words)
    while left and left[0] != "--":
        name, sign, value = left.pop(0).partition("=")
        if name == "--workers":
            number = int(value if sign else left.pop(0))
        else:
            kept.append(name + sign + value)
    return kept + left, number


def record(program, words, folder, workers):
    """The status and the record of a run by so many workers."""
    return program.run(["record", "--workers", str(workers), *words], folder)[:2]


def output_of(kept):
    """What a record says that its run printed: no other line of it begins so."""
    return kept.partition(b"\noutput ")[2].partition(b"\n")[2]


def is_the_same_by_one(program, words, folder):
    """Two runs by one worker print the same, and two records are the same."""
    alone = ["run", "--workers", "1", *words]
    first, kept = program.run(alone, folder), record(program, words, folder, 1)
    if kept[0] != first[0] or output_of(kept[1]) != first[1]:
        return f"{words[0]}: by one worker `record` and `run` differ"
    if program.run(alone, folder) != first or record(program, words, folder, 1) != kept:
        return f"{words[0]}: two runs by one worker differ"
    return None


def is_a_run(program, words, folder, wanted, workers):
    """The record of a run by so many workers is accepted; `wanted` are the status and the output
    that it has to have, or None where any run will do."""
    source = next(word for word in words if word.endswith(".fss"))
    name = f"{source} by {workers} workers"
    status, kept = record(program, words, folder, workers)
    if status not in RUNS or wanted and status != wanted[0]:
        return f"{name}: the status is {status}" + (f", and not {wanted[0]}" if wanted else "")
    out = wanted[1] if wanted else output_of(kept)
    with tempfile.NamedTemporaryFile() as file:
        pathlib.Path(file.name).write_bytes(kept)
        return program.compare(name, ["audit", source, file.name], folder, (0, out, ""))


def is_another_by_several(program):
    alone = record(program, [SOURCE], FOLDER, 1)
    if any(record(program, [SOURCE], FOLDER, workers) != alone for workers in SEVERAL):
        return None
    return f"{SOURCE}: each run by several is the one by one worker"


def runs():
    """The examples, and the cases that run: words, folder, what is wanted, and by which number of
    workers alone, or None."""
    for source in sources():
        yield [source.name], source.parent, (0, source.with_suffix(".expected").read_bytes()), None
    for _, (command, *words), folder, (status, out, _) in read_cases():
        if command == "run" and status in RUNS:
            words, number = parted(words)
            yield words, folder, (status, out), number


def workers(program):
    checks = [functools.partial(is_another_by_several, program)]
    for source in sources():
        row = program, [source.name], source.parent
        checks.append(functools.partial(is_the_same_by_one, *row))
    for words, folder, wanted, number in runs():
        for count in SEVERAL:
            asked = wanted if number in (None, count) else None
            checks.append(functools.partial(is_a_run, program, words, folder, asked, count))
    return checks
