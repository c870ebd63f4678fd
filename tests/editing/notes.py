"""What the program says of sources, and its notes as data."""
import dataclasses
import pathlib
import re
import subprocess
import tempfile

from editing import sources

UNICODE = ["é é *", "\t\t*", "名前 *", "𝒳 *", "x̂ *", "\n\n  a\u00a0", "(* é\n *) \"名\" *"]


@dataclasses.dataclass
class Note:
    """The note of a refused source."""
    text: str
    line: int
    column: int
    rule: int
    name: str


def answer(program, command, source):
    """The status, the standard output and the rule's note, if any, of a command on a source."""
    with tempfile.TemporaryDirectory() as folder:
        (pathlib.Path(folder) / "T.fss").write_bytes(source)
        done = subprocess.run([program, command, "T.fss"], cwd=folder, capture_output=True)
    text = done.stderr.decode()
    found = re.fullmatch(r"T\.fss:(\d+):(\d+): rule (\d+) (\w+)\n", text)
    note = Note(text, *map(int, found.groups()[:3]), found[4]) if found else None
    return done.returncode, done.stdout.decode(), note


def notes(program):
    """Refused sources, with their notes: those of the pages of rules, and some beyond ASCII."""
    texts = dict(sources.page_sources())
    texts.update({f"unicode_{at}.fss": text for at, text in enumerate(UNICODE)})
    told = {name: answer(program, "check", text.encode())[2] for name, text in texts.items()}
    return {name: (texts[name], note) for name, note in told.items() if note}
