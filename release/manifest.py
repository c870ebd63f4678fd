"""Manifests: what stands beside a program that was built, and of which sources it was.

    program: HASH        sha256 of the program
    size: BYTES
    sources: HASH        sha256 of what release/sources writes of them
    toolchain: WORDS     what `rt version` says
    glibc: 2.34          the lowest GNU C library that has all that the program asks of it
    loader: PATH         what loads it

The last two are left out where the program asks for none.
"""
import hashlib
import pathlib
import re
import shutil
import struct
import subprocess

HERE = pathlib.Path(__file__).resolve().parent
TOP = HERE.parent
VERSIONS_NEEDED = 0x6FFFFFFE
INTERPRETER = 3


class NotAProgram(Exception):
    """The file is none that Linux on x86-64 runs."""


def hash_of(data):
    return hashlib.sha256(data).hexdigest()


def list_sources():
    """The list of the sources, as release/sources writes it."""
    return subprocess.run([HERE / "sources"], check=True, stdout=subprocess.PIPE).stdout


def toolchain():
    """The identity of the toolchain in the path, or that there is none."""
    if shutil.which("rt") is None:
        return "no toolchain"
    asked = subprocess.run(["rt", "version"], check=True, stdout=subprocess.PIPE, text=True)
    return asked.stdout.strip()


def text_at(data, at):
    """The text that begins there and ends before a byte 0."""
    return data[at : data.index(0, at)].decode()


def table(data, at, size, count, fields):
    """The rows of one of an executable's tables, each of so many bytes."""
    return [struct.unpack_from(fields, data, at + number * size) for number in range(count)]


def loader(data):
    """The path of what loads an executable, or None."""
    start, size, count = *struct.unpack_from("<Q", data, 32), *struct.unpack_from("<HH", data, 54)
    for kind, _, offset, *_ in table(data, start, size, count, "<IIQQQQQQ"):
        if kind == INTERPRETER:
            return text_at(data, offset)
    return None


def versions_needed(data):
    """The names of all versions that an executable asks of its libraries' symbols."""
    start, size, count = *struct.unpack_from("<Q", data, 40), *struct.unpack_from("<HH", data, 58)
    sections = table(data, start, size, count, "<IIQQQQIIQQ")
    for _, kind, _, _, library, _, link, libraries, *_ in sections:
        if kind == VERSIONS_NEEDED:
            names = sections[link][4]
            for _ in range(libraries):
                _, versions, _, first, following = struct.unpack_from("<HHIII", data, library)
                version = library + first
                for _ in range(versions):
                    *_, name, next_version = struct.unpack_from("<IHHII", data, version)
                    yield text_at(data, names + name)
                    version += next_version
                library += following


def lowest_glibc(data):
    """The lowest GNU C library that has all versions that an executable asks for, or None."""
    found = [re.fullmatch(r"GLIBC_(\d+(?:\.\d+)*)", name) for name in versions_needed(data)]
    numbers = [tuple(map(int, it[1].split("."))) for it in found if it]
    return ".".join(map(str, max(numbers))) if numbers else None


def manifest_of(program, sources):
    """The text of the manifest of a program that was built of these sources."""
    if program[:5] != b"\x7fELF\x02" or program[18:20] != b"\x3e\x00":
        raise NotAProgram("the program is no executable of x86-64")
    rows = {"program": hash_of(program), "size": len(program), "sources": hash_of(sources)}
    rows |= {"toolchain": toolchain(), "glibc": lowest_glibc(program), "loader": loader(program)}
    return "".join(f"{name}: {value}\n" for name, value in rows.items() if value is not None)


def read(folder):
    """The rows of a folder's manifest; none where it has none."""
    try:
        lines = (folder / "MANIFEST").read_text().splitlines()
    except FileNotFoundError:
        return {}
    return dict(line.partition(": ")[::2] for line in lines)


def contents(sources):
    """What a list of sources says of each file: its hash, or the lines of crates.txt."""
    found = {"crates.txt": ""}
    for line in sources.decode().splitlines():
        if line.startswith("# "):
            found["crates.txt"] += line
        else:
            is_now, name = line.split("  ", 1)
            found[name] = is_now
    return found


def first_difference(old, new):
    """The first file that differs between two lists of sources, or None."""
    old, new = contents(old), contents(new)
    return next((it for it in sorted(old.keys() | new.keys()) if old.get(it) != new.get(it)), None)
