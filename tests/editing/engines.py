"""The regular expressions of a TextMate grammar: by Oniguruma, the library that VS Code has, where
it is there, and by Python. Both answer the spans of groups, in characters, or None."""
import ctypes
import ctypes.util
import functools
import re
import sys


class Region(ctypes.Structure):
    """Where the groups of a match stand, in bytes."""
    _fields_ = [("allocated", ctypes.c_int), ("count", ctypes.c_int),
                ("begin", ctypes.POINTER(ctypes.c_int)), ("end", ctypes.POINTER(ctypes.c_int)),
                ("history", ctypes.c_void_p)]


class Oniguruma:
    """The C library, called as VS Code calls it: UTF-8, its default syntax."""
    name = "Oniguruma"

    def __init__(self):
        """Finds the library, or raises OSError."""
        name = ctypes.util.find_library("onig")
        if not name:
            raise OSError("Oniguruma isn't installed")
        self.library = ctypes.CDLL(name)
        self.library.onig_region_new.restype = ctypes.POINTER(Region)
        self.encoding = ctypes.byref(ctypes.c_char.in_dll(self.library, "OnigEncodingUTF8"))
        self.syntax = ctypes.c_void_p.in_dll(self.library, "OnigDefaultSyntax")
        self.region = self.library.onig_region_new()
        self.compiled = {}

    def compile(self, pattern):
        """A pattern's program; an error of the library is a ValueError."""
        if pattern not in self.compiled:
            made, data, info = ctypes.c_void_p(), pattern.encode(), (ctypes.c_char * 64)()
            buffer = ctypes.create_string_buffer(data, len(data) + 1)
            start = ctypes.addressof(buffer)
            code = self.library.onig_new(
                ctypes.byref(made), ctypes.c_void_p(start), ctypes.c_void_p(start + len(data)),
                ctypes.c_uint(0), self.encoding, self.syntax, info)
            if code:
                raise ValueError(f"Oniguruma answers {code} to {pattern}")
            self.compiled[pattern] = made
        return self.compiled[pattern]

    def search(self, pattern, text, start):
        """The spans of the first match at or behind a character."""
        data = text.encode()
        buffer = ctypes.create_string_buffer(data, len(data) + 1)
        at = ctypes.addressof(buffer)
        first, end = at + len(text[:start].encode()), ctypes.c_void_p(at + len(data))
        found = self.library.onig_search(
            self.compile(pattern), ctypes.c_void_p(at), end, ctypes.c_void_p(first), end,
            self.region, ctypes.c_uint(0))
        if found < 0:
            return None
        region = self.region.contents
        return [None if region.begin[it] < 0 else
                (len(data[: region.begin[it]].decode()), len(data[: region.end[it]].decode()))
                for it in range(region.count)]


@functools.lru_cache(None)
def ranges(front):
    """The inside of a class with all characters that make an identifier behind this front."""
    found, start = [], None
    for at in range(sys.maxunicode + 2):
        belongs = at <= sys.maxunicode and (front + chr(at)).isidentifier()
        if belongs and start is None:
            start = at
        elif not belongs and start is not None:
            found.append(f"\\U{start:08x}-\\U{at - 1:08x}")
            start = None
    return "".join(found)


class Python:
    """The module `re`, with the two properties of Unicode that it hasn't written out."""
    name = "Python"

    def __init__(self):
        """Nothing is compiled yet."""
        self.compiled = {}

    def compile(self, pattern):
        """A pattern's program; an error is a ValueError."""
        if pattern not in self.compiled:
            start, more = ranges("").replace("_-_", ""), ranges("a")
            text = re.sub(r"\[([^\]\\]*)\\p\{XID_Start\}", lambda it: f"[{it[1]}{start}", pattern)
            text = text.replace(r"\p{XID_Continue}", f"[{more}]")
            try:
                self.compiled[pattern] = re.compile(text, re.M)
            except re.error as error:
                raise ValueError(f"Python answers {error} to {pattern}") from error
        return self.compiled[pattern]

    def search(self, pattern, text, start):
        """The spans of the first match at or behind a character."""
        found = self.compile(pattern).search(text, start)
        if not found:
            return None
        return [None if span == (-1, -1) else span for span in found.regs]


def engines():
    """Those that are here."""
    try:
        return [Oniguruma(), Python()]
    except OSError:
        return [Python()]
