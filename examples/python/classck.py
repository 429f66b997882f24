#!/usr/bin/env python3
"""Calls libclassck from Python:  python3 classck.py CLASS KNOWN..  prints what `classck verify` prints.

`CLASSCK_LIBRARY` names the shared library, where it is not in one of the folders in which the system looks for it.
"""
import ctypes
import itertools
import os
import sys
from typing import NamedTuple

CHECK, SHOW, VERIFY, EXPLAIN, PLAY, VERIFY_EACH = range(1, 7)
JSON, DYNAMIC = 1, 2
NO_CALL, NO_MEMORY = 2, 3


class Request(ctypes.Structure):
    _fields_ = [("command", ctypes.c_uint32), ("options", ctypes.c_uint32), ("classes", ctypes.c_size_t), ("seed", ctypes.c_uint64)]


class Outcome(ctypes.Structure):
    _fields_ = [("status", ctypes.c_uint32), ("needed", ctypes.c_size_t)]


class Answer(NamedTuple):
    """The status, 0 or 1 as the program's, and the text."""

    status: int
    text: str


LIBRARY = ctypes.CDLL(os.environ.get("CLASSCK_LIBRARY", "libclassck.so.0"))
LIBRARY.classck_answer.restype = None
LIBRARY.classck_answer.argtypes = [
    ctypes.POINTER(Request), ctypes.c_char_p, ctypes.c_size_t, ctypes.POINTER(ctypes.c_uint32), ctypes.c_size_t,
    ctypes.c_char_p, ctypes.c_size_t, ctypes.POINTER(Outcome)]
VERSION = ctypes.c_char.in_dll(LIBRARY, "classck_version")


def answer(command, files, options=0, classes=1):
    """The answer to a command about files, each as bytes; the first `classes` are judged, and the others are known."""
    ends = list(itertools.accumulate(map(len, files)))
    data, outcome, room = b"".join(files), Outcome(), 4096
    request = Request(command, options, classes, int.from_bytes(os.urandom(8), "little"))
    while True:
        text = ctypes.create_string_buffer(room)
        LIBRARY.classck_answer(request, data, len(data), (ctypes.c_uint32 * len(ends))(*ends), len(ends), text, room, outcome)
        if outcome.status == NO_CALL:
            raise ValueError("the command has not these options, or may not judge so many files")
        if outcome.status == NO_MEMORY:
            raise MemoryError
        if outcome.needed <= room:
            return Answer(outcome.status, text.raw[:outcome.needed].decode("ascii"))
        room = outcome.needed


def main(names):
    files = []
    for name in names:
        with open(name, "rb") as file:
            files.append(file.read())
    found = answer(VERIFY, files)
    sys.stdout.write(found.text)
    return found.status


if __name__ == "__main__":
    sys.exit(main(sys.argv[1:]))
