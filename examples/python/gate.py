#!/usr/bin/env python3
"""Asks one program that stays, `classck serve`:  python3 gate.py CLASS KNOWN..  prints what `classck verify` prints.

`CLASSCK` names the program, where it is not on the path.
"""
import os
import struct
import subprocess
import sys
import tempfile
import threading
from typing import NamedTuple

MOST = 16_777_216


class Answer(NamedTuple):
    """The status, 0 or 1 as the program's, and the text."""

    status: int
    text: str


class Gate:
    """The program, to which the classes of some files are known. Any number of threads may ask it; RuntimeError says that it has ended."""

    def __init__(self, known=(), options=(), program=None):
        words = [program or os.environ.get("CLASSCK", "classck"), "serve", *options, *(["--known", *known] if known else [])]
        self.lock, self.errors = threading.Lock(), tempfile.TemporaryFile()
        self.process = subprocess.Popen(words, stdin=subprocess.PIPE, stdout=subprocess.PIPE, stderr=self.errors)

    def known(self, data):
        """Makes a class known, by the bytes of its file."""
        return self.ask(b"k", data)

    def judge(self, data):
        """The verdicts on a class, as `verify` prints them."""
        return self.ask(b"v", data)

    def define(self, data):
        """The verdicts on a class, which becomes known if nothing is refused."""
        return self.ask(b"d", data)

    def explain(self, data):
        """The methods of a class that are refused, as `explain` prints them."""
        return self.ask(b"x", data)

    def forget(self):
        """Forgets all known classes."""
        return self.ask(b"f", b"")

    def close(self):
        """Ends the program, and gives its status."""
        with self.lock:
            self.process.communicate()
            self.errors.close()
            return self.process.returncode

    def ask(self, kind, data):
        """Sends a message, and gives the reply to it."""
        if len(data) > MOST:
            raise ValueError(f"a class file of {len(data)} bytes: {MOST} are the most")
        with self.lock:
            try:
                self.process.stdin.write(kind + struct.pack(">I", len(data)) + data)
                self.process.stdin.flush()
                status, length = struct.unpack(">BI", self.read(5))
                return Answer(status, self.read(length).decode("ascii"))
            except (BrokenPipeError, EOFError) as why:
                raise RuntimeError(self._end()) from why
            except BaseException:
                # The rest of this reply would be taken for the next one.
                self.process.kill()
                raise

    def read(self, count):
        """So many bytes of replies."""
        data = self.process.stdout.read(count)
        if len(data) < count:
            raise EOFError
        return data

    def _end(self):
        """How the program ended, with what it wrote on standard error."""
        try:
            self.process.wait(5)
        except subprocess.TimeoutExpired:
            self.process.kill()
        self.errors.seek(0)
        said = self.errors.read(4096).decode(errors="replace").strip()
        return f"{self.process.args[0]} ended with status {self.process.wait()}: {said}"

    def __enter__(self):
        return self

    def __exit__(self, *_):
        self.close()


def main(names):
    try:
        with open(names[0], "rb") as file, Gate(names[1:]) as gate:
            found = gate.judge(file.read())
    except (OSError, RuntimeError, ValueError) as why:
        print(why, file=sys.stderr)
        return 2
    sys.stdout.write(found.text)
    return found.status


if __name__ == "__main__":
    sys.exit(main(sys.argv[1:]))
