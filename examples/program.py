"""The program: where it is, how it is built, and how it is called; what it knows of releases. All else is loaded where it is needed."""
import collections
import errno
import os
import sys

from output import Refused, escaped, reason

HERE = os.path.dirname(os.path.realpath(__file__))
TOP = os.path.dirname(HERE)
# In the repository, and where `.ci/install` puts it.
WRAPPER, BUILT, INSTALLED = f"{TOP}/classck", f"{TOP}/crates/classck/out/classck", f"{os.path.dirname(TOP)}/bin/classck"
PROGRAM = BUILT if os.path.isfile(WRAPPER) else INSTALLED
# So many bytes of a process's answer are read: a method's name may stand in each of many lines, so the answer may be far longer than the file.
MOST_OUTPUT = 1 << 28
# The limit of the stack at which Linux takes the longest lines that it takes at all, 6 MB.
STACK = 1 << 25
# The numbers of releases that the program knows.
RELEASES = range(7, 28)
# The most bytes that the classes of all jars may have.
MOST_CLASSES = 1 << 32


class Profile(collections.namedtuple("Profile", "dynamic release", defaults=(False, None))):
    """How classes are judged: with --dynamic, and with --release and this number, or without them."""

    def versions(self):
        """The words by which the program knows the versions of class files."""
        return ["--release", str(self.release)] if self.release else []

    def words(self):
        """The words of a command that judges."""
        return [*(["--dynamic"] if self.dynamic else []), *self.versions()]


def begin_build():
    """Begins to build the program if it is not built, or a source is newer, and returns the process. An installed program needs no build."""
    import subprocess

    words = [WRAPPER, "check", f"{HERE}/classes/Hello.class"]
    return subprocess.Popen(words, stdout=subprocess.DEVNULL) if os.path.isfile(WRAPPER) else None


def end_build(process):
    """Waits for it. Ends with status 2 where the program cannot be built."""
    if process and process.wait() == 3:
        sys.exit(2)


def build():
    end_build(begin_build())


def call(*words):
    """The lines that the program prints on these words, those on standard error, and the status."""
    import tempfile

    with tempfile.TemporaryFile() as errors:
        process = begin(words, errors)
        with process.stdout as out:
            text = out.read(MOST_OUTPUT + 1)
        if len(text) > MOST_OUTPUT:
            process.kill()
        status = process.wait()
        if len(text) > MOST_OUTPUT:
            raise Refused(f"an answer has more than {MOST_OUTPUT} bytes")
        if status < 0:
            raise Refused(f"the program was ended by signal {-status}")
        errors.seek(0)
        return text.decode(), errors.read(1 << 16).decode(errors="replace").splitlines(), status


def begin(words, errors):
    """The program's process on these words. Where they are too long for a process, the limit that goes by that of the stack is raised."""
    import resource
    import subprocess

    for is_last in (False, True):
        try:
            return subprocess.Popen([PROGRAM, *words], stdout=subprocess.PIPE, stderr=errors)
        except OSError as why:
            if why.errno != errno.E2BIG or is_last:
                raise Refused(f"{escaped(PROGRAM)} cannot be called with {len(words)} words: {reason(why)}") from why
        hard = resource.getrlimit(resource.RLIMIT_STACK)[1]
        resource.setrlimit(resource.RLIMIT_STACK, (STACK if hard == resource.RLIM_INFINITY else min(STACK, hard), hard))
    return None
