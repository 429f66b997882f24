"""A call of the program that is begun ahead, as an earlier call of classck-jar ended: while it works, all that it is given is found out as ever.

Its answer counts only where the words are the same, and each class of a jar that it read has the bytes that the jar has.
"""
import contextlib
import os
import zlib

import program

from classck_jar import cache

# The first line of a call that is kept, with a sum of all that follows, which has so many bytes at most.
HEAD, MOST = "classck-jar call 1 ", 1 << 24
KILL = 9
# The classes of so many jars are kept: the folder of each is open.
MOST_FOLDERS = 200


class Begun:
    """A process of the program on some words, which writes its answer into memory. It is begun with as little as possible loaded."""

    def __init__(self, words):
        self.words, self.program, self.status = words, identity(), None
        self.answer = os.memfd_create("answer", os.MFD_CLOEXEC)
        files = [(os.POSIX_SPAWN_OPEN, 2, os.devnull, os.O_WRONLY, 0), (os.POSIX_SPAWN_DUP2, self.answer, 1)]
        try:
            self.number = os.posix_spawn(program.PROGRAM, [program.PROGRAM, *words], os.environ, file_actions=files)
        except (ValueError, OSError):
            os.close(self.answer)
            raise

    def bound(self):
        """Bounds its answer: a longer one is never taken, and ends it."""
        import resource

        with contextlib.suppress(OSError):
            resource.prlimit(self.number, resource.RLIMIT_FSIZE, (program.MOST_OUTPUT, program.MOST_OUTPUT))

    def ended(self):
        """The answer, as `program.call` gives it, once it is there; None where the process ended without a verdict, or the program is another one by now."""
        self.status = os.waitpid(self.number, 0)[1]
        if self.status not in (0, 1 << 8) or identity() != self.program:
            return None
        with open(self.answer, "rb", buffering=0, closefd=False) as it:
            it.seek(0)
            return it.read().decode(), [], self.status >> 8

    def stop(self):
        """Ends it, if it has not ended."""
        if self.status is None:
            os.kill(self.number, KILL)
            os.waitpid(self.number, 0)
        os.close(self.answer)


class Ahead:
    """A call as it was kept under this path, or none; and the process that is begun by it."""

    def __init__(self, path=None):
        self.path, self.folders, self.begun, self.is_taken = path, [], None, False
        self.words, self.names = read(path) if path else ([], None)

    def __enter__(self):
        return self

    def __exit__(self, *_):
        self.stop()

    def begin(self):
        """Begins the call, where one was kept."""
        if self.words and hasattr(os, "memfd_create"):
            with contextlib.suppress(ValueError, OSError):
                self.begun = Begun(self.words)
                self.begun.bound()

    def stop(self):
        if self.begun:
            self.begun.stop()
        self.begun = None

    def folder(self, name, room):
        """The folder of the cache of this name with classes of a jar, which is held until `room` is left; None where classes are not kept."""
        try:
            if self.path and name and len(self.folders) < MOST_FOLDERS:
                self.folders.append(Classes(cache.made(os.path.join(os.path.dirname(self.path), name), room)))
                return self.folders[-1]
        except OSError:
            pass
        self.forget()
        return None

    def forget(self):
        """Keeps nothing of this call."""
        self.path = None

    def is_changed(self):
        return any(it.is_changed for it in self.folders)

    def call(self, *words):
        """The answer of the program on these words, as `program.call` gives it."""
        if self.begun:
            is_right = [*words] == self.words and not self.is_changed()
            found = self.begun.ended() if is_right else None
            self.stop()
            self.is_taken = found is not None
            if found:
                return found
        return program.call(*words)

    def keep(self, first_call):
        """Keeps the words and names that `first_call` gives, unless the answer on those that were kept was taken, and bounds the cache."""
        if not self.path or self.is_taken:
            return
        words, names = first_call()
        with contextlib.suppress(OSError):
            for it in self.folders:
                cache.tell_bytes(it.path)
            body = b"\0\0".join("\0".join(it).encode(errors="surrogatepass") for it in (words, names))
            if len(body) < MOST:
                cache.put(self.path, f"{HEAD}{zlib.crc32(body)}\n".encode() + body)
            cache.shrink(os.path.dirname(self.path))


class Classes:
    """A folder of the cache with classes of a jar. What stands under one path is always of the same bytes, whatever calls use it at once."""

    def __init__(self, path):
        self.path, self.is_changed = path, False

    def keep(self, data):
        """Puts the bytes of a class under their sum, and returns the path of the file."""
        import hashlib

        path = f"{self.path}/{hashlib.sha256(data).hexdigest()}.class"
        self.is_changed |= self.put(path, data)
        return path

    def put(self, path, data):
        """Puts the bytes of a class into a file, and says whether others, or none, were there."""
        is_other = contents_of(path, len(data)) != data
        if is_other:
            cache.put(path, data)
        return is_other


def contents_of(path, size):
    """The bytes of a file, as far as they tell whether it has these and no more; None where there is no such file."""
    try:
        number = os.open(path, cache.FILE)
    except OSError:
        return None
    try:
        return os.read(number, size + 1)
    except OSError:
        return None
    finally:
        os.close(number)


def identity():
    """The file of the program, as far as it shows that it is another one."""
    found = os.stat(program.PROGRAM)
    return found.st_ino, found.st_size, found.st_mtime_ns


def read(path):
    """The words of a call and the names of its known classes, as they were kept; none where they are cut, changed, or of another version."""
    head, _, body = (cache.contents(path, MOST) or b"").partition(b"\n")
    if head != f"{HEAD}{zlib.crc32(body)}".encode():
        return [], None
    try:
        words, _, names = body.decode(errors="surrogatepass").partition("\0\0")
    except UnicodeDecodeError:
        return [], None
    # A name with a dot could lead out of a folder.
    is_fine = words.startswith("verify-each\0") and "." not in names
    return (words.split("\0"), names.split("\0")) if is_fine else ([], None)
