"""The cache: a folder below ~/.cache, or XDG_CACHE_HOME, into which the caller alone writes. It has folders, and files of calls, by names that say of what.

  jdk-SUM     the classes of a JDK
  judged-SUM  classes of a jar that is judged, under their numbers; they are compared with those of the jar before an answer counts
  known-SUM   classes of a jar of the class path, in the same way
  call-SUM    what a call gave the program, and the names of the known classes
  part-ANY    what is being made; a call that was killed may leave one

Who uses a folder holds it by a lock, so that no other call removes it. Modules that a call which is begun ahead can do without are loaded where they
are needed: that takes as long as the rest.
"""
import contextlib
import fcntl
import os
import stat
import zlib

from output import Refused, escaped

# So many bytes have all of these at most, as far as no call holds them; the ones that were used longest ago go first.
MOST = 2 << 30
PART = "part-"
# The file of a folder that has the number of its bytes.
BYTES = "bytes"
# A jar is looked up by so many bytes at its end, which have the sums of its entries, and by its size.
TAIL = 1 << 16
FOLDER = os.O_RDONLY | os.O_DIRECTORY | os.O_NOFOLLOW | os.O_CLOEXEC
FILE = os.O_RDONLY | os.O_NOFOLLOW | os.O_NONBLOCK | os.O_CLOEXEC


def top():
    """The folder of the cache, which is made if it is not there."""
    path = os.path.join(os.environ.get("XDG_CACHE_HOME") or os.path.expanduser("~/.cache"), "classck-jar")
    os.makedirs(path, 0o700, exist_ok=True)
    if not is_own(os.stat(path)):
        raise Refused(f"{escaped(path)} is another user's, or others may write into it: make it your own (chown, chmod go-w)")
    return path


def is_own(found):
    """Whether a file is the caller's, and nobody else may write into it."""
    return found.st_uid == os.geteuid() and not found.st_mode & (stat.S_IWGRP | stat.S_IWOTH)


def sum_of(*parts):
    """A sum of texts, bytes and numbers by which something is looked up: who takes what is found there compares it."""
    data = repr(parts).encode()
    return f"{zlib.crc32(data):08x}{zlib.adler32(data):08x}"


def key_of_jar(path):
    """The sum by which a jar is looked up; None of what is no regular file that can be read."""
    try:
        if not stat.S_ISREG(os.stat(path).st_mode):
            return None
        with open(path, "rb", buffering=0) as it:
            size = os.fstat(it.fileno()).st_size
            it.seek(max(0, size - TAIL))
            return sum_of(size, zlib.crc32(it.read(TAIL)))
    except (OSError, ValueError):
        return None


def key_of_jdk(home):
    """The name of a JDK in the cache: the sum of its file `release`, and of how long its image is and when it was made."""
    import hashlib

    image = os.stat(f"{home}/lib/modules")
    sum = hashlib.sha256(f"{image.st_size} {image.st_mtime_ns} ".encode())
    try:
        with open(f"{home}/release", "rb") as it:
            sum.update(it.read(1 << 16))
    except OSError:
        sum.update(os.fsencode(os.path.realpath(home)))
    return f"jdk-{sum.hexdigest()[:32]}"


def size_and_time(path):
    """The size of a file and when it was changed; None of what is not there."""
    try:
        found = os.stat(path)
    except (OSError, ValueError):
        return None
    return found.st_size, found.st_mtime_ns


def hold(path, room):
    """Holds a folder until `room` is left, and says whether it is there."""
    while True:
        try:
            number = os.open(path, FOLDER)
        except FileNotFoundError:
            return False
        with contextlib.ExitStack() as here:
            here.callback(os.close, number)
            # Where a file system has no locks nothing of it is removed either.
            with contextlib.suppress(OSError):
                fcntl.flock(number, fcntl.LOCK_SH)
            if is_at(path, number):
                with contextlib.suppress(OSError):
                    os.utime(number)
                room.enter_context(here.pop_all())
                return True


def is_at(path, number):
    """Whether an open folder is still the one of this path."""
    try:
        return os.path.samestat(os.stat(path, follow_symlinks=False), os.fstat(number))
    except OSError:
        return False


def made(path, room):
    """Makes a folder if it is not there, and holds it."""
    is_held = False
    while not is_held:
        os.makedirs(path, 0o700, exist_ok=True)
        is_held = hold(path, room)
    return path


def made_apart(path, room):
    """Makes a folder of another name than any has, for what is to be put into the cache whole, and holds it."""
    return made(f"{path}/{PART}{os.getpid()}-{os.urandom(8).hex()}", room)


def contents(path, most):
    """The bytes of a file of the cache; None where there is none, or more than so many bytes, or another user may have written them."""
    try:
        number = os.open(path, FILE)
    except OSError:
        return None
    with open(number, "rb", buffering=0) as it:
        found = os.fstat(number)
        if not stat.S_ISREG(found.st_mode) or not is_own(found) or found.st_size > most:
            return None
        with contextlib.suppress(OSError):
            os.utime(number)
        data = it.read(most + 1)
    return data if len(data) <= most else None


def put(path, data):
    """Writes a file whole or not at all: apart, and then under its name."""
    from unpacking import write

    part = os.path.join(os.path.dirname(path), f"{PART}{os.getpid()}-{os.path.basename(path)}")
    try:
        write(part, data, 0o600)
        os.replace(part, path)
    except OSError:
        with contextlib.suppress(OSError):
            os.unlink(part)
        raise


def tell_bytes(path):
    """Counts the bytes of a folder once, in a file of it."""
    total = sum(os.lstat(os.path.join(at, name)).st_size for at, _, names in os.walk(path) for name in names if name != BYTES)
    with contextlib.suppress(OSError):
        put(f"{path}/{BYTES}", b"%d" % total)
    return total


def size_of(entry):
    """The bytes of a folder or file of the cache."""
    if not entry.is_dir(follow_symlinks=False):
        return entry.stat(follow_symlinks=False).st_size
    told = contents_untouched(f"{entry.path}/{BYTES}")
    return int(told) if told.isdigit() else tell_bytes(entry.path)


def contents_untouched(path):
    """The first bytes of a small file, or none."""
    try:
        with open(path, "rb", buffering=0) as it:
            return it.read(20)
    except OSError:
        return b""


def shrink(path, most=MOST):
    """Removes what killed calls left, and then what was used longest ago until the rest has at most so many bytes. What a call holds stays."""
    with os.scandir(path) as it:
        found = sorted((entry.stat(follow_symlinks=False).st_mtime_ns, entry.name, entry) for entry in it)
    sizes = {name: 0 if name.startswith(PART) else size_of(entry) for _, name, entry in found}
    left = sum(sizes.values())
    for _, name, entry in found:
        if (name.startswith(PART) or left > most) and removed(path, entry):
            left -= sizes[name]


def removed(path, entry):
    """Removes a folder or file unless a call holds it, and says whether it did."""
    import shutil

    try:
        if not entry.is_dir(follow_symlinks=False):
            os.unlink(entry.path)
            return True
        with contextlib.ExitStack() as here:
            number = os.open(entry.path, FOLDER)
            here.callback(os.close, number)
            fcntl.flock(number, fcntl.LOCK_EX | fcntl.LOCK_NB)
            gone = os.path.join(path, f"{PART}{os.getpid()}-{entry.name}")
            os.rename(entry.path, gone)
            shutil.rmtree(gone, ignore_errors=True)
        return True
    except OSError:
        return False
