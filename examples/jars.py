"""Jars that are judged: their classes, in files under numbers, and the jars within them; and folders in the place of jars."""
import collections
import contextlib
import io
import os
import re
import stat
import struct
import tempfile
import zipfile
import zlib

from folders import MOST, contents
from output import Refused, escaped, reason
from program import MOST_CLASSES
from unpacking import Entries, write

# The most bytes that a jar within another may have.
MOST_NESTED = 1 << 28
# For so many bytes it is worth starting a process that unpacks them, and for so many of a jar within another; in so many, or in one class, names
# are searched for at once.
PART, NESTED_PART, PIECE = 1 << 19, 1 << 24, 1 << 18
# A file system in memory, whose files cost less than those of a disk.
MEMORY = "/dev/shm"
# A virtual machine looks for the versions from 9 on alone, by their numbers without a 0 in front.
VERSION = re.compile(r"META-INF/versions/(9|[1-9][0-9]{1,8})/(.+)", re.DOTALL)
ROOTS = ("BOOT-INF/classes/", "WEB-INF/classes/")
# The errors of `zipfile` for a jar that is damaged, or stored in a way that it does not know.
FAULTS = (OSError, ValueError, EOFError, RuntimeError, OverflowError, struct.error, zipfile.BadZipFile, zlib.error)


def in_memory(size):
    """Where files of so many bytes go: into memory if it has four times the room and TMPDIR is not set; None for the usual place."""
    try:
        told = os.statvfs(MEMORY)
    except OSError:
        return None
    has_room = os.access(MEMORY, os.W_OK) and told.f_bavail * told.f_frsize >= 4 * size
    return MEMORY if has_room and not os.environ.get("TMPDIR") else None


def name_of(info):
    """The name of an entry as a virtual machine reads it: as UTF-8, whether the entry says so or not, and up to its end."""
    name = info.orig_filename
    if info.flag_bits & 0x800 or name.isascii():
        return name
    return name.encode("cp437").decode("utf-8", "surrogateescape")


def version_of(entry):
    """The version of an entry, and its path below that; 0 for one of all versions."""
    found = VERSION.fullmatch(entry)
    return (int(found[1]), found[2]) if found else (0, entry)


class Judged:
    """The classes of a jar or folder by their versions and names, in files, and the jars within it. `outer` stands in front of the names of its entries.

    The classes of the places that they name are known afterwards. All of them have `size` bytes. `is_within`: whether it is a jar within another.
    """

    is_within = False

    def __init__(self, label, known, outer=""):
        self.label, self.known, self.outer, self.entries, self.files, self.nested, self.size = escaped(label), known, outer, [], {}, [], 0

    @contextlib.contextmanager
    def told(self):
        """Says what is wrong with the jar."""
        try:
            yield
        except FAULTS as why:
            raise Refused(f"{self.label} cannot be read: {reason(why)}") from why

    def add(self, entry, file):
        """Adds the file of a class by its version and name, and returns it."""
        version, path = version_of(entry)
        root = next((it for it in ROOTS if path.startswith(it)), "")
        name = path[len(root) : -len(".class")]
        if self.files.setdefault(version, {}).setdefault(name, file) != file:
            raise Refused(f"{self.label} has the class {escaped(name)} twice, once as {escaped(entry)}")
        self.entries.append((escaped(self.outer + entry), version, name, file))
        return file

    def leave_out_above(self, release):
        """Leaves out the classes of versions that no virtual machine of this release looks for, and returns how many these are."""
        count = len(self.entries)
        self.entries = [it for it in self.entries if it[1] <= release]
        self.files = {version: files for version, files in self.files.items() if version <= release}
        return count - len(self.entries)

    def refuse_size(self, left):
        """Refuses more bytes of classes than there may be."""
        if self.size > left:
            raise Refused(f"{self.label} has classes of more than {left} bytes")

    def seen_from(self, version):
        """Its classes by their names as those of a version see them: of one name that of the highest version up to this one."""
        found = {}
        for it in sorted(it for it in self.files if it <= version):
            found.update(self.files[it])
        return found


class Jar(Judged):
    """A jar. `source` is its path, or a file in memory; `room` removes the files when it is left. All its classes have at most `left` bytes."""

    def __init__(self, label, source, room, known, outer="", left=MOST_CLASSES):
        super().__init__(label, known, outer)
        self.source = source
        with self.told():
            if isinstance(source, str) and not stat.S_ISREG(os.stat(source).st_mode):
                raise Refused(f"{self.label} cannot be read: it is no regular file")
            with zipfile.ZipFile(source) as it:
                infos = {it: name_of(it) for it in it.infolist()}
        infos = {it: name for it, name in infos.items() if not name.endswith("/")}
        self.refuse_entries(infos)
        self.nested = [it for it, name in infos.items() if is_jar(name)]
        classes = [it for it, name in infos.items() if is_class(name)]
        # No more is unpacked of an entry than the table tells of it.
        self.size = sum(min(it.file_size, MOST) for it in classes)
        self.refuse_size(left)
        with self.told():
            folder = self.folder(room, len(classes))
            work = [(it, self.add(infos[it], f"{folder}/{number}.class")) for number, it in enumerate(classes, 1)]
            self.unpack(work, min((os.cpu_count() or 1) - 1, self.size // (NESTED_PART if outer else PART)))

    def folder(self, room, _):
        """The folder into which its classes are unpacked, of which there are so many."""
        return room.enter_context(tempfile.TemporaryDirectory(dir=in_memory(self.size)))

    def write(self, path, data):
        """Writes the bytes of a class, and returns lines that are to be told."""
        write(path, data)
        return ()

    def refuse_entries(self, infos):
        """Refuses two entries of one name, and one that is packed in a way that a virtual machine does not know."""
        twice = [name for name, n in collections.Counter(infos.values()).items() if n > 1]
        if twice:
            raise Refused(f"{self.label} has the entry {escaped(twice[0])} twice")
        packed = [name for it, name in infos.items() if it.compress_type not in (zipfile.ZIP_STORED, zipfile.ZIP_DEFLATED)]
        if packed:
            raise Refused(f"{self.label} has the entry {escaped(packed[0])}, which is neither stored nor deflated")

    def unpack(self, work, count):
        """Unpacks the classes by so many processes, and finds the known classes beside them."""
        parts = [work[it::count] for it in range(count)]
        numbers, (read, written) = [], os.pipe()
        try:
            with open(read, "rb") as lines:
                numbers.extend(beside(read, written, self.put(it)) for it in parts)
                os.close(written)
                self.find(lines)
        finally:
            left = [part for part, number in zip(parts, numbers) if os.waitpid(number, 0)[1]]
        # A part whose process failed is unpacked again, which tells what is wrong with it.
        for it in left if count else [work]:
            self.find(self.put(it))

    def put(self, work):
        """Puts the bytes of each entry into its file, and gives the names in them, each as a line."""
        seen, found, size = set(), [], 0
        with Entries(self.source, MOST) as jar:
            for entry, path in work:
                data = jar.data(entry)
                yield from self.write(path, data)
                found.append(data)
                size += len(data)
                if size > PIECE or entry is work[-1][0]:
                    names = self.known.named(b"\n".join(found)) - seen if self.known else set()
                    yield from (it + b"\n" for it in names)
                    seen |= names
                    found, size = [], 0

    def find(self, lines):
        for it in lines:
            self.known.add([it[:-1].decode()])

    def within(self, room, left=None):
        """The jars within it, whose classes have at most `left` bytes."""
        left = MOST_CLASSES - self.size if left is None else left
        with self.told(), zipfile.ZipFile(self.source) as outer:
            for it in self.nested:
                data = outer.open(it).read(MOST_NESTED + 1)
                name = name_of(it)
                if len(data) > MOST_NESTED:
                    raise Refused(f"{escaped(name)} has more than {MOST_NESTED} bytes")
                jar = Jar(name, io.BytesIO(data), room, self.known, f"{self.outer}{name}!", left)
                # Its bytes are needed no more: those of very many jars would fill the memory.
                jar.source, jar.is_within = None, True
                left -= jar.size
                yield jar


class Tree(Judged):
    """A folder of classes by their names. No link to a folder is followed. A path that is not UTF-8, which the program does not take, has a link in `room`."""

    def __init__(self, path, room, known, outer="", left=MOST_CLASSES):
        super().__init__(path, known, outer)
        self.links = room.enter_context(tempfile.TemporaryDirectory())
        with self.told():
            for entry, file in files_below(path):
                if is_jar(entry):
                    self.nested.append((entry, file))
                elif is_class(entry):
                    self.size += min(regular_size(file), MOST)
                    self.refuse_size(left)
                    self.add(entry, self.named_in_utf8(file))
        for *_, file in self.entries:
            self.known.add([it.decode() for it in self.known.named(contents(file))])

    def named_in_utf8(self, file):
        """The path of a file, or a link to it."""
        try:
            file.encode()
            return file
        except UnicodeEncodeError:
            link = f"{self.links}/{len(self.entries)}.class"
            os.symlink(os.path.abspath(file), link)
            return link

    def within(self, room, left):
        """The jars below it, whose classes have at most `left` bytes."""
        for name, path in self.nested:
            jar = Jar(path, path, room, self.known, f"{self.outer}{name}!", left)
            jar.is_within = True
            left -= jar.size
            yield jar


def is_class(name):
    return name.endswith(".class") and os.path.basename(name) != "module-info.class"


def is_jar(name):
    return name.endswith((".jar", ".war", ".ear"))


def raised(why):
    raise why


def files_below(path):
    """The files below a folder in the order of their names, each as its path below it and its path."""
    for at, folders, names in os.walk(path, onerror=raised):
        folders.sort()
        for name in sorted(names):
            file = os.path.join(at, name)
            yield os.path.relpath(file, path), file


def regular_size(file):
    """The bytes of a file, which is a regular one."""
    found = os.stat(file)
    if not stat.S_ISREG(found.st_mode):
        raise Refused(f"{escaped(file)} cannot be read: it is no regular file")
    return found.st_size


def beside(read, written, lines):
    """The number of a new process that writes these lines. Its status is 1 where they end too early."""
    number = os.fork()
    if number == 0:
        status = 1
        try:
            os.close(read)
            # Unbuffered, so that lines are read while the process works.
            with open(written, "wb", buffering=0) as it:
                it.writelines(lines)
            status = 0
        finally:
            os._exit(status)
    return number
