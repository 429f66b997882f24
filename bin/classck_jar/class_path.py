"""Jars and folders of a class path, as `java` takes them."""
import os
import tempfile
import urllib.parse
import zipfile

from folders import MOST, Folder, beginnings_of, entries
from jars import FAULTS, in_memory, name_of, version_of
from output import Refused, escaped, reason
from unpacking import Entries, write

from classck_jar import cache

MANIFEST = "META-INF/MANIFEST.MF"
# The most bytes of a manifest that are read, and the most jars that are open at once.
MOST_MANIFEST, MOST_OPEN = 1 << 20, 64
# The ways of packing that a virtual machine knows.
PACKED = (zipfile.ZIP_STORED, zipfile.ZIP_DEFLATED)


class ClassPathJar:
    """A jar of a class path, as a place. A class of it is unpacked when it is asked for, into a file of the store. No jar stays open."""

    def __init__(self, path, store):
        self.path, self.store, self.packages, self.unpacked = path, store, {}, {}
        with told(path), zipfile.ZipFile(path) as it:
            attributes = attributes_of(it)
            self.class_path = attributes.get("class-path", "")
            is_multi = attributes.get("multi-release", "").lower() == " true"
            self.fill(it, store.release if is_multi and store.release else 0)

    def fill(self, jar, newest):
        """Finds the classes of the jar; of one name that of the highest version up to this one, where it has versions."""
        found = {}
        for number, info in enumerate(jar.infolist()):
            name = name_of(info)
            version, path = version_of(name) if newest else (0, name)
            # Only what a virtual machine unpacks.
            is_class = path.endswith(".class") and info.compress_type in PACKED and version <= newest
            if is_class and (path not in found or version > found[path][0]):
                found[path] = version, number, info
        for path, (_, number, info) in found.items():
            package, _, last = path.rpartition("/")
            self.packages.setdefault(package, {})[last] = number, info

    def classes(self, package):
        return self.packages.get(package, {}).keys()

    def file(self, package, last):
        number, info = self.packages[package][last]
        if number not in self.unpacked:
            with told(self.path):
                self.unpacked[number] = self.store.put(self.store.entries(self.path).data(info), self.path)
        return self.unpacked[number]

    def beginnings(self):
        return beginnings_of(self.packages)

    def named_by_manifest(self):
        """The paths that the Class-Path of the manifest names, which are relative to the folder of the jar."""
        paths = [urllib.parse.unquote(it[len("file:") :] if it.startswith("file:") else it) for it in self.class_path.split()]
        return [os.path.join(os.path.dirname(self.path), it) for it in paths if "\0" not in it]


def attributes_of(jar):
    """The main attributes of the manifest of a jar by their names in small letters; none where there is no such."""
    try:
        info = jar.getinfo(MANIFEST)
        if info.compress_type not in PACKED:
            return {}
        lines = jar.open(info).read(MOST_MANIFEST).decode(errors="replace").splitlines()
    except (KeyError, *FAULTS):
        return {}
    found, name = {}, None
    for line in lines:
        if not line:
            break
        if line.startswith(" "):
            found[name] = found.get(name, "") + line[1:]
        else:
            name, _, value = line.partition(":")
            name = name.lower()
            found[name] = value
    return found


class Store:
    """The files of classes of class paths, of at most so many bytes: in a folder under numbers, or in folders of the cache."""

    def __init__(self, room, left, ahead, release):
        self.room, self.left, self.ahead, self.release = room, left, ahead, release
        self.count, self.opened, self.kept = 0, {}, {}
        self.folder = room.enter_context(tempfile.TemporaryDirectory(dir=in_memory(1 << 28)))
        room.callback(self.close)

    def close(self):
        while self.opened:
            self.opened.popitem()[1].close()

    def entries(self, path):
        """The entries of a jar, which is opened again: so many jars are open at once."""
        if path not in self.opened:
            if len(self.opened) >= MOST_OPEN:
                self.opened.pop(next(iter(self.opened))).close()
            self.opened[path] = Entries(path, MOST)
        return self.opened[path]

    def folder_of(self, path):
        """The folder of the cache with classes of this jar, if they are kept."""
        if path not in self.kept:
            key = self.ahead.path and cache.key_of_jar(path)
            self.kept[path] = self.ahead.folder(key and f"known-{key}", self.room)
        return self.kept[path]

    def put(self, data, jar):
        """Puts the bytes of a class of a jar into a file, and returns its path."""
        self.left -= len(data)
        if self.left < 0:
            raise Refused("the known classes have more bytes than --most-bytes says")
        kept = self.folder_of(jar)
        if kept:
            try:
                return kept.keep(data)
            except OSError:
                self.ahead.forget()
        self.count += 1
        path = f"{self.folder}/{self.count}.class"
        write(path, data)
        return path


class told:
    """Says what is wrong with a jar of the class path."""

    def __init__(self, path):
        self.path = path

    def __enter__(self):
        return self

    def __exit__(self, kind, why, _):
        if isinstance(why, FAULTS):
            raise Refused(f"{escaped(self.path)} cannot be read: {reason(why)}") from why


def is_absent(path, say):
    """Whether nothing is there, which is said: a class path may name what a build did not make."""
    is_there = os.path.exists(path)
    if not is_there:
        say(f"{escaped(path)}, of the class path, is not there")
    return not is_there


def expanded(paths, say):
    """The paths of a class path, `FOLDER/*` as the jars in it; an empty one is the folder in which the process runs."""
    for path in paths.split(os.pathsep):
        folder = os.path.dirname(path) or "."
        if os.path.basename(path) != "*":
            yield path or "."
        elif not is_absent(folder, say):
            yield from sorted(os.path.join(folder, it.name) for it in entries(folder) if it.name.lower().endswith(".jar"))


def places_of(paths, store, say):
    """The places of a class path in their order, each once, and after each jar those that its manifest names. One that is not there is left out."""
    wanted, seen, places = [(it, False) for it in expanded(paths, say)], set(), []
    while wanted:
        path, is_of_manifest = wanted.pop(0)
        real = os.path.realpath(path)
        if real in seen or is_absent(path, say):
            continue
        seen.add(real)
        place = Folder(path) if os.path.isdir(path) else jar_at(path, store, is_of_manifest, say)
        places += [place] if place else []
        wanted[:0] = [(it, True) for it in place.named_by_manifest()] if isinstance(place, ClassPathJar) else []
    return places


def jar_at(path, store, is_of_manifest, say):
    """The jar at a path; nothing where a manifest names a file that is none, which is said."""
    try:
        return ClassPathJar(path, store)
    except Refused as why:
        if not is_of_manifest:
            raise
        say(why)
        return None
