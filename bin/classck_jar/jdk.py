"""The classes of a JDK: of `lib/modules`, which its own `jimage` extracts once into a cache, or of `rt.jar`."""
import contextlib
import os
import shutil
import subprocess

from folders import beginnings_of, entries, regular
from output import Refused, escaped, reason

from classck_jar import cache
from classck_jar.class_path import ClassPathJar

# The last file that is written into an extracted JDK: the packages of each module, a line for each.
INDEX = "packages"
# The jars of a JDK 8 with classes that others may name.
OLD_JARS = ("rt.jar", "jce.jar", "jsse.jar", "charsets.jar")


class Modules:
    """The extracted modules of a JDK, as a place. A package stands in one module, or in few; `jimage` gives each class the path of its name."""

    is_checked = True

    def __init__(self, path):
        self.path, self.modules = path, {}
        with open(f"{path}/{INDEX}", encoding="utf-8") as it:
            lines = [line.rstrip("\n").split(" ") for line in it]
        if not all(len(it) == 2 for it in lines):
            raise Refused(f"{escaped(path)} is damaged: remove it")
        for module, package in lines:
            self.modules.setdefault(package, []).append(module)

    def classes(self, package):
        return {it.name for module in self.modules.get(package, ()) for it in entries(f"{self.path}/{module}/{package}")}

    def file(self, package, last):
        return next((file for it in self.modules[package] if (file := regular(f"{self.path}/{it}/{package}/{last}"))), None)

    def beginnings(self):
        return beginnings_of(self.modules)


def packages_in(folder):
    """The packages of the modules in a folder, as lines."""
    for module in sorted(it.name for it in entries(folder)):
        top = f"{folder}/{module}"
        for at, _, names in os.walk(top):
            if at != top and any(it.endswith(".class") for it in names):
                yield f"{module} {os.path.relpath(at, top)}\n"


def extract(home, folder):
    """Extracts the modules of a JDK into a folder, with their packages."""
    try:
        done = subprocess.run([f"{home}/bin/jimage", "extract", "--dir", folder, f"{home}/lib/modules"], stdout=subprocess.DEVNULL, stderr=subprocess.PIPE, check=False)
    except OSError as why:
        raise Refused(f"{escaped(home)}/bin/jimage cannot be called: {reason(why)}") from why
    lines = list(packages_in(folder))
    if done.returncode or not lines:
        told = done.stderr.decode(errors="replace").strip()
        raise Refused(f"{escaped(home)}/bin/jimage extracted nothing: {escaped(told[:500])}")
    with open(f"{folder}/{INDEX}", "w", encoding="utf-8") as it:
        it.writelines(lines)


def modules_of(home, room, say):
    """The modules of a JDK in the cache, into which they are extracted whole or not at all. They are held until `room` is left."""
    top = cache.top()
    path = f"{top}/{cache.key_of_jdk(home)}"
    if not (cache.hold(path, room) and os.path.isfile(f"{path}/{INDEX}")):
        say(f"extracting the classes of {escaped(home)} once, into {escaped(path)}")
        put_into(path, home)
        cache.hold(path, room)
        with contextlib.suppress(OSError):
            cache.shrink(top)
    return Modules(path)


def put_into(path, home):
    """Extracts the modules of a JDK into a new folder, which takes this path once it is whole."""
    with contextlib.ExitStack() as room:
        part = cache.made_apart(os.path.dirname(path), room)
        try:
            extract(home, part)
            cache.tell_bytes(part)
            if os.path.isdir(path) and not os.path.isfile(f"{path}/{INDEX}"):
                shutil.rmtree(path)
            os.rename(part, path)
        except OSError as why:
            # Another call may have put it there meanwhile.
            if not os.path.isfile(f"{path}/{INDEX}"):
                raise Refused(f"{escaped(path)} cannot be written: {reason(why)}") from why
        finally:
            shutil.rmtree(part, ignore_errors=True)


def places_of(home, store, say):
    """The places with the classes of the JDK in this folder."""
    if os.path.isfile(f"{home}/lib/modules"):
        return [modules_of(home, store.room, say)]
    for folder in (f"{home}/jre/lib", f"{home}/lib"):
        if os.path.isfile(f"{folder}/rt.jar"):
            return [ClassPathJar(f"{folder}/{it}", store) for it in OLD_JARS if os.path.isfile(f"{folder}/{it}")]
    raise Refused(f"{escaped(home)} is no JDK: neither lib/modules nor rt.jar is there")
