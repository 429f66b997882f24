"""Class paths: lists of places with classes, of which the first counts that has a class of a name; and those among which the classes of jars are judged.

A class without a version is judged among the folders, and then all jars in their order; one of a version among the folders, and then the jars as
that version sees them. A class that this class path does not find, since another one of its name stands in front of it, is judged with its own jar in
front of all.
"""
from output import Refused

# So many class paths are there at most: each has processes of its own.
MOST_PATHS = 32


class Classes:
    """Classes of jars by their names, as a place."""

    def __init__(self, files):
        self.files = files

    def find(self, name):
        return self.files.get(name)


class ClassPath:
    """Places in the order in which they are searched; `own` has the classes that are judged among them, by their names."""

    def __init__(self, places):
        self.places, self.own = places, {}

    def find(self, name):
        """The file of the class of this name in the first place that has it, or None."""
        for it in self.places:
            file = it.find(name)
            if file:
                return file
        return None

    def others(self):
        """The classes of jars that it finds and that are not judged, by their names."""
        of_jars = {name: file for it in reversed(self.places) if isinstance(it, Classes) for name, file in it.files.items()}
        return {name: file for name, file in of_jars.items() if name not in self.own and self.find(name) == file}


def all_seen_from(version, jars):
    """The classes of all jars as those of a version see them; of one name that of the first jar."""
    found = {}
    for it in reversed(jars):
        found.update(it.seen_from(version))
    return Classes(found)


def class_paths(jars, folders):
    """The class paths on which the classes of the jars are judged, each after those on which the other classes that it finds are judged."""
    plain, in_front = [], []
    for version in sorted({version for jar in jars for version in jar.files}):
        path = ClassPath([*folders, all_seen_from(version, jars)])
        plain.append(path)
        for jar in jars:
            first = ClassPath([Classes(jar.seen_from(version)), *path.places])
            for name, file in jar.files.get(version, {}).items():
                (path if path.find(name) == file else first).own[name] = file
            in_front += [first] if first.own else []
            if len(plain) + len(in_front) > MOST_PATHS:
                raise Refused(f"there are more than {MOST_PATHS} class paths: one for each version, and for each jar with a class that another has")
    return [it for it in (*plain, *in_front) if it.own]
