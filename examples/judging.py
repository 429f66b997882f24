"""Verdicts on class files among folders and jars of class files, as examples/judge and examples/judge_jar give them.

`Verifier` calls the program: it gives the classes above a class, and then each class that an answer misses, until no place has a missing one.
A place is a folder with class files by their names, as java/lang/Object.class, or classes of a jar. No name leads out of a place: a class whose own
name or constants hold a dot is not well formed, and is refused 22.

A class whose file is refused, or holds a class of another name, is none that a place has, and so is a class below it where it is missing: no class
loader finds it. `verify-each` leaves out such classes in the same way, so `judging_each` gives the same answers from one process.
"""
import collections
import re
import subprocess
import threading

from folders import contents, names_in
from output import escaped, printable, unescaped
from program import Profile, begin, call

# After so many calls that miss a class, all classes that the judged one names are given.
ROUNDS = 8
HEAD = re.compile(r"class (?P<name>.*) major (?P<major>\d+) minor (?P<minor>\d+) flags (?P<flags>[0-9a-f]{4})")
INTERFACE = 0x0200
ARRAY_INTERFACES = ("java/lang/Cloneable", "java/io/Serializable")
MISSING = re.compile(r" refused 77 at \d+ missing (.*)$")
REFUSED = re.compile(r"method .* refused (\d+) at \d+(?: missing .*| fault \d+)?$")
WHOLE = re.compile(r"(?:class|hierarchy) refused (\d+)\b")
VERSION = re.compile(r"class refused 11 (\d+)\.\d+")
SUPER_MISSING, NOWHERE = "hierarchy refused 42 ", " is in no place"
# The refusals that say that something was not judged: a version that is not judged, a class that is missing, an instruction without a rule.
NOT_JUDGED = (11, 42, 60, 77)
# The least major version of a class that is judged by a release, and what is added to the number of a release for the greatest.
LEAST, OFFSET = 50, 44
# The status of answers in which nothing else is refused.
WITHOUT_VERDICT = 3


def missing_in(lines):
    """The names of the classes that these lines miss."""
    return [unescaped(it[1]) for it in (MISSING.search(line) for line in lines if " missing " in line) if it]


def lacking_in(line):
    """The name of the superclass that is in no place, as this line of a class has it, or None."""
    is_nowhere = line.startswith(SUPER_MISSING) and line.endswith(NOWHERE)
    return line[: -len(NOWHERE)].rpartition(": ")[2] if is_nowhere else None


def only_judged(text):
    """Whether each line is of a method, and none refuses; False also where a name has such words."""
    return " refused " not in text and text.startswith("method ") and text.count("\nmethod ") == text.count("\n")


def refuses(line):
    """Whether a line of an answer refuses something."""
    is_verdict = line.startswith("method ") and line.endswith((" verified", " no code"))
    return not is_verdict or " refused " in line and REFUSED.fullmatch(line) is not None


def opened(line, files):
    """A line on standard error, with the name of the file after its number."""
    it = re.fullmatch(r"file (\d+) cannot be opened", line)
    return f"{line}: {escaped(files[int(it[1]) - 1])}" if it else printable(line)


def holds_another(name):
    """The line of a file that should hold another class than the one of this name."""
    return f"holds the class {escaped(name)}"


class Head(collections.namedtuple("Head", "name above is_interface refusal")):
    """A class as `show` has it: its name, that of its superclass, and whether it is an interface; or why it is refused."""

    def lacks(self, wanted):
        """Why no class loader finds the class of this name in the file; nothing where it finds it."""
        if self.name is None:
            return f"{escaped(wanted)} is {self.refusal}"
        return f"the file of {escaped(wanted)} {holds_another(self.name)}" if self.name != wanted else ""

    def is_array_class(self):
        """Whether it is no interface where arrays need one (44)."""
        return self.name in ARRAY_INTERFACES and not self.is_interface


class Verifier:
    """Calls the program, by a profile and for explanations where these are asked for, and keeps what `show` said of each file.

    `told` may know that already of a file, from another process. The files of `judged` have classes that are judged: one that is too old for that is
    refused, as by `verify-each`, where other files of such classes are known ones.
    """

    def __init__(self, profile=Profile(), explains=False, told=lambda _: None, judged=()):
        self.heads, self.lock, self.explains, self.told, self.judged = {}, threading.Lock(), explains, told, judged
        self.flags, self.versions = profile.words(), profile.versions()

    def head(self, file):
        """The class in this file, as `show` has it."""
        with self.lock:
            known = self.heads.get(file) or self.told(file)
        if known:
            return known
        process = begin(["show", *self.versions, "--", file], subprocess.DEVNULL)
        with process.stdout as out:
            first, second = (out.readline().decode().rstrip("\n") for _ in range(2))
        process.wait()
        found = self.head_of(file, HEAD.fullmatch(first), first, second)
        with self.lock:
            self.heads[file] = found
        return found

    def head_of(self, file, it, first, second):
        """The class in this file by the first two lines of `show`, of which the first is of a class if it matches."""
        if not it:
            return Head(None, None, False, first)
        if self.versions and int(it["major"]) < LEAST and file in self.judged:
            return Head(None, None, False, f"refused 11 {it['major']}.{it['minor']}")
        above = unescaped(second[6:]) if second not in ("", "super none") else None
        return Head(unescaped(it["name"]), above, bool(int(it["flags"], 16) & INTERFACE), "")

    def chain(self, wanted, path, seen):
        """The files of the class of this name and of those above it, up to one of these that were seen; and why a class loader does not find all."""
        files = {}
        while wanted and wanted not in seen:
            file = path.find(wanted)
            if file is None:
                return files, f"{escaped(wanted)}{NOWHERE}"
            lacking = self.head(file).lacks(wanted)
            if lacking or wanted in files:
                return files, lacking or "a cycle"
            files[wanted] = file
            wanted = self.head(file).above
        return files, ""

    def judge(self, file, path, wanted=None):
        """The last answer on the class in this file, of this name if it should have one, which finds others on this class path; and its status."""
        head = self.head(file)
        if wanted and head.name not in (None, wanted):
            return holds_another(head.name), 1
        files, lacking = self.chain(head.above, path, {head.name})
        seen, count, rounds = {head.name, *files}, -1, 0
        while count != len(files):
            count, rounds = len(files), rounds + 1
            text, errors, status = call("verify", *self.flags, "--", file, *files.values())
            lines = text.splitlines()
            for name in missing_in(lines) if rounds < ROUNDS else names_in(contents(file)):
                more, absent = self.chain(name, path, seen)
                if not absent and not any(self.head(it).is_array_class() for it in more.values()):
                    files.update(more)
                    seen.update(more)
        files = [file, *files.values()]
        told = [f"{it}: {lacking}" if it.startswith(SUPER_MISSING) and lacking else it for it in lines]
        told = self.with_explanations(told, files) if self.explains else told
        return "\n".join([*told, *(opened(it, files) for it in errors)]), status

    def with_explanations(self, lines, files):
        """The lines, and below each that refuses what `explain` says of it, by these files."""
        said = []
        for line in call("explain", *self.flags, "--", *files)[0].splitlines():
            if line.startswith("  "):
                said[-1].append(line)
            else:
                said.append([])
        said = iter(said)
        return [it for line in lines for it in (line, *(next(said, []) if refuses(line) else []))]


class Count:
    """Counts of the methods and classes by their answers. `needs` has the class that is needed for one that a place has and that is left out, and
    `release` is the number of the release whose versions are read.
    """

    def __init__(self, needs=None, release=None):
        self.needs, self.release, self.versions = needs or {}, release, collections.Counter()
        self.verified = self.no_code = self.classes = self.whole = self.status = 0
        self.refused, self.methods_left, self.classes_left, self.needed = (collections.Counter() for _ in range(4))

    def add(self, text, status):
        """Counts the answer on a class, and gives the lines of it that refuse, and those that explain them."""
        self.classes += 1
        self.status = 2 if 2 in (status, self.status) else max(status, self.status)
        if only_judged(text):
            self.verified += f"{text}\n".count(" verified\n")
            self.no_code += f"{text}\n".count(" no code\n")
            return []
        lines = []
        for line in text.splitlines():
            if line.startswith("  "):
                lines.append(line)
            elif refuses(line):
                self.count(line)
                lines.append(line)
            elif line.endswith(" verified"):
                self.verified += 1
            else:
                self.no_code += 1
        return lines

    def count(self, line):
        """Counts a refusal of a method or a class."""
        method, whole = REFUSED.fullmatch(line), WHOLE.match(line)
        number = int((method or whole or [0, 0])[1])
        if number in NOT_JUDGED:
            (self.methods_left if method else self.classes_left)[number] += 1
            version = VERSION.fullmatch(line)
            self.versions.update([int(version[1])] if version else [])
            lacking = lacking_in(line)
            names = [lacking] if lacking else map(escaped, missing_in([line])) if number == 77 else []
            self.needed.update(self.needs.get(it, it) for it in names)
        elif method:
            self.refused[number] += 1
        else:
            self.whole += 1

    def old_and_new(self):
        """With a release, a line about the classes that are too old to be judged, and one about those that are newer than it."""
        old, new = ({it: n for it, n in self.versions.items() if (it < LEAST) == is_old} for is_old in (True, False))
        new = {it: n for it, n in new.items() if it > (self.release or 0) + OFFSET}
        lines = [f"{sum(old.values())} classes have versions below {LEAST}, of which none is judged"] if old else []
        lines += [f"{sum(new.values())} classes have versions above {self.release + OFFSET}: --release {max(new) - OFFSET} takes them"] if self.release and new else []
        return lines if self.release else []

    def __str__(self):
        numbers = "".join(f", {self.refused[it]} refused {it}" for it in sorted(self.refused))
        left = [f"{left[it]} {what} ({it})" for what, left in (("methods", self.methods_left), ("classes", self.classes_left)) for it in sorted(left)]
        most = [f"{name} ({n})" for name, n in sorted(self.needed.items(), key=lambda it: (-it[1], it[0]))[:5]]
        counts = f"{self.classes} classes: {self.verified} methods verified, {self.no_code} without code{numbers}, {self.whole} classes refused"
        return counts + (f"; not judged: {', '.join(left)}" if left else "") + (f"; needed most: {', '.join(most)}" if most else "")

    def end(self):
        """The status of all: 2 where a file could not be read; 1 where something is refused; 3 where all that is refused was not judged; 0 otherwise."""
        is_left = self.methods_left or self.classes_left
        is_refused = self.whole or self.refused or not is_left
        return WITHOUT_VERDICT if self.status == 1 and not is_refused else self.status
