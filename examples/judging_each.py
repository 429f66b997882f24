"""Verdicts on many classes from one process, by `verify-each`: the answers that `judging.Verifier` gives of each.

The program judges each class among all that it is given, and leaves out those that it refuses, and those below one that is left out (80). So a class is
left out here too where its file holds a class of another name, since no class loader finds it; and the answer of each that is refused 80 says why.
"""
import tempfile

from folders import class_names, contents, names_in
from judging import ARRAY_INTERFACES, NOWHERE, SUPER_MISSING, Head, holds_another, missing_in, only_judged, opened, refuses
from output import Refused, escaped, unescaped
from program import call

OBJECT = "java/lang/Object"
LEFT_OUT, WRONG_INTERFACE = "class refused 80", "hierarchy refused 44 "
NO_OBJECT, TOO_MANY = "hierarchy refused 43\n", "hierarchy refused 45\n"
# The class java/lang/Object without members, in version 51: where no place has it, `verify-each` says nothing of a class unless it is given this one.
STAND_IN = b"\xca\xfe\xba\xbe\0\0\0\x33\0\3\7\0\2\1\0\x10java/lang/Object\0\x21\0\1" + bytes(10)


def without_class(text):
    """A line on a class without its first word."""
    return text[len("class ") :] if text.startswith("class ") else text


class EachVerifier:
    """Calls `verify-each` for the classes of a class path, with the known classes of folders, and keeps what it said of each file."""

    def __init__(self, flags, known, call=call):
        self.flags, self.known, self.call, self.told, self.names_above, self.stand_in = flags, known, call, {}, {}, None

    def judge(self, path):
        """For each file of a class that is judged on this class path, the answer and its status."""
        own, others = path.own, [file for name, file in path.others().items() if self.told[file][0] == name]
        is_whole = False
        while not is_whole:
            has_object = self.ask([*own.values()], [*others, *self.in_folders(path)])
            count = len(own), len(self.known.seen)
            own = {name: file for name, file in own.items() if self.told[file][0] in (None, name)}
            self.known.add(self.wanted(own.values(), has_object))
            is_whole = count == (len(own), len(self.known.seen))
        left_out = [name for name, file in own.items() if self.told[file][0] and not (has_object and self.told[file][1] != LEFT_OUT)]
        lines = Chains(path, self).lines_of(left_out)
        return {file: self.answer(name, file, lines) for name, file in path.own.items()}

    def in_folders(self, path):
        """The files of the known classes that this class path finds, in an order that no search has part in."""
        return sorted(file for name, file in self.known.files.items() if path.find(name) == file)

    def words(self, files, known):
        """The words by which the program judges these files among known ones."""
        return ["verify-each", *self.flags, *(["--known", *known] if known else []), "--", *files]

    def ask(self, files, known):
        """Has one process judge the classes in these files among the known ones. Returns whether there is a class java/lang/Object."""
        if not files:
            return True
        text, errors, status = self.call(*self.words(files, known))
        if text == NO_OBJECT:
            self.ask(files, [*known, self.object_file()])
            return False
        if text == TOO_MANY:
            raise Refused("one process judges 65,535 classes at most: --processes judges each in a process of its own")
        answers = f"\n{text}".split("\nfile ")[1:]
        if errors or len(answers) != len(files):
            raise Refused("; ".join(opened(it, [*files, *known]) for it in errors) or f"the program ended with status {status}")
        for file, answer in zip(files, answers):
            head, _, lines = (answer[:-1] if answer.endswith("\n") else answer).partition("\n")
            name = head.partition(" ")[2]
            self.told[file] = unescaped(name) if name else None, lines
        return True

    def object_file(self):
        """A file with the class that stands in for java/lang/Object."""
        if self.stand_in is None:
            self.stand_in = tempfile.NamedTemporaryFile(suffix=".class")
            self.stand_in.write(STAND_IN)
            self.stand_in.flush()
        return self.stand_in.name

    def wanted(self, files, has_object):
        """The names of classes that folders may have and that answers ask for: the superclass of one that is left out, and all that one names which misses some."""
        names = set()
        for file in files:
            name, text = self.told[file]
            if name and (text == LEFT_OUT or not has_object):
                names.add(self.above(file) or OBJECT)
            elif any(self.known.find(it) and it not in self.known.seen for it in missing_in(text.splitlines() if " missing " in text else [])):
                names |= names_in(contents(file))
        return names

    def above(self, file):
        """The name of the superclass of the class in this file."""
        if file not in self.names_above:
            self.names_above[file] = class_names(contents(file))[1]
        return self.names_above[file]

    def head(self, file):
        """The class in this file, as `show` would have it, where a process has read it; nothing of an interface of arrays, which may be none."""
        name, text = self.told.get(file, (OBJECT, ""))
        if file not in self.told or name in ARRAY_INTERFACES:
            return None
        return Head(name, self.above(file) if name else None, True, without_class(text))

    def read_all(self, files):
        """Has one process read all classes of folders that the classes in these files name, so that `head` knows them."""
        for file in files:
            self.known.add(names_in(contents(file)))
        self.ask([it for it in self.known.files.values() if it not in self.told], [])

    def answer(self, name, file, lines):
        """The answer on a class of this name, and its status; `lines` has those on the classes that are left out."""
        told, text = self.told[file]
        if told not in (None, name):
            return holds_another(told), 1
        text = lines.get(name, text)
        return text, int(not only_judged(text) and any(map(refuses, text.splitlines())))


class Chains:
    """The superclasses of classes on a class path that `verify-each` leaves out: why they do not lead to java/lang/Object."""

    def __init__(self, path, each):
        self.path, self.each, self.lines = path, each, {}

    def lines_of(self, names):
        """The line of `verify` on each of these classes, by their names."""
        self.read_folders(names)
        return {it: self.line(it) for it in names}

    def read_folders(self, names):
        """Has one process read the classes of folders that are above these classes."""
        seen, files = set(), []
        for name in names:
            while name and name not in seen:
                seen.add(name)
                file = self.path.find(name)
                is_told = file in self.each.told
                files += [file] if file and not is_told else []
                name = self.each.above(file) if file and (not is_told or self.each.told[file][0] == name) else None
        self.each.ask(files, [])

    def line(self, name):
        """The line of `verify` on the class of this name (40 to 44)."""
        chain, at = {}, name
        while at not in self.lines and at != OBJECT:
            if at in chain:
                cycle = list(chain)[list(chain).index(at) :]
                self.lines.update((it, f"hierarchy refused 41 {escaped(it)}") for it in cycle)
                break
            chain[at] = self.above(at)
            lacking = self.lacking(chain[at])
            if lacking:
                self.lines[at] = f"{SUPER_MISSING}{escaped(at)}: {lacking}"
            else:
                at = chain[at]
        line = self.lines.get(at, LEFT_OUT)
        for it in reversed(chain):
            # A chain that lacks nothing has an interface of arrays that is a class; the lowest is named.
            if it in ARRAY_INTERFACES and line.startswith((LEFT_OUT, WRONG_INTERFACE)):
                line = f"{WRONG_INTERFACE}{it}"
            line = self.lines.setdefault(it, line)
        return line

    def above(self, name):
        """The name of the superclass of the class of this name."""
        return self.each.above(self.path.find(name))

    def lacking(self, name):
        """Why no class loader finds the class of this name; nothing where it finds it."""
        file = self.path.find(name)
        if file is None:
            return f"{escaped(name)}{NOWHERE}"
        told, text = self.each.told[file]
        return Head(told, None, True, without_class(text)).lacks(name)
