"""Very many small classes, classes of very many members, and references that name one long text, for `play`, `verify-each` and `verify` in `bench/hostile`."""
from class_bytes import Constants, at, class_of_members, code_attribute, frame, member
from shapes.long_texts import LONGEST

ACONST_NULL, RETURN, GETFIELD, INVOKEVIRTUAL = b"\x01", b"\xb1", b"\xb4", b"\xb6"
FIELDREF, METHODREF = 9, 10
INT, FLOAT = b"\x01", b"\x02"
STATIC, PROTECTED = 9, 4
OBJECT = b"java/lang/Object"
LONG_CLASS, LONG_NAME = b"p/" + b"a" * (LONGEST - 2), b"x" * LONGEST
MANY = 40_000


def method(constants, name, code, max_stack=2):
    return member(constants, STATIC, name, b"()V", code_attribute(constants, code, max_stack, 0))


def references(constants, tag, above, names, descriptors, count):
    """As many constants of fields or methods, each of which has a name and a descriptor of its own among these; gives one of them."""
    first = None
    for i in range(count):
        named = constants.member(tag, above, names[i % len(names)], descriptors[i // len(names)])
        first = first or named
    return first


def using(act, tag, above, names, descriptors, count):
    """K below a class, with a method that uses one of so many members of that class on null."""
    constants = Constants()
    code = ACONST_NULL + act + at(references(constants, tag, above, names, descriptors, count)) + RETURN
    return class_of_members(constants, b"K", above, methods=[method(constants, b"m", code)])


def reading(*members):
    return using(GETFIELD, FIELDREF, *members)


def calling(*members):
    return using(INVOKEVIRTUAL, METHODREF, *members)


def declaring(name, members, above=OBJECT, flags=PROTECTED):
    """A class of fields of these names and descriptors."""
    constants = Constants()
    return class_of_members(constants, name, above, fields=[member(constants, flags, *it) for it in members])


def declaring_methods(name, members, above=OBJECT):
    """An abstract class of methods of these names and descriptors."""
    constants = Constants()
    return class_of_members(constants, name, above, 0x421, methods=[member(constants, 0x404, *it) for it in members])


def numbered(letter, count):
    return [b"%s%d" % (letter, i) for i in range(count)]


def of_one_name(count):
    """So many members of one long name."""
    return [(LONG_NAME, b"L%x;" % i) for i in range(count)]


def small(name, above=OBJECT):
    return class_of_members(Constants(), name, above)


def with_method(name):
    constants = Constants()
    return class_of_members(constants, name, methods=[method(constants, b"m", RETURN, 0)])


def in_line(count):
    """Classes each of which is below the next."""
    names = [*numbered(b"c", count), OBJECT]
    return [small(*it) for it in zip(names, names[1:])]


def full_frames(count, methods, types=(INT, FLOAT)):
    """A class whose methods have so many frames of 65,535 locals each."""
    constants = Constants()
    entries = [frame(0 if i else 1, [types[i % 2]] * LONGEST) for i in range(count)]
    body = code_attribute(constants, RETURN * (count + 1), 0, LONGEST, entries)
    return class_of_members(constants, b"K", methods=[member(constants, STATIC, b"m%d" % i if i else b"m", b"()V", body) for i in range(methods)])


def field_types(count):
    return [b"La%d;" % i for i in range(count)]


def method_types(count):
    return [b"()La%d;" % i for i in range(count)]


ABOVE = b"p/S"
NAMES, ALIKE = numbered(b"f", 180), [b"x" * (LONGEST - 2) + b"%02d" % i for i in range(16)]
TYPES_ALIKE = [b"L" + it[3:] + b";" for it in ALIKE]
TYPES = field_types(2_000)
OF_LONG_CLASS = LONG_CLASS, NAMES, field_types(180), 32_000
OF_LONG_NAMES, OF_LONG_TYPES = (ABOVE, ALIKE, TYPES, 30_000), (ABOVE, numbered(b"f", 2_000), TYPES_ALIKE, 30_000)
OF_LONG_METHODS = LONG_CLASS, NAMES, method_types(180), 32_000
LONG_METHODS = lambda: [(LONG_NAME, it) for it in method_types(60_000)]
BY_LONG_NAME = lambda count: (ABOVE, [LONG_NAME], field_types(count), count)
# K, which uses members of its superclass, and that one; K is judged, or both are in play
BELOW = {
    "32,000 Fieldrefs of a superclass of a long name": lambda: [reading(*OF_LONG_CLASS), declaring(LONG_CLASS, [(b"f0", b"La0;")])],
    "32,000 Fieldrefs of a superclass of a long name that has no fields": lambda: [reading(*OF_LONG_CLASS), small(LONG_CLASS)],
    "32,000 Methodrefs of a superclass of a long name": lambda: [calling(*OF_LONG_METHODS), declaring_methods(LONG_CLASS, [(b"f0", b"()La0;")])],
    "30,000 Fieldrefs of fields of 16 long names that begin alike": lambda: [reading(*OF_LONG_NAMES), declaring(ABOVE, [(it, b"La0;") for it in ALIKE])],
    "30,000 Fieldrefs of fields of 16 long descriptors that begin alike": lambda: [reading(*OF_LONG_TYPES), declaring(ABOVE, [(b"f0", it) for it in TYPES_ALIKE])],
    "a read of a field below 60,000 protected fields of one long name": lambda: [reading(*BY_LONG_NAME(1)), declaring(ABOVE, of_one_name(60_000))],
    "a read of a field below 3,000 protected fields of one long name": lambda: [reading(*BY_LONG_NAME(1)), declaring(ABOVE, of_one_name(3_000))],
    "20,000 Fieldrefs of fields of one long name below 60,000 such protected ones": lambda: [reading(*BY_LONG_NAME(20_000)), declaring(ABOVE, of_one_name(60_000))],
    "a call of a method below 60,000 protected methods of one long name": lambda: [calling(ABOVE, [LONG_NAME], method_types(1), 1), declaring_methods(ABOVE, LONG_METHODS())],
}
# classes in play
IN_PLAY = {
    **BELOW,
    "60,000 fields of one long name": lambda: [declaring(b"K", of_one_name(60_000), flags=0)],
    "60,000 protected fields of one long name": lambda: [declaring(b"K", of_one_name(60_000))],
    "60,000 protected methods of one long name": lambda: [declaring_methods(b"K", LONG_METHODS())],
    "3,000 protected fields of one long name": lambda: [declaring(b"K", of_one_name(3_000))],
    "320,000 protected fields": lambda: [declaring(b"c%d" % i, [(it, b"I") for it in numbered(b"f", 32_000)]) for i in range(10)],
    "320,000 protected fields in a line of superclasses": lambda: [declaring(b"c%d" % i, [(it, b"I") for it in numbered(b"f", 32_000)], b"c%d" % (i + 1) if i < 9 else OBJECT) for i in range(10)],
    "240 full frames of 65,535 locals in one method": lambda: [full_frames(240, 1)],
    "240 methods with a full frame of 65,535 locals": lambda: [full_frames(1, 240)],
    "40,000 classes of 57 bytes": lambda: list(map(small, numbered(b"c", MANY))),
    "20,000 classes in one line of superclasses": lambda: in_line(20_000),
    "20,000 classes of one method": lambda: list(map(with_method, numbered(b"c", 20_000))),
}


def headings(count, after=b""):
    return b"".join(b"file %d c%d\n%s" % (i + 1, i, after) for i in range(count))


# classes that are judged each, and what is printed
EACH = {
    "40,000 classes of 57 bytes": lambda: (list(map(small, numbered(b"c", MANY))), headings(MANY)),
    "20,000 classes in one line of superclasses": lambda: (in_line(20_000), headings(20_000)),
    "20,000 classes of one method": lambda: (list(map(with_method, numbered(b"c", 20_000))), headings(20_000, b"method m ()V verified\n")),
}
# the class that is judged, and those that are known
FILES = {
    **BELOW,
    "40,000 known classes of 57 bytes": lambda: [with_method(b"K"), *map(small, numbered(b"c", MANY))],
}
LINES = b"method m ()V verified\n"
