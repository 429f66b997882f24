"""Classes whose methods read protected fields of classes far above, and these classes, for `bench/hostile`: one judged beside known ones, or all in play."""
import struct

from shapes.long_texts import LONGEST, indices, utf8

ACONST_NULL, ALOAD_0, POP, RETURN, GETFIELD = b"\x01", b"\x2a", b"\x57", b"\xb1", b"\xb4"
STATIC, PROTECTED = 9, 4
CHAIN, READS, FIELDS, DECLARED, OF_NULL = 10_000, 21_000, 16_000, 40, 13_000
LINES = b"method m (LK;)V verified\n"
# In each class the class and its superclass are at 1 and 3, and the other constants from 5 on; in K these come first.
OF_METHOD = [utf8(b"m"), utf8(b"(LK;)V"), utf8(b"Code"), utf8(b"LK;")]
NAME, DESCRIPTOR, CODE, FIELD_TYPE, BEHIND = 5, 6, 7, 8, 9


def class_file(name, above, others=(), fields=(), methods=()):
    """A class by its name, its superclass's, its other constants, the indices of the names and descriptors of its protected fields, and its methods."""
    table = [indices(7, 2), utf8(name), indices(7, 4), utf8(above), *others]
    members = b"".join(struct.pack(">HHHH", PROTECTED, *it, 0) for it in fields)
    head = b"\xca\xfe\xba\xbe\x00\x00\x00\x34" + struct.pack(">H", len(table) + 1) + b"".join(table) + struct.pack(">HHHH", 0x21, 1, 3, 0)
    return head + struct.pack(">H", len(fields)) + members + struct.pack(">H", len(methods)) + b"".join(methods) + bytes(2)


def declaring(name, above, names):
    """A class that declares protected fields of these names, each of type K."""
    return class_file(name, above, [utf8(b"LK;"), *map(utf8, names)], [(6 + i, 5) for i in range(len(names))])


def on_one_another(reads):
    """Code that reads the fields of these constants, each on what the one before it gave."""
    return ALOAD_0 + b"".join(GETFIELD + struct.pack(">H", it) for it in reads) + POP + RETURN


def on_null(reads):
    return b"".join(ACONST_NULL + GETFIELD + struct.pack(">H", it) + POP for it in reads) + RETURN


def reading(above, constants, code):
    """K below a class, with a method of this code."""
    body = struct.pack(">HHI", 1, 1, len(code)) + code + bytes(4)
    method = struct.pack(">HHHHHI", STATIC, NAME, DESCRIPTOR, 1, CODE, len(body)) + body
    return class_file(b"K", above, [*OF_METHOD, *constants], methods=[method])


def fields_of(names):
    """The constants of fields of the superclass by their names, and the indices of their Fieldrefs."""
    constants = []
    for i, name in enumerate(names):
        at = BEHIND + 3 * i
        constants += [indices(9, 3, at + 1), indices(12, at + 2, FIELD_TYPE), utf8(name)]
    return constants, [BEHIND + 3 * i for i in range(len(names))]


def numbered(letter, count):
    return [b"%s%d" % (letter, i) for i in range(count)]


def of_chain(names, reads, each, last):
    """K, which reads fields of the first of a chain of classes that declare fields of these names each, and the last one of others."""
    constants, fields = fields_of(names)
    above = [b"p/s%d" % i for i in range(CHAIN)]
    classes = [declaring(*it, each) for it in zip(above, above[1:])]
    return [reading(above[0], constants, on_one_another(fields * (reads // len(fields)))), *classes, declaring(above[-1], b"java/lang/Object", last)]


def of_long_names():
    """Each read has a Fieldref, a Class and a NameAndType of its own; all of them lead to one class and one field of the longest names. The object is
    null, so that nothing is compared with the class."""
    above, name, constants = b"p/" + b"a" * (LONGEST - 2), b"x" * LONGEST, [utf8(b"x" * LONGEST)]
    for i in range(OF_NULL):
        at = BEHIND + 1 + 3 * i
        constants += [indices(9, at + 1, at + 2), indices(7, 4), indices(12, BEHIND, FIELD_TYPE)]
    return [reading(above, constants, on_null(BEHIND + 1 + 3 * i for i in range(OF_NULL))), declaring(above, b"java/lang/Object", [name])]


OTHERS = numbered(b"y", DECLARED)
# by name: the class, and those that are known beside Object
FILES = {
    "21,000 reads of a field of the last of 10,000 superclasses": lambda: of_chain([b"x"], READS, [], [b"x"]),
    "16,000 reads of a field each, which none of 10,000 superclasses declares": lambda: of_chain(numbered(b"x", FIELDS), FIELDS, [], []),
    "16,000 reads of a field each of the last of 10,000 superclasses": lambda: of_chain(numbered(b"x", FIELDS), FIELDS, [], numbered(b"x", FIELDS)),
    "21,000 reads of a field of the last of 10,000 superclasses that declare 40 fields each": lambda: of_chain([b"x"], READS, OTHERS, [b"x"]),
    "16,000 reads of a field each of the last of 10,000 superclasses that declare 40 fields each": lambda: of_chain(numbered(b"x", FIELDS), FIELDS, OTHERS, numbered(b"x", FIELDS)),
    "13,000 reads of one field of a long name in a class of a long name, each by its own constants": of_long_names,
}


def asking(name, above, field):
    """A class whose method reads a field of its superclass by this name, on null."""
    code = on_null([BEHIND])
    body = struct.pack(">HHI", 1, 1, len(code)) + code + bytes(4)
    method = struct.pack(">HHHHHI", STATIC, NAME, DESCRIPTOR, 1, CODE, len(body)) + body
    return class_file(name, above, [*OF_METHOD, indices(9, 3, BEHIND + 1), indices(12, BEHIND + 2, FIELD_TYPE), utf8(field)], methods=[method])


def in_line(count, field):
    """Classes in one line of superclasses, the lowest first, each of which asks the one above it for a field by a name of its own; the highest declares no field."""
    names = [b"p%d/s%d" % (i % 2, i) for i in range(count)] + [b"java/lang/Object"]
    return [asking(names[i], names[i + 1], field(i)) for i in range(count)]


# classes that are in play with Object
IN_PLAY = {
    "8,000 classes in play in one line of superclasses, each of which reads a field of the one above it": lambda: in_line(8_000, lambda i: b"x"),
    "30,000 classes in play in one line of superclasses, each of which reads another field of the one above it": lambda: in_line(30_000, lambda i: b"x%d" % i),
}
