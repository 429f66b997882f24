"""Class files in which very many constants or fields name one long text, for `bench/hostile`."""
import struct

MANY, LONGEST = 64_000, 65_535


def utf8(text):
    return b"\x01" + struct.pack(">H", len(text)) + text


def indices(tag, *numbers):
    """A constant of indices."""
    return bytes([tag]) + b"".join(struct.pack(">H", it) for it in numbers)


# after the class's name and its superclass's: at 5 a class's name, at 6 a field's and at 7 a method's descriptor, each of 65,535 bytes or nearly so
HEAD = [indices(7, 2), utf8(b"K"), indices(7, 4), utf8(b"java/lang/Object")]
TEXTS = [
    utf8(b"a" * LONGEST),
    utf8(b"L" + b"a" * (LONGEST - 2) + b";"),
    utf8(b"(L" + b"a" * (LONGEST - 5) + b";)V"),
    utf8(b"I"),
]
BEHIND = len(HEAD) + len(TEXTS) + 1


def class_file(constants, fields=()):
    """A class with these constants after the texts, and fields by their indices."""
    table = [*HEAD, *TEXTS, *constants]
    members = b"".join(struct.pack(">HHHH", 0, name, descriptor, 0) for name, descriptor in fields)
    return (
        b"\xca\xfe\xba\xbe\x00\x00\x00\x34" + struct.pack(">H", len(table) + 1) + b"".join(table)
        + struct.pack(">HHHHH", 0x21, 1, 3, 0, len(fields)) + members + bytes(4)
    )


def alike(count, first, last, length=LONGEST):
    """So many texts of this length that differ in their last bytes alone, between a beginning and an end."""
    middle = b"a" * (length - len(first) - len(last) - 3)
    return [utf8(first + middle + b"%03d" % i + last) for i in range(count)]


def beginning_alike(rows, columns, length=LONGEST):
    """A field of each of so many names and each of so many descriptors; `length` is that of their texts."""
    texts = alike(rows, b"", b"", length) + alike(columns, b"L", b";", length)
    behind_names = BEHIND + rows
    return class_file(texts, [(BEHIND + i, behind_names + k) for i in range(rows) for k in range(columns)])


def names(count):
    return [utf8(b"f%d" % i) for i in range(count)]


def descriptors(count):
    return [utf8(b"Lf%d;" % i) for i in range(count)]


def behind(count):
    return range(BEHIND, BEHIND + count)


FILES = {
    f"{MANY} classes of one long name": lambda: class_file([indices(7, 5)] * MANY),
    f"{MANY} names and types of one long name": lambda: class_file([indices(12, 5, 8)] * MANY),
    f"{MANY} names and types of one long field descriptor": lambda: class_file([indices(12, 2, 6)] * MANY),
    f"{MANY} names and types of one long method descriptor": lambda: class_file([indices(12, 2, 7)] * MANY),
    f"{MANY} method types of one long descriptor": lambda: class_file([indices(16, 7)] * MANY),
    f"{MANY} methods of one name and type with a long descriptor": lambda: class_file([indices(12, 2, 7)] + [indices(10, 1, BEHIND)] * MANY),
    "60000 fields of one long name": lambda: class_file(descriptors(60_000), [(5, it) for it in behind(60_000)]),
    "fields of 120 names by 120 descriptors that begin alike": lambda: beginning_alike(120, 120),
    "fields of 250 names by 256 descriptors that begin alike": lambda: beginning_alike(250, 256, 30_000),
    "60000 fields of one long descriptor": lambda: class_file(names(60_000), [(it, 6) for it in behind(60_000)]),
}
