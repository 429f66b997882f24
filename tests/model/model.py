"""The layout of class files once more, read from the standard and not from the program: what `classck check` should print.

It follows The Java Virtual Machine Specification, Java SE 17, 4.1, 4.4 to 4.7: the parts in the order of the file, up to
the first that is not whole (2, or 12 in the body of an attribute) or that breaks its rule. What is a class file by its
layout is judged by form.py. Before that a file is read up to its end by its counts, tags and lengths alone, and one byte behind it.
"""
from model.attribute_table import row_of
from model.form import first_fault

LIMIT = 16_777_216


class Refused(Exception):
    """The file is refused: a number, and where."""


class Reader:
    """Bytes that are read from left to right; `end` is where the innermost body ends, `name_at` where its attribute begins.

    `short` gathers where numbers of two bytes stand: counts, flags and indices; `items` the fields, methods, components and attributes, each by its place, its end,
    the place of its table's count and those of the lengths of what it stands in; `codes` the code of methods, by the place of its length, its end and such lengths; `flags`
    the access flags, those of the class last, behind which stand the indices of the class and its superclass.
    """

    def __init__(self, data):
        self.data = data
        self.at = 0
        self.end = len(data)
        self.name_at = None
        self.short = []
        self.items = []
        self.codes = []
        self.flags = []
        self.lengths = ()

    def part(self, size):
        if self.at + size > self.end:
            raise Refused(f"2 at {self.at}" if self.name_at is None else f"12 at {self.name_at}")
        self.at += size
        return self.data[self.at - size : self.at]

    def number(self, size):
        if size == 2:
            self.short.append(self.at)
        return int.from_bytes(self.part(size), "big")


def bad_unit(text):
    """Where the first unit without a right spelling begins (4.4.7), in its shortest spelling alone; None where there is none."""
    k = 0
    while k < len(text):
        first, rest = text[k], text[k + 1 : k + 3]
        follows = [it - 0x80 for it in rest if 0x80 <= it < 0xC0]
        if 0x01 <= first < 0x80:
            k += 1
        elif 0xC0 <= first < 0xE0 and len(rest) > 0 and 0x80 <= rest[0] < 0xC0:
            unit = (first - 0xC0) * 64 + follows[0]
            if 0 < unit < 0x80:
                return k
            k += 2
        elif 0xE0 <= first < 0xF0 and len(rest) == 2 and len(follows) == 2:
            if ((first - 0xE0) * 64 + follows[0]) * 64 + follows[1] < 0x800:
                return k
            k += 3
        else:
            return k
    return None


# The bodies of the constants that have a fixed size, as the sizes of their numbers (4.4).
BODIES = {3: [4], 4: [4], 5: [4, 4], 6: [4, 4], 7: [2], 8: [2], 9: [2, 2], 10: [2, 2], 11: [2, 2], 12: [2, 2], 16: [2], 17: [2, 2], 18: [2, 2]}


def constant(reader, is_last):
    """A constant: its tag, its indices and its text, where it has them."""
    at = reader.at
    tag = reader.number(1)
    if tag == 1:
        size = reader.number(2)
        start = reader.at
        text = reader.part(size)
        bad = bad_unit(text)
        if bad is not None:
            raise Refused(f"3 at {start + bad}")
        return tag, [], bytes(text)
    if tag == 15:
        at = reader.at
        kind = reader.number(1)
        if not 1 <= kind <= 9:
            raise Refused(f"7 at {at} tag {kind}")
        return tag, [reader.number(2)], None
    if tag not in BODIES or (tag in (5, 6) and is_last):
        raise Refused(f"7 at {at} tag {tag}")
    return tag, [reader.number(size) for size in BODIES[tag]], None


def counted(reader, item):
    """A table: a count of two bytes, and so many items."""
    count_at, found = reader.at, []
    for _ in range(reader.number(2)):
        start = reader.at
        found.append(item())
        reader.items.append((start, reader.at, count_at, reader.lengths))
    return found


def pool(reader):
    """The constants by their indices."""
    at = reader.at
    count = reader.number(2)
    if count == 0:
        raise Refused(f"16 at {at}")
    constants, index = {}, 1
    while index < count:
        constants[index] = constant(reader, index == count - 1)
        index += 2 if constants[index][0] in (5, 6) else 1
    return constants


def code(reader, constants):
    """The body of a Code attribute (4.7.3): the length of its code, the classes that it catches, and its attributes."""
    reader.number(2)
    reader.number(2)
    length_at = reader.at
    length = reader.number(4)
    reader.part(length)
    reader.codes.append((length_at, reader.at, reader.lengths))
    catches = []
    for _ in range(reader.number(2)):
        catches.append([reader.number(2) for _ in range(4)][3])
    return length, catches, attributes(reader, constants, "code")


def text_at(constants, index):
    return constants[index][2] if index in constants else None


def numbers_of(reader, letters):
    """The numbers of an attribute (see attribute_table.py), each with its letter."""
    count = reader.number(2) if letters.startswith("*") else 1
    return [(letter, reader.number(2)) for _ in range(count) for letter in letters.strip("*")]


def components(reader, constants):
    """The body of a Record attribute (4.7.30): of each component its name, its descriptor and its attributes."""
    return counted(reader, lambda: (reader.number(2), reader.number(2), attributes(reader, constants, "component")))


def attribute(reader, constants, place, major):
    """An attribute: the index of its name and the name, what a Code or a Record attribute holds, and numbers, where it is one of these."""
    name_at = reader.at
    name = reader.number(2)
    size = reader.number(4)
    start = reader.at
    reader.part(size)
    text = text_at(constants, name)
    is_code, row = (place, text) == ("method", b"Code"), row_of(place, text, major)
    is_record = (place, text) == ("class", b"Record") and major >= 60
    one = {"name": name, "text": text, "code": None, "components": [], "once": is_record, "numbers": []}
    if is_code or is_record or row is not None:
        outer = reader.end, reader.name_at, reader.lengths
        reader.at, reader.end, reader.name_at, reader.lengths = start, start + size, name_at, (*reader.lengths, name_at + 2)
        if is_code:
            one |= {"code": code(reader, constants)}
        elif is_record:
            one |= {"components": components(reader, constants)}
        else:
            one |= {"once": row[0], "numbers": numbers_of(reader, row[1])}
        if reader.at != reader.end:
            raise Refused(f"12 at {name_at}")
        reader.end, reader.name_at, reader.lengths = outer
    return one


def attributes(reader, constants, place, major=51):
    return counted(reader, lambda: attribute(reader, constants, place, major))


def member(reader, constants, place):
    """A field or a method."""
    reader.flags.append(reader.at)
    flags, name, descriptor = (reader.number(2) for _ in range(3))
    return {"flags": flags, "name": name, "descriptor": descriptor, "attributes": attributes(reader, constants, place)}


def members(reader, constants, place):
    return counted(reader, lambda: member(reader, constants, place))


def class_file(reader):
    """A class file by its parts."""
    if reader.number(4) != 0xCAFEBABE:
        raise Refused("10")
    minor, major = reader.number(2), reader.number(2)
    if not 51 <= major <= 61 or (major > 55 and minor):
        raise Refused(f"11 {major}.{minor}")
    constants = pool(reader)
    flags_at = reader.at
    flags, this, above = (reader.number(2) for _ in range(3))
    interfaces = [reader.number(2) for _ in range(reader.number(2))]
    fields = members(reader, constants, "field")
    methods = members(reader, constants, "method")
    reader.flags.append(flags_at)
    file = {"major": major, "constants": constants, "flags": flags, "this": this, "super": above}
    file |= {"interfaces": interfaces, "fields": fields, "methods": methods}
    file["attributes"] = attributes(reader, constants, "class", major)
    if reader.at != reader.end:
        raise Refused(f"13 at {reader.at}")
    return file


class Stream(Reader):
    """Bytes that are read from left to right, of which no part may pass the limit."""

    def part(self, size):
        if self.at + size > LIMIT:
            raise Refused(f"14 at {self.at}")
        return super().part(size)


def sized(stream, is_last):
    """The size of a constant by its tag, and how many indices it takes."""
    at = stream.at
    tag = stream.number(1)
    if tag == 1:
        stream.part(stream.number(2))
    elif tag == 15:
        stream.part(1)
        stream.part(2)
    elif tag not in BODIES or (tag in (5, 6) and is_last):
        raise Refused(f"7 at {at} tag {tag}")
    else:
        for size in BODIES[tag]:
            stream.part(size)
    return 2 if tag in (5, 6) else 1


def skipped(stream, indices):
    """A table of attributes after so many numbers."""
    for _ in range(indices):
        stream.part(2)
    for _ in range(stream.number(2)):
        stream.part(2)
        stream.part(stream.number(4))


def outline(data):
    """Where a class file ends that is read from its start, by its counts, tags and lengths alone."""
    stream = Stream(data)
    if stream.number(4) != 0xCAFEBABE:
        raise Refused("10")
    stream.part(2)
    stream.part(2)
    at, count, index = stream.at, stream.number(2), 1
    if count == 0:
        raise Refused(f"16 at {at}")
    while index < count:
        index += sized(stream, index == count - 1)
    for _ in range(3):
        stream.part(2)
    for _ in range(stream.number(2)):
        stream.part(2)
    for _ in range(2):
        for _ in range(stream.number(2)):
            skipped(stream, 3)
    skipped(stream, 0)
    return stream.at


def places(data):
    """The reader of a class file, with the places that it gathered."""
    reader = Reader(data)
    class_file(reader)
    return reader


def check(data):
    """The output of `check` on a file, and its status."""
    try:
        read = data[: outline(data) + 1]
        if len(read) > LIMIT:
            raise Refused("14 at 0")
        fault = first_fault(class_file(Reader(read)))
        if fault is not None:
            raise Refused(fault)
    except Refused as fault:
        return f"refused {fault}", 1
    return "ok", 0
