"""Class files made by hand, without Java: the parts of the hostile files that are measured, and the files of one measurement."""
import pathlib
import struct

POOL = 8  # the first index after the fixed entries


def utf8(text):
    return b"\x01" + struct.pack(">H", len(text)) + text


def class_file(methods, names=(), other=None):
    """A class K under java/lang/Object with these methods. Index 5 is `()V`, 6 `Code`, 7 `StackMapTable`, and from 8 on come the names; after
    them comes the name of another class, if there is one, and then that class."""
    pool = b"\x07\x00\x02" + utf8(b"K") + b"\x07\x00\x04" + utf8(b"java/lang/Object") + utf8(b"()V") + utf8(b"Code") + utf8(b"StackMapTable")
    texts = [*names, *([other] if other else [])]
    class_of_other = b"\x07" + struct.pack(">H", POOL + len(names)) if other else b""
    count = POOL + len(texts) + bool(other)
    head = b"\xca\xfe\xba\xbe" + struct.pack(">HHH", 0, 52, count) + pool + b"".join(map(utf8, texts)) + class_of_other
    return head + struct.pack(">HHHHHH", 0x21, 1, 3, 0, 0, len(methods)) + b"".join(methods) + bytes(2)


def full_frame(delta, locals_given, stack_given=b""):
    """An entry of a stack map that gives all locals and the stack, by the bytes of their types, each of one byte."""
    return b"\xff" + struct.pack(">HH", delta, len(locals_given)) + locals_given + struct.pack(">H", len(stack_given)) + stack_given


def at(number):
    return struct.pack(">H", number)


def frame(delta, types, stack=()):
    """Such an entry, by the bytes of each type."""
    return b"\xff" + at(delta) + at(len(types)) + b"".join(types) + at(len(stack)) + b"".join(stack)


def stack_map(entries):
    return struct.pack(">H", len(entries)) + b"".join(entries)


def handler(start, end, to):
    """An entry of an exception table that catches all."""
    return struct.pack(">HHHH", start, end, to, 0)


def method(name, code, max_stack, max_locals, body_of_map=None, handlers=()):
    """A static method ()V of this code, whose name is the entry of this index, with this body of a StackMapTable if one is given, and with
    these entries of an exception table."""
    nested = [] if body_of_map is None else [struct.pack(">HI", 7, len(body_of_map)) + body_of_map]
    behind = struct.pack(">H", len(handlers)) + b"".join(handlers) + struct.pack(">H", len(nested)) + b"".join(nested)
    body = struct.pack(">HHI", max_stack, max_locals, len(code)) + code + behind
    return struct.pack(">HHHHHI", 9, name, 5, 1, 6, len(body)) + body


def path_of(folder, i):
    return pathlib.Path(folder) / f"{i}.class"


def written(folder, classes):
    """Writes the file of each of these classes; returns whether there are any."""
    for i, data in enumerate(classes):
        path_of(folder, i).write_bytes(data)
    return bool(classes)


def paths(folder):
    """The paths of those files, in their order."""
    count = sum(it.stem.isdigit() for it in pathlib.Path(folder).iterdir())
    return [str(path_of(folder, i)) for i in range(count)]


class Constants:
    """The constants of a class; the ones that are asked for again are in it once."""

    def __init__(self):
        self.parts, self.numbers, self.texts = [], {}, {}

    def add(self, part):
        if part not in self.numbers:
            self.parts.append(part)
            self.numbers[part] = len(self.parts)
        return self.numbers[part]

    def text(self, text):
        if text not in self.texts:
            self.texts[text] = self.add(utf8(text))
        return self.texts[text]

    def class_of(self, name):
        return self.add(b"\x07" + struct.pack(">H", self.text(name)))

    def member(self, tag, owner, name, descriptor):
        """A Fieldref or Methodref."""
        both = self.add(b"\x0c" + struct.pack(">HH", self.text(name), self.text(descriptor)))
        return self.add(bytes([tag]) + struct.pack(">HH", self.class_of(owner), both))


def code_attribute(constants, code, max_stack, max_locals, entries=(), handlers=()):
    """The attribute with this code, stack map and exception table."""
    body = stack_map(entries)
    nested = [struct.pack(">HI", constants.text(b"StackMapTable"), len(body)) + body] if entries else []
    tables = struct.pack(">H", len(handlers)) + b"".join(handlers) + struct.pack(">H", len(nested)) + b"".join(nested)
    body = struct.pack(">HHI", max_stack, max_locals, len(code)) + code + tables
    return struct.pack(">HI", constants.text(b"Code"), len(body)) + body


def member(constants, flags, name, descriptor, *attributes):
    """A field or a method."""
    return struct.pack(">HHHH", flags, constants.text(name), constants.text(descriptor), len(attributes)) + b"".join(attributes)


def class_of_members(constants, name, above=b"java/lang/Object", flags=0x21, fields=(), methods=()):
    """A class of these constants and members."""
    this, upper = constants.class_of(name), constants.class_of(above)
    table = struct.pack(">H", len(constants.parts) + 1) + b"".join(constants.parts)
    members = [struct.pack(">H", len(it)) + b"".join(it) for it in (fields, methods)]
    return b"\xca\xfe\xba\xbe\x00\x00\x00\x34" + table + struct.pack(">HHHH", flags, this, upper, 0) + b"".join(members) + bytes(2)


def interface(name):
    return class_of_members(Constants(), name, flags=0x601)
