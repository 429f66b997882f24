"""Damaged copies of classes: each under a name of its own, with one or two changes to its form and none to its code.

A change is to flags, interfaces, the superclass, members, constants that call sites use, and attributes, which are doubled, cut, moved, or get another number
or a row twice; most leave what can be decoded, so that it is a rule of form which judges them.
"""
import struct

from damaged import Class, attribute_bytes, constants_of, u2, u4, utf8

# The debug tables, with the bytes of a row.
TABLES = {b"LineNumberTable": 4, b"LocalVariableTable": 10, b"LocalVariableTypeTable": 10}
# Methods that are final in java/lang/Object, and one that is not.
OF_OBJECT = (b"getClass ()Ljava/lang/Class;", b"notify ()V", b"notifyAll ()V", b"wait ()V", b"wait (J)V", b"toString ()Ljava/lang/String;")
NAMES = (b"<init>", b"<clinit>", b"<x>", b"a>b", b"a", b"")
SUPERCLASSES = (b"java/lang/String", b"java/lang/Runnable", b"java/lang/Object", b"java/lang/Enum", b"java/lang/Record", b"java/lang/Number")
CLASS_FLAGS = (0x0001, 0x0010, 0x0010, 0x0020, 0x0200, 0x0400, 0x1000, 0x2000, 0x4000, 0x8000)


class Code:
    """The body of a Code attribute: the bytes up to its attributes, and these."""

    def __init__(self, body):
        at = 8 + u4(body, 4)
        at += 2 + 8 * u2(body, at)
        self.front, self.attributes = body[:at], [list(it) for it in Class.attributes(body, at)[0]]

    def data(self):
        return self.front + attribute_bytes(self.attributes)


class Whole(Class):
    """All parts of a class file: its constants, its flags with its name and superclass, interfaces, members and attributes."""

    def __init__(self, data):
        self.version = data[4:8]
        self.constants, at = constants_of(data)
        self.head = [*struct.unpack_from(">HHH", data, at)]
        count = u2(data, at + 6)
        self.interfaces = [*struct.unpack_from(f">{count}H", data, at + 8)]
        self.fields, at = self.all_of(data, at + 8 + 2 * count)
        self.methods, at = self.all_of(data, at)
        self.class_attributes = [list(it) for it in self.attributes(data, at)[0]]

    def all_of(self, data, at):
        """The fields or methods from a place on, each as its three numbers and its attributes, and the place behind."""
        given, at = self.members(data, at)
        return [([*head], [self.opened(it) for it in attributes]) for head, attributes in given], at

    def opened(self, attribute):
        """An attribute as its name's index and its body, which for Code has its parts."""
        name, body = attribute
        return [name, Code(body) if self.text(name) == b"Code" else body]

    def name(self, index=None):
        return self.text(u2(self.constants[self.head[1] if index is None else index], 1))

    def lists(self):
        """Each list of attributes."""
        given = [self.class_attributes, *(attributes for _, attributes in (*self.fields, *self.methods))]
        return given + [body.attributes for it in given for _, body in it if isinstance(body, Code)]

    def data(self):
        head = b"\xca\xfe\xba\xbe" + self.version + struct.pack(">H", len(self.constants)) + b"".join(self.constants)
        numbers = (*self.head, len(self.interfaces), *self.interfaces)
        members = b"".join(struct.pack(">H", len(it)) + b"".join(map(member_bytes, it)) for it in (self.fields, self.methods))
        return head + struct.pack(f">{len(numbers)}H", *numbers) + members + closed(self.class_attributes)


def closed(attributes):
    return attribute_bytes([(name, body.data() if isinstance(body, Code) else body) for name, body in attributes])


def member_bytes(member):
    return struct.pack(">HHH", *member[0]) + closed(member[1])


# ---- changes: each takes the class and a source of chance, and says what it did; None for nothing


def an_attribute(owner, chance):
    """A list of attributes with some, and the place of one in it, whose body is bytes."""
    given = [(them, i) for them in owner.lists() for i, it in enumerate(them) if not isinstance(it[1], Code)]
    return chance.choice(given) if given else (None, None)


def told(owner, what, attribute):
    return f"{what} {owner.text(attribute[0]).decode(errors='replace')}"


def class_flag(owner, chance):
    owner.head[0] ^= chance.choice(CLASS_FLAGS)
    return f"class flags {owner.head[0]:04x}"


def member_flag(owner, chance):
    kind, members = chance.choice((("field", owner.fields), ("method", owner.methods)))
    if not members:
        return None
    head = chance.choice(members)[0]
    head[0] ^= 1 << chance.randrange(13)
    return f"{'interface ' * (owner.head[0] >> 9 & 1)}{kind} flags {head[0]:04x}"


def doubled(owner, chance):
    them, i = an_attribute(owner, chance)
    if them is None:
        return None
    them.insert(chance.randrange(len(them) + 1), [*them[i]])
    return told(owner, "doubled", them[i])


def cut(owner, chance):
    """An attribute with a few bytes less, or more."""
    them, i = an_attribute(owner, chance)
    if them is None:
        return None
    size, body = chance.choice((1, 2, 2, 4)), them[i][1]
    them[i][1] = body[:-size] if chance.random() < 0.6 else body + bytes(size)
    return told(owner, "cut", them[i])


def moved(owner, chance):
    """An attribute in another list, or a copy of it."""
    them, i = an_attribute(owner, chance)
    if them is None:
        return None
    moving = [*them[i]]
    if chance.random() < 0.5:
        del them[i]
    chance.choice(owner.lists()).append(moving)
    return told(owner, "moved", moving)


def number(owner, chance):
    """Another number of two bytes in an attribute."""
    them, i = an_attribute(owner, chance)
    if them is None or len(them[i][1]) < 2:
        return None
    at = chance.randrange(0, len(them[i][1]) - 1, 2)
    old = u2(them[i][1], at)
    new = chance.choice((old + 1, old - 1, 0, chance.randrange(len(owner.constants)), 0xFFFF)) & 0xFFFF
    them[i][1] = them[i][1][:at] + struct.pack(">H", new) + them[i][1][at + 2 :]
    return told(owner, f"number at {at} of", them[i])


def row(owner, chance):
    """A row of a debug table once more, or another number in it."""
    tables = [it for them in owner.lists() for it in them if owner.text(it[0]) in TABLES]
    if not tables:
        return None
    table = chance.choice(tables)
    size, count = TABLES[owner.text(table[0])], u2(table[1], 0)
    rows = [table[1][2 + size * i : 2 + size * (i + 1)] for i in range(count)]
    if not rows:
        return None
    copy = bytearray(chance.choice(rows))
    at = chance.randrange(0, size, 2)
    if chance.random() < 0.6:
        copy[at : at + 2] = struct.pack(">H", chance.choice((0, 1, u2(copy, at) + 1, chance.randrange(64), 0xFFFE)))
    rows.append(bytes(copy))
    table[1] = struct.pack(">H", len(rows)) + b"".join(rows)
    return told(owner, "row of", table)


def interface(owner, chance):
    """An interface listed twice, or a class as one."""
    owner.interfaces.append(chance.choice(owner.interfaces or owner.of_tag(7)))
    return "interface"


def class_index(owner, name):
    return owner.add(b"\7" + struct.pack(">H", owner.add(utf8(name))))


def superclass(owner, chance):
    owner.head[2] = class_index(owner, chance.choice(SUPERCLASSES))
    return f"superclass {owner.name(owner.head[2]).decode()}"


def overriding(owner, chance):
    """A method with the name and descriptor of one of java/lang/Object."""
    if not owner.methods:
        return None
    head = chance.choice(owner.methods)[0]
    name = chance.choice(OF_OBJECT)
    head[1:] = [owner.add(utf8(it)) for it in name.split()]
    return f"method {name.decode()}"


def member_twice(owner, chance):
    members = chance.choice([it for it in (owner.fields, owner.methods) if it] or [[]])
    if not members:
        return None
    members.append(chance.choice(members))
    return "member twice"


def constant(owner, chance):
    """The kind of a method handle or what it leads to, or a part of another constant."""
    handles = owner.of_tag(15)
    if handles and chance.random() < 0.6:
        i = chance.choice(handles)
        kind, index = owner.constants[i][1], u2(owner.constants[i], 2)
        if chance.random() < 0.5:
            kind = chance.randrange(1, 10)
        else:
            index = chance.choice(owner.of_tag(9, 10, 11))
        owner.constants[i] = struct.pack(">BBH", 15, kind, index)
        return f"method handle {kind}"
    i = chance.choice(owner.of_tag(7, 8, 9, 10, 11, 12, 16, 17, 18))
    at = chance.randrange(1, len(owner.constants[i]), 2)
    new = bytearray(owner.constants[i])
    new[at : at + 2] = struct.pack(">H", chance.choice(owner.of_tag(owner.constants[u2(new, at)][0])))
    owner.constants[i] = bytes(new)
    return f"constant {new[0]}"


def other_name(owner, chance):
    """Another name in a NameAndType."""
    given = owner.of_tag(12)
    if not given:
        return None
    i, name = chance.choice(given), chance.choice(NAMES)
    owner.constants[i] = b"\x0c" + struct.pack(">H", owner.add(utf8(name))) + owner.constants[i][3:]
    return f"NameAndType {name.decode()}"


CHANGES = {
    class_flag: 4, member_flag: 6, doubled: 8, cut: 4, moved: 5, number: 8, row: 8, interface: 1, superclass: 2,
    overriding: 2, member_twice: 1, constant: 4, other_name: 2,
}


def mutant_of_form(data, name, chance):
    """A copy under another name with one or two changes to its form, and what they are; None where none applies."""
    owner = Whole(data)
    owner.renamed(name)
    try:
        done = [chance.choices([*CHANGES], [*CHANGES.values()])[0](owner, chance) for _ in range(chance.choice((1, 1, 1, 2)))]
        return (owner.data(), [it for it in done if it]) if any(done) else None
    except (IndexError, ValueError, struct.error):
        return None
