"""Damaged copies of classes, aimed at the rules of form that a release has and each class has not (JVMS 4.1, 4.4 to 4.7).

A change is to flags of members, constant values, method handles, names of methods, attributes that may stand once, bootstrap
methods, interfaces or debug tables, with numbers at the edges of what the rule allows; about half of the copies keep it.
"""
import struct

from damaged import u2, u4, utf8
from damaged_form import Code, Whole, class_index

# Flags of members that a rule is about, of interfaces and of other classes.
MEMBER_FLAGS = (
    0x0019, 0x1019, 0x0018, 0x0011, 0x0009, 0x001A, 0x0049, 0x0099, 0x4019, 0x0401, 0x0400, 0x0C01, 0x0C00, 0x0001, 0x0002, 0x0004,
    0x000A, 0x0008, 0x0101, 0x0021, 0x0801, 0x0000, 0x0404, 0x0041, 0x0081, 0x1001,
)  # fmt: skip
# Attributes of which a table may have one, with a body of each.
SINGLES = {
    b"EnclosingMethod": None,
    b"SourceDebugExtension": b"SMAP",
    b"RuntimeVisibleAnnotations": b"\0\0",
    b"RuntimeInvisibleAnnotations": b"\0\0",
    b"RuntimeVisibleTypeAnnotations": b"\0\0",
    b"RuntimeInvisibleTypeAnnotations": b"\0\0",
    b"RuntimeVisibleParameterAnnotations": b"\0",
    b"RuntimeInvisibleParameterAnnotations": b"\0",
    b"AnnotationDefault": None,
    b"MethodParameters": b"\0",
    b"NestHost": None,
    b"NestMembers": None,
    b"PermittedSubclasses": None,
    b"Custom": b"\0",
}
NAMES = (b"<init>", b"<clinit>", b"<x>", b"a>b", b"<", b"f", b"a<", b"a.b", b"a;b", b"a[b", b"a/b", b"")
DESCRIPTORS = (b"()V", b"(I)I", b"()Ljava/lang/Object;", b"I", b"[J", b"Ljava/lang/String;")
FIELDS = (b"I", b"J", b"D", b"F", b"Z", b"B", b"[J", b"Ljava/lang/String;", b"Ljava/lang/Object;", b"V", b"", b"()V", b"L;", b"II")
VALUES = (b"\3\0\0\0\1", b"\4\0\0\0\0", b"\5" + bytes(8), b"\6" + bytes(8))


def pair(a, b):
    return struct.pack(">HH", a, b)


def added(owner, constant):
    """The index of a constant; a Long and a Double take two."""
    is_there = constant in owner.constants
    index = owner.add(constant)
    if constant[0] in (5, 6) and not is_there:
        owner.constants.append(b"")
    return index


def codes(owner):
    return [body for _, attributes in owner.methods for _, body in attributes if isinstance(body, Code)]


def member_flags(owner, chance):
    """A member with flags of the list, a few of which have one bit more or less."""
    kind, members = chance.choice((("field", owner.fields), ("method", owner.methods), ("method", owner.methods)))
    if not members:
        return None
    head = chance.choice(members)[0]
    head[0] = chance.choice(MEMBER_FLAGS) ^ (1 << chance.randrange(13) if chance.random() < 0.2 else 0)
    return f"{'interface ' * (owner.head[0] >> 9 & 1)}{kind} flags {head[0]:04x}"


def abstract_method(owner, chance):
    """One method more, without code, which a class that is abstract may have."""
    flags = chance.choice((0x0401, 0x0400, 0x0404, 0x0C01, 0x0C00, 0x0C04, 0x0481, 0x0441))
    if not owner.head[0] & 0x0400:
        owner.head[0] = owner.head[0] & ~0x0010 | 0x0400
    owner.methods.append(([flags, owner.add(utf8(b"more")), owner.add(utf8(b"()V"))], []))
    return f"{'interface ' * (owner.head[0] >> 9 & 1)}method {flags:04x} more"


def sole(owner, chance):
    """An attribute of which there may be one, once or twice, in a table of the class."""
    name = chance.choice([*SINGLES])
    body = SINGLES[name]
    if name in (b"EnclosingMethod", b"NestHost"):
        body = pair(owner.head[1], 0)[: 4 if name == b"EnclosingMethod" else 2]
    if name in (b"NestMembers", b"PermittedSubclasses"):
        body = pair(1, owner.head[1])
    if name == b"AnnotationDefault":
        body = b"s" + struct.pack(">H", owner.add(utf8(b"x")))
    table, count = chance.choice(owner.lists() + [owner.class_attributes] * 4), chance.choice((1, 2, 2))
    for _ in range(count):
        table.insert(chance.randrange(len(table) + 1), [owner.add(utf8(name)), body])
    return f"{count} {name.decode()} more"


def constant_value(owner, chance):
    """A field of another type with a constant value, static or not."""
    flags = chance.choice((0x0018, 0x0008, 0x0010)) if not owner.head[0] & 0x0200 else 0x0019
    index = added(owner, chance.choice((*VALUES, b"\x08" + struct.pack(">H", owner.add(utf8(b"x"))))))
    descriptor = chance.choice(FIELDS[:9])
    value = [owner.add(utf8(b"ConstantValue")), struct.pack(">H", index)]
    owner.fields.append(([flags, owner.add(utf8(b"more")), owner.add(utf8(descriptor))], [value]))
    return f"field {flags:04x} {descriptor.decode()} with constant {owner.constants[index][0]}"


def reference_to(owner, chance):
    """A Fieldref, a Methodref or an InterfaceMethodref, old or new."""
    if chance.random() < 0.5:
        return chance.choice(owner.of_tag(9, 10, 11))
    tag = chance.choice((9, 10, 10, 11))
    name, descriptor = chance.choice((b"f", b"f", b"<init>")) if tag == 10 else b"f", b"I" if tag == 9 else b"()V"
    named = owner.add(b"\x0c" + pair(owner.add(utf8(name)), owner.add(utf8(descriptor))))
    return owner.add(bytes([tag]) + pair(class_index(owner, b"java/lang/Object"), named))


def handle(owner, chance):
    """A method handle more that leads to a reference, or another kind of one that is there."""
    index, kind = reference_to(owner, chance), chance.randrange(1, 10)
    constant, name = owner.constants[index], owner.text(u2(owner.constants[u2(owner.constants[index], 3)], 1))
    owner.add(struct.pack(">BBH", 15, kind, index))
    return f"method handle {kind} to {constant[0]} {name.decode(errors='replace')}"


def name_and_type(owner, chance):
    """A NameAndType more that nothing uses."""
    name, descriptor = chance.choice(NAMES[:7] * 3 + NAMES), chance.choice(DESCRIPTORS)
    owner.constants.append(b"\x0c" + pair(owner.add(utf8(name)), owner.add(utf8(descriptor))))
    return f"NameAndType {name.decode()} {descriptor.decode()}"


def interface(owner, chance):
    """An interface more, by a constant that is there or a new one, which may be one of the others."""
    names = [owner.name(it) for it in owner.interfaces] + [b"java/lang/Cloneable", b"java/io/Serializable"]
    name = chance.choice(names)
    text = len(owner.constants)
    if chance.random() < 0.5:
        owner.constants += [utf8(name), b"\7" + struct.pack(">H", text)]
        owner.interfaces.append(text + 1)
    else:
        owner.interfaces.append(class_index(owner, name))
    return f"interface {name.decode()} more"


def entries(owner, chance):
    """The entries of a BootstrapMethods attribute, of which few are not sound."""
    handle_of = [*owner.of_tag(15), owner.add(struct.pack(">BBH", 15, 6, reference_of_static(owner)))]
    loadable, others = owner.of_tag(3, 4, 5, 6, 7, 8, 15, 16), owner.of_tag(1, 9, 10, 11, 12, 18) + [0, 65535]
    given = []
    for _ in range(chance.randrange(4)):
        arguments = [chance.choice(loadable if chance.random() < 0.9 else others) for _ in range(chance.randrange(3))]
        method = chance.choice(handle_of if chance.random() < 0.9 else [*loadable, *others])
        given.append(struct.pack(f">HH{len(arguments)}H", method, len(arguments), *arguments))
    return given


def reference_of_static(owner):
    named = owner.add(b"\x0c" + pair(owner.add(utf8(b"f")), owner.add(utf8(b"()V"))))
    return owner.add(b"\n" + pair(class_index(owner, b"java/lang/Object"), named))


def bootstraps(owner, chance):
    """Another BootstrapMethods attribute, in the place of one that is there or beside it, cut or longer or whole."""
    given, name = entries(owner, chance), owner.add(utf8(b"BootstrapMethods"))
    count = len(given) + chance.choice((0,) * 10 + (1, -1))
    body = struct.pack(">H", max(count, 0)) + b"".join(given)
    body = chance.choice([body] * 8 + [body[:-1], body + b"\0", body[:-2]])
    if chance.random() < 0.9:
        owner.class_attributes[:] = [it for it in owner.class_attributes if it[0] != name]
    owner.class_attributes.append([name, body])
    return f"BootstrapMethods of {len(given)}"


def site(owner, chance):
    """An InvokeDynamic or a Dynamic more, of one of the numbers of bootstrap methods or the next."""
    bodies = [body for name, body in owner.class_attributes if owner.text(name) == b"BootstrapMethods" and len(body) > 1]
    number = chance.choice((0, 0, 1, u2(bodies[0], 0) if bodies else 0, 65535))
    tag, descriptor = chance.choice(((18, b"()V"), (17, b"I")))
    named = owner.add(b"\x0c" + pair(owner.add(utf8(b"f")), owner.add(utf8(descriptor))))
    owner.add(bytes([tag]) + pair(number, named))
    return f"constant {tag} of {number} more"


def debug_row(owner, chance):
    """A row more in a debug table of a Code attribute, or in a new table, with numbers at the edges of the code."""
    given = codes(owner)
    if not given:
        return None
    code = chance.choice(given)
    length, locals_ = u4(code.front, 4), u2(code.front, 2)
    start = chance.choice((0, 0, length - 1, length - 1, length, length + 1, 65535))
    if chance.random() < 0.2:
        put_row(owner, code, b"LineNumberTable", pair(start, 1), chance)
        return f"line at {start} of {length}"
    room = length - start
    size = max(0, min(65535, chance.choice((0, room, room, 1, room + 1, 65535))))
    index = max(0, chance.choice((0, locals_ - 1, locals_ - 1, locals_ - 2, locals_, 65535)))
    name, descriptor = chance.choice(NAMES[5:6] * 9 + NAMES), chance.choice(FIELDS[:9] * 2 + FIELDS)
    row = struct.pack(">HHHHH", start, size, owner.add(utf8(name)), owner.add(utf8(descriptor)), index)
    for table in chance.choice(((b"LocalVariableTable",),) * 3 + ((b"LocalVariableTable", b"LocalVariableTypeTable"), (b"LocalVariableTypeTable",))):
        put_row(owner, code, table, row, chance)
    return f"variable {name.decode()} {descriptor.decode()} {start} {size} {index} of {length} {locals_}"


def put_row(owner, code, table, row, chance):
    """Adds a row to a table, once or twice, or to a new table of this name."""
    name, row = owner.add(utf8(table)), row * chance.choice((1,) * 9 + (2,))
    old = [it for it in code.attributes if it[0] == name]
    size = 4 if table == b"LineNumberTable" else 10
    if not old or chance.random() < 0.2:
        old = [[name, b"\0\0"]]
        code.attributes += old
    rows = old[0][1][2:] + row
    old[0][1] = struct.pack(">H", len(rows) // size) + rows


CHANGES = {
    member_flags: 8, abstract_method: 3, sole: 10, constant_value: 3, handle: 4, name_and_type: 2, interface: 2, bootstraps: 3, site: 3, debug_row: 12,
}  # fmt: skip


def aimed_mutant(data, name, chance):
    """A copy under another name with one or two changes, and what they are; None where none applies."""
    owner = Whole(data)
    owner.renamed(name)
    try:
        done = [chance.choices([*CHANGES], [*CHANGES.values()])[0](owner, chance) for _ in range(chance.choice((1, 1, 1, 2)))]
        return (owner.data(), [it for it in done if it]) if any(done) else None
    except (IndexError, ValueError, struct.error):
        return None
