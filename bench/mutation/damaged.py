"""Damaged copies of classes: each under a name of its own, with one to three changes to the code of a method.

A change is to instructions, their operands, the frames of the stack map, entries of the exception table, sizes,
descriptors, or the superclass; most mutants are well-formed, so that it is the verifier which judges them.
"""
import pathlib
import re
import struct
import sys

TOP = pathlib.Path(__file__).resolve().parents[2]
sys.path[:0] = [str(TOP / "tests"), str(TOP / "examples")]
from folders import SIZES
from tools.assembler import FORMS, MNEMONICS

# Classes that a change may bring in.
OTHERS = [*(f"java/lang/{it}" for it in "Object String Throwable Cloneable".split()), "[I", "[Ljava/lang/Object;"]
FORMS_OF = [FORMS.get(it, "") for it in MNEMONICS]
BRANCHES = [it.startswith("if") or it in ("goto", "jsr") for it in MNEMONICS]
# Operands that are an index of the constant pool.
NAMING = """
ldc ldc_w ldc2_w new anewarray checkcast instanceof multianewarray getstatic putstatic getfield putfield
invokevirtual invokespecial invokestatic invokeinterface invokedynamic
"""
CONSTANTS = {MNEMONICS.index(it) for it in NAMING.split()}
OF_MEMBERS = [it for it in NAMING.split() if it[:3] in ("get", "put", "inv")]
LOCALS = {i for i, it in enumerate(FORMS_OF) if it in ("B", "Bb")} - {MNEMONICS.index(it) for it in ("ldc", "newarray")}
SWITCHES = (MNEMONICS.index("tableswitch"), MNEMONICS.index("lookupswitch"))
WIDE = MNEMONICS.index("wide")
LONG = (*SWITCHES, WIDE)


def u2(data, at):
    return data[at] << 8 | data[at + 1]


def u4(data, at):
    return int.from_bytes(data[at : at + 4], "big")


def utf8(text):
    return b"\1" + struct.pack(">H", len(text)) + text


def constants_of(data):
    """The bytes of each constant, none for index 0 and the second index of a Long or Double, and the place behind."""
    given, at, count = [b""], 10, u2(data, 8)
    while len(given) < count:
        size = 3 + u2(data, at + 1) if data[at] == 1 else SIZES[data[at]]
        given.append(data[at : at + size])
        if data[at] in (5, 6):
            given.append(b"")
        at += size
    return given, at


def name_of(data):
    """The name of the class in these bytes."""
    constants, at = constants_of(data)
    return constants[u2(constants[u2(data, at + 2)], 1)][3:].decode()


class Class:
    """The parts of a class file: constants, the bytes in front of the methods, the methods, and the bytes behind."""

    def __init__(self, data):
        self.version = data[4:8]
        self.constants, at = constants_of(data)
        begin = at
        at += 6
        at += 2 + 2 * u2(data, at)
        at = self.members(data, at)[1]
        self.front = data[begin:at]
        methods, at = self.members(data, at)
        self.methods, self.behind = [Method(self, *it) for it in methods], data[at:]

    @staticmethod
    def attributes(data, at):
        given, count = [], u2(data, at)
        at += 2
        for _ in range(count):
            length = u4(data, at + 2)
            given.append((u2(data, at), data[at + 6 : at + 6 + length]))
            at += 6 + length
        return given, at

    def members(self, data, at):
        given, count = [], u2(data, at)
        at += 2
        for _ in range(count):
            attributes, end = self.attributes(data, at + 6)
            given.append((struct.unpack_from(">HHH", data, at), attributes))
            at = end
        return given, at

    def text(self, index):
        return self.constants[index][3:]

    def name(self, index=None):
        """The name of the class constant at this index; of the class itself where none is said."""
        return self.text(u2(self.constants[u2(self.front, 2) if index is None else index], 1))

    def add(self, constant):
        if constant not in self.constants:
            self.constants.append(constant)
        return self.constants.index(constant)

    def of_tag(self, *tags):
        return [i for i, it in enumerate(self.constants) if it and it[0] in tags]

    def renamed(self, name):
        """Gives the class another name, in its own constants and descriptors."""
        old = self.name()
        for i in self.of_tag(1):
            text = self.text(i)
            self.constants[i] = utf8(name if text == old else text.replace(b"L" + old + b";", b"L" + name + b";"))

    def data(self):
        body = b"".join(self.constants)
        methods = b"".join(it.data() for it in self.methods)
        head = b"\xca\xfe\xba\xbe" + self.version + struct.pack(">H", len(self.constants))
        return head + body + self.front + struct.pack(">H", len(self.methods)) + methods + self.behind


def attribute_bytes(attributes):
    given = [struct.pack(">HI", name, len(body)) + body for name, body in attributes]
    return struct.pack(">H", len(given)) + b"".join(given)


class Method:
    """A method: its flags, name and descriptor, and the parts of its code, without what tells lines and variables."""

    def __init__(self, owner, head, attributes):
        self.head, self.attributes, self.code = list(head), [], None
        for name, body in attributes:
            if owner.text(name) != b"Code":
                self.attributes.append((name, body))
                continue
            self.code_name = name
            self.stack, self.locals, length = struct.unpack_from(">HHI", body)
            self.code, at = bytearray(body[8 : 8 + length]), 8 + length
            self.handlers = [list(struct.unpack_from(">HHHH", body, at + 2 + 8 * i)) for i in range(u2(body, at))]
            nested, _ = Class.attributes(body, at + 2 + 8 * len(self.handlers))
            maps = [(it, inner) for it, inner in nested if owner.text(it) == b"StackMapTable"]
            self.map_name, self.frames = (maps[0][0], frames_of(maps[0][1])) if maps else (None, [])

    def data(self):
        attributes = list(self.attributes)
        if self.code is not None:
            body = struct.pack(">HHI", self.stack, self.locals, len(self.code)) + self.code
            body += struct.pack(">H", len(self.handlers))
            body += b"".join(struct.pack(">HHHH", *it) for it in self.handlers)
            body += attribute_bytes([(self.map_name, map_of(self.frames))] if self.map_name and self.frames else [])
            attributes.insert(0, (self.code_name, body))
        return struct.pack(">HHH", *self.head) + attribute_bytes(attributes)

    def starts(self):
        """The offsets of the instructions."""
        given, at = [], 0
        while at < len(self.code):
            given.append(at)
            at += size_at(self.code, at)
        return given


def size_at(code, at):
    """How many bytes the instruction at an offset has."""
    opcode = code[at]
    if opcode == WIDE:
        return 6 if MNEMONICS[code[at + 1]] == "iinc" else 4
    if opcode in SWITCHES:
        begin = at + 4 - at % 4
        if opcode == SWITCHES[0]:
            return begin - at + 12 + 4 * (u4(code, begin + 8) - u4(code, begin + 4) + 1)
        return begin - at + 8 + 8 * u4(code, begin + 4)
    return 1 + struct.calcsize(">" + FORMS_OF[opcode])


def types_of(data, at, count):
    """So many verification types: each a list of its tag and, of tags 7 and 8, its number."""
    given = []
    for _ in range(count):
        long = data[at] in (7, 8)
        given.append([data[at], u2(data, at + 1)] if long else [data[at]])
        at += 3 if long else 1
    return given, at


def frames_of(body):
    """The entries of a stack map: each a list of its offset's difference, its kind, and its types, locals and stack."""
    given, at = [], 2
    for _ in range(u2(body, 0)):
        tag, at = body[at], at + 1
        if tag < 64:
            given.append([tag, "same", [], []])
        elif tag < 128:
            stack, at = types_of(body, at, 1)
            given.append([tag - 64, "same1", [], stack])
        else:
            delta, at = u2(body, at), at + 2
            if tag == 247:
                stack, at = types_of(body, at, 1)
                given.append([delta, "same1", [], stack])
            elif tag <= 251:
                given.append([delta, 251 - tag or "same", [], []])
            elif tag < 255:
                added, at = types_of(body, at, tag - 251)
                given.append([delta, "append", added, []])
            else:
                variables, at = types_of(body, at + 2, u2(body, at))
                stack, at = types_of(body, at + 2, u2(body, at))
                given.append([delta, "full", variables, stack])
    return given


def type_bytes(types):
    return b"".join(struct.pack(">BH", *it) if len(it) > 1 else bytes(it) for it in types)


def frame_bytes(frame):
    delta, kind, variables, stack = frame
    head = struct.pack(">H", delta)
    if kind == "same":
        return bytes([delta]) if delta < 64 else b"\xfb" + head
    if kind == "same1":
        return (bytes([64 + delta]) if delta < 64 else b"\xf7" + head) + type_bytes(stack)
    if kind == "append":
        return bytes([251 + len(variables)]) + head + type_bytes(variables)
    if kind == "full":
        counted = [struct.pack(">H", len(it)) + type_bytes(it) for it in (variables, stack)]
        return b"\xff" + head + b"".join(counted)
    return bytes([251 - kind]) + head


def map_of(frames):
    return struct.pack(">H", len(frames)) + b"".join(map(frame_bytes, frames))


# ---- changes: each takes the class, a method with code, and a source of chance, and says what it did; None for nothing


def other_class(owner, chance):
    """The index of a class constant: one of the class's, or a new one."""
    if chance.random() < 0.7:
        return chance.choice(owner.of_tag(7))
    return owner.add(b"\7" + struct.pack(">H", owner.add(utf8(chance.choice(OTHERS).encode()))))


def other_opcode(owner, method, chance):
    at = chance.choice(method.starts())
    old = method.code[at]
    if old in LONG:
        return None
    like = list(zip(FORMS_OF, BRANCHES))
    same = [i for i, it in enumerate(like) if i not in (old, *LONG) and it == like[old]]
    if not same:
        return None
    near = [it for it in same if abs(it - old) <= 4]
    method.code[at] = chance.choice(near if near and chance.random() < 0.5 else same)
    return "opcode"


def other_local(owner, method, chance):
    places = [it for it in method.starts() if method.code[it] in LOCALS]
    if not places:
        return None
    method.code[chance.choice(places) + 1] = chance.randrange(method.locals + 1)
    return "local"


def other_constant(owner, method, chance):
    places = [it for it in method.starts() if method.code[it] in CONSTANTS]
    if not places:
        return None
    at = chance.choice(places)
    short = MNEMONICS[method.code[at]] == "ldc"
    index = method.code[at + 1] if short else u2(method.code, at + 1)
    tag = owner.constants[index][0]
    likes = owner.of_tag(tag) if chance.random() < 0.9 else [i for i, it in enumerate(owner.constants) if it]
    index = other_class(owner, chance) if tag == 7 else chance.choice(likes)
    if short:
        if index > 255:
            return None
        method.code[at + 1] = index
    else:
        method.code[at + 1 : at + 3] = struct.pack(">H", index)
    return "constant"


def other_member(owner, method, chance):
    """Another class, or another descriptor, of a member that an instruction names."""
    places = [it for it in method.starts() if MNEMONICS[method.code[it]] in OF_MEMBERS]
    places = [it for it in places if owner.constants[u2(method.code, it + 1)][:1] in (b"\t", b"\n", b"\v")]
    if not places:
        return None
    at = chance.choice(places)
    constant = bytearray(owner.constants[u2(method.code, at + 1)])
    if chance.random() < 0.5:
        constant[1:3] = struct.pack(">H", other_class(owner, chance))
    else:
        named = bytearray(owner.constants[u2(constant, 3)])
        named[3:5] = struct.pack(">H", owner.add(utf8(other_descriptor(owner.text(u2(named, 3)), chance))))
        constant[3:5] = struct.pack(">H", owner.add(bytes(named)))
    method.code[at + 1 : at + 3] = struct.pack(">H", owner.add(bytes(constant)))
    return "member"


DESCRIPTOR = re.compile(rb"\[*(?:[BCDFIJSZ]|L[^;]*;)|V")


def other_descriptor(text, chance):
    """A descriptor with one of its types changed, and rarely with one more or less."""
    begin = text.rfind(b")") + 1
    types = DESCRIPTOR.findall(text)
    place = chance.randrange(len(types))
    news = b"I J F D Z B [I [B [[I Ljava/lang/Object; Ljava/lang/String; Ljava/lang/Runnable; [Ljava/lang/Object;"
    news = news.split()
    news += [b"V"] if begin and place == len(types) - 1 else []
    types[place] = chance.choice(news)
    if not begin:
        return types[0]
    if place < len(types) - 1 and chance.random() < 0.2:
        types[place] = b""
    return b"(" + b"".join(types[:-1]) + b")" + types[-1]


def other_branch(owner, method, chance):
    places = [it for it in method.starts() if BRANCHES[method.code[it]]]
    if not places:
        return None
    at = chance.choice(places)
    method.code[at + 1 : at + 3] = struct.pack(">h", a_target(method, chance) - at)
    return "branch"


def frame_offsets(method):
    """The offsets of the frames that the stack map declares."""
    given, at = [], -1
    for it in method.frames:
        at += it[0] + 1
        given.append(at)
    return given


def a_target(method, chance):
    declared = [it for it in frame_offsets(method) if it < len(method.code)]
    return chance.choice(declared if declared and chance.random() < 0.8 else method.starts())


def nothing(owner, method, chance):
    """Instructions that do nothing in the place of one."""
    at = chance.choice(method.starts())
    size = size_at(method.code, at)
    method.code[at : at + size] = bytes(size)
    return "nop"


def swapped(owner, method, chance):
    """Two instructions, one after the other, in the other order."""
    starts = [*method.starts(), len(method.code)]
    if len(starts) < 3:
        return None
    i = chance.randrange(len(starts) - 2)
    a, b, c = starts[i : i + 3]
    if any(method.code[it] in SWITCHES for it in (a, b)):
        return None
    method.code[a:c] = method.code[b:c] + method.code[a:b]
    return "swap"


def inserted(owner, method, chance):
    """A short instruction in the place of another of one byte or more, with others that do nothing behind it."""
    at = chance.choice(method.starts())
    size = size_at(method.code, at)
    singles = [i for i, it in enumerate(FORMS_OF) if it == "" and i not in (*SWITCHES, WIDE)]
    method.code[at : at + size] = bytes(chance.choice([*singles[:16], *singles]) if i == 0 else 0 for i in range(size))
    return "short"


def operand(owner, method, chance):
    """A byte of an operand, any byte at all."""
    places = [it for it in method.starts() if size_at(method.code, it) > 1 and method.code[it] not in SWITCHES]
    if not places:
        return None
    at = chance.choice(places)
    at += chance.randrange(1, size_at(method.code, at))
    old = method.code[at]
    method.code[at] = chance.choice((old + 1 & 255, old - 1 & 255, chance.randrange(12), chance.randrange(256)))
    return "operand"


def a_type(owner, method, chance):
    tag = chance.choice((0, 1, 2, 3, 4, 5, 6, 7, 7, 7, 7, 7, 8))
    if tag == 7:
        return [7, other_class(owner, chance)]
    news = [it for it in method.starts() if MNEMONICS[method.code[it]] == "new"]
    return [8, chance.choice(news or method.starts())] if tag == 8 else [tag]


def other_frame(owner, method, chance):
    """A type of a frame changed, taken away or added; or a frame taken away, moved, added, or of another kind."""
    if not method.frames:
        return None
    i = chance.randrange(len(method.frames))
    frame = method.frames[i]
    typed = [it for it in (2, 3) if frame[it]]
    way = chance.random()
    if way < 0.5 and typed:
        types = frame[chance.choice(typed)]
        place = chance.randrange(len(types))
        if chance.random() < 0.8 or frame[1] != "full":
            types[place] = a_type(owner, method, chance)
        elif chance.random() < 0.5:
            del types[place]
        else:
            types.insert(place, a_type(owner, method, chance))
        return "frame type"
    if way < 0.6:
        frame[0] = max(0, frame[0] + chance.choice((-3, -2, -1, 1, 2, 3)))
        return "frame offset"
    if way < 0.7:
        if i + 1 < len(method.frames):
            method.frames[i + 1][0] += frame[0] + 1
        del method.frames[i]
        return "frame gone"
    if way < 0.8:
        if not frame[0]:
            return None
        method.frames.insert(i, [chance.randrange(frame[0]), "same", [], []])
        frame[0] -= method.frames[i][0] + 1
        return "frame added"
    frame[1:] = chance.choice((
        ["same", [], []],
        ["same1", [], [a_type(owner, method, chance)]],
        [chance.randrange(1, 4), [], []],
        ["append", [a_type(owner, method, chance) for _ in range(chance.randrange(1, 4))], []],
        ["full", frame[2] + [a_type(owner, method, chance)], frame[3]],
    ))
    return "frame kind"


def other_handler(owner, method, chance):
    if method.handlers and chance.random() < 0.8:
        entry = chance.choice(method.handlers)
        place = chance.randrange(4)
        news = [0, other_class(owner, chance)] if place == 3 else [*method.starts(), a_target(method, chance)]
        entry[place] = chance.choice(news)
        return "handler"
    start, end = sorted((chance.choice(method.starts()), chance.choice([*method.starts(), len(method.code)])))
    method.handlers.append([start, end, a_target(method, chance), chance.choice([0, 0, other_class(owner, chance)])])
    return "handler added"


def other_size(owner, method, chance):
    way = chance.choice((-2, -1, -1, 1))
    if chance.random() < 0.5:
        method.stack = max(0, method.stack + way)
    else:
        method.locals = max(0, method.locals + way)
    return "size"


def other_signature(owner, method, chance):
    if chance.random() < 0.6:
        method.head[2] = owner.add(utf8(other_descriptor(owner.text(method.head[2]), chance)))
        return "descriptor"
    method.head[0] ^= 8
    return "static"


def other_super(owner, method, chance):
    at = chance.choice((4, 2)) if chance.random() < 0.05 else 4
    owner.front = owner.front[:at] + struct.pack(">H", other_class(owner, chance)) + owner.front[at + 2 :]
    return "superclass"


def other_version(owner, method, chance):
    owner.version = struct.pack(">HH", 0, chance.randrange(51, 62))
    return "version"


CHANGES = {
    other_opcode: 6, other_local: 3, other_constant: 4, other_member: 4, other_branch: 4, nothing: 2, swapped: 3,
    inserted: 3, operand: 2, other_frame: 10, other_handler: 4, other_size: 2, other_signature: 3, other_super: 1,
    other_version: 1,
}


def mutant(data, name, chance):
    """A copy under another name with one to three changes to one method, and what they are; None where none applies."""
    owner = Class(data)
    owner.renamed(name)
    methods = [it for it in owner.methods if it.code]
    if not methods:
        return None
    method = chance.choices(methods, [min(len(it.code), 200) for it in methods])[0]
    told = []
    for _ in range(chance.choice((1, 1, 1, 2, 2, 3))):
        try:
            told.append(chance.choices([*CHANGES], [*CHANGES.values()])[0](owner, method, chance))
            method.starts()
        except (IndexError, struct.error):
            return None
    if not any(told):
        return None
    try:
        return owner.data(), [it for it in told if it]
    except struct.error:
        return None
