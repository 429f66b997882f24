"""Methods with very many stores under very many handlers, whose frames have little in common one after the other, for `bench/hostile`."""
import struct

from class_bytes import Constants, at, class_of_members, code_attribute, frame, handler, interface, member

NOP, ICONST_0, FCONST_0, LCONST_0, DCONST_0, ACONST_NULL, RETURN, IFEQ = b"\x00", b"\x03", b"\x0b", b"\x09", b"\x0e", b"\x01", b"\xb1", b"\x99"
ALOAD, ASTORE = [b"\x2a", b"\x2b", b"\x2c", b"\x2d"], [b"\x4b", b"\x4c", b"\x4d", b"\x4e"]  # of the locals from 0 to 3
TOP, INT, FLOAT, LONG, NULL = b"\x00", b"\x01", b"\x02", b"\x04", b"\x05"
STATIC = 9
LINES = b"method m ()V verified\n"


def store(act, place):
    """Pushes a value by this act, and stores it to a local: `istore` for `iconst_0`, and so on."""
    opcode = {ICONST_0: b"\x36", LCONST_0: b"\x37", FCONST_0: b"\x38", DCONST_0: b"\x39"}.get(act, b"\x3a")
    if place > 3:
        return act + (opcode + bytes([place]) if place < 256 else b"\xc4" + opcode + at(place))
    return act + bytes([0x3B + 4 * (opcode[0] - 0x36) + place])


def class_named(constants, name):
    return b"\x07" + at(constants.class_of(name))


class Covered:
    """A method whose body stands under handlers at its end, with one frame in front of the body, one at each handler, and perhaps some at the second
    instruction of the body and those after it, which have one byte."""

    def __init__(self, constants, first, body, max_locals):
        self.constants, self.first, self.body, self.max_locals = constants, first, body, max_locals
        self.inner, self.entries, self.table, self.places = [], [], [], 0

    def add_frame(self, types):
        """A return at the end, with a frame of these locals; gives its place among them."""
        return self.add_entry(frame(0, types, [TOP]))

    def add_entry(self, entry):
        self.entries.append(entry)
        self.places += 1
        return self.places - 1

    def add_frame_anew(self, types):
        """Such a frame after one without locals, so that it shares nothing with a frame in front."""
        self.add_frame([])
        return self.add_frame(types)

    def cover(self, place, start=0, end=None):
        """A handler at this place for a part of the body, which is all of it if no other is named."""
        to = 2 + len(self.body) + place
        self.table.append(handler(1 + start, 1 + (len(self.body) if end is None else end), to))

    def made(self):
        """K with this method."""
        entry = self.entries[0]
        delta = at(len(self.body) - len(self.inner))
        entries = [frame(1, self.first), *self.inner, entry[:1] + delta + entry[3:], *self.entries[1:]]
        code = RETURN + self.body + RETURN * (1 + self.places)
        body = code_attribute(self.constants, code, 4, self.max_locals, entries, self.table)
        return class_of_members(self.constants, b"K", methods=[member(self.constants, STATIC, b"m", b"()V", body)])


def in_turn(acts, places, count):
    """So many stores, of these values in turn to these locals in turn; each local gets one value after the other."""
    return b"".join(store(acts[i // len(places) % len(acts)], places[i % len(places)]) for i in range(count))


def covered(count, kinds, body, max_locals, first=(), names=(), known=()):
    """A body under so many handlers, whose frames have locals of these kinds in turn. A kind may have a number in it: that of a name."""
    constants = Constants()
    types = [class_named(constants, it) for it in names]
    typed = lambda kind: [types[it] if isinstance(it, int) else it for it in kind]
    method = Covered(constants, typed(first), body(constants), max_locals)
    for i in range(count):
        method.cover(method.add_frame(typed(kinds[i % len(kinds)])))
    return [method.made(), *map(interface, known)], LINES, 0


INTS_AND_FLOATS = [ICONST_0, FCONST_0]


def beside(kinds, first, places, count=20_000, stores=20_000, acts=INTS_AND_FLOATS, names=()):
    """Handlers that differ in their first locals, over stores to other ones."""
    most = max(len(first), max(places)) + 2
    return covered(count, kinds, lambda _: in_turn(acts, places, stores), most, first, names)


def casts(names, place=0):
    """For each name null is cast to its class and stored."""
    return lambda constants: b"".join(store(ACONST_NULL + b"\xc0" + at(constants.class_of(it)), place) for it in names)


def loads(count, kinds=3):
    """Stores to local 0 the values of locals 1, 2 and 3 in turn."""
    return lambda _: b"".join(ALOAD[1 + i % kinds] + ASTORE[0] for i in range(count))


def news(count, place=1):
    """Each stores an object that it makes."""
    return lambda constants: store(b"\xbb" + at(constants.class_of(b"K")), place) * count


def over_frames(count, frames, entries=(b"\xfc\x00\x00\x01", b"\xfa\x00\x00"), most=4):
    """Handlers with int or Top in local 0 in turn, over as many frames that append a local and chop it in turn."""
    method = Covered(Constants(), [INT], RETURN * frames + NOP, most)
    method.inner = list(entries) * (frames // 2)
    for i in range(count):
        method.cover(method.add_frame([INT] if i % 2 else []))
    return [method.made()], LINES, 0


def staggered(count, stores, ends=False):
    """Handlers with int or Top in local 0 in turn, each of which begins with a store of its own, or ends with it, over stores to local 1."""
    size = 2
    method = Covered(Constants(), [INT], in_turn(INTS_AND_FLOATS, [1], stores), 2)
    for i in range(count):
        edge = size * (i * stores // count)
        method.cover(method.add_frame([INT] if i % 2 else []), *((0, edge + size) if ends else (edge, None)))
    return [method.made()], LINES, 0


def with_types(types):
    """Locals that have these types at these places, and Top at the others."""
    return [types.get(place, TOP) for place in range(max(types, default=-1) + 1)]


def long_and_short(long, short, place=0, other=1):
    """Handlers that cover all, whose frames take all changes and have an int in another local in turn, and short ones for one store each, which do
    not take the next."""
    stores = [store(act, place) for act in INTS_AND_FLOATS]
    size = len(stores[0])
    method = Covered(Constants(), with_types({place: FLOAT, other: INT}), b"".join(stores[i % 2] for i in range(short)), max(place, other) + 1)
    for i in range(long):
        method.cover(method.add_frame(with_types({other: INT} if i % 2 else {})))
    ends = [method.add_frame(with_types({place: it})) for it in (FLOAT, INT)]
    for i in range(short):
        method.cover(ends[i % 2], size * i, size * i + 1)
    return [method.made()], LINES, 0


def of_equal_rows(short, width, type_of=INT, long=1):
    """Short handlers whose two frames, and those of the ones that cover all, have as many locals of a type, each declared anew, in front of the one that is stored to."""
    stores = [store(act, width) for act in INTS_AND_FLOATS]
    size = len(stores[0])
    method = Covered(Constants(), [type_of] * width + [FLOAT], b"".join(stores[i % 2] for i in range(short)), width + 1)
    for _ in range(long):
        method.cover(method.add_frame_anew([type_of] * width))
    ends = [method.add_frame_anew([type_of] * width + [it]) for it in (FLOAT, INT)]
    for i in range(short):
        method.cover(ends[i % 2], size * i, size * i + 1)
    return [method.made()], LINES, 0


def of_lengths(lengths, each, stores, first=256):
    """So many handlers of each of these lengths, each half of the one before it, over stores to a local each, with int or Top in local 0 in turn."""
    body = in_turn(INTS_AND_FLOATS, range(first, first + stores), stores)
    method = Covered(Constants(), [INT], body, first + stores)
    for length in range(lengths):
        for i in range(each):
            method.cover(method.add_frame([INT] if i % 2 else []), 0, (stores >> length) * 5)
    return [method.made()], LINES, 0


# The bytes of a store of a class to any local.
STORE_SIZE = 5


def entered(frames, blocks, stores, entries, come, wanted, differ=False):
    """A method with stores to each block in turn, of two classes in turn, and these; entries that begin there lead in turn to frames, each of which wants
    another class in all locals, or in all but one, which is another one in each."""
    constants = Constants()
    types = [class_named(constants, it) for it in come]
    body = b"".join(ALOAD[i // blocks % 2] + b"\xc4\x3a" + at(16 * (i % blocks) + 2) for i in range(stores))
    method = Covered(constants, types * (8 * blocks), body, 16 * blocks)
    all_locals = [class_named(constants, wanted)] * (16 * blocks)
    but_one = lambda i: all_locals[:i] + [TOP] + all_locals[i + 1:]
    places = [method.add_frame_anew(but_one(17 * i % len(all_locals)) if differ else all_locals) for i in range(frames)]
    for i in range(entries):
        start = i * stores // entries * STORE_SIZE
        method.cover(places[i % frames], start, start + STORE_SIZE)
    return method, types


def visited(frames, blocks, stores, entries, come=(b"Y", b"Z"), wanted=b"I", known=(b"I",)):
    """The class of such a method, among these known interfaces."""
    method, _ = entered(frames, blocks, stores, entries, come, wanted)
    return [method.made(), *map(interface, known)], LINES, 0


def refusing(frames, blocks, stores, entries, differ=False):
    """The class of such a method, with entries of handlers between the stores that want the class that was stored last, and do not take the next one."""
    method, types = entered(frames, blocks, stores, entries, (b"Y", b"Z"), b"I", differ)
    last = [[method.add_frame(with_types({16 * block + 2: it})) for it in types] for block in range(blocks)]
    for i in range(stores - 1):
        method.cover(last[i % blocks][i // blocks % 2], (i + 1) * STORE_SIZE, (i + 2) * STORE_SIZE)
    return [method.made(), interface(b"I")], LINES, 0


def branched(frames, blocks, stores):
    """After each of such stores there is a branch to one of such frames in turn."""
    constants = Constants()
    types = [class_named(constants, it) for it in (b"Y", b"Z")]
    wanted = [class_named(constants, b"I")] * (16 * blocks)

    def part(i):
        branch = ICONST_0 + IFEQ + struct.pack(">h", 9 * (stores - i) - 6 + 2 * (i % frames))
        return ALOAD[i // blocks % 2] + b"\xc4\x3a" + at(16 * (i % blocks) + 2) + branch

    code = RETURN + b"".join(map(part, range(stores))) + RETURN * (2 * frames - 1)
    between = [it for _ in range(1, frames) for it in (frame(0, []), frame(0, wanted))]
    entries = [frame(1, types * (8 * blocks)), frame(9 * stores - 1, wanted), *between]
    body = code_attribute(constants, code, 1, 16 * blocks, entries)
    return [class_of_members(constants, b"K", methods=[member(constants, STATIC, b"m", b"()V", body)]), interface(b"I")], LINES, 0


INT_OR_TOP, OBJECT, K = [[INT], []], b"java/lang/Object", b"K"
MANY_CLASSES = [b"y%d" % i for i in range(8_000)]
INTERFACES = [[0], [1]]
NAMES, SUPERS = [b"I", b"J"], [b"[L" + b"i" * 1000 + b";", b"[L" + b"j" * 1000 + b";"]
FILES = {
    "20,000 handlers with int or Top in local 0 in turn over 20,000 stores to local 1": lambda: beside(INT_OR_TOP, [INT], [1]),
    "1,000 handlers with int or Top in local 0 in turn over 20,000 stores to local 1": lambda: beside(INT_OR_TOP, [INT], [1], 1_000),
    "20,000 handlers with int or Top in local 0 in turn over 10,000 stores to local 17": lambda: beside(INT_OR_TOP, [INT], [17], 20_000, 10_000),
    "20,000 handlers with int or Top in local 0 in turn over 8,000 stores to local 65,533": lambda: beside(INT_OR_TOP, [INT], [65_533], 20_000, 8_000),
    "20,000 handlers with int or Top in local 0 in turn over 20,000 stores to locals 1 to 3 in turn": lambda: beside(INT_OR_TOP, [INT], [1, 2, 3]),
    "20,000 handlers with int or Top in local 0 in turn over 14,000 stores to 200 locals in turn": lambda: beside(INT_OR_TOP, [INT], range(4, 204), 20_000, 14_000),
    "20,000 handlers with int or Top in local 0 in turn over 9,000 stores to a local each": lambda: beside(INT_OR_TOP, [INT], range(256, 9_256), 20_000, 9_000),
    "5,000 handlers with int or Top in local 0 in turn over 11,000 stores to a local each": lambda: beside(INT_OR_TOP, [INT], range(256, 11_256), 5_000, 11_000),
    "5,000 handlers with int or Top in local 0 in turn over 11,000 stores to a local in each block": lambda: beside(INT_OR_TOP, [INT], range(16, 65_520, 16), 5_000, 11_000),
    "20,000 handlers with int or Top in local 0 in turn over 20,000 stores of longs and doubles": lambda: beside(INT_OR_TOP, [INT], [1], acts=[LCONST_0, DCONST_0]),
    "20,000 handlers with null or Top in local 0 in turn over 20,000 stores to local 1": lambda: beside([[NULL], []], [NULL], [1]),
    "20,000 handlers with long or Top in local 0 in turn over 20,000 stores to local 2": lambda: beside([[LONG], []], [LONG], [2]),
    "20,000 handlers with K or Object in local 0 in turn over 20,000 stores to local 1": lambda: beside([[0], [1]], [0], [1], names=[K, OBJECT]),
    "20,000 handlers with an absent class or Object in local 0 in turn over 20,000 stores to local 1": lambda: beside([[0], [1]], [0], [1], names=[b"Y", OBJECT]),
    "20,000 handlers of four kinds in turn in local 0 over 20,000 stores to local 1": lambda: beside([[0], [1], [NULL], []], [NULL], [1], names=[K, OBJECT]),
    "12,000 handlers with int or Top in local 20 in turn over 20,000 stores to local 1": lambda: beside([[TOP] * 20 + [INT], []], [TOP] * 20 + [INT], [1], 12_000),
    "20,000 handlers with int or Top in local 1 in turn over 20,000 stores to local 0": lambda: beside([[TOP, INT], []], [TOP, INT], [0]),
    "20,000 handlers with int or Top in local 0 in turn over 10,000 objects of `new` stored to local 1": lambda: covered(20_000, INT_OR_TOP, news(10_000), 2, [INT]),
    "20,000 handlers with int or Top in local 0 in turn over 8,000 stores of as many classes to local 1": lambda: covered(20_000, INT_OR_TOP, casts(MANY_CLASSES, 1), 2, [INT]),
    "20,000 handlers with int and Object or Object in turn over 8,000 stores of as many classes to local 1": lambda: covered(20_000, [[INT, 0], [TOP, 0]], casts(MANY_CLASSES, 1), 2, [INT, NULL], [OBJECT]),
    "20,000 handlers with int and an interface or Object in turn over 8,000 stores of as many classes to local 1": lambda: covered(20_000, [[INT, 0], [TOP, 1]], casts(MANY_CLASSES, 1), 2, [INT, NULL], [b"I", OBJECT], [b"I"]),
    "20,000 handlers with int or Top in local 0 in turn over 40,000 frames that append a local and chop it in turn": lambda: over_frames(20_000, 40_000),
    "20,000 handlers with int or Top in local 0 in turn over 40,000 frames that append three locals and chop them in turn": lambda: over_frames(20_000, 40_000, (b"\xfe\x00\x00\x01\x02\x05", b"\xf8\x00\x00")),
    "20,000 handlers with int or Top in local 0 in turn over 40,000 frames that append three longs and chop them in turn": lambda: over_frames(20_000, 40_000, (b"\xfe\x00\x00\x04\x04\x04", b"\xf8\x00\x00"), 7),
    "15,000 handlers that each want another absent class in local 0 over 15,000 stores of null": lambda: covered(15_000, [[i] for i in range(15_000)], lambda _: store(ACONST_NULL, 0) * 15_000, 1, [NULL], [b"x%d" % i for i in range(15_000)]),
    "30,000 handlers that each want another absent class in local 0 over 15,000 stores of null": lambda: covered(30_000, [[i] for i in range(30_000)], lambda _: store(ACONST_NULL, 0) * 15_000, 1, [NULL], [b"x%d" % i for i in range(30_000)]),
    "24 handlers of each of 12 lengths over 12,000 stores to a local each": lambda: of_lengths(12, 24, 12_000),
    "9 handlers of each of 12 lengths over 12,000 stores to a local each": lambda: of_lengths(12, 9, 12_000),
    "20,000 handlers with int or Top in local 0 in turn, each of which begins with a store to local 1": lambda: staggered(20_000, 20_000),
    "20,000 handlers with int or Top in local 0 in turn, each of which ends with a store to local 1": lambda: staggered(20_000, 20_000, True),
    "20,000 handlers that want two interfaces in turn in local 0 over 20,000 stores of three absent classes": lambda: covered(20_000, INTERFACES, loads(20_000), 4, [2, 2, 3, 4], [*NAMES, b"X", b"Y", b"Z"], NAMES),
    "3,000 handlers that want two interfaces in turn in local 0 over 10,000 stores of as many absent classes": lambda: covered(3_000, INTERFACES, casts([b"y%d" % i for i in range(10_000)]), 1, [NULL], NAMES, NAMES),
    "3,000 handlers that want arrays of two interfaces of long names in turn over 3,000 stores of arrays of absent classes": lambda: covered(3_000, INTERFACES, casts([b"[Ly%d;" % i for i in range(3_000)]), 1, [NULL], SUPERS, [it[2:-1] for it in SUPERS]),
    "3,000 handlers that want arrays of two interfaces of long names in turn over 20,000 stores of arrays of three absent classes": lambda: covered(3_000, INTERFACES, loads(20_000), 4, [2, 2, 3, 4], [*SUPERS, b"[LX;", b"[LY;", b"[LZ;"], [it[2:-1] for it in SUPERS]),
    "3,000 handlers that want arrays of 254 dimensions of Object and Cloneable in turn over 20,000 stores of arrays of 255": lambda: covered(3_000, INTERFACES, loads(20_000), 4, [2, 2, 3, 4], [b"[" * 254 + b"L%s;" % it for it in (OBJECT, b"java/lang/Cloneable")] + [b"[" * 255 + b"L%s;" % it for it in (b"X", b"Y", b"Z")]),
    "1,000 handlers that each want another interface in local 0 over 2,000 stores of as many absent classes": lambda: covered(1_000, [[i] for i in range(1_000)], casts([b"y%d" % i for i in range(2_000)]), 1, [NULL], [b"i%d" % i for i in range(1_000)], [b"i%d" % i for i in range(1_000)]),
    "15,000 long handlers and 23,000 short ones that do not take the next change": lambda: long_and_short(15_000, 23_000),
    "15,000 long handlers and 23,000 short ones for stores to local 1": lambda: long_and_short(15_000, 23_000, 1, 0),
    "15,000 long handlers and 9,000 short ones for stores to local 300": lambda: long_and_short(15_000, 9_000, 300, 0),
    "15,000 long handlers and 2,000 short ones for stores to local 0": lambda: long_and_short(15_000, 2_000),
    "12,900 short handlers of two frames of 65,534 equal locals": lambda: of_equal_rows(12_900, 65_534),
    "12,900 short handlers of two frames of 4,096 equal locals": lambda: of_equal_rows(12_900, 4_096),
    "21,000 short handlers of two frames of 255 equal locals": lambda: of_equal_rows(21_000, 255),
    "10,000 short handlers of two frames of 60,000 equal locals beside three long ones": lambda: of_equal_rows(10_000, 60_000, long=3),
    "60,000 entries that lead to 64 frames of 64 blocks in turn, over 7,800 stores to each block in turn": lambda: visited(64, 64, 7_800, 60_000),
    "60,000 entries that lead to 300 frames of 40 blocks in turn, over 7,800 stores to each block in turn": lambda: visited(300, 40, 7_800, 60_000),
    "60,000 entries that lead to 8 frames of 500 blocks in turn, over 7,800 stores to each block in turn": lambda: visited(8, 500, 7_800, 60_000),
    "15,000 entries that lead to 100 frames of 50 blocks in turn, over 7,500 stores to each block in turn": lambda: visited(100, 50, 7_500, 15_000),
    "60,000 entries that lead to 300 frames of 40 blocks of Object in turn, over stores of arrays": lambda: visited(300, 40, 7_800, 60_000, (b"[I", b"[[J"), OBJECT, ()),
    "60,000 entries that lead to 300 frames of 40 blocks of arrays of Object in turn, over stores of arrays": lambda: visited(300, 40, 7_800, 60_000, (b"[[I", b"[LK;"), b"[Ljava/lang/Object;", ()),
    "52,000 entries that lead to 300 frames of 40 blocks in turn, and one between the stores that does not take the next": lambda: refusing(300, 40, 7_800, 52_000),
    "52,000 entries that lead to 300 frames of 40 blocks that all differ, and one between the stores that does not take the next": lambda: refusing(300, 40, 7_800, 52_000, True),
    "3,600 stores to 60 blocks in turn, each before a branch to one of 60 frames in turn": lambda: branched(60, 60, 3_600),
}
