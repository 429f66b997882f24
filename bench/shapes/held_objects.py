"""Methods that initialize objects which very many locals hold, and that frames bring back again and again, for `bench/hostile`."""
import random
import struct

from class_bytes import Constants, at, class_of_members, code_attribute, frame, handler, member

MOST, CALLS = 65535, 4_000
ICONST_0, POP, IFEQ, RETURN = b"\x03", b"\x57", b"\x99", b"\xb1"
ALOAD, ASTORE, ISTORE = b"\xc4\x19", b"\xc4\x3a", b"\xc4\x36"  # after wide, with two bytes for the local
NEW, INVOKESPECIAL = b"\xbb\x00\x02", b"\xb7\x00\x06"  # the first constants are K, its name and its constructor
TOP, INT, OWN, CLASS = b"\x00", b"\x01", b"\x06", b"\x07\x00\x02"
FIRST, SECOND = b"\x08\x00\x00", b"\x08\x00\x04"  # the objects that the first `new` and the second one make
INIT, STATIC = (b"<init>", 1), (b"m", 9)  # a name and access flags


def load(place):
    return ALOAD + at(place) if place > 255 else ALOAD[1:] + bytes([place])


def call_on(place):
    """The constructor is called on the object in this local."""
    return load(place) + INVOKESPECIAL


def same(delta):
    """An entry that declares the frame in front once more."""
    return bytes([delta]) if delta < 64 else b"\xfb" + at(delta)


def in_class(method, code, entries, max_locals=MOST, max_stack=3, handlers=()):
    """K with one method of this code and stack map, and the line that is printed for it."""
    constants, (name, flags) = Constants(), method
    constants.class_of(b"K"), constants.member(10, b"K", b"<init>", b"()V")
    body = code_attribute(constants, code, max_stack, max_locals, entries, handlers)
    return class_of_members(constants, b"K", methods=[member(constants, flags, name, b"()V", body)]), b"method %s ()V verified\n" % name


def in_parts(method, head, parts, first, later=same, **sizes):
    """A method of a head and parts that each end with `return`. The first of the parts has an entry of its own, by the bytes in front of it; the
    others' are made of the bytes of the part in front of them."""
    entries = [first(len(head))] + [later(len(it) - 1) for it in parts[:-1]]
    return in_class(method, head + b"".join(parts), entries, **sizes)


CALL = b"\x2a" + INVOKESPECIAL + RETURN  # aload_0
# what makes one object, two objects, and so many
ONE, TWO = NEW + RETURN, NEW + POP + NEW + RETURN


def own(types, parts, first=frame, **sizes):
    """A constructor that calls one on its own object, in a part of its own at the beginning."""
    return in_parts(INIT, CALL, parts, lambda delta: first(delta, types), max_locals=len(types), **sizes)


def made(types, parts, head=ONE, **sizes):
    """A method that calls the constructor on objects that `new` made."""
    return in_parts(STATIC, head, parts, lambda delta: frame(delta, types), max_locals=len(types), **sizes)


def by_wide_locals(calls):
    """Each call is on the object in another local."""
    return [call_on(65_534 - i * 5) + RETURN for i in range(calls)]


def stale(method, head, held, calls):
    """The first frame has the object in all locals, and those after it in one."""
    entries = [frame(len(head), [held] * MOST), frame(4, [held]), *[same(4)] * (calls - 1)]
    return in_class(method, head + CALL * (calls + 1), entries)


def stale_stack(calls, depth=20_000):
    """The first frame has the object in so many items of the stack, and those after it in one local."""
    entries = [frame(len(ONE), [FIRST], [FIRST] * depth), frame(4, [FIRST]), *[same(4)] * (calls - 1)]
    return in_class(STATIC, ONE + CALL * (calls + 1), entries, max_stack=depth + 1)


def on_the_stack(calls):
    """Each frame has the object on the stack as well."""
    part = INVOKESPECIAL + RETURN
    item = lambda delta: b"\xf7" + at(delta) + FIRST
    return in_parts(STATIC, ONE, [part] * calls, lambda delta: frame(delta, [FIRST] * MOST, [FIRST]), item)


def every(step, held, other=INT):
    """Locals that hold the object at each of so many steps, and something else between."""
    return [other if i % step else held for i in range(MOST)]


def appended(calls):
    """Each frame has a local more that holds the object."""
    more = lambda delta: b"\xfc" + at(delta) + OWN
    return in_parts(INIT, CALL, [CALL] * calls, lambda delta: frame(delta, [OWN] * (MOST - calls)), more)


def appended_in_turn(calls):
    """The frames append a local and chop it in turn."""
    entries = [frame(5, [OWN] * (MOST - 1))] + [b"\xfc" + at(4) + OWN, b"\xfa" + at(4)] * (calls // 2)
    return in_class(INIT, CALL * (calls // 2 * 2 + 2), entries)


def stored_before(act, calls):
    """Something is stored to a local of its own in front of each call."""
    return [act + at(2 + 7 * i) + CALL for i in range(calls)]


def branching(types, targets, count=3_600):
    """After each call there is a branch to one of the returns at the end, in turn, whose frames have these locals."""
    part = lambda to: CALL[:-1] + ICONST_0 + IFEQ + struct.pack(">h", to) + RETURN
    size = len(part(0))
    parts = [part((count - i) * size - 5 + i % len(targets)) for i in range(count)]
    entries = [frame(len(ONE), types), *[same(size - 1)] * (count - 1), frame(size - 1, targets[0]), *[frame(0, it) for it in targets[1:]]]
    return in_class(STATIC, ONE + b"".join(parts) + RETURN * len(targets), entries)


def handled(types, wanted, parts=None, head=ONE):
    """The parts, which are as many calls if none are named, are under a handler whose frame has these locals."""
    parts = [CALL] * CALLS if parts is None else parts
    entries = [frame(len(head), types), *[same(len(it) - 1) for it in parts[:-1]], frame(len(parts[-1]) - 1, wanted, [TOP])]
    covered = len(head), len(head) + sum(map(len, parts))
    return in_class(STATIC, head + b"".join(parts) + RETURN, entries, max_locals=len(types), handlers=[handler(*covered, covered[1])])


def handled_in_turn(handlers, bits=1, calls=CALLS):
    """The calls are under so many handlers, whose frames have K or Top in so many first locals, as counting goes."""
    types = [CLASS] * bits + [FIRST] * (MOST - bits)
    call = call_on(bits) + RETURN
    covered = len(ONE), len(ONE) + len(call) * calls
    wanted = lambda i: [CLASS if i >> k & 1 else TOP for k in range(bits)]
    entries = [frame(len(ONE), types), *[same(len(call) - 1)] * (calls - 1), frame(len(call) - 1, wanted(0), [TOP])]
    entries += [frame(0, wanted(i), [TOP]) for i in range(1, handlers)]
    table = [handler(*covered, covered[1] + i) for i in range(handlers)]
    return in_class(STATIC, ONE + call * calls + RETURN * handlers, entries, handlers=table)


def between_branches(count=2_500):
    """In front of each call and after it there is a branch to a frame of Top."""
    branch = lambda to: ICONST_0 + IFEQ + struct.pack(">h", to)
    size = 4 + 4 + 4 + 1
    part = lambda i: branch(size * (count - i) - 1) + CALL[:-1] + branch(size * (count - i) - 9) + RETURN
    entries = [frame(len(ONE), [FIRST] * MOST), *[same(size - 1)] * (count - 1), frame(size - 1, [TOP] * MOST)]
    return in_class(STATIC, ONE + b"".join(map(part, range(count))) + RETURN, entries)


def many_objects(count):
    """As many objects as that, each in as many locals as the others; all frames have all of them, and each part initializes one."""
    head = (NEW + POP) * count + RETURN
    types = [b"\x08" + at(i % count * 4) for i in range(MOST)]
    return made(types, [call_on(i) + RETURN for i in range(count)], head)


def orders(parts, count=16):
    """So many objects in each block of as many locals, each time in another order: the types of the locals, parts that each initialize all, in an
    order of their own, and the head that makes them."""
    chance = random.Random(1)
    head = (NEW + POP) * count + RETURN
    objects = [b"\x08" + at(i * 4) for i in range(count)]
    types = [it for i in range(MOST // count) for it in (chance.sample(objects, count) if i else objects)]
    calls = [b"".join(call_on(it) for it in chance.sample(range(count), count)) + RETURN for _ in range(parts)]
    return types, calls, head


def in_orders(parts, count=16, before=b""):
    """Such parts; each begins with these bytes."""
    types, calls, head = orders(parts, count)
    return made(types, [before + it for it in calls], head)


def orders_before_branches(parts, count=16):
    """After each of such parts there is a branch to a frame of classes."""
    types, calls, head = orders(parts, count)
    size = len(calls[0]) + 4
    bodies = [it[:-1] + ICONST_0 + IFEQ + struct.pack(">h", (parts - i) * size - len(it)) + RETURN for i, it in enumerate(calls)]
    entries = [frame(len(head), types), *[same(size - 1)] * (parts - 1), frame(size - 1, [CLASS] * len(types))]
    return in_class(STATIC, head + b"".join(bodies) + RETURN, entries, max_locals=len(types))


def sets_before_branches(parts, count=16):
    """As many objects in each block of as many locals; each part initializes the first one and others, and branches to a frame that wants a class
    where that one was, and Top elsewhere."""
    chance = random.Random(2)
    types, _, head = orders(1, count)
    wanted = [CLASS if it == types[0] else TOP for it in types]
    calls = [b"".join(call_on(i) for i in range(count) if i == 0 or chance.random() < 0.5) + RETURN for _ in range(parts)]
    sizes = [len(it) + 4 for it in calls]
    bodies = [it[:-1] + ICONST_0 + IFEQ + struct.pack(">h", sum(sizes[i:]) - len(it)) + RETURN for i, it in enumerate(calls)]
    entries = [frame(len(head), types), *[same(it - 1) for it in sizes[:-1]], frame(sizes[-1] - 1, wanted)]
    return in_class(STATIC, head + b"".join(bodies) + RETURN, entries, max_locals=len(types))


def handled_orders(parts, count=16):
    """Such parts are under a handler without locals."""
    types, calls, head = orders(parts, count)
    return handled(types, [], calls, head)


FILES = {
    "4,000 calls of a constructor on the own object, which 65,535 locals hold": lambda: own([OWN] * MOST, [CALL] * CALLS),
    "13,000 calls of a constructor on the own object, which 65,535 locals hold": lambda: own([OWN] * MOST, [CALL] * 13_000),
    "4,000 calls of a constructor on an object of `new`, which 65,535 locals hold": lambda: made([FIRST] * MOST, [CALL] * CALLS),
    "4,000 calls of a constructor after one on an own object that 65,535 locals held": lambda: stale(INIT, CALL, OWN, CALLS),
    "13,000 calls of a constructor after one on an object of `new` that 65,535 locals held": lambda: stale(STATIC, ONE, FIRST, 13_000 - 2),
    "13,000 calls of a constructor after one on an object of `new` that 20,000 items held": lambda: stale_stack(13_000 - 2),
    "4,000 calls of a constructor, each by another of 65,535 locals that hold the own object": lambda: own([OWN] * MOST, by_wide_locals(CALLS)),
    "4,000 calls of a constructor, each by another of 65,535 locals that hold an object of `new`": lambda: made([FIRST] * MOST, by_wide_locals(CALLS)),
    "8,000 calls of a constructor on an object that is on the stack and in 65,535 locals": lambda: on_the_stack(8_000),
    "8,000 calls of a constructor on two objects in turn, which 65,535 locals hold in turn": lambda: made([FIRST, SECOND] * 32_767, [call_on(0) + RETURN, call_on(1) + RETURN] * CALLS, TWO),
    "8,000 calls of a constructor on two objects in turn, each in one half of 65,535 locals": lambda: made([FIRST] * 32_767 + [SECOND] * 32_767, [call_on(0) + RETURN, call_on(50_000) + RETURN] * CALLS, TWO),
    "4,000 pairs of calls of a constructor on two objects, which 65,535 locals hold in turn": lambda: made([FIRST, SECOND] * 32_767, [call_on(0) + call_on(1) + RETURN] * CALLS, TWO),
    **{f"13,000 calls of a constructor on the own object, which {n:,} locals hold": lambda n=n: own([OWN] * n, [CALL] * 13_000) for n in (17, 33, 300, 4_000)},
    **{f"13,000 calls of a constructor on an object of `new`, which {n:,} locals hold": lambda n=n: made([FIRST] * n, [CALL] * 13_000) for n in (17, 33, 300, 4_000)},
    **{f"13,000 calls of a constructor on the own object, which one in {n:,} of 65,535 locals holds": lambda n=n: own(every(n, OWN), [CALL] * 13_000) for n in (16, 17, 255, 256)},
    "8,000 calls of a constructor, each frame with a local more that holds the own object": lambda: appended(8_000),
    "8,000 calls of a constructor, whose frames append one of 65,535 locals and chop it in turn": lambda: appended_in_turn(8_000),
    "4,000 calls of a constructor on an object of 65,535 locals, each after a store of an int": lambda: own([OWN] * MOST, stored_before(ICONST_0 + ISTORE, CALLS)),
    "4,000 calls of a constructor on an object of 33,000 of 65,535 locals, each after a store of it": lambda: own([OWN] * 1 + every(2, OWN)[1:], stored_before(b"\x2a" + ASTORE, CALLS)),
    "4,000 calls of a constructor on an object of 65,535 locals, each after a `new`": lambda: made([FIRST] * MOST, [NEW + POP + CALL] * CALLS),
    "4,000 calls of a constructor on an object of 65,535 locals, each after a `new` that is stored": lambda: made([FIRST] * MOST, stored_before(NEW + ASTORE, CALLS)),
    "3,600 calls of a constructor on an object of 65,535 locals, each before a branch to a frame of objects": lambda: branching([FIRST] * MOST, [[CLASS] * MOST]),
    "3,600 calls of a constructor on an object of 65,535 locals, each before a branch to two frames in turn": lambda: branching([FIRST] * MOST, [[TOP] * MOST, [CLASS] * MOST]),
    "4,000 calls of a constructor on an object of 65,535 locals, under a handler with as many": lambda: handled([FIRST] * MOST, [TOP] * MOST),
    "4,000 calls of a constructor on an object of 65,535 locals, under a handler without locals": lambda: handled([FIRST] * MOST, []),
    "2,500 calls of a constructor on an object of 65,535 locals, each between branches to a frame of as many": between_branches,
    "4,000 calls of a constructor on an object of 65,534 locals, under 1,000 handlers that differ in the other one": lambda: handled_in_turn(1_000),
    "4,000 calls of a constructor on an object of 65,532 locals, under 1,000 handlers that differ in the other three": lambda: handled_in_turn(1_000, 3),
    "4,000 calls of a constructor on an object of 65,525 locals, under 1,000 handlers that differ in the other ten": lambda: handled_in_turn(1_000, 10),
    "131 objects of `new` in 500 of 65,535 locals each, all brought back after each call": lambda: many_objects(131),
    "4,000 objects of `new` in 16 of 65,535 locals each, all brought back after each call": lambda: many_objects(4_000),
    **{f"13,000 calls of a constructor on an object of {n:,} locals, under a handler without locals": lambda n=n: handled([FIRST] * n, [], [CALL] * 13_000) for n in (17, 33, 300, 4_000)},
    "13,000 calls of a constructor on an object of 65,535 locals, under a handler without locals": lambda: handled([FIRST] * MOST, [], [CALL] * 13_000),
    "4,000 calls of a constructor on an object of every other one of 65,535 locals, under a handler of the others": lambda: handled(every(2, FIRST), every(2, TOP)),
    "4,000 pairs of calls of a constructor on two objects, which 65,535 locals hold in turn, under a handler": lambda: handled([FIRST, SECOND] * 32_767, [], [call_on(0) + call_on(1) + RETURN] * CALLS, TWO),
    "8,000 calls of a constructor on two objects in turn, which 65,535 locals hold in turn, under a handler": lambda: handled([FIRST, SECOND] * 32_767, [], [call_on(0) + RETURN, call_on(1) + RETURN] * CALLS, TWO),
    "4,000 calls of a constructor on an object of 65,535 locals, each after a store of an int, under a handler": lambda: handled([FIRST] * MOST, [], stored_before(ICONST_0 + ISTORE, CALLS)),
    "16 objects of `new` in each block of 16 of 65,535 locals, initialized in 740 orders, each after a store": lambda: in_orders(740, 16, ICONST_0 + ISTORE + at(300)),
    "17 objects of `new` in each 17 of 65,535 locals, initialized in 750 orders": lambda: in_orders(750, 17),
    "33 objects of `new` in each 33 of 65,535 locals, initialized in 380 orders": lambda: in_orders(380, 33),
    "255 objects of `new` in each 255 of 65,535 locals, initialized in 45 orders": lambda: in_orders(45, 255),
    "16 objects of `new` in each block of 16 of 65,535 locals, initialized in 380 orders, each before a branch": lambda: orders_before_branches(380),
    "16 objects of `new` in each block of 16 of 65,535 locals, of which 600 sets are initialized, each before a branch": lambda: sets_before_branches(600),
    "16 objects of `new` in each block of 16 of 65,535 locals, initialized in 800 orders, under a handler": lambda: handled_orders(800),
    "16 objects of `new` in each block of 16 of 65,535 locals, initialized in 800 orders": lambda: in_orders(800),
    "5 objects of `new` in each 5 of 65,535 locals, initialized in 2,500 orders": lambda: in_orders(2_500, 5),
}
