"""Class files whose frames ask whether a class with a long name, an absent one or an array is assignable to another, for `bench/hostile`."""
import struct

from class_bytes import Constants, at, class_of_members, code_attribute, frame, handler, interface, member

LONG, OTHER = b"a" * 65_000, b"b" * 65_000
ICONST_0, ALOAD_0, ARETURN, RETURN, TABLESWITCH, INVOKESTATIC, INVOKEVIRTUAL, PUTSTATIC, ACONST_NULL, IFEQ = b"\x03", b"\x2a", b"\xb0", b"\xb1", b"\xaa", b"\xb8", b"\xb6", b"\xb3", b"\x01", b"\x99"
STATIC = 9
NAME_OF_METHOD = b"method m ()V "
VERIFIED = NAME_OF_METHOD + b"verified\n", 0


def missing(at, name):
    return NAME_OF_METHOD + b"refused 77 at %d missing %s\n" % (at, name), 1


def array(name, dims=1):
    return b"[" * dims + b"L" + name + b";"


def named(constants, names):
    """The types of these classes or arrays in an entry of a stack map."""
    return [b"\x07" + at(constants.class_of(it)) for it in names]


def in_method(constants, code, entries, max_locals, handlers=(), max_stack=1):
    """K with one static method."""
    body = code_attribute(constants, code, max_stack, max_locals, entries, handlers)
    return class_of_members(constants, b"K", methods=[member(constants, STATIC, b"m", b"()V", body)])


def handled(count, come, wanted, places=16):
    """An instruction in a frame of so many locals of one class, under handlers whose frame wants another in each of them."""
    constants = Constants()
    entries = [frame(1, named(constants, [come] * places)), frame(0, named(constants, [wanted] * places), [b"\x00"])]
    return in_method(constants, RETURN * 3, entries, places, [handler(1, 2, 2)] * count)


def handled_in_turn(count, come, wanted, places=16):
    """The frames of the handlers want two classes in turn, so that no two consecutive ones have a local in common."""
    constants = Constants()
    kinds = [frame(0, named(constants, [it] * places), [b"\x00"]) for it in wanted]
    entries = [frame(1, named(constants, [come] * places)), *kinds]
    return in_method(constants, RETURN * 4, entries, places, [handler(1, 2, 2 + i % 2) for i in range(count)])


def switched(come, wanted, places=16, cases=15_990, deep=False):
    """A switch in a frame of so many locals or items of one class, whose targets want one of these in turn in each of them."""
    constants = Constants()
    behind = 16 + 4 * cases  # the switch is at 2
    to = b"".join(struct.pack(">i", behind + i % len(wanted) - 2) for i in range(cases))
    code = RETURN + ICONST_0 + TABLESWITCH + bytes(1) + struct.pack(">iii", behind - 2, 0, cases - 1) + to + RETURN * len(wanted)
    give = lambda delta, types: frame(delta, [], types) if deep else frame(delta, types)
    kinds = [give(behind - 2 if i == 0 else 0, named(constants, [it] * places)) for i, it in enumerate(wanted)]
    entries = [give(1, named(constants, [come] * places)), *kinds]
    return in_method(constants, code, entries, 0 if deep else places, max_stack=places + 1 if deep else 1)


def branching(come, wanted, places=16, count=8_000):
    """Branches from a frame of so many locals of one class to frames after them, which want one of these in turn in each of them."""
    constants = Constants()
    code = b"".join(ICONST_0 + IFEQ + struct.pack(">h", 4 * (count - i) + i % len(wanted)) for i in range(count))
    kinds = [frame(0 if i else 4 * count, named(constants, [it] * places)) for i, it in enumerate(wanted)]
    entries = [frame(1, named(constants, [come] * places)), *kinds]
    return in_method(constants, RETURN + code + RETURN * (1 + len(wanted)), entries, places)


def loading(constants, come, code, descriptor=b"()V", methods=1, max_stack=255, more=()):
    """So many methods of this code, after a frame that has one class in local 0."""
    body = code_attribute(constants, RETURN + code, max_stack, 1, [frame(1, named(constants, [come])), *more])
    members = [member(constants, STATIC, b"m%d" % i, descriptor, body) for i in range(methods)]
    lines = b"".join(b"method m%d %s verified\n" % (i, descriptor) for i in range(methods))
    return class_of_members(constants, b"K", methods=members), lines


def descriptor_of(wanted):
    return wanted if wanted[:1] == b"[" else b"L" + wanted + b";"


def called(come, wanted, count, arguments=1, methods=1):
    """So many calls of a method whose parameters have one class, with another in their place."""
    constants = Constants()
    call = INVOKESTATIC + at(constants.member(10, b"K", b"f", b"(" + descriptor_of(wanted) * arguments + b")V"))
    return loading(constants, come, (ALOAD_0 * arguments + call) * count + RETURN, methods=methods)


def written_to(come, wanted, count):
    """So many writes of a field of one class, of another."""
    constants = Constants()
    write = PUTSTATIC + at(constants.member(9, b"K", b"f", descriptor_of(wanted)))
    return loading(constants, come, (ALOAD_0 + write) * count + RETURN)


def received(come, wanted, count):
    """So many calls of a method of one class on another."""
    constants = Constants()
    call = INVOKEVIRTUAL + at(constants.member(10, wanted, b"f", b"()V"))
    return loading(constants, come, (ALOAD_0 + call) * count + RETURN)


def returned(come, wanted, count):
    """So many returns of one class where another is wanted, each after a frame."""
    constants = Constants()
    code = ACONST_NULL + ARETURN + (ALOAD_0 + ARETURN) * count
    body = code_attribute(constants, code, 1, 1, [frame(2, named(constants, [come])), *[b"\x01"] * (count - 1)])
    descriptor = b"()" + descriptor_of(wanted)
    return class_of_members(constants, b"K", methods=[member(constants, STATIC, b"m", descriptor, body)]), b"method m %s verified\n" % descriptor


DEEPEST = 255
ABSENT_LONG, KNOWN_LONG = array(OTHER), array(LONG)
DEEP_ABSENT, DEEP_KNOWN = array(b"c" * 65_000, DEEPEST), array(LONG, DEEPEST)
# by name: what comes, what is wanted, and the known classes; the first is assignable to the second
PAIRS = {
    "an absent class where an interface of a long name is wanted": (b"Y", LONG, [LONG]),
    "an absent class of a long name where an interface is wanted": (OTHER, b"I", [b"I"]),
    "an absent class where an interface is wanted": (b"Y", b"I", [b"I"]),
    "an array of an absent class where one of an interface of a long name is wanted": (array(b"Y"), KNOWN_LONG, [LONG]),
    "an array of an absent class of a long name where one of an interface is wanted": (ABSENT_LONG, array(b"I"), [b"I"]),
    "an array of an absent class of a long name where one of Object is wanted": (ABSENT_LONG, array(b"java/lang/Object"), []),
    "an array of an absent class of a long name where Object is wanted": (ABSENT_LONG, b"java/lang/Object", []),
    "an array of an absent class of a long name where Cloneable is wanted": (ABSENT_LONG, b"java/lang/Cloneable", []),
    "an array of 255 dimensions of an absent class of a long name where one of an interface of a long name is wanted": (DEEP_ABSENT, DEEP_KNOWN, [LONG]),
    "an array of 255 dimensions of an absent class of a long name where one of 254 of Object is wanted": (DEEP_ABSENT, array(b"java/lang/Object", 254), []),
    "an array of 255 dimensions of an interface of a long name where one of 254 of Cloneable is wanted": (DEEP_KNOWN, array(b"java/lang/Cloneable", 254), [LONG]),
    "an array of K where one of an interface of a long name is wanted": (array(b"K"), KNOWN_LONG, [LONG]),
    "an array of ints where Object is wanted": (b"[I", b"java/lang/Object", []),
    "an array of two dimensions of ints where one of Cloneable is wanted": (b"[[I", array(b"java/lang/Cloneable"), []),
}
# what comes, what is wanted, the known classes, and which class is missing
LACKING = {
    "an absent class of a long name where a class is wanted": (OTHER, b"K", [], OTHER),
    "a class where an absent class of a long name is wanted": (b"K", OTHER, [], OTHER),
    "an array of an absent class of a long name where one of a class is wanted": (ABSENT_LONG, array(b"K"), [], OTHER),
    "an array of a class where one of an absent class of a long name is wanted": (array(b"K"), ABSENT_LONG, [], OTHER),
}


# two classes that are wanted in turn: the first comes, and the others are known
IN_TURN = {
    "absent classes where two interfaces of long names are wanted in turn": (b"Y", [LONG, OTHER], [LONG, OTHER]),
    "absent classes where two interfaces are wanted in turn": (b"Y", [b"I", b"J"], [b"I", b"J"]),
    "arrays of an absent class where ones of two interfaces of long names are wanted in turn": (array(b"Y"), [KNOWN_LONG, array(OTHER)], [LONG, OTHER]),
    "arrays of an absent class of a long name where Cloneable and Object are wanted in turn": (ABSENT_LONG, [b"java/lang/Cloneable", b"java/lang/Object"], []),
    "arrays of 255 dimensions where ones of two interfaces of long names are wanted in turn": (array(b"Y", DEEPEST), [DEEP_KNOWN, array(OTHER, DEEPEST)], [LONG, OTHER]),
    "arrays of 255 dimensions of an absent class where ones of Cloneable and Object are wanted in turn": (DEEP_ABSENT, [array(it, 254) for it in (b"java/lang/Cloneable", b"java/lang/Object")], []),
}
HANDLERS, CALLS = 20_000, 16_000


def row(act, pair):
    """The maker of a row's classes from those that come and are wanted, with its lines and its status."""
    come, wanted, known = pair
    return lambda: ([act(come, wanted), *map(interface, known)], *VERIFIED)


def lacking_row(act, place, pair):
    """Such a maker where a class is missing, at this place."""
    come, wanted, known, name = pair
    return lambda: ([act(come, wanted), *map(interface, known)], *missing(place, name))


def in_methods(act, pair):
    come, wanted, known = pair
    def made():
        data, lines = act(come, wanted)
        return [data, *map(interface, known)], lines, 0
    return made


def each(before, act, pairs):
    return {f"{before}: {name}": row(act, pair) for name, pair in pairs.items()}


def each_in_methods(before, act, pairs):
    return {f"{before}: {name}": in_methods(act, pair) for name, pair in pairs.items()}


def of_names(ends):
    return {name: pair for name, pair in PAIRS.items() if name.endswith(ends)}


SHORT = {name: pair for name, pair in PAIRS.items() if max(map(len, pair[:2])) < 200}
# those that are tried in more ways
FEW = of_names(("absent class where an interface of a long name is wanted", "one of an interface of a long name is wanted", "one of 254 of Object is wanted", "Cloneable is wanted"))
FILES = {
    **each("20,000 handlers, 16 locals", lambda *it: handled(HANDLERS, *it), PAIRS),
    **each("65,535 handlers, 16 locals", lambda *it: handled(65_535, *it), SHORT),
    **each("65,535 handlers, 17 locals", lambda *it: handled(65_535, *it, 17), SHORT),
    **each("20,000 handlers, one local", lambda *it: handled(HANDLERS, *it, 1), FEW),
    **each("20,000 handlers, 16 locals", lambda *it: handled_in_turn(HANDLERS, *it), IN_TURN),
    **each("20,000 handlers, 33 locals", lambda *it: handled_in_turn(HANDLERS, *it, 33), IN_TURN),
    **each("20,000 handlers, 4,000 locals", lambda *it: handled_in_turn(HANDLERS, *it, 4_000), IN_TURN),
    **each("a switch of 15,990 targets, 16 locals", lambda come, wanted: switched(come, [wanted]), PAIRS),
    **each("a switch of 15,990 targets, 15 items", lambda come, wanted: switched(come, [wanted], 15, deep=True), FEW),
    **each("a switch of 15,990 targets, 16 locals", switched, IN_TURN),
    **each("a switch of 15,990 targets, 15 items", lambda *it: switched(*it, 15, deep=True), IN_TURN),
    **each("a switch of 15,990 targets to 400 frames, 16 locals", lambda come, wanted: switched(come, wanted * 200), IN_TURN),
    **each("8,000 branches, 16 locals", branching, IN_TURN),
    **each("8,000 branches, 16 locals", lambda come, wanted: branching(come, [wanted]), FEW),
    **{f"20,000 handlers, 16 locals: {name}": lacking_row(lambda *it: handled(HANDLERS, *it), 1, pair) for name, pair in LACKING.items()},
    **{f"a switch of 15,990 targets, 16 locals: {name}": lacking_row(lambda come, wanted: switched(come, [wanted]), 2, pair) for name, pair in LACKING.items()},
    **each_in_methods("16,000 calls", lambda *it: called(*it, CALLS), PAIRS),
    **each_in_methods("16,000 writes of a static field", lambda *it: written_to(*it, CALLS), FEW),
    **each_in_methods("16,000 receivers", lambda *it: received(*it, CALLS), FEW),
    **each_in_methods("20,000 results", lambda *it: returned(*it, 20_000), FEW),
    **each_in_methods("250 calls with 255 arguments in each of 10 methods", lambda *it: called(*it, 250, 255, 10), SHORT),
}
