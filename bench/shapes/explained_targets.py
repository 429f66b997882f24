"""Class files whose methods are refused at one of very many handlers or targets, and what `explain` prints of them, for `bench/hostile`."""
import struct

from class_bytes import Constants, class_of_members, code_attribute, frame, handler, interface, member
from shapes.explained_frames import AT_HANDLER, AT_TARGET, text
from shapes.long_names import array, named

ICONST_0, RETURN, TABLESWITCH = b"\x03", b"\xb1", b"\xaa"
TOP, FLOAT = b"\x00", b"\x02"
STATIC = 9
MISSING = "77 ClassMissing: a comparison of types needs the class of this name, which is not among the files"
INTS, OBJECT, CLONEABLE = b"[I", b"java/lang/Object", b"java/lang/Cloneable"


def in_method(constants, code, entries, sizes, handlers=()):
    body = code_attribute(constants, code, *sizes, entries, handlers)
    return class_of_members(constants, b"K", methods=[member(constants, STATIC, b"m0", b"()V", body)])


def lacking(come):
    """The absent class Z, or an array of it of as many dimensions as the type that comes."""
    dims = come.count(b"[")
    return array(b"Z", dims) if dims else b"Z"


def told(kind, at, sizes, instruction, come, place, behind, where="local 0"):
    """The lines where the type that comes is not assignable to float, or where a class that is lacking leaves it open."""
    name = "Class " + come.decode()
    types = ", ".join([name] * (sizes[1] or sizes[0] - 1))
    frame_lines = [f"locals {types}", "stack" if behind else "stack int"] if sizes[1] else ["locals", f"stack {types}, int"]
    why = f"{where}: whether {name} is assignable to Class {lacking(come).decode()} is not known" if kind == 77 else f"{where}: {name} is not assignable to float"
    sentence = MISSING if kind == 77 else AT_HANDLER if kind == 73 else AT_TARGET
    lines = text(0, sentence, at, sizes, instruction, *frame_lines, place, why, *behind)
    return lines.replace(f"at {at}\n", f"at {at} missing Z\n", 1) if kind == 77 else lines


def differing(constants, kind, come, wanted, places):
    """The locals of a frame, the first of which is wrong or asks for an absent class."""
    first = named(constants, [lacking(come)]) if kind == 77 else [FLOAT]
    return first + named(constants, [wanted] * (places - 1))


def at_a_handler(kind, come, wanted, known, count=65_534, places=16, differs=None):
    """An instruction under so many handlers, one of which has a frame that differs: the last one, if none is named."""
    constants = Constants()
    good, bad = named(constants, [wanted] * places), differing(constants, kind, come, wanted, places)
    entries = [frame(1, named(constants, [come] * places)), frame(0, good, [TOP]), frame(0, bad, [TOP])]
    table = [handler(1, 2, 2)] * (count + 1)
    table[count if differs is None else differs] = handler(1, 2, 3)
    data = in_method(constants, RETURN * 4, entries, (1, places), table)
    return [data, *map(interface, known)], told(kind, 1, (1, places), "return", come, "handler 3", ["catch 1 2 3 any"])


def at_a_target(kind, come, wanted, known, cases=15_990, places=16, returns=1, deep=False):
    """A switch to frames of so many locals or items, the last of which differs."""
    constants = Constants()
    behind = 16 + 4 * cases  # the switch is at 2
    to = [behind + i % returns for i in range(cases - 1)] + [behind + returns]
    operands = struct.pack(">iii", behind - 2, 0, cases - 1) + b"".join(struct.pack(">i", it - 2) for it in to)
    give = lambda delta, types: frame(delta, [], types) if deep else frame(delta, types)
    good = [give(0 if i else behind - 2, named(constants, [wanted] * places)) for i in range(returns)]
    entries = [give(1, named(constants, [come] * places)), *good, give(0, differing(constants, kind, come, wanted, places))]
    sizes = (places + 1, 0) if deep else (1, places)
    data = in_method(constants, RETURN + ICONST_0 + TABLESWITCH + bytes(1) + operands + RETURN * (returns + 1), entries, sizes)
    instruction = f"tableswitch 0 {cases - 1} {behind} " + " ".join(map(str, to))
    where = "stack 0" if deep else "local 0"
    return [data, *map(interface, known)], told(kind, 2, sizes, instruction, come, f"target {behind + returns}", [], where)


# what comes, what is wanted, and the known classes
PAIRS = {
    "an absent class where an interface is wanted": (b"Y", b"I", [b"I"]),
    "an array of an absent class where one of an interface is wanted": (array(b"Y"), array(b"I"), [b"I"]),
    "an absent class where an interface of a long name is wanted": (b"Y", b"a" * 65_000, [b"a" * 65_000]),
    "an array of 255 dimensions of an absent class where one of an interface of a long name is wanted": (array(b"Y", 255), array(b"a" * 60_000, 255), [b"a" * 60_000]),
    "an array of ints where Object is wanted": (INTS, OBJECT, []),
    "an array of 255 dimensions where one of 254 of Cloneable is wanted": (array(b"Y", 255), array(CLONEABLE, 254), []),
}
SHORT = {name: pair for name, pair in PAIRS.items() if len(pair[1]) < 1_000}


def row(act, kind, pair, **others):
    return lambda: act(kind, *pair, **others)


def each(act, before, kinds, pairs, **others):
    return {f"{before} refuses by {kind}: {name}": row(act, kind, pair, **others) for kind in kinds for name, pair in pairs.items() if kind != 77 or pair[0] != INTS}


FILES = {
    **each(at_a_handler, "the last of 65,535 handlers", (73, 77), SHORT),
    **each(at_a_handler, "the first of 65,535 handlers", (73, 77), SHORT, differs=0),
    **each(at_a_handler, "the last of 8,000 handlers", (73, 77), PAIRS, count=8_000),
    **each(at_a_handler, "the last of 65,535 handlers of 33 locals", (73, 77), SHORT, places=33),
    **each(at_a_target, "the last of 15,990 targets", (68, 77), SHORT),
    **each(at_a_target, "the last of 4,000 targets", (68, 77), PAIRS, cases=4_000),
    **each(at_a_target, "the last of 15,990 targets at 400 frames", (68, 77), SHORT, returns=400),
    **each(at_a_target, "the last of 15,990 targets with 15 items", (68, 77), SHORT, places=15, deep=True),
}
