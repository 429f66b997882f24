"""Class files with one instruction under very many handlers, or with very many targets, whose frames need a class that is missing, for
`bench/hostile`. The frame that comes has the class K in local 0, and the declared frames have Y there."""
import struct

from class_bytes import POOL, Constants, class_file, class_of_members, code_attribute, handler, member, method, stack_map

RETURN, NOP, ICONST_0 = b"\xb1", b"\x00", b"\x03"
INT = b"\x01"
OWN, OBJECT = b"\x07" + struct.pack(">H", 1), b"\x07" + struct.pack(">H", 3)
MISSING = b"\x07" + struct.pack(">H", POOL + 2)  # after the one name of a method and that of Y
TOP_ON_STACK, APPEND_INT, CHOP_ONE = b"\x40\x00", b"\xfc\x00\x00\x01", b"\xfa\x00\x00"


def full_frame(delta, first, locals_given, stack_given=b""):
    """An entry that gives so many locals: this type, and ints after it."""
    return b"\xff" + struct.pack(">HH", delta, locals_given) + first + INT * (locals_given - 1) + struct.pack(">H", len(stack_given)) + stack_given


def all_of(delta, locals_given, stack_given=b""):
    """An entry that gives all locals by the bytes of their types, each of three bytes."""
    return b"\xff" + struct.pack(">HH", delta, len(locals_given) // 3) + locals_given + struct.pack(">H", len(stack_given)) + stack_given


def refused(at):
    return b"method m0 ()V refused 77 at %d missing Y\n" % at


def made(code, max_locals, entries, handlers=()):
    return class_file([method(POOL, code, 1, max_locals, stack_map(entries), handlers)], [b"m0"], b"Y")


def targets(cases, returns, locals_given, behind_first):
    """A switch to so many frames: the first one, and those that come of these entries in turn."""
    behind = 16 + 4 * cases  # the switch is at 2
    to = b"".join(struct.pack(">i", behind + i % returns - 2) for i in range(cases))
    code = RETURN + ICONST_0 + b"\xaa\x00" + struct.pack(">iii", behind - 2, 0, cases - 1) + to + RETURN * returns
    others = [behind_first[i % len(behind_first)] for i in range(returns - 1)]
    first = [full_frame(1, OWN, locals_given + 1), full_frame(behind - 2, MISSING, locals_given)]
    return made(code, locals_given + 1, first + others), refused(2)


def handlers(count, locals_given):
    """An instruction under so many handlers, whose frames have the same locals."""
    entries = [full_frame(1, OWN, locals_given), full_frame(0, MISSING, locals_given, b"\x00"), *[TOP_ON_STACK] * (count - 1)]
    return made(RETURN + NOP + RETURN * count, locals_given, entries, [handler(1, 2, 2 + i) for i in range(count)]), refused(1)


def appending_handlers(count, locals_given):
    """An instruction under so many handlers, each of whose frames has one local more than the one before."""
    entries = [full_frame(1, OWN, locals_given + count), full_frame(0, MISSING, locals_given, b"\x00"), *[APPEND_INT, TOP_ON_STACK] * (count - 1)]
    return made(RETURN + NOP + RETURN * 2 * count, locals_given + count, entries, [handler(1, 2, 2 + 2 * i) for i in range(count)]), refused(1)


def two_kinds(locals_given):
    """The locals of two kinds of frames, which want an Object in each local but the first, or but the second, which asks for Y."""
    return [first + OBJECT * (locals_given - 2) for first in (MISSING + OBJECT, OBJECT + MISSING)]


def targets_in_turn(cases, returns, locals_given):
    """A switch to so many frames of two kinds: it leads to one of one kind and to one of the other in turn."""
    behind, half = 16 + 4 * cases, returns // 2
    to = b"".join(struct.pack(">i", behind + i // 2 % half + i % 2 * half - 2) for i in range(cases))
    code = RETURN + ICONST_0 + b"\xaa\x00" + struct.pack(">iii", behind - 2, 0, cases - 1) + to + RETURN * returns
    one, other = two_kinds(locals_given)
    same = [b"\x00"] * (half - 1)
    return made(code, locals_given, [all_of(1, OWN * locals_given), all_of(behind - 2, one), *same, all_of(0, other), *same]), refused(2)


def handlers_in_turn(count, locals_given):
    """An instruction under so many handlers of two kinds: in the table one kind of frames stands in turn with the other."""
    own, frames = OWN * locals_given, two_kinds(locals_given)
    entries = [all_of(1, own), *[it for kind in frames for it in [all_of(0, kind, b"\x00"), *[TOP_ON_STACK] * (count // 2 - 1)]]]
    table = [handler(1, 2, 2 + i // 2 + i % 2 * (count // 2)) for i in range(count)]
    return made(RETURN + NOP + RETURN * count, locals_given, entries, table), refused(1)


class Differing:
    """Frames of so many locals that want an Object, after which each wants an absent class, Y and Z in turn. Between them are frames without the last
    local, and in front of all one of so many locals of K."""

    def __init__(self, count, locals_given, wanted):
        self.constants = Constants()
        own, wanted, *absent = [b"\x07" + struct.pack(">H", self.constants.class_of(it)) for it in (b"K", wanted, b"Y", b"Z")]
        self.max_locals = locals_given + 1
        self.first = all_of(1, own * self.max_locals)
        self.wanting = lambda delta, stack=b"": all_of(delta, wanted * locals_given + absent[0], stack)
        self.appending = [b"\xfc\x00\x00" + absent[i % 2] for i in range(1, count)]

    def made(self, code, entries, handlers=()):
        body = code_attribute(self.constants, code, 1, self.max_locals, [self.first, *entries], handlers)
        return class_of_members(self.constants, b"K", methods=[member(self.constants, 9, b"m0", b"()V", body)])


def targets_that_differ_there(cases, count, locals_given, wanted=b"java/lang/Object"):
    """A switch to so many such frames."""
    frames, behind = Differing(count, locals_given, wanted), 16 + 4 * cases
    to = b"".join(struct.pack(">i", behind + 2 * (i % count) - 2) for i in range(cases))
    code = RETURN + ICONST_0 + b"\xaa\x00" + struct.pack(">iii", behind - 2, 0, cases - 1) + to + RETURN * (2 * count - 1)
    later = [it for entry in frames.appending for it in (CHOP_ONE, entry)]
    return frames.made(code, [frames.wanting(behind - 2), *later]), refused(2)


def handlers_that_differ_there(count, locals_given, wanted=b"java/lang/Object"):
    """An instruction under so many handlers of such frames."""
    frames = Differing(count, locals_given, wanted)
    later = [it for entry in frames.appending for it in (CHOP_ONE, entry, TOP_ON_STACK)]
    table = [handler(1, 2, 2 + 3 * i) for i in range(count)]
    return frames.made(RETURN * (3 * count), [frames.wanting(0, b"\x00"), *later], table), refused(1)


# by name: a file, and what is printed
FILES = {
    "a switch to 1,500 frames of 65,000 locals that ask for a missing class": lambda: targets(15000, 1500, 65000, [b"\x00"]),
    "a switch to 1,500 such frames that append a local and chop it in turn": lambda: targets(15000, 1500, 65000, [APPEND_INT, CHOP_ONE]),
    "4,000 handlers of frames of 60,000 locals that ask for a missing class": lambda: handlers(4000, 60000),
    "2,700 such handlers whose frames have a local more each": lambda: appending_handlers(2700, 60000),
    "a switch to 1,500 frames of two kinds in turn, of 20,000 locals that ask for a missing class": lambda: targets_in_turn(15000, 1500, 20000),
    "4,000 handlers of two such frames of 20,000 locals in turn": lambda: handlers_in_turn(4000, 20000),
    "a switch to 4,000 frames of 60,001 locals, which ask in turn for two missing classes in the last one": lambda: targets_that_differ_there(14_000, 4_000, 60_000),
    "a switch to 4,000 frames of 16 locals, which ask in turn for two missing classes in the last one": lambda: targets_that_differ_there(14_000, 4_000, 15),
    "4,000 handlers of frames of 60,001 locals, which ask in turn for two missing classes in the last one": lambda: handlers_that_differ_there(4_000, 60_000),
}
