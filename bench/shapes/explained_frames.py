"""Class files whose methods are refused in large frames, and what `explain` prints of them, for `bench/hostile`."""
import struct

from class_bytes import POOL, class_file, full_frame, handler, method, stack_map, utf8

MOST = 65535
RETURN, NOP, ICONST_0, ISTORE_0, POP, DUP2, FADD = b"\xb1", b"\x00", b"\x03", b"\x3b", b"\x57", b"\x5c", b"\x62"
# the locals of a frame by their bytes: all int, and the first one float
INTS, FLOAT_FIRST = b"\x01" * MOST, b"\x02" + b"\x01" * (MOST - 1)
MISSING = "61 MissingOperand: the stack holds fewer operands than the instruction takes"
WRONG = "62 WrongOperand: an operand is of another type than the instruction takes"
AT_TARGET = "68 NotAssignableAtTarget: the frame after the instruction is not assignable to the one that is declared at a target"
AT_HANDLER = "73 HandlerNotAssignable: the frame before the instruction is not assignable to the one that is declared at a handler which covers it"
NO_UNIT = "stack: expected units 1, found 0"
# `explain` prints frames as long as the frames of the methods before have fewer types than this
BOUND = 65536


def numbered(count):
    return [b"m%d" % i for i in range(count)]


def text(number, sentence, at, sizes, instruction, *frame):
    """The lines that are printed for the method of this number."""
    lines = [f"method m{number} ()V refused {sentence.split()[0]} at {at}", sentence, "stack %d locals %d" % sizes, f"{at} {instruction}", *frame]
    return "\n  ".join(lines) + "\n"


def deep_stack(count):
    """A method that adds ints as floats above so many of them, which is odd: three are pushed, and then two by two."""
    code = ICONST_0 * 3 + DUP2 * ((count - 3) // 2) + FADD + RETURN
    at = len(code) - 2
    data = class_file([method(POOL, code, count, 0)], numbered(1))
    return data, text(0, WRONG, at, (count, 0), "fadd", "locals", "stack " + ", ".join(["int"] * count), "operand 2 of 2: expected float, found int")


def one_local(count):
    """So many methods, each refused with an int in its one local."""
    code = ICONST_0 + ISTORE_0 + POP + RETURN
    data = class_file([method(POOL + i, code, 1, 1) for i in range(count)], numbered(count))
    return data, "".join(text(i, MISSING, 2, (1, 1), "pop", "locals int", "stack", NO_UNIT) for i in range(count))


def all_locals(count):
    """So many methods, each refused in a frame of 65,535 locals."""
    data = class_file([method(POOL + i, POP + RETURN, 0, MOST) for i in range(count)], numbered(count))
    frames = [["locals", "stack", NO_UNIT] if i * MOST < BOUND else [] for i in range(count)]
    return data, "".join(text(i, MISSING, 0, (0, MOST), "pop", *it) for i, it in enumerate(frames))


def long_names(count, length):
    """A method that is refused in a frame of so many locals of its own class, whose name has this length."""
    types = b"\xff" + struct.pack(">HH", 1, count) + b"\x07\x00\x01" * count + bytes(2)
    data = class_file([method(POOL, RETURN + POP + RETURN, 0, count, stack_map([types]))], numbered(1))
    name = "a" * length
    of_locals = "locals " + ", ".join([f"Class {name}"] * count)
    return data.replace(utf8(b"K"), utf8(name.encode()), 1), text(0, MISSING, 1, (0, count), "pop", of_locals, "stack", NO_UNIT)


def last_target(cases, returns):
    """A switch in a frame of 65,535 ints to so many frames, of which the last one has a float in their place."""
    behind = 16 + 4 * cases  # the switch is at 2
    to = [behind + i % returns for i in range(cases)]
    operands = struct.pack(">iii", behind - 2, 0, cases - 1) + b"".join(struct.pack(">i", it - 2) for it in to)
    code = RETURN + ICONST_0 + b"\xaa\x00" + operands + RETURN * returns
    same = [b"\xfb" + struct.pack(">H", behind - 2), *[b"\x00"] * (returns - 2)]
    body = stack_map([full_frame(1, INTS), *same, full_frame(0, FLOAT_FIRST)])
    instruction = f"tableswitch 0 {cases - 1} {behind} " + " ".join(map(str, to))
    frame = "locals " + ", ".join(["int"] * MOST), "stack int", f"target {behind + returns - 1}", "local 0: int is not assignable to float"
    return class_file([method(POOL, code, 1, MOST, body)], numbered(1)), text(0, AT_TARGET, 2, (1, MOST), instruction, *frame)


def last_handler(count):
    """An instruction in a frame of 65,535 ints under so many handlers with this frame, and one with a float in it."""
    body = stack_map([full_frame(1, INTS), b"\x41\x00", full_frame(0, FLOAT_FIRST, b"\x00")])
    handlers = [handler(1, 2, 3)] * count + [handler(1, 2, 4)]
    data = class_file([method(POOL, RETURN + NOP + RETURN * 3, 1, MOST, body, handlers)], numbered(1))
    frame = "locals " + ", ".join(["int"] * MOST), "stack", "handler 4", "local 0: int is not assignable to float", "catch 1 2 4 any"
    return data, text(0, AT_HANDLER, 1, (1, MOST), "nop", *frame)


# by name: a file, and the lines that are to be printed
FILES = {
    "a stack of 65,535 ints, refused above them": lambda: deep_stack(MOST),
    "65,000 methods, each refused with one local": lambda: one_local(65000),
    "65,000 methods, each refused with 65,535 locals": lambda: all_locals(65000),
    "1,000 locals of a class with a name of 10,000 bytes": lambda: long_names(1000, 10000),
    "a switch to 1,500 frames of 65,535 locals, the last of which differs": lambda: last_target(15000, 1500),
    "65,535 handlers of frames of 65,535 locals, the last of which differs": lambda: last_handler(65534),
}
