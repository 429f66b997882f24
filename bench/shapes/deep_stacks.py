"""Classes that make and initialize objects beside a stack of 20,000 ints, for `bench/hostile`."""
import struct

from class_bytes import full_frame, stack_map
from shapes.long_descriptors import class_file
from shapes.long_texts import indices, utf8

ICONST_0, DUP, DUP2, POP, RETURN, GOTO_W = b"\x03", b"\x59", b"\x5c", b"\x57", b"\xb1", b"\xc8"
ASTORE, ALOAD = b"\xc4\x3a", b"\xc4\x19"  # after wide, with two bytes for the local
STATIC = 9
# The constructor of K is at 8; after the constants that it leads to come the name of the method and that of a stack map.
CONSTRUCTOR, NAME, MAP = 8, 11, 12
NAMED = [indices(10, 1, 9), indices(12, 10, 5), utf8(b"<init>"), utf8(b"m"), utf8(b"StackMapTable")]
NEW, INVOKESPECIAL = b"\xbb\x00\x01", b"\xb7" + struct.pack(">H", CONSTRUCTOR)
DEPTH, OBJECTS, HELD = 20_000, 8_000, 3_500
INTS = ICONST_0 * 2 + DUP2 * (DEPTH // 2 - 1)


def in_class(code, max_stack, max_locals, entries=()):
    """K with a static method of this code, and with a stack map of these entries if there are any."""
    body = stack_map(entries)
    nested = [struct.pack(">HI", MAP, len(body)) + body] if entries else []
    return class_file(NAMED, [], [(NAME, STATIC, max_stack, max_locals, code, *nested)])


def made_above():
    """A stack map declares the ints, after a `goto_w` to a return at the end."""
    code = (NEW + DUP + INVOKESPECIAL + POP) * OBJECTS
    over = GOTO_W + struct.pack(">i", 6 + len(code)) + code + RETURN + RETURN
    return in_class(over, DEPTH + 2, 0, [full_frame(5, b"", b"\x01" * DEPTH), full_frame(len(code), b"")])


def held_below():
    """Each object is on the stack and in a local, and is initialized through the local."""
    made = b"".join(NEW + DUP + ASTORE + struct.pack(">H", i) for i in range(HELD))
    initialized = b"".join(ALOAD + struct.pack(">H", i) + INVOKESPECIAL for i in range(HELD))
    return in_class(made + INTS + initialized + RETURN, HELD + DEPTH + 1, HELD)


LINES = b"method m ()V verified\n"
FILES = {
    "8,000 objects made and initialized above a stack of 20,000 ints": (made_above, LINES),
    "3,500 objects below 20,000 ints on the stack, each initialized by way of a local": (held_below, LINES),
}
