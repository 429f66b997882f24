"""Class files that call very many methods of interfaces by `invokespecial`, for `bench/hostile`."""
import struct

from class_bytes import interface
from shapes.long_texts import indices, utf8

ALOAD_0, INVOKESPECIAL, RETURN = b"\x2a", b"\xb7", b"\xb1"
# At 1 and 3 the class and its superclass, at 8 the name and type of a method, at 9 the name of an interface, and at 10 that interface.
HEAD = [indices(7, 2), utf8(b"K"), indices(7, 4), utf8(b"java/lang/Object"), utf8(b"Code"), utf8(b"()V"), utf8(b"m"), indices(12, 7, 6)]
NAME, CALLS = 9, 13_000


def listed(pool, count):
    """So many interfaces with names of their own: their indices."""
    for i in range(count):
        pool += [utf8(b"a/long/name/that/all/interfaces/have/I%05d" % i), indices(7, len(pool) + 1)]
        yield len(pool)


def references(pool, count):
    """So many methods, each by a class of its own that has the one name: their indices."""
    for _ in range(count):
        pool += [indices(7, NAME), indices(11, len(pool) + 1, 8)]
        yield len(pool)


def class_file(name, interfaces, count, methods):
    """A class that lists an interface of this name before so many others, and calls methods of it by so many references in turn, 13,000 in
    each of so many methods."""
    pool = [*HEAD, utf8(name), indices(7, NAME)]
    others, called = list(listed(pool, interfaces)), list(references(pool, count))
    code = b"".join(ALOAD_0 + INVOKESPECIAL + struct.pack(">H", called[i % count]) for i in range(CALLS)) + RETURN
    body = struct.pack(">HHI", 1, 1, len(code)) + code + bytes(4)
    pool += [utf8(b"m%d" % i) for i in range(methods)]
    first = len(pool) - methods + 1
    table = b"".join(struct.pack(">HHHHHI", 1, first + i, 6, 1, 5, len(body)) + body for i in range(methods))
    head = b"\xca\xfe\xba\xbe\x00\x00\x00\x34" + struct.pack(">H", len(pool) + 1) + b"".join(pool)
    above = struct.pack(f">HHHH{1 + len(others)}H", 0x21, 1, 3, 1 + len(others), 10, *others)
    return head + above + struct.pack(">HH", 0, methods) + table + bytes(2)


def among(name, interfaces, count, methods):
    """Such a class, its interface as a known class, and what is printed."""
    lines = b"".join(b"method m%d ()V verified\n" % i for i in range(methods))
    return [class_file(name, interfaces, count, methods), interface(name)], lines


# by name: the classes, and what `verify --release 17` prints
FILES = {
    "13,000 calls of one interface with a name of 60,000 bytes, by as many classes, beside 10,000 others": lambda: among(b"L" * 60_000, 10_000, CALLS, 1),
    "260,000 calls of one of 30,000 interfaces": lambda: among(b"L", 30_000, 1, 20),
}
