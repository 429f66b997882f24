"""Class files with very many bootstrap methods, or one of very many static arguments, for `bench/hostile`."""
import struct

from shapes.long_texts import indices, utf8

INVOKEDYNAMIC, RETURN = b"\xba", b"\xb1"
# At 1 and 3 the class and its superclass, at 5 `()V`, at 6 and 7 the names of attributes, at 8 a method handle, at 10
# the name and type of a call site, at 11 a text; from 12 on come the names of methods, their descriptors and the call sites.
HANDLE, NAME_AND_TYPE, TEXT = 8, 10, 11
HEAD = [
    indices(7, 2), utf8(b"K"), indices(7, 4), utf8(b"java/lang/Object"), utf8(b"()V"), utf8(b"Code"), utf8(b"BootstrapMethods"),
    b"\x0f\x06" + struct.pack(">H", 9), indices(10, 1, NAME_AND_TYPE), indices(12, TEXT, 5), utf8(b"f"),
]
NAMES, DESCRIPTORS = 255, 256
FIRST_NAME = len(HEAD) + 1
FIRST_DESCRIPTOR = FIRST_NAME + NAMES
FIRST_SITE = FIRST_DESCRIPTOR + DESCRIPTORS


def name(i):
    return b"m%d" % (i % NAMES)


def descriptor(i):
    return b"(La%d;)V" % (i // NAMES)


def method(i, sites):
    """A static method with a call of each of these call sites, in turn."""
    code = b"".join(INVOKEDYNAMIC + struct.pack(">HH", FIRST_SITE + it, 0) for it in sites) + RETURN
    body = struct.pack(">HHI", 0, 1, len(code)) + code + bytes(4)
    return struct.pack(">HHHHHI", 9, FIRST_NAME + i % NAMES, FIRST_DESCRIPTOR + i // NAMES, 1, 6, len(body)) + body


def entry(arguments):
    """A bootstrap method of these static arguments, by their indices."""
    return struct.pack(f">HH{len(arguments)}H", HANDLE, len(arguments), *arguments)


def class_file(entries, numbers, methods):
    """A class with these bootstrap methods, with call sites that use those of these numbers, and with the call sites of each method."""
    table = [
        *HEAD, *[utf8(name(i)) for i in range(NAMES)], *[utf8(descriptor(i * NAMES)) for i in range(DESCRIPTORS)],
        *[indices(18, it, NAME_AND_TYPE) for it in numbers],
    ]
    body = struct.pack(">H", len(entries)) + b"".join(entries)
    return (
        b"\xca\xfe\xba\xbe\x00\x00\x00\x34" + struct.pack(">H", len(table) + 1) + b"".join(table) + struct.pack(">HHHHH", 0x21, 1, 3, 0, 0)
        + struct.pack(">H", len(methods)) + b"".join(method(i, sites) for i, sites in enumerate(methods))
        + struct.pack(">HHI", 1, 7, len(body)) + body
    )


METHODS, CALLS, ARGUMENTS, MOST = 65_000, 13_000, 90, 65_535


def one_each(count=METHODS):
    return class_file([entry([HANDLE] * ARGUMENTS)] * count, range(count), [[i] for i in range(count)])


def one_of_many_arguments(count=METHODS, last=HANDLE, arguments=MOST):
    return class_file([entry([HANDLE] * (arguments - 1) + [last])], [0], [[0]] * count)


def calls_of_each(count=CALLS):
    return class_file([entry([HANDLE] * ARGUMENTS)] * count, range(count), [range(count)])


def refused():
    return one_of_many_arguments(last=TEXT)


def lines(count, verdict):
    return b"".join(b"method %s %s %s\n" % (name(i), descriptor(i), verdict) for i in range(count))


# by name: the file, what `verify --dynamic` prints, and its status
FILES = {
    "65,000 methods that each use one of as many bootstrap methods of 90 arguments": (one_each, lines(METHODS, b"verified"), 0),
    "65,000 methods that use one bootstrap method of 65,535 arguments": (one_of_many_arguments, lines(METHODS, b"verified"), 0),
    "65,000 methods that use one whose last argument may not be loaded": (refused, lines(METHODS, b"refused 90 at 0"), 1),
    "13,000 calls in one method, each by one of as many bootstrap methods of 90 arguments": (calls_of_each, lines(1, b"verified"), 0),
}
