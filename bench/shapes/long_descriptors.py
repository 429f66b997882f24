"""Class files whose methods name constants of one long text again and again, and fields of a class that has very many, for `bench/hostile`."""
import struct

from class_bytes import at
from shapes.long_texts import LONGEST, indices, utf8

NOP, ACONST_NULL, ICONST_0, ALOAD_0, POP, RETURN = b"\x00", b"\x01", b"\x03", b"\x2a", b"\x57", b"\xb1"
GETSTATIC, PUTFIELD, INVOKESPECIAL, INVOKESTATIC, CHECKCAST = b"\xb2", b"\xb5", b"\xb7", b"\xb8", b"\xc0"
STATIC = 9

# At 1 and 3 are the class and its superclass, at 5 `()V`, at 6 `Code`, at 7 the name that is called, at 8 the constant that is named; the others begin at 13.
HEAD = [
    indices(7, 2), utf8(b"K"), indices(7, 4), utf8(b"java/lang/Object"), utf8(b"()V"), utf8(b"Code"), utf8(b"f"),
]
NAMED, NAME_AND_TYPE, TEXT, SPARE_NAME, SPARE_INIT = 8, 9, 10, 11, 12
CONSTANTS = 13
CLASS_OF_LONG_NAME = b"a" * (LONGEST - 6)
METHOD_TEXT, FIELD_TEXT, ARRAY_TEXT = b"(L" + CLASS_OF_LONG_NAME + b";)V", b"L" + CLASS_OF_LONG_NAME + b";", b"[L" + CLASS_OF_LONG_NAME + b";"


def member_constants(tag, text):
    """The constants to which a Fieldref or a Methodref leads, by its descriptor."""
    return [indices(tag, 1, NAME_AND_TYPE), indices(12, 7, TEXT), utf8(text), utf8(b"<init>"), indices(12, SPARE_NAME, 5)]


def class_constant(text):
    return [indices(7, TEXT), indices(12, 7, 5), utf8(text), utf8(b"<init>"), indices(12, SPARE_NAME, 5)]


def code_of(method):
    """A method by its name, access flags, max_stack, max_locals, code, and perhaps the attributes of its Code."""
    name, flags, max_stack, max_locals, code, *nested = method
    body = struct.pack(">HHI", max_stack, max_locals, len(code)) + code + struct.pack(">HH", 0, len(nested)) + b"".join(nested)
    return struct.pack(">HHHHHI", flags, name, 5, 1, 6, len(body)) + body


def class_file(named, others, methods, fields=(), name=b"K"):
    """A class with the constant that is named, with others after it, and with these methods and fields."""
    table = [HEAD[0], utf8(name), *HEAD[2:], *named, *others]
    members = b"".join(struct.pack(">HHHH", 0, name, descriptor, 0) for name, descriptor in fields)
    return (
        b"\xca\xfe\xba\xbe\x00\x00\x00\x34" + struct.pack(">H", len(table) + 1) + b"".join(table)
        + struct.pack(">HHHHH", 0x21, 1, 3, 0, len(fields)) + members
        + struct.pack(">H", len(methods)) + b"".join(map(code_of, methods)) + bytes(2)
    )


def static(name, code, max_stack=1):
    return (name, STATIC, max_stack, 0, code)


CALLS = 16_383
METHODS = 30_000


def calls_of_one():
    return class_file(member_constants(10, METHOD_TEXT), [utf8(b"m0")], [static(CONSTANTS, (ACONST_NULL + INVOKESTATIC + at(NAMED)) * CALLS + RETURN)])


def calls_by_many():
    """Each call names a Methodref of its own, which leads to a NameAndType of its own; all have one descriptor."""
    first = CONSTANTS + 1
    others = [utf8(b"m0")]
    for i in range(CALLS):
        others += [indices(10, 1, first + 2 * i + 1), indices(12, 7, TEXT)]
    code = b"".join(ACONST_NULL + INVOKESTATIC + at(first + 2 * i) for i in range(CALLS)) + RETURN
    return class_file(member_constants(10, METHOD_TEXT), others, [static(CONSTANTS, code)])


def calls_in_many_methods():
    names = [utf8(b"m%d" % i) for i in range(METHODS)]
    return class_file(member_constants(10, METHOD_TEXT), names, [static(CONSTANTS + i, ACONST_NULL + INVOKESTATIC + at(NAMED) + RETURN) for i in range(METHODS)])


def reads_of_a_field():
    return class_file(member_constants(9, FIELD_TEXT), [utf8(b"m0")], [static(CONSTANTS, (GETSTATIC + at(NAMED) + POP) * CALLS + RETURN)])


def casts_to_an_array():
    code = ACONST_NULL + (CHECKCAST + at(NAMED)) * 21_843 + POP + RETURN
    return class_file(class_constant(ARRAY_TEXT), [utf8(b"m0")], [static(CONSTANTS, code)])


FRAMES = 20_000


def stack_map(name, entries):
    body = struct.pack(">H", len(entries)) + b"".join(entries)
    return struct.pack(">HI", name, len(body)) + body


def array_on_the_stack(delta):
    """A frame with the array of the long name alone on its stack."""
    return bytes([64 + delta, 7]) + at(NAMED)


def frames_of_an_array():
    """At each `pop` a frame names the array: null comes in."""
    method = (CONSTANTS, STATIC, 1, 0, (ACONST_NULL + POP) * FRAMES + RETURN, stack_map(CONSTANTS + 1, [array_on_the_stack(1)] * FRAMES))
    return class_file(class_constant(ARRAY_TEXT), [utf8(b"m0"), utf8(b"StackMapTable")], [method])


def frames_in_many_methods():
    names = [utf8(b"m%d" % i) for i in range(METHODS)]
    nested = stack_map(CONSTANTS, [array_on_the_stack(1)])
    methods = [(CONSTANTS + 1 + i, STATIC, 1, 0, ACONST_NULL + POP + RETURN, nested) for i in range(METHODS)]
    return class_file(class_constant(ARRAY_TEXT), [utf8(b"StackMapTable"), *names], methods)


def frames_to_frames_of_an_array():
    """At each instruction but the first a frame names the array, which also comes in."""
    code = ACONST_NULL + CHECKCAST + at(NAMED) + NOP * (LONGEST - 6) + POP + RETURN
    nested = stack_map(CONSTANTS + 1, [array_on_the_stack(4), *[array_on_the_stack(0)] * (LONGEST - 6)])
    return class_file(class_constant(ARRAY_TEXT), [utf8(b"m0"), utf8(b"StackMapTable")], [(CONSTANTS, STATIC, 1, 0, code, nested)])


FIELDS, WRITES = 60_000, 13_000


def writes_of_an_own_field():
    """A constructor that writes the last field of very many, before it calls the constructor of its superclass."""
    names = [utf8(b"g%d" % i) for i in range(FIELDS - 1)]
    others = [indices(10, 3, SPARE_INIT), utf8(b"I"), *names]
    named = [indices(9, 1, NAME_AND_TYPE), indices(12, 7, CONSTANTS + 1), utf8(b"V"), utf8(b"<init>"), indices(12, SPARE_NAME, 5)]
    fields = [(CONSTANTS + 2 + i, CONSTANTS + 1) for i in range(FIELDS - 1)] + [(7, CONSTANTS + 1)]
    code = (ALOAD_0 + ICONST_0 + PUTFIELD + at(NAMED)) * WRITES + ALOAD_0 + INVOKESPECIAL + at(CONSTANTS) + RETURN
    return class_file(named, others, [(SPARE_NAME, 1, 2, 1, code)], fields)


def writes_beside_fields_of_one_name():
    """Writes to one of 32 fields, which have one long name."""
    types = [utf8(b"La%d;" % i) for i in range(31)]
    others = [indices(10, 3, SPARE_INIT), utf8(b"I"), *types]
    named = [indices(9, 1, NAME_AND_TYPE), indices(12, TEXT, CONSTANTS + 1), utf8(b"V" * 65_535), utf8(b"<init>"), indices(12, SPARE_NAME, 5)]
    fields = [(TEXT, CONSTANTS + 2 + i) for i in range(31)] + [(TEXT, CONSTANTS + 1)]
    code = (ALOAD_0 + ICONST_0 + PUTFIELD + at(NAMED)) * WRITES + ALOAD_0 + INVOKESPECIAL + at(CONSTANTS) + RETURN
    return class_file(named, others, [(SPARE_NAME, 1, 2, 1, code)], fields)


def writes_of_long_names():
    """Each by a Fieldref of its own, of eight fields whose long names differ in the last byte."""
    names = [utf8(b"V" * 65_534 + b"%d" % i) for i in range(8)]
    behind = CONSTANTS + 2 + len(names)
    references = [part for i in range(WRITES) for part in (indices(9, 1, behind + 2 * i + 1), indices(12, CONSTANTS + 2 + i % 8, CONSTANTS + 1))]
    others = [indices(10, 3, SPARE_INIT), utf8(b"I"), *names, *references]
    named = [utf8(b"g"), utf8(b"h"), utf8(b"V"), utf8(b"<init>"), indices(12, SPARE_NAME, 5)]
    writes = b"".join(ALOAD_0 + ICONST_0 + PUTFIELD + at(behind + 2 * i) for i in range(WRITES))
    code = writes + ALOAD_0 + INVOKESPECIAL + at(CONSTANTS) + RETURN
    return class_file(named, others, [(SPARE_NAME, 1, 2, 1, code)], [(CONSTANTS + 2 + i, CONSTANTS + 1) for i in range(8)])


def writes_in_a_class_of_a_long_name():
    """Writes to the one field of a class whose name is long."""
    named = [indices(9, 1, NAME_AND_TYPE), indices(12, 7, CONSTANTS + 1), utf8(b"V"), utf8(b"<init>"), indices(12, SPARE_NAME, 5)]
    code = (ALOAD_0 + ICONST_0 + PUTFIELD + at(NAMED)) * WRITES + ALOAD_0 + INVOKESPECIAL + at(CONSTANTS) + RETURN
    others = [indices(10, 3, SPARE_INIT), utf8(b"I")]
    return class_file(named, others, [(SPARE_NAME, 1, 2, 1, code)], [(7, CONSTANTS + 1)], name=b"K" * 65_535)


def verified(count):
    return b"".join(b"method m%d ()V verified\n" % i for i in range(count))


# by name: the file, and what `verify` prints
FILES = {
    "16,383 calls of one method of a long descriptor": (calls_of_one, verified(1)),
    "16,383 calls of as many methods of one long descriptor": (calls_by_many, verified(1)),
    "30,000 methods that each call one of a long descriptor": (calls_in_many_methods, verified(METHODS)),
    "16,383 reads of one field of a long descriptor": (reads_of_a_field, verified(1)),
    "21,843 casts to one array of a long name": (casts_to_an_array, verified(1)),
    "20,000 frames that each name one array of a long name": (frames_of_an_array, verified(1)),
    "30,000 methods with a frame that names an array of a long name": (frames_in_many_methods, verified(METHODS)),
    "65,530 frames that each name the array of a long name that comes in": (frames_to_frames_of_an_array, verified(1)),
    "13,000 writes of the last of 60,000 own fields": (writes_of_an_own_field, b"method <init> ()V verified\n"),
    "13,000 writes of the last of 32 own fields of one long name": (writes_beside_fields_of_one_name, b"method <init> ()V verified\n"),
    "13,000 writes, each by a Fieldref of its own, of 8 own fields of long names that begin alike": (writes_of_long_names, b"method <init> ()V verified\n"),
    "13,000 writes of an own field of a class of a long name": (writes_in_a_class_of_a_long_name, b"method <init> ()V verified\n"),
}
