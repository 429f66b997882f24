"""Worked examples of what classck answers, one table, from the texts of names to the verdicts on constructors: what the program shows of class files and
code, given by their bytes. What only a library's call shows has the name of its test in a crate whose name ends with _calls."""
from rows.known import KNOWN
from tools.assembler import OBJECT, STATIC, ClassFile, attribute, class_info, code_attribute, member, name_and_type, named, reference, utf8
from tools.class_k import BYTES, PLAIN_OBJECT
from tools.stack_maps import stack_map_of

FINAL_OBJECT = named(OBJECT, above=None, flags=0x0031).data()

# Which test of these crates shows it.
CALLS = """
a text of three units, one of them 0 and two a pair of surrogates, is spelled and read | texts::a_text_both_ways
bytes that no unit has for its spelling, in a text | texts::a_text_both_ways
the width of a descriptor, and the limit of 255 units with a receiver and without | texts::limits
an array of 255 dimensions, and one of 256 | texts::limits
a stack map with two entries, both ways | stack_maps::both_ways
a class, both ways | class_files::a_class_both_ways
a class and three bytes more, of a reader that gives one byte a read: the three are not read | streams::stops_behind_the_class
a reader that fails, or ends, behind each byte of a class | streams::each_cut
a length of an attribute that passes every file | streams::faults
types that are assignable to others, that are not, and that compare a class which is missing | assignability::types
frames that are assignable to others, and that are not | assignability::frames
seven classes below one another: which is below which, and how many entries of a row were looked at | ancestor_rows::a_line_of_classes
a step of a method, a fault, and a choice of which nothing comes | machine_steps::ends_and_faults
numbers that an instruction does not take, each beside those that it takes | machine_faults::numbers
`return` of a constructor while its own object is not initialized, and when it is | machine_faults::returns_of_init
"""


def changed(*changes):
    """K with other bytes at these places."""
    data = bytearray(BYTES)
    for place, value in changes:
        data[place] = value
    return bytes(data)


# K with one more constant, its class's count of attributes, and an attribute.
def with_attribute(constant, body, flags=None):
    front, back = bytearray(BYTES[:56]), BYTES[56:-2]
    front[9] = 9
    if flags is not None:
        front[7] = flags
    return bytes(front) + constant + back + b"\x00\x01" + body


DEPRECATED, RECORD, PERMITTED = utf8("Deprecated"), utf8("Record"), utf8("PermittedSubclasses")

# Files: what they are, the command, their bytes, and a line of the answer.
FILES = (
    ("K", "check", [BYTES], "ok"),
    ("K without its last byte", "check", [BYTES[:96]], "refused 2 at 95"),
    ("K and one byte more", "check", [BYTES + b"\x00"], "refused 13 at 97"),
    # the outline is read first, and ends early where the longer attribute takes a byte of what is after it
    ("K whose Code attribute is longer than its parts", "check", [changed((81, 0x0E))], "refused 2 at 96"),
    ("K whose Code attribute is shorter", "check", [changed((81, 0x0C))], "refused 12 at 76"),
    ("K with a tag of no constant", "check", [changed((10, 2))], "refused 7 at 10 tag 2"),
    ("K of version 50", "check", [changed((7, 0x32))], "refused 11 50.0"),
    ("K whose superclass is no class", "check", [changed((59, 2))], "refused 21 class"),
    ("K with the flag of an interface alone", "check", [changed((56, 2))], "refused 24 class"),
    ("K with code of no bytes", "check", [BYTES[:81] + b"\x0c" + BYTES[82:89] + b"\x00" + BYTES[91:]], "refused 29 method 0"),
    ("K", "verify", [BYTES, PLAIN_OBJECT], "method f ()V verified"),
    ("K whose code is a nop", "verify", [changed((90, 0)), PLAIN_OBJECT], "method f ()V refused 71 at 0"),
    ("K alone", "verify", [BYTES], "hierarchy refused 42 K"),
    ("K and Object twice", "verify", [BYTES, PLAIN_OBJECT, PLAIN_OBJECT], "hierarchy refused 40 java/lang/Object"),
    ("K with Deprecated", "check", [with_attribute(DEPRECATED, bytes.fromhex("000800000000"))], "ok"),
    ("K with a Deprecated of one byte", "check", [with_attribute(DEPRECATED, bytes.fromhex("00080000000100"))], "refused 12 at 110"),
    ("K below a final Object", "verify", [BYTES, FINAL_OBJECT], "class refused 81"),
    ("K of version 61", "check", [changed((7, 0x3D))], "ok"),
    ("K of version 62", "check", [changed((7, 0x3E))], "refused 11 62.0"),
    ("K of version 55.1", "check", [changed((5, 1), (7, 0x37))], "ok"),
    ("K of version 56.1", "check", [changed((5, 1), (7, 0x38))], "refused 11 56.1"),
    ("K of version 61.1", "check", [changed((5, 1), (7, 0x3D))], "refused 11 61.1"),
    ("K with a Record", "check", [with_attribute(RECORD, bytes.fromhex("0008000000080001000500060000"), 0x3C)], "ok"),
    ("K with a Record that is cut, in version 59", "check", [with_attribute(RECORD, bytes.fromhex("00080000000100"), 0x3B)], "ok"),
    ("K with a Record that is cut, in version 60", "check", [with_attribute(RECORD, bytes.fromhex("00080000000100"), 0x3C)], "refused 12 at 106"),
    ("K that permits K", "check", [with_attribute(PERMITTED, bytes.fromhex("00080000000400010001"), 0x3D)], "ok"),
)

# Code, and what `show` prints of it.
CODE = """
03 aa 0102 00000013 00000000 00000000 00000013 b1 | 0 iconst_0; 1 tableswitch 0 0 20 20; 20 return
03 ab 0000 00000013 00000001 ffffffff 00000013 b1 | 0 iconst_0; 1 lookupswitch 20 -1:20; 20 return
c4 15 0100 ac | 0 wide iload 256; 4 ireturn
00 c8 7fffffff | 0 nop; 1 goto_w 2147483648
b9 0001 01 00 | 0 invokeinterface #1 1
00 ca | code refused 31 at 1
ca | code refused 31 at 0
12 | code refused 32 at 0
ab 000000 0000000c ffffffff | code refused 33 at 0
c4 00 | code refused 34 at 0
b9 0001 01 01 | code refused 35 at 0
"""

# Methods of K, static but for constructors, where 1 is the class A, 2 and 3 the constructors of A and Object, 8 the class Throwable and 9 the field K.x of type int;
# Object, Throwable, K, A and the interface I are known, and B is absent. Method, max_stack and max_locals; code; stack map; entries of the exception
# table; verdict.
METHODS = """
f ()V 0 0 | 00 | | | refused 71 at 0
f ()V 1 0 | 57 b1 | | | refused 61 at 0
f ()LA; 1 0 | 03 a70003 b0 | 4 same1 class A | | refused 68 at 1
f (J)I 1 2 | 1b ac | | | refused 63 at 0
f (J)J 2 2 | 03 3c 1e ad | | | refused 63 at 2
f ()V 4 0 | 09 5c 58 58 b1 | | | verified
f ()V 3 0 | 09 5c 58 58 b1 | | | refused 65 at 1
f ()LA; 1 1 | bb0001 4b bb0001 b70002 2a b0 | | | refused 62 at 11
f ()V 3 0 | bb0001 59 59 b70002 b70002 57 b1 | | | refused 62 at 8
<init> ()V 1 1 | b1 | | | refused 74 at 0
<init> ()V 1 1 | 2a b70003 b1 | | | verified
f ()V 1 0 | b1 bb0001 57 b1 | 1 same | | verified
f ()V 2 0 | b1 bb0001 57 b1 | 1 same1 uninitialized 1 | | refused 62 at 1
f (LA;)LI; 1 1 | 2a b0 | | | verified
f (LA;)LB; 1 1 | 2a b0 | | | refused 77 at 1 missing B
f ()I 1 1 | 03 3b 1a ac 57 1a ac | 4 full [int] [class java/lang/Throwable] | 1 2 4 0 | refused 73 at 1
f ()I 1 1 | 03 3b 1a ac 57 1a ac | 4 full [int] [class java/lang/Throwable] | 2 3 4 0 | verified
<init> ()V 1 1 | 2a b70003 b1 57 b1 | 5 same1 class java/lang/Throwable | 1 4 5 0 | refused 75 at 1
f ()V 1 0 | a80003 b1 | | | refused 60 at 0
f ()V 1 0 | a70001 b1 | | | refused 67 at 0
f ()V 1 1 | 03 3b 840001 1a 9afffc b1 | 2 append int | | verified
f ()V 1 1 | 03 3b 840001 1a 9afffc b1 | | | refused 67 at 6
f ()V 1 1 | 03 3b 840001 1a 9afffc b1 | 2 same | | refused 63 at 2
f ()V 1 0 | 03 b1 | 1 same | | refused 69 at 1
f ()V 0 0 | b1 00 b1 | | | refused 70 at 1
f ()V 0 0 | 00 b1 | bytes 0001 80 | | refused 78 at 0 fault 47
f ()V 2 0 | 09 a70003 03 57 b1 | 4 same1 top | | refused 68 at 1
f ()V 3 0 | 06 bc0a 03 04 4f b1 | | | verified
f ()V 3 0 | 06 bc08 03 04 4f b1 | | | refused 62 at 5
f ()V 3 0 | 06 bc04 03 04 54 b1 | | | verified
f ()LA; 2 0 | 01 03 32 b0 | | | verified
f (LI;)LA; 1 1 | 2a c00001 b0 | | | verified
f ()V 1 0 | 01 b60002 b1 | | | refused 66 at 1
f ()V 1 1 | bb0001 4b 2a b70002 b1 57 2a b70002 b1 | 9 full [uninitialized 0] [class java/lang/Throwable] | 4 8 9 0 | verified
f ()V 1 1 | bb0001 4b 2a b70002 b1 57 2a b70002 b1 | 9 full [uninitialized 0] [class java/lang/Throwable] | 4 9 9 0 | refused 73 at 8
f ()V 1 1 | bb0001 4b a7fffc | 0 same | | verified
f ()V 1 1 | bb0001 4b a7fffc | 0 append uninitialized 0 | | refused 69 at 0
<init> ()V 1 1 | 2a b70003 2a b70003 b1 | | | refused 62 at 5
<init> ()V 2 1 | 2a 04 b50009 2a b70003 b1 | | | verified
"""
# The last method where K does not declare the field.
WITHOUT_FIELD = "<init> ()V 2 1 | 2a 04 b50009 2a b70003 b1 | | | refused 62 at 2"

def class_of(words, code, body, entries, fields):
    """K with this method."""
    name, descriptor, stack, variables = words.split()
    constants = [
        class_info(10), reference(10, 1, 6), reference(10, 5, 6), class_info(11), class_info(12), name_and_type(13, 14), utf8("Code"), class_info(15),
        reference(9, 4, 16), utf8("A"), utf8("K"), utf8(OBJECT), utf8("<init>"), utf8("()V"), utf8("java/lang/Throwable"), name_and_type(17, 18),
        utf8("x"), utf8("I"), utf8("StackMapTable"), utf8(name), utf8(descriptor),
    ]
    nested = [attribute(19, stack_map_of(body, {"A": 1, "java/lang/Throwable": 8}.get))] if body else []
    handlers = [tuple(map(int, it.split())) for it in entries.split(",") if it]
    method = member(
        0 if name == "<init>" else STATIC, 20, 21, code_attribute(7, bytes.fromhex(code), int(stack), int(variables), handlers, nested)
    )
    return ClassFile(constants, this_class=4, super_class=5, fields=fields, methods=[method]).data()


def methods():
    """Each method, the files of the class that has it alone, and the line of its verdict."""
    declared = [member(0, 17, 18)]
    for line, fields in [*((it, declared) for it in METHODS.strip().splitlines()), (WITHOUT_FIELD, [])]:
        words, code, body, entries, verdict = (it.strip() for it in line.split("|"))
        name, descriptor, *_ = words.split()
        yield f"{words} {code}", [class_of(words, code, body, entries, fields), *KNOWN], f"method {name} {descriptor} {verdict}"


def shown():
    """Each code, and the lines of it."""
    for line in CODE.strip().splitlines():
        code, lines = line.split(" | ")
        yield bytes.fromhex(code), lines.split("; ")


def calls():
    """The subject of each call, with the file and the name of its test."""
    for line in CALLS.strip().splitlines():
        what, test = line.split(" | ")
        yield what, *test.split("::")
