"""The text that `classck explain` prints for each example in docs/REFUSALS.md, whole and in the order of the numbers."""
from dataclasses import replace

from rows.verify.reasons import faults, reasons
from tools.assembler import attribute, class_info, code_of, integer, long, member, name_and_type, reference, u1, u2, u4, utf8
from tools.class_k import K, OBJECT_CLASS, code_f, method_f, with_constant, with_constants

# For each method: its lines, with `|` between them. Its frames are built from its code in docs/REFUSALS.md: the
# parameters of its descriptor are in the locals, and the instructions in front have put their values on the stack. No
# frame comes to the instruction of 70, and 78 and 79 are told before there are frames; the map of 78 ends where its entry
# 0 should begin.
METHODS = """
method f ()V refused 60 at 0 | 60 NotSupported: the instruction is jsr, jsr_w or ret, or one that only --dynamic judges | stack 0 locals 0 | 0 jsr 3 | locals | stack
method f ()V refused 61 at 0 | 61 MissingOperand: the stack holds fewer operands than the instruction takes | stack 0 locals 0 | 0 pop | locals | stack | stack: expected units 1, found 0
method f ()LA; refused 62 at 3 | 62 WrongOperand: an operand is of another type than the instruction takes | stack 1 locals 0 | 3 areturn | locals | stack uninitialized(0) | operand 1 of 1: expected Class A, found uninitialized(0)
method f (F)V refused 63 at 0 | 63 WrongLocal: the local variable that the instruction reads is of another type | stack 1 locals 2 | 0 iload_0 | locals float | stack | local 0: expected int, found float
method f (F)V refused 64 at 0 | 64 LocalOutOfRange: the local variable, or at 0 the receiver with the parameters, passes max_locals | stack 1 locals 2 | 0 iload_2 | locals float | stack
method f ()V refused 65 at 1 | 65 StackOver: the stack after the instruction passes max_stack | stack 1 locals 0 | 1 iconst_0 | locals | stack int
method f ()V refused 66 at 0 | 66 WrongConstant: the constant, or the byte, is none that the instruction may have | stack 1 locals 0 | 0 new #8 | constant 8 Integer | locals | stack
method f ()V refused 67 at 0 | 67 NoFrameAtTarget: the stack map declares no frame at a target of the instruction | stack 0 locals 0 | 0 goto 3 | locals | stack
method f ()LA; refused 68 at 1 | 68 NotAssignableAtTarget: the frame after the instruction is not assignable to the one that is declared at a target | stack 1 locals 0 | 1 goto 4 | locals | stack int | target 4 | stack 0: int is not assignable to Class A
method f ()V refused 69 at 1 | 69 NotAssignable: the frame that comes to the instruction is not assignable to the one that is declared there | stack 1 locals 0 | 1 return | locals | stack int | declared locals | declared stack | stack: items that come 1, declared 0
method f ()V refused 70 at 1 | 70 NoFrame: the instruction before never goes on, and the stack map declares no frame here | stack 0 locals 0 | 1 nop
method f ()V refused 71 at 0 | 71 FallsOff: the last instruction of the code goes on | stack 0 locals 0 | 0 nop | locals | stack
method f ()V refused 72 at 0 | 72 BadException: an entry of the exception table has a wrong range or handler, or catches what is no Throwable | stack 1 locals 0 | 0 return | locals | stack | catch 0 0 1 any
method f ()I refused 73 at 1 | 73 HandlerNotAssignable: the frame before the instruction is not assignable to the one that is declared at a handler which covers it | stack 1 locals 1 | 1 istore_0 | locals | stack int | handler 4 | local 0: top is not assignable to int | catch 1 2 4 any
method <init> ()V refused 74 at 0 | 74 OwnObjectNotReady: the constructor returns before its own object is initialized | stack 0 locals 1 | 0 return | locals uninitializedThis | stack | flags flagThisUninit
method <init> ()V refused 75 at 1 | 75 ConstructorCovered: an entry of the exception table covers the call of a constructor on the own object | stack 1 locals 1 | 1 invokespecial #13 | constant 13 Methodref #9 #12 java/lang/Object <init> ()V | locals uninitializedThis | stack uninitializedThis | flags flagThisUninit | catch 0 4 5 any
method f ()I refused 76 at 0 | 76 WrongReturn: the return is of another kind than the result of the method | stack 1 locals 0 | 0 return | locals | stack
method f (LA;)LB; refused 77 at 1 missing B | 77 ClassMissing: a comparison of types needs the class of this name, which is not among the files | stack 1 locals 1 | 1 areturn | locals Class A | stack Class A | operand 1 of 1: expected Class B, found Class A
method f ()V refused 78 at 0 fault 2 | 78 BadStackMap: the stack map is refused | 2 EndsEarly: the stack map ends within an entry | stack 0 locals 0 | 0 return | entry 0
method f ()V refused 79 at 1 fault 31 | 79 BadCode: the code is refused at this instruction | 31 BadOpcode: the byte is no opcode | stack 0 locals 0
method f (LA;)V refused 82 at 1 | 82 ProtectedMember: a protected member of another package is used on an object that is not assignable to the current class | stack 1 locals 1 | 1 invokevirtual #13 | constant 13 Methodref #9 #12 java/lang/Object clone ()Ljava/lang/Object; | locals Class A | stack Class A
"""

# For a file, for lists of classes, for code (after 79) and for stack maps (after 78): the name of the number, and what it says.
SENTENCES = """
2 EndsEarly: the number or part that begins there is not whole
3 BadText: a text is no modified UTF-8 from this byte on
7 BadTag: the byte is no tag that a constant may have there, or no kind of a method handle
10 BadMagic: the file does not begin with CAFEBABE
11 BadVersion: the version is none of 51 to 55, nor of 56 to 61 with minor version 0
12 AttributeLength: the attribute that begins there does not use exactly its length
13 BytesAfter: bytes stand behind the class
14 TooLong: the part that begins there would pass 16,777,216 bytes
15 ReadFailed: the file could not be read on from there
16 BadPoolCount: the count of the constant pool is 0
20 BadIndex: an index is 0 where it may not be, past the constant pool, or the second one of a Long or Double
21 WrongKind: an index leads to another kind of constant than it should, or a Dynamic stands in a class below major version 55
22 BadName: a name is not of its form, or is none that may stand there
23 BadDescriptor: a descriptor is not of its form, passes its limits, or is none that the method may have
24 BadFlags: access flags stand together that may not, or one stands without another that it needs
25 Twice: an earlier field or method has this name and descriptor
26 CodeMissing: the method has no Code attribute and must have one
27 CodeNotAllowed: the method has a Code attribute and may have none
28 BadSuper: the superclass is missing, or is none that the class may have
29 BadCodeLength: the length of the code is not 1 to 65,535 bytes
30 AttributeTwice: two attributes stand of a kind of which there may be one
31 BadOpcode: the byte is no opcode
32 CutInstruction: the code ends inside the instruction
33 BadSwitch: low is over high, the count is negative, or the keys do not rise
34 BadWide: wide stands before an opcode that it may not modify
35 NonZeroByte: a byte of invokeinterface or invokedynamic that must be 0 is not
40 ClassTwice: the files have more than one class of this name
41 Cycle: the class stands on the chain of its own superclasses
42 SuperMissing: the superclass of the class is not among the files
44 BadArrayInterface: java/lang/Cloneable or java/io/Serializable is no interface
47 BadFrameType: a byte is no frame type
48 BadTypeTag: a byte is no tag of a verification type
49 LocalsOver: the locals of an entry are more units than max_locals
50 StackOver: the stack of an entry is more units than max_stack
51 ChopTooMany: an entry chops more locals than the entry before it left
52 NotAStart: the offset of an entry is that of no instruction
53 NotANew: an entry names an uninitialized object by the offset of no new
81 FinalSuper: the superclass of the class is final
"""
# The part of K in which the bytes of its example are at fault or break a rule, by the number of the refusal.
PARTS = {
    2: ["constant 5 Utf8"],
    3: ["constant 2 Utf8"],
    7: ["constant 1"],
    12: ["method 0", "attribute 0"],
    14: ["method 0", "attribute 0"],
    20: ["constant 1 Class #9"],
    21: ["constant 1 Class #1"],
    22: ["constant 1 Class #2 ["],
    23: ["method 0009 f V)V"],
    24: ["class K major 52 minor 0 flags 0221", "super java/lang/Object"],
    25: ["method 0109 f ()V"],
    26: ["method 0009 Code ()V"],
    27: ["method 0109 f ()V"],
    28: ["class K major 52 minor 0 flags 0021", "super none"],
    29: ["method 0009 f ()V", "attribute 0 Code"],
    30: ["method 0009 f ()V", "attribute 1 Code"],
}
# The entry at fault of a stack map that is refused by the fault of this number: where its bytes are an entry, with the
# offset of its frame.
ENTRIES = {
    47: "entry 0",
    48: "entry 0",
    49: "entry 0 at 0",
    50: "entry 0 at 0",
    51: "entry 0 at 0",
    52: "entry 0 at 5",
    53: "entry 0 at 0",
}
OF_CONSTANT = ["method f ()V refused 66 at 0", "66 WrongConstant: the constant, or the byte, is none that the instruction may have", "stack 1 locals 0"]
EMPTY = ["locals", "stack"]
OF_NUMBER = {int(it.split()[0]): it for it in SENTENCES.strip().splitlines()}


def text(lines):
    """The lines, those after the first one by two spaces further in."""
    return "".join(("  " if i else "") + it.strip() + "\n" for i, it in enumerate(lines))


def refusals(lines):
    """The lines of `verify` of which `explain` has explanations."""
    return [it for it in lines.splitlines() if "refused" in it]


def of_code(number, line):
    """The text for the example of a fault of code or of a stack map."""
    head = "78 BadStackMap: the stack map is refused" if "refused 78" in line else "79 BadCode: the code is refused at this instruction"
    sizes = f"stack {int(number == 53)} locals 0"
    of_map = ["0 nop", ENTRIES[number]] if "refused 78" in line else []
    return text([line, head, OF_NUMBER[number], sizes, *of_map])


# A constant of each kind, from 8 on, and the line of it.
CONSTANTS = [
    (utf8(b"A\\\xc3\xa9"), "Utf8 A\\u005c\\u00e9"),
    (integer(1), "Integer"),
    (u1(4) + u4(0), "Float"),
    (long(1), "Long"),
    (None, "second index of the constant before"),
    (u1(6) + u4(0) + u4(0), "Double"),
    (None, "second index of the constant before"),
    (class_info(8), "Class #8 A\\u005c\\u00e9"),
    (u1(8) + u2(4), "String #4 java/lang/Object"),
    (utf8("I"), "Utf8 I"),
    (name_and_type(5, 17), "NameAndType #5 #17 f I"),
    (name_and_type(5, 6), "NameAndType #5 #6 f ()V"),
    (reference(9, 3, 18), "Fieldref #3 #18 java/lang/Object f I"),
    (reference(10, 3, 19), "Methodref #3 #19 java/lang/Object f ()V"),
    (reference(11, 3, 19), "InterfaceMethodref #3 #19 java/lang/Object f ()V"),
    (u1(15) + u1(6) + u2(21), "MethodHandle 6 #21"),
    (u1(16) + u2(6), "MethodType #6 ()V"),
    (reference(17, 0, 18), "Dynamic 0 #18 f I"),
    (reference(18, 0, 19), "InvokeDynamic 0 #19 f ()V"),
]


def constants():
    """A method that makes an object of the constant of each kind, and what is explained of it: all but one are no
    class. It has no locals, and nothing is on the stack."""
    k = replace(with_constants(*(it for it, _ in CONSTANTS if it)), major=55)
    for index, (_, kind) in enumerate(CONSTANTS, 8):
        if not kind.startswith("Class"):
            data = replace(k, methods=[method_f(code_f(code_of(f"new {index}; return"), stack=1))]).data()
            yield f"a {kind.split()[0]} constant", [data, OBJECT_CLASS], text([*OF_CONSTANT, f"0 new #{index}", f"constant {index} {kind}", *EMPTY])
    for index in (0, 99):
        data = replace(k, methods=[method_f(code_f(code_of(f"new {index}; return"), stack=1))]).data()
        yield f"no constant at {index}", [data, OBJECT_CLASS], text([*OF_CONSTANT, f"0 new #{index}", *EMPTY])


def faulty():
    """Files whose bytes are at fault: what each is, its bytes, the line, and those of the part in which the fault lies."""
    data, empty = K.data(), attribute(5, b"")
    for end, at, part in (
        (9, 8, []),
        (10, 10, ["constant 1"]),
        (12, 11, ["constant 1 Class"]),
        (39, 39, ["constant 5"]),
        (40, 40, ["constant 5 Utf8"]),
        (48, 46, ["constant 6 Utf8"]),
        (57, 56, []),
        (63, 62, []),
        (65, 64, []),
        (67, 66, []),
        (68, 68, ["method 0"]),
        (75, 74, ["method 0"]),
        (76, 76, ["method 0", "attribute 0"]),
        (90, 82, ["method 0", "attribute 0"]),
        (95, 95, []),
    ):
        yield f"K cut behind {end} bytes", data[:end], f"refused 2 at {at}", part
    # the second index of a Long has no bytes
    for pool, line, part in (
        ("0002 05", "refused 7 at 10 tag 5", ["constant 1 Long"]),
        ("0002 06", "refused 7 at 10 tag 6", ["constant 1 Double"]),
        ("0004 05 0000000000000001 02", "refused 7 at 19 tag 2", ["constant 3"]),
        ("0004 05 0000000000000001 0100", "refused 2 at 20", ["constant 3 Utf8"]),
        ("0003 0f0a", "refused 2 at 12", ["constant 1 MethodHandle"]),
    ):
        yield f"a pool {pool}", data[:8] + bytes.fromhex(pool), line, part
    yield "a handle of kind 10", data[:8] + bytes.fromhex("0002 0f0a0001") + data[56:], "refused 7 at 11 tag 10", ["constant 1 MethodHandle"]
    yield "a text of C1 behind K", with_constants(utf8(b"K\xc1")).data(), "refused 3 at 60", ["constant 8 Utf8"]
    # a text before a cut is not the part that is cut
    yield "a text of C0 and a cut", with_constant(2, utf8(b"\xc0")).data()[:75], "refused 2 at 74", ["method 0"]
    fields = replace(K, fields=[member(0, 5, 6, empty), member(0, 5, 6, empty, empty)]).data()
    for end, at, part in (
        (79, 76, ["field 0", "attribute 0"]),
        (81, 80, ["field 1"]),
        (95, 94, ["field 1", "attribute 1"]),
        (101, 100, []),
        (103, 102, ["method 0"]),
    ):
        yield f"fields cut behind {end} bytes", fields[:end], f"refused 2 at {at}", part
    attributes = replace(K, attributes=[empty, attribute(5, b"xyz")]).data()
    yield "an attribute of the class that is cut", attributes[:-1], "refused 2 at 109", ["attribute 1"]
    yield "attributes of the class and a byte more", attributes + b"\0", "refused 13 at 112", []
    sources = with_constants(utf8("SourceFile"))
    yield "a SourceFile of three bytes", replace(sources, attributes=[empty, attribute(8, bytes(3))]).data(), "refused 12 at 116", ["attribute 1"]
    numbered = with_constants(utf8("LineNumberTable"))
    nested = replace(numbered, methods=[method_f(empty, code_f(nested=[empty, attribute(8, bytes(3))]))]).data()
    yield "a LineNumberTable of three bytes in a Code", nested, f"refused 12 at {nested.index(attribute(8, bytes(3)))}", ["method 0", "attribute 1"]


def explained():
    """Each row: what it is, the files, and the whole text that `explain` prints."""
    without_an_option = [it for it in reasons() if it[1] == "verify"]
    for (what, _, files, _), lines in zip(without_an_option, METHODS.strip().splitlines(), strict=True):
        yield what, files, text(lines.split("|"))
    for what, command, files, line in (it for it in faults() if "--" not in it[1]):
        number = int(what.split()[-1])
        if command == "check":
            behind = [OF_NUMBER[number], *PARTS.get(number, [])]
            yield what, files, text([f"class {line}", *behind])
            yield f"{what} in a known class", [K.data(), OBJECT_CLASS, *files], text([f"known 2 {line}", *behind])
        elif line.startswith("method"):
            yield what, files, of_code(number, line)
        else:
            yield what, files, text([line, OF_NUMBER[number]])
    for what, data, line, part in faulty():
        lines = [line, OF_NUMBER[int(line.split()[1])], *part]
        yield what, [data, OBJECT_CLASS], text([f"class {lines[0]}", *lines[1:]])
        yield f"{what}, known", [K.data(), OBJECT_CLASS, data], text([f"known 2 {lines[0]}", *lines[1:]])
    yield from constants()
    yield "a method that is verified", [K.data(), OBJECT_CLASS], ""
