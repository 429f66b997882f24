"""Versions of class files, as `--release N` takes them of Java SE N: those of known classes from 45 on, those of classes that are judged from 50 on, up to
N + 44 (JVMS 4.1, table 4.1-A)."""
import itertools
from dataclasses import replace

from rows.verify.reasons import faults_of_release, reasons
from tools.assembler import member, name_and_type, named, reference, utf8
from tools.class_k import BYTES, PLAIN_OBJECT, with_constants

RELEASES = (7, 17, 21, 25, 27)
MAJORS = (44, 45, 49, 50, 51, 52, 55, 56, 61, 62, 65, 66, 69, 70, 71, 72)
# A class that each of the releases judges.
OLDEST = 51
# From 8 on: a MethodHandle of a field, the Fieldref of it, its NameAndType, and its descriptor.
HANDLE = (bytes((15, 1, 0, 9)), reference(9, 1, 10), name_and_type(5, 11), utf8("I"))
VERSION = "BadVersion: the release takes no class of this version here"
KIND = "WrongKind: an index leads to another kind of constant than it should, or a constant stands in a class of a version that has none of its kind"

# Of the example of a method that a release alone refuses, what is said of it.
INDIRECT = """86 NotDirectInterface: invokespecial calls a method of an interface that is neither the class itself nor one of its direct superinterfaces
  stack 1 locals 0
  1 invokespecial #13
  constant 13 InterfaceMethodref #9 #12 I f ()V
  locals
  stack null"""
CLASS_K = "class K major 52 minor 0 flags 0021\n  super java/lang/Object"
# Of each example of docs/REFUSALS.md that a release alone refuses: what is said of it, and the part at fault.
EXPLAINED = {
    21: (KIND, "constant 8 MethodHandle 1 #9"),
    22: ("BadName: a name is not of its form, or is none that may stand there", "constant 8 NameAndType #9 #6 < ()V"),
    24: ("BadFlags: access flags stand together that may not, or one stands without another that it needs", "method 000c f ()V"),
    25: ("Twice: an earlier field or method has this name and descriptor, or an interface is listed twice", CLASS_K),
    30: ("AttributeTwice: two attributes stand of a kind of which there may be one", CLASS_K),
    87: ("BadDebugTable: a row of a debug table passes the code or the local variables, is not of its form, or stands twice", "method 0009 f ()V"),
    90: (
        "BadBootstrap: the class has no bootstrap method for the constant, or one whose handle or arguments may not be used",
        "constant 8 InvokeDynamic 0 #9 f ()V",
    ),
}


def of_version(data, major, minor=0):
    """A class file in another version."""
    return data[:4] + minor.to_bytes(2, "big") + major.to_bytes(2, "big") + data[8:]


def by_major(number, major):
    """What is asked of a class of this version as Java SE of this number, and each answer."""
    is_read, is_judged = 45 <= major <= number + 44, 50 <= major <= number + 44
    refused, known = f"refused 11 {major}.0", [of_version(BYTES, OLDEST), of_version(PLAIN_OBJECT, major)]
    judged = [of_version(BYTES, major), of_version(PLAIN_OBJECT, OLDEST)]
    yield f"check --release {number}", judged[:1], "ok" if is_read else refused
    yield f"verify --release {number}", judged, "method f ()V verified" if is_judged else f"class {refused}"
    yield f"play --release {number}", judged, "play verified" if is_judged else f"class 1 {refused}"
    yield f"verify --release {number}", known, "method f ()V verified" if is_read else f"known 1 {refused}"


def releases():
    """A name for each row, the command, the class and the known ones, and the line that is printed."""
    for number, major in itertools.product(RELEASES, MAJORS):
        for command, files, line in by_major(number, major):
            yield f"a class of version {major} in {command}, as {'the known one' if files[0][7] == OLDEST != major else 'the judged one'}", command, files, line
    for major, minor, line in ((50, 3, "ok"), (55, 9, "ok"), (56, 1, "refused 11 56.1"), (65, 65535, "refused 11 65.65535")):
        yield f"K of version {major}.{minor}", "check --release 21", [of_version(BYTES, major, minor)], line
    yield from explained()
    yield from unformed()


def unformed():
    """An interface whose field is not public, which a release alone refuses, in each command."""
    plain = named("B", flags=0x0601)
    files = [replace(plain, constants=[*plain.constants, utf8("I")], fields=[member(0x0018, 2, 5)], major=it).data() for it in (OLDEST, 49)]
    what, refused = "an interface with a field that is not public", "refused 24 field 0"
    yield what, "verify --release 17", [files[0], PLAIN_OBJECT], f"class {refused}"
    yield what, "verify --release 7", [files[0], PLAIN_OBJECT], f"class {refused}"
    yield what, "show --release 25", files[:1], refused
    yield what, "play --release 17", [of_version(BYTES, OLDEST), files[0], PLAIN_OBJECT], f"class 2 {refused}"
    yield what, "play --dynamic", [of_version(BYTES, OLDEST), files[0], PLAIN_OBJECT], "play verified"
    for number, known in enumerate(files):
        yield f"K beside {what}, {number}", "verify --release 17", [BYTES, PLAIN_OBJECT, known], f"known 2 {refused}"
    yield f"K beside {what}", "verify --dynamic", [BYTES, PLAIN_OBJECT, files[0]], "method f ()V verified"


def explained():
    """What is said of a version that a release does not take, and of a constant that a version does not have."""
    newer, handle = of_version(BYTES, 66), of_version(with_constants(*HANDLE).data(), 50)
    yield "K of version 66, explained", "explain --release 21", [newer], f"class refused 11 66.0\n  11 {VERSION}"
    for what, command, files, line in faults_of_release():
        if command != "check":
            number = int(line.split()[1])
            sentence, part = EXPLAINED[number]
            yield what, "explain --release 21", [*files, PLAIN_OBJECT], f"class {line}\n  {number} {sentence}\n  {part}"
    for what, command, files, line in reasons():
        if " refused 86 " in line:
            yield what, command.replace("verify", "explain"), files, f"{line}\n  {INDIRECT}"
    yield "K of version 50 with a MethodHandle", "explain --release 21", [handle, PLAIN_OBJECT], f"class refused 21 pool 8\n  21 {KIND}\n  constant 8 MethodHandle 1 #9"
