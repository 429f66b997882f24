"""Method handles of each kind, and names of methods in a NameAndType: what `classck check --release N` says of classes that
have them (JVMS 4.4.6, 4.4.8)."""
from dataclasses import replace

from rows.check.release.by_version import Case
from tools.assembler import class_info, name_and_type, reference, u1, u2, utf8
from tools.class_k import CONSTANTS, K

NONE_IN_50 = "refused 21 pool 8"
# The kinds of method handles that lead to a Fieldref (9), to a Methodref (10), and to an InterfaceMethodref (11); two of the
# last from version 52 on.
KINDS = {9: (1, 2, 3, 4), 10: (5, 6, 7, 8), 11: (9,)}
OF_INTERFACES = (6, 7)
# A name of a method or field and its descriptor, as methods have them if no other stands here, and the line of its NameAndType.
NAMES = """
f ()V ok | f I ok | <init> ()V ok | <init> (I)V ok | <init> I ok | <clinit> I ok | <x> I ok | > Z ok | a<b [I ok | <init ()V 22 | <init>> ()V 22
<clinit> ()V 22 | <clinit> (I)I 22 | <x> ()V 22 | < ()V 22 | > ()V 22 | a<b ()V 22 | a>b (IJ)LA; 22 | f< ()V 22
"""
# Names that no member has, which is told of each class.
OF_NO_MEMBER = ("a.b", "a;b", "a[b", "a/b")


def with_handle(kind, tag, name="f", descriptor="()V"):
    """K with a method handle of this kind at 8, which leads to a constant of this tag at 9."""
    constants = [u1(15) + u1(kind) + u2(9), reference(tag, 1, 10), name_and_type(11, 12), utf8(name), utf8(descriptor)]
    return replace(K, constants=[*CONSTANTS, *constants])


def fits(kind, tag, major):
    return kind in KINDS[tag] or tag == 11 and kind in OF_INTERFACES and major >= 52


def kinds():
    """A method handle of each kind that leads to a constant of each kind."""
    for kind in range(1, 10):
        for tag, what in ((9, "a Fieldref"), (10, "a Methodref"), (11, "an InterfaceMethodref")):
            name, descriptor = ("x", "I") if tag == 9 else ("<init>" if kind == 8 and tag == 10 else "f", "()V")
            lines = {it: "ok" if fits(kind, tag, it) else "refused 21 pool 8" for it in (51, 52)}
            yield Case(f"a method handle of kind {kind} that leads to {what}", with_handle(kind, tag, name, descriptor), {50: NONE_IN_50, **lines})


def creations():
    """Method handles that lead to `<init>`, and one of kind 8 that leads to another method."""
    for kind in range(5, 9):
        number = "ok" if kind == 8 else "refused 22 pool 8"
        yield Case(f"a method handle of kind {kind} that leads to <init>", with_handle(kind, 10, "<init>"), {50: NONE_IN_50, 51: number})
        number = "ok" if kind != 8 else "refused 22 pool 8"
        yield Case(f"a method handle of kind {kind} that leads to f", with_handle(kind, 10), {50: NONE_IN_50, 51: number})
    # 21 goes before 22: a constant of another kind, named `<init>`
    yield Case("a method handle of kind 1 that leads to <init>", with_handle(1, 10, "<init>"), {50: NONE_IN_50, 51: "refused 21 pool 8"})
    yield Case("a method handle of kind 9 that leads to <init>", with_handle(9, 10, "<init>"), {50: NONE_IN_50, 51: "refused 21 pool 8"})
    yield Case("a method handle of kind 8 that leads to a field <init>", with_handle(8, 9, "<init>", "I"), {50: NONE_IN_50, 51: "refused 21 pool 8"})
    yield Case("a method handle of kind 2 that leads to a field <init>", with_handle(2, 9, "<init>", "I"), {50: NONE_IN_50, 51: "ok"})
    # an InterfaceMethodref has another name in each class
    of_interface = with_handle(9, 11, "<init>")
    yield Case("a method handle of kind 9 that leads to <init> of an interface", of_interface, {50: NONE_IN_50, 51: "refused 22 pool 8"}, "refused 22 pool 9")


def names():
    """Names in a NameAndType that nothing uses, with descriptors of methods and fields."""
    for cell in NAMES.replace("\n", " | ").split(" | "):
        if not cell.strip():
            continue
        name, descriptor, number = cell.split()
        file = replace(K, constants=[*CONSTANTS, name_and_type(9, 10), utf8(name), utf8(descriptor)])
        yield Case(f"a NameAndType {name} {descriptor}", file, {} if number == "ok" else {50: "refused 22 pool 8"})
    for name in OF_NO_MEMBER:
        file = replace(K, constants=[*CONSTANTS, name_and_type(9, 10), utf8(name), utf8("()V")])
        yield Case(f"a NameAndType {name} ()V", file, {50: "refused 22 pool 8"}, "refused 22 pool 8")


def named():
    """References to a method of another name, behind and in front of their NameAndType."""
    for name, line in (("a<b", "refused 22 pool 8"), ("<x>", "refused 22 pool 8"), ("<clinit>", "refused 22 pool 8"), ("f", "ok"), ("<init>", "ok")):
        is_told = name.startswith("<") and name != "<init>"
        file = replace(K, constants=[*CONSTANTS, name_and_type(9, 6), utf8(name), reference(10, 1, 8)])
        yield Case(f"a Methodref {name} behind its NameAndType", file, {50: line}, "refused 22 pool 10" if is_told else "ok")
        file = replace(K, constants=[*CONSTANTS, reference(10, 1, 10), utf8(name), name_and_type(9, 6)])
        after = line.replace("8", "8" if is_told else "10")
        yield Case(f"a Methodref {name} in front of its NameAndType", file, {50: after}, "refused 22 pool 8" if is_told else "ok")
    array = replace(K, constants=[*CONSTANTS, reference(10, 9, 11), class_info(10), utf8("[I"), name_and_type(12, 6), utf8("clone")])
    yield Case("a Methodref of an array", array, {})


def constants():
    """Each case."""
    for table in (kinds, creations, names, named):
        yield from table()
