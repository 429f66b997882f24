"""Classes that break two rules, at one place and at two, and what `classck check --release N` says of them: the first place
counts, in the order of constant pool, class, fields and methods; there a rule of every class goes before one of a release,
and then the least number counts."""
from dataclasses import replace

from rows.check.release.by_version import Case
from tools.assembler import attribute, class_info, integer, listed, long, member, name_and_type, reference, u1, u2, utf8
from tools.class_k import CONSTANTS, K, code_f

INTERFACE, FINAL = 0x0601, 0x0031
FEW = (61, 65, 69)
# The constants behind those of K, by the words that stand for their indices.
TEXTS = ("I", "ConstantValue", "RuntimeVisibleAnnotations", "Signature", "PermittedSubclasses", "g", "NestHost", "NestMembers", "a<b", "<clinit>")
INDEX = {it: 8 + place for place, it in enumerate(TEXTS)}
LONG = 8 + len(TEXTS)
BEHIND = LONG + 2

ANNOTATIONS = attribute(INDEX["RuntimeVisibleAnnotations"], u2(0))
SIGNATURE = attribute(INDEX["Signature"], u2(INDEX["I"]))
VALUE, NO_VALUE = (attribute(INDEX["ConstantValue"], u2(it)) for it in (LONG, INDEX["I"]))
PERMITTED = attribute(INDEX["PermittedSubclasses"], listed([u2(1)]))
HOST, MEMBERS = attribute(INDEX["NestHost"], u2(1)), attribute(INDEX["NestMembers"], listed([u2(1)]))

# A field of an interface: its flags and attributes, and the number with --release and without.
FIELDS = (
    # rules of a release: 21, 24, 30
    ("wrong value, flags and annotations twice", 0x0008, [VALUE, ANNOTATIONS, ANNOTATIONS], 21, None),
    ("wrong value and flags", 0x0008, [VALUE], 21, None),
    ("wrong value and annotations twice", 0x0019, [ANNOTATIONS, VALUE, ANNOTATIONS], 21, None),
    ("wrong flags and annotations twice", 0x0009, [ANNOTATIONS, ANNOTATIONS], 24, None),
    # each beside a rule of every class
    ("no value beside wrong flags", 0x0008, [NO_VALUE], 21, 21),
    ("no value and another type's, twice", 0x0019, [VALUE, NO_VALUE], 21, 21),
    ("two signatures beside a wrong value", 0x0019, [SIGNATURE, VALUE, SIGNATURE], 30, 30),
    ("two signatures beside wrong flags", 0x0008, [SIGNATURE, SIGNATURE], 30, 30),
    ("two wrong values", 0x0019, [VALUE, VALUE], 30, 30),
    ("two accesses beside a wrong value", 0x001B, [VALUE], 24, 24),
    ("two accesses beside annotations twice", 0x001B, [ANNOTATIONS, ANNOTATIONS], 24, 24),
)
# A method of an interface in the same way.
METHODS = (
    ("wrong flags and annotations twice", 0x0400, [ANNOTATIONS, ANNOTATIONS], 24, None),
    ("two signatures beside wrong flags", 0x0400, [SIGNATURE, SIGNATURE], 30, 30),
    ("code that is not allowed beside wrong flags", 0x0400, [code_f()], 27, 27),
    ("no code beside wrong flags", 0x0004, [], 26, 26),
    ("no code beside annotations twice", 0x0001, [ANNOTATIONS, ANNOTATIONS], 26, 26),
    ("two accesses beside annotations twice", 0x0403, [ANNOTATIONS, ANNOTATIONS], 24, 24),
)


def class_of(flags, more=(), **parts):
    """A class of these flags without methods, with other parts; more constants follow the others, from BEHIND on."""
    constants = [*CONSTANTS, *map(utf8, TEXTS), long(0), *more]
    return replace(K, constants=constants, flags=flags, methods=parts.pop("methods", ()), **parts)


def line(number, place):
    return f"refused {number} {place}" if number else "ok"


def at_one_member():
    """A field or a method that breaks several rules."""
    for what, flags, given, number, plain in FIELDS:
        file = class_of(INTERFACE, fields=[member(flags, 5, INDEX["I"], *given)])
        yield Case(f"a field with {what}", file, {50: line(number, "field 0")}, line(plain, "field 0"), FEW)
    for what, flags, given, number, plain in METHODS:
        file = class_of(INTERFACE, methods=[member(flags, 5, 6, *given)])
        yield Case(f"a method with {what}", file, {50: line(number, "method 0")}, line(plain, "method 0"), FEW)


def at_the_class():
    """A class that breaks several rules itself."""
    for what, given, parts, number, plain in (
        ("final and sealed, of two nests", [PERMITTED, HOST, MEMBERS], {}, 24, None),
        ("final and sealed, with annotations twice", [ANNOTATIONS, PERMITTED, ANNOTATIONS], {}, 24, None),
        ("final and sealed, without a superclass", [PERMITTED], {"super_class": 0}, 28, 28),
        ("final and sealed, with two signatures", [SIGNATURE, SIGNATURE, PERMITTED], {}, 30, 30),
        ("of two nests, without a superclass", [HOST, MEMBERS], {"super_class": 0}, 28, 28),
        ("final and sealed twice", [PERMITTED, PERMITTED], {}, 30, 30),
    ):
        yield Case(f"a class that is {what}", class_of(FINAL, attributes=given, **parts), {50: line(number, "class")}, line(plain, "class"), FEW)


def in_the_pool():
    """Constants at fault by a rule of a release, and others by one of every class, behind them and in front."""
    handle, misnamed = u1(15) + u1(1) + u2(BEHIND + 1), name_and_type(INDEX["a<b"], 6)
    wrong, method = class_info(BEHIND), reference(10, 1, BEHIND + 2)
    for what, more, number, place, plain in (
        ("a handle, and behind it a class that is no name", [handle, method, name_and_type(5, 6), wrong], 21, 0, 3),
        ("a handle, and in front of it a class that is no name", [class_info(LONG), reference(10, 1, BEHIND + 2), name_and_type(5, 6), handle], 21, 0, 0),
        ("a handle, and behind it a method of another name", [handle, method, misnamed], 21, 0, None),
        ("a method of another name, and behind it a handle", [misnamed, integer(0), u1(15) + u1(1) + u2(BEHIND)], 22, 0, 2),
        ("a handle of the next constant, which is none it may lead to", [handle, integer(0)], 21, 0, 0),
        ("a handle of no constant", [u1(15) + u1(5) + u2(LONG + 1)], 20, 0, 0),
    ):
        told = "ok" if plain is None else f"refused 21 pool {BEHIND + plain}" if number != 20 else f"refused 20 pool {BEHIND}"
        yield Case(what, class_of(FINAL, more), {50: f"refused {number} pool {BEHIND + place}"}, told, FEW)


def at_two_places():
    """A rule of a release at one place, and one of either kind at a later one."""
    misnamed = name_and_type(INDEX["a<b"], 6)
    field, accesses = member(0x0008, 5, INDEX["I"]), member(0x001B, INDEX["g"], INDEX["I"])
    sound, method, named = member(0x0019, 5, INDEX["I"]), member(0x0400, 5, 6), member(0x0403, INDEX["g"], 6)
    for what, file, release, plain in (
        ("the pool and the class", class_of(FINAL, [misnamed], attributes=[PERMITTED]), f"22 pool {BEHIND}", None),
        ("the pool, and the class by a rule of each", class_of(FINAL, [misnamed], super_class=0), f"22 pool {BEHIND}", "28 class"),
        ("the class and a field", class_of(INTERFACE, attributes=[HOST, MEMBERS], fields=[field]), "30 class", None),
        ("the class, and a field by a rule of each", class_of(INTERFACE, attributes=[HOST, MEMBERS], fields=[accesses]), "30 class", "24 field 0"),
        ("a field, and the class by a rule of each", class_of(INTERFACE, fields=[field], super_class=0), "28 class", "28 class"),
        ("a field, and the next by a rule of each", class_of(INTERFACE, fields=[field, accesses]), "24 field 0", "24 field 1"),
        ("a field by a rule of each, and the next", class_of(INTERFACE, fields=[accesses, field]), "24 field 0", "24 field 0"),
        ("a field, which stands twice", class_of(INTERFACE, fields=[field, field]), "24 field 0", "25 field 1"),
        ("a field that stands twice", class_of(INTERFACE, fields=[sound, sound]), "25 field 1", "25 field 1"),
        ("a field and a method", class_of(INTERFACE, fields=[field], methods=[method]), "24 field 0", None),
        ("a field, and a method by a rule of each", class_of(INTERFACE, fields=[field], methods=[named]), "24 field 0", "24 method 0"),
        ("a method, and the next by a rule of each", class_of(INTERFACE, methods=[method, named]), "24 method 0", "24 method 1"),
        ("a method, which stands twice", class_of(INTERFACE, methods=[method, method]), "24 method 0", "25 method 1"),
    ):
        yield Case(f"faults of {what}", file, {50: f"refused {release}"}, f"refused {plain}" if plain else "ok", FEW)


def order():
    """Each case."""
    for table in (at_one_member, at_the_class, in_the_pool, at_two_places):
        yield from table()
