"""Constants that ask for a bootstrap method, and BootstrapMethods attributes as a whole: what `classck check --release N` says
of classes that have them (JVMS 4.4.10, 4.7.23)."""
from dataclasses import replace

from rows.check.release.by_version import Case
from tools.assembler import attribute, bootstrap_method, integer, listed, long, name_and_type, reference, u1, u2, utf8
from tools.class_k import CONSTANTS, K

MAJORS = (50, 51, 54, 55, 61, 65, 69)
TEXTS = ("BootstrapMethods", "I")
NAME, INT, HANDLE, METHOD, FIELD_TYPE, METHOD_TYPE, LONG, KINDS = 8, 9, 10, 11, 12, 13, 14, 16
# From KINDS on: what may be a static argument, and from DYNAMIC on a constant of each kind that asks for a bootstrap method.
LOADABLE = (integer(1), u1(4) + bytes(4), u1(8) + u2(5), u1(16) + u2(6))
DYNAMIC = KINDS + len(LOADABLE)
# It has two indices, of which the second is none.
NO_CONSTANT = LONG + 1
OF_HANDLES, OF_DYNAMIC = 51, 55


def class_of(*more, given=(), name=TEXTS[0]):
    """K with these constants from DYNAMIC on, and attributes of the class."""
    method = [u1(15) + u1(6) + u2(METHOD), reference(10, 1, METHOD_TYPE)]
    constants = [*CONSTANTS, utf8(name), utf8("I"), *method, name_and_type(5, INT), name_and_type(5, 6), long(0), *LOADABLE, *more]
    return replace(K, constants=constants, attributes=given)


def bootstraps(*entries, behind=b""):
    """The attribute with these entries, and bytes behind them."""
    return attribute(NAME, listed(entries) + behind)


def site(number):
    return reference(18, number, METHOD_TYPE)


def computed(number):
    return reference(17, number, FIELD_TYPE)


SOUND = bootstrap_method(HANDLE)
# The attribute, and whether it has a bootstrap method 0 and is sound as a whole.
ATTRIBUTES = {
    "an entry": (bootstraps(SOUND), True, True),
    "two entries": (bootstraps(SOUND, SOUND), True, True),
    "an entry with arguments": (bootstraps(bootstrap_method(HANDLE, range(KINDS, KINDS + len(LOADABLE)))), True, True),
    "an entry with a Class and a handle": (bootstraps(bootstrap_method(HANDLE, (1, HANDLE, LONG))), True, True),
    "no entry": (bootstraps(), False, True),
    "an entry and a byte": (bootstraps(SOUND, behind=b"\0"), False, False),
    "no bytes": (attribute(NAME, b""), False, False),
    "a byte": (attribute(NAME, b"\0"), False, False),
    "a count": (attribute(NAME, b"\0\1"), False, False),
    "half an entry": (attribute(NAME, b"\0\1" + SOUND[:3]), False, False),
    "an entry of two": (attribute(NAME, b"\0\2" + SOUND), False, False),
    "an entry without its argument": (attribute(NAME, b"\0\1" + u2(HANDLE) + u2(1)), False, False),
    "an entry of another kind": (bootstraps(bootstrap_method(1)), False, False),
    "an entry of a method": (bootstraps(bootstrap_method(METHOD)), False, False),
    "an entry of index 0": (bootstraps(bootstrap_method(0)), False, False),
    "an entry past the pool": (bootstraps(bootstrap_method(999)), False, False),
    "an entry of a Long's second index": (bootstraps(bootstrap_method(NO_CONSTANT)), False, False),
    "an argument of index 0": (bootstraps(bootstrap_method(HANDLE, [0])), False, False),
    "an argument past the pool": (bootstraps(bootstrap_method(HANDLE, [999])), False, False),
    "an argument that is a Long's second index": (bootstraps(bootstrap_method(HANDLE, [NO_CONSTANT])), False, False),
    "an argument that is a text": (bootstraps(bootstrap_method(HANDLE, [5])), False, False),
    "an argument that is a method": (bootstraps(bootstrap_method(HANDLE, [METHOD])), False, False),
    "an argument that is a name and type": (bootstraps(bootstrap_method(HANDLE, [METHOD_TYPE])), False, False),
    "a second argument that is a text": (bootstraps(bootstrap_method(HANDLE, [1, 5])), False, False),
    "a second entry of another kind": (bootstraps(SOUND, bootstrap_method(1)), True, False),
    "a second entry with a text": (bootstraps(SOUND, bootstrap_method(HANDLE, [5])), True, False),
}  # fmt: skip
# A method handle stands in classes from version 51 on, and a Dynamic from 55 on.
NO_HANDLE = f"refused 21 pool {HANDLE}"


def whole():
    """The attribute beside no constant that asks for it."""
    for what, (given, _, is_sound) in ATTRIBUTES.items():
        lines = {50: NO_HANDLE, OF_HANDLES: "ok" if is_sound else "refused 90 class"}
        yield Case(f"BootstrapMethods of {what}", class_of(given=[given]), lines, majors=MAJORS)


def asked():
    """A constant that asks for the bootstrap method 0 of the attribute, which no instruction uses."""
    for what, (given, has_first, is_sound) in ATTRIBUTES.items():
        number = f"90 pool {DYNAMIC}" if not has_first else None if is_sound else "90 class"
        told = f"refused {number}" if number else "ok"
        lines = {50: NO_HANDLE, OF_HANDLES: told}
        yield Case(f"an InvokeDynamic beside BootstrapMethods of {what}", class_of(site(0), given=[given]), lines, majors=MAJORS)
        lines = {50: NO_HANDLE, OF_HANDLES: f"refused 21 pool {DYNAMIC}", OF_DYNAMIC: told}
        yield Case(f"a Dynamic beside BootstrapMethods of {what}", class_of(computed(0), given=[given]), lines, majors=(55, 61, 69))


def numbers():
    """Constants that ask for bootstrap methods of other numbers, or of none."""
    two = bootstraps(SOUND, SOUND)
    for number, is_there in ((0, True), (1, True), (2, False), (65535, False)):
        for what, constant in (("an InvokeDynamic", site(number)), ("a Dynamic", computed(number))):
            told = "ok" if is_there else f"refused 90 pool {DYNAMIC}"
            yield Case(f"{what} {number} of two", class_of(constant, given=[two]), {50: NO_HANDLE, 51: told}, majors=(55, 61, 69))
            yield Case(f"{what} {number} of none", class_of(constant), {50: NO_HANDLE, 51: f"refused 90 pool {DYNAMIC}"}, majors=(55, 61, 69))
    yield Case("a second InvokeDynamic 2 of two", class_of(site(1), site(2), given=[two]), {50: NO_HANDLE, 51: f"refused 90 pool {DYNAMIC + 1}"})
    argument = bootstraps(bootstrap_method(HANDLE, [DYNAMIC]))
    yield Case("an argument that is a Dynamic", class_of(computed(0), given=[argument]), {50: NO_HANDLE, 51: "ok"}, majors=(55, 61, 69))
    yield Case("an argument that is an InvokeDynamic", class_of(site(0), given=[argument]), {50: NO_HANDLE, 51: f"refused 90 pool {DYNAMIC}"})
    yield Case("BootstrapMethods of another name", class_of(given=[attribute(NAME, b"\0")], name="Bootstrapmethods"), {50: NO_HANDLE, 51: "ok"})
    elsewhere = class_of(site(0), name="BootstrapMethods")
    yield Case("BootstrapMethods of a field", elsewhere, {50: NO_HANDLE, 51: f"refused 90 pool {DYNAMIC}"}, majors=(51, 61, 69))


def older():
    """The attribute in version 50, which has no method handles: it is not read."""
    for body in (b"", b"\0", b"\0\0", b"\0\1\0\1\0\0"):
        file = replace(K, constants=[*CONSTANTS, utf8("BootstrapMethods")], attributes=[attribute(8, body)])
        yield Case(f"BootstrapMethods {body.hex()} without handles", file, {51: "ok" if body == b"\0\0" else "refused 90 class"})


def order():
    """Another rule beside it: the least number counts, and the first place."""
    entry, bad = bootstraps(SOUND), bootstraps(bootstrap_method(1))
    refused = {50: NO_HANDLE, 51: f"refused 90 pool {DYNAMIC}"}
    yield Case("an InvokeDynamic beside two attributes", class_of(site(0), given=[entry, entry]), refused)
    yield Case("two attributes of which one is not sound", class_of(given=[entry, bad]), {50: NO_HANDLE, 51: "refused 30 class"})
    yield Case("one that is not sound, without a superclass", replace(class_of(given=[bad]), super_class=0), {50: NO_HANDLE, 51: "refused 28 class"}, "refused 28 class")
    no_type = reference(18, 5, 5)
    yield Case("an InvokeDynamic of no type and no entry", class_of(no_type), {50: NO_HANDLE, 51: f"refused 21 pool {DYNAMIC}"}, f"refused 21 pool {DYNAMIC}")


def bootstraps_of_classes():
    """Each case."""
    for table in (whole, asked, numbers, older, order):
        yield from table()
