"""Classes with the flags of their members and the constant values of their fields, and what `classck check --release N` says of
them: JVMS 4.5, 4.6 and 4.7.2."""
from dataclasses import replace

from rows.check.release.by_version import Case
from tools.assembler import attribute, integer, long, member, u1, u2, utf8
from tools.class_k import CONSTANTS, K, code_f

INTERFACE, ABSTRACT, FINAL, ANNOTATION = 0x0601, 0x0421, 0x0031, 0x2601
EACH, OF_STRICT, OF_INTERFACES, OF_SEALED = 50, 60, 52, 61
# The versions of neighbours that differ in none of these.
FEW = (50, 61, 69)

# Flags of a field of an interface, and whether it is well formed: it is public, static and final, and may be synthetic.
# Flags that 4.5 does not assign are not looked at.
FIELDS = """
0019 ok | 1019 ok | 0039 ok | 8f39 ok
0018 24 | 0011 24 | 0009 24 | 0001 24 | 0000 24 | 1018 24
001a 24 | 001c 24 | 0099 24 | 4019 24 | 0049 24 | 0008 24 | 0010 24
"""
# Flags that no field may have together, which is told of each class.
OF_NO_FIELD = (0x001B, 0x001D, 0x0059)

# Flags of a method of an interface with code (or, if it is abstract or native, without), and the number below version 52
# and from there on.
METHODS = """
0401 ok ok | 0441 ok ok | 0481 ok ok | 1401 ok ok | f6c1 ok ok
0001 24 ok | 0009 24 ok | 0002 24 ok | 000a 24 ok | 0041 24 ok | 0081 24 ok | 0801 24 ok | 1001 24 ok | 1802 24 ok
0000 24 24 | 0008 24 24 | 0004 24 24 | 0011 24 24 | 0012 24 24 | 0021 24 24 | 0022 24 24 | 0029 24 24
0101 24 24 | 0102 24 24 | 0109 24 24 | 0400 24 24 | 0404 24 24 | 0800 24 24 | 1040 24 24
"""
# Flags that no method may have together, which is told of each class.
OF_NO_METHOD = (0x0003, 0x0005, 0x0006, 0x0402, 0x0409, 0x0411, 0x0421, 0x0501)

# Flags of `<clinit>`, of which no class but one asks for more than that it is static.
OF_CLINIT = (0x0008, 0x0009, 0x000A, 0x000B, 0x000C, 0x0018, 0x0028, 0x0108, 0x0408, 0x0808, 0x0C08, 0x0C3F, 0x1008)

# A constant value, and the types of the fields that it fits.
VALUES = {
    "Integer": (integer(1), "IZBCS"),
    "Float": (u1(4) + bytes(4), "F"),
    "Long": (long(1), "J"),
    "Double": (u1(6) + bytes(8), "D"),
    "String": (u1(8) + u2(5), ["Ljava/lang/String;"]),
}
TYPES = (*"IZBCSFJD", "Ljava/lang/String;", "Ljava/lang/Object;", "Ljava/lang/Strinh;", "[I", "[Ljava/lang/String;")


def told(number, place):
    return "ok" if number == "ok" else f"refused {number} {place}"


def cells(table):
    """The words of each cell of a table of flags, the flags as a number."""
    for cell in table.replace("\n", " | ").split("|"):
        flags, *numbers = cell.split() or ["0"]
        if numbers:
            yield int(flags, 16), numbers


def with_field(flags, *attributes, of=INTERFACE, descriptor="I"):
    """A class without methods, of these flags, with a field; the name of its attribute is at 9, and others after it."""
    return replace(K, flags=of, constants=[*CONSTANTS, utf8(descriptor), utf8("ConstantValue")], fields=[member(flags, 5, 8, *attributes)], methods=())


def with_method(flags, of=INTERFACE, name=5):
    """A class of these flags with a method, which has code if it is neither abstract nor native, or is `<clinit>`, whose
    name is at 8."""
    code = [code_f(variables=1)] if name == 8 or not flags & 0x0500 else []
    return replace(K, flags=of, constants=[*CONSTANTS, utf8("<clinit>")], methods=[member(flags, name, 6, *code)])


def fields():
    """Flags of a field of an interface, and of a class, where they may stand."""
    for flags, (number,) in cells(FIELDS):
        refused = {EACH: told(number, "field 0")}
        yield Case(f"a field {flags:04x} of an interface", with_field(flags), refused)
        yield Case(f"a field {flags:04x} of an annotation interface", with_field(flags, of=INTERFACE | ANNOTATION), refused, majors=FEW)
        yield Case(f"a field {flags:04x} of a class", with_field(flags, of=ABSTRACT), {}, majors=FEW)
    for flags in OF_NO_FIELD:
        for of in (INTERFACE, ABSTRACT):
            yield Case(f"a field {flags:04x} of {of:04x}", with_field(flags, of=of), {EACH: "refused 24 field 0"}, "refused 24 field 0", FEW)
    later = with_field(0x0019)
    later = replace(later, constants=[*later.constants, utf8("g")], fields=[*later.fields, member(0x0018, 10, 8)])
    yield Case("a second field 0018 of an interface", later, {EACH: "refused 24 field 1"})


def methods():
    """Flags of a method of an interface; of a class that is abstract they may stand, but for what is strict."""
    for flags, (older, newer) in cells(METHODS):
        lines = {EACH: told(older, "method 0"), OF_INTERFACES: told(newer, "method 0")}
        yield Case(f"a method {flags:04x} of an interface", with_method(flags), lines)
        yield Case(f"a method {flags:04x} of a class", with_method(flags, of=ABSTRACT), {}, majors=FEW)
    for flags in OF_NO_METHOD:
        for of in (INTERFACE, ABSTRACT):
            yield Case(f"a method {flags:04x} of {of:04x}", with_method(flags, of=of), {EACH: "refused 24 method 0"}, "refused 24 method 0", FEW)
    later = replace(with_method(0x0401), methods=[*with_method(0x0401).methods, member(0x0404, 7, 6)])
    yield Case("a second method 0404 of an interface", later, {EACH: "refused 24 method 1"})


def strict():
    """Methods that are abstract and strict, up to version 60, and methods that are one of both."""
    for of in (INTERFACE, ABSTRACT):
        refused = {EACH: "refused 24 method 0", OF_STRICT + 1: "ok"}
        yield Case(f"a method 0c01 of {of:04x}", with_method(0x0C01, of=of), refused)
        yield Case(f"a method 0401 of {of:04x}", with_method(0x0401, of=of), {}, majors=FEW)
    for flags in (0x0C00, 0x0C04):
        yield Case(f"a method {flags:04x} of a class", with_method(flags, of=ABSTRACT), {EACH: "refused 24 method 0", OF_STRICT + 1: "ok"})
    for flags in (0x0800, 0x0900, 0x0938):
        yield Case(f"a method {flags:04x} of a class, strict and not abstract", with_method(flags, of=ABSTRACT), {}, majors=FEW)


def initializers():
    """Class initialization methods, of which one flag counts."""
    for of in (INTERFACE, ABSTRACT):
        for flags in OF_CLINIT:
            yield Case(f"<clinit> {flags:04x} of {of:04x}", with_method(flags, of=of, name=8), {}, majors=(51, 60, 69))
        # a virtual machine takes it as static below version 51 (2.9.2)
        instance = with_method(0x0001, of=of, name=8)
        yield Case(f"<clinit> 0001 of {of:04x}", instance, {EACH: "refused 24 method 0"}, "refused 24 method 0", (50, 51, 61, 69))


def values():
    """A constant value of each kind, of fields of each type: one that is not static may have any."""
    for kind, (value, fitting) in VALUES.items():
        for descriptor in TYPES:
            for flags, of in ((0x0019, INTERFACE), (0x0008, ABSTRACT), (0x0010, ABSTRACT)):
                file = with_field(flags, attribute(9, u2(10)), of=of, descriptor=descriptor)
                file = replace(file, constants=[*file.constants, value])
                is_sound = descriptor in fitting or not flags & 0x0008
                yield Case(f"a field {flags:04x} {descriptor} with {kind}", file, {} if is_sound else {EACH: "refused 21 field 0"}, majors=(61,))


def sealed():
    """Classes that are final or list those that may extend them."""
    for flags, number in ((FINAL, 24), (0x0021, "ok"), (ABSTRACT, "ok"), (INTERFACE, "ok")):
        for count in (0, 1, 2):
            permitted = attribute(8, u2(count) + u2(1) * count)
            file = replace(K, flags=flags, constants=[*CONSTANTS, utf8("PermittedSubclasses")], methods=(), attributes=[permitted])
            yield Case(f"a class {flags:04x} that permits {count}", file, {OF_SEALED: told(number, "class")})
    elsewhere = with_field(0x0019, attribute(9, u2(0)), of=FINAL)
    elsewhere = replace(elsewhere, constants=[*elsewhere.constants[:-1], utf8("PermittedSubclasses")])
    yield Case("a final class with a field that permits none", elsewhere, {})


def older():
    """Interfaces without ACC_ABSTRACT, which below version 50 virtual machines set, and strict methods of the oldest versions."""
    for flags in (0x0200, 0x0201):
        interface = replace(K, flags=flags, methods=())
        yield Case(f"an interface {flags:04x}", interface, {EACH: "refused 24 class"}, "refused 24 class", (45, 49, 50, 51, 61, 69))
    yield Case("a method 0c01 of a class", with_method(0x0C01, of=ABSTRACT), {46: "refused 24 method 0", OF_STRICT + 1: "ok"}, majors=(45, 46, 49))
    yield Case("a method 0001 of an interface", with_method(0x0001), {45: "refused 24 method 0"}, majors=(45, 49))


def members():
    """Each case."""
    for table in (fields, methods, strict, initializers, values, sealed, older):
        yield from table()
