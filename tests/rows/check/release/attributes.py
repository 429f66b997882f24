"""Attributes of which a table may have one, twice and elsewhere, and what `classck check --release N` says of classes that
have them: JVMS 4.7.6 to 4.7.30."""
from dataclasses import replace

from rows.check.release.by_version import Case
from tools.assembler import attribute, listed, member, u2, utf8
from tools.class_k import CONSTANTS, K, code_f, method_f

# The index of the attribute's name; after it stand the same text, `I` at 10, the name of Record at 11, and another name.
NAME, AGAIN, RECORD, OTHER = 8, 9, 11, 12
PLACES = {"class": "class", "field": "field 0", "method": "method 0", "code": "method 0", "component": "class"}
# Read from the standard and not from the program: the attribute, the tables of which each may have one, the first version
# that has it, and a body.
TABLE = """
EnclosingMethod                      class                        49 00010000
SourceDebugExtension                 class                        49 534d4150
BootstrapMethods                     class                        51 0000
RuntimeVisibleAnnotations            class,field,method,component 49 0000
RuntimeInvisibleAnnotations          class,field,method,component 49 0000
RuntimeVisibleParameterAnnotations   method                       49 00
RuntimeInvisibleParameterAnnotations method                       49 00
AnnotationDefault                    method                       49 73000a
MethodParameters                     method                       52 00
RuntimeVisibleTypeAnnotations   class,field,method,code,component 52 0000
RuntimeInvisibleTypeAnnotations class,field,method,code,component 52 0000
"""
# Record is read from this version on.
OF_RECORDS, OF_NESTS = 60, 55
NESTS = {"NestHost": "0001", "NestMembers": "00010001"}
BODIES = {"EnclosingMethods": "00010000", "RuntimeVisibleAnnotation": "0000", "LineNumberTable": "0000", "Custom": "00"}


def rows():
    for line in TABLE.strip().splitlines():
        name, places, major, body = line.split()
        yield name, places.split(","), int(major), bytes.fromhex(body)


def with_attributes(name, other, *given):
    """K with a field and a component of a record, and these attributes, each after the table that it stands in; the names of
    the attributes are at 8, 9 and 12."""
    own = {it: [body for place, body in given if place == it] for it in PLACES}
    record = attribute(RECORD, listed([u2(5) + u2(10) + listed(own["component"])]))
    return replace(
        K,
        constants=[*CONSTANTS, utf8(name), utf8(name), utf8("I"), utf8("Record"), utf8(other)],
        flags=0x0031,
        fields=[member(0, 5, 10, *own["field"])],
        methods=[method_f(code_f(nested=own["code"]), *own["method"])],
        attributes=[*own["class"], *([record] if own["component"] else [])],
    )


def first_of(place, major):
    """The version from which on an attribute is looked at in a table."""
    return max(major, OF_RECORDS) if place == "component" else major


def twice():
    """Each attribute once, twice, and by another index of its name, in each of its tables."""
    for name, places, major, body in rows():
        for place in places:
            refused = {first_of(place, major): f"refused 30 {PLACES[place]}"}
            once, again = (place, attribute(NAME, body)), (place, attribute(AGAIN, body))
            yield Case(f"{name} in a {place}", with_attributes(name, "Other", once), {}, majors=(50, 52, 61, 69))
            yield Case(f"{name} twice in a {place}", with_attributes(name, "Other", once, once), refused)
            yield Case(f"{name} twice in a {place}, by two names", with_attributes(name, "Other", once, again), refused, majors=(52, 69))
            between = (place, attribute(OTHER, b""))
            yield Case(f"{name} twice in a {place}, around another", with_attributes(name, "Other", once, between, once), refused, majors=(61,))
            yield Case(f"{name} of no bytes twice in a {place}", with_attributes(name, "Other", (place, attribute(NAME, b"")), once), refused, majors=(61,))


def apart():
    """One in each of two tables, or twice where the attribute says nothing."""
    for name, places, _, body in rows():
        each = [(it, attribute(NAME, body)) for it in places]
        yield Case(f"{name} in a {', a '.join(places)}", with_attributes(name, "Other", *each), {}, majors=(52, 69))
        for place in sorted({*PLACES} - {*places}):
            there = (place, attribute(NAME, body))
            yield Case(f"{name} twice in a {place}, where it says nothing", with_attributes(name, "Other", there, there), {}, majors=(52, 69))


def others():
    """Attributes of two names in one table, and twice those of which there may be more."""
    for one, other, place in (
        ("RuntimeVisibleAnnotations", "RuntimeInvisibleAnnotations", "class"),
        ("RuntimeVisibleAnnotations", "RuntimeVisibleTypeAnnotations", "field"),
        ("RuntimeVisibleTypeAnnotations", "RuntimeInvisibleTypeAnnotations", "code"),
    ):
        both = (place, attribute(NAME, u2(0))), (place, attribute(OTHER, u2(0)))
        yield Case(f"{one} and {other} in a {place}", with_attributes(one, other, *both), {}, majors=(52, 69))
    for name, body in BODIES.items():
        for place in ("class", "code") if name == "LineNumberTable" else ("class",):
            there = (place, attribute(NAME, bytes.fromhex(body)))
            yield Case(f"{name} twice in a {place}", with_attributes(name, "Other", there, there), {}, majors=(52, 69))
    yield from later()


def later():
    """The second field, method or component at fault."""
    name, body = "RuntimeVisibleAnnotations", attribute(NAME, u2(0))
    file = with_attributes(name, "g", ("field", body), ("method", body), ("component", body))
    yield Case("a second field with annotations twice", replace(file, fields=[*file.fields, member(0, OTHER, 10, body, body)]), {50: "refused 30 field 1"})
    second = member(0x0009, OTHER, 6, code_f(), body, body)
    yield Case("a second method with annotations twice", replace(file, methods=[*file.methods, second]), {50: "refused 30 method 1"})
    types = with_attributes("RuntimeVisibleTypeAnnotations", "g", ("code", body))
    second = member(0x0009, OTHER, 6, code_f(nested=[body, body]))
    yield Case("the code of a second method with annotations of types twice", replace(types, methods=[*types.methods, second]), {52: "refused 30 method 1"})
    second = member(0x0009, OTHER, 6, code_f(nested=[body]))
    yield Case("annotations of types once in the code of each method", replace(types, methods=[*types.methods, second]), {})
    component = u2(5) + u2(10) + listed([body])
    for what, more, lines in (("twice", [body, body], {OF_RECORDS: "refused 30 class"}), ("once", [body], {})):
        record = attribute(RECORD, listed([component, u2(OTHER) + u2(10) + listed(more)]))
        yield Case(f"a second component with annotations {what}", replace(file, attributes=[record]), lines)


def nests():
    """A host of a nest, and its members, in one class."""
    majors = (50, 54, 55, 61, 69)
    for names in (("NestHost", "NestMembers"), ("NestMembers", "NestHost")):
        host, members = (attribute(index, bytes.fromhex(NESTS[name])) for index, name in zip((NAME, OTHER), names))
        for what, given, lines in (
            (" and ".join(names), [host, members], {OF_NESTS: "refused 30 class"}),
            (names[0], [host], {}),
            (f"{names[0]} in a class, {names[1]} in a method", [host], {}),
        ):
            more = [("method", members)] if "method" in what else []
            yield Case(what, with_attributes(*names, *(("class", it) for it in given), *more), lines, majors=majors)


def attributes():
    """Each case."""
    for table in (twice, apart, others, nests):
        yield from table()
