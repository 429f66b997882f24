"""Records and sealed classes, whole and broken at each of their parts: what `classck check` and `classck show` say of them (JVMS 4.7.30, 4.7.31)."""
from dataclasses import replace

from tools.assembler import attribute, listed, long, u2, utf8
from tools.class_k import CONSTANTS, K

# The index of the name of the class's attribute, and after it that of `Signature` and a Long at 10, so that nothing stands at 11.
NAME, SIGNATURE, NOTHING = 8, 9, 11
OF_K = "method 0009 f ()V\n  stack 0 locals 0\n  0 return\n"


def component(name, descriptor, *attributes):
    return u2(name) + u2(descriptor) + listed(attributes)


def with_attributes(name, *attributes, major=60):
    """K with these attributes of the class, whose name is at 8."""
    constants = [*CONSTANTS, utf8(name), utf8("Signature"), long(0)]
    return replace(K, constants=constants, attributes=attributes, major=major).data()


def record(*components):
    return attribute(NAME, listed(components))


def signature(text=6):
    return attribute(SIGNATURE, u2(text))


def bodies():
    """The bytes of a Record with two components, cut and longer: 12 at the attribute, or at the innermost one that is not whole."""
    inner = component(5, 6, signature())
    body = listed([component(5, 6), inner])
    for size in range(len(body)):
        broken = attribute(NAME, body[:size])
        data = with_attributes("Record", broken)
        yield f"a Record of {size} bytes", data, f"refused 12 at {data.rindex(broken)}"
    for more in (b"\0", b"\0\0", inner):
        broken = attribute(NAME, body + more)
        data = with_attributes("Record", broken)
        yield f"a Record and {len(more)} bytes more", data, f"refused 12 at {data.rindex(broken)}"
    for size in (0, 1, 3):
        broken = attribute(SIGNATURE, bytes(size))
        data = with_attributes("Record", record(component(5, 6, broken)))
        yield f"a component's Signature of {size} bytes", data, f"refused 12 at {data.rindex(broken)}"


def records():
    """A name for each file, its bytes, and the line of `check`."""
    yield from bodies()
    for what, attributes, line in (
        ("a Record of no components", [record()], "ok"),
        ("a Record", [record(component(5, 6))], "ok"),
        ("a component twice", [record(component(5, 6), component(5, 6))], "ok"),
        ("two Records", [record(), record()], "refused 30 class"),
        ("a component with a Signature", [record(component(5, 6, signature()))], "ok"),
        ("a component with two of them", [record(component(5, 6, signature(), signature()))], "refused 30 class"),
        ("two components with one each", [record(component(5, 6, signature()), component(5, 6, signature()))], "ok"),
        ("two Signatures of the second component", [record(component(5, 6), component(5, 6, signature(), signature()))], "refused 30 class"),
        ("a component with a Record", [record(component(5, 6, attribute(NAME, b"\0")))], "ok"),
        ("a component with a Code", [record(component(5, 6, attribute(7, b"\0")))], "ok"),
    ):
        yield what, with_attributes("Record", *attributes), line
    for index, number in ((0, 20), (NOTHING, 20), (99, 20), (1, 21)):
        for what, broken in (
            ("name", component(index, 6)),
            ("descriptor", component(5, index)),
            ("attribute's name", component(5, 6, attribute(index, b""))),
            ("Signature", component(5, 6, signature(index))),
        ):
            for where, components in (("first", [broken, component(5, 6)]), ("second", [component(5, 6), broken])):
                data = with_attributes("Record", record(*components))
                yield f"{index} as the {what} of the {where} component", data, f"refused {number} class"
    # it is raw below 60, and in another table
    yield "a Record in version 59", with_attributes("Record", attribute(NAME, b"\0"), attribute(NAME, b"\0"), major=59), "ok"
    yield "a Record in version 61", with_attributes("Record", attribute(NAME, b"\0"), major=61), "refused 12 at 127"


def shown():
    """A name for each file, its bytes, and the lines of `show` after the first two."""
    two = [record(component(5, 6), component(2, 4))]
    yield "a record", with_attributes("Record", *two), "component f ()V\ncomponent K java/lang/Object\n"
    yield "a record of no components", with_attributes("Record", record()), ""
    yield "a Record in version 59", with_attributes("Record", *two, major=59), ""
    permits = attribute(NAME, listed([u2(1), u2(3)]))
    for major, lines in ((60, ""), (61, "permits K\npermits java/lang/Object\n")):
        yield f"a sealed class in version {major}", with_attributes("PermittedSubclasses", permits, major=major), lines
    both = replace(
        K,
        constants=[*CONSTANTS, utf8("Record"), utf8("PermittedSubclasses")],
        interfaces=[3],
        attributes=[attribute(9, listed([u2(1)])), record(component(5, 6))],
        major=61,
    )
    yield "what is permitted, in front of a record", both.data(), "interface java/lang/Object\ncomponent f ()V\npermits K\n"


def printed():
    """A name for each file, its bytes, and all that `show` prints of it."""
    for what, data, lines in shown():
        yield what, data, f"class K major {data[7]} minor 0 flags 0021\nsuper java/lang/Object\n{lines}{OF_K}"
