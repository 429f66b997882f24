"""Class files, and what `classck check` says of each: JVMS 4.1 to 4.7, and docs/REFUSALS.md for the numbers."""
from dataclasses import replace

from tools.assembler import NATIVE, OBJECT, STATIC, attribute, class_info, long, member, name_and_type, reference, u1, u2, utf8
from tools.class_k import CONSTANTS, K, code_f, method_f, stack_map, with_code, with_constant, with_constants, with_method

LARGEST = 16_777_216


def native(name, descriptor, flags=NATIVE | STATIC):
    """A method without code, by the indices of its name and descriptor."""
    return member(flags, name, descriptor)


def with_field(name, descriptor):
    """K with a field whose name and descriptor are these texts."""
    return replace(with_constants(utf8(name), utf8(descriptor)), fields=[member(0, 8, 9)])


def with_native(name, descriptor, flags=NATIVE | STATIC):
    """K with a second method, without code, whose name and descriptor are these texts."""
    return replace(with_constants(utf8(name), utf8(descriptor)), methods=[*K.methods, native(8, 9, flags)])


def told(number, place):
    """The line of `check`."""
    return "ok" if number is None else f"refused {number} {place}"


def largest():
    """K with one attribute that makes it as long as a class may be, and with more."""
    for more, behind, line in ((0, b"", "ok"), (0, b"\0", "refused 14 at 0"), (1, b"", "refused 14 at 103")):
        data = replace(K, attributes=[attribute(7, bytes(LARGEST - len(K.data()) - 6 + more))]).data() + behind
        yield f"a class of {len(data) - len(behind)} bytes, and {len(behind)} more", data, line


def layouts():
    """Files that are no class files, or are such by their layout alone."""
    yield "K", K.data(), "ok"
    yield "K cut in its last count", K.data()[:96], "refused 2 at 95"
    yield "no byte", b"", "refused 2 at 0"
    yield "K and a byte more", K.data() + b"\0", "refused 13 at 97"
    yield "K, as long as a file may be", K.data() + bytes(LARGEST - 97), "refused 13 at 97"
    yield "K, longer than a file may be", K.data() + bytes(LARGEST - 96), "refused 13 at 97"
    yield from largest()
    yield "another magic", replace(K, magic=0xCAFEBABF).data(), "refused 10"
    yield "a Code of 13 bytes that says 12", with_code(length=12).data(), "refused 12 at 76"
    # a file is read to its end by its counts, tags and lengths before anything else is looked at
    yield "a Code of 13 bytes that says 14", with_code(length=14).data(), "refused 2 at 96"
    yield "a Code of 13 bytes that says 14, and a byte more", with_code(length=14).data() + b"\0", "refused 12 at 76"
    yield "a Code longer than a file may be", with_code(length=0xFFFFFF00).data(), "refused 14 at 82"
    yield "version 50, and a tag 2", replace(K, major=50, constants=[b"\2"]).data(), "refused 7 at 10 tag 2"
    yield "version 50, cut in its last count", replace(K, major=50).data()[:96], "refused 2 at 95"
    for major, minor, line in (
        (50, 0, "refused 11 50.0"),
        (51, 7, "ok"),
        (55, 7, "ok"),
        (56, 0, "ok"),
        (56, 7, "refused 11 56.7"),
        (60, 0, "ok"),
        (61, 0, "ok"),
        (61, 1, "refused 11 61.1"),
        (62, 0, "refused 11 62.0"),
    ):
        yield f"version {major}.{minor}", replace(K, major=major, minor=minor).data(), line


def pools():
    """Constant pools after magic and version, and where they are at fault."""
    for start, line in (
        ("0000", "refused 16 at 8"),
        ("0002 02", "refused 7 at 10 tag 2"),
        ("0002 05", "refused 7 at 10 tag 5"),
        ("0002 06", "refused 7 at 10 tag 6"),
        ("0002 0f0a", "refused 2 at 12"),
        ("0002 01000100", "refused 2 at 14"),
        ("0002 09000100", "refused 2 at 13"),
    ):
        yield f"a pool {start}", K.data()[:8] + bytes.fromhex(start), line
    for start, line in (("0002 0f0a0001", "refused 7 at 11 tag 10"), ("0002 01000100", "refused 3 at 13")):
        yield f"a class of a pool {start}", K.data()[:8] + bytes.fromhex(start) + K.data()[56:], line
    # 4.4.7: one spelling for each unit, and none of four bytes
    for text, line in (
        (b"\xc1\x81", "refused 3 at 16"),
        (b"\0", "refused 3 at 16"),
        (b"\xf0\x9f", "refused 3 at 16"),
        (b"K\xed", "refused 3 at 17"),
        (b"\xc0\x80\xed\xa0\xbd\xed\xb8\x80", "ok"),
    ):
        yield f"a name of {text}", with_constant(2, utf8(text)).data(), line


def names():
    """Names as those of a class, of a field and of a method (4.2): where each is at fault."""
    for name, is_class, is_field, is_method in (
        ("run", True, True, True),
        (OBJECT, True, False, False),
        ("<init>", True, True, False),
        ("a<", True, True, False),
        ("a//b", False, False, False),
        ("a/", False, False, False),
        ("a.b", False, False, False),
        ("a;b", False, False, False),
        ("a[b", False, False, False),
        ("", False, False, False),
    ):
        a_class = with_constants(class_info(9), utf8(name))
        yield f"a class of name {name!r}", a_class.data(), told(None if is_class else 22, "pool 8")
        yield f"a field of name {name!r}", with_field(name, "I").data(), told(None if is_field else 22, "field 0")
        called = with_constants(reference(11, 1, 9), name_and_type(10, 6), utf8(name))
        yield f"a method of name {name!r}", called.data(), told(None if is_method else 22, "pool 8")


def descriptors():
    """Descriptors of fields and methods (4.3), and their limits."""
    for text in ("B", "C", "D", "F", "I", "J", "S", "Z", "La;", "La/b;", "[I", "[[La;", "[" * 255 + "I"):
        yield f"a field {text}", with_field("x", text).data(), "ok"
    for text in ("", "L/", "La//b;", "L;", "La.b;", "La/;", "La", "[", "V", "II", "[" * 256 + "I"):
        yield f"a field {text}", with_field("x", text).data(), "refused 23 field 0"
    for text in ("()V", "(IJ[Ljava/lang/String;)V", "([I[[La;)[[La;", "(I[La(b)c;J)[[Ld)e;"):
        yield f"a method {text}", with_native("m", text).data(), "ok"
    for text in ("", "I", "(", "(V)V", "(I", "([)V", "()", "()VV", "()II", "(La;)[V"):
        yield f"a method {text}", with_native("m", text).data(), "refused 23 method 1"
    # 4.3.3: 255 units with the receiver; a long and a double take two
    for text, of_class, of_instances in (
        ("I" * 254, None, None),
        ("I" * 255, None, 23),
        ("I" * 256, 23, 23),
        ("J" * 127 + "I", None, 23),
        ("J" * 128, 23, 23),
    ):
        yield f"a static method ({text})V", with_native("m", f"({text})V").data(), told(of_class, "method 1")
        yield f"a method of instances ({text})V", with_native("m", f"({text})V", NATIVE).data(), told(of_instances, "method 1")


def rules():
    """Classes that break a rule for well-formed ones (4.1, 4.4 to 4.7)."""
    with_int = with_constants(utf8("I"))
    for what, broken, line in (
        ("an index past the pool", with_constant(1, class_info(9)), "refused 20 pool 1"),
        ("the second index of a Long", with_constants(class_info(10), long(0)), "refused 20 pool 8"),
        ("a class for a text", with_constant(1, class_info(1)), "refused 21 pool 1"),
        ("[ as a class", with_constant(2, utf8("[")), "refused 22 pool 1"),
        ("a MethodType that is none", with_constant(1, u1(16) + u2(2)), "refused 23 pool 1"),
        ("this_class past the pool", replace(K, this_class=8), "refused 20 class"),
        ("a text as this_class", replace(K, this_class=2), "refused 21 class"),
        ("an interface that is not abstract", replace(K, flags=0x0221), "refused 24 class"),
        ("no superclass", replace(K, super_class=0), "refused 28 class"),
        ("a name of index 0", with_method(native(0, 6)), "refused 20 method 0"),
        ("a class as a name", with_method(native(1, 6)), "refused 21 method 0"),
        ("a class's name as a method's", with_method(native(4, 6)), "refused 22 method 0"),
        ("a name as a descriptor", with_method(native(5, 5)), "refused 23 method 0"),
        ("public and private", with_method(method_f(code_f(), flags=0x0003)), "refused 24 method 0"),
        ("no Code", with_method(method_f(attribute(5, b""))), "refused 26 method 0"),
        ("a native method with Code", with_method(method_f(code_f(), flags=0x0109)), "refused 27 method 0"),
        ("code of no byte", with_code(b""), "refused 29 method 0"),
        ("code of 65,535 bytes", with_code(bytes(65535)), "ok"),
        ("code of 65,536 bytes", with_code(bytes(65536)), "refused 29 method 0"),
        ("two Codes", with_method(method_f(code_f(), code_f())), "refused 30 method 0"),
        ("a method twice", replace(K, methods=[*K.methods, native(2, 6), native(5, 6)]), "refused 25 method 2"),
        ("a field twice", replace(with_int, fields=[member(0, 2, 8), member(0, 5, 8), member(1, 2, 8)]), "refused 25 field 2"),
        ("a final volatile field", replace(with_int, fields=[member(0x0050, 5, 8)]), "refused 24 field 0"),
    ):
        yield what, broken.data(), line
    for count, line in ((0, "ok"), (1, "ok"), (2, "refused 30 method 0")):
        mapped = replace(with_code(nested=[stack_map(8)] * count), constants=CONSTANTS + [utf8("StackMapTable")])
        yield f"{count} stack maps", mapped.data(), line


def checked():
    """A name for each file, its bytes, and the line of it."""
    for table in (layouts, pools, names, descriptors, rules):
        yield from table()
