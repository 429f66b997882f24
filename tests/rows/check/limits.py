"""Class files with as many parts as their counts can say, and what `classck check` says of each: JVMS 4.1, 4.4 and 4.11."""
from dataclasses import replace

from tools.assembler import attribute, class_info, integer, member, utf8
from tools.class_k import CONSTANTS, K, with_code, with_constant

LARGEST = 65_535
# The class K, whose constants are followed by others up to the last index that there can be.
FULL = [*CONSTANTS, *[integer(0)] * (LARGEST - 1 - len(CONSTANTS))]
# Parts of names and of descriptors, of which each two make a member.
PARTS = [f"{it:02x}" for it in range(256)]


def pools():
    """A pool whose count is the largest: its last constant may be used, and there is none after it."""
    yield "a pool of 65,534 constants", replace(K, constants=FULL), "ok"
    last = [*FULL[:-2], utf8("K"), class_info(LARGEST - 2)]
    yield "a class that is the last constant", replace(K, constants=last, this_class=LARGEST - 1), "ok"
    yield "a class past the last constant", replace(K, constants=last, this_class=LARGEST), "refused 20 class"
    yield "a constant past the last one", replace(K, constants=[*FULL[:-1], class_info(LARGEST)]), f"refused 20 pool {LARGEST - 1}"
    yield "a name of 65,535 bytes", with_constant(2, utf8("K" * LARGEST)), "ok"
    yield "a name of 65,535 bytes, of which the last is wrong", with_constant(2, utf8("K" * (LARGEST - 1) + ";")), "refused 22 pool 1"


def members():
    """As many interfaces, fields, methods, attributes and entries as a count can say, and among them one that is at fault at the end."""
    texts = [utf8(form.format(it)) for form in ("x{}", "(L{};)V", "L{};") for it in PARTS]
    pairs = [(8 + i // 256, 8 + 256 + i % 256) for i in range(LARGEST)]
    methods = [member(0x0109, *it) for it in pairs]
    fields = [member(0, name, descriptor + 256) for name, descriptor in pairs]
    named = replace(K, constants=[*CONSTANTS, *texts])
    yield "65,535 interfaces", replace(K, interfaces=[3] * LARGEST), "ok"
    yield "65,535 interfaces, the last of which is a text", replace(K, interfaces=[*[3] * (LARGEST - 1), 2]), "refused 21 class"
    yield "65,535 fields", replace(named, fields=fields), "ok"
    yield "65,535 fields, the last of which is there", replace(named, fields=[*fields[:-1], fields[0]]), f"refused 25 field {LARGEST - 1}"
    yield "65,535 methods", replace(named, methods=methods), "ok"
    yield "65,535 methods, the last of which is there", replace(named, methods=[*methods[:-1], methods[0]]), f"refused 25 method {LARGEST - 1}"
    yield "65,535 attributes", replace(K, attributes=[attribute(5, b"")] * LARGEST), "ok"
    raw = [attribute(5, b"")] * (LARGEST - 1)
    yield "65,535 attributes, the last of which has no name", replace(K, attributes=[*raw, attribute(0, b"")]), "refused 20 class"


def codes():
    """A code with the largest sizes, and one more byte than it may have."""
    entries = [(0, 1, 0, 0)] * LARGEST
    for length, line in ((LARGEST, "ok"), (LARGEST + 1, "refused 29 method 0")):
        file = with_code(bytes(length), stack=LARGEST, variables=LARGEST, handlers=entries)
        yield f"code of {length} bytes with 65,535 entries, units of its stack and local variables", file, line
    caught = [*entries[:-1], (0, 1, 0, 2)]
    yield "65,535 entries, the last of which catches a text", with_code(handlers=caught), "refused 21 method 0"


def with_limits():
    """A name for each file, its bytes, and the line of it."""
    for table in (pools, members, codes):
        for what, file, line in table():
            yield what, file.data(), line
