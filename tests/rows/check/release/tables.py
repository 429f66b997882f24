"""Debug tables of a Code attribute, and superinterfaces that stand twice: what `classck check --release N` says of classes that
have them (JVMS 4.1, 4.7.12 to 4.7.14)."""
from dataclasses import replace

from rows.check.release.by_version import Case
from tools.assembler import attribute, class_info, listed, member, u2, utf8
from tools.class_k import CONSTANTS, K, code_f, method_f

FEW = (50, 61, 69)
# The first version that has a LocalVariableTypeTable.
OF_TYPES = 49
REFUSED = "refused 87 method 0"
# A code of four bytes, and its local variables.
CODE, LOCALS = b"\0\0\0\xb1", 3
TEXTS = ("LineNumberTable", "LocalVariableTable", "LocalVariableTypeTable", "x", "I")
LINES, VARIABLES, TYPES, X, INT = range(8, 8 + len(TEXTS))
# The texts of a row: a name and a descriptor, or one that is tried in the place of either.
TRIED, SAME_X = INT + 1, INT + 2

# The start and length of a row, and whether both are within the code.
RANGES = (
    (0, 4, True), (0, 0, True), (3, 1, True), (3, 0, True), (1, 2, True), (4, 0, False), (5, 0, False), (4, 1, False),
    (0, 5, False), (3, 2, False), (1, 65535, False), (0, 65535, False), (65535, 0, False), (65535, 1, False),
)  # fmt: skip
# A descriptor and an index, and whether the variable is below max_locals; in a LocalVariableTypeTable each has one unit.
PLACES = (
    ("I", 0, True), ("I", 2, True), ("I", 3, False), ("I", 65535, False), ("J", 0, True), ("J", 1, True), ("J", 2, False), ("J", 3, False),
    ("J", 65535, False), ("D", 1, True), ("D", 2, False), ("F", 2, True), ("[J", 2, True), ("[D", 2, True), ("LJ;", 2, True),
)  # fmt: skip
NAMES = {"y": True, "<x>": True, "a>": True, "[": False, "a.b": False, "a;b": False, "a[b": False, "a/b": False, "": False}
DESCRIPTORS = {"Z": True, "LA;": True, "[[I": True, "V": False, "": False, "()V": False, "L;": False, "II": False, "A": False, "[": False}


def variable(start=0, length=4, name=X, descriptor=INT, index=0):
    """A row of a table of local variables."""
    return b"".join(map(u2, (start, length, name, descriptor, index)))


def with_tables(*tables, tried="y", **sizes):
    """K with these tables in the attributes of its code, each as the index of its name and its rows, or its body."""
    nested = [attribute(name, rows if isinstance(rows, bytes) else listed(rows)) for name, rows in tables]
    constants = [*CONSTANTS, *map(utf8, TEXTS), utf8(tried), utf8("x")]
    return replace(K, constants=constants, methods=[method_f(code_f(**{"code": CODE, "variables": LOCALS, **sizes}, nested=nested))])


def case(what, file, is_sound, majors=FEW):
    return Case(what, file, {} if is_sound else {50: REFUSED}, majors=majors)


def lines():
    """Rows of a LineNumberTable, of which the start is an offset in the code."""
    for start, is_sound in ((0, True), (3, True), (2, True), (4, False), (5, False), (65535, False)):
        row = u2(start) + u2(1)
        yield case(f"a line at {start}", with_tables((LINES, [row])), is_sound, (50, 51, 52, 60, 61, 65, 69))
        yield case(f"a second line at {start}", with_tables((LINES, [u2(0) + u2(1), row])), is_sound)
        yield case(f"a line at {start} in a second table", with_tables((LINES, [bytes(4)]), (LINES, [row])), is_sound)
    yield case("no lines", with_tables((LINES, []), (LINES, [])), True)
    yield case("a line twice", with_tables((LINES, [bytes(4)] * 2), (LINES, [bytes(4)])), True)
    yield case("a line 65535", with_tables((LINES, [b"\0\0\xff\xff"])), True)


def both(row, other=None):
    """A table of types with a row, and one of variables with it or with another row, which a virtual machine may ask for."""
    return (VARIABLES, [other or row]), (TYPES, [row])


def ranges():
    """Rows whose start and length are within the code, or not."""
    for start, length, is_sound in RANGES:
        row = variable(start, length)
        yield case(f"a variable from {start} of {length}", with_tables((VARIABLES, [row])), is_sound, (50, 52, 61, 65, 69))
        yield case(f"a second variable from {start} of {length}", with_tables((VARIABLES, [variable(0, 3), row])), is_sound)
        yield case(f"a variable from {start} of {length}, and its type", with_tables(*both(row)), is_sound)
        yield case(f"the type of a variable from {start} of {length}", with_tables((TYPES, [row])), is_sound)


def places():
    """Rows whose variable is below max_locals, or not."""
    for descriptor, index, is_sound in PLACES:
        row = variable(descriptor=TRIED, index=index)
        yield case(f"a variable {descriptor} at {index} of 3", with_tables((VARIABLES, [row]), tried=descriptor), is_sound)
        is_one = index < LOCALS
        tables = both(row, variable(index=index))
        yield case(f"a variable I at {index} of 3, and its type {descriptor}", with_tables(*tables, tried=descriptor), is_one)
    yield case("a variable of none", with_tables((VARIABLES, [variable()]), variables=0), False)
    yield case("the type of a variable of none", with_tables((TYPES, [variable()]), variables=0), False)
    yield case("a variable J of one", with_tables((VARIABLES, [variable(descriptor=TRIED)]), tried="J", variables=1), False)
    yield case("a variable J of two", with_tables((VARIABLES, [variable(descriptor=TRIED)]), tried="J", variables=2), True)


def texts():
    """Names, descriptors of variables, and signatures, which may be any text."""
    for name, is_sound in NAMES.items():
        row = variable(name=TRIED)
        yield case(f"a variable {name!r}", with_tables((VARIABLES, [row]), tried=name), is_sound)
        yield case(f"a variable {name!r}, and its type", with_tables(*both(row), tried=name), is_sound)
        yield case(f"the type of a variable {name!r}", with_tables((TYPES, [row]), tried=name), is_sound)
    for descriptor, is_sound in DESCRIPTORS.items():
        yield case(f"a variable of type {descriptor!r}", with_tables((VARIABLES, [variable(descriptor=TRIED)]), tried=descriptor), is_sound)
        tables = both(variable(descriptor=TRIED), variable())
        yield case(f"a variable, and its type {descriptor!r}", with_tables(*tables, tried=descriptor), True)


def twice():
    """A row twice, in one table and in two, and rows that differ in one of the four numbers that tell them apart."""
    row = variable(0, 3)
    for what, other, is_other in (
        ("itself", row, False),
        ("another start", variable(1, 3), True),
        ("another length", variable(0, 4), True),
        ("another name", variable(0, 3, name=TRIED), True),
        ("another constant of its name", variable(0, 3, name=SAME_X), True),
        ("another type", variable(0, 3, descriptor=TRIED), False),
        ("another index", variable(0, 3, index=1), True),
    ):
        yield case(f"a variable beside {what}", with_tables((VARIABLES, [row, other]), tried="J"), is_other)
        yield case(f"a variable beside {what} in a second table", with_tables((VARIABLES, [row]), (VARIABLES, [other]), tried="J"), is_other)
        yield case(f"a variable beside {what}, and another between", with_tables((VARIABLES, [row, variable(2, 1), other]), tried="J"), is_other)
        variables = (VARIABLES, [row, other] if is_other else [row])
        yield case(f"the type of a variable beside {what}", with_tables(variables, (TYPES, [row, other]), tried="J"), is_other)
        yield case(f"the type of a variable beside {what} in a second table", with_tables(variables, (TYPES, [row]), (TYPES, [other]), tried="J"), is_other)
    first, second = variable(0, 3), variable(1, 3)
    for what, given, is_sound in (
        ("two variables and one type", [(VARIABLES, [first, second]), (TYPES, [second])], True),
        ("one variable and two types", [(VARIABLES, [first]), (TYPES, [first, second])], False),
        ("a variable and another's type", [(VARIABLES, [first]), (TYPES, [second])], False),
        ("a variable in each of two tables, and both types", [(VARIABLES, [first]), (TYPES, [second, first]), (VARIABLES, [second])], True),
        ("a type and no table of variables", [(TYPES, [first])], True),
        ("a type and a table of no variables", [(VARIABLES, []), (TYPES, [first])], True),
        ("a type twice, and no table of variables", [(TYPES, [first, first])], False),
    ):
        yield case(what, with_tables(*given), is_sound)
    many = [variable(0, 3, index=it % 3) for it in range(4)]
    yield case("the fourth of variables, which is the first", with_tables((VARIABLES, many)), False)


def types():
    """A table of types of other bytes than its count says, or with a name or signature that is none."""
    row = variable()
    for what, body, is_sound in (
        ("no bytes", b"", False),
        ("a byte", b"\0", False),
        ("no rows", b"\0\0", True),
        ("a byte too many", b"\0\0\0", False),
        ("no row of one", b"\0\1", False),
        ("a row that is cut", b"\0\1" + row[:-1], False),
        ("a row", b"\0\1" + row, True),
        ("a row and a byte", b"\0\1" + row + b"\0", False),
        ("a row of none", b"\0\0" + row, False),
        ("a row of two", b"\0\2" + row, False),
    ):
        file = with_tables((VARIABLES, [row]), (TYPES, body))
        yield Case(f"a table of types of {what}", file, {} if is_sound else {OF_TYPES: REFUSED}, majors=(45, 48, 49, 50, 61, 69))
    for index, is_sound in ((0, False), (99, False), (1, False), (X, True)):
        for what, other in (("name", variable(name=index)), ("signature", variable(descriptor=index))):
            yield case(f"a table of types with the {what} {index}", with_tables((VARIABLES, [row]), (TYPES, [other])), is_sound)


def starts():
    """Rows that begin or end within an instruction, which a release does not look at."""
    code = {"code": b"\x11\0\0W\xb1", "stack": 1}
    for start, length in ((0, 1), (1, 2), (2, 3), (0, 5), (3, 1), (3, 2), (4, 1)):
        yield case(f"a variable from {start} of {length} of a sipush", with_tables((VARIABLES, [variable(start, length)]), **code), True)
    for start in range(5):
        yield case(f"a line at {start} of a sipush", with_tables((LINES, [u2(start) + u2(1)]), **code), True)


def elsewhere():
    """Tables that are not read, in other places, and of a second method."""
    bad = variable(4, 0)
    for name, what in ((LINES, "lines"), (VARIABLES, "variables"), (TYPES, "types")):
        table = attribute(name, listed([u2(4) + u2(1)] if name == LINES else [bad]))
        file = with_tables()
        yield case(f"a table of {what} of the class", replace(file, attributes=[table]), True)
        yield case(f"a table of {what} of a method", replace(file, methods=[method_f(code_f(CODE), table)]), True)
        second = member(0x0009, X, 6, code_f(CODE, variables=LOCALS, nested=[table]))
        yield Case(f"a table of {what} of a second method", replace(file, methods=[*file.methods, second]), {50: "refused 87 method 1"}, majors=FEW)


def order():
    """Another rule beside it: 87 comes after all others, and the first place counts."""
    bad = attribute(LINES, listed([u2(4) + u2(1)]))
    annotations = attribute(TRIED, u2(0))
    for what, flags, given, nested, number, plain in (
        ("annotations twice", 0x0009, [annotations, annotations], [bad], 30, "ok"),
        ("abstract, strict and with code", 0x0C01, [], [bad], 27, "refused 27 method 0"),
        ("two accesses", 0x000B, [], [bad], 24, "refused 24 method 0"),
        ("a variable of no name", 0x0009, [], [bad, attribute(VARIABLES, listed([variable(name=0)]))], 20, "refused 20 method 0"),
        ("a class as a variable's name", 0x0009, [], [bad, attribute(VARIABLES, listed([variable(name=1)]))], 21, "refused 21 method 0"),
        ("nothing else", 0x0009, [], [bad], 87, "ok"),
    ):
        method = method_f(*given, code_f(CODE, nested=nested), flags=flags)
        file = replace(with_tables(tried="RuntimeVisibleAnnotations"), methods=[method], flags=0x0421)
        yield Case(f"a wrong line beside {what}", file, {50: f"refused {number} method 0"}, plain, (51, 60))
    file = with_tables((LINES, [u2(4) + u2(1)]))
    yield Case("a wrong line, and a field by a rule of each", replace(file, fields=[member(3, X, INT)]), {50: "refused 24 field 0"}, "refused 24 field 0")
    wrong = replace(file, methods=[*file.methods, member(3, X, 6, code_f(CODE))])
    yield Case("a wrong line, and the next method by a rule of each", wrong, {50: REFUSED}, "refused 24 method 1", FEW)


def interfaces():
    """A superinterface once, twice by one constant or by two of one name, and beside others."""
    names = ("java/lang/Runnable", "java/lang/Cloneable")
    constants = [*CONSTANTS, *(it for text, at in zip((*names, names[0]), (9, 11, 13)) for it in (class_info(at), utf8(text)))]
    runnable, cloneable, again = 8, 10, 12
    for given, is_sound in (
        ([runnable], True), ([runnable, cloneable], True), ([runnable, runnable], False), ([runnable, again], False),
        ([cloneable, runnable, again], False), ([runnable, cloneable, runnable], False), ([cloneable, again], True),
    ):  # fmt: skip
        for flags, methods in ((0x0601, ()), (0x0421, K.methods)):
            file = replace(K, constants=constants, interfaces=given, flags=flags, methods=methods)
            yield Case(f"a class {flags:04x} of the interfaces {given}", file, {} if is_sound else {50: "refused 25 class"})


def tables():
    """Each case."""
    for table in (lines, ranges, places, texts, twice, types, starts, elsewhere, order, interfaces):
        yield from table()
