"""Very many classes in one call, most of them below one another, and what classck says of them: JVMS 4.1, 4.10.1.2 and 5.3.5, and docs/REFUSALS.md
for the number of classes that a hierarchy may have.

The files are written once, since there are 65,536 of them: Object in the file 0, and in each other one a class below that of the file before it.
"""
from rows.verify.play import class_of
from tools.assembler import OBJECT, STATIC, ClassFile, class_info, code_attribute, member, named, utf8
from tools.class_k import BYTES, PLAIN_OBJECT

LARGEST = 65_535
CODE = code_attribute(7, b"\x2a\xb0", stack=1, variables=1)


def name_of(number):
    """The class in the file of this number."""
    return f"c{number}" if number else OBJECT


def descriptor_of(number):
    """That of a method whose argument is of the class, and whose result is of the one in the middle of its chain."""
    return f"(L{name_of(number)};)L{name_of(number // 2)};"


def class_in(number):
    """The class of this number below that before it, with a method that returns its argument."""
    texts = ["f", descriptor_of(number), "Code"]
    constants = [class_info(2), utf8(name_of(number)), class_info(4), utf8(name_of(number - 1)), *map(utf8, texts)]
    return ClassFile(constants, methods=[member(STATIC, 5, 6, CODE)]).data()


def below(number):
    """J below the class of this number. Both are below those above, and not below S, which is beside them; none of those is below J."""
    pairs = [("J", name_of(number)), ("J", "c1"), (name_of(number), "c1"), ("J", "S"), (name_of(number), "S"), ("c1", "J"), ("c1", name_of(number))]
    methods = [(STATIC, f"f{i}", f"(L{a};)L{b};", 1, 1, "aload_0; areturn") for i, (a, b) in enumerate(pairs)]
    is_below = number == 1
    verdicts = ["verified"] * 3 + ["refused 62 at 1"] * 3 + ["verified" if is_below else "refused 62 at 1"]
    return class_of("J", *methods, above=name_of(number)), [f"method {it[1]} {it[2]} {verdict}" for it, verdict in zip(methods, verdicts)]


# The chains below whose last class J stands, by the number of that class. With Object, J and S the longest has all classes that there may be.
CHAINS = (1, 15, 16, 17, 18, 1_000, LARGEST - 3)


def files():
    """The files by their names."""
    yield "0", PLAIN_OBJECT
    for number in range(1, LARGEST + 1):
        yield f"{number}", class_in(number)
    for number in CHAINS:
        yield f"J{number}", below(number)[0]
    yield "S", named("S").data()
    yield "K", BYTES
    yield "cut", BYTES[:96]


def numbers(first, last):
    """The names of the files from the one number to the other."""
    return [f"{it}" for it in range(first, last + 1)]


def told(answers):
    """The text of `verify-each` with these answers, each the name of the class, or None, and its lines."""
    return "".join(f"file {n}{f' {name}' if name else ''}\n" + "".join(f"{it}\n" for it in lines) for n, (name, lines) in enumerate(answers, 1))


def answer(number):
    """That on the class of this number, which is below all before it."""
    return name_of(number), [f"method f {descriptor_of(number)} verified"] if number else []


def chains():
    """The class at the end of a chain, among those above it, and with one of them left out."""
    for number in CHAINS:
        text, known = below(number)[1], ["S", *numbers(0, number)]
        yield f"a class below {number} others", ["verify-each", f"J{number}", "--known", *known], told([("J", text)])
        yield f"a class below {number} others", ["verify", f"J{number}", *known], "".join(f"{it}\n" for it in text)
    for number in CHAINS[1:-1]:
        known = numbers(0, number // 2 - 1) + numbers(number // 2 + 1, number)
        words = ["verify-each", f"J{number}", "--known", *known]
        yield f"a class below {number} others, of which one is not there", words, told([("J", ["class refused 80"])])


def lists():
    """Lists of very many files, of which each is judged."""
    for last in (1_000, 1_001, 6_000, LARGEST - 1):
        yield f"{last + 1} files", ["verify-each", *numbers(0, last)[::-1]], told([answer(it) for it in range(last, -1, -1)])
    given = [answer(it) for it in range(6_001)]
    fine, cut = ("K", ["method f ()V verified"]), (None, ["class refused 2 at 95"])
    yield "6,002 files, of which the last is cut", ["verify-each", *numbers(0, 6_000), "cut"], told([*given, cut])
    yield "6,003 files, of which the first is cut", ["verify-each", "cut", *numbers(0, 6_000), "K"], told([cut, *given, fine])
    yield "6,001 classes", ["play", *numbers(0, 6_000)], "play verified\n"


def limits():
    """One class more than a hierarchy may have, and as many with one that is given twice; the last chain has just as many."""
    yield f"{LARGEST + 1} classes", ["verify", "K", *numbers(0, LARGEST - 1)], "hierarchy refused 45\n"
    yield f"{LARGEST + 1} classes", ["verify-each", "K", "--known", *numbers(0, LARGEST - 1)], "hierarchy refused 45\n"
    known = ["S", "S", *numbers(0, CHAINS[-1])]
    yield f"{LARGEST} classes, one of them twice", ["verify-each", f"J{CHAINS[-1]}", "--known", *known], told([("J", below(CHAINS[-1])[1])])


def many():
    """Each row's name, the words of the line, and the text."""
    yield from lists()
    yield from limits()
    yield from chains()
