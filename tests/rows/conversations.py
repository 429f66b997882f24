"""Conversations with `classck serve`: what each is, the options, and the messages; and the small classes of which random ones are made."""
from dataclasses import replace

from tools.assembler import OBJECT, ClassFile, attribute, class_info, code_attribute, code_of, member, named, u2, utf8
from tools.class_k import BYTES, K, OBJECT_CLASS, PLAIN_OBJECT, with_code, with_constant
from tools.conversations import MOST
from tools.made_jars import below, fine, returns_object_of
from tools.places import TOP

CUT, EMPTY = BYTES[:-1], b""
INTERFACE = 0x0601
# K whose method is refused, for which a class is missing, and which is of other versions.
FALLS, MISSES = with_code(b"\0").data(), returns_object_of("Y")
NEWER, OLDER = BYTES[:7] + b"\x41" + BYTES[8:], BYTES[:7] + b"\x30" + BYTES[8:]
X, Y, Z = (below(it, OBJECT) for it in "XYZ")
X_BELOW_Y, Y_BELOW_X, K_BELOW_Y, Y_BELOW_K = below("X", "Y"), below("Y", "X"), replace(K, constants=[*K.constants[:3], utf8("Y"), *K.constants[4:]]).data(), below("Y", "K")
ARRAY_CLASS, ARRAY_INTERFACE = below("java/lang/Cloneable", OBJECT), named("java/lang/Cloneable", flags=INTERFACE).data()
LOW_INTERFACE = named("Y", above="X", flags=INTERFACE).data()
OBJECT_BELOW_X, OBJECT_INTERFACE = below(OBJECT, "X"), named(OBJECT, above=None, flags=INTERFACE).data()
# Names of blanks, quotation marks, words of answers, and units that are not printable ASCII.
ODD = [b'a b" missing Y', b"known", b"a\\\xc3\xa9\xe2\x82\xac\xed\xa0\x80", b"a\nmethod f ()V verified", b"\xc0\x80", b"n" * 65535]


def sample(name, version="8"):
    return (TOP / f"examples/classes/{version}/{name}.class").read_bytes()


def library(name):
    return (TOP / f"examples/known/{name}.class").read_bytes()


def called(name, above=OBJECT):
    """A class with one method, of this name in bytes."""
    return with_constant(2, utf8(name)).data() if above == OBJECT else named_in_bytes(name, above)


def named_in_bytes(name, above):
    return ClassFile([class_info(2), utf8(name), class_info(4), utf8(above)]).data()


def of_length(count):
    """K with an attribute whose body makes it so long."""
    body = count - len(BYTES) - 6
    return BYTES[:-2] + u2(1) + attribute(5, bytes(body))


def of_many_methods(count, name, code):
    """A class L with so many methods of a long name."""
    descriptors = [f"({'I' * (i % 40)}{'F' * (i // 40)})V" for i in range(count)]
    constants = [class_info(2), utf8("L"), class_info(4), utf8(OBJECT), utf8("Code"), utf8(name), *map(utf8, descriptors)]
    return ClassFile(constants, methods=[member(0x0008, 6, 7 + i, code_attribute(5, code, stack=0, variables=80)) for i in range(count)]).data()


def on(*kinds_and_data):
    """The messages `kind data, kind data ..`."""
    return [(kind.encode(), data) for kind, data in zip(kinds_and_data[::2], kinds_and_data[1::2])]


def of_known():
    """Classes that become known, or not."""
    yield "a class known twice", on("k", PLAIN_OBJECT, "k", PLAIN_OBJECT, "v", BYTES)
    yield "another class of a known name", on("k", PLAIN_OBJECT, "k", Y, "k", Y_BELOW_X, "k", X_BELOW_Y, "v", MISSES)
    yield "classes that are not well formed", on("k", CUT, "k", EMPTY, "k", b"\xca\xfe\xba\xbe", "k", NEWER, "k", OLDER, "k", PLAIN_OBJECT, "v", BYTES)
    yield "a superclass after its subclass", on("k", X_BELOW_Y, "k", PLAIN_OBJECT, "v", MISSES, "k", Y, "v", MISSES)
    yield "superclasses after all of their subclasses", on("k", below("A", "B"), "k", below("B", "C"), "k", below("C", "D"), "v", below("Z", "A"), "k", below("D", OBJECT), "v", below("Z", "A"), "k", PLAIN_OBJECT, "v", below("Z", "A"), "v", below("Z", "B"))
    yield "a class whose superclass never comes", on("k", X_BELOW_Y, "k", PLAIN_OBJECT, "v", BYTES, "d", below("Z", "X"), "v", Z)
    yield "Object is absent, and comes", on("v", BYTES, "k", X, "v", BYTES, "d", BYTES, "x", BYTES, "k", PLAIN_OBJECT, "v", BYTES)
    yield "Object is judged", on("v", OBJECT_CLASS, "k", Y, "v", OBJECT_CLASS, "d", OBJECT_CLASS, "v", MISSES, "v", OBJECT_CLASS)
    yield "Object with a superclass", on("k", OBJECT_BELOW_X, "k", X, "v", BYTES, "k", PLAIN_OBJECT, "v", BYTES, "f", b"", "k", PLAIN_OBJECT, "v", BYTES)
    yield "Object as an interface", on("k", OBJECT_INTERFACE, "v", BYTES, "k", PLAIN_OBJECT, "v", BYTES)
    yield "a cycle", on("k", PLAIN_OBJECT, "k", X_BELOW_Y, "k", Y_BELOW_X, "v", BYTES, "v", below("Z", "X"), "v", X, "v", MISSES)
    yield "a class below itself", on("k", PLAIN_OBJECT, "k", below("X", "X"), "v", BYTES, "v", below("X", "X"), "v", below("Z", "X"))
    yield "Cloneable is a class", on("k", PLAIN_OBJECT, "k", ARRAY_CLASS, "k", below("X", "java/lang/Cloneable"), "v", BYTES, "v", below("Z", "X"), "v", ARRAY_CLASS, "k", ARRAY_INTERFACE)
    yield "Cloneable is an interface", on("k", PLAIN_OBJECT, "k", ARRAY_INTERFACE, "v", BYTES, "v", ARRAY_CLASS)
    yield "an interface below a class", on("k", PLAIN_OBJECT, "k", X, "k", LOW_INTERFACE, "v", MISSES, "v", LOW_INTERFACE)


def of_verdicts():
    """Verdicts, and what is known after them."""
    yield "missing, then given", on("k", PLAIN_OBJECT, "v", MISSES, "k", X, "v", MISSES, "k", Y, "v", MISSES)
    yield "missing, then given with a class above", on("k", PLAIN_OBJECT, "k", Y, "v", MISSES, "k", X_BELOW_Y, "v", MISSES)
    yield "a verdict leaves nothing known", on("k", PLAIN_OBJECT, "v", Y, "v", X_BELOW_Y, "k", Y, "v", X_BELOW_Y)
    yield "an explanation leaves nothing known", on("k", PLAIN_OBJECT, "x", Y, "v", X_BELOW_Y, "x", X_BELOW_Y)
    yield "a class is defined, and used", on("k", PLAIN_OBJECT, "d", Y, "v", X_BELOW_Y, "d", X_BELOW_Y, "v", MISSES, "d", MISSES)
    yield "a class is defined twice", on("k", PLAIN_OBJECT, "d", Y, "d", Y, "k", Y, "v", MISSES)
    yield "a class is defined that is known", on("k", PLAIN_OBJECT, "k", Y, "d", Y, "k", Y, "v", X_BELOW_Y)
    yield "another class is defined of a known name", on("k", PLAIN_OBJECT, "k", Y_BELOW_X, "d", Y, "k", Y, "v", K_BELOW_Y, "k", X, "v", K_BELOW_Y)
    yield "a refused class is not defined, and used", on("k", PLAIN_OBJECT, "d", FALLS, "v", Y_BELOW_K, "k", BYTES, "v", Y_BELOW_K)
    yield "a class without its superclass is not defined", on("d", Y, "k", PLAIN_OBJECT, "v", X_BELOW_Y, "d", X_BELOW_Y, "k", X_BELOW_Y)
    yield "a cut class is not defined", on("k", PLAIN_OBJECT, "d", CUT, "v", Y_BELOW_K)
    yield "a known class is judged", on("k", PLAIN_OBJECT, "k", BYTES, "v", BYTES, "v", FALLS, "x", FALLS, "v", BYTES)
    yield "a class is judged that a known one is below", on("k", PLAIN_OBJECT, "k", X_BELOW_Y, "v", Y, "v", MISSES, "k", Y, "v", Y, "v", MISSES)
    yield "a class is judged by its own subclass", on("k", PLAIN_OBJECT, *known("java.lang.Enum"), "k", sample("Shapes$Colour$1"), "v", sample("Shapes$Colour"), "d", sample("Shapes$Colour"), "d", sample("Shapes$Colour$1"))
    yield "a class is judged by its subclass, both known", on("k", PLAIN_OBJECT, *known("java.lang.Enum"), "k", sample("Shapes$Colour$1"), "k", sample("Shapes$Colour"), "v", sample("Shapes$Colour"), "v", sample("Shapes$Colour$1"))
    yield "a class is refused, and explained", on("k", PLAIN_OBJECT, "v", FALLS, "x", FALLS, "x", BYTES, "x", CUT, "x", MISSES, "x", X_BELOW_Y)
    yield "samples", on(*known("java.lang.Object", "java.lang.Exception", "java.lang.Throwable"), *(it for name in ("Sums", "Flow$Trouble", "Flow", "Members", "Hello") for it in ("v", sample(name), "d", sample(name))))


def known(*names):
    return [it for name in names for it in ("k", library(name))]


def of_messages():
    """Messages of all lengths."""
    yield "nothing", []
    yield "everything is forgotten", on("f", b"", "k", PLAIN_OBJECT, "k", Y, "f", b"", "f", b"", "v", BYTES, "k", PLAIN_OBJECT, "v", MISSES, "k", Y, "v", X_BELOW_Y)
    for kind in "kvdxf":
        yield f"an empty message {kind}", on(kind, b"", "k", PLAIN_OBJECT, kind, b"", "v", BYTES)
    yield "a hundred messages", on("k", PLAIN_OBJECT, *("v", BYTES, "v", FALLS, "k", PLAIN_OBJECT, "x", FALLS) * 25)
    longest, longer, zeros = of_length(MOST), of_length(MOST + 1), bytes(MOST)
    yield "a message of 16,777,216 bytes is judged", on("k", PLAIN_OBJECT, "v", longest, "v", BYTES)
    yield "a message of 16,777,216 bytes is known", on("k", PLAIN_OBJECT, "k", longest, "v", Y_BELOW_K)
    yield "a message of 16,777,216 bytes is defined", on("k", PLAIN_OBJECT, "d", longest, "v", Y_BELOW_K)
    yield "a message of 16,777,216 bytes that is no class", on("k", zeros, "v", zeros, "d", zeros, "x", zeros, "v", PLAIN_OBJECT)
    yield "a message of 16,777,217 bytes", on("k", PLAIN_OBJECT, "v", longer, "v", BYTES)
    yield "long texts", on("k", PLAIN_OBJECT, *("v", of_many_methods(200, "m" * 60000, b"\xb1"), "x", of_many_methods(20, "m" * 60000, b"\0"), "v", BYTES) * 2)


def of_names():
    """Names of odd units."""
    for number, name in enumerate(ODD):
        below_it = named_in_bytes(b"B", name)
        yield f"an odd name, {number}", on("k", PLAIN_OBJECT, "v", below_it, "k", called(name), "k", called(name), "v", below_it, "d", called(name), "k", below_it, "v", below_it)


def conversations():
    """Each conversation: what it is, the options, and the messages."""
    for what, messages in (*of_known(), *of_verdicts(), *of_messages(), *of_names()):
        yield what, {}, messages
    for what, messages in (*of_known(), *of_verdicts(), *of_names()):
        yield what, {"is_json": True}, messages
        yield what, {"release": 21}, messages
    lambdas = on(*known("java.lang.Object"), "v", sample("Lambdas"), "d", sample("Lambdas"), "k", NEWER, "v", NEWER, "k", OLDER, "v", OLDER)
    for options in ({}, {"dynamic": True}, {"release": 7}, {"release": 21}, {"release": 17, "dynamic": True}, {"dynamic": True, "is_json": True}, {"release": 21, "is_json": True}):
        yield "versions and invokedynamic", options, lambdas


# The classes of random conversations. Some of them hold others than their neighbours of one name.
POOL = [
    PLAIN_OBJECT, OBJECT_CLASS, BYTES, FALLS, MISSES, CUT, EMPTY, X, Y, Z, X_BELOW_Y, Y_BELOW_X, K_BELOW_Y, Y_BELOW_K, ARRAY_CLASS, ARRAY_INTERFACE, LOW_INTERFACE, NEWER,
    with_code(code_of("pop; return")).data(), fine("L"), *(below(*it) for it in ("AB", "BC", "CA", ("C", OBJECT), ("A", "K"))),
    *(library(it) for it in ("java.lang.Object", "java.lang.Enum", "java.lang.Throwable", "java.lang.Exception", "java.lang.RuntimeException")),
    *(sample(it) for it in ("Shapes$Colour", "Shapes$Colour$1", "Shapes$Shape", "Shapes$Square", "Shapes$Painted", "Shapes", "Flow", "Flow$Trouble", "Hello", "Sums")),
]


def random_messages(chance):
    """A few messages about a few classes of the pool; most know an Object at first."""
    pool = [*chance.sample(POOL, chance.randint(3, 10)), *chance.sample(POOL[:2], 1)]
    messages = [(b"k", pool[-1])] if chance.random() < 0.7 else []
    for _ in range(chance.randint(3, 20)):
        kind = chance.choices("kvdxf", (8, 6, 6, 2, 1))[0].encode()
        messages.append((kind, b"" if kind == b"f" else chance.choice(pool)))
    return messages
