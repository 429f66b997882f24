"""Classes of very many methods below ones with very many final methods, and very many classes with a final method each, for `bench/hostile`."""
from class_bytes import Constants, class_of_members, member
from shapes.long_texts import LONGEST

OBJECT = b"java/lang/Object"
FINAL, PUBLIC, NATIVE = 0x10, 0x1, 0x100
LONG_NAME = b"m" * LONGEST
MANY, IN_LINE = 32_500, 30_000


def declaring(name, above, methods, flags=PUBLIC):
    """A class of native methods with these names and descriptors."""
    constants = Constants()
    return class_of_members(constants, name, above, methods=[member(constants, flags | NATIVE, *it) for it in methods])


def named(count):
    return [(b"m%d" % i, b"()V") for i in range(count)]


def overloaded(count):
    """Methods of one name of the greatest length, each with a descriptor of its own."""
    return [(LONG_NAME, b"(LC%d;)V" % i) for i in range(count)]


def last_of(methods, others):
    """K with these methods and then `last`, below A with the others and `last`, which are final."""
    last = [(b"last", b"()V")]
    return [declaring(b"K", b"A", methods + last), declaring(b"A", OBJECT, others + last, PUBLIC | FINAL)], b"class refused 85 method %d\n" % len(methods)


def above_all(count):
    """K with a method that the last of so many classes in one line declares final."""
    names = [b"p/s%d" % i for i in range(count)]
    classes = [declaring(*it, []) for it in zip(names, names[1:])]
    return [declaring(b"K", names[0], [(b"m", b"()V")]), *classes, declaring(names[-1], OBJECT, [(b"m", b"()V")], PUBLIC | FINAL)], b"class refused 85 method 0\n"


# by name: the class and those that are known beside Object, and what `verify --release 17` prints
FILES = {
    "32,500 methods below as many final ones of other names": lambda: last_of([(b"n%d" % i, b"()V") for i in range(MANY)], named(MANY)),
    "methods of one name of 65,535 bytes, below final ones of other descriptors": lambda: last_of(overloaded(20_000), [(it, b"(I" + of[1:]) for it, of in overloaded(20_000)]),
    "a method below 40,000 classes, of which the last has a final one": lambda: above_all(40_000),
}


def in_line(method, flags):
    """Classes in one line of superclasses, each in a package of its own, each with a final method."""
    names = [b"p%d/C" % i for i in range(IN_LINE)] + [OBJECT]
    classes = [declaring(names[i], names[i + 1], [method(i)], flags | FINAL) for i in range(IN_LINE)]
    lines = b"".join(b"file %d %s\nmethod %s %s no code\n" % (i + 1, names[i], *method(i)) for i in range(IN_LINE))
    return classes, lines


# by name: the classes, and what `verify-each --release 17` prints
EACH = {
    "30,000 classes in one line, each with a final method of its own name": lambda: in_line(lambda i: (b"m%d" % i, b"()V"), PUBLIC),
    "30,000 classes in one line, each with a final method of one name for its package alone": lambda: in_line(lambda i: (b"m", b"()V"), 0),
}
