"""Methods that override a final one of a class above (JVMS 4.10, 5.4.5), and what `classck` says of their class with a release. Without one none is refused
by 85."""
from dataclasses import replace

from tools.assembler import NATIVE, member, named, utf8

ABSTRACT = 0x0400
SENTENCE = "FinalOverridden: the method overrides a final method of a class above, which it may not"
# Classes that stand above: their name and superclass, and their methods by flags, name and descriptor. All methods are native, and those of
# interfaces abstract.
ABOVE = """
java/lang/Object: 0011 getClass ()Ljava/lang/Class;, 0011 notify ()V
p/A below java/lang/Object: 0011 m (I)V, 0014 k ()V, 0010 n ()V, 0012 h ()V, 0018 s ()V, 0001 o ()V
p/B below p/A: 0001 other ()V
q/B below p/A: 0002 m (I)V, 0011 own ()V
"""
# The class that is judged, written so, and the first method that overrides a final one, if one does.
ROWS = """
p/K below p/A: 0001 m (I)V | 0
q/K below p/A: 0001 m (I)V | 0
q/K below p/A: 0004 m (I)V | 0
q/K below p/A: 0000 m (I)V | 0
q/K below p/A: 0011 m (I)V | 0
q/K below p/A: 0004 k ()V | 0
q/K below p/A: 0001 k ()V, 0001 m (I)V | 0
# a static or private method overrides nothing
q/K below p/A: 0009 m (I)V |
q/K below p/A: 0002 m (I)V |
q/K below p/A: 0008 m (I)V, 0002 k ()V, 0001 k ()I |
# nor is it overridden, final or not
p/K below p/A: 0001 h ()V, 0001 s ()V |
p/K below p/A: 0001 o ()V |
# another name, or another descriptor
p/K below p/A: 0001 l (I)V, 0001 m ()V, 0001 m (I)I, 0001 mm (I)V |
# a final method that is neither public nor protected, by the package
p/K below p/A: 0001 n ()V | 0
q/K below p/A: 0001 n ()V |
K below p/A: 0001 n ()V |
p/p/K below p/A: 0001 n ()V |
# two classes up
p/K below p/B: 0001 m (I)V | 0
p/K below q/B: 0001 n ()V | 0
q/K below q/B: 0001 n ()V |
q/K below p/B: 0001 n ()V |
q/K below q/B: 0001 own ()V | 0
# a private one of this name between
q/K below q/B: 0001 m (I)V | 0
# the first that does
p/K below p/A: 0001 l ()V, 0009 m ()V, 0001 o ()V, 0001 n ()V, 0001 m (I)V | 3
p/K below p/A: 0001 l ()V, 0001 notify ()V | 1
K below java/lang/Object: 0001 notify ()V | 0
K below java/lang/Object: 0001 notify (I)V |
interface K below java/lang/Object: 0001 notify ()V | 0
interface K below java/lang/Object: 0001 notify (I)V |
# its own methods do not count
K below java/lang/Object: 0011 m (I)V, 0011 m ()V |
"""


def class_of(text):
    """The class that these words name, and its methods."""
    own, _, methods = text.partition(":")
    is_interface = own.strip().startswith("interface ")
    name, _, above = own.strip().removeprefix("interface ").partition(" below ")
    it = named(name, above=above or None, flags=0x0601 if is_interface else 0x0021)
    constants, made = list(it.constants), []
    for method in filter(None, (it.strip() for it in methods.split(","))):
        flags, called, descriptor = method.split()
        constants += [utf8(called), utf8(descriptor)]
        made.append(member(int(flags, 16) | (ABSTRACT if is_interface else NATIVE), len(constants) - 1, len(constants)))
    return replace(it, constants=constants, methods=made).data()


def lines_of(text):
    """The lines of `verify` about the methods of a class none of which is refused."""
    return "".join(f"method {it.strip().split(maxsplit=1)[1]} no code\n" for it in text.partition(":")[2].split(","))


def rows():
    """The words of each class, its bytes, and the number of the method that overrides a final one, if one does."""
    for line in ROWS.strip().splitlines():
        if not line.startswith("#"):
            words, _, number = line.partition("|")
            yield words.strip(), class_of(words), int(number) if number.strip() else None


def finals():
    """A name for each row, the command, the class and those above it, and the text, with a release and without one."""
    known = [class_of(it) for it in ABOVE.strip().splitlines()]
    for words, data, number in rows():
        refused = None if number is None else f"class refused 85 method {number}\n"
        for command in ("verify --release 8", "verify --release 17", "verify --release 27", "verify", "verify --dynamic"):
            yield words, command, [data, *known], refused if refused and "--release" in command else lines_of(words)
        if refused:
            name = words.partition(" below")[0].split()[-1]
            method = words.partition(":")[2].split(",")[number].split()
            yield words, "play --release 17", [known[0], data, *known[1:]], f"class 2 refused 85 method {number}\n"
            flags = int(method[0], 16) | (ABSTRACT if words.startswith("interface ") else NATIVE)
            part = f"  method {flags:04x} {method[1]} {method[2]}\n"
            yield words, "explain --release 17", [data, *known], f"{refused}  85 {SENTENCE}\n{part}"
