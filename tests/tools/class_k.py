"""The class K, and classes that are K but for a part."""
from dataclasses import replace

from tools.assembler import OBJECT, ClassFile, attribute, class_info, code_attribute, member, named, u2, utf8

RETURN = b"\xb1"
# The constants of K: its name at 2, its superclass's at 4, the name and descriptor of its method at 5 and 6.
CONSTANTS = [class_info(2), utf8("K"), class_info(4), utf8(OBJECT), utf8("f"), utf8("()V"), utf8("Code")]


def method_f(*attributes, flags=0x0009):
    """The method of K with these attributes; it is public and static where no other flags are said."""
    return member(flags, 5, 6, *attributes)


def code_f(code=RETURN, **parts):
    """Its Code attribute with these parts of `code_attribute`; a `return` where no other code is said."""
    return code_attribute(7, code, **parts)


def stack_map(name):
    """A StackMapTable of no frames, by the index of its name."""
    return attribute(name, u2(0))


K = ClassFile(CONSTANTS, methods=[method_f(code_f())])
# Its 97 bytes, and the 46 of java/lang/Object without members.
BYTES, PLAIN_OBJECT = K.data(), named(OBJECT, above=None).data()
# The class java/lang/Object that declares the method clone, which is protected and native.
OBJECT_CLASS = replace(
    named(OBJECT, above=None),
    constants=[*named(OBJECT, above=None).constants, utf8("clone"), utf8("()Ljava/lang/Object;")],
    methods=[member(0x0104, 3, 4)],
).data()


def with_constants(*more):
    """K with more constants after its own, from 8 on."""
    return replace(K, constants=CONSTANTS + list(more))


def with_constant(index, constant):
    """K with another constant at this index."""
    return replace(K, constants=CONSTANTS[: index - 1] + [constant] + CONSTANTS[index:])


def with_method(method):
    """K with another method."""
    return replace(K, methods=[method])


def with_code(code=RETURN, **parts):
    """K with another Code attribute; see `code_f`."""
    return with_method(method_f(code_f(code, **parts)))
