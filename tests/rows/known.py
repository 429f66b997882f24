"""The classes that the rows give the program as known beside the class at hand."""
from tools.assembler import named
from tools.class_k import OBJECT_CLASS

ABSTRACT_INTERFACE = 0x0600
# I is an interface, all others are classes below Object. B is absent.
KNOWN = [
    OBJECT_CLASS,
    named("java/lang/Throwable").data(),
    named("A").data(),
    named("I", flags=ABSTRACT_INTERFACE).data(),
    named("C", above="A").data(),
]
# With B, and with what code of call sites names.
KNOWN_OF_CALL_SITES = [*KNOWN, named("B").data(), named("java/lang/String").data(), named("java/lang/Runnable", flags=ABSTRACT_INTERFACE).data()]
