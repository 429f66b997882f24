"""Classes in play, and what `classck play` says of them: JVMS 2.6, 2.10, 4.10.1 and 5.3.5."""
from dataclasses import replace

from rows.verify.handlers import handler
from rows.verify.references import Constants, assembled
from rows.worked import FINAL_OBJECT, changed
from tools.assembler import OBJECT, STATIC, attribute, code_attribute, member, named, utf8
from tools.class_k import BYTES, K, OBJECT_CLASS, PLAIN_OBJECT
from tools.stack_maps import stack_map_of

THROWABLE = named("java/lang/Throwable").data()


def class_of(name, *methods, above=OBJECT, flags=0x0021):
    """A class with these methods, each by its flags, name, descriptor, max_stack, max_locals and code, and with a stack map and an exception
    table where there are more."""
    constants = Constants("()V")
    constants.items[1], constants.items[3] = utf8(name), utf8(above)
    found = []
    for access, called, descriptor, stack, variables, code, *more in methods:
        data = assembled(code, constants)
        nested = [attribute(constants.text("StackMapTable"), stack_map_of(more[0], constants.owner))] if more else []
        handlers = [handler(it, constants) for it in more[1:]]
        body = code_attribute(7, data, stack=stack, variables=variables, handlers=handlers, nested=nested)
        found.append(member(access, constants.text(called), constants.text(descriptor), body))
    return replace(K, constants=constants.items, methods=found, flags=flags).data()


# Two classes whose methods call each other.
EVEN = class_of("Even", (STATIC, "f", "(I)I", 1, 1, "iload_0; invokestatic [method Odd f (I)I]; ireturn"))
ODD = class_of("Odd", (STATIC, "f", "(I)I", 1, 1, "iload_0; invokestatic [method Even f (I)I]; ireturn"))
# The first method calls the second, that the third, which throws what the first one catches.
CATCHING = class_of(
    "Catching",
    (STATIC, "f", "(Ljava/lang/Throwable;)V", 1, 1, "aload_0; invokestatic [method Catching g (Ljava/lang/Throwable;)V]; return; pop; return",
     "5 same1 class java/lang/Throwable", "0 4 5 java/lang/Throwable"),
    (STATIC, "g", "(Ljava/lang/Throwable;)V", 1, 1, "aload_0; invokestatic [method Catching h (Ljava/lang/Throwable;)V]; return"),
    (STATIC, "h", "(Ljava/lang/Throwable;)V", 1, 1, "aload_0; athrow"),
)
# Constructors, of which one calls that of the class above; a method makes an object and hands it on once its constructor has returned.
SINGLE = class_of("Single", (1, "<init>", "()V", 1, 1, "aload_0; invokespecial [method java/lang/Object <init> ()V]; return"))
MAKING = class_of(
    "Making", (STATIC, "f", "()LSingle;", 2, 0, "new [class Single]; dup; invokespecial [method Single <init> ()V]; areturn")
)
EARLY = class_of("Early", (1, "<init>", "()V", 1, 1, "return"))
# A class whose second method is refused, and one that may not be extended.
SECOND = class_of("Second", (STATIC, "f", "()V", 0, 0, "return"), (STATIC, "g", "()V", 0, 0, "nop"))
LAST = class_of("Last", flags=0x0031)
BELOW = class_of("Below", above="Last")
JSR = class_of("Jsr", (STATIC, "f", "()V", 1, 0, "jsr 3; return"))
ABSENT = class_of("Absent", (STATIC, "f", "(LA;)LB;", 1, 1, "aload_0; areturn"))
NOP = changed((90, 0))


def object_class():
    """Object with a constructor, which has no superclass."""
    constants = Constants("()V")
    constants.items[1] = utf8(OBJECT)
    method = member(1, constants.text("<init>"), constants.text("()V"), code_attribute(7, assembled("return", constants), variables=1))
    return replace(K, constants=constants.items, super_class=0, methods=[method]).data()


# Rows: a description, the files, and the line that is printed.
ROWS = (
    ("K and Object", [BYTES, PLAIN_OBJECT], "play verified"),
    ("Object", [PLAIN_OBJECT], "play verified"),
    ("K whose code is a nop, and Object", [NOP, PLAIN_OBJECT], "class 1 method f ()V refused 71 at 0"),
    ("K and a final Object", [BYTES, FINAL_OBJECT], "class 1 refused 81"),
    ("Object and K", [PLAIN_OBJECT, BYTES], "play verified"),
    # files, each before all that is said of classes
    ("a cut K", [BYTES[:96], PLAIN_OBJECT], "class 1 refused 2 at 95"),
    ("a nop, and Object cut", [NOP, PLAIN_OBJECT[:45]], "class 2 refused 2 at 44"),
    ("K whose superclass is no class, and Object cut", [changed((59, 2)), PLAIN_OBJECT[:45]], "class 1 refused 21 class"),
    ("Object cut, and K whose superclass is no class", [PLAIN_OBJECT[:45], changed((59, 2))], "class 1 refused 2 at 44"),
    # the hierarchy of all
    ("K", [BYTES], "hierarchy refused 42 K"),
    ("K and Object twice", [BYTES, PLAIN_OBJECT, PLAIN_OBJECT], "hierarchy refused 40 java/lang/Object"),
    ("a nop without Object", [NOP], "hierarchy refused 42 K"),
    # the first class that is at fault
    ("a class below a final one", [OBJECT_CLASS, LAST, BELOW], "class 3 refused 81"),
    ("a class below a final one in front of it", [BELOW, LAST, OBJECT_CLASS], "class 1 refused 81"),
    ("a method that is refused before a final superclass", [NOP, BELOW, LAST, OBJECT_CLASS], "class 1 method f ()V refused 71 at 0"),
    ("a final superclass before a method that is refused", [BELOW, NOP, LAST, OBJECT_CLASS], "class 1 refused 81"),
    ("two classes with methods that are refused", [OBJECT_CLASS, SECOND, NOP], "class 2 method g ()V refused 71 at 0"),
    ("a method whose instruction has no rule", [JSR, OBJECT_CLASS], "class 1 method f ()V refused 60 at 0"),
    ("a method that needs a class which is missing", [ABSENT, OBJECT_CLASS], "class 1 method f (LA;)LB; refused 77 at 1 missing B"),
    # classes that are verified
    ("two classes that call each other", [EVEN, ODD, OBJECT_CLASS], "play verified"),
    ("an exception that crosses three activations", [CATCHING, THROWABLE, OBJECT_CLASS], "play verified"),
    # Throwable is below itself, known or not
    ("an exception, without Throwable", [CATCHING, OBJECT_CLASS], "play verified"),
    ("constructors", [MAKING, SINGLE, object_class()], "play verified"),
    ("a constructor that calls none", [EARLY, OBJECT_CLASS], "class 1 method <init> ()V refused 74 at 0"),
)
