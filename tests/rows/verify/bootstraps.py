"""Classes with bootstrap methods that `invokedynamic`, `ldc`, `ldc_w` and `ldc2_w` use, and what `classck verify`, `play`
and `explain` say of each, with --dynamic and without: JVMS 4.4.10, 4.7.23 and table 4.4-C."""
from dataclasses import replace

from rows.known import KNOWN_OF_CALL_SITES
from rows.verify.handlers import handler
from rows.verify.references import Constants, assembled
from tools.assembler import STATIC, attribute, code_attribute, member
from tools.class_k import K, code_f, method_f
from tools.stack_maps import stack_map_of

# A method that asks for the bootstrap method of a number: descriptor, max_stack and max_locals; code.
USES = (
    ("()V 0 0", "invokedynamic [site f ()V {}] 0 0; return"),
    ("()V 1 0", "ldc [computed I {}]; pop; return"),
    ("()V 1 0", "ldc_w [computed LA; {}]; pop; return"),
    ("()V 2 0", "ldc2_w [computed J {}]; pop2; return"),
)
REFUSED = "refused 90 at 0"
# The attributes of the class: the entries of each, as Constants.bootstraps takes them, with `+` between attributes and
# bytes in brackets after entries; the number that is asked, and the verdict of each use with --dynamic.
ROWS = f"""
# the class has exactly one such attribute
no attribute | 0 | {REFUSED}
handle | 0 | verified
handle + handle | 0 | {REFUSED}
handle + | 0 | {REFUSED}
handle + handle + handle | 0 | {REFUSED}
# it is laid out as its counts say, up to its end
handle [00] | 0 | {REFUSED}
handle [0000] | 0 | {REFUSED}
bytes | 0 | {REFUSED}
bytes 00 | 0 | {REFUSED}
bytes 0001 | 0 | {REFUSED}
bytes 0001 HANDLE | 0 | {REFUSED}
bytes 0001 HANDLE 00 | 0 | {REFUSED}
bytes 0001 HANDLE 0000 | 0 | verified
bytes 0002 HANDLE 0000 | 0 | {REFUSED}
bytes 0001 HANDLE 0001 | 0 | {REFUSED}
bytes 0001 HANDLE 0001 HANDLE | 0 | verified
# it has an entry of the number, which counts from 0
 | 0 | {REFUSED}
handle | 1 | {REFUSED}
handle | 65535 | {REFUSED}
handle; handle | 1 | verified
handle; handle | 2 | {REFUSED}
# whose handle is a MethodHandle
class A | 0 | {REFUSED}
method A f ()V | 0 | {REFUSED}
method_type | 0 | {REFUSED}
computed I | 0 | {REFUSED}
0 | 0 | {REFUSED}
999 | 0 | {REFUSED}
65535 | 0 | {REFUSED}
# and whose static arguments are constants that may be loaded
handle: int | 0 | verified
handle: float | 0 | verified
handle: long | 0 | verified
handle: double | 0 | verified
handle: class A | 0 | verified
handle: string | 0 | verified
handle: handle | 0 | verified
handle: method_type | 0 | verified
handle: computed I | 0 | verified
handle: string, int, int, computed J, handle, method_type | 0 | verified
handle: name_and_type f ()V | 0 | {REFUSED}
handle: text A | 0 | {REFUSED}
handle: field A x I | 0 | {REFUSED}
handle: method A f ()V | 0 | {REFUSED}
handle: interface I f ()V | 0 | {REFUSED}
handle: site f ()V | 0 | {REFUSED}
handle: 0 | 0 | {REFUSED}
handle: 999 | 0 | {REFUSED}
handle: 65535 | 0 | {REFUSED}
handle: text A, int, int | 0 | {REFUSED}
handle: int, text A, int | 0 | {REFUSED}
handle: int, int, text A | 0 | {REFUSED}
class A: int | 0 | {REFUSED}
# nothing is asked of the other entries
class A; handle | 1 | verified
handle; handle: text A | 0 | verified
handle; class A | 1 | {REFUSED}
handle: int; handle: 0; handle: int | 1 | {REFUSED}
"""

# Instructions that break several conditions. The attributes; descriptor, max_stack and max_locals; code; the stack map and
# an entry of the exception table, by words, where there are any; verdict with --dynamic, and without.
IN_ORDER = """
# 66 goes before 90: another constant, another width, and names that are none of a call site
no attribute | ()J 2 0 | ldc [computed J]; lreturn | | refused 66 at 0 | refused 60 at 0
no attribute | ()V 2 0 | ldc_w [computed D]; pop2; return | | refused 66 at 0 | refused 60 at 0
no attribute | ()V 2 0 | ldc2_w [computed I]; pop2; return | | refused 66 at 0 | refused 60 at 0
class A | ()V 2 0 | ldc2_w [computed LA;]; pop2; return | | refused 66 at 0 | refused 60 at 0
no attribute | ()V 0 0 | invokedynamic [site <init> ()V] 0 0; return | | refused 66 at 0 | refused 60 at 0
class A | ()V 0 0 | invokedynamic [site <clinit> ()V] 0 0; return | | refused 66 at 0 | refused 60 at 0
no attribute | ()V 1 0 | invokedynamic [computed I] 0 0; return | | refused 66 at 0 | refused 60 at 0
no attribute | ()V 1 0 | invokedynamic [method A f ()V] 0 0; return | | refused 66 at 0 | refused 60 at 0
no attribute | ()V 1 0 | ldc [site f ()V]; pop; return | | refused 66 at 0 | refused 66 at 0
# 90 goes before what is asked of the stack: 61, 62, 65 and 77
no attribute | ()V 1 0 | invokedynamic [site f (LA;)V] 0 0; return | | refused 90 at 0 | refused 60 at 0
handle | ()V 1 0 | invokedynamic [site f (LA;)V] 0 0; return | | refused 61 at 0 | refused 60 at 0
no attribute | (I)V 1 1 | iload_0; invokedynamic [site f (LA;)V] 0 0; return | | refused 90 at 1 | refused 60 at 1
handle | (I)V 1 1 | iload_0; invokedynamic [site f (LA;)V] 0 0; return | | refused 62 at 1 | refused 60 at 1
no attribute | ()V 0 0 | invokedynamic [site f ()I] 0 0; return | | refused 90 at 0 | refused 60 at 0
handle | ()V 0 0 | invokedynamic [site f ()I] 0 0; return | | refused 65 at 0 | refused 60 at 0
no attribute | ()V 0 0 | ldc [computed I]; return | | refused 90 at 0 | refused 60 at 0
no attribute | ()V 1 0 | ldc2_w [computed J]; return | | refused 90 at 0 | refused 60 at 0
no attribute | (LA;)V 1 1 | aload_0; invokedynamic [site f (LD;)V] 0 0; return | | refused 90 at 1 | refused 60 at 1
handle | (LA;)V 1 1 | aload_0; invokedynamic [site f (LD;)V] 0 0; return | | refused 77 at 1 missing D | refused 60 at 1
# beside it, of one instruction the least number is told: 71, 73 and the 77 of a handler go before 90
no attribute | ()V 0 0 | invokedynamic [site f ()V] 0 0 | | refused 71 at 0 | refused 60 at 0
no attribute | ()V 1 0 | ldc [computed I] | | refused 71 at 0 | refused 60 at 0
no attribute | ()V 1 0 | invokedynamic [site f ()V] 0 0; return; pop; return | 6 same1 int entry 0 5 6 any | refused 73 at 0 | refused 60 at 0
no attribute | ()V 1 0 | invokedynamic [site f ()V] 0 0; return; pop; return | 6 same1 class D entry 0 5 6 any | refused 77 at 0 missing D | refused 60 at 0
no attribute | ()V 1 0 | invokedynamic [site f ()V] 0 0; return; pop; return | 6 same1 class java/lang/Throwable entry 0 5 6 any | refused 90 at 0 | refused 60 at 0
handle | ()V 1 0 | invokedynamic [site f ()V] 0 0; return; pop; return | 6 same1 class java/lang/Throwable entry 0 5 6 any | verified | refused 60 at 0
# code that control does not reach, and the first instruction that is at fault
no attribute | ()V 0 0 | return; invokedynamic [site f ()V] 0 0; return | | refused 70 at 1 | refused 70 at 1
no attribute | ()V 0 0 | return; invokedynamic [site f ()V] 0 0; return | 1 same | refused 90 at 1 | refused 60 at 1
no attribute | ()V 0 0 | pop; invokedynamic [site f ()V] 0 0; return | | refused 61 at 0 | refused 61 at 0
handle | ()V 0 0 | invokedynamic [site f ()V] 0 0; invokedynamic [site f ()V 1] 0 0; return | | refused 90 at 5 | refused 60 at 0
# where no instruction asks, nothing is said of the attribute
bytes ff | ()V 0 0 | return | | verified | verified
class A: 0 | ()I 1 0 | ldc [int]; ireturn | | verified | verified
handle + handle | ()Ljava/lang/invoke/MethodHandle; 1 0 | ldc [handle]; areturn | | verified | verified
"""

# The attributes; descriptor, max_stack and max_locals; code; the lines of `explain --dynamic`. The frame before the
# instruction is that of a static method after the instructions in front of it.
EXPLAINED = """
no attribute | ()V 0 0 | invokedynamic [site f ()V] 0 0; return | method f ()V refused 90 at 0 | SENTENCE | stack 0 locals 0 | 0 invokedynamic #11 | constant 11 InvokeDynamic 0 #10 f ()V | locals | stack
handle | (I)V 3 1 | iload_0; ldc2_w [computed J 1]; pop2; pop; return | method f (I)V refused 90 at 1 | SENTENCE | stack 3 locals 1 | 1 ldc2_w #11 | constant 11 Dynamic 1 #10 d J | locals int | stack int
class A | ()V 1 0 | ldc [computed I]; pop; return | method f ()V refused 90 at 0 | SENTENCE | stack 1 locals 0 | 0 ldc #11 | constant 11 Dynamic 0 #10 d I | locals | stack
handle: text A | ()V 1 0 | ldc_w [computed LA;]; pop; return | method f ()V refused 90 at 0 | SENTENCE | stack 1 locals 0 | 0 ldc_w #11 | constant 11 Dynamic 0 #10 d LA; | locals | stack
"""
SENTENCE = "90 BadBootstrap: the class has no bootstrap method for the constant, or one whose handle or arguments may not be used"


def attributes_of(words, constants):
    """The BootstrapMethods attributes of a class; in bytes HANDLE is the index of a method handle."""
    if words == "no attribute":
        return []
    if words.startswith("bytes"):
        data = bytes.fromhex(words.removeprefix("bytes").replace("HANDLE", f"{constants.named('handle'):04x}"))
        return [attribute(constants.text("BootstrapMethods"), data)]
    found = []
    for it in words.split("+"):
        entries, _, behind = it.partition("[")
        found.append(constants.bootstraps(entries, bytes.fromhex(behind.strip(" ]"))))
    return found


def rows_of(table):
    for line in table.strip("\n").splitlines():
        if not line.startswith("#"):
            yield [it.strip() for it in line.split("|")]


def class_of(attributes, sizes, code, parts=""):
    """The files of a class with one method, and the beginning of the line on it."""
    descriptor, stack, variables = sizes.split()
    body, _, entry = (it.strip() for it in parts.partition("entry"))
    constants = Constants(descriptor)
    data = assembled(code, constants)
    nested = [attribute(constants.text("StackMapTable"), stack_map_of(body, constants.owner))] if body else []
    handlers = [handler(entry, constants)] if entry else []
    method = method_f(code_f(data, stack=int(stack), variables=int(variables), handlers=handlers, nested=nested), flags=STATIC)
    given = attributes_of(attributes, constants)
    return [replace(K, constants=constants.items, methods=[method], attributes=given, major=55).data(), *KNOWN_OF_CALL_SITES], f"method f {descriptor}"


def in_two_methods():
    """A class whose first and third method use its first bootstrap method, and whose second one its second, which names a
    text."""
    constants = Constants("()V")
    methods = [
        member(STATIC, constants.text(name), 6, code_attribute(7, assembled(f"invokedynamic [site f ()V {number}] 0 0; return", constants)))
        for name, number in (("f", 0), ("g", 1), ("h", 0))
    ]
    k = replace(K, constants=constants.items, methods=methods, attributes=[constants.bootstraps("handle; handle: int, text A")], major=55)
    return [k.data(), *KNOWN_OF_CALL_SITES]


def bootstraps():
    """A name for each class, the command, its files, and the lines that are printed."""
    for attributes, number, verdict in rows_of(ROWS):
        for place, (sizes, code) in enumerate(USES):
            code = code.format(number)
            files, method = class_of(attributes, sizes, code)
            what = f"{attributes} beside {code}"
            yield what, "verify --dynamic", files, f"{method} {verdict}"
            if place == 0:
                yield what, "verify", files, f"{method} refused 60 at 0"
                yield what, "play --dynamic", files, "play verified" if verdict == "verified" else f"class 1 {method} {verdict}"
    for attributes, sizes, code, parts, judged, refused in rows_of(IN_ORDER):
        files, method = class_of(attributes, sizes, code, parts)
        for command, verdict in (("verify --dynamic", judged), ("verify", refused)):
            yield f"{attributes} beside {code} {parts}", command, files, f"{method} {verdict}"
    for attributes, sizes, code, *lines in rows_of(EXPLAINED):
        files, _ = class_of(attributes, sizes, code)
        yield f"{attributes} beside {code}", "explain --dynamic", files, "\n  ".join(lines).replace("SENTENCE", SENTENCE)
    files, what = in_two_methods(), "an entry that may be used and one that may not"
    yield what, "verify --dynamic", files, "method f ()V verified\nmethod g ()V refused 90 at 0\nmethod h ()V verified"
    yield what, "play --dynamic", files, "class 1 method g ()V refused 90 at 0"
    yield what, "verify", files, "\n".join(f"method {it} ()V refused 60 at 0" for it in "fgh")
