"""Methods and lists of classes, and what `classck verify` says of each: JVMS 4.10.1 and 5.3.5."""
from dataclasses import replace

from rows.verify.handlers import with_handlers
from rows.verify.limits import with_limits
from rows.verify.local_variables import with_local_variables
from rows.verify.objects import with_objects
from rows.verify.opcodes import with_opcodes
from rows.verify.protected import with_protected
from rows.verify.references import with_references
from tools.assembler import NATIVE, OBJECT, STATIC, attribute, code_of, integer, long, name_and_type, named, reference, utf8
from tools.class_k import K, OBJECT_CLASS, code_f, method_f, with_constant
from tools.stack_maps import stack_map_of

CLONEABLE = "java/lang/Cloneable"

# Static methods `f` of a class with the constants of `class_of`: descriptor, max_stack and max_locals; code; verdict.
VERDICTS = """
()V  0 0 | return | verified
()V  1 0 | iconst_0; pop; return | verified
()V  0 0 | nop; return | verified
()V  0 0 | nop | refused 71 at 0
()V  1 0 | pop; return | refused 61 at 0
()V  0 0 | return; nop; return | refused 70 at 1
()V  0 0 | nop; bytes ca | refused 79 at 1 fault 31
()V  0 0 | bytes 12 | refused 79 at 0 fault 32
()V  0 0 | bytes ab 000000 0000000c ffffffff | refused 79 at 0 fault 33
()V  0 0 | bytes c400 | refused 79 at 0 fault 34
()V  0 0 | bytes b9 0001 01 01 | refused 79 at 0 fault 35
()V  0 0 | goto 3; return | refused 67 at 0
()V  0 0 | bytes a80003; return | refused 60 at 0
()V  0 0 | goto 1; return | refused 67 at 0
()V  0 0 | jsr 3; return | refused 60 at 0
# the parameters have to fit; a long takes two local variables, and half of it is none
(J)V 0 1 | return | refused 64 at 0
(J)V 0 2 | return | verified
(J)I 1 2 | iload_1; ireturn | refused 63 at 0
(J)J 2 2 | lload_0; lreturn | verified
(J)J 2 2 | iconst_0; istore_1; lload_0; lreturn | refused 63 at 2
(J)I 1 2 | iconst_0; istore_1; iload_1; ireturn | verified
(J)J 2 2 | iconst_0; istore_0; lload_0; lreturn | refused 63 at 2
# local variables
(I)I 2 2 | iload_0; iload_0; pop; ireturn | verified
(I)I 1 2 | iinc 0 1; iload_0; ireturn | verified
(F)V 1 2 | iinc 0 1; return | refused 63 at 0
(F)V 1 2 | iload_0; pop; return | refused 63 at 0
(F)V 1 2 | iload_1; pop; return | refused 63 at 0
(F)V 1 2 | iload_2; pop; return | refused 64 at 0
(F)V 1 2 | iconst_0; istore 1; return | verified
(F)V 1 2 | iconst_0; istore 2; return | refused 64 at 1
(F)V 2 2 | iconst_0; lstore 1; return | refused 62 at 1
(F)V 2 2 | lconst_0; lstore_1; return | refused 64 at 1
(F)V 2 2 | lconst_0; lstore_0; return | verified
# what the constants of numbers leave, and what they may be
()J  2 0 | lconst_0; lreturn | verified
()V  2 2 | lconst_0; istore_0; return | refused 62 at 1
()J  2 0 | ldc2_w 8; lreturn | verified
()V  2 0 | ldc2_w 10; pop2; return | refused 66 at 0
()V  2 0 | ldc2_w 11; pop2; return | refused 60 at 0
()V  1 0 | iconst_0; iconst_0; return | refused 65 at 1
()V  1 0 | lconst_0; return | refused 65 at 0
# what is computed
()I  2 0 | iconst_0; iconst_0; iadd; ireturn | verified
()V  1 0 | iconst_0; iadd; return | refused 61 at 1
()J  3 0 | lconst_0; iconst_0; lshl; lreturn | verified
()J  4 0 | lconst_0; lconst_0; lshl; lreturn | refused 62 at 2
()J  2 0 | iconst_0; i2l; lreturn | verified
()J  1 0 | iconst_0; i2l; lreturn | refused 65 at 1
()I  2 0 | iconst_0; l2i; ireturn | refused 62 at 1
# what is moved on the stack: two units may be a long, one may not
()V  2 0 | lconst_0; pop2; return | verified
()V  2 0 | lconst_0; pop; return | refused 62 at 1
()V  1 0 | iconst_0; pop2; return | refused 61 at 1
()V  4 0 | lconst_0; dup2; pop2; pop2; return | verified
()V  3 0 | lconst_0; dup2; pop2; pop2; return | refused 65 at 1
()V  3 1 | iconst_0; fconst_0; dup_x1; fstore_0; istore_0; fstore_0; return | verified
()V  3 1 | iconst_0; fconst_0; dup_x1; fstore_0; fstore_0; return | refused 62 at 4
()V  2 1 | iconst_0; fconst_0; swap; istore_0; fstore_0; return | verified
()V  2 1 | iconst_0; fconst_0; swap; fstore_0; return | refused 62 at 3
# results: small integers are computed as int; of an array only its elements are small
()Z  1 0 | iconst_0; ireturn | verified
()Z  1 0 | iconst_0; lreturn | refused 76 at 1
()Z  1 0 | iconst_0; return | refused 76 at 1
()V  1 0 | iconst_0; return | verified
()V  1 0 | iconst_0; ireturn | refused 76 at 1
([I)V 0 1 | return | verified
(La(b)c;J)I 1 3 | iconst_0; ireturn | verified
(I[La(b)c;J)[[Ld)e; 1 4 | iconst_0; ireturn | refused 76 at 1
(I[La(b)c;J)[[Ld)e; 1 4 | return | refused 76 at 0
"""

# Rows with a stack map by words in front of the verdict.
MAPPED = """
()V 0 0 | return | no frames | verified
# loops and branches
()V 1 1 | iconst_0; istore_0; iinc 0 1; iload_0; ifne -4; return | 2 append int | verified
()V 1 1 | iconst_0; istore_0; iinc 0 1; iload_0; ifne -4; return | 2 same | refused 63 at 2
()V 1 1 | iconst_0; istore_0; iinc 0 1; iload_0; ifne -4; return | no frames | refused 67 at 6
()V 1 0 | iconst_0; return | 1 same | refused 69 at 1
()V 0 0 | return; nop; return | no frames | refused 70 at 1
()V 0 0 | return; nop; return | 1 same | verified
()V 0 0 | goto 3; return | 3 same | verified
()V 0 0 | goto 3; nop | 3 same | refused 71 at 3
()V 0 0 | goto 3; return | no frames | refused 67 at 0
()V 0 0 | goto 4; nop; return | 4 same | refused 70 at 3
()V 0 0 | goto 4; nop; return | 3 same; 4 same | verified
()V 0 0 | goto -1; return | 3 same | refused 67 at 0
()V 0 0 | nop; goto -1 | 0 same | verified
()V 0 0 | bytes c800000005; return | 5 same | verified
()V 0 0 | bytes c87fffffff; return | 5 same | refused 67 at 0
()V 2 0 | lconst_0; goto 3; iconst_0; pop; return | 4 same1 top | refused 68 at 1
()V 2 0 | lconst_0; goto 3; pop2; return | 4 same1 long | verified
()V 1 0 | iconst_0; goto 3; pop; return | 4 same1 int | verified
()V 1 0 | iconst_0; goto 3; pop; return | 4 same | refused 68 at 1
()V 1 0 | ifeq 3; return | 3 same | refused 61 at 0
()V 1 0 | fconst_0; ifeq 3; return | 4 same | refused 62 at 1
()V 2 0 | iconst_0; iconst_1; if_icmplt 3; return | 5 same | verified
()V 2 0 | iconst_0; if_icmplt 3; return | 4 same | refused 61 at 1
()V 2 0 | iconst_0; fconst_0; if_icmplt 3; return | 5 same | refused 62 at 2
()V 1 0 | iconst_0; ifnull 3; return | 4 same | refused 62 at 1
# references come by the map alone: null, a class, an array, and an object that is not initialized
()V 1 0 | return; ifnull 3; return | 1 same1 null; 4 same | verified
()V 1 0 | return; ifnull 3; return | 1 same1 class K; 4 same | verified
()V 2 0 | return; if_acmpeq 3; return | 1 full [] [null, class K]; 4 same | verified
()V 2 0 | return; if_acmpeq 3; return | 1 full [] [null, int]; 4 same | refused 62 at 1
()V 2 0 | return; if_acmpeq 3; return | 1 same1 null; 4 same | refused 61 at 1
()V 1 0 | return; ifnonnull 3; return | 1 same1 int; 4 same | refused 62 at 1
# the least number of an instruction
()V 1 0 | ifeq 3 | no frames | refused 61 at 0
()V 1 0 | iconst_0; ifeq 3 | no frames | refused 67 at 1
()V 1 0 | iconst_0; goto 3; pop; goto -1 | 4 same1 int; 5 same | refused 68 at 5
# switches: the default's frame is compared as well
()V 1 0 | iconst_0; bytes aa 0000 00000013 00000000 00000000 00000013; return | 20 same | verified
()V 1 0 | iconst_0; bytes aa 0000 00000013 00000000 00000000 00000012; return | 20 same | refused 67 at 1
()V 1 0 | iconst_0; bytes aa 0000 00000012 00000000 00000000 00000013; return | 20 same | refused 67 at 1
()V 1 0 | iconst_0; bytes ab 0000 00000013 00000001 ffffffff 00000013; return | 20 same | verified
()V 1 0 | bytes ab 000000 00000014 00000001 ffffffff 00000014; return | 20 same | refused 61 at 0
()V 1 0 | lconst_0; bytes aa 0000 00000013 00000000 00000000 00000013; return | 20 same | refused 65 at 0
()V 2 0 | lconst_0; bytes aa 0000 00000013 00000000 00000000 00000013; return | 20 same | refused 62 at 1
# what the entries say: append, chop, full, and an item of the stack
(IJ)V 0 4 | nop; nop; nop; return | bytes 0003 fc00000100 | refused 78 at 0 fault 2
(IJ)V 0 4 | nop; nop; nop; return | 0 append top; 1 chop 1; 2 same | verified
(IJ)V 0 4 | nop; nop; nop; return | 0 chop 2; 1 append int; 2 same | refused 69 at 1
(IJ)V 0 4 | nop; nop; nop; return | 0 full [int, long] []; 1 same | verified
(IJ)V 0 4 | nop; nop; nop; return | 0 full [int, double] []; 1 same | refused 69 at 0
(IJ)V 1 4 | nop; nop; nop; return | 0 same1 int | refused 69 at 0
(IJ)V 0 4 | nop; return | 0 extended same | verified
(IJ)V 0 4 | nop; return | 1 extended same | verified
()V 1 0 | nop; iconst_0; pop; return | 2 extended same1 int | verified
()V 1 0 | nop; iconst_0; pop; return | 2 extended same1 float | refused 69 at 2
# a map that is refused: by its bytes, and by an entry
()V 0 0 | nop; return | bytes 00 | refused 78 at 0 fault 2
()V 0 0 | nop; return | bytes 0001 | refused 78 at 0 fault 2
()V 0 0 | nop; return | bytes 0001 80 | refused 78 at 0 fault 47
()V 0 0 | nop; return | bytes 0001 4009 | refused 78 at 0 fault 48
()V 0 0 | nop; return | bytes 0001 00 00 | refused 78 at 0 fault 12
()V 0 0 | nop; return | 0 append int | refused 78 at 0 fault 49
()V 0 1 | nop; return | 0 append long | refused 78 at 0 fault 49
()V 0 0 | nop; return | 0 same1 int | refused 78 at 0 fault 50
()V 1 0 | nop; return | 0 same1 long | refused 78 at 0 fault 50
()V 0 0 | nop; return | 0 chop 1 | refused 78 at 0 fault 51
()V 0 0 | bytes 1105 00; return | 1 same | refused 78 at 0 fault 52
()V 0 0 | nop; return | 5 same | refused 78 at 0 fault 52
()V 1 0 | nop; return | 0 same1 uninitialized 0 | refused 78 at 0 fault 53
()V 1 0 | nop; return | 0 same1 class #0 | refused 78 at 0 fault 8
()V 1 0 | nop; return | 0 same1 class #2 | refused 78 at 0 fault 9
()V 0 0 | return; new 3; pop; return | 1 same | refused 65 at 1
# the parameters go before the map, and the map before the code
(J)V 0 1 | return | bytes 00 | refused 64 at 0
()V 0 0 | pop | bytes 0001 | refused 78 at 0 fault 2
()V 0 0 | nop; bytes ca | bytes 0001 | refused 79 at 1 fault 31
"""


def class_of(descriptor, method, *more):
    """K of version 55 with this method; after the texts that it needs stand a Long, an int and a Dynamic of a long, from 8 on."""
    behind = [long(1), integer(5), reference(17, 0, 12), name_and_type(5, 13), utf8("J"), *more]
    constants = with_constant(6, utf8(descriptor)).constants + behind
    return replace(K, constants=constants, methods=[method], major=55).data()


def method_of(descriptor, stack, variables, code):
    """That class with a static method that has this code."""
    return class_of(descriptor, method_f(code_f(code_of(code), stack=int(stack), variables=int(variables)), flags=STATIC))


def verdicts():
    """A static method's descriptor and code, the class that has it alone, and its verdict."""
    for line in VERDICTS.strip().splitlines():
        if not line.startswith("#"):
            sizes, code, verdict = (it.strip() for it in line.split("|"))
            descriptor = sizes.split()[0]
            yield f"{sizes} {code}", [method_of(*sizes.split(), code), OBJECT_CLASS], f"method f {descriptor} {verdict}"


def mapped_verdicts():
    """Methods with a stack map, likewise."""
    for line in MAPPED.strip().splitlines():
        if not line.startswith("#"):
            sizes, code, body, verdict = (it.strip() for it in line.split("|"))
            descriptor, stack, variables = sizes.split()
            nested = [attribute(14, stack_map_of(body, {"K": K.this_class}.get))]
            method = method_f(code_f(code_of(code), stack=int(stack), variables=int(variables), nested=nested), flags=STATIC)
            files = [class_of(descriptor, method, utf8("StackMapTable")), OBJECT_CLASS]
            yield f"{sizes} {code} with {body}", files, f"method f {descriptor} {verdict}"


def without_code():
    """Methods without code."""
    for what, method, verdict in (
        ("a native method", method_f(flags=STATIC | NATIVE), "no code"),
    ):
        yield what, [class_of("()V", method, utf8("StackMapTable")), OBJECT_CLASS], f"method f ()V {verdict}"


def hierarchies():
    """Lists of classes, of which the first is verified."""
    k, cut = K.data(), named(OBJECT, above=None).data()[:45]
    a, b, x = (named(name, above).data() for name, above in (("A", "B"), ("B", "A"), ("X", "A")))
    own = [named(name, name).data() for name in ("B", "A")]
    below = [named(name).data() for name in ("A", "B")]
    below_a, final = with_constant(4, utf8("A")).data(), named(OBJECT, above=None, flags=0x0031).data()
    for what, files, line in (
        ("K below Object", [k, OBJECT_CLASS], "method f ()V verified"),
        ("no Object", [k], "hierarchy refused 42 K"),
        ("Object twice", [k, OBJECT_CLASS, OBJECT_CLASS], "hierarchy refused 40 java/lang/Object"),
        ("A and B twice", [k, OBJECT_CLASS, *below, *reversed(below)], "hierarchy refused 40 A"),
        ("X below A and B, which are below each other", [k, x, a, b], "hierarchy refused 41 A"),
        ("X below A, and A and B below themselves", [k, x, *own], "hierarchy refused 41 B"),
        ("A below B, which is missing", [k, OBJECT_CLASS, a], "hierarchy refused 42 A"),
        ("Cloneable as a class", [k, OBJECT_CLASS, named(CLONEABLE).data()], f"hierarchy refused 44 {CLONEABLE}"),
        ("Cloneable as an interface", [k, OBJECT_CLASS, named(CLONEABLE, flags=0x0601).data()], "method f ()V verified"),
        ("K below Object, which is final", [k, final], "class refused 81"),
        ("K below A, which is final", [below_a, named("A", flags=0x0031).data(), OBJECT_CLASS], "class refused 81"),
        ("a class without methods below a final one", [named("A").data(), final], "class refused 81"),
        ("K below A, which is below a final Object", [below_a, named("A").data(), final], "method f ()V verified"),
        ("K, which is final", [replace(K, flags=0x0031).data(), OBJECT_CLASS], "method f ()V verified"),
        ("K below Object, which is final and stands twice", [k, final, final], "hierarchy refused 40 java/lang/Object"),
        ("K that is cut", [k[:96], OBJECT_CLASS], "class refused 2 at 95"),
        ("K with a broken rule", [replace(K, flags=0x0221).data(), OBJECT_CLASS], "class refused 24 class"),
        ("a known class that is cut", [k, OBJECT_CLASS, cut], "known 2 refused 2 at 44"),
        ("a known class with a broken rule", [k, replace(K, flags=0x0221).data()], "known 1 refused 24 class"),
    ):
        yield what, files, line


def verified():
    """A name for each list of files, their bytes, and the line of it."""
    for table in (verdicts, mapped_verdicts, with_references, with_objects, with_protected, with_handlers, without_code, hierarchies):
        yield from table()
    for table in (with_opcodes, with_local_variables, with_limits):
        yield from table()
