"""Methods that make objects and call constructors, and what `classck verify` says of each: JVMS 4.10.1.4 and 4.10.1.9, new and invokespecial."""
from dataclasses import replace

from rows.known import KNOWN
from rows.verify.references import Constants, assembled
from tools.assembler import OBJECT, STATIC, attribute, member, utf8
from tools.class_k import K, code_f, method_f
from tools.stack_maps import stack_map_of

# Descriptor, max_stack and max_locals; code, in which words in brackets are constants; a stack map, if there is one; verdict.
OF_CLASSES = """
# an object is of its class once a constructor of that class has returned
()LA; 2 0 | new [class A]; dup; invokespecial [method A <init> ()V]; areturn | verified
()LA; 1 0 | new [class A]; areturn | refused 62 at 3
()V 1 0 | new [class A]; pop; return | verified
()V 0 0 | new [class A]; pop; return | refused 65 at 0
()V 1 0 | new [class [I]; pop; return | refused 66 at 0
()V 1 0 | new [int]; pop; return | refused 66 at 0
()V 1 0 | new 0; pop; return | refused 66 at 0
()LB; 2 0 | new [class B]; dup; invokespecial [method B <init> ()V]; areturn | verified
()LA; 2 0 | new [class C]; dup; invokespecial [method C <init> ()V]; areturn | verified
()LC; 2 0 | new [class C]; dup; invokespecial [method A <init> ()V]; areturn | refused 62 at 4
()LA; 2 0 | new [class A]; dup; invokespecial [method C <init> ()V]; areturn | refused 62 at 4
()V 1 0 | new [class A]; invokespecial [method A <init> ()V]; return | verified
()V 1 0 | aconst_null; invokespecial [method A <init> ()V]; return | refused 62 at 1
(LA;)V 1 1 | aload_0; invokespecial [method A <init> ()V]; return | refused 62 at 1
()V 0 0 | invokespecial [method A <init> ()V]; return | refused 61 at 0
()V 1 0 | new [class A]; invokespecial [method A <init> (I)V]; return | refused 61 at 3
()V 2 0 | new [class A]; iconst_0; invokespecial [method A <init> (I)V]; return | verified
()V 2 0 | new [class A]; fconst_0; invokespecial [method A <init> (I)V]; return | refused 62 at 4
()V 2 0 | iconst_0; new [class A]; invokespecial [method A <init> (I)V]; return | refused 62 at 4
(LA;)V 2 1 | new [class A]; aload_0; invokespecial [method A <init> (LB;)V]; return | refused 77 at 4 missing B
()V 1 0 | new [class A]; invokespecial [method [I <init> ()V]; return | refused 66 at 3
()V 1 0 | new [class A]; invokespecial [field A x I]; return | refused 66 at 3
# before that it may be copied, stored in a local and compared, and no more
()V 1 0 | new [class A]; getfield [field A x I]; pop; return | refused 62 at 3
()V 2 0 | new [class A]; iconst_0; putfield [field A x I]; return | refused 62 at 4
(LA;)V 2 1 | aload_0; new [class A]; putfield [field A x LA;]; return | refused 62 at 4
()V 1 0 | new [class A]; putstatic [field A x LA;]; return | refused 62 at 3
()V 1 0 | new [class A]; invokevirtual [method A f ()V]; return | refused 62 at 3
()V 1 0 | new [class A]; invokestatic [method A f (LA;)V]; return | refused 62 at 3
()V 1 0 | new [class A]; checkcast [class A]; pop; return | refused 62 at 3
()V 1 0 | new [class A]; instanceof [class A]; pop; return | refused 62 at 3
()V 1 0 | new [class java/lang/Throwable]; athrow | refused 62 at 3
([LA;)V 3 1 | aload_0; iconst_0; new [class A]; aastore; return | refused 62 at 5
()V 1 0 | new [class A]; monitorenter; return | verified
()V 1 1 | new [class A]; astore_0; aload_0; pop; return | verified
()V 2 0 | new [class A]; dup; if_acmpeq 3; return | 7 same | verified
# all that stand for it become of its class at once
()LA; 2 1 | new [class A]; dup; astore_0; invokespecial [method A <init> ()V]; aload_0; areturn | verified
()LA; 2 2 | new [class A]; dup; astore_0; astore_1; aload_0; invokespecial [method A <init> ()V]; aload_1; areturn | verified
()LA; 3 0 | new [class A]; dup; dup; invokespecial [method A <init> ()V]; pop; areturn | verified
()V 3 0 | new [class A]; dup; dup; invokespecial [method A <init> ()V]; invokespecial [method A <init> ()V]; pop; return | refused 62 at 8
# another object of the same class stays as it is
()LA; 3 0 | new [class A]; new [class A]; dup; invokespecial [method A <init> ()V]; areturn | verified
()LA; 3 0 | new [class A]; new [class A]; dup; invokespecial [method A <init> ()V]; pop; areturn | refused 62 at 11
()V 4 2 | lconst_0; new [class A]; dup; invokespecial [method A <init> ()V]; pop; lstore_0; return | verified
# what the same `new` has made before is forgotten in the locals, and is not on the stack
()V 1 1 | new [class A]; astore_0; goto -4 | 0 same | verified
()V 2 1 | return; new [class A]; aload_0; pop; pop; return | 1 append uninitialized 1 | refused 63 at 4
()V 2 1 | return; new [class A]; aload_0; pop; pop; return; new [class A]; pop; return | 1 append uninitialized 8; 8 same | verified
()V 2 0 | return; new [class A]; pop; pop; return | 1 same1 uninitialized 1 | refused 62 at 1
()V 2 0 | return; new [class A]; pop; pop; return; new [class A]; pop; return | 1 same1 uninitialized 7; 7 same | verified
# frames of objects that are not initialized
()LA; 2 0 | new [class A]; dup; nop; invokespecial [method A <init> ()V]; areturn | 4 full [] [uninitialized 0, uninitialized 0] | verified
()LA; 2 0 | new [class A]; dup; nop; invokespecial [method A <init> ()V]; areturn | bytes 0001 ff0004000000020800000800 | refused 78 at 0 fault 2
()LA; 2 0 | new [class A]; dup; nop; invokespecial [method A <init> ()V]; areturn | 4 full [] [uninitialized 0, uninitialized 3] | refused 78 at 0 fault 53
()V 1 0 | new [class A]; goto 3; pop; return | 6 same1 uninitialized 0 | verified
()V 1 0 | new [class A]; goto 3; pop; new [class A]; pop; return | 6 same1 uninitialized 7 | refused 68 at 3
()V 1 0 | new [class A]; goto 3; invokespecial [method A <init> ()V]; return | 6 same1 uninitialized 0 | verified
# a branch backwards with one
()V 1 0 | new [class A]; goto 0 | 3 same1 uninitialized 0 | verified
()V 1 1 | goto 3; new [class A]; astore_0; goto -4 | 3 same | verified
"""

# Rows of a constructor of K, which is directly below Object and declares x of type I.
OF_CONSTRUCTORS = """
()V 1 1 | aload_0; invokespecial [method java/lang/Object <init> ()V]; return | verified
()V 1 1 | return | refused 74 at 0
()V 0 0 | return | refused 64 at 0
(I)V 2 2 | aload_0; iload_1; invokespecial [method K <init> (I)V]; return | verified
()V 1 1 | aload_0; invokespecial [method A <init> ()V]; return | refused 62 at 1
()V 1 1 | new [class java/lang/Object]; invokespecial [method java/lang/Object <init> ()V]; return | refused 74 at 6
()V 1 1 | aload_0; invokespecial [method java/lang/Object <init> ()V]; aload_0; invokespecial [method java/lang/Object <init> ()V]; return | refused 62 at 5
()V 2 1 | aload_0; dup; invokespecial [method java/lang/Object <init> ()V]; invokevirtual [method K f ()V]; return | verified
()V 2 1 | aload_0; dup; invokespecial [method java/lang/Object <init> ()V]; invokespecial [method java/lang/Object <init> ()V]; return | refused 62 at 5
(I)V 2 2 | aload_0; invokespecial [method java/lang/Object <init> ()V]; aload_0; iload_1; putfield [field K x I]; return | verified
# until then nothing is done with it but to set its own fields
()V 1 1 | aload_0; getfield [field K x I]; pop; return | refused 62 at 1
()V 1 1 | aload_0; invokevirtual [method K f ()V]; return | refused 62 at 1
()V 1 1 | aload_0; invokespecial [method K f ()V]; return | refused 62 at 1
()V 1 1 | aload_0; invokestatic [method K f (LK;)V]; return | refused 62 at 1
()V 1 1 | aload_0; putstatic [field K y LK;]; return | refused 62 at 1
()V 1 1 | aload_0; areturn | refused 76 at 1
# it need not return
()V 1 1 | aconst_null; athrow | verified
()V 0 1 | goto 0 | 0 full [uninitializedThis] [] | verified
# the flag goes with the frame
()V 0 1 | goto 0 | 0 full [top] [] | refused 69 at 0
(I)V 1 2 | iload_1; ifeq 7; aload_0; invokespecial [method java/lang/Object <init> ()V]; return | 8 full [top, int] [] | refused 68 at 1
(I)V 1 2 | iload_1; ifeq 7; aload_0; invokespecial [method java/lang/Object <init> ()V]; return | 8 full [uninitializedThis, int] [] | refused 69 at 8
(I)V 1 2 | iload_1; ifeq 8; aload_0; invokespecial [method java/lang/Object <init> ()V]; return; aload_0; invokespecial [method java/lang/Object <init> ()V]; return | 9 full [uninitializedThis, int] [] | verified
(I)V 1 2 | iload_1; ifeq 8; aload_0; invokespecial [method java/lang/Object <init> ()V]; return; return | 9 full [uninitializedThis, int] [] | refused 74 at 9
()V 1 1 | aconst_null; astore_0; return | refused 74 at 2
()V 1 1 | aload_0; astore_0; aload_0; invokespecial [method java/lang/Object <init> ()V]; return | verified
"""

# Rows of a constructor that sets fields, in a K that declares only x, and in one with very many others, or with one of a long name, in front of it.
OF_OWN_FIELDS = """
()V 2 1 | aload_0; iconst_0; putfield [field K x I]; aload_0; invokespecial [method java/lang/Object <init> ()V]; return | verified
()V 2 1 | aload_0; iconst_0; putfield [field K y I]; aload_0; invokespecial [method java/lang/Object <init> ()V]; return | refused 62 at 2
()V 3 1 | aload_0; lconst_0; putfield [field K x J]; aload_0; invokespecial [method java/lang/Object <init> ()V]; return | refused 62 at 2
()V 2 1 | aload_0; iconst_0; putfield [field A x I]; aload_0; invokespecial [method java/lang/Object <init> ()V]; return | refused 62 at 2
()V 2 1 | aload_0; iconst_0; putfield [field java/lang/Object x I]; aload_0; invokespecial [method java/lang/Object <init> ()V]; return | refused 62 at 2
(I)V 2 2 | aload_0; invokespecial [method java/lang/Object <init> ()V]; aload_0; iload_1; putfield [field K x I]; return | verified
(I)V 2 2 | aload_0; invokespecial [method java/lang/Object <init> ()V]; aload_0; iload_1; putfield [field K y I]; return | verified
"""
MANY, LONG = [f"x{i}" for i in range(100)], ["x" * 300]

# Rows of another method of K, with a receiver.
OF_INSTANCES = """
()V 1 1 | aload_0; invokespecial [method K f ()V]; return | verified
()I 1 1 | aload_0; invokespecial [method java/lang/Object hashCode ()I]; ireturn | verified
()V 1 1 | aload_0; invokespecial [method A f ()V]; return | refused 66 at 1
()V 1 1 | aload_0; invokespecial [interface I f ()V]; return | verified
()V 1 1 | aload_0; invokespecial [method B f ()V]; return | refused 77 at 1 missing B
(LA;)V 1 2 | aload_1; invokespecial [method java/lang/Object f ()V]; return | refused 62 at 1
(LB;)V 2 2 | aload_0; aload_1; invokespecial [method K f (LA;)V]; return | refused 77 at 2 missing B
()V 0 1 | invokespecial [method K f ()V]; return | refused 61 at 0
()V 1 1 | aconst_null; invokespecial [method K f ()V]; return | verified
()V 1 1 | aload_0; invokespecial [method [I f ()V]; return | refused 66 at 1
()V 1 1 | aload_0; invokespecial [field K x I]; return | refused 66 at 1
()V 1 1 | aload_0; invokespecial [int]; return | refused 66 at 1
()V 1 1 | aload_0; invokespecial [method K f ()I]; pop; return | verified
()V 1 1 | aload_0; invokespecial [method K f ()J]; pop2; return | refused 65 at 1
(J)V 3 3 | aload_0; lload_1; invokespecial [method K f (J)V]; return | verified
()V 1 1 | aload_0; invokespecial [method java/lang/Object <init> ()V]; return | refused 62 at 1
()V 2 1 | aload_0; iconst_0; putfield [field K x I]; return | verified
"""


def class_of(name, flags, descriptor, sizes, code, body, others):
    """K with a field x after others of these names, and one method, which has this code and this stack map."""
    constants = Constants(descriptor, name)
    data = assembled(code, constants)
    nested = [attribute(constants.text("StackMapTable"), stack_map_of(body, constants.owner))] if body else []
    method = method_f(code_f(data, stack=sizes[0], variables=sizes[1], nested=nested), flags=flags)
    fields = [member(0, constants.text(name), constants.text("I")) for name in [*others, "x"]]
    return replace(K, constants=constants.items, fields=fields, methods=[method]).data()


def rows_of(table, name, flags, others=()):
    for line in table.strip().splitlines():
        if line.startswith("#"):
            continue
        sizes, code, *body, verdict = (it.strip() for it in line.split("|"))
        descriptor, stack, variables = sizes.split()
        k = class_of(name, flags, descriptor, (int(stack), int(variables)), code, "".join(body), others)
        yield f"{name} {sizes} {code} {''.join(body)} beside {len(others)} fields", [k, *KNOWN], f"method {name} {descriptor} {verdict}"


def of_many_fields():
    """A K with very many fields, of which its constructor sets one."""
    return next(rows_of(OF_OWN_FIELDS, "<init>", 0, MANY))[1][0]


def of_object():
    """The constructor of Object, which has an object that is ready."""
    constants = Constants("()V", "<init>")
    constants.items[1] = utf8(OBJECT)
    method = method_f(code_f(assembled("return", constants), variables=1), flags=0)
    yield "Object's constructor", [replace(K, constants=constants.items, super_class=0, methods=[method]).data()], "method <init> ()V verified"


def with_objects():
    """A name for each method, its class and the known ones, and its verdict."""
    yield from rows_of(OF_CLASSES, "f", STATIC)
    yield from rows_of(OF_CONSTRUCTORS, "<init>", 0)
    yield from rows_of(OF_OWN_FIELDS, "<init>", 0)
    yield from rows_of(OF_OWN_FIELDS, "<init>", 0, MANY)
    yield from rows_of(OF_OWN_FIELDS, "<init>", 0, LONG)
    yield from rows_of(OF_INSTANCES, "f", 0)
    yield from of_object()
