"""Methods that use protected members of other packages, and what `classck verify` says of each: JVMS 4.6 and 4.10.1.8."""
import re
from dataclasses import replace

from rows.verify.handlers import handler
from rows.verify.references import Constants, assembled
from tools.assembler import NATIVE, STATIC, attribute, code_attribute, code_of, member, named, utf8
from tools.class_k import K, OBJECT_CLASS, code_f, method_f
from tools.stack_maps import stack_map_of

SERIALIZABLE = "java/io/Serializable"
# A member: its flags, its kind, its name and its descriptor.
MEMBER = re.compile(r"(?:\w+ )+(?:field|method) (?:\w+|<init>) \S+?(?=; |$)")
FLAGS = {"public": 1, "private": 2, "protected": 4, "package": 0, "static": 8}

# Known classes by their names, each with its superclass and its members. B and D are absent.
P = "p/P below java/lang/Object: protected field x I; protected field y J; protected static field s I; public field u I;"
P += " protected method m ()V; protected method n (IJ)V; protected method a (LA;)V; protected method k (LK;)V"
ALWAYS = ["java/lang/Throwable below java/lang/Object", "A below java/lang/Object"]
BARE = "p/P below p/Q"
Q = "p/Q below java/lang/Object: protected field x I; protected method m ()V"
PUBLIC = "p/P below p/Q: public field x I; public method m ()V"
PRIVATE = "p/P below p/Q: private field x I; package method m ()V"

# The class with the method, and the known ones; then methods: descriptor, max_stack and max_locals; code; a stack map and an entry of an exception
# table, if there are any; verdict. The methods are static.
WORLDS = [
    (
        "K below p/P",
        [P, "p/S below p/P", "K2 below K"],
        """
# the object is to be one of the current class, or null
(Lp/P;)I 1 1 | aload_0; getfield [field p/P x I]; ireturn | refused 82 at 1
(LK;)I 1 1 | aload_0; getfield [field p/P x I]; ireturn | verified
(LK2;)I 1 1 | aload_0; getfield [field p/P x I]; ireturn | verified
()I 1 0 | aconst_null; getfield [field p/P x I]; ireturn | verified
(Lp/S;)I 1 1 | aload_0; getfield [field p/P x I]; ireturn | refused 82 at 1
(Lp/P;)V 1 1 | aload_0; invokevirtual [method p/P m ()V]; return | refused 82 at 1
(LK;)V 1 1 | aload_0; invokevirtual [method p/P m ()V]; return | verified
(LK2;)V 1 1 | aload_0; invokevirtual [method p/P m ()V]; return | verified
()V 1 0 | aconst_null; invokevirtual [method p/P m ()V]; return | verified
# beneath the value or the arguments, of which each is one item
(Lp/P;)V 2 1 | aload_0; iconst_0; putfield [field p/P x I]; return | refused 82 at 2
(LK;)V 2 1 | aload_0; iconst_0; putfield [field p/P x I]; return | verified
(Lp/P;)V 3 1 | aload_0; lconst_0; putfield [field p/P y J]; return | refused 82 at 2
(LK;)V 3 1 | aload_0; lconst_0; putfield [field p/P y J]; return | verified
(LK;Lp/P;)V 3 2 | aload_0; aload_1; iconst_0; putfield [field p/P x I]; pop; return | refused 82 at 3
(Lp/P;)V 4 1 | aload_0; iconst_0; lconst_0; invokevirtual [method p/P n (IJ)V]; return | refused 82 at 3
(LK;)V 4 1 | aload_0; iconst_0; lconst_0; invokevirtual [method p/P n (IJ)V]; return | verified
(Lp/P;LK;)V 2 2 | aload_0; aload_1; invokevirtual [method p/P k (LK;)V]; return | refused 82 at 2
(LK;LK;)V 2 2 | aload_0; aload_1; invokevirtual [method p/P k (LK;)V]; return | verified
# static or not, by the kind, the name and the descriptor
(Lp/P;)I 1 1 | aload_0; getfield [field p/P s I]; ireturn | refused 82 at 1
()I 1 0 | getstatic [field p/P s I]; ireturn | verified
()V 1 0 | iconst_0; putstatic [field p/P s I]; return | verified
(Lp/P;)F 1 1 | aload_0; getfield [field p/P x F]; freturn | verified
(Lp/P;)I 1 1 | aload_0; getfield [field p/P z I]; ireturn | verified
(Lp/P;)I 1 1 | aload_0; getfield [field p/P m I]; ireturn | verified
(Lp/P;)V 1 1 | aload_0; invokevirtual [method p/P x ()V]; return | verified
(Lp/P;)I 1 1 | aload_0; invokevirtual [method p/P m ()I]; ireturn | verified
()V 0 0 | invokestatic [method p/P m ()V]; return | verified
(Lp/P;)I 1 1 | aload_0; getfield [field p/P u I]; ireturn | verified
# of each constant by itself
(Lp/P;)I 2 1 | aload_0; getfield [field p/P u I]; aload_0; getfield [field p/P x I]; iadd; ireturn | refused 82 at 5
(Lp/P;)I 2 1 | aload_0; getfield [field p/P z I]; aload_0; getfield [field p/P u I]; iadd; ireturn | verified
(LK;Lp/P;)I 2 2 | aload_0; getfield [field p/P x I]; aload_1; getfield [field p/P x I]; iadd; ireturn | refused 82 at 5
(LK;Lp/P;)I 2 2 | aload_0; getfield [field p/P x I]; aload_1; getfield [field p/P u I]; iadd; ireturn | verified
# the constant names a class above the current one: neither this one nor any other
(LK;)I 1 1 | aload_0; getfield [field K x I]; ireturn | verified
(LK;)V 1 1 | aload_0; invokevirtual [method K m ()V]; return | verified
(LK2;)I 1 1 | aload_0; getfield [field K2 x I]; ireturn | verified
(Lp/S;)I 1 1 | aload_0; getfield [field p/S x I]; ireturn | verified
(Lp/S;)V 1 1 | aload_0; invokevirtual [method p/S m ()V]; return | verified
# what is asked of an array is not asked of a class; of an object that is an array no class makes one of its own
([I)V 1 1 | aload_0; invokevirtual [method [I clone ()Ljava/lang/Object;]; pop; return | verified
([I)V 1 1 | aload_0; invokevirtual [method java/lang/Object clone ()Ljava/lang/Object;]; pop; return | refused 82 at 1
([LK;)V 1 1 | aload_0; invokevirtual [method java/lang/Object clone ()Ljava/lang/Object;]; pop; return | refused 82 at 1
(LA;)V 1 1 | aload_0; invokevirtual [method java/lang/Object clone ()Ljava/lang/Object;]; pop; return | refused 82 at 1
(LK;)V 1 1 | aload_0; invokevirtual [method java/lang/Object clone ()Ljava/lang/Object;]; pop; return | verified
(LA;)V 1 1 | aload_0; invokevirtual [method java/lang/Object hashCode ()I]; pop; return | verified
# it denies nothing: the rule, targets, handlers and the next start go before it
()I 0 0 | getfield [field p/P x I]; ireturn | refused 61 at 0
(I)I 1 1 | iload_0; getfield [field p/P x I]; ireturn | refused 62 at 1
(LA;)I 1 1 | aload_0; getfield [field p/P x I]; ireturn | refused 62 at 1
(Lp/P;)J 1 1 | aload_0; getfield [field p/P y J]; lreturn | refused 65 at 1
(Lp/P;)V 1 1 | aload_0; invokevirtual [interface p/P m ()V]; return | refused 66 at 1
(Lp/P;)V 1 1 | aload_0; getfield [field p/P x I] | refused 71 at 1
(LB;)I 1 1 | aload_0; getfield [field p/P x I]; ireturn | refused 77 at 1 missing B
(LB;)V 1 1 | aload_0; invokevirtual [method java/lang/Object clone ()Ljava/lang/Object;]; pop; return | refused 77 at 1 missing B
(Lp/P;LB;)V 2 2 | aload_0; aload_1; invokevirtual [method p/P a (LA;)V]; return | refused 77 at 2 missing B
(LK;LB;)V 2 2 | aload_0; aload_1; invokevirtual [method p/P a (LA;)V]; return | refused 77 at 2 missing B
(Lp/P;)V 1 1 | aload_0; invokevirtual [method p/P m ()V]; return; pop; return | 5 full [int] [class java/lang/Throwable] | 1 4 5 any | refused 73 at 1
(Lp/P;)V 1 1 | aload_0; invokevirtual [method p/P m ()V]; return; pop; return | 5 same1 class java/lang/Throwable | 1 4 5 any | refused 82 at 1
(Lp/P;LB;)V 1 2 | aload_0; invokevirtual [method p/P m ()V]; return; pop; return | 5 full [class p/P, class A] [class java/lang/Throwable] | 1 4 5 any | refused 77 at 1 missing B
(LB;LD;)V 1 2 | aload_0; invokevirtual [method java/lang/Object clone ()Ljava/lang/Object;]; pop; return; pop; return | 6 full [class B, class A] [class java/lang/Throwable] | 1 5 6 any | refused 77 at 1 missing B
(Lp/P;)I 1 1 | aload_0; getfield [field p/P x I]; ireturn; nop | refused 82 at 1
""",
    ),
    ("p/K below p/P", [P], "(Lp/P;)I 1 1 | aload_0; getfield [field p/P x I]; ireturn | verified"),
    ("p/q/K below p/P", [P], "(Lp/P;)I 1 1 | aload_0; getfield [field p/P x I]; ireturn | refused 82 at 1"),
    ("pp/K below p/P", [P], "(Lp/P;)I 1 1 | aload_0; getfield [field p/P x I]; ireturn | refused 82 at 1"),
    ("K below P", ["P below java/lang/Object: protected field x I"], "(LP;)I 1 1 | aload_0; getfield [field P x I]; ireturn | verified"),
    ("p/K below P", ["P below java/lang/Object: protected field x I"], "(LP;)I 1 1 | aload_0; getfield [field P x I]; ireturn | refused 82 at 1"),
    # the nearest declaration counts: of the class that the constant names, or of those above it
    ("K below p/P", [PUBLIC, Q], "(Lp/P;)I 1 1 | aload_0; getfield [field p/P x I]; ireturn | verified"),
    ("K below p/P", [PUBLIC, Q], "(Lp/Q;)I 1 1 | aload_0; getfield [field p/Q x I]; ireturn | refused 82 at 1"),
    ("K below p/P", [PUBLIC, Q], "(Lp/P;)V 1 1 | aload_0; invokevirtual [method p/P m ()V]; return | verified"),
    ("K below p/P", [PRIVATE, Q], "(Lp/P;)I 1 1 | aload_0; getfield [field p/P x I]; ireturn | verified"),
    ("K below p/P", [PRIVATE, Q], "(Lp/P;)V 1 1 | aload_0; invokevirtual [method p/P m ()V]; return | verified"),
    ("K below p/P", [BARE, Q], "(Lp/P;)I 1 1 | aload_0; getfield [field p/P x I]; ireturn | refused 82 at 1"),
    ("K below p/P", [BARE, Q], "(Lp/P;)V 1 1 | aload_0; invokevirtual [method p/P m ()V]; return | refused 82 at 1"),
    # the package is that of the class that declares it
    ("K below L", ["L below p/P", P], "(LL;)I 1 1 | aload_0; getfield [field L x I]; ireturn | refused 82 at 1"),
    ("q/K below q/L", ["q/L below p/P", P], "(Lq/L;)I 1 1 | aload_0; getfield [field q/L x I]; ireturn | refused 82 at 1"),
    ("p/K below q/L", ["q/L below p/P", P], "(Lq/L;)I 1 1 | aload_0; getfield [field q/L x I]; ireturn | verified"),
    # an array may be assigned to the class, and is none of its objects
    (
        "java/io/Serializable below java/lang/Object",
        [],
        "([I)V 1 1 | aload_0; invokevirtual [method java/lang/Object clone ()Ljava/lang/Object;]; pop; return | refused 82 at 1",
    ),
    (
        "java/io/Serializable below java/lang/Object",
        [],
        "(Ljava/io/Serializable;)V 1 1 | aload_0; invokevirtual [method java/lang/Object clone ()Ljava/lang/Object;]; pop; return | verified",
    ),
]
# For each method of a class.
TWO = ["aload_0; getfield [field p/P u I]; pop; return", "aload_0; getfield [field p/P x I]; pop; return"]


def known(words):
    """The class file of a known class."""
    head, _, members = words.partition(":")
    name, above = head.split(" below ")
    k = named(name, above=above)
    constants, parts = [*k.constants, utf8("Code")], {"field": [], "method": []}
    # A constructor that throws null calls no other one first.
    code = code_attribute(len(constants), code_of("aconst_null; athrow"), stack=1, variables=4)
    for it in MEMBER.findall(members):
        *flags, kind, called, descriptor = it.split()
        constants += [utf8(called), utf8(descriptor)]
        native, codes = (0, [code]) if called == "<init>" else (NATIVE if kind == "method" else 0, [])
        parts[kind].append(member(native + sum(FLAGS[f] for f in flags), len(constants) - 1, len(constants), *codes))
    return replace(k, constants=constants, fields=parts["field"], methods=parts["method"]).data()


def of_class(constants, own, methods):
    """The class of this name and superclass, with these methods. It is an interface where its name is that of one."""
    name, above = own.split(" below ")
    constants.items[1], constants.items[3] = utf8(name), utf8(above)
    flags = 0x0601 if name == SERIALIZABLE else 0x0021
    return replace(K, constants=constants.items, flags=flags, methods=methods).data()


def rows_of(own, others, table):
    files = [OBJECT_CLASS, *map(known, [*ALWAYS, *others])]
    for line in table.strip().splitlines():
        if line.startswith("#"):
            continue
        sizes, code, *more, verdict = (it.strip() for it in line.split("|"))
        descriptor, stack, variables = sizes.split()
        constants = Constants(descriptor)
        data = assembled(code, constants)
        nested = [attribute(constants.text("StackMapTable"), stack_map_of(more[0], constants.owner))] if more else []
        handlers = [handler(it, constants) for it in more[1:]]
        method = method_f(code_f(data, stack=int(stack), variables=int(variables), handlers=handlers, nested=nested), flags=STATIC + 1)
        what = f"{own}, {'; '.join(others)}, {line}"
        yield what, [of_class(constants, own, [method]), *files], f"method f {descriptor} {verdict}"


def of_two_methods():
    """The second method of a class is refused, and the first is not."""
    constants = Constants("(Lp/P;)V")
    codes = [assembled(it, constants) for it in TWO]
    first = method_f(code_f(codes[0], stack=1, variables=1), flags=STATIC + 1)
    second = member(STATIC + 1, constants.text("g"), 6, code_f(codes[1], stack=1, variables=1))
    files = [of_class(constants, "K below p/P", [first, second]), OBJECT_CLASS, *map(known, [*ALWAYS, P])]
    yield "two methods", files, "method f (Lp/P;)V verified\nmethod g (Lp/P;)V refused 82 at 1"


def with_protected():
    """A name for each method, its class and the known ones, and its verdict."""
    for world in WORLDS:
        yield from rows_of(*world)
    yield from of_two_methods()
