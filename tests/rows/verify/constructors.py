"""Calls of protected constructors of other packages, and what `classck verify --release 17` says of each: JVMS 4.10.1.9, invokespecial. Without a
release none is refused by 82."""
from rows.verify.protected import ALWAYS, known, of_class
from rows.verify.references import Constants, assembled
from tools.assembler import STATIC, member
from tools.class_k import OBJECT_CLASS, code_f

P = "p/P below java/lang/Object: protected method <init> ()V; protected method <init> (IJ)V; public method <init> (J)V; package method <init> (F)V;"
P += " private method <init> (D)V; protected method m ()V; protected method <init> (LA;)V"
BARE = "p/P below p/Q: public method <init> (J)V"
Q = "p/Q below java/lang/Object: protected method <init> ()V"

# The class with the method, and the known ones; then methods: name, descriptor, max_stack and max_locals; code; verdict. A method is static unless it
# is a constructor.
WORLDS = [
    (
        "K below p/P",
        [P, "p/S below p/P: protected method <init> ()V", "q/T below java/lang/Object: protected method <init> ()V", "K2 below K: protected method <init> ()V"],
        """
# on an object that `new` made
f ()V 1 0 | new [class p/P]; invokespecial [method p/P <init> ()V]; return | refused 82 at 3
f ()V 2 0 | new [class p/P]; dup; invokespecial [method p/P <init> ()V]; pop; return | refused 82 at 4
f ()V 4 0 | new [class p/P]; iconst_0; lconst_0; invokespecial [method p/P <init> (IJ)V]; return | refused 82 at 5
f ()V 2 0 | new [class p/P]; aconst_null; invokespecial [method p/P <init> (LA;)V]; return | refused 82 at 4
# one that is not protected, or that the class does not declare
f ()V 3 0 | new [class p/P]; lconst_0; invokespecial [method p/P <init> (J)V]; return | verified
f ()V 2 0 | new [class p/P]; fconst_0; invokespecial [method p/P <init> (F)V]; return | verified
f ()V 3 0 | new [class p/P]; dconst_0; invokespecial [method p/P <init> (D)V]; return | verified
f ()V 2 0 | new [class p/P]; iconst_0; invokespecial [method p/P <init> (I)V]; return | verified
# of a class that is not above the current one
f ()V 1 0 | new [class K]; invokespecial [method K <init> ()V]; return | verified
f ()V 1 0 | new [class K2]; invokespecial [method K2 <init> ()V]; return | verified
f ()V 1 0 | new [class p/S]; invokespecial [method p/S <init> ()V]; return | verified
f ()V 1 0 | new [class q/T]; invokespecial [method q/T <init> ()V]; return | verified
f ()V 1 0 | new [class B]; invokespecial [method B <init> ()V]; return | verified
# on the own object
<init> ()V 1 1 | aload_0; invokespecial [method p/P <init> ()V]; return | verified
<init> ()V 4 1 | aload_0; iconst_0; lconst_0; invokespecial [method p/P <init> (IJ)V]; return | verified
<init> ()V 2 1 | aload_0; aconst_null; invokespecial [method p/P <init> (LA;)V]; return | verified
<init> (I)V 1 2 | aload_0; invokespecial [method K <init> ()V]; return | verified
<init> ()V 1 1 | aload_0; invokespecial [method p/P <init> ()V]; new [class p/P]; invokespecial [method p/P <init> ()V]; return | refused 82 at 7
<init> ()V 1 1 | new [class p/P]; invokespecial [method p/P <init> ()V]; aload_0; invokespecial [method p/P <init> ()V]; return | refused 82 at 3
# each call by itself
f ()V 3 0 | new [class p/P]; lconst_0; invokespecial [method p/P <init> (J)V]; new [class p/P]; invokespecial [method p/P <init> ()V]; return | refused 82 at 10
# it denies nothing: the rule goes before it
f ()V 0 0 | invokespecial [method p/P <init> ()V]; return | refused 61 at 0
f ()V 1 0 | aconst_null; invokespecial [method p/P <init> ()V]; return | refused 62 at 1
f ()V 1 0 | new [class K]; invokespecial [method p/P <init> ()V]; return | refused 62 at 3
f ()V 1 0 | new [class p/P]; invokespecial [method p/P <init> ()V] | refused 71 at 3
f (LB;)V 2 1 | new [class p/P]; aload_0; invokespecial [method p/P <init> (LA;)V]; return | refused 77 at 4 missing B
<init> ()V 1 1 | aload_0; invokespecial [method p/P <init> ()V]; aload_0; invokespecial [method p/P <init> ()V]; return | refused 62 at 5
# what is asked of a constructor is not asked of another method by its name
f ()V 1 0 | new [class p/P]; invokespecial [method p/P m ()V]; return | refused 62 at 3
""",
    ),
    ("p/K below p/P", [P], "f ()V 1 0 | new [class p/P]; invokespecial [method p/P <init> ()V]; return | verified"),
    ("p/q/K below p/P", [P], "f ()V 1 0 | new [class p/P]; invokespecial [method p/P <init> ()V]; return | refused 82 at 3"),
    ("K below L", ["L below p/P", P], "f ()V 1 0 | new [class p/P]; invokespecial [method p/P <init> ()V]; return | refused 82 at 3"),
    # one that a class above the named one declares is found by resolution (5.4.3.3)
    ("K below p/P", [BARE, Q], "f ()V 1 0 | new [class p/P]; invokespecial [method p/P <init> ()V]; return | refused 82 at 3"),
    ("K below p/P", [BARE, Q], "f ()V 3 0 | new [class p/P]; lconst_0; invokespecial [method p/P <init> (J)V]; return | verified"),
]


def rows_of(own, others, table):
    """For each method its class and the known ones, with a release and without one."""
    files = [OBJECT_CLASS, *map(known, [*ALWAYS, *others])]
    for line in table.strip().splitlines():
        if line.startswith("#"):
            continue
        sizes, code, verdict = (it.strip() for it in line.split("|"))
        name, descriptor, stack, variables = sizes.split()
        constants = Constants(descriptor)
        code = code_f(assembled(code, constants), stack=int(stack), variables=int(variables))
        method = member(1 if name == "<init>" else STATIC + 1, constants.text(name), 6, code)
        judged = [of_class(constants, own, [method]), *files]
        for command in ("verify --release 17", "verify --release 25", "verify --dynamic"):
            said = "verified" if "--dynamic" in command and " 82 " in verdict else verdict
            yield f"{own}, {'; '.join(others)}, {line}", command, judged, f"method {name} {descriptor} {said}"


def constructors():
    """A name for each method, the command, its class and the known ones, and its verdict."""
    for world in WORLDS:
        yield from rows_of(*world)
