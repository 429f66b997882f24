"""Methods of interfaces that `invokespecial` calls, and what `classck verify --release 17` says of each: JVMS 4.9.2 and 4.10.1.9, invokespecial. Without a
release none is refused by 86."""
from dataclasses import replace

from rows.verify.references import Constants, assembled
from tools.assembler import OBJECT, class_info, member, named, utf8
from tools.class_k import K, OBJECT_CLASS, code_f

INTERFACE = 0x0601


def known(name, *above, flags=INTERFACE, superclass=OBJECT):
    """A known class with these direct superinterfaces."""
    k = named(name, above=superclass, flags=flags)
    constants = list(k.constants)
    for it in above:
        constants += [class_info(len(constants) + 2), utf8(it)]
    return replace(k, constants=constants, interfaces=tuple(range(5, len(constants), 2))).data()


# J extends I; P implements J.
KNOWN = [OBJECT_CLASS, known("java/lang/Throwable", flags=0x21), known("I"), known("J", "I"), known("L"), known("P", "J", flags=0x21), known("Q", flags=0x21, superclass="P")]

# The class with the method, its superclass and its direct superinterfaces; then methods: descriptor, max_stack and max_locals; code; verdict.
CLASSES = [
    (
        "K below P with J",
        """
()V 1 1 | aload_0; invokespecial [interface J m ()V]; return | verified
()V 1 1 | aload_0; invokespecial [interface I m ()V]; return | refused 86 at 1
()V 1 1 | aload_0; invokespecial [interface L m ()V]; return | refused 86 at 1
()V 1 1 | aload_0; invokespecial [interface K m ()V]; return | verified
()V 1 1 | aload_0; invokespecial [interface P m ()V]; return | verified
(I)V 2 2 | aload_0; iload_1; invokespecial [interface I m (I)V]; return | refused 86 at 2
()V 1 1 | aload_0; invokespecial [interface J m ()V]; aload_0; invokespecial [interface I m ()V]; return | refused 86 at 5
()V 1 1 | aload_0; invokespecial [interface J m ()V]; aload_0; invokespecial [interface J n ()V]; return | verified
()V 1 1 | aload_0; invokespecial [interface I m ()V]; aload_0; invokespecial [interface J m ()V]; return | refused 86 at 1
# by other instructions, or of a class
()V 1 1 | aload_0; invokeinterface [interface I m ()V] 1 0; return | verified
()V 0 1 | invokestatic [interface I m ()V]; return | verified
()V 1 1 | aload_0; invokespecial [method P m ()V]; return | verified
()V 1 1 | aload_0; invokespecial [method java/lang/Object m ()V]; return | verified
# it denies nothing: the rule goes before it
()V 0 1 | invokespecial [interface I m ()V]; return | refused 61 at 0
()V 1 1 | aconst_null; invokespecial [interface I m ()V]; return | refused 86 at 1
(LP;)V 1 2 | aload_1; invokespecial [interface I m ()V]; return | refused 62 at 1
()V 1 1 | aload_0; invokespecial [interface I m ()V] | refused 71 at 1
()V 1 1 | aload_0; invokespecial [interface B m ()V]; return | refused 77 at 1 missing B
""",
    ),
    # the direct superinterfaces of the superclass, or of a superinterface, are none of the class
    ("K below P", "()V 1 1 | aload_0; invokespecial [interface J m ()V]; return | refused 86 at 1"),
    ("K below Q", "()V 1 1 | aload_0; invokespecial [interface P m ()V]; return | refused 86 at 1"),
    ("K below P with I, J, L", "()V 1 1 | aload_0; invokespecial [interface L m ()V]; return | verified"),
    ("K below P with I, J", "()V 1 1 | aload_0; invokespecial [interface L m ()V]; return | refused 86 at 1"),
    ("interface K below java/lang/Object with J", "()V 1 1 | aload_0; invokespecial [interface J m ()V]; return | verified"),
    ("interface K below java/lang/Object with J", "()V 1 1 | aload_0; invokespecial [interface K m ()V]; return | verified"),
    ("interface K below java/lang/Object with J", "()V 1 1 | aload_0; invokespecial [interface I m ()V]; return | refused 86 at 1"),
]


def of_class(constants, own, methods):
    """The class that these words name, with these methods. Its superinterfaces have constants of their own."""
    kind, _, name_and_more = own.rpartition("K below ")
    above, _, interfaces = name_and_more.partition(" with ")
    constants.items[3] = utf8(above)
    places = []
    for it in filter(None, interfaces.split(", ")):
        constants.items.append(class_info(len(constants.items) + 2))
        places.append(len(constants.items))
        constants.items.append(utf8(it))
    return replace(K, constants=constants.items, flags=INTERFACE if kind else 0x0021, interfaces=tuple(places), methods=methods).data()


def interfaces():
    """A name for each method, the command, its class and the known ones, and its verdict, with a release and without one."""
    for own, table in CLASSES:
        for line in table.strip().splitlines():
            if line.startswith("#"):
                continue
            sizes, code, verdict = (it.strip() for it in line.split("|"))
            descriptor, stack, variables = sizes.split()
            constants = Constants(descriptor)
            method = member(1, 5, 6, code_f(assembled(code, constants), stack=int(stack), variables=int(variables)))
            files = [of_class(constants, own, [method]), *KNOWN]
            for command in ("verify --release 17", "verify --release 25", "verify --dynamic"):
                said = "verified" if "--dynamic" in command and " 86 " in verdict else verdict
                yield f"{own}, {line}", command, files, said if said.startswith("class") else f"method f {descriptor} {said}"
