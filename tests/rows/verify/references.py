"""Methods that use references, arrays, fields and calls, and what `classck verify` says of each: JVMS 4.10.1.2 and 4.10.1.9."""
from dataclasses import replace

from rows.known import KNOWN
from tools.assembler import STATIC, attribute, bootstrap_method, class_info, code_of, integer, listed, name_and_type, reference, u1, u2, utf8
from tools.class_k import K, code_f, method_f, with_constant

# Descriptor, max_stack and max_locals; code, in which words in brackets are constants; verdict.
ROWS = """
# a value of a type stands where one that it is below is wanted; null stands for every class and array
()LA; 1 0 | aconst_null; areturn | verified
()[I 1 0 | aconst_null; areturn | verified
()I 1 0 | aconst_null; ireturn | refused 62 at 1
()V 0 0 | aconst_null; pop; return | refused 65 at 0
(LA;)LA; 1 1 | aload_0; areturn | verified
(LC;)LA; 1 1 | aload_0; areturn | verified
(LA;)LC; 1 1 | aload_0; areturn | refused 62 at 1
(LA;)LI; 1 1 | aload_0; areturn | verified
(LI;)LA; 1 1 | aload_0; areturn | refused 62 at 1
(LB;)LB; 1 1 | aload_0; areturn | verified
(LB;)Ljava/lang/Object; 1 1 | aload_0; areturn | verified
(LA;)LB; 1 1 | aload_0; areturn | refused 77 at 1 missing B
(LB;)LA; 1 1 | aload_0; areturn | refused 77 at 1 missing B
([LC;)[LA; 1 1 | aload_0; areturn | verified
([LA;)[LC; 1 1 | aload_0; areturn | refused 62 at 1
([LB;)[LA; 1 1 | aload_0; areturn | refused 77 at 1 missing B
([[I)[Ljava/lang/Object; 1 1 | aload_0; areturn | verified
([I)[Ljava/lang/Object; 1 1 | aload_0; areturn | refused 62 at 1
([I)Ljava/lang/Cloneable; 1 1 | aload_0; areturn | verified
([I)Ljava/io/Serializable; 1 1 | aload_0; areturn | verified
([I)LA; 1 1 | aload_0; areturn | refused 62 at 1
(I)LA; 1 1 | iload_0; areturn | refused 62 at 1
(LA;)V 1 1 | aload_0; areturn | refused 76 at 1
(LA;)I 1 1 | aload_0; areturn | refused 76 at 1
# local variables that hold references
(LA;)V 1 2 | aload_0; astore_1; return | verified
(LA;)V 1 1 | aload_0; astore 1; return | refused 64 at 1
(I)V 1 1 | aload_0; pop; return | refused 63 at 0
()V 1 1 | iconst_0; astore_0; return | refused 62 at 1
(LA;)V 1 1 | iload_0; pop; return | refused 63 at 0
(JLA;)V 2 3 | aload_2; astore_1; lload_0; pop2; return | refused 63 at 2
# constants that are loaded
()I 1 0 | ldc [int]; ireturn | verified
()F 1 0 | ldc [float]; freturn | verified
()Ljava/lang/String; 1 0 | ldc [string]; areturn | verified
()Ljava/lang/Class; 1 0 | ldc [class A]; areturn | verified
()Ljava/lang/Class; 1 0 | ldc_w [class A]; areturn | verified
()Ljava/lang/invoke/MethodType; 1 0 | ldc [method_type]; areturn | verified
()Ljava/lang/invoke/MethodHandle; 1 0 | ldc [handle]; areturn | verified
()LA; 1 0 | ldc [class A]; areturn | refused 77 at 2 missing java/lang/Class
()V 1 0 | ldc [computed I]; pop; return | refused 60 at 0
()V 2 0 | ldc [long]; pop2; return | refused 66 at 0
()V 1 0 | ldc [field A x I]; pop; return | refused 66 at 0
()V 1 0 | ldc 0; pop; return | refused 66 at 0
()V 0 0 | ldc [int]; pop; return | refused 65 at 0
# arrays: an array, the index, and what is stored
()V 3 0 | iconst_3; newarray 10; iconst_0; iconst_1; iastore; return | verified
()V 3 0 | iconst_3; newarray 8; iconst_0; iconst_1; iastore; return | refused 62 at 5
()V 3 0 | iconst_3; newarray 4; iconst_0; iconst_1; bastore; return | verified
()V 3 0 | iconst_3; newarray 8; iconst_0; iconst_1; bastore; return | verified
()V 3 0 | iconst_3; newarray 5; iconst_0; iconst_1; castore; return | verified
()V 3 0 | iconst_3; newarray 9; iconst_0; iconst_1; castore; return | refused 62 at 5
()V 3 0 | iconst_3; newarray 9; iconst_0; iconst_1; sastore; return | verified
()V 4 0 | iconst_3; newarray 11; iconst_0; lconst_1; lastore; return | verified
()V 4 0 | iconst_3; newarray 7; iconst_0; lconst_1; lastore; return | refused 62 at 5
()V 3 0 | iconst_3; newarray 6; iconst_0; fconst_1; fastore; return | verified
()V 4 0 | iconst_3; newarray 7; iconst_0; dconst_1; dastore; return | verified
()V 1 0 | iconst_3; newarray 3; pop; return | refused 66 at 1
()V 1 0 | newarray 10; pop; return | refused 61 at 0
([I)I 2 1 | aload_0; iconst_0; iaload; ireturn | verified
([I)I 2 1 | iconst_0; aload_0; iaload; ireturn | refused 62 at 2
([B)I 2 1 | aload_0; iconst_0; baload; ireturn | verified
([Z)I 2 1 | aload_0; iconst_0; baload; ireturn | verified
([C)I 2 1 | aload_0; iconst_0; caload; ireturn | verified
([S)I 2 1 | aload_0; iconst_0; saload; ireturn | verified
([J)J 2 1 | aload_0; iconst_0; laload; lreturn | verified
([F)F 2 1 | aload_0; iconst_0; faload; freturn | verified
([D)D 2 1 | aload_0; iconst_0; daload; dreturn | verified
([[I)I 2 1 | aload_0; iconst_0; iaload; ireturn | refused 62 at 2
()I 2 0 | aconst_null; iconst_0; iaload; ireturn | verified
# elements that are references: of null they are null
()LA; 2 0 | aconst_null; iconst_0; aaload; areturn | verified
([LA;)LA; 2 1 | aload_0; iconst_0; aaload; areturn | verified
([LA;)LC; 2 1 | aload_0; iconst_0; aaload; areturn | refused 62 at 3
([[I)[I 2 1 | aload_0; iconst_0; aaload; areturn | verified
([[[J)[[J 2 1 | aload_0; iconst_0; aaload; areturn | verified
([J)J 2 1 | aload_0; iconst_0; aaload; pop; return | refused 62 at 2
(LA;)LA; 2 1 | aload_0; iconst_0; aaload; areturn | refused 62 at 2
([LA;LA;)V 3 2 | aload_0; iconst_0; aload_1; aastore; return | verified
([LA;LI;)V 3 2 | aload_0; iconst_0; aload_1; aastore; return | verified
([LA;I)V 3 2 | aload_0; iconst_0; iload_1; aastore; return | refused 62 at 3
([ILA;)V 3 2 | aload_0; iconst_0; aload_1; aastore; return | refused 62 at 3
([LA;)I 1 1 | aload_0; arraylength; ireturn | verified
([I)I 1 1 | aload_0; arraylength; ireturn | verified
(LA;)I 1 1 | aload_0; arraylength; ireturn | refused 62 at 1
()[LA; 1 0 | iconst_1; anewarray [class A]; areturn | verified
()[[I 1 0 | iconst_1; anewarray [class [I]; areturn | verified
()[LA; 1 0 | iconst_1; anewarray [class [LA;]; areturn | refused 62 at 4
()V 1 0 | iconst_1; anewarray [string]; pop; return | refused 66 at 1
()[[LA; 2 0 | iconst_1; iconst_1; multianewarray [class [[LA;] 2; areturn | verified
()[[LA; 1 0 | iconst_1; multianewarray [class [[LA;] 1; areturn | verified
()V 2 0 | iconst_1; iconst_1; multianewarray [class [LA;] 2; pop; return | refused 66 at 2
()V 2 0 | iconst_1; iconst_1; multianewarray [class [LA;] 0; pop; return | refused 66 at 2
()V 2 0 | iconst_1; iconst_1; multianewarray [class A] 1; pop; return | refused 66 at 2
()V 2 0 | iconst_1; fconst_1; multianewarray [class [[LA;] 2; pop; return | refused 62 at 2
()V 1 0 | iconst_1; multianewarray [class [[LA;] 2; pop; return | refused 61 at 1
# casts
(LI;)LA; 1 1 | aload_0; checkcast [class A]; areturn | verified
(LI;)LB; 1 1 | aload_0; checkcast [class B]; areturn | verified
(LI;)[LA; 1 1 | aload_0; checkcast [class [LA;]; areturn | verified
(LI;)LC; 1 1 | aload_0; checkcast [class A]; areturn | refused 62 at 4
(I)V 1 1 | iload_0; checkcast [class A]; pop; return | refused 62 at 1
(LI;)V 1 1 | aload_0; checkcast [int]; pop; return | refused 66 at 1
(LI;)Z 1 1 | aload_0; instanceof [class A]; ireturn | verified
(I)Z 1 1 | iload_0; instanceof [class A]; ireturn | refused 62 at 1
(LI;)Z 1 1 | aload_0; instanceof [string]; ireturn | refused 66 at 1
# monitors and athrow
(LA;)V 1 1 | aload_0; monitorenter; aload_0; monitorexit; return | verified
(I)V 1 1 | iload_0; monitorenter; return | refused 62 at 1
(Ljava/lang/Throwable;)V 1 1 | aload_0; athrow | verified
()V 1 0 | aconst_null; athrow | verified
(LA;)V 1 1 | aload_0; athrow | refused 62 at 1
# fields
()I 1 0 | getstatic [field A x I]; ireturn | verified
()J 2 0 | getstatic [field A x J]; lreturn | verified
()J 1 0 | getstatic [field A x J]; lreturn | refused 65 at 0
()I 1 0 | getstatic [field B x Z]; ireturn | verified
()[I 1 0 | getstatic [field A x [I]; areturn | verified
()LC; 1 0 | getstatic [field A x LA;]; areturn | refused 62 at 3
()V 1 0 | getstatic [method A f ()V]; pop; return | refused 66 at 0
()V 1 0 | iconst_0; putstatic [field A x Z]; return | verified
()V 1 0 | fconst_0; putstatic [field A x Z]; return | refused 62 at 1
(LC;)V 1 1 | aload_0; putstatic [field A x LA;]; return | verified
(LA;)V 1 1 | aload_0; putstatic [field A x LB;]; return | refused 77 at 1 missing B
()V 0 0 | putstatic [field A x I]; return | refused 61 at 0
(LA;)I 1 1 | aload_0; getfield [field A x I]; ireturn | verified
(LC;)I 1 1 | aload_0; getfield [field A x I]; ireturn | verified
(LI;)I 1 1 | aload_0; getfield [field A x I]; ireturn | refused 62 at 1
()I 1 0 | aconst_null; getfield [field A x I]; ireturn | verified
([I)I 1 1 | aload_0; getfield [field A x I]; ireturn | refused 62 at 1
(LA;)I 1 1 | aload_0; getfield [field B x I]; ireturn | refused 77 at 1 missing B
(LA;)V 2 1 | aload_0; iconst_0; putfield [field A x I]; return | verified
(LA;)V 2 1 | iconst_0; aload_0; putfield [field A x I]; return | refused 62 at 2
(LA;)V 3 1 | aload_0; lconst_0; putfield [field A x J]; return | verified
(LA;)V 1 1 | aload_0; putfield [field A x LA;]; return | refused 61 at 1
(LA;LA;)V 2 2 | aload_0; aload_1; putfield [field B x LB;]; return | refused 77 at 2 missing B
(LA;LA;)V 2 2 | aload_0; aload_1; putfield [field K x LB;]; return | refused 62 at 2
# calls: the arguments from the last one down, and then the receiver
()V 0 0 | invokestatic [method A f ()V]; return | verified
(ILA;)V 2 2 | iload_0; aload_1; invokestatic [method A f (ILA;)V]; return | verified
(ILA;)V 2 2 | aload_1; iload_0; invokestatic [method A f (ILA;)V]; return | refused 62 at 2
(IJ)J 3 3 | iload_0; lload_1; invokestatic [method A f (ZJ)J]; lreturn | verified
()V 1 0 | iconst_0; invokestatic [method A f (II)V]; return | refused 61 at 1
()V 0 0 | invokestatic [method A f ()I]; return | refused 65 at 0
()V 0 0 | invokestatic [method A <init> ()V]; return | refused 66 at 0
()V 0 0 | invokestatic [interface I f ()V]; return | verified
()V 0 0 | invokestatic [field A x I]; return | refused 66 at 0
()V 0 0 | invokestatic [method [I f ()V]; return | refused 66 at 0
(LA;)V 1 1 | aload_0; invokevirtual [method A f ()V]; return | verified
(LC;)I 1 1 | aload_0; invokevirtual [method A f ()I]; ireturn | verified
(LI;)V 1 1 | aload_0; invokevirtual [method A f ()V]; return | refused 62 at 1
()V 1 0 | aconst_null; invokevirtual [method A f ()V]; return | verified
()V 1 0 | aconst_null; invokevirtual [method A <init> ()V]; return | refused 66 at 1
(LA;)V 1 1 | aload_0; invokevirtual [interface A f ()V]; return | refused 66 at 1
([I)V 1 1 | aload_0; invokevirtual [method [I clone ()V]; return | verified
([J)V 1 1 | aload_0; invokevirtual [method [I clone ()V]; return | refused 62 at 1
(LA;)V 2 1 | aload_0; iconst_0; invokevirtual [method A f (I)V]; return | verified
(LA;)V 2 1 | iconst_0; aload_0; invokevirtual [method A f (I)V]; return | refused 62 at 2
(LA;)V 1 1 | aload_0; invokevirtual [method A f (I)V]; return | refused 61 at 1
()V 1 0 | iconst_0; invokevirtual [method A f (I)V]; return | refused 61 at 1
# the name that is missing first is that of the last argument
(LA;)V 2 1 | aload_0; aload_0; invokevirtual [method D f (LB;)V]; return | refused 77 at 2 missing B
(LA;)V 1 1 | aload_0; invokevirtual [method D f ()V]; return | refused 77 at 1 missing D
(LA;)V 1 1 | aload_0; invokeinterface [interface I f ()V] 1 0; return | verified
(LA;)V 1 1 | aload_0; invokeinterface [interface I f ()V] 2 0; return | refused 66 at 1
(LA;J)V 3 3 | aload_0; lload_1; invokeinterface [interface I f (J)V] 3 0; return | verified
(LA;)V 1 1 | aload_0; invokeinterface [method I f ()V] 1 0; return | refused 66 at 1
([I)V 1 1 | aload_0; invokeinterface [interface I f ()V] 1 0; return | refused 62 at 1
(I)V 1 1 | iload_0; invokeinterface [interface I f ()V] 1 0; return | refused 62 at 1
# comparisons and branches take references of all kinds
(LA;)V 2 1 | aload_0; aconst_null; if_acmpeq 3; return | refused 67 at 2
()V 0 0 | bytes ba 0001 0000; return | refused 60 at 0
"""

# Rows of a method with a receiver, which is in the first local variable.
OF_INSTANCES = """
()V 0 0 | return | refused 64 at 0
()V 0 1 | return | verified
()LK; 1 1 | aload_0; areturn | verified
()Ljava/lang/Object; 1 1 | aload_0; areturn | verified
()LA; 1 1 | aload_0; areturn | refused 62 at 1
(I)I 1 2 | iload_1; ireturn | verified
(I)I 1 2 | iload_0; ireturn | refused 63 at 0
(J)V 0 2 | return | refused 64 at 0
()I 1 1 | aload_0; getfield [field K x I]; ireturn | verified
()V 2 1 | aload_0; iconst_0; putfield [field K x I]; return | verified
()V 1 2 | aconst_null; astore_0; aload_0; invokevirtual [method K f ()V]; return | verified
"""


class Constants:
    """The constants of K, and those that code names, each once."""

    def __init__(self, descriptor, name="f"):
        self.items = list(with_constant(6, utf8(descriptor)).constants)
        self.items[4] = utf8(name)
        self.places = {}

    def put(self, constant, units=1):
        if constant not in self.places:
            self.places[constant] = 1 + sum(2 if it[0] in (5, 6) else 1 for it in self.items)
            self.items.append(constant)
        return self.places[constant]

    def text(self, text):
        return self.put(utf8(text))

    def owner(self, name):
        return self.put(class_info(self.text(name)))

    def member(self, tag, owner, name, descriptor):
        return self.put(reference(tag, self.owner(owner), self.named_and_typed(name, descriptor)))

    def named_and_typed(self, name, descriptor):
        return self.put(name_and_type(self.text(name), self.text(descriptor)))

    def dynamic(self, tag, name, descriptor, bootstrap="0"):
        return self.put(reference(tag, int(bootstrap), self.named_and_typed(name, descriptor)))

    def bootstraps(self, words="handle", behind=b""):
        """A BootstrapMethods attribute of these entries, and bytes after them. Entries stand between semicolons, each as the
        words of its method handle and, behind a colon, those of its static arguments."""
        entries = [it.partition(":") for it in words.split(";") if it.strip()]
        methods = [bootstrap_method(self.named(handle), [self.named(it) for it in arguments.split(",") if it]) for handle, _, arguments in entries]
        return attribute(self.text("BootstrapMethods"), listed(methods) + behind)

    def named(self, words):
        """The index of the constant that these words name. Digits are an index."""
        kind, *parts = words.split()
        if kind.isdigit():
            return int(kind)
        if kind == "class":
            return self.owner(*parts)
        if kind in ("field", "method", "interface"):
            return self.member({"field": 9, "method": 10, "interface": 11}[kind], *parts)
        if kind == "site":
            return self.dynamic(18, *parts)
        if kind == "computed":
            return self.dynamic(17, "d", *parts)
        if kind == "text":
            return self.text(*parts)
        if kind == "name_and_type":
            return self.named_and_typed(*parts)
        return self.put(
            {
                "int": lambda: integer(1),
                "float": lambda: u1(4) + bytes(4),
                "long": lambda: u1(5) + bytes(8),
                "double": lambda: u1(6) + bytes(8),
                "string": lambda: u1(8) + u2(self.text("K")),
                "method_type": lambda: u1(16) + u2(self.text("()V")),
                "handle": lambda: u1(15) + u1(6) + u2(self.member(10, "A", "f", "()V")),
            }[kind]()
        )


def assembled(code, constants):
    """The bytes of code, in which words between blank and bracket name constants."""
    text = ""
    while " [" in code and code.count("]"):
        before, behind = code.split(" [", 1)
        end = next(i for i, it in enumerate(behind) if it == "]" and (i + 1 == len(behind) or behind[i + 1] in "; "))
        text += f"{before} {constants.named(behind[:end])}"
        code = behind[end + 1 :]
    return code_of(text + code)


def rows_of(table, flags):
    for line in table.strip().splitlines():
        if line.startswith("#"):
            continue
        sizes, code, verdict = (it.strip() for it in line.split("|"))
        descriptor, stack, variables = sizes.split()
        constants = Constants(descriptor)
        data = assembled(code, constants)
        method = method_f(code_f(data, stack=int(stack), variables=int(variables)), flags=flags)
        # no constant of a computed value before version 55 (4.4.10)
        k = replace(K, constants=constants.items, methods=[method], major=55)
        yield f"{sizes} {code}", [k.data(), *KNOWN], f"method f {descriptor} {verdict}"


def with_references():
    """A name for each method, its class and the known ones, and its verdict."""
    yield from rows_of(ROWS, STATIC)
    yield from rows_of(OF_INSTANCES, 0)
