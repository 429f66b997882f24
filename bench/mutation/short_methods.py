"""Classes with one static method of a few instructions, which take what stands on the stack by chance."""
import pathlib
import sys
from dataclasses import replace

sys.path.insert(0, str(pathlib.Path(__file__).resolve().parents[2] / "tests"))
from rows.verify.references import Constants, assembled
from tools.assembler import FORMS, MNEMONICS, OBJECT, STATIC, named
from tools.class_k import K, code_f, method_f

# The classes beside it, with their superclasses and flags.
BESIDE = (("A", OBJECT, 0x0021), ("I", OBJECT, 0x0600), ("C", "A", 0x0021))
CLASSES = {it[0]: named(*it).data() for it in BESIDE}
TYPES = """
I I I J F D Z LA; LK; LI; Ljava/lang/Object; Ljava/lang/Throwable; [I [J [B [Z [C [S [F [D [LA; [[I [Ljava/lang/Object;
""".split()
LOADS = {"I": ("iload", 1), "Z": ("iload", 1), "J": ("lload", 2), "F": ("fload", 1), "D": ("dload", 2)}
RETURNS = {"I": "ireturn", "Z": "ireturn", "J": "lreturn", "F": "freturn", "D": "dreturn", "V": "return"}
LEAVES = ("athrow", "areturn", *RETURNS.values())
SIMPLE = [it for it in MNEMONICS if not FORMS.get(it) and it not in ("tableswitch", "lookupswitch", "wide", *LEAVES)]
BEFORE = ["aconst_null", "iconst_1", "new [class A]", "new [class A]; dup"]
# Instructions with operands, one on a line.
WITH_OPERANDS = """
getfield [field A x I]
getfield [field K x J]
putfield [field A x LI;]
putfield [field K x [I]
putfield [field A x D]
putfield [field A x Z]
getstatic [field A x J]
putstatic [field A x LA;]
putstatic [field A x [Ljava/lang/Object;]
invokevirtual [method A f ()V]
invokevirtual [method A f (J)J]
invokevirtual [method [I clone ()Ljava/lang/Object;]
invokevirtual [method java/lang/Object hashCode ()I]
invokestatic [method A f (LI;)V]
invokestatic [method A f ([LI;J)LA;]
invokespecial [method K f ()V]
invokespecial [method java/lang/Object f (I)V]
invokespecial [method A <init> ()V]
invokespecial [method K <init> (J)V]
invokeinterface [interface I f ()V] 1 0
invokeinterface [interface I f (J)D] 3 0
new [class A]
new [class K]
checkcast [class [I]
checkcast [class A]
instanceof [class I]
anewarray [class [I]
anewarray [class A]
multianewarray [class [[I] 2
multianewarray [class [[LA;] 1
newarray 10
newarray 4
ldc [int]
ldc [string]
ldc2_w [long]
ldc [class A]
bipush 3
iload 0
istore 1
astore 0
lstore 2
dload 1
fload 0
iinc 0 1
aload 0
aload 1
""".strip().splitlines()


def words_of_method(chance):
    """A descriptor, max_stack, max_locals and code: parameters are loaded, and a few instructions follow."""
    types, at, code = [], 0, []
    for _ in range(chance.randrange(1, 4)):
        types.append(chance.choice(TYPES))
        load, width = LOADS.get(types[-1], ("aload", 1))
        code.append(f"{load} {at}")
        at += width
    if chance.random() < 0.2:
        chance.shuffle(code)
    if chance.random() < 0.15:
        code.insert(chance.randrange(len(code) + 1), chance.choice(BEFORE))
    for _ in range(chance.choice((1, 1, 2, 3))):
        code.append(chance.choice(SIMPLE if chance.random() < 0.6 else WITH_OPERANDS))
    result = chance.choice([*TYPES, *"VVVV"])
    code.append(RETURNS.get(result, "areturn") if chance.random() < 0.3 else "aconst_null; athrow")
    return f"({''.join(types)}){result}", chance.choice((14, 14, 14, 5)), at + chance.choice((0, 0, 1)), "; ".join(code)


def short_method(chance):
    """A class K with a method by chance, and the method's words."""
    descriptor, stack, variables, code = words_of_method(chance)
    constants = Constants(descriptor)
    data = assembled(code, constants)
    methods = [method_f(code_f(data, stack=stack, variables=variables), flags=STATIC)]
    return replace(K, constants=constants.items, methods=methods).data(), f"{descriptor} {stack} {variables} | {code}"
