"""Class files put together from their parts, and code from its instructions.

The layout is that of The Java Virtual Machine Specification, Java SE 17, 4.1 and 4.4 to 4.7, the instructions are those of
chapter 6, their numbers those of chapter 7. Nothing is checked: a part may be what no class file may have.
"""
import struct
from dataclasses import dataclass

OBJECT = "java/lang/Object"
# Flags of methods (4.6).
STATIC, NATIVE = 0x0008, 0x0100

# The instructions by their numbers, from 0 on.
MNEMONICS = """
nop aconst_null iconst_m1 iconst_0 iconst_1 iconst_2 iconst_3 iconst_4 iconst_5 lconst_0 lconst_1
fconst_0 fconst_1 fconst_2 dconst_0 dconst_1 bipush sipush ldc ldc_w ldc2_w
iload lload fload dload aload iload_0 iload_1 iload_2 iload_3 lload_0 lload_1 lload_2 lload_3
fload_0 fload_1 fload_2 fload_3 dload_0 dload_1 dload_2 dload_3 aload_0 aload_1 aload_2 aload_3
iaload laload faload daload aaload baload caload saload
istore lstore fstore dstore astore istore_0 istore_1 istore_2 istore_3 lstore_0 lstore_1 lstore_2 lstore_3
fstore_0 fstore_1 fstore_2 fstore_3 dstore_0 dstore_1 dstore_2 dstore_3 astore_0 astore_1 astore_2 astore_3
iastore lastore fastore dastore aastore bastore castore sastore
pop pop2 dup dup_x1 dup_x2 dup2 dup2_x1 dup2_x2 swap
iadd ladd fadd dadd isub lsub fsub dsub imul lmul fmul dmul idiv ldiv fdiv ddiv irem lrem frem drem ineg lneg fneg dneg
ishl lshl ishr lshr iushr lushr iand land ior lor ixor lxor iinc
i2l i2f i2d l2i l2f l2d f2i f2l f2d d2i d2l d2f i2b i2c i2s lcmp fcmpl fcmpg dcmpl dcmpg
ifeq ifne iflt ifge ifgt ifle if_icmpeq if_icmpne if_icmplt if_icmpge if_icmpgt if_icmple if_acmpeq if_acmpne
goto jsr ret tableswitch lookupswitch ireturn lreturn freturn dreturn areturn return
getstatic putstatic getfield putfield invokevirtual invokespecial invokestatic invokeinterface invokedynamic
new newarray anewarray arraylength athrow checkcast instanceof monitorenter monitorexit wide multianewarray
ifnull ifnonnull goto_w jsr_w
""".split()

# The operands after an opcode, as `struct` spells them: small letters are signed.
FORMS = {
    **dict.fromkeys(["bipush"], "b"),
    **dict.fromkeys(["sipush"], "h"),
    **dict.fromkeys(["ldc", "newarray", "ret", *(kind + name for kind in "ilfda" for name in ("load", "store"))], "B"),
    **dict.fromkeys(["ldc_w", "ldc2_w", "new", "anewarray", "checkcast", "instanceof", "getstatic", "putstatic"], "H"),
    **dict.fromkeys(["getfield", "putfield", "invokevirtual", "invokespecial", "invokestatic"], "H"),
    **dict.fromkeys([it for it in MNEMONICS if it.startswith("if")] + ["goto", "jsr"], "h"),
    **dict.fromkeys(["goto_w", "jsr_w"], "i"),
    "iinc": "Bb",
    "invokeinterface": "HBB",
    "invokedynamic": "HBB",
    "multianewarray": "HB",
}
# Which instructions `wide` may modify, and what then stands after their opcode.
WIDE = {**{name: "H" for name, form in FORMS.items() if form == "B" and name not in ("ldc", "newarray")}, "iinc": "Hh"}


def instruction(text):
    """The bytes of an instruction with its operands; after `bytes` stand bytes by their hexadecimal digits."""
    name, *operands = text.split()
    if name == "bytes":
        return bytes.fromhex("".join(operands))
    if name == "wide":
        name, *operands = operands
        return bytes([MNEMONICS.index("wide"), MNEMONICS.index(name)]) + struct.pack(">" + WIDE[name], *map(int, operands))
    return bytes([MNEMONICS.index(name)]) + struct.pack(">" + FORMS.get(name, ""), *map(int, operands))


def code_of(text):
    """The bytes of instructions, with `;` between them."""
    return b"".join(instruction(it) for it in text.split(";") if it.strip())


def u1(value):
    return value.to_bytes(1, "big")


def u2(value):
    return value.to_bytes(2, "big")


def u4(value):
    return value.to_bytes(4, "big")


def listed(parts):
    """A count, and the parts."""
    return u2(len(parts)) + b"".join(parts)


def utf8(text):
    """A text, by its bytes or as ASCII."""
    data = text if isinstance(text, bytes) else text.encode("ascii")
    return u1(1) + u2(len(data)) + data


def integer(value):
    return u1(3) + u4(value)


def long(value):
    return u1(5) + value.to_bytes(8, "big")


def class_info(name):
    return u1(7) + u2(name)


def name_and_type(name, descriptor):
    return u1(12) + u2(name) + u2(descriptor)


def reference(tag, owner, named):
    """A Fieldref (9), a Methodref (10), an InterfaceMethodref (11), a Dynamic (17) or an InvokeDynamic (18)."""
    return u1(tag) + u2(owner) + u2(named)


def attribute(name, body, length=None):
    """An attribute, with a length of its own where one is said."""
    return u2(name) + u4(len(body) if length is None else length) + body


def code_attribute(name, code, stack=0, variables=0, handlers=(), nested=(), length=None):
    """A Code attribute: its name, its bytes, its sizes in units, its exception table and its attributes."""
    table = [b"".join(map(u2, it)) for it in handlers]
    return attribute(name, u2(stack) + u2(variables) + u4(len(code)) + code + listed(table) + listed(nested), length)


def bootstrap_method(handle, arguments=()):
    """An entry of a BootstrapMethods attribute: the indices of its method handle and of its static arguments."""
    return u2(handle) + listed([u2(it) for it in arguments])


def member(flags, name, descriptor, *attributes):
    """A field or a method."""
    return u2(flags) + u2(name) + u2(descriptor) + listed(attributes)


@dataclass(frozen=True)
class ClassFile:
    """A class by its parts, those of the list parts as their bytes."""

    constants: list
    flags: int = 0x0021
    this_class: int = 1
    super_class: int = 3
    interfaces: tuple = ()
    fields: tuple = ()
    methods: tuple = ()
    attributes: tuple = ()
    magic: int = 0xCAFEBABE
    minor: int = 0
    major: int = 52

    def data(self):
        """Its bytes. A Long and a Double take two indices (4.4.5)."""
        count = 1 + sum(2 if it[0] in (5, 6) else 1 for it in self.constants)
        return b"".join(
            [
                u4(self.magic) + u2(self.minor) + u2(self.major),
                u2(count) + b"".join(self.constants),
                u2(self.flags) + u2(self.this_class) + u2(self.super_class),
                *map(listed, ([u2(it) for it in self.interfaces], self.fields, self.methods, self.attributes)),
            ]
        )


def named(name, above=OBJECT, flags=0x0021):
    """A class without members, below the class of this name, or below none."""
    constants = [class_info(2), utf8(name)] + ([class_info(4), utf8(above)] if above else [])
    return ClassFile(constants, flags=flags, super_class=3 if above else 0)
