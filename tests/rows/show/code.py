"""Code, and the lines that `classck show` has of its instructions: JVMS 6.5, and 7 for the numbers of opcodes."""
from tools.assembler import FORMS, MNEMONICS, WIDE, code_of

TABLE = "iconst_0; bytes aa 0102 00000013 00000000 00000000 00000013; return"
PAIRS = "iconst_0; bytes ab 0000 00000013 00000001 ffffffff 00000013; return"

# Code, and its lines with `;` between them.
LISTED = [
    ("return", "0 return"),
    (TABLE, "0 iconst_0; 1 tableswitch 0 0 20 20; 20 return"),
    (PAIRS, "0 iconst_0; 1 lookupswitch 20 -1:20; 20 return"),
    ("bytes aa 000000 00000013 00000001 00000002 00000003 00000004", "0 tableswitch 1 2 19 3 4"),
    ("wide iload 256; ireturn", "0 wide iload 256; 4 ireturn"),
    ("wide iload 256; wide iinc 2 -2", "0 wide iload 256; 4 wide iinc 2 -2"),
    ("nop; goto_w 2147483647", "0 nop; 1 goto_w 2147483648"),
    ("invokeinterface 1 1 0", "0 invokeinterface #1 1"),
    # A target between two instructions is not refused.
    ("goto 1; return", "0 goto 1; 3 return"),
    ("bipush -1; sipush -256; ldc 7; iinc 2 -2", "0 bipush -1; 2 sipush -256; 5 ldc #7; 7 iinc 2 -2"),
    ("wide iinc 256 -2; newarray 10", "0 wide iinc 256 -2; 6 newarray 10"),
    ("multianewarray 9 2; invokedynamic 5 0 0; goto -2", "0 multianewarray #9 2; 4 invokedynamic #5; 9 goto 7"),
    ("bipush -128; sipush -129; ldc_w 258; iload 3", "0 bipush -128; 2 sipush -129; 5 ldc_w #258; 8 iload 3"),
    ("iload_1; iload 1; wide iload 1; goto -7", "0 iload_1; 1 iload 1; 3 wide iload 1; 7 goto 0"),
]

# Code that is none, the number of its first fault, and where that is.
FAULTS = [
    ("bytes ca", 31, 0),
    ("nop; bytes ca", 31, 1),
    ("nop; bytes ff; bytes ca", 31, 1),
    ("bytes 12", 32, 0),
    ("nop; bytes ba 0001 01", 32, 1),
    ("bytes c4", 32, 0),
    ("nop; goto_w 3; bytes 10", 32, 6),
    # 2^32 entries
    ("bytes aa 000000 00000013 80000000 7fffffff", 32, 0),
    # one entry, and less than it
    ("bytes aa 000000 00000013 00000000 00000000 000000", 32, 0),
    # low over high
    ("bytes aa 000000 00000013 00000001 00000000", 33, 0),
    # a count below 0
    ("bytes ab 000000 0000000c ffffffff", 33, 0),
    # keys that do not rise
    ("bytes ab 000000 0000000c 00000002 00000001 00000000 00000001 00000000", 33, 0),
    ("bytes c400", 34, 0),
    ("bytes b9 0001 01 01", 35, 0),
    ("bytes ba 0001 0001", 35, 0),
]

# The operands that are shown of zeros, by the form of an instruction; of those that name a constant, and of switches.
ZEROS = {"": "", "b": " 0", "h": " 0", "B": " 0", "H": " #0", "i": " 0", "Bb": " 0 0", "HB": " #0 0", "HBB": " #0 0"}
OTHER_ZEROS = {"ldc": " #0", "invokedynamic": " #0", "tableswitch": " 0 0 0 0", "lookupswitch": " 0"}
# Three bytes of padding and the numbers: an entry for 0 to 0, and no pair.
SWITCHES = {"tableswitch": 19, "lookupswitch": 11}
SIZES = {"b": 1, "B": 1, "h": 2, "H": 2, "i": 4}


def refused(number, at):
    return [f"code refused {number} at {at}"]


def shortest():
    """Each opcode with zeros after it, in its shortest form and in no shorter one; `wide` stands alone below."""
    for number, name in enumerate(MNEMONICS):
        form = FORMS.get(name, "")
        code = bytes([number]) + bytes(SWITCHES.get(name, sum(SIZES[it] for it in form)))
        if name != "wide":
            yield code, [f"0 {name}" + OTHER_ZEROS.get(name, ZEROS[form])]
        if len(code) > 1:
            yield code[:-1], refused(32, 0)
    for number in range(len(MNEMONICS), 256):
        yield bytes([number]) + bytes(19), refused(31, 0)


def behind_wide():
    """Each byte after `wide`."""
    for number in range(256):
        name = MNEMONICS[number] if number < len(MNEMONICS) else None
        code = bytes([0xC4, number, 1, 2, 0xFF, 0xFE])
        if name == "iinc":
            yield code, ["0 wide iinc 258 -2"]
        elif name in WIDE:
            yield code[:4], [f"0 wide {name} 258"]
        else:
            yield code, refused(34, 0)


def wide_indices():
    """Each opcode after `wide`, with local variables at the limits of one and of two bytes, and with the limits of what iinc adds."""
    for name in WIDE:
        for index in (0, 1, 254, 255, 256, 257, 32_767, 32_768, 65_534, 65_535):
            for constant in (-32_768, -129, -1, 0, 128, 32_767) if name == "iinc" else ("",):
                words = f"wide {name} {index} {constant}".strip()
                yield code_of(words), [f"0 {words}"]


def shown():
    """Code, and its lines; the first says so where it is refused."""
    for text, lines in LISTED:
        yield code_of(text), lines.split("; ")
    for text, number, at in FAULTS:
        yield code_of(text), refused(number, at)
    yield from shortest()
    yield from behind_wide()
    yield from wide_indices()
