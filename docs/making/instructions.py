"""The page of the instruction set."""
import re

from making.crates import CRATES

PRINTED = CRATES / "opcode_table/stdout"
FORMS = {
    "Nothing": "",
    "Byte": "s1",
    "Short": "s2",
    "Constant": "index u1",
    "Index": "index u2",
    "Local": "local u1",
    "Increment": "local u1, s1",
    "Branch": "offset s2",
    "WideBranch": "offset s4",
    "InvokeInterface": "index u2, count u1, 0 u1",
    "InvokeDynamic": "index u2, 0 u1, 0 u1",
    "NewArray": "type u1",
    "MultiNewArray": "index u2, dimensions u1",
    "TableSwitch": "padding, default s4, low s4, high s4, offsets s4",
    "LookupSwitch": "padding, default s4, count s4, pairs of s4 and s4",
    "Wide": "opcode u1, local u2; before iinc also s2",
}
HEAD = """# Instructions

`docs/make` makes this page of what the program `crates/opcode_table` prints of the tables that the decoder, the
encoder, `mnemonic` and `act` are proved against.

The rule of each is in `crates/rules/specs/Table.antt`.

- *Operands*: what follows the opcode; `u` is unsigned, `s` signed, with the number of bytes.
- *Meaning*: the act without its form; `LoadFrom(Int, 2)` is the load of an `int` from local variable 2. After `wide`
  the modified opcode has the meaning.
- *Takes and leaves*: for instructions that compute numbers, the kinds that they take, with the top of the stack first,
  and the kind that they give; for instructions that move items, each form: the items taken, with the top first, and
  the items left, by their numbers.
- *Section*: the heading in section 6.5 of The Java Virtual Machine Specification, Java SE 17.

Opcodes 202 to 255 are refused with 31: 202 (breakpoint), 254 and 255 (impdep1, impdep2) are reserved, the others unused
(section 6.2).

| Opcode | Mnemonic | Operands | Meaning | Takes and leaves | Section |
|---|---|---|---|---|---|
"""


def section(name):
    """The heading under which the standard has the instruction."""
    for pattern, heading in (
        (r"([ilfda](?:load|store))_[0-3]", r"\1_<n>"),
        (r"iconst_(m1|[0-5])", "iconst_<i>"),
        (r"([lfd])const_[0-2]", r"\1const_<\1>"),
        (r"([fd])cmp[lg]", r"\1cmp<op>"),
        (r"if_icmp(..)", "if_icmp<cond>"),
        (r"if_acmp(..)", "if_acmp<cond>"),
        (r"if(eq|ne|lt|ge|gt|le)", "if<cond>"),
    ):
        if re.fullmatch(pattern, name):
            return re.sub(pattern, heading, name)
    return name


def rows():
    """The rows of what the program prints: a line for each opcode, and below it indented ones."""
    found = []
    for line in PRINTED.read_text().splitlines():
        if line.startswith("  "):
            found[-1][4].append(line.strip())
            continue
        number, name, form, meaning = line.split(" ", 3)
        found.append([int(number), name, FORMS[form], meaning, []])
    return found


def page():
    """The page, the number of its rows, and no fault."""
    lines = [
        f"| {number} ({number:#04x}) | `{name}` | {form} | `{meaning}` | {'; '.join(stack)} | `{section(name)}` |\n"
        for number, name, form, meaning, stack in rows()
    ]
    return HEAD + "".join(lines), len(lines), []
