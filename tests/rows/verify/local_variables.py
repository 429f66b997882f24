"""Instructions that name a local variable, in each of their forms, and what `classck verify` says of each: JVMS 6.5 and 4.10.1.9.

Frames say where a local variable stands, so that an instruction of any form that names its neighbour is seen: a load finds the type at its own index
alone, between others; after a store the declared frame has the type there, and all others as they were. The last local variable that there is, and
the one after it, are named too.
"""
from rows.verify.cases import Cases
from tools.assembler import code_of

# The type by the letter of an instruction: its words in a frame, and how many units it takes.
TYPES = {"i": ("int", 1), "l": ("long", 2), "f": ("float", 1), "d": ("double", 2), "a": ("class A", 1)}
# A constant and a field of it.
ZEROS = {"i": "iconst_0", "l": "lconst_0", "f": "fconst_0", "d": "dconst_0", "a": "aconst_null"}
FIELDS = {"i": "I", "l": "J", "f": "F", "d": "D", "a": "LA;"}
LARGEST = 65_535
# The indices that are named in each form, and what iinc adds.
SHORT, BYTE, WIDE = range(4), (0, 1, 254, 255), (0, 1, 255, 256, 257, 511)
CONSTANTS = (-32_768, -129, -128, 127, 128, 32_767)


def forms():
    """The form of an instruction, its indices, and its words for a mnemonic and an index."""
    yield "short", SHORT, "{}_{}"
    yield "byte", BYTE, "{} {}"
    yield "wide", WIDE, "wide {} {}"


def other(letter):
    """A type of one unit that is not that of this letter."""
    return "float" if letter == "i" else "int"


def locals_of(letter, index, more=1):
    """The local variables in which one type stands at this index between others of one unit."""
    return [*[other(letter)] * index, TYPES[letter][0], *[other(letter)] * more]


def around(letter, index):
    """Local variables in which the type stands around this index, at which there is another."""
    name, units = TYPES[letter]
    return [*[other(letter)] * (index % units), *[name] * (index // units), other(letter), name]


def frame(at, variables, stack=""):
    return f"{at} full [{', '.join(variables)}] [{stack}]"


def width(variables):
    return sum(2 if it in ("long", "double") else 1 for it in variables)


def add(cases, what, variables, code, verdict, *frames):
    """A case without parameters and with so many units of local variables. Its code begins at 1, after a return, with the first frame."""
    cases.add(what, "()V", (2, variables), f"return; {code}", verdict, "; ".join(frames))


def add_loads(cases, letter, words, index):
    """The cases of a load that names this index."""
    units = TYPES[letter][1]
    code = f"{words}; putstatic [field K x {FIELDS[letter]}]; return"
    held, strange = locals_of(letter, index), around(letter, index)
    add(cases, f"{index} is loaded", width(held), code, "verified", frame(1, held))
    add(cases, f"{index} is the last", index + units, code, "verified", frame(1, held[:-1]))
    add(cases, f"{index} is of another type", width(strange), code, "refused 63 at 1", frame(1, strange))
    add(cases, f"{index} is past the last", index + units - 1, code, "refused 64 at 1", frame(1, held[:-2]))


def add_stores(cases, letter, words, index):
    """The cases of a store that names this index: all other local variables are as before, but one whose second half is gone."""
    name, units = TYPES[letter]
    code, size = f"{words}; return", len(code_of(words))
    front, back = [other(letter)] * index, [other(letter)] * units
    stored = [*front, name, other(letter)]
    before = frame(1, [*front, *back, other(letter)], name)
    add(cases, f"{index} is stored", width(stored), code, "verified", before, frame(1 + size, stored))
    add(cases, f"{index} is the last", index + units, code, "verified", frame(1, [*front, *back], name), frame(1 + size, stored[:-1]))
    add(cases, f"{index} is as before", width(stored), code, f"refused 69 at {1 + size}", before, frame(1 + size, [*front, other(letter)]))
    add(cases, f"{index} is past the last", index + units - 1, code, "refused 64 at 1", frame(1, [*front, *back[1:]], name))
    if units == 2:
        gone = [*front, "top", other(letter)]
        add(cases, f"{index} and its second half", width(stored), code, f"refused 69 at {1 + size}", before, frame(1 + size, gone))
    if index:
        half = [*front[:-1], "long", *back]
        kept, lost = [*front[:-1], "long"], [*front[:-1], "top", name]
        add(cases, f"{index} was the second half", width(stored), code, f"refused 69 at {1 + size}", frame(1, half, name), frame(1 + size, kept))
        add(cases, f"{index} was the second half", width(stored), code, "verified", frame(1, half, name), frame(1 + size, lost))


def add_increments(cases, words, index):
    """The cases of an iinc that names this index."""
    size = len(code_of(words))
    held, strange = locals_of("i", index), around("i", index)
    add(cases, f"{index} is counted up", width(held), f"{words}; return", "verified", frame(1, held), frame(1 + size, held))
    add(cases, f"{index} is the last", index + 1, f"{words}; return", "verified", frame(1, held[:-1]))
    add(cases, f"{index} is of another type", width(strange), f"{words}; return", "refused 63 at 1", frame(1, strange))
    add(cases, f"{index} is past the last", index, f"{words}; return", "refused 64 at 1", frame(1, held[:-2]))


def accesses():
    """A class for each letter, each form, and loads and stores."""
    for form, indices, pattern in forms():
        for letter in TYPES:
            loads, stores = Cases(), Cases()
            for index in indices:
                add_loads(loads, letter, pattern.format(f"{letter}load", index), index)
                add_stores(stores, letter, pattern.format(f"{letter}store", index), index)
            yield loads.row(f"{letter}load in its {form} form")
            yield stores.row(f"{letter}store in its {form} form")


def increments():
    """A class for each form of iinc."""
    for form, indices, pattern in list(forms())[1:]:
        cases = Cases()
        for index in indices:
            add_increments(cases, pattern.format("iinc", index) + " 1", index)
        for constant in CONSTANTS if form == "wide" else CONSTANTS[2:4]:
            add_increments(cases, pattern.format("iinc", 2) + f" {constant}", 2)
        yield cases.row(f"iinc in its {form} form")


def last_ones():
    """The last local variables that there can be, and those at which an index of two bytes gets its highest bit."""
    cases = Cases()
    for letter, (_, units) in TYPES.items():
        for index in (32_767, 32_768, LARGEST - units):
            code = f"{ZEROS[letter]}; wide {letter}store {index}; wide {letter}load {index}; putstatic [field K x {FIELDS[letter]}]; return"
            load = f"wide {letter}load {index}; return"
            add(cases, f"{index} is stored and loaded", index + units, code, "verified", "1 same")
            add(cases, f"{index} is past the last, and stored", index + units - 1, code, "refused 64 at 2", "1 same")
            add(cases, f"{index} is past the last, and loaded", index + units - 1, load, "refused 64 at 1", "1 same")
            add(cases, f"{index} is loaded, and not stored", LARGEST, load, "refused 63 at 1", "1 same")
        past = LARGEST - units + 1
        add(cases, f"{past} is stored", LARGEST, f"{ZEROS[letter]}; wide {letter}store {past}; return", "refused 64 at 2", "1 same")
        add(cases, f"{past} is loaded", LARGEST, f"wide {letter}load {past}; return", "refused 64 at 1", "1 same")
    for index in (32_767, 32_768, LARGEST - 1):
        code = f"iconst_0; wide istore {index}; wide iinc {index} -1; wide iload {index}; putstatic [field K x I]; return"
        add(cases, f"{index} is counted down", index + 1, code, "verified", "1 same")
        add(cases, f"{index} is past the last, and counted down", index, f"wide iinc {index} -1; return", "refused 64 at 1", "1 same")
    add(cases, f"{LARGEST} is counted down", LARGEST, f"wide iinc {LARGEST} -1; return", "refused 64 at 1", "1 same")
    yield cases.row("the last local variable")


def with_local_variables():
    """A name for each class, the files, and the lines of its verdicts."""
    yield from accesses()
    yield from increments()
    yield from last_ones()
