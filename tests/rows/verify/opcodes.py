"""Each opcode with the operands that it takes, and with those that it does not, and what `classck verify` says of each: JVMS 6.5 and 4.10.1.9.

Each opcode has a class, and each of its cases a method, so that one call shows the opcode beside its neighbours.
"""
from rows.verify.cases import Cases
from tools.assembler import code_of

# The types of operands that are tried in the place of each operand.
TYPES = ["I", "J", "F", "D", "LA;", "[Z", "[C", "[F", "[D", "[B", "[S", "[I", "[J", "[LA;", "[[I"]
REFERENCES = [it for it in TYPES if it[0] in "L["]
ARRAYS = [it for it in TYPES if it[0] == "["]
# The type of number for each prefix of a mnemonic of arithmetic.
KINDS = {"i": "I", "l": "J", "f": "F", "d": "D"}
NAMES_OF_TYPES = {"Z": "4", "C": "5", "F": "6", "D": "7", "B": "8", "S": "9", "I": "10", "J": "11"}

# An instruction, the types that it takes (the last one from the top), and those that it leaves. An instruction that takes several types has a line
# for each; after `any` or `array` stands a word for each reference, or each array.
RULES = """
nop | |
bipush -128 | | I
bipush 127 | | I
sipush -32768 | | I
sipush 32767 | | I
ldc [int] | | I
ldc [float] | | F
ldc_w [int] | | I
ldc_w [float] | | F
ldc2_w [long] | | J
ldc2_w [double] | | D
iaload | [I I | I
laload | [J I | J
faload | [F I | F
daload | [D I | D
aaload | [LA; I | LA;
aaload | [[I I | [I
baload | [B I | I
baload | [Z I | I
caload | [C I | I
saload | [S I | I
iastore | [I I I |
lastore | [J I J |
fastore | [F I F |
dastore | [D I D |
aastore | [LA; I any |
aastore | [[I I any |
bastore | [B I I |
bastore | [Z I I |
castore | [C I I |
sastore | [S I I |
i2l | I | J
i2f | I | F
i2d | I | D
l2i | J | I
l2f | J | F
l2d | J | D
f2i | F | I
f2l | F | J
f2d | F | D
d2i | D | I
d2l | D | J
d2f | D | F
i2b | I | I
i2c | I | I
i2s | I | I
lcmp | J J | I
fcmpl | F F | I
fcmpg | F F | I
dcmpl | D D | I
dcmpg | D D | I
getstatic [field A x I] | | I
getstatic [field A x J] | | J
getstatic [field A x LA;] | | LA;
putstatic [field A x I] | I |
putstatic [field A x J] | J |
putstatic [field A x F] | F |
putstatic [field A x D] | D |
putstatic [field A x LA;] | LA; |
getfield [field A x I] | LA; | I
getfield [field A x J] | LA; | J
getfield [field A x LA;] | LA; | LA;
putfield [field A x I] | LA; I |
putfield [field A x J] | LA; J |
putfield [field A x F] | LA; F |
putfield [field A x D] | LA; D |
putfield [field A x LA;] | LA; LA; |
invokevirtual [method A f (IJ)D] | LA; I J | D
invokestatic [method A f (FLA;)LA;] | F LA; | LA;
invokespecial [method K f (I)V] | LK; I |
invokeinterface [interface I f (JF)I] 4 0 | LA; J F | I
anewarray [class A] | I | [LA;
anewarray [class [I] | I | [[I
arraylength | array | I
checkcast [class A] | any | LA;
checkcast [class [I] | any | [I
instanceof [class A] | any | I
monitorenter | any |
monitorexit | any |
multianewarray [class [LA;] 1 | I | [LA;
multianewarray [class [[I] 1 | I | [[I
multianewarray [class [[I] 2 | I I | [[I
"""

# The instructions that move items of the stack: what they take and leave, or the number that refuses them. A long and a double are two units.
MOVES = """
pop | I |
pop | LA; |
pop | J | 62
pop | D | 62
pop2 | I F |
pop2 | J |
pop2 | D |
pop2 | J I | 62
dup | I | I I
dup | LA; | LA; LA;
dup | J | 62
dup | D | 62
dup_x1 | F I | I F I
dup_x1 | J I | 62
dup_x1 | I J | 62
dup_x2 | LA; F I | I LA; F I
dup_x2 | J I | I J I
dup_x2 | J F I | 62
dup_x2 | I J | 62
dup_x2 | J D | 62
dup2 | F I | F I F I
dup2 | J | J J
dup2 | D | D D
dup2 | J I | 62
dup2_x1 | LA; F I | F I LA; F I
dup2_x1 | I J | J I J
dup2_x1 | J F I | 62
dup2_x1 | J I | 62
dup2_x1 | J D | 62
dup2_x2 | LA; [I F I | F I LA; [I F I
dup2_x2 | LA; F J | J LA; F J
dup2_x2 | J F I | F I J F I
dup2_x2 | J D | D J D
dup2_x2 | J LA; F I | 62
dup2_x2 | D F J | 62
dup2_x2 | F J I | 62
swap | F I | I F
swap | LA; J | 62
swap | J I | 62
"""

# Branches and the types that they take: a branch over an instruction to the one after it.
BRANCHES = """
ifeq 4 | I
ifne 4 | I
iflt 4 | I
ifge 4 | I
ifgt 4 | I
ifle 4 | I
if_icmpeq 4 | I I
if_icmpne 4 | I I
if_icmplt 4 | I I
if_icmpge 4 | I I
if_icmpgt 4 | I I
if_icmple 4 | I I
if_acmpeq 4 | any any
if_acmpne 4 | any any
ifnull 4 | any
ifnonnull 4 | any
goto 4 |
goto_w 6 |
tableswitch | I
lookupswitch | I
"""

# Returns, and the results that they are for.
RETURNS = {"ireturn": "ZBCSI", "lreturn": "J", "freturn": "F", "dreturn": "D", "areturn": ["LA;", "[I", "Ljava/lang/Object;"], "return": "V"}
RESULTS = ["V", "Z", "B", "C", "S", "I", "J", "F", "D", "LA;", "[I"]


def arithmetic():
    """The constants and the operators, as lines of rules."""
    for kind, numbers in (("i", ("m1", *range(6))), ("l", range(2)), ("f", range(3)), ("d", range(2))):
        for number in numbers:
            yield f"{kind}const_{number} | | {KINDS[kind]}"
    for kind, of in KINDS.items():
        for name in ("add", "sub", "mul", "div", "rem", *(("and", "or", "xor") if kind in "il" else ())):
            yield f"{kind}{name} | {of} {of} | {of}"
        yield f"{kind}neg | {of} | {of}"
        for name in ("shl", "shr", "ushr") if kind in "il" else ():
            yield f"{kind}{name} | {of} I | {of}"
    for of, number in NAMES_OF_TYPES.items():
        yield f"newarray {number} | I | [{of}"


def spread(types):
    """The lists of types that stand for one with `any` or `array` in it."""
    if not types:
        return [[]]
    first = {"any": REFERENCES, "array": ARRAYS}.get(types[0], types[:1])
    return [[it, *rest] for it in first for rest in spread(types[1:])]


def width(types):
    """How many units they take."""
    return sum(2 if it in "JD" else 1 for it in types)


def letter(of):
    """The prefix of the instructions for a type."""
    return {"J": "l", "F": "f", "D": "d", "L": "a", "[": "a"}.get(of[0], "i")


def loads(types):
    """Loads of parameters of these types, each of two bytes."""
    return "; ".join(f"{letter(of)}load {width(types[:i])}" for i, of in enumerate(types))


def puts(types):
    """Instructions that take these types from the stack, each for itself."""
    return "; ".join(f"putstatic [field K x {it}]" for it in reversed(types))


def add(cases, what, types, stack, code, verdict, body="", result="V"):
    """A case with these parameters, which it loads before the code."""
    text = "; ".join(it for it in (loads(types), code) if it)
    cases.add(what, f"({''.join(types)}){result}", (stack, width(types)), text, verdict, body)


def lines_of(table):
    """The parts of the lines of a table, by their first words, so that one instruction has one list."""
    found = {}
    for line in table:
        words, *parts = (it.strip() for it in line.split("|"))
        found.setdefault(words, []).append([it.split() for it in parts])
    return found


def wrong_types(takes, all_taken):
    """Lists of types of which one is another than the instruction takes there."""
    for i in range(len(takes)):
        for it in TYPES:
            types = [*takes[:i], it, *takes[i + 1 :]]
            if types not in all_taken:
                yield types


def code_for(words, leaves):
    """An instruction, and after it one for each type that it leaves."""
    return "; ".join(it for it in (words, puts(leaves), "return") if it)


def add_taken(cases, words, takes, leaves):
    """The case of an instruction that takes these types and leaves those."""
    add(cases, "taken", takes, max(width(takes), width(leaves)), code_for(words, leaves), "verified")


def add_bounds(cases, words, takes, leaves):
    """The cases of less on the stack, of less room, and of another type that is left."""
    at, stack = 2 * len(takes), max(width(takes), width(leaves))
    if takes:
        add(cases, "one less", takes[1:], stack, code_for(words, leaves), f"refused 61 at {at - 2}")
    if width(leaves) > width(takes):
        add(cases, "one unit less", takes, stack - 1, code_for(words, leaves), f"refused 65 at {at}")
    for it in ("I", "J", "F", "D", "LA;", "[LA;") if leaves else ():
        if it != leaves[-1]:
            add(cases, "left as another", takes, stack, code_for(words, [it]), f"refused 62 at {at + size_of(words)}")


def add_wrong(cases, words, takes, leaves, all_taken):
    """The cases of one operand of another type."""
    for types in wrong_types(takes, all_taken):
        add(cases, "of another type", types, width(types) + 2, code_for(words, leaves), f"refused 62 at {2 * len(takes)}")


def size_of(words):
    """How many bytes an instruction has whose constant is named in brackets."""
    front, _, named = words.partition(" [")
    return len(code_of(f"{front} 0{named[named.rindex(']') + 1:]}" if named else front))


def rules():
    """The instructions that go on, with what they take and leave."""
    for words, parts in lines_of([*arithmetic(), *RULES.strip().splitlines()]).items():
        all_taken = [it for takes, _ in parts for it in spread(takes)]
        cases = Cases()
        for pattern, leaves in parts:
            for takes in spread(pattern):
                add_taken(cases, words, takes, leaves)
            add_bounds(cases, words, takes, leaves)
            add_wrong(cases, words, takes, leaves, all_taken)
        yield words, cases


def moves():
    """The instructions that move items."""
    for words, parts in lines_of(MOVES.strip().splitlines()).items():
        cases = Cases()
        for takes, leaves in parts:
            if leaves == ["62"]:
                add(cases, "in two halves", takes, 9, f"{words}; return", f"refused 62 at {2 * len(takes)}")
            else:
                add_taken(cases, words, takes, leaves)
                add_bounds(cases, words, takes, leaves)
        yield words, cases


def branch(words, at):
    """The bytes of a branch at this place. Its targets are the place after the instruction that follows it, and of a switch that instruction too."""
    if not words.endswith("switch"):
        return code_of(words)
    pad = bytes(3 - at % 4)
    numbers = [0, 0] if words == "tableswitch" else [1, 0]
    size = 1 + len(pad) + 16
    return code_of(words)[:1] + pad + b"".join(it.to_bytes(4, "big") for it in (size + 1, *numbers, size))


def add_targets(cases, words, takes):
    """The cases of a branch with a frame at its target and one after it, and without the one or the other."""
    at, is_switch, goes_on = 2 * len(takes), words.endswith("switch"), words.startswith("if")
    code, after = branching(words, at)
    no_frame, stack = f"refused 67 at {at}", max(1, width(takes))
    alone = no_frame if is_switch else "verified" if goes_on else f"refused 70 at {after}"
    add(cases, "both frames", takes, stack, code, "verified", f"{after} same; {after + 1} same")
    add(cases, "no frame after it", takes, stack, code, alone, f"{after + 1} same")
    add(cases, "no frame at its target", takes, stack, code, no_frame, f"{after} same")
    add(cases, "an operand more at its target", takes, stack, code, f"refused 68 at {at}", f"{after} same; {after + 1} same1 int")
    add(cases, "no frames", takes, stack, code, no_frame)


def add_refused(cases, words, types, number):
    """A case of a branch whose operands have these types, which are others than it takes, or fewer."""
    code, after = branching(words, 2 * len(types))
    add(cases, "of other types", types, width(types) + 1, code, f"refused {number} at {2 * len(types)}", f"{after} same; {after + 1} same")


def branching(words, at):
    """A branch at this place over one return to another, and the place of the first."""
    data = branch(words, at)
    return f"bytes {data.hex()}; return; return", at + len(data)


def branches():
    """Branches and switches."""
    for words, parts in lines_of(BRANCHES.strip().splitlines()).items():
        all_taken = spread(parts[0][0])
        cases = Cases()
        add_targets(cases, words, all_taken[0])
        for types in all_taken[1:]:
            code, after = branching(words, 2 * len(types))
            add(cases, "taken", types, width(types), code, "verified", f"{after} same; {after + 1} same")
        if all_taken[0]:
            add_refused(cases, words, all_taken[0][1:], 61)
        for types in wrong_types(all_taken[0], all_taken):
            add_refused(cases, words, types, 62)
        yield words, cases


def returns():
    """Returns from methods of each result. After one of them an instruction has to have a frame."""
    for words, results in RETURNS.items():
        cases = Cases()
        for result in RESULTS:
            types = [] if words == "return" else [result if result in results else list(results)[0]]
            at = 2 * len(types)
            add(cases, "its result", types, 2, words, "verified" if result in results else f"refused 76 at {at}", result=result)
        first = list(results)[0]
        types = [] if words == "return" else [first]
        add(cases, "nothing goes on", types, 2, f"{words}; return", f"refused 70 at {2 * len(types) + 1}", result=first)
        if types:
            add(cases, "one less", [], 2, words, "refused 61 at 0", result=first)
            for it in TYPES:
                if letter(it) != letter(first):
                    add(cases, "of another type", [it], 2, words, "refused 62 at 2", result=first)
        yield words, cases


def others():
    """An athrow, and the instructions that have no rule."""
    cases = Cases()
    add(cases, "taken", ["Ljava/lang/Throwable;"], 1, "athrow", "verified")
    add(cases, "nothing goes on", ["Ljava/lang/Throwable;"], 1, "athrow; return", "refused 70 at 3")
    add(cases, "one less", [], 1, "athrow", "refused 61 at 0")
    for it in (*TYPES, "Ljava/lang/Object;"):
        add(cases, "of another type", [it], 2, "athrow", "refused 62 at 2")
    yield "athrow", cases
    cases = Cases()
    for words, body in (("jsr 3", ""), ("jsr 3", "5 same1 int"), ("jsr_w 5", ""), ("jsr_w 5", "7 same1 int"), ("ret 0", ""), ("wide ret 0", "")):
        add(cases, "without a rule", ["I"], 2, f"{words}; return", "refused 60 at 2", body)
    yield "jsr, jsr_w and ret", cases


def with_opcodes():
    """A name for each opcode with its cases, the files, and the lines of their verdicts."""
    for table in (rules, moves, branches, returns, others):
        for words, cases in table():
            yield cases.row(words)
