"""Methods at the limits of class files, and what `classck verify` says of each: JVMS 4.11, and 4.3.2, 4.3.3, 4.7.3, 4.9.1 and 6.5 for each limit."""
from dataclasses import replace

from rows.known import KNOWN
from rows.verify.references import Constants, assembled
from tools.assembler import STATIC, attribute
from tools.class_k import K, code_f, method_f
from tools.stack_maps import stack_map_of

LARGEST = 65_535


def dimensions(count, of="I"):
    """An array of so many dimensions."""
    return "[" * count + of


def repeated(words, count):
    return "; ".join([words] * count)


# Each row: descriptor, max_stack and max_locals; code; a stack map, or none; verdict.


def arrays():
    """Arrays of 255 dimensions, which are as many as there may be, and those that would have one more (4.9.1)."""
    most = dimensions(255)
    yield f"(){most} 1 0", f"iconst_1; anewarray [class {dimensions(254)}]; areturn", "", "verified"
    yield "()V 1 0", f"iconst_1; anewarray [class {most}]; pop; return", "", "refused 66 at 1"
    yield f"(){dimensions(255, 'LA;')} 1 0", f"iconst_1; anewarray [class {dimensions(254, 'LA;')}]; areturn", "", "verified"
    yield "()V 1 0", f"iconst_1; anewarray [class {dimensions(255, 'LA;')}]; pop; return", "", "refused 66 at 1"
    for count, verdict in ((1, "verified"), (254, "verified"), (255, "verified"), (0, "refused 66 at 255")):
        taken = "; ".join([repeated("iconst_1", 255), f"multianewarray [class {most}] {count}"])
        yield f"(){most} 255 0", f"{taken}; areturn", "", verdict
    front = repeated("iconst_1", 254)
    yield f"(){most} 255 0", f"{front}; multianewarray [class {most}] 255; areturn", "", "refused 61 at 254"
    yield "()V 255 0", f"{front}; multianewarray [class {dimensions(254)}] 254; pop; return", "", "verified"
    yield "()V 255 0", f"iconst_1; {front}; multianewarray [class {dimensions(254)}] 255; pop; return", "", "refused 66 at 255"
    yield f"({most})V 1 1", f"aload_0; checkcast [class {most}]; instanceof [class {most}]; pop; return", "", "verified"
    yield f"({most}){dimensions(254)} 2 1", "aload_0; iconst_0; aaload; areturn", "", "verified"
    yield f"({most}){most} 2 1", "aload_0; iconst_0; aaload; areturn", "", "refused 62 at 3"
    yield f"({most}){dimensions(254, 'Ljava/lang/Object;')} 1 1", "aload_0; areturn", "", "verified"
    yield f"({most}){dimensions(255, 'Ljava/lang/Object;')} 1 1", "aload_0; areturn", "", "refused 62 at 1"
    yield f"({dimensions(255, 'LC;')}){dimensions(255, 'LA;')} 1 1", "aload_0; areturn", "", "verified"
    yield f"({dimensions(255, 'LA;')}){dimensions(255, 'LC;')} 1 1", "aload_0; areturn", "", "refused 62 at 1"


def calls():
    """Calls with 254 and 255 units of arguments; those of an object may have 254 (4.3.3)."""
    for units in ("I" * 254, "J" * 127, "I" * 255, "J" * 127 + "I"):
        pushes = "; ".join("lconst_0" if it == "J" else "iconst_0" for it in units)
        at, width = len(units), units.count("I") + 2 * units.count("J")
        verdict = "verified" if width < 255 else "refused 66 at"
        yield f"()V {width} 0", f"{pushes}; invokestatic [method A f ({units})V]; return", "", "verified"
        yield f"()V {width} 0", f"{pushes}; invokestatic [interface I f ({units})V]; return", "", "verified"
        for created, call, room in (
            ("aconst_null", f"invokevirtual [method A f ({units})V]", 1),
            ("aconst_null", f"invokeinterface [interface I f ({units})V] {min(width + 1, 255)} 0", 1),
            ("new [class A]", f"invokespecial [method A <init> ({units})V]", 3),
        ):
            place = f" {at + room}" if width == 255 else ""
            yield f"()V {width + 1} 0", f"{created}; {pushes}; {call}; return", "", verdict + place


def lacking():
    """Calls with a unit less on the stack or in max_stack, and other counts in invokeinterface."""
    for width in (254, 255):
        call = f"invokestatic [method A f ({'I' * width})V]; return"
        yield f"()V {width - 1} 0", f"{repeated('iconst_0', width)}; {call}", "", f"refused 65 at {width - 1}"
        yield f"()V {width} 0", f"{repeated('iconst_0', width - 1)}; {call}", "", f"refused 61 at {width - 1}"
    yield "()V 255 0", f"aconst_null; {repeated('iconst_0', 254)}; invokeinterface [interface I f ({'I' * 254})V] 254 0; return", "", "refused 66 at 255"
    yield "()V 1 0", "aconst_null; invokeinterface [interface I f ()V] 0 0; return", "", "refused 66 at 1"
    yield "()V 1 0", "aconst_null; invokeinterface [interface I f ()V] 255 0; return", "", "refused 66 at 1"


def parameters():
    """Methods of 255 units of parameters, of which each is the local variable of its number, and the place after them (4.3.3, 4.10.1.6)."""
    ints, longs = "I" * 254, "J" * 127
    yield f"({ints}F)F 1 255", "fload 254; freturn", "", "verified"
    yield f"({ints}F)F 1 255", "fload 253; freturn", "", "refused 63 at 0"
    yield f"({ints}F)V 1 254", "return", "", "refused 64 at 0"
    yield f"({longs}F)F 1 255", "fload 254; freturn", "", "verified"
    yield f"({longs}F)J 2 255", "lload 252; lreturn", "", "verified"
    yield f"({longs}F)J 2 255", "lload 253; lreturn", "", "refused 63 at 0"
    yield f"({longs}F)V 1 254", "return", "", "refused 64 at 0"
    yield f"(F{longs})J 2 255", "lload 253; lreturn", "", "verified"
    yield f"(F{longs})V 2 254", "return", "", "refused 64 at 0"
    yield f"({ints}F)F 1 256", "wide fload 254; freturn", "", "verified"
    yield f"({ints}F)F 1 256", "wide fload 255; freturn", "", "refused 63 at 0"


def stacks():
    """The largest stacks and the longest code (4.7.3, 4.11)."""
    for words, units in (("iconst_0", 1), ("lconst_0", 2)):
        count = (LARGEST - 1) // units
        code = f"{repeated(words, count)}; return"
        yield f"()V {count * units} 0", code, "", "verified"
        yield f"()V {LARGEST} 0", code, "", "verified"
        yield f"()V {count * units - 1} 0", code, "", f"refused 65 at {count - 1}"
    yield "()V 0 0", f"{repeated('nop', LARGEST - 1)}; return", "", "verified"
    yield "()V 0 0", repeated("nop", LARGEST), "", f"refused 71 at {LARGEST - 1}"
    for stack, verdict in ((LARGEST, "verified"), (LARGEST - 1, "refused 78 at 0 fault 50")):
        yield f"()V {stack} 0", "return; return", f"1 full [] [{', '.join(['int'] * LARGEST)}]", verdict
        yield f"()V {stack} 0", "return; return", f"1 full [] [int, {', '.join(['long'] * (LARGEST // 2))}]", verdict
    for variables, verdict in ((LARGEST, "verified"), (LARGEST - 1, "refused 78 at 0 fault 49")):
        yield f"()V 0 {variables}", "return; return", f"1 full [{', '.join(['int'] * LARGEST)}] []", verdict
        yield f"()V 0 {variables}", "return; return", f"1 full [{', '.join(['double'] * (LARGEST // 2))}, int] []", verdict


def branches():
    """The longest branches, and targets at the first and the last instruction and beside them (6.5)."""
    far = 32_767
    code = f"goto {far}; {repeated('nop', far - 3)}; return"
    yield "()V 0 0", code, f"3 same; {far} same", "verified"
    yield "()V 0 0", code, f"3 same; {far - 1} same", "refused 67 at 0"
    back = f"goto_w {far + 6}; return; {repeated('nop', far)}; goto {-far - 1}"
    yield "()V 0 0", back, f"5 same; 6 same; {far + 6} same", "verified"
    yield "()V 0 0", back, f"4 same; 6 same; {far + 6} same", "refused 78 at 0 fault 52"
    yield "()V 0 0", back, f"6 same; {far + 6} same", "refused 70 at 5"
    last = LARGEST - 1
    code = f"goto_w {last}; {repeated('nop', last - 5)}; return"
    yield "()V 0 0", code, f"5 same; {last} same", "verified"
    yield "()V 0 0", f"goto_w {LARGEST}; {repeated('nop', last - 5)}; return", f"5 same; {last} same", "refused 67 at 0"
    yield "()V 0 0", f"{repeated('nop', LARGEST - 5)}; goto_w {5 - LARGEST}", "0 same", "verified"
    yield "()V 0 0", f"{repeated('nop', LARGEST - 5)}; goto_w {4 - LARGEST}", "0 same", f"refused 67 at {LARGEST - 5}"
    yield "()V 0 0", f"goto_w {2**31 - 1}; return", "5 same", "refused 67 at 0"
    yield "()V 0 0", f"goto_w {-2**31}; return", "5 same", "refused 67 at 0"
    yield "()V 0 0", "goto_w 65536; return", "5 same", "refused 67 at 0"


def switch(name, numbers):
    """The bytes of a switch at 1, from its opcode on."""
    opcode = {"tableswitch": "aa", "lookupswitch": "ab"}[name]
    return f"bytes {opcode} 0000 {' '.join(f'{it % 2**32:08x}' for it in numbers)}"


def switches():
    """The least and the largest keys, and the most entries that code has room for (6.5)."""
    for key in (-(2**31), -1, 0, 2**31 - 1):
        yield "()V 1 0", f"iconst_0; {switch('tableswitch', (19, key, key, 19))}; return", "20 same", "verified"
        yield "()V 1 0", f"iconst_0; {switch('lookupswitch', (19, 1, key, 19))}; return", "20 same", "verified"
    yield "()V 1 0", f"iconst_0; {switch('lookupswitch', (27, 2, -(2**31), 27, 2**31 - 1, 27))}; return", "28 same", "verified"
    yield "()V 1 0", f"iconst_0; {switch('lookupswitch', (27, 2, 2**31 - 1, 27, -(2**31), 27))}; return", "28 same", "refused 79 at 1 fault 33"
    yield "()V 1 0", f"iconst_0; {switch('lookupswitch', (27, 2, 5, 27, 5, 27))}; return", "28 same", "refused 79 at 1 fault 33"
    yield "()V 1 0", f"iconst_0; {switch('tableswitch', (19, 1, 0, 19))}; return", "20 same", "refused 79 at 1 fault 33"
    count = (LARGEST - 1 - 16) // 4
    end = 15 + 4 * count
    for last, verdict in ((end, "verified"), (end - 1, "refused 67 at 1")):
        yield "()V 1 0", f"iconst_0; {switch('tableswitch', (end, 0, count - 1, *[end] * (count - 1), last))}; return", f"{end + 1} same", verdict
    count = (LARGEST - 1 - 12) // 8
    end = 11 + 8 * count
    for last, verdict in ((end, "verified"), (end - 1, "refused 67 at 1")):
        pairs = [it for i in range(count - 1) for it in (i, end)]
        yield "()V 1 0", f"iconst_0; {switch('lookupswitch', (end, count, *pairs, count, last))}; return", f"{end + 1} same", verdict


def rows():
    """Each method: its sizes, its code, its stack map and its verdict."""
    for table in (arrays, calls, lacking, parameters, stacks, branches, switches):
        for number, row in enumerate(table()):
            yield f"{table.__name__} at their limits, {number}", *row


def handlers():
    """The most entries that an exception table has; the last one is judged too."""
    entries = [(0, 1, 1, 0)] * (LARGEST - 1)
    for last, verdict in (((0, 1, 1, 0), "verified"), ((1, 1, 1, 0), "refused 72 at 0")):
        constants = Constants("()V")
        nested = [attribute(constants.text("StackMapTable"), stack_map_of("1 same1 class java/lang/Throwable", constants.owner))]
        method = method_f(code_f(b"\xb1\xbf", stack=1, handlers=[*entries, last], nested=nested), flags=STATIC)
        k = replace(K, constants=constants.items, methods=[method])
        yield f"{LARGEST} entries, the last of which is {last}", [k.data(), *KNOWN], f"method f ()V {verdict}"


def with_limits():
    """A name for each method, the files of the class that has it alone, and its verdict."""
    for what, sizes, code, body, verdict in rows():
        descriptor, stack, variables = sizes.split()
        constants = Constants(descriptor)
        data = assembled(code, constants)
        nested = [attribute(constants.text("StackMapTable"), stack_map_of(body, constants.owner))] if body else []
        method = method_f(code_f(data, stack=int(stack), variables=int(variables), nested=nested), flags=STATIC)
        yield what, [replace(K, constants=constants.items, methods=[method]).data(), *KNOWN], f"method f {descriptor} {verdict}"
    yield from handlers()
