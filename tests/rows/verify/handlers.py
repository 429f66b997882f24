"""Methods with an exception table, and what `classck verify` says of each: JVMS 4.7.3 and 4.10.1.6."""
from dataclasses import replace

from rows.known import KNOWN
from rows.verify.references import Constants, assembled
from tools.assembler import STATIC, attribute
from tools.class_k import K, code_f, method_f
from tools.stack_maps import stack_map_of

# Descriptor, max_stack and max_locals; code, in which words in brackets are constants; the stack map by words
# (tools/stack_maps.py); the entries, each as start, end, handler and what it catches; verdict. The known classes are those of
# rows/known.py: B is absent, and Throwable, A and I are below Object.
ROWS = """
# the handler has the thrown object alone on its stack; its frame is compared in each frame before an instruction of the range
()I 1 1 | iconst_0; istore_0; iload_0; ireturn; pop; iload_0; ireturn | 4 full [int] [class java/lang/Throwable] | 1 2 4 any | refused 73 at 1
()I 1 1 | iconst_0; istore_0; iload_0; ireturn; pop; iload_0; ireturn | 4 full [int] [class java/lang/Throwable] | 2 3 4 any | verified
()V 1 1 | iconst_0; istore_0; return; pop; return | 3 full [] [class java/lang/Throwable] | 0 3 3 any | verified
(I)V 1 1 | fconst_0; fstore_0; return; pop; return | 3 same1 class java/lang/Throwable | 0 2 3 any | verified
(I)V 1 1 | fconst_0; fstore_0; return; pop; return | 3 same1 class java/lang/Throwable | 0 3 3 any | refused 73 at 2
(I)V 1 1 | fconst_0; fstore_0; return; pop; return | 3 same1 class java/lang/Throwable | 2 3 3 any | refused 73 at 2
# what is on the stack where it raises is gone
()V 4 0 | lconst_0; lconst_0; pop2; pop2; return; pop; return | 5 same1 class java/lang/Throwable | 0 5 5 any | verified
# the stack of the handler: one reference that what is caught is assignable to
()V 1 0 | return; pop; return | 1 same1 class java/lang/Object | 0 1 1 any | verified
()V 1 0 | return; pop; return | 1 same1 class I | 0 1 1 any | verified
()V 1 0 | return; pop; return | 1 same1 class A | 0 1 1 any | refused 73 at 0
()V 1 0 | return; pop; return | 1 same1 int | 0 1 1 any | refused 73 at 0
()V 1 0 | return; pop; return | 1 same1 null | 0 1 1 any | refused 73 at 0
()V 1 0 | return; return | 1 same1 top | 0 1 1 any | verified
()V 1 0 | return; pop; return | 1 same1 top | 0 1 1 any | refused 62 at 1
()V 2 0 | return; pop; return | 1 same1 long | 0 1 1 any | refused 73 at 0
()V 1 0 | return; return | 1 same | 0 1 1 any | refused 73 at 0
()V 2 0 | return; pop; pop; return | 1 full [] [class java/lang/Throwable, class java/lang/Throwable] | 0 1 1 any | refused 73 at 0
()V 1 0 | return; pop; return | 1 same1 class B | 0 1 1 any | refused 77 at 0 missing B
# what is caught: Throwable for 0, and otherwise a class below it
()V 1 0 | return; athrow | 1 same1 class java/lang/Throwable | 0 1 1 java/lang/Throwable | verified
()V 1 0 | return; pop; return | 1 same1 class java/lang/Throwable | 0 1 1 A | refused 72 at 0
()V 1 0 | return; pop; return | 1 same1 class java/lang/Throwable | 0 1 1 I | refused 72 at 0
()V 1 0 | return; pop; return | 1 same1 class java/lang/Throwable | 0 1 1 java/lang/Object | refused 72 at 0
()V 1 0 | return; pop; return | 1 same1 class java/lang/Throwable | 0 1 1 [I | refused 72 at 0
()V 1 0 | return; pop; return | 1 same1 class java/lang/Throwable | 0 1 1 B | refused 77 at 0 missing B
# the range is not empty, and lies between starts of instructions, of which the code's length is the last; a frame is declared at the handler
()V 1 0 | return; pop; return | 1 same1 class java/lang/Throwable | 0 0 1 any | refused 72 at 0
()V 1 0 | return; pop; return | 1 same1 class java/lang/Throwable | 1 0 1 any | refused 72 at 0
()V 1 0 | return; pop; return | 1 same1 class java/lang/Throwable | 0 1 2 any | refused 72 at 0
()V 1 0 | return; pop; return | 1 same1 class java/lang/Throwable | 0 1 3 any | refused 72 at 0
()V 1 0 | return; pop; return | 1 same1 class java/lang/Throwable | 0 4 1 any | refused 72 at 0
()V 1 0 | return; pop; return | 1 same1 class java/lang/Throwable | 3 4 1 any | refused 72 at 0
()V 1 0 | return; pop; return | no frames | 0 1 1 any | refused 72 at 0
()V 1 0 | bipush 0; pop; return; pop; return | 4 same1 class java/lang/Throwable | 1 2 4 any | refused 72 at 0
()V 1 0 | bipush 0; pop; return; pop; return | 4 same1 class java/lang/Throwable | 0 1 4 any | refused 72 at 0
()V 1 0 | bipush 0; pop; return; pop; return | 4 same1 class java/lang/Throwable | 0 2 4 any | verified
()V 1 0 | return; pop; return | 1 same1 class java/lang/Throwable | 0 3 1 any | verified
# the first entry that is wrong is told, and it goes before the code, but after the map
()V 1 0 | pop; pop; return | 1 same1 class java/lang/Throwable | 0 1 1 B, 0 0 1 any | refused 77 at 0 missing B
()V 1 0 | pop; pop; return | 1 same1 class java/lang/Throwable | 0 0 1 any, 0 1 1 B | refused 72 at 0
()V 1 0 | pop; pop; return | 1 same1 class java/lang/Throwable | 0 0 1 B | refused 72 at 0
()V 1 0 | pop; pop; return | bytes 0001 | 0 0 1 any | refused 78 at 0 fault 2
()V 0 0 | return; bytes ca | no frames | 0 0 1 any | refused 79 at 1 fault 31
# of an instruction the least number is told: its rule's before a handler's, 71 before 73, and 73 before 77
()V 1 0 | pop; return; pop; return | 2 same1 class A | 0 1 2 any | refused 61 at 0
()V 1 0 | nop; goto 0; return | 4 same1 int | 0 1 4 any | refused 73 at 0
()V 1 0 | goto 3; pop; nop | 3 same1 class A | 0 3 3 any | refused 68 at 0
()V 1 0 | return; nop | 1 same1 class A | 0 1 1 any, 1 2 1 any | refused 73 at 0
()V 1 0 | return; nop | 1 same1 class java/lang/Throwable | 1 2 1 any | refused 71 at 1
()V 1 0 | return; pop; return; pop; return | 1 same1 class B; 3 same1 class A | 0 1 1 any, 0 1 3 any | refused 73 at 0
# the class that is missing first is that of the first entry, wherever the ranges begin
()V 1 0 | nop; return; pop; return; pop; return | 2 same1 class B; 4 same1 class D | 1 2 2 any, 0 2 4 any | refused 77 at 0 missing D
()V 1 0 | nop; return; pop; return; pop; return | 2 same1 class B; 4 same1 class D | 1 2 2 any, 1 2 4 any | refused 77 at 1 missing B
()V 1 0 | nop; return; pop; return; pop; return | 2 same1 class B; 4 same1 class D | 1 2 4 any, 1 2 2 any | refused 77 at 1 missing D
# a frame that is declared within the range is compared as well, and a handler may lie in its own range
(I)V 1 1 | goto 3; nop; return; pop; return | 3 same; 5 same1 class java/lang/Throwable | 3 4 5 any | verified
(I)V 1 1 | goto 3; nop; return; pop; return | 3 full [] []; 5 full [int] [class java/lang/Throwable] | 3 4 5 any | refused 73 at 3
()V 1 0 | return; pop; return | 1 same1 class java/lang/Throwable | 1 2 1 any | verified
()V 1 0 | nop; pop; goto -2 | 1 same1 class java/lang/Throwable | 1 2 1 any | refused 69 at 1
# entries that follow on each other, whose ranges begin in another order than they stand
(I)V 1 1 | nop; fconst_0; fstore_0; nop; return; pop; return; pop; return | 5 same1 class java/lang/Throwable; 7 full [float] [class java/lang/Throwable] | 3 5 7 any, 0 3 5 any | verified
(I)V 1 1 | nop; fconst_0; fstore_0; nop; return; pop; return; pop; return | 5 same1 class java/lang/Throwable; 7 full [float] [class java/lang/Throwable] | 2 5 7 any, 0 3 5 any | refused 73 at 2
(I)V 1 1 | nop; fconst_0; fstore_0; nop; return; pop; return; pop; return | 5 same1 class java/lang/Throwable; 7 full [float] [class java/lang/Throwable] | 3 5 7 any, 0 4 5 any | refused 73 at 3
"""

# Rows of a constructor of K, which is directly below Object: no entry covers its call of a constructor on the own object. After that the own object
# is no longer one that is not initialized, and before it the handler's frame has to have that.
OF_CONSTRUCTORS = """
()V 1 1 | aload_0; invokespecial [method java/lang/Object <init> ()V]; return; athrow | 5 full [uninitializedThis] [class java/lang/Throwable] | 0 1 5 any | verified
()V 1 1 | aload_0; invokespecial [method java/lang/Object <init> ()V]; return; athrow | 5 full [uninitializedThis] [class java/lang/Throwable] | 0 4 5 any | refused 75 at 1
()V 1 1 | aload_0; invokespecial [method java/lang/Object <init> ()V]; return; athrow | 5 full [uninitializedThis] [class java/lang/Throwable] | 1 4 5 any | refused 75 at 1
()V 1 1 | aload_0; invokespecial [method java/lang/Object <init> ()V]; return; athrow | 5 full [uninitializedThis] [class java/lang/Throwable] | 0 1 5 any, 1 4 5 any | refused 75 at 1
()V 1 1 | aload_0; invokespecial [method java/lang/Object <init> ()V]; return; athrow | 5 full [uninitializedThis] [class java/lang/Throwable] | 4 5 5 any | refused 73 at 4
()V 1 1 | aload_0; invokespecial [method java/lang/Object <init> ()V]; return; athrow | 5 same1 class java/lang/Throwable | 4 5 5 any | refused 73 at 4
()V 1 1 | aload_0; invokespecial [method java/lang/Object <init> ()V]; return; athrow | 5 full [] [class java/lang/Throwable] | 4 5 5 any | verified
()V 1 1 | aload_0; invokespecial [method java/lang/Object <init> ()V]; return; athrow | 5 full [] [class java/lang/Throwable] | 0 1 5 any | refused 73 at 0
()V 1 1 | aload_0; invokespecial [method java/lang/Object <init> ()V]; return; athrow | 5 full [] [class java/lang/Throwable] | 0 4 5 any | refused 73 at 0
()V 1 1 | aload_0; invokespecial [method java/lang/Object <init> ()V]; return; athrow | 5 full [] [class java/lang/Throwable] | 1 4 5 any | refused 73 at 1
()V 1 1 | aload_0; invokespecial [method java/lang/Object <init> (I)V]; return; athrow | 5 full [uninitializedThis] [class java/lang/Throwable] | 0 4 5 any | refused 61 at 1
()V 2 1 | aload_0; new [class java/lang/Object]; invokespecial [method java/lang/Object <init> ()V]; invokespecial [method java/lang/Object <init> ()V]; return; athrow | 11 full [uninitializedThis] [class java/lang/Throwable] | 0 7 11 any | verified
"""


# Very many handlers: an int in local 0 becomes a float at 4. Each wants something of it, "" for nothing, over a range.
INT_BEFORE, INT_LATER, FLOAT_LATER, ANY = ("int", 2, 4), ("int", 2, 5), ("float", 4, 6), ("", 2, 6)
OF_MANY = [
    ([INT_BEFORE, ANY] * 10, "verified"),
    ([("int", 2, 3), ANY, INT_BEFORE, ("", 2, 4)] * 5, "verified"),
    ([INT_BEFORE, ANY] * 10 + [FLOAT_LATER, ANY] * 10, "verified"),
    ([FLOAT_LATER, ANY, INT_BEFORE] * 9, "verified"),
    ([INT_BEFORE, ANY] * 10 + [INT_LATER], "refused 73 at 4"),
    ([INT_LATER] + [ANY, INT_BEFORE] * 10, "refused 73 at 4"),
    ([INT_BEFORE, ANY] * 10 + [("int", 4, 5)], "refused 73 at 4"),
    ([ANY, INT_BEFORE] * 10 + [("float", 3, 6)] + [ANY] * 3, "refused 73 at 3"),
    ([ANY] * 8 + [INT_LATER], "refused 73 at 4"),
    ([ANY] * 9 + [INT_BEFORE], "verified"),
]


def of_many():
    """The rows of OF_MANY, by words."""
    for wanted, verdict in OF_MANY:
        code = "; ".join(["iconst_0; istore_0; fconst_0; fstore_0; nop; return", *["pop; return"] * len(wanted)])
        places = range(6, 6 + 2 * len(wanted), 2)
        frames = "; ".join(f"{at} full [{local}] [class java/lang/Throwable]" for at, (local, _, _) in zip(places, wanted))
        entries = ", ".join(f"{start} {end} {at} any" for at, (_, start, end) in zip(places, wanted))
        yield f"()V 1 1 | {code} | {frames} | {entries} | {verdict}"


def handler(words, constants):
    """An entry of the exception table by its numbers."""
    start, end, to, caught = words.split()
    return int(start), int(end), int(to), 0 if caught == "any" else constants.owner(caught)


def rows_of(table, name, flags):
    for line in table.strip().splitlines():
        if line.startswith("#"):
            continue
        sizes, code, body, entries, verdict = (it.strip() for it in line.split("|"))
        descriptor, stack, variables = sizes.split()
        constants = Constants(descriptor, name)
        data = assembled(code, constants)
        nested = [attribute(constants.text("StackMapTable"), stack_map_of(body, constants.owner))]
        handlers = [handler(it, constants) for it in entries.split(",")]
        code_attribute = code_f(data, stack=int(stack), variables=int(variables), handlers=handlers, nested=nested)
        k = replace(K, constants=constants.items, methods=[method_f(code_attribute, flags=flags)])
        yield f"{name} {sizes} {code} with {entries}", [k.data(), *KNOWN], f"method {name} {descriptor} {verdict}"


def with_handlers():
    """A name for each method, the files of the class that has it alone, and its verdict."""
    yield from rows_of(ROWS, "f", STATIC)
    yield from rows_of(OF_CONSTRUCTORS, "<init>", 0)
    yield from rows_of("\n".join(of_many()), "f", STATIC)
