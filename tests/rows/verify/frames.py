"""The frames that `classck explain` prints after an instruction: JVMS 4.10.1.2, 4.10.1.4 and 4.10.1.6."""
from dataclasses import replace

from rows.known import KNOWN
from rows.verify.explain import METHODS, text
from rows.verify.handlers import handler
from rows.verify.references import Constants, assembled
from tools.assembler import STATIC, attribute, code_of, member, utf8
from tools.class_k import CONSTANTS, K, OBJECT_CLASS, code_f, method_f
from tools.stack_maps import stack_map_of

# A method: its name (f is static, g is not), descriptor, max_stack and max_locals; its code, in which words in
# brackets are constants; a stack map by words; entries of the exception table; what is told; and the lines after the
# sizes, with `/` between them. K has a field x of type I. The known classes are
# those of rows/known.py: C is below A, and B is absent.
ROWS = """
# locals: the parameters, each by its type; a long or a double is followed by top
f (IFJDLA;[I[[LA;)V 0 9 | pop; return | | | 61 at 0 | 0 pop / locals int, float, long, top, double, top, Class A, Class [I, Class [[LA; / stack / stack: expected units 1, found 0
f (ZBCS)V 0 4 | pop; return | | | 61 at 0 | 0 pop / locals int, int, int, int / stack / stack: expected units 1, found 0
f ([Z[B[C[S[J[F[D)V 0 7 | pop; return | | | 61 at 0 | 0 pop / locals Class [Z, Class [B, Class [C, Class [S, Class [J, Class [F, Class [D / stack / stack: expected units 1, found 0
f ([[[[D[[[LB;)V 0 2 | pop; return | | | 61 at 0 | 0 pop / locals Class [[[[D, Class [[[LB; / stack / stack: expected units 1, found 0
# names with the escapes of all names
f (LA\\;[LA\\;)V 0 2 | pop; return | | | 61 at 0 | 0 pop / locals Class A\\u005c, Class [LA\\u005c; / stack / stack: expected units 1, found 0
# null, and an object by the offset of its `new` (0 is of the first, 4 of the second) until its constructor has returned
f ()V 1 2 | aconst_null; astore_0; new [class A]; astore_1; pop; return | | | 61 at 6 | 6 pop / locals null, uninitialized(2) / stack / stack: expected units 1, found 0
f ()V 1 1 | new [class A]; astore_0; new [class A]; areturn | | | 76 at 7 | 7 areturn / locals uninitialized(0) / stack uninitialized(4)
f ()V 2 1 | new [class A]; dup; astore_0; invokespecial [method A <init> ()V]; pop; return | | | 61 at 8 | 8 pop / locals Class A / stack / stack: expected units 1, found 0
f ()V 2 1 | return; new [class A]; aload_0; pop; pop; return | 1 append uninitialized 1 | | 63 at 4 | 4 aload_0 / locals / stack uninitialized(1) / local 0: expected reference, found top
# the own object: uninitialized in a constructor until another one has returned, and then of the class K; so it is in g
<init> ()V 0 1 | pop; return | | | 61 at 0 | 0 pop / locals uninitializedThis / stack / flags flagThisUninit / stack: expected units 1, found 0
<init> ()V 1 1 | aload_0; invokespecial [method java/lang/Object <init> ()V]; pop; return | | | 61 at 4 | 4 pop / locals Class K / stack / stack: expected units 1, found 0
<init> ()V 1 1 | aconst_null; astore_0; return | | | 74 at 2 | 2 return / locals null / stack / flags flagThisUninit
g (I)V 0 2 | pop; return | | | 61 at 0 | 0 pop / locals Class K, int / stack / stack: expected units 1, found 0
# top in front of a local that is set, and none after the last that is
f ()V 1 4 | iconst_0; istore_2; pop; return | | | 61 at 2 | 2 pop / locals top, top, int / stack / stack: expected units 1, found 0
f ()V 2 4 | lconst_0; lstore_1; pop; return | | | 61 at 2 | 2 pop / locals top, long / stack / stack: expected units 1, found 0
f (J)V 1 2 | iconst_0; istore_0; pop; return | | | 61 at 2 | 2 pop / locals int / stack / stack: expected units 1, found 0
f (J)V 1 2 | iconst_0; istore_1; pop; return | | | 61 at 2 | 2 pop / locals top, int / stack / stack: expected units 1, found 0
f ()V 0 3 | return; pop; return | 1 append top, int | | 61 at 1 | 1 pop / locals top, int / stack / stack: expected units 1, found 0
f (I)V 0 1 | return; pop; return | 1 full [top] [] | | 61 at 1 | 1 pop / locals / stack / stack: expected units 1, found 0
f ()V 0 4 | pop; return | | | 61 at 0 | 0 pop / locals / stack / stack: expected units 1, found 0
# the stack from the bottom up; a long and a double is one item there, and top is told
f ()V 8 0 | iconst_0; fconst_0; lconst_0; dconst_0; aconst_null; new [class A]; athrow | | | 62 at 8 | 8 athrow / locals / stack int, float, long, double, null, uninitialized(5) / operand 1 of 1: expected Class java/lang/Throwable, found uninitialized(5)
f (LA;[[J)V 2 2 | aload_0; aload_1; iadd; pop; return | | | 62 at 2 | 2 iadd / locals Class A, Class [[J / stack Class A, Class [[J / operand 2 of 2: expected int, found Class [[J
f ()V 2 0 | return; pop; return | 1 full [] [int, top] | | 62 at 1 | 1 pop / locals / stack int, top
# the frame that is declared at an instruction is the one before it, whether none comes or one that is assignable to it
f (I)V 0 1 | return; pop; return | 1 same | | 61 at 1 | 1 pop / locals int / stack / stack: expected units 1, found 0
f (I)V 0 1 | nop; pop; return | 1 chop 1 | | 61 at 1 | 1 pop / locals / stack / stack: expected units 1, found 0
f (I)V 0 1 | pop; return | 0 full [top] [] | | 61 at 0 | 0 pop / locals / stack / stack: expected units 1, found 0
f (LC;)V 0 1 | pop; return | 0 full [class A] [] | | 61 at 0 | 0 pop / locals Class A / stack / stack: expected units 1, found 0
# and goes on from there
f (LC;)V 1 1 | nop; aload_0; ireturn | 1 full [class A] [] | | 76 at 2 | 2 ireturn / locals Class A / stack Class A
# for 69 the frame that comes stands in front of the one that is declared, and what differs after them: the flag, a local, the size of the stack, or an item of it
f (I)V 0 1 | return | 0 full [float] [] | | 69 at 0 | 0 return / locals int / stack / declared locals float / declared stack / local 0: int is not assignable to float
f ()V 1 0 | iconst_0; return | 1 same | | 69 at 1 | 1 return / locals / stack int / declared locals / declared stack / stack: items that come 1, declared 0
f (LA;)V 2 2 | iconst_0; fconst_0; pop2; return | 2 full [top, int] [null, float] | | 69 at 2 | 2 pop2 / locals Class A / stack int, float / declared locals top, int / declared stack null, float / local 1: top is not assignable to int
<init> ()V 0 1 | return | 0 full [top] [] | | 69 at 0 | 0 return / locals uninitializedThis / stack / flags flagThisUninit / declared locals / declared stack / flags: flagThisUninit comes and is not declared
<init> (I)V 1 2 | iload_1; ifeq 7; aload_0; invokespecial [method java/lang/Object <init> ()V]; return | 8 full [uninitializedThis, int] [] | | 69 at 8 | 8 return / locals Class K, int / stack / declared locals uninitializedThis, int / declared stack / declared flags flagThisUninit / local 0: Class K is not assignable to uninitializedThis
f ()V 2 0 | iconst_0; fconst_0; pop2; return | 2 full [] [int, int] | | 69 at 2 | 2 pop2 / locals / stack int, float / declared locals / declared stack int, int / stack 1: float is not assignable to int
f ()V 4 0 | lconst_0; dconst_0; pop2; return | 2 full [] [int, float] | | 69 at 2 | 2 pop2 / locals / stack long, double / declared locals / declared stack int, float / stack 0: long is not assignable to int
f (LA;)V 0 1 | return | 0 full [class C] [] | | 69 at 0 | 0 return / locals Class A / stack / declared locals Class C / declared stack / local 0: Class A is not assignable to Class C
f (IJ)V 1 3 | iload_0; pop; return | 1 full [float, long] [float] | | 69 at 1 | 1 pop / locals int, long / stack int / declared locals float, long / declared stack float / local 0: int is not assignable to float
# an item of the stack keeps its width, so a long does not stand for top there; it does as a local
f (J)V 2 2 | lload_0; pop2; return | 1 full [top] [top] | | 69 at 1 | 1 pop2 / locals long / stack long / declared locals / declared stack top / stack 0: long is not assignable to top
# a class that is missing in a comparison is no difference
f (LA;I)V 0 2 | return | 0 full [class B, float] [] | | 69 at 0 | 0 return / locals Class A, int / stack / declared locals Class B, float / declared stack / local 1: int is not assignable to float
# for 61 to 63 the first thing that the instruction takes and does not find. Operands count from the one that is pushed first; the first one that fails is the one nearest to the top, and one that is not there is told in front of one of another type
f (IF)V 2 2 | fload_1; fload_1; iadd; pop; return | | | 62 at 2 | 2 iadd / locals int, float / stack float, float / operand 2 of 2: expected int, found float
f (IF)V 2 2 | fload_1; iload_0; iadd; pop; return | | | 62 at 2 | 2 iadd / locals int, float / stack float, int / operand 1 of 2: expected int, found float
f ()V 2 0 | fconst_0; iadd; pop; return | | | 61 at 1 | 1 iadd / locals / stack float / operand 1 of 2: expected int, found none
f ()V 2 0 | ladd; pop2; return | | | 61 at 0 | 0 ladd / locals / stack / operand 2 of 2: expected long, found none
f (LA;)V 4 1 | aload_0; iconst_0; lconst_0; iastore; return | | | 62 at 3 | 3 iastore / locals Class A / stack Class A, int, long / operand 3 of 3: expected int, found long
f (LA;)V 3 1 | aload_0; iconst_0; iconst_0; bastore; return | | | 62 at 3 | 3 bastore / locals Class A / stack Class A, int, int / operand 1 of 3: expected Class [B or Class [Z, found Class A
f (LA;)V 3 1 | aload_0; iconst_0; iconst_0; castore; return | | | 62 at 3 | 3 castore / locals Class A / stack Class A, int, int / operand 1 of 3: expected Class [C, found Class A
f (LA;)V 2 1 | aload_0; iconst_0; aaload; pop; return | | | 62 at 2 | 2 aaload / locals Class A / stack Class A, int / operand 1 of 2: expected Class [Ljava/lang/Object;, found Class A
f (I)V 1 1 | iload_0; arraylength; pop; return | | | 62 at 1 | 1 arraylength / locals int / stack int / operand 1 of 1: expected array, found int
f (I)V 1 1 | iload_0; monitorenter; return | | | 62 at 1 | 1 monitorenter / locals int / stack int / operand 1 of 1: expected reference, found int
f (I)V 1 1 | iload_0; astore_0; return | | | 62 at 1 | 1 astore_0 / locals int / stack int / operand 1 of 1: expected reference, found int
f (F)V 0 1 | iinc 0 1; return | | | 63 at 0 | 0 iinc 0 1 / locals float / stack / local 0: expected int, found float
f (ID)V 2 3 | dload_0; pop2; return | | | 63 at 0 | 0 dload_0 / locals int, double / stack / local 0: expected double, found int
f (I)V 1 1 | aload_0; pop; return | | | 63 at 0 | 0 aload_0 / locals int / stack / local 0: expected reference, found int
f ()V 2 0 | iconst_0; dup_x1; return | | | 61 at 1 | 1 dup_x1 / locals / stack int / stack: expected units 2, found 1
# an operand that is not of a form for dup and its like has no line, nor has the object that a `new` has left on the stack
f ()V 4 0 | lconst_0; dup; pop2; pop2; return | | | 62 at 1 | 1 dup / locals / stack long
# the arguments of a call and its receiver; the object of a constructor
f (LA;)V 4 1 | aload_0; iconst_0; fconst_0; invokevirtual [method A m (IJ)V]; return | | | 62 at 3 | 3 invokevirtual #13 / constant 13 Methodref #9 #12 A m (IJ)V / locals Class A / stack Class A, int, float / operand 3 of 3: expected long, found float
f ()V 2 0 | new [class A]; dup; invokespecial [method C <init> ()V]; return | | | 62 at 4 | 4 invokespecial #15 / constant 15 Methodref #11 #14 C <init> ()V / locals / stack uninitialized(0), uninitialized(0) / operand 1 of 1: expected uninitialized Class C, found uninitialized(0)
f ()V 3 0 | new [class A]; dup; fconst_0; invokespecial [method A <init> (I)V]; return | | | 62 at 5 | 5 invokespecial #13 / constant 13 Methodref #9 #12 A <init> (I)V / locals / stack uninitialized(0), uninitialized(0), float / operand 2 of 2: expected int, found float
f ()V 0 0 | invokespecial [method A <init> ()V]; return | | | 61 at 0 | 0 invokespecial #13 / constant 13 Methodref #9 #12 A <init> ()V / locals / stack / operand 1 of 1: expected uninitialized Class A, found none
f (LA;)V 2 1 | iconst_0; aload_0; putfield [field A x I]; return | | | 62 at 2 | 2 putfield #13 / constant 13 Fieldref #9 #12 A x I / locals Class A / stack int, Class A / operand 2 of 2: expected int, found Class A
# the own fields of a constructor may be set before another constructor has returned; K declares x
<init> ()V 2 1 | iconst_0; iconst_0; putfield [field K x I]; return | | | 62 at 2 | 2 putfield #13 / constant 13 Fieldref #9 #12 K x I / locals uninitializedThis / stack int, int / flags flagThisUninit / operand 1 of 2: expected uninitializedThis or Class K, found int
<init> ()V 2 1 | iconst_0; iconst_0; putfield [field K y I]; return | | | 62 at 2 | 2 putfield #13 / constant 13 Fieldref #9 #12 K y I / locals uninitializedThis / stack int, int / flags flagThisUninit / operand 1 of 2: expected Class K, found int
# for 77 the comparison that asks for the class: of the frame that comes with the one that is declared there, of a local or of an item
f (LA;)V 0 1 | nop; return | 1 full [class B] [] | | 77 at 1 missing B | 1 return / locals Class A / stack / declared locals Class B / declared stack / local 0: whether Class A is assignable to Class B is not known
f (IILA;)V 0 3 | return | 0 full [top, int, class B] [] | | 77 at 0 missing B | 0 return / locals int, int, Class A / stack / declared locals top, int, Class B / declared stack / local 2: whether Class A is assignable to Class B is not known
f (LB;)V 2 1 | iconst_0; aload_0; pop2; return | 2 full [class B] [int, class A] | | 77 at 2 missing B | 2 pop2 / locals Class B / stack int, Class B / declared locals Class B / declared stack int, Class A / stack 1: whether Class B is assignable to Class A is not known
# of an operand with the type that the instruction takes; the first one is that nearest to the top
f (LA;LB;)V 2 2 | aload_1; aload_0; invokestatic [method A s (LA;LB;)V]; return | | | 77 at 2 missing B | 2 invokestatic #13 / constant 13 Methodref #9 #12 A s (LA;LB;)V / locals Class A, Class B / stack Class B, Class A / operand 2 of 2: expected Class B, found Class A
f (LB;LA;)V 2 2 | aload_0; aload_1; invokestatic [method A s (LA;LA;)V]; return | | | 77 at 2 missing B | 2 invokestatic #13 / constant 13 Methodref #9 #12 A s (LA;LA;)V / locals Class B, Class A / stack Class B, Class A / operand 1 of 2: expected Class A, found Class B
# of the frame after the instruction with that of the first target at which a class is missing
f (LA;I)V 1 2 | iload_1; ifeq 3; return | 4 full [class B, int] [] | | 77 at 1 missing B | 1 ifeq 4 / locals Class A, int / stack int / target 4 / local 0: whether Class A is assignable to Class B is not known
f (LA;I)V 1 2 | iload_1; bytes ab 0000 00000014 00000001 ffffffff 00000013; return; return | 20 full [class B] []; 21 full [class A] [] | | 77 at 1 missing B | 1 lookupswitch 21 -1:20 / locals Class A, int / stack int / target 20 / local 0: whether Class A is assignable to Class B is not known
# of the frame before it with that of the first handler at which one is missing, with the entry of the exception table
f (LA;)V 1 1 | nop; return; pop; return; pop; return | 2 same1 class java/lang/Throwable; 4 full [class B] [class java/lang/Throwable] | 0 1 2 any, 0 1 4 any | 77 at 0 missing B | 0 nop / locals Class A / stack / handler 4 / local 0: whether Class A is assignable to Class B is not known / catch 0 1 4 any
f ()V 1 0 | nop; return; pop; return | 2 same1 class B | 0 1 2 any | 77 at 0 missing B | 0 nop / locals / stack / handler 2 / stack 0: whether Class java/lang/Throwable is assignable to Class B is not known / catch 0 1 2 any
# of what an entry of the exception table catches, before the code is judged
f ()V 1 0 | nop; return; pop; return | 2 same1 class java/lang/Throwable | 0 1 2 any, 0 1 2 B | 77 at 0 missing B | 0 nop / locals / stack / catch 0 1 2 B
# none where it is about the object of a protected member, which goes before the handlers, or about the class of invokespecial
f (LB;LD;)V 1 2 | aload_0; invokevirtual [method java/lang/Object clone ()Ljava/lang/Object;]; pop; return; pop; return | 6 full [class B, class A] [class java/lang/Throwable] | 1 5 6 any | 77 at 1 missing B | 1 invokevirtual #13 / constant 13 Methodref #9 #12 java/lang/Object clone ()Ljava/lang/Object; / locals Class B, Class D / stack Class B
g ()V 1 1 | aload_0; invokespecial [method B f ()V]; return | | | 77 at 1 missing B | 1 invokespecial #13 / constant 13 Methodref #9 #12 B f ()V / locals Class K / stack Class K
# for 78 the entry of the stack map that declares no frame, with the offset of the frame, or the first that its bytes do not spell
f ()V 0 0 | nop; nop; return | 1 same; 4 same | | 78 at 0 fault 52 | 0 nop / entry 1 at 4
f ()V 0 0 | nop; nop; return | bytes 0002 01 | | 78 at 0 fault 2 | 0 nop / entry 1
f ()V 0 0 | nop; nop; return | bytes 0002 01 f0 | | 78 at 0 fault 47 | 0 nop / entry 1
# and none where its number of entries is cut, or bytes stand after them
f ()V 0 0 | nop; return | bytes 00 | | 78 at 0 fault 2 | 0 nop
f ()V 0 0 | nop; return | bytes 0001 01 00 | | 78 at 0 fault 12 | 0 nop
# for 68 the frame before the branch, and the first target, in the order of the instruction, from whose frame the frame after differs
f (I)V 1 1 | iload_0; ifeq 3; return | 4 full [float] [] | | 68 at 1 | 1 ifeq 4 / locals int / stack int / target 4 / local 0: int is not assignable to float
f (I)V 2 1 | fconst_0; iload_0; ifeq 3; return | 5 same | | 68 at 2 | 2 ifeq 5 / locals int / stack float, int / target 5 / stack: items that come 1, declared 0
f (LA;)V 2 1 | iconst_0; goto 4; nop; pop; return | 4 full [class A] []; 5 full [top] [float] | | 68 at 1 | 1 goto 5 / locals Class A / stack int / target 5 / stack 0: int is not assignable to float
<init> ()V 1 1 | goto 4; nop; return | 4 full [top] [] | | 68 at 0 | 0 goto 4 / locals uninitializedThis / stack / flags flagThisUninit / target 4 / flags: flagThisUninit comes and is not declared
# the default of a switch is the first target; a target at which nothing differs is passed over, and so is a class that is missing
f (I)V 1 1 | iload_0; bytes ab 0000 00000014 00000001 ffffffff 00000013; return; return | 20 full [float] []; 21 full [float] [] | | 68 at 1 | 1 lookupswitch 21 -1:20 / locals int / stack int / target 21 / local 0: int is not assignable to float
f (I)V 1 1 | iload_0; bytes ab 0000 00000014 00000001 ffffffff 00000013; return; return | 20 full [float] []; 21 full [int] [] | | 68 at 1 | 1 lookupswitch 21 -1:20 / locals int / stack int / target 20 / local 0: int is not assignable to float
f (LA;I)V 1 2 | iload_1; bytes ab 0000 00000014 00000001 ffffffff 00000013; return; return | 20 full [class A, float] []; 21 full [class B] [] | | 68 at 1 | 1 lookupswitch 21 -1:20 / locals Class A, int / stack int / target 20 / local 1: int is not assignable to float
# for 73 the first handler, in the order of the table, from whose frame the frame before the instruction differs, with what is caught alone on its stack; in front of the exception table
f (I)V 1 1 | fconst_0; fstore_0; return; pop; return | 3 same1 class java/lang/Throwable | 0 3 3 any | 73 at 2 | 2 return / locals float / stack / handler 3 / local 0: float is not assignable to int / catch 0 3 3 any
f (I)V 1 1 | nop; return; pop; return | 2 same1 class A | 0 1 2 any | 73 at 0 | 0 nop / locals int / stack / handler 2 / stack 0: Class java/lang/Throwable is not assignable to Class A / catch 0 1 2 any
f (I)V 1 1 | nop; return; return | 2 same | 0 1 2 any | 73 at 0 | 0 nop / locals int / stack / handler 2 / stack: items that come 1, declared 0 / catch 0 1 2 any
<init> ()V 1 1 | nop; return; return | 2 full [top] [class java/lang/Throwable] | 0 1 2 any | 73 at 0 | 0 nop / locals uninitializedThis / stack / flags flagThisUninit / handler 2 / flags: flagThisUninit comes and is not declared / catch 0 1 2 any
f (I)V 1 1 | nop; return; pop; return | 2 same1 class java/lang/Throwable | 1 1 2 any | 72 at 0 | 0 nop / locals int / stack / catch 1 1 2 any
# the entry at fault alone: the first that is refused, the one of the handler, or the first that covers the instruction
f (I)V 1 1 | nop; return; pop; return | 2 same1 class java/lang/Throwable | 0 1 2 any, 1 1 2 any, 1 1 2 A | 72 at 0 | 0 nop / locals int / stack / catch 1 1 2 any
f (I)V 1 1 | fconst_0; fstore_0; return; pop; return | 3 same1 class java/lang/Throwable | 0 2 3 any, 2 3 3 any, 0 3 3 any | 73 at 2 | 2 return / locals float / stack / handler 3 / local 0: float is not assignable to int / catch 2 3 3 any
<init> ()V 1 1 | aload_0; invokespecial [method java/lang/Object <init> ()V]; return; athrow | 5 full [uninitializedThis] [class java/lang/Throwable] | 0 1 5 any, 1 4 5 any, 0 4 5 any | 75 at 1 | 1 invokespecial #13 / constant 13 Methodref #9 #12 java/lang/Object <init> ()V / locals uninitializedThis / stack uninitializedThis / flags flagThisUninit / catch 1 4 5 any
# none where control does not come and none is declared, and where the parameters do not fit
f (I)V 0 1 | return; nop; return | | | 70 at 1 | 1 nop
f (I)V 0 1 | goto 4; nop; return | 4 same | | 70 at 3 | 3 nop
f (J)V 0 1 | return | | | 64 at 0 | 0 return
"""
# Classes of several methods ()V, each by its code and its max_locals. `told` stands after a method of which frames are
# printed: the frames of the methods in front of it have fewer than 65,536 types. All locals count, also those that are
# top, and so does each item of the stack.
BOUNDED = """
pop 65535 told; pop 0 told; pop 1 told; pop 0; pop 5
pop 65535 told; pop 65535 told; pop 0
pop 65534 told; pop 1 told; pop 0 told
return 65535; pop 65535 told; pop 1 told; pop 0
dead 65535; pop 65535 told; pop 1 told; pop 0
entry 32767 told; pop 1 told; pop 0
entry 32767 told; entry 0 told; entry 0
"""
# By the name of a code: its instructions, the frames that its stack map declares, what is told, the instruction there,
# and the lines of its frames. `pop` has one frame; `entry` has two, with one item on the stack of the first.
CODES = {
    "pop": ("pop; return", "", "61 at 0", "0 pop", "locals / stack / stack: expected units 1, found 0"),
    "return": ("return", "", "", "", ""),
    "dead": ("return; nop; return", "", "70 at 1", "1 nop", ""),
    "entry": ("iconst_0; return", "1 same", "69 at 1", "1 return", "locals / stack int / declared locals / declared stack / stack: items that come 1, declared 0"),
}
# The line on the fault of a stack map, by its number.
FAULTS = {
    2: "2 EndsEarly: the stack map ends within an entry",
    12: "12 AttributeLength: bytes stand behind the last entry",
    47: "47 BadFrameType: a byte is no frame type",
    52: "52 NotAStart: the offset of an entry is that of no instruction",
}
SENTENCES = {int(it.split()[0]): it.strip() for it in (line.split("|")[1] for line in METHODS.strip().splitlines())}


def rows():
    """The rows of the table, each with its name and the text whole."""
    for line in ROWS.strip().splitlines():
        if line.startswith("#"):
            continue
        head, code, body, entry, told, lines = (it.strip() for it in line.split("|"))
        name, descriptor, stack, variables = head.split()
        constants = Constants(descriptor, name)
        data = assembled(code, constants)
        nested = [attribute(constants.text("StackMapTable"), stack_map_of(body, constants.owner))] if body else []
        handlers = [handler(it, constants) for it in entry.split(", ")] if entry else []
        attributes = code_f(data, stack=int(stack), variables=int(variables), handlers=handlers, nested=nested)
        fields = [member(0, constants.text("x"), constants.text("I"))]
        k = replace(K, constants=constants.items, fields=fields, methods=[method_f(attributes, flags=STATIC if name == "f" else 0)])
        first = f"method {name} {descriptor} refused {told}".replace("\\", "\\u005c")
        said = [SENTENCES[int(told.split()[0])], *([FAULTS[int(told.split()[-1])]] if "fault" in told else [])]
        sizes = f"stack {stack} locals {variables}"
        yield f"{head} {code} {body}", [k.data(), *KNOWN], text([first, *said, sizes, *lines.split(" / ")])


def bounded():
    """The classes of several methods, each with the text whole."""
    for row in BOUNDED.strip().splitlines():
        constants, methods, said = [*CONSTANTS, utf8("StackMapTable")], [], ""
        for number, words in enumerate(row.split("; ")):
            kind, count, *is_told = words.split()
            code, body, told, line, frames = CODES[kind]
            constants.append(utf8(f"m{number}"))
            nested = [attribute(len(CONSTANTS) + 1, stack_map_of(body, None))] if body else []
            methods.append(member(STATIC, len(constants), 6, code_f(code_of(code), stack=1, variables=int(count), nested=nested)))
            if told:
                lines = [line, *(frames.split(" / ") if is_told else [])]
                said += text([f"method m{number} ()V refused {told}", SENTENCES[int(told.split()[0])], f"stack 1 locals {count}", *lines])
        yield f"frames of {row}", [replace(K, constants=constants, methods=methods).data(), OBJECT_CLASS], said


def framed():
    """Each row: what it is, the files, and the whole text that `explain` prints."""
    yield from rows()
    yield from bounded()
