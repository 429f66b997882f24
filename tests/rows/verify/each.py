"""Classes judged one by one in one process, and what `classck verify-each` says of them: JVMS 4.1, 4.10.1 and 5.3.5."""
from rows.verify.bootstraps import bootstraps
from rows.verify.dynamic import dynamic
from rows.verify.play import ABSENT, BELOW, EVEN, LAST, NOP, ODD, SECOND, class_of
from tools.assembler import OBJECT, named
from tools.class_k import BYTES, OBJECT_CLASS, PLAIN_OBJECT

FINE = "method f ()V verified"
CUT = BYTES[:96]
SERIALIZABLE, CLONEABLE = "java/io/Serializable", "java/lang/Cloneable"
INTERFACE = 0x0601
# Classes below one another, as far as no other is said: A, B below A, C below B.
A, B, C = (named(name, above).data() for name, above in (("A", OBJECT), ("B", "A"), ("C", "B")))
# A cycle, and a class below it.
X, Y, Z = (named(name, above).data() for name, above in (("X", "Y"), ("Y", "X"), ("Z", "X")))
# Another class of the name K, without methods.
OTHER = class_of("K", above=OBJECT)


def told(*answers):
    """The text of these answers, each the name of the class, or None, and its lines."""
    return "".join(f"file {n}{f' {name}' if name else ''}\n" + "".join(f"{it}\n" for it in lines) for n, (name, *lines) in enumerate(answers, 1))


# Rows: a description, the files, those of the known classes, and the text.
ROWS = (
    ("K", [BYTES], [PLAIN_OBJECT], told(("K", FINE))),
    ("a class without methods", [A], [PLAIN_OBJECT], told(("A",))),
    ("Object alone", [PLAIN_OBJECT], [], told((OBJECT,))),
    ("K and Object", [BYTES, OBJECT_CLASS], [], told(("K", FINE), (OBJECT, "method clone ()Ljava/lang/Object; no code"))),
    ("two classes that call each other", [EVEN, ODD], [PLAIN_OBJECT], told(("Even", "method f (I)I verified"), ("Odd", "method f (I)I verified"))),
    ("methods of which some are refused", [SECOND, NOP, BYTES], [PLAIN_OBJECT],
     told(("Second", "method f ()V verified", "method g ()V refused 71 at 0"), ("K", "method f ()V refused 71 at 0"), ("K", FINE))),
    ("a class that needs another one", [ABSENT, BYTES], [PLAIN_OBJECT], told(("Absent", "method f (LA;)LB; refused 77 at 1 missing B"), ("K", FINE))),
    ("the same, with that class known", [ABSENT], [PLAIN_OBJECT, A, B], told(("Absent", "method f (LA;)LB; refused 62 at 1"))),
    ("a class below a final one", [BELOW, BYTES], [PLAIN_OBJECT, LAST], told(("Below", "class refused 81"), ("K", FINE))),
    # a fault in one file, and the others
    ("a file that is cut", [CUT, BYTES], [PLAIN_OBJECT], told((None, "class refused 2 at 95"), ("K", FINE))),
    ("a known file that is cut", [BYTES], [CUT, PLAIN_OBJECT[:45], PLAIN_OBJECT], told(("K", FINE))),
    ("a class whose superclass is cut", [B, BYTES], [A[:-1], PLAIN_OBJECT], told(("B", "class refused 80"), ("K", FINE))),
    ("classes below one that is not there", [C, BYTES, B], [PLAIN_OBJECT], told(("C", "class refused 80"), ("K", FINE), ("B", "class refused 80"))),
    ("classes in any order", [C, B, A], [PLAIN_OBJECT], told(("C",), ("B",), ("A",))),
    ("a class that needs one below a class that is not there", [ABSENT], [PLAIN_OBJECT, B], told(("Absent", "method f (LA;)LB; refused 77 at 1 missing B"))),
    ("a cycle, and a class below it", [X, Y, Z, BYTES], [PLAIN_OBJECT],
     told(("X", "class refused 80"), ("Y", "class refused 80"), ("Z", "class refused 80"), ("K", FINE))),
    ("an interface below another class than Object", [named("I", "A", flags=INTERFACE).data(), A], [PLAIN_OBJECT], told((None, "class refused 28 class"), ("A",))),
    ("Serializable and Cloneable as classes", [named(SERIALIZABLE).data(), named(CLONEABLE).data(), BYTES], [PLAIN_OBJECT],
     told((SERIALIZABLE, "class refused 80"), (CLONEABLE, "class refused 80"), ("K", FINE))),
    ("Serializable and Cloneable as interfaces", [named(SERIALIZABLE, flags=INTERFACE).data(), named(CLONEABLE, flags=INTERFACE).data()], [PLAIN_OBJECT],
     told((SERIALIZABLE,), (CLONEABLE,))),
    # of two with one name the first
    ("two classes of one name", [OTHER, BYTES], [PLAIN_OBJECT], told(("K",), ("K", "class refused 80"))),
    ("a class that is given twice", [BYTES, BYTES], [PLAIN_OBJECT, PLAIN_OBJECT], told(("K", FINE), ("K", FINE))),
    ("a known class of the name of one that is judged", [BYTES], [OTHER, PLAIN_OBJECT], told(("K", FINE))),
    # no hierarchy
    ("K without Object", [BYTES], [A], "hierarchy refused 43\n"),
    ("an interface called Object", [BYTES], [named(OBJECT, above=None, flags=INTERFACE).data()], "hierarchy refused 43\n"),
    ("files of which none is a class", [CUT], [CUT], "hierarchy refused 43\n"),
)


def each():
    """A name for each row, the words of the command, the files, those of the known classes, and the text."""
    for what, files, known, text in ROWS:
        yield what, ["verify-each"], files, known, text
    for what, command, files, lines in (*dynamic(), *bootstraps()):
        if command.startswith("verify"):
            yield what, command.replace("verify", "verify-each").split(), files[:1], files[1:], told(("K", *lines.split("\n")))
