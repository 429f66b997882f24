"""The attributes of class files that are numbers of two bytes each, once more, read from the standard and not from the program.

It follows The Java Virtual Machine Specification, Java SE 17, 4.7 and table 4.7-C. Of each attribute: its name, the tables that it may stand in, the
first major version in which it is read so, whether a table may have one only, and its numbers, one letter each. Behind `*` these are the
numbers of a row, of which a count says how many there are.

  n  a number that is no index         u  the index of a Utf8, or 0 where it is `U`
  v  the index of a constant value     c  the index of a Class, or 0 where it is `C`
"""

ROWS = """
ConstantValue       field               45  once   v
Exceptions          method              45  once   *c
SourceFile          class               45  once   u
InnerClasses        class               45  once   *cCUn
NestHost            class               55  once   c
NestMembers         class               55  once   *c
PermittedSubclasses class               61  once   *c
Signature           class,field,method  49  once   u
Signature           component           49  once   u
Deprecated          class,field,method  45  often
Synthetic           class,field,method  45  often
LineNumberTable     code                45  often  *nn
LocalVariableTable  code                45  often  *nnuun
"""


def rows():
    """Each attribute in each of its tables: the table and the name, then the version, whether it may stand once only, and its numbers."""
    for line in ROWS.strip().splitlines():
        name, places, major, often, *numbers = line.split()
        for place in places.split(","):
            yield place, name, int(major), often == "once", "".join(numbers)


TABLE = {(place, name.encode()): (major, once, numbers) for place, name, major, once, numbers in rows()}


def row_of(place, name, major):
    """Whether the attribute of this name may stand here once only, and its numbers; None where its body is as it is."""
    first, *row = TABLE.get((place, name), (None,))
    return tuple(row) if first is not None and first <= major else None
