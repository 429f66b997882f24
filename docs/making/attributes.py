"""The page of the attributes that are read by field.

tests/pages/attribute_page compares the rows with a second table.
"""
import re

from making.crates import CRATES

SOURCE = CRATES / "classfile/src/layouts.rt"
HEAD = """# Attributes

`docs/make` makes this page of `crates/classfile/src/layouts.rt`. It lists the attributes that are read by field, by
their names and the tables that they appear in (The Java Virtual Machine Specification, Java SE 17, 4.7 and table
4.7-C). The body of such an attribute has exactly the bytes that its fields take, otherwise it is refused with 12; its
indices are checked (20, 21); and a table has at most one of each with "once" (30). Every other attribute is raw: a
name, and bytes that are not looked at. An attribute with one of these names is raw as well in another table, or in a
class file of a lower major version. If a name is read by field, raw bytes under it have no spelling: `encode` returns
18.

"""
TABLE = "| Attribute | In | From | Once | Fields |\n|---|---|---|---|---|\n"
TAIL = """
A count of two bytes says how many rows of the fields after it there are; each field is a number of two bytes. All
attributes except Code, StackMapTable and Record have this form: a program that decodes a class gets `Numbers`, with a
`layout` (the line of the table, with its name), `rows()` and `get(row, column)`. Rows and columns count from 0, the
count itself is not among them, and an attribute without a count has one row. So `get(0, 0)` is the index of a
ConstantValue, `get(2, 1)` the line of the third row of a LineNumberTable, and `get(0, 3)` the flags of the first row of
InnerClasses; nothing is copied. Only the kind of texts and classes is checked, not what they say. Each component of a
record has its own table of attributes, and an attribute with "once" may appear once in each. `form_check` reports all
of them under the place of the class. `show` prints a `component` with its name and descriptor for each component of a
record, and `permits` for each permitted class.

The layouts of numbers are defined in `crates/classfile/specs/Layouts.antt`; Code, StackMapTable and Record in
`specs/Locations.antt`. `tests/model/attribute_table.py` and `tests/model/model.py` repeat them.
"""

# how the page calls the tables of the source, and how tests/model/attribute_table.py does
PLACES = {
    "CLASS": ("classes", "class"),
    "FIELD": ("fields", "field"),
    "METHOD": ("methods", "method"),
    "COMPONENT": ("record components", "component"),
    "CODE": ("Code", "code"),
}
FIELDS = {
    "Text": ("Utf8", "u"),
    "TextOrZero": ("Utf8 or 0", "U"),
    "Class": ("Class", "c"),
    "ClassOrZero": ("Class or 0", "C"),
    "Value": ("an Integer, Float, Long, Double or String", "v"),
    "Plain": ("number", "n"),
}
# in the order of the page, with the section of the standard, and the numbers that are no indices
SECTIONS = {
    "Code": "4.7.3",
    "StackMapTable": "4.7.4",
    "ConstantValue": "4.7.2",
    "Exceptions": "4.7.5",
    "SourceFile": "4.7.10",
    "InnerClasses": "4.7.6",
    "NestHost": "4.7.28",
    "NestMembers": "4.7.29",
    "Record": "4.7.30",
    "PermittedSubclasses": "4.7.31",
    "Signature": "4.7.9",
    "Deprecated": "4.7.15",
    "Synthetic": "4.7.8",
    "LineNumberTable": "4.7.12",
    "LocalVariableTable": "4.7.13",
}
NUMBERS = {
    "InnerClasses": ["flags"],
    "LineNumberTable": ["start", "line"],
    "LocalVariableTable": ["start", "length", "local variable"],
}
# the attributes that are not numbers alone
OTHERS = {
    "Code": ("methods", 45, "yes", "max_stack, max_locals, code, exception_table, attributes"),
    "StackMapTable": ("Code", 50, "yes", "its body, which `read_map` reads"),
    "Record": ("classes", 60, "yes", "a count; Utf8, Utf8, attributes of the component"),
}
LISTED = re.compile(r"static (\w+)_LAYOUTS: \[AttributeLayout<'static>; \d+\] = attributes! \{(.*?)\n\};", re.S)
LAYOUT = re.compile(r'"(\w+)"\s+(\d+)\s+(\w+)\s+(\w+)\s+\[(.*?)\];')


def source_rows():
    """Each layout: its table, name, first major version, whether it stands once, whether it has a count, columns."""
    for place, body in LISTED.findall(SOURCE.read_text()):
        for name, major, once, counted, columns in LAYOUT.findall(body):
            columns = tuple(columns.split(", ") if columns else ())
            yield place, name, int(major), once == "true", counted == "true", columns


def model_rows():
    """The rows of the source as tests/model/attribute_table.py has them."""
    found = {}
    for place, name, major, once, counted, columns in source_rows():
        told = "*" * counted + "".join(FIELDS[column][1] for column in columns)
        found[PLACES[place][1], name.encode()] = (major, once, told)
    return found


def fields(name, counted, columns):
    """The fields of an attribute as the page has them."""
    numbers = iter(NUMBERS.get(name, []))
    told = ", ".join(next(numbers) if column == "Plain" else FIELDS[column][0] for column in columns)
    return f"a count; {told}" if counted else told or "none"


def page():
    """The page, the number of its rows, and the faults; rows of one name that differ stand one after the other."""
    told = {name: {row[1:]: [row[0]]} for name, row in OTHERS.items()}
    for place, name, major, once, counted, columns in source_rows():
        row = (major, "yes" if once else "no", fields(name, counted, columns))
        told.setdefault(name, {}).setdefault(row, []).append(PLACES[place][0])
    lines = [
        f"| {name} ({SECTIONS[name]}) | {', '.join(places)} | {major} | {once} | {what} |\n"
        for name in SECTIONS
        for (major, once, what), places in told.get(name, {}).items()
    ]
    faults = [f"no section is known of {name}" for name in told if name not in SECTIONS]
    faults += [f"{name} is in no table of {SOURCE.name}" for name in SECTIONS if name not in told]
    return HEAD + TABLE + "".join(lines) + TAIL, len(lines), faults
