"""The example of each refusal in docs/REFUSALS.md, and what classck says of it."""
import re
from dataclasses import replace

from rows.known import KNOWN
from rows.verify.handlers import handler
from rows.verify.references import Constants, assembled
from tools.assembler import OBJECT, STATIC, attribute, member, named, utf8
from tools.class_k import K, OBJECT_CLASS, code_f, method_f, with_constants
from tools.places import DOCS
from tools.stack_maps import stack_map_of

PAGE = DOCS / "REFUSALS.md"
NUMBERS = [*range(60, 80), 82, 86, 90]
# The options with which alone a number is told.
OPTIONS = {"85": " --release 17", "86": " --release 17", "90": " --dynamic"}


def table(heading):
    """The rows of the table below a heading of the page that begins so."""
    part = PAGE.read_text().partition(f"\n### {heading}")[2].partition("\n### ")[0]
    for line in part.splitlines():
        cells = [it.replace("`", "").strip() for it in line.strip("|").split("|")]
        if line.startswith("|") and re.match(r"\d", cells[0]):
            yield cells


def rows():
    """The examples of methods: a number, a method, its code, its stack map and entries, and what is told."""
    for cells in table("Of a method"):
        yield cells[:5]


def in_order():
    """Whether there is an example for each number of a verdict, in their order, and for each other number one or a call."""
    shown = [int(it) for heading in ("Of a class file", "Of code", "Of a list", "Of calls") for row in table(heading) for it in row[0].split(", ")]
    numbers = [int(it) for it in re.findall(r"(?m)^\| (\d+) \| `", PAGE.read_text().partition("\n## ")[0])]
    others = [int(row[0]) for row in table("With `--release`")]
    return [int(it[0]) for it in rows()] == NUMBERS and sorted(shown + NUMBERS + [it for it in others if it not in shown + NUMBERS]) == numbers


def edited(words):
    """K with the edits of an example."""
    data = K.data()
    for edit in words.split(", "):
        what, place, *digits = edit.split()
        place, more = int(place), bytes.fromhex("".join(digits))
        if what == "cut":
            data = data[:place]
        elif what == "drop":
            data = data[:place] + data[place + 1 :]
        else:
            data = data[:place] + more + data[place + (len(more) if what == "at" else 0) :]
    return data


def file_of(words):
    """The class file of `A`, `A below B` or `final A`; `with f` or `with final f` it has a native method."""
    words, _, method = words.partition(" with ")
    name, _, above = words.removeprefix("final ").partition(" below ")
    if name == OBJECT:
        return OBJECT_CLASS
    it = named(name, above=above or OBJECT, flags=0x0031 if words.startswith("final ") else 0x0021)
    count = len(it.constants)
    methods = [member(0x0111 if method.startswith("final ") else 0x0101, count + 1, count + 2)] if method else []
    return replace(it, constants=[*it.constants, utf8("f"), utf8("()V")], methods=methods).data()


def faults():
    """The other examples: what each is, the command, the files, and the line."""
    for number, words, told, _ in table("Of a class file"):
        yield f"the example of {number}", "check", [edited(words)], f"refused {number} {told}".rstrip()
    for number, of, digits, _ in table("Of code"):
        data = bytes.fromhex(digits)
        nested = [attribute(8, data)] if of == "map" else []
        k = replace(with_constants(utf8("StackMapTable")), methods=[method_f(code_f(b"\0\xb1" if nested else data, stack=int(number == "53"), nested=nested))])
        yield f"the example of {number}", "verify", [k.data(), OBJECT_CLASS], f"method f ()V refused {78 if nested else 79} at 0 fault {number}"
    for number, classes, line, _ in table("Of a list"):
        yield f"the example of {number}", f"verify{OPTIONS.get(number, '')}", [file_of(it) for it in classes.split("; ")], line


def faults_of_release():
    """The examples of rules of form that a release has alone, with it and without."""
    for number, words, told, _ in table("With `--release`"):
        yield f"the example of {number}, of a release", "check --release 17", [edited(words)], f"refused {number} {told}"
        yield f"the example of {number}, of a release", "check", [edited(words)], "ok"


def dumped():
    """The bytes of K as the page has them."""
    lines = re.search(r"```\n((?: *\d+  .*\n)+)```", PAGE.read_text())[1].splitlines()
    data, is_placed = b"", True
    for line in lines:
        place, *digits = line.split()
        is_placed = is_placed and int(place) == len(data)
        data += bytes.fromhex("".join(digits))
    return data if is_placed else None


def reasons():
    """Each example of a method: its name, the command, the files of the class that has it alone, and the line of it."""
    for number, words, code, parts, told in rows():
        name, descriptor, stack, variables = words.split()
        body, _, entry = (it.strip() for it in parts.partition("entry"))
        constants = Constants(descriptor, name)
        data = assembled(code, constants)
        nested = [attribute(constants.text("StackMapTable"), stack_map_of(body, constants.owner))] if body else []
        handlers = [handler(entry, constants)] if entry else []
        method = method_f(
            code_f(data, stack=int(stack), variables=int(variables), handlers=handlers, nested=nested), flags=0 if name == "<init>" else STATIC
        )
        k = replace(K, constants=constants.items, methods=[method])
        yield f"the example of {number}", f"verify{OPTIONS.get(number, '')}", [k.data(), *KNOWN], f"method {name} {descriptor} refused {number} {told}"
