"""The objects that `--json` prints in place of the lines of the commands that have it, read off these lines, and rows of their escapes."""
import json
import re
from dataclasses import replace

from tools.assembler import class_info, member, name_and_type, utf8
from tools.class_k import K, OBJECT_CLASS, code_f, with_constant
from tools.places import TOP
from tools.schema import errors

SCHEMA = json.loads((TOP / "docs/answers.schema.json").read_text())

# After the number of a refusal: what stands in the line, and the fields that it is.
ENDINGS = [
    (r"", []),
    (r" at (\d+)", ["at"]),
    (r" at (\d+) tag (\d+)", ["at", "tag"]),
    (r" (\d+)\.(\d+)", ["major", "minor"]),
    (r" at (\d+) fault (\d+)", ["at", "fault"]),
]
LINES = [
    (r"(ok)", "file"),
    (r"(refused .*)", "file"),
    (r"file (\d+)(?: (.*))?", "numbered"),
    (r"play (verified)", "play"),
    (r"class (refused .*)", "class"),
    (r"class (\d+) (refused .*)", "class"),
    (r"known (\d+) (refused .*)", "known"),
    (r"hierarchy (refused .*)", "hierarchy"),
    (r"method (.*) (\(.*\).*?) (verified|no code|refused .*)", "method"),
]


def unescaped(name):
    """A name as it is, of the escapes that the program's lines have."""
    units = re.sub(r"\\u([0-9a-f]{4})", lambda it: chr(int(it[1], 16)), name)
    return units.encode("utf-16", "surrogatepass").decode("utf-16", "surrogatepass")


def ending(kind, number, rest):
    """The fields after the word `refused`."""
    yield "number", int(number)
    if place := re.fullmatch(r" (pool|class|field|method)(?: (\d+))?", rest):
        if kind != "hierarchy":
            yield "place", place[1]
            yield from ([("index", int(place[2]))] if place[2] else [])
            return
    if kind == "hierarchy":
        yield from ([("name", unescaped(rest[1:]))] if rest else [])
    elif missing := re.fullmatch(r" at (\d+) missing (.*)", rest):
        yield "at", int(missing[1])
        yield "missing", unescaped(missing[2])
    else:
        found, names = next((it, names) for pattern, names in ENDINGS if (it := re.fullmatch(pattern, rest)))
        yield from zip(names, map(int, found.groups()))


def fields(line):
    """The fields of the object that stands for a line, in their order."""
    found, kind = next((it, kind) for pattern, kind in LINES if (it := re.fullmatch(pattern, line)))
    if kind == "numbered":
        yield from (("kind", "file"), ("position", int(found[1])), *([("name", unescaped(found[2]))] if found[2] else []))
        return
    yield "kind", kind
    if kind == "known" or kind == "class" and found.lastindex == 2:
        yield "position", int(found[1])
    if kind == "method":
        yield "name", unescaped(found[1])
        yield "descriptor", unescaped(found[2])
    answer = found[found.lastindex]
    yield "answer", answer.partition(" ")[0] if answer.startswith("refused") else answer
    if refusal := re.fullmatch(r"refused (\d+)(.*)", answer):
        yield from ending(kind, refusal[1], refusal[2])


# The lines below a refusal in an explanation, in their order, and the field that each is.
EXPLAINED = [
    (r"\d+ ([A-Z]\w+: .*)", "sentence"),
    (r"stack (\d+) locals (\d+)", "sizes"),
    (r"constant (.*)", "constant"),
    (r"catch (.*)", "exception_table"),
    (r"(target|handler) (\d+)", "place"),
    (r"(local|stack) (\d+): (.*) is not assignable to (.*)", "mismatch"),
    (r"(local|stack) (\d+): whether (.*) is assignable to (.*) is not known", "mismatch"),
    (r"entry (\d+)(?: at (\d+))?", "entry"),
    (r"operand (\d+) of (\d+): expected (.*), found (.*)", "operand"),
    (r"local (\d+): expected (.*), found (.*)", "local"),
    (r"stack: expected units (\d+), found (\d+)", "stack_units"),
    (r"stack: items that come (\d+), declared (\d+)", "stack_size"),
    (r"flags: flagThisUninit comes and is not declared", "flags"),
    (r"((?:declared )?(?:locals|stack|flags))((?: .*)?)", "frame"),
    (r"(\d+ [a-z].*)", "instruction"),
    (r"class (.*) major (\d+) minor (\d+) flags ([0-9a-f]{4})", "class"),
    (r"super (.*)", "super"),
    (r"(?:field|method) ([0-9a-f]{4}) (.*) (.*)", "member"),
    (r"attribute (\d+)(?: (.*))?", "attribute"),
]


def explained_line(line):
    """The fields that a line below a refusal is, without the place of the entries of an exception table."""
    found, kind = next((it, kind) for pattern, kind in EXPLAINED if (it := re.fullmatch(pattern, line)))
    if kind == "sizes":
        return [("max_stack", int(found[1])), ("max_locals", int(found[2]))]
    if kind == "place":
        return [(found[1], int(found[2]))]
    if kind == "entry":
        return [(kind, int(found[1])), *([("entry_at", int(found[2]))] if found[2] else [])]
    if kind == "mismatch":
        return [("differs", found[1]), ("index", int(found[2])), ("type", unescaped(found[3])), ("declared_type", unescaped(found[4]))]
    if kind == "operand":
        there = [] if found[4] == "none" else [("type", unescaped(found[4]))]
        return [("differs", kind), ("index", int(found[1])), ("count", int(found[2])), ("expected_type", unescaped(found[3])), *there]
    if kind == "local":
        return [("differs", kind), ("index", int(found[1])), ("expected_type", unescaped(found[2])), ("type", unescaped(found[3]))]
    if kind == "stack_units":
        return [("differs", kind), ("expected_units", int(found[1])), ("units", int(found[2]))]
    if kind == "stack_size":
        return [("differs", kind), ("size", int(found[1])), ("declared_size", int(found[2]))]
    if kind == "flags":
        return [("differs", kind)]
    if kind == "class":
        return [("name", unescaped(found[1])), ("major", int(found[2])), ("minor", int(found[3])), ("flags", found[4])]
    if kind == "super":
        return [] if found[1] == "none" else [(kind, unescaped(found[1]))]
    if kind == "member":
        return [("flags", found[1]), ("name", unescaped(found[2])), ("descriptor", unescaped(found[3]))]
    if kind == "attribute":
        return [(kind, int(found[1])), ("attribute_name", unescaped(found[2] or ""))]
    if kind == "frame":
        return [(found[1].replace(" ", "_"), [unescaped(it) for it in found[2][1:].split(", ")] if found[2] else [])]
    return [(kind, unescaped(found[1]))]


def part_of_bytes(lines):
    """The fields that the lines on the part of a file are in which a fault of its bytes lies."""
    for i, line in enumerate(lines):
        kind, number, *_ = line.split()
        if kind == "attribute":
            yield from ([("place", "class")] if i == 0 else [])
            yield kind, int(number)
        else:
            yield "place", "pool" if kind == "constant" else kind
            yield "index", int(number)
            yield from ([(kind, line.removeprefix("constant "))] if kind == "constant" else [])


def explained(lines):
    """The fields that the lines below a refusal are; a second sentence is the one on the fault after the number."""
    if int(lines[0].split()[0]) < 20:
        yield from explained_line(lines[0])
        yield from part_of_bytes(lines[1:])
        return
    entries = []
    for i, line in enumerate(lines):
        for name, value in explained_line(line):
            if name == "exception_table":
                entries.append(value)
            else:
                yield "fault_sentence" if name == "sentence" and i > 0 else name, value
    if entries:
        yield "exception_table", entries


def wanted_of_explained(text):
    """The objects that stand for an explanation, as lists of fields."""
    objects = []
    for line in text.splitlines():
        if not line.startswith("  "):
            objects.append((line, []))
        else:
            objects[-1][1].append(line[2:])
    return [[*fields(line), *explained(below)] for line, below in objects]


def wanted(text):
    """The objects that stand for the lines of an answer, as lists of fields: for a method that `play` refuses one of its class, and one of the method."""
    return [list(fields(it)) for it in re.sub(r"(?m)^(class \d+) (method .*)", r"\1 refused 84\n\2", text).splitlines()]


def unlike_schema(pairs):
    """Why the fields of an object are not those of the schema; and that it takes them with one more, or without the first."""
    value = dict(pairs)
    yield from errors(value, SCHEMA)
    if len(value) < len(pairs):
        yield "a field stands twice"
    if not any(errors({**value, "other": 1}, SCHEMA)):
        yield "the schema takes any field"
    if not any(errors(dict(pairs[1:]), SCHEMA)):
        yield "the schema takes an object without its kind"


def printed(text):
    """The objects of an answer, as lists of fields; of a line that is no JSON, or is not printable ASCII, why."""
    objects = []
    for line in text.split("\n")[:-1]:
        try:
            objects.append(json.loads(line, object_pairs_hook=list))
            objects += unlike_schema(objects[-1])
        except ValueError as error:
            objects.append(str(error))
        if not re.fullmatch(r"[ -~]+", line):
            objects.append(f"no printable ASCII: {line!r}")
    return objects


# A class of this name has no superclass among the known classes.
NAME = b"\"\\\xc0\x80 \xed\xa0\xbd\xed\xb2\xa9\xed\xa0\xbd~\x7f\xc3\xa9"
ESCAPED = r'"\u0022\u005c\u0000 \ud83d\udca9\ud83d~\u007f\u00e9"'


def parts_at_fault():
    """Parts at fault that have this name: a class, a field and a constant."""
    named = with_constant(2, utf8(NAME))
    flagged = replace(named, flags=0x0221).data()
    yield "a class at fault of this name", ["explain", "--json"], [flagged], (
        '{"kind":"class","answer":"refused","number":24,"place":"class",'
        '"sentence":"BadFlags: access flags stand together that may not, or one stands without another that it needs",'
        f'"name":{ESCAPED},"major":52,"minor":0,"flags":"0221","super":"java/lang/Object"}}\n'
    )
    repeated = replace(K, constants=[*K.constants, utf8(NAME), utf8("I")], fields=[member(0x0010, 8, 9)] * 2).data()
    yield "a field at fault of this name", ["explain", "--json"], [K.data(), OBJECT_CLASS, repeated], (
        '{"kind":"known","position":2,"answer":"refused","number":25,"place":"field","index":1,'
        '"sentence":"Twice: an earlier field or method has this name and descriptor",'
        f'"flags":"0010","name":{ESCAPED},"descriptor":"I"}}\n'
    )
    typed = replace(K, constants=[*K.constants, utf8(NAME), name_and_type(5, 8)]).data()
    yield "a constant at fault with this name", ["explain", "--json"], [typed], (
        '{"kind":"class","answer":"refused","number":23,"place":"pool","index":9,'
        '"sentence":"BadDescriptor: a descriptor is not of its form, passes its limits, or is none that the method may have",'
        f'"constant":"9 NameAndType #5 #8 f {ESCAPED[1:-1]}"}}\n'
    )


def escapes():
    """Names with each kind of escape: the words, the files, and the line as it stands."""
    named = with_constant(2, utf8(NAME)).data()
    refused = f'{{"kind":"hierarchy","answer":"refused","number":42,"name":{ESCAPED}}}\n'
    yield "a superclass that is missing", ["verify", "--json"], [named], refused
    # a method with a parameter of this class, which makes an object of it
    constants = [*K.constants, utf8(NAME), class_info(8), utf8(b"(L" + NAME + b";)V")]
    code = code_f(bytes.fromhex("bb 00 09 b1"), variables=1)
    makes = replace(K, constants=constants, methods=[member(0x0009, 5, 10, code)]).data()
    called = ESCAPED[1:-1]
    explained_object = (
        f'{{"kind":"method","name":"f","descriptor":"(L{called};)V","answer":"refused","number":65,"at":0,'
        '"sentence":"StackOver: the stack after the instruction passes max_stack","max_stack":0,"max_locals":1,'
        f'"instruction":"0 new #9","constant":"9 Class #8 {called}","locals":["Class {called}"],"stack":[]}}\n'
    )
    yield "a method with a name in its frame", ["explain", "--json"], [makes, OBJECT_CLASS], explained_object
    yield from parts_at_fault()
    above = f'{{"kind":"file","position":1,"name":{ESCAPED}}}\n{{"kind":"class","answer":"refused","number":80}}\n'
    below = replace(K, constants=[*K.constants[:1], utf8(NAME), *K.constants[2:3], utf8(b"L"), *K.constants[4:]]).data()
    objects = '{"kind":"file","position":2,"name":"java/lang/Object"}\n{"kind":"method","name":"clone","descriptor":"()Ljava/lang/Object;","answer":"no code"}\n'
    yield "a class of this name in a file", ["verify-each", "--json"], [below, OBJECT_CLASS], above + objects
    called = replace(K, constants=[*K.constants[:4], utf8(NAME), *K.constants[5:]], methods=[member(0x0009, 5, 6, code_f(b"\0"))]).data()
    falls = f'{{"kind":"class","position":1,"answer":"refused","number":84}}\n{{"kind":"method","name":{ESCAPED},"descriptor":"()V","answer":"refused","number":71,"at":0}}\n'
    yield "a method of this name in play", ["play", "--json"], [called, OBJECT_CLASS], falls
    yield "a class", ["check", "--json"], [K.data()], '{"kind":"file","answer":"ok"}\n'
    yield "a method", ["verify", "--json"], [K.data(), OBJECT_CLASS], '{"kind":"method","name":"f","descriptor":"()V","answer":"verified"}\n'
