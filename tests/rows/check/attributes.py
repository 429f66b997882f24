"""Classes with each attribute of numbers, whole and broken at each of its numbers, and what `classck check` says of them: JVMS 4.7."""
from dataclasses import replace

from model.attribute_table import rows
from tools.assembler import attribute, integer, listed, member, u2, utf8
from tools.class_k import CONSTANTS, K, code_f, method_f

# The index of the attribute's name; after it stand an Integer at 9, the text `I` at 10 and the name of Record at 11.
NAME, RECORD = 8, 11
# By the letters of attribute_table.py: an index or a number that may stand there, and one of another kind.
SOUND = {"n": 7, "u": 2, "U": 4, "v": 9, "c": 1, "C": 3}
OTHER = {"u": 1, "U": 3, "v": 2, "c": 2, "C": 4}
BROKEN_AT = {"class": "class", "field": "field 0", "method": "method 0", "code": "method 0", "component": "class"}


def with_attributes(place, name, *attributes, major=61):
    """K with these attributes in a table of this place, and a field."""
    own = {"class": [], "field": [], "method": [code_f()], "code": [], "component": []}
    own[place] = own[place] + list(attributes)
    if place == "component":
        own["class"] = [attribute(RECORD, listed([u2(5) + u2(10) + listed(own["component"])]))]
    method = [code_f(nested=own["code"])] if place == "code" else own["method"]
    return replace(
        K,
        constants=[*CONSTANTS, utf8(name), integer(5), utf8("I"), utf8("Record")],
        fields=[member(0, 5, 10, *own["field"])],
        methods=[method_f(*method)],
        attributes=own["class"],
        major=major,
    ).data()


def body_of(numbers, letters):
    """The body that has these numbers; two rows of them where a count stands before."""
    row = b"".join(map(u2, numbers))
    return u2(2) + row + row if letters.startswith("*") else row


def refused_12(place, name, body):
    """The attribute with this body, which has not its length, and the line of it."""
    broken = attribute(NAME, body)
    data = with_attributes(place, name, broken)
    return data, f"refused 12 at {data.rindex(broken)}"


def lengths(place, name, body):
    """The attribute cut after each of its numbers, in its last one, and longer."""
    for size in (*range(0, len(body), 2), len(body) - 1, len(body) + 1, len(body) + 2):
        if 0 <= size != len(body):
            yield f"{name} of {size} bytes in a {place}", *refused_12(place, name, (body + b"\0\0")[:size])


def indices(place, name, letters):
    """Each index of the attribute 0, past the pool and of another kind."""
    columns = letters.strip("*")
    for column, letter in enumerate(columns):
        for index, number in ((0, 20), (99, 20), (OTHER.get(letter), 21)):
            if letter != "n":
                numbers = [index if k == column else SOUND[it] for k, it in enumerate(columns)]
                data = with_attributes(place, name, attribute(NAME, body_of(numbers, letters)))
                is_sound = index == 0 and letter.isupper()
                yield f"{name} with {index} at {column} in a {place}", data, "ok" if is_sound else f"refused {number} {BROKEN_AT[place]}"


def attributes():
    """A name for each file, its bytes, and the line that is printed."""
    for place, name, major, once, letters in rows():
        body = body_of([SOUND[it] for it in letters.strip("*")], letters)
        sound = attribute(NAME, body)
        yield f"{name} in a {place}", with_attributes(place, name, sound), "ok"
        yield f"{name} twice in a {place}", with_attributes(place, name, sound, sound), f"refused 30 {BROKEN_AT[place]}" if once else "ok"
        yield from lengths(place, name, body)
        yield from indices(place, name, letters)
        if letters.startswith("*"):
            yield f"{name} of no rows in a {place}", with_attributes(place, name, attribute(NAME, u2(0))), "ok"
        if major > 51:
            raw = [attribute(NAME, b"\0")] * 2
            yield f"{name} in version {major - 1}", with_attributes(place, name, *raw, major=major - 1), "ok"
        elsewhere = {it for it in BROKEN_AT if (it, name) not in {(it[0], it[1]) for it in rows()}}
        for other in sorted(elsewhere):
            yield f"{name} in a {other}, where it says nothing", with_attributes(other, name, attribute(NAME, b"\0")), "ok"
