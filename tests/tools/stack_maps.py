"""Stack maps by words, and the words of a stack map: the body of a StackMapTable by JVMS 4.7.4.

Frames stand one behind the other, with `; ` between. Each is the offset of its instruction and one of

  same | same1 TYPE | chop COUNT | append TYPE, .. | full [TYPE, ..] [TYPE, ..]

where `full` has the locals and then the stack. A frame takes its shortest form, and with `extended` behind the offset its long one. A TYPE is
top, int, float, double, long, null, uninitializedThis, class NAME, class #INDEX or uninitialized OFFSET. `no frames` is a map without any, and
a body that is no list of frames stands by its hexadecimal digits, behind `bytes`; a constant's index stands there as [class NAME].
"""
import re

from tools.assembler import u1, u2

TYPES = ["top", "int", "float", "double", "long", "null", "uninitializedThis", "class", "uninitialized"]
EXTENDED_SAME1, EXTENDED_SAME, FULL = 247, 251, 255


def type_of(text, class_index):
    """The bytes of a type; class_index gives the index of a class's constant."""
    tag, _, rest = text.strip().partition(" ")
    if tag == "class":
        return u1(7) + u2(int(rest[1:]) if rest[:1] == "#" else class_index(rest))
    return u1(TYPES.index(tag)) + (u2(int(rest)) if tag == "uninitialized" else b"")


def types_of(text, class_index):
    """How many types stand in a list, and their bytes."""
    types = [type_of(it, class_index) for it in text.split(",") if it.strip()]
    return len(types), b"".join(types)


def frame_of(text, delta, class_index):
    """The bytes of a frame, whose offset lies so far after the place after the frame before it."""
    form, _, rest = text.partition(" ")
    is_extended = form == "extended"
    if is_extended:
        form, _, rest = rest.partition(" ")
    is_short = delta < 64 and not is_extended
    if form == "same":
        return u1(delta) if is_short else u1(EXTENDED_SAME) + u2(delta)
    if form == "same1":
        return (u1(64 + delta) if is_short else u1(EXTENDED_SAME1) + u2(delta)) + type_of(rest, class_index)
    if form == "chop":
        return u1(EXTENDED_SAME - int(rest)) + u2(delta)
    if form == "append":
        count, types = types_of(rest, class_index)
        return u1(EXTENDED_SAME + count) + u2(delta) + types
    lists = re.fullmatch(r"\[(.*?)\] \[(.*)\]", rest).groups()
    return u1(FULL) + u2(delta) + b"".join(u2(count) + types for count, types in (types_of(it, class_index) for it in lists))


def bytes_of(digits, class_index):
    """Bytes by their digits, among which [class NAME] is the index of a class's constant."""
    parts = re.split(r"\[class (.*?)\](?=[\s0-9a-f]|$)", digits)
    return b"".join(u2(class_index(it)) if i % 2 else bytes.fromhex(it) for i, it in enumerate(parts))


def stack_map_of(text, class_index):
    """The body of a StackMapTable by its words."""
    if text.startswith("bytes"):
        return bytes_of(text[5:], class_index)
    frames, behind = [], 0
    for it in text.split("; ") if text != "no frames" else []:
        at, _, frame = it.partition(" ")
        frames.append(frame_of(frame, int(at) - behind, class_index))
        behind = int(at) + 1
    return u2(len(frames)) + b"".join(frames)


class Reader:
    """The bytes of a stack map, from left to right; class_name gives the name of a class's constant."""

    def __init__(self, data, class_name):
        self.data, self.at, self.class_name = data, 0, class_name

    def number(self, size):
        self.at += size
        return int.from_bytes(self.data[self.at - size : self.at], "big")

    def type(self):
        tag = TYPES[self.number(1)]
        return f"class {self.class_name(self.number(2))}" if tag == "class" else f"{tag} {self.number(2)}" if tag == "uninitialized" else tag

    def types(self, count):
        return ", ".join([self.type() for _ in range(count)])

    def frame(self):
        """The offset of a frame after the place after the one before it, and its words."""
        tag = self.number(1)
        if tag < 128:
            return tag % 64, f"same1 {self.type()}" if tag >= 64 else "same"
        delta = self.number(2)
        extended = "extended " if delta < 64 else ""
        if tag == EXTENDED_SAME1:
            return delta, f"{extended}same1 {self.type()}"
        if tag == FULL:
            return delta, f"full [{self.types(self.number(2))}] [{self.types(self.number(2))}]"
        if tag == EXTENDED_SAME:
            return delta, f"{extended}same"
        return delta, f"chop {EXTENDED_SAME - tag}" if tag < EXTENDED_SAME else f"append {self.types(tag - EXTENDED_SAME)}"


def words(data, class_name):
    """The words of the body of a StackMapTable, which is a list of frames."""
    reader, frames, behind = Reader(data, class_name), [], 0
    for _ in range(reader.number(2)):
        delta, frame = reader.frame()
        frames.append(f"{behind + delta} {frame}")
        behind += delta + 1
    return "; ".join(frames) or "no frames"
