"""The rules of well-formed class files once more, read from the standard and not from the program.

It follows The Java Virtual Machine Specification, Java SE 17, 4.1 to 4.7: at each place of a class file, in order, the
numbers of the rules that are broken there; the first place with one is told, with its least number.
"""
import re

UTF8, CLASS, STRING, FIELD, METHOD, INTERFACE_METHOD, NAME_AND_TYPE = 1, 7, 8, 9, 10, 11, 12
INTEGER, FLOAT, LONG, DOUBLE = 3, 4, 5, 6
METHOD_HANDLE, METHOD_TYPE, DYNAMIC, INVOKE_DYNAMIC = 15, 16, 17, 18

# Forms of names (4.2) and descriptors (4.3); an array has at most 255 dimensions.
UNQUALIFIED = rb"[^.;\[/]+"
CLASS_NAME = UNQUALIFIED + rb"(?:/" + UNQUALIFIED + rb")*"
TYPE = rb"\[{0,255}(?:[BCDFIJSZ]|L" + CLASS_NAME + rb";)"


def is_field_type(text):
    return re.fullmatch(TYPE, text) is not None


def is_method_type(text, has_receiver=False):
    if re.fullmatch(rb"\((?:" + TYPE + rb")*\)(?:V|" + TYPE + rb")", text) is None:
        return False
    parameters = re.findall(TYPE, text[1 : text.index(b")")])
    return has_receiver + sum(2 if it in (b"J", b"D") else 1 for it in parameters) <= 255


def is_class_name(text):
    return re.fullmatch(CLASS_NAME, text) is not None


def is_unqualified(text):
    return re.fullmatch(UNQUALIFIED, text) is not None


def is_method_name(text):
    return is_unqualified(text) and not set(text) & set(b"<>")


class Pool:
    """The constants of a class by their indices: a tag, its numbers, and a text where it is one."""

    def __init__(self, constants):
        self.constants = constants

    def asked(self, index, *tags):
        """The rules broken by an index that has to lead to a constant of these tags."""
        if index not in self.constants:
            return {20}
        return set() if self.constants[index][0] in tags else {21}

    def _is(self, index, tag):
        return index in self.constants and self.constants[index][0] == tag

    def text(self, index):
        return self.constants[index][2] if self._is(index, UTF8) else None

    def class_name(self, index):
        return self.text(self.constants[index][1][0]) if self._is(index, CLASS) else None

    def named(self, index):
        """The name and the descriptor, where both are there."""
        if not self._is(index, NAME_AND_TYPE):
            return None
        name, descriptor = (self.text(it) for it in self.constants[index][1])
        return None if name is None or descriptor is None else (name, descriptor)

    def is_array(self, index):
        name = self.class_name(index)
        return name is not None and name.startswith(b"[")


def when(number, holds):
    return {number} if holds else set()


def constant_rules(pool, major, tag, numbers):
    """The rules broken by a constant (4.4)."""
    if tag == CLASS:
        text = pool.text(numbers[0])
        bad = text is not None and not (is_class_name(text) or (text.startswith(b"[") and is_field_type(text)))
        return pool.asked(numbers[0], UTF8) | when(22, bad)
    if tag == STRING:
        return pool.asked(numbers[0], UTF8)
    if tag in (FIELD, METHOD, INTERFACE_METHOD):
        return reference_rules(pool, tag, *numbers)
    if tag == NAME_AND_TYPE:
        name, descriptor = (pool.text(it) for it in numbers)
        return (
            pool.asked(numbers[0], UTF8)
            | pool.asked(numbers[1], UTF8)
            | when(22, name is not None and not is_unqualified(name))
            | when(23, descriptor is not None and not is_field_type(descriptor) and not is_method_type(descriptor))
        )
    if tag == METHOD_HANDLE:
        return pool.asked(numbers[0], FIELD, METHOD, INTERFACE_METHOD)
    if tag == METHOD_TYPE:
        text = pool.text(numbers[0])
        return pool.asked(numbers[0], UTF8) | when(23, text is not None and not is_method_type(text))
    if tag in (DYNAMIC, INVOKE_DYNAMIC):
        fits = is_field_type if tag == DYNAMIC else is_method_type
        named = pool.named(numbers[1])
        return (
            pool.asked(numbers[1], NAME_AND_TYPE)
            | when(21, tag == DYNAMIC and major < 55)
            | when(23, named is not None and not fits(named[1]))
        )
    return set()


def reference_rules(pool, tag, owner, name_and_type):
    """The rules broken by a Fieldref, a Methodref or an InterfaceMethodref (4.4.2)."""
    rules = pool.asked(owner, CLASS) | pool.asked(name_and_type, NAME_AND_TYPE)
    if tag != METHOD:
        rules |= when(22, pool.is_array(owner))
    named = pool.named(name_and_type)
    if named is None:
        return rules
    name, descriptor = named
    if tag == FIELD:
        return rules | when(23, not is_field_type(descriptor))
    if tag == METHOD:
        rules |= when(22, name.startswith(b"<") and name != b"<init>")
        rules |= when(23, name == b"<init>" and not descriptor.endswith(b")V"))
    else:
        rules |= when(22, not is_method_name(name))
    return rules | when(23, not is_method_type(descriptor))


def attribute_rules(pool, attributes):
    """The rules broken by attributes: their names, the indices among their numbers, and what Code and Record attributes hold (4.7)."""
    rules = set()
    codes = [it["code"] for it in attributes if it["code"] is not None]
    for it in attributes:
        rules |= pool.asked(it["name"], UTF8)
        for letter, number in it["numbers"]:
            rules |= number_rules(pool, letter, number)
        for name, descriptor, own in it["components"]:
            rules |= pool.asked(name, UTF8) | pool.asked(descriptor, UTF8) | attribute_rules(pool, own)
    for length, catches, nested in codes:
        rules |= attribute_rules(pool, nested)
        for catch in catches:
            rules |= pool.asked(catch, CLASS) if catch else set()
        rules |= when(29, not 1 <= length <= 65535)
        rules |= when(30, sum(it["text"] == b"StackMapTable" for it in nested) > 1)
    once = [it["text"] for it in attributes if it["once"]]
    return rules | when(30, len(codes) > 1 or len(set(once)) < len(once))


# The kinds of constants that each letter of attribute_table.py stands for.
ASKED = {"u": [UTF8], "c": [CLASS], "v": [INTEGER, FLOAT, LONG, DOUBLE, STRING]}


def number_rules(pool, letter, number):
    """The rules broken by a number of an attribute."""
    if letter == "n" or (letter.isupper() and number == 0):
        return set()
    return pool.asked(number, *ASKED[letter.lower()])


def class_rules(pool, file):
    """The rules broken by the class itself (4.1)."""
    flags, this, above = file["flags"], file["this"], file["super"]
    rules = pool.asked(this, CLASS) | attribute_rules(pool, file["attributes"])
    if above:
        rules |= pool.asked(above, CLASS)
    for index in file["interfaces"]:
        rules |= pool.asked(index, CLASS)
    rules |= when(22, any(pool.is_array(it) for it in (this, above, *file["interfaces"])))
    is_interface = flags & 0x0200
    if is_interface:
        bad = not flags & 0x0400 or flags & (0x0010 | 0x0020 | 0x4000)
    else:
        bad = flags & 0x2000 or flags & 0x0410 == 0x0410
    rules |= when(24, bad or flags & 0x8000)
    name, above_name = pool.class_name(this), pool.class_name(above)
    if name is not None:
        rules |= when(28, (above == 0) != (name == b"java/lang/Object"))
    rules |= when(28, is_interface and (above == 0 or above_name not in (None, b"java/lang/Object")))
    return rules


def texts_of(pool, member):
    return pool.text(member["name"]), pool.text(member["descriptor"])


def member_rules(pool, member, earlier):
    """The rules broken by a field, or likewise by a method (4.5, 4.6)."""
    rules = pool.asked(member["name"], UTF8) | pool.asked(member["descriptor"], UTF8)
    texts = texts_of(pool, member)
    return rules | attribute_rules(pool, member["attributes"]) | when(25, None not in texts and texts in earlier)


def has_two_accesses(flags):
    return bin(flags & 0x0007).count("1") > 1


def field_rules(pool, field, earlier):
    flags = field["flags"]
    name, descriptor = texts_of(pool, field)
    return (
        member_rules(pool, field, earlier)
        | when(22, name is not None and not is_unqualified(name))
        | when(23, descriptor is not None and not is_field_type(descriptor))
        | when(24, has_two_accesses(flags) or flags & 0x0050 == 0x0050)
    )


def method_rules(pool, method, earlier, is_interface):
    flags = method["flags"]
    name, descriptor = texts_of(pool, method)
    rules = member_rules(pool, method, earlier)
    init, clinit = name == b"<init>", name == b"<clinit>"
    if name is not None:
        rules |= when(22, is_interface if init else not clinit and not is_method_name(name))
    if name is not None and descriptor is not None:
        fits = is_method_type(descriptor, has_receiver=not flags & 0x0008)
        rules |= when(23, not fits or (init and not descriptor.endswith(b")V")) or (clinit and descriptor != b"()V"))
    if clinit:
        bad = not flags & 0x0008
    else:
        bad = has_two_accesses(flags) or (flags & 0x0400 and flags & (0x0002 | 0x0008 | 0x0010 | 0x0020 | 0x0100))
        bad = bad or (init and flags & (0x0008 | 0x0010 | 0x0020 | 0x0040 | 0x0100 | 0x0400))
    rules |= when(24, bad)
    has_code = any(it["code"] is not None for it in method["attributes"])
    needs_code = clinit or not flags & (0x0100 | 0x0400)
    return rules | when(26, needs_code and not has_code) | when(27, has_code and not needs_code)


def first_fault(file):
    """The first place with a broken rule and the least number there, as `check` prints them; None where there is none."""
    pool = Pool(file["constants"])
    for index, (tag, numbers, _) in sorted(file["constants"].items()):
        rules = constant_rules(pool, file["major"], tag, numbers)
        if rules:
            return f"{min(rules)} pool {index}"
    rules = class_rules(pool, file)
    if rules:
        return f"{min(rules)} class"
    for place, members in (("field", file["fields"]), ("method", file["methods"])):
        earlier = set()
        for number, member in enumerate(members):
            if place == "field":
                rules = field_rules(pool, member, earlier)
            else:
                rules = method_rules(pool, member, earlier, file["flags"] & 0x0200)
            if rules:
                return f"{min(rules)} {place} {number}"
            earlier.add(texts_of(pool, member))
    return None
