"""A class whose methods are the cases of one subject, so that one call of the program shows them beside one another."""
from rows.known import KNOWN
from rows.verify.play import class_of
from tools.assembler import STATIC


class Cases:
    """The methods of the class, which are static and have names of their own, and the lines of `verify`."""

    def __init__(self):
        self.methods, self.lines = [], []

    def add(self, what, descriptor, sizes, code, verdict, body=""):
        """A method with this code, with its max_stack and max_locals, and with a stack map if there is one."""
        name = f"{what} {len(self.methods)}"
        self.methods.append((STATIC, name, descriptor, *sizes, code, *([body] if body else [])))
        self.lines.append(f"method {name} {descriptor} {verdict}")

    def row(self, what):
        """Its name, the files of the class and of the known ones, and the lines."""
        return f"each case of {what}", [class_of("K", *self.methods), *KNOWN], "\n".join(self.lines)
