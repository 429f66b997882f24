"""The output of the scripts: names with escapes, faults of a command line, and a quiet end where nobody reads on."""
import argparse
import os
import re
import sys

# They are compiled where they are needed.
UNPRINTED, CONTROL, UNIT = r"[^ -\[\]-~]", r"[^ -~]", r"\\u([0-9a-f]{4})"


class Refused(Exception):
    """Why there is no answer: a jar, a folder or a file that cannot be read, or more than one process can judge."""


def escape(found):
    """The escapes of a character: one for each unit of UTF-16; of a byte that is not UTF-8, which Python keeps as a unit of its own, two digits."""
    code = ord(found[0])
    if 0xDC80 <= code <= 0xDCFF:
        return f"\\x{code - 0xDC00:02x}"
    units = [code] if code < 0x10000 else [0xD7C0 + (code >> 10), 0xDC00 + (code & 0x3FF)]
    return "".join(f"\\u{it:04x}" for it in units)


def escaped(name):
    """The name as the program prints names: printable ASCII as it is, the backslash and all else with escapes."""
    name = str(name)
    is_plain = name.isascii() and name.isprintable() and "\\" not in name
    return name if is_plain else re.sub(UNPRINTED, escape, name)


def printable(line):
    """A line that has its escapes already, with escapes for all that may not stand in a line."""
    return re.sub(CONTROL, escape, line)


def unescaped(text):
    """The name that the program prints as this text. Two units that are a pair are one character."""
    if "\\" not in text:
        return text
    return joined(re.sub(UNIT, lambda it: chr(int(it[1], 16)), text))


def joined(text):
    """The text with each pair of surrogates as one character."""
    return text.encode("utf-16-le", "surrogatepass").decode("utf-16-le", "surrogatepass")


def reason(why):
    """The reason of an exception, with escapes; of one of the system without the name of the file, which stands elsewhere."""
    return escaped(getattr(why, "strerror", None) or why)


def formatter(prog):
    """The formatter of `argparse` for a terminal, whose width it would find by `shutil`, which takes long to load."""
    width = os.environ.get("COLUMNS", "")
    try:
        columns = int(width) if width.isdecimal() and int(width) else os.get_terminal_size(sys.__stdout__.fileno()).columns
    except (AttributeError, ValueError, OSError):
        columns = 0
    return argparse.HelpFormatter(prog, width=(columns or 80) - 2)


class Parser(argparse.ArgumentParser):
    """Reads a command line; what it says of a wrong one has escapes."""

    def __init__(self, **words):
        super().__init__(formatter_class=formatter, **words)

    def error(self, message):
        self.print_usage(sys.stderr)
        self.exit(2, f"{escaped(self.prog)}: error: {escaped(message)}\n")


def say(line):
    """Prints a line on standard error, where there is such."""
    if sys.stderr:
        print(line, file=sys.stderr)


def run(main):
    """Ends with the status of `main`: with 2 where the answer cannot be written, and without a word where a closed pipe is why."""
    try:
        status = main()
        if sys.stdout:
            sys.stdout.flush()
    except BrokenPipeError:
        status = 2
    except KeyboardInterrupt:
        status = 130
    except Refused as why:
        say(why)
        status = 2
    except OSError as why:
        say(f"no answer: {reason(why)}")
        status = 2
    give_up_output()
    # All is closed and removed by now: to free the memory takes as long as to read the command line.
    os._exit(status)


def give_up_output():
    """Writes what is left of the output where that is possible, so that the end of Python has nothing to write."""
    try:
        if sys.stdout:
            sys.stdout.flush()
    except OSError:
        os.dup2(os.open(os.devnull, os.O_WRONLY), sys.stdout.fileno())
