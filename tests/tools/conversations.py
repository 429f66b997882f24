"""A model of `classck serve`: the replies to messages, by what the program's other commands answer about files."""
import collections
import functools
import hashlib
import json
import re
import struct
import subprocess

OBJECT = "java/lang/Object"
ARRAY_INTERFACES = ("java/lang/Cloneable", "java/io/Serializable")
INTERFACE = 0x0200
HEAD = re.compile(r"class (?P<name>.*) major \d+ minor \d+ flags (?P<flags>[0-9a-f]{4})\nsuper (?P<above>.*)\n")
# The most bytes that a message has behind its kind and its length.
MOST = 16_777_216
COMMANDS = {b"v": "verify", b"d": "verify", b"x": "explain"}
FORGET, KNOWN = b"f", b"k"

Reply = collections.namedtuple("Reply", "status text")


def message(kind, data=b""):
    """The bytes of a message."""
    return kind + struct.pack(">I", len(data)) + data


class Known(collections.namedtuple("Known", "data name above is_interface")):
    """A class that is known or judged: its file, its name and that of its superclass as they are printed, and whether it is an interface."""

    def is_root(self):
        return self.name == OBJECT and not self.is_interface and self.above is None

    def onward(self):
        """The name of the superclass, where no rule of hierarchies is broken."""
        is_array_class = self.name in ARRAY_INTERFACES and not self.is_interface
        return None if is_array_class or self.is_interface and self.above != OBJECT else self.above


def stands(classes, it):
    """Whether the superclasses of a class, among these by their names, lead to java/lang/Object."""
    seen = set()
    while it and not it.is_root() and it.name not in seen:
        seen.add(it.name)
        it = classes.get(it.onward())
    return it is not None and it.is_root()


class Program:
    """The program's answers about files with some options; each question is asked once."""

    def __init__(self, program, folder, dynamic=False, release=None, is_json=False):
        self.program, self.folder, self.is_json = program, folder, is_json
        self.form = [*(["--release", str(release)] if release else []), *(["--json"] if is_json else [])]
        self.words = [*(["--dynamic"] if dynamic else []), *self.form]
        self.ask = functools.cache(self.ask)
        self.class_of = functools.cache(self.class_of)

    def file(self, data):
        """A file that holds these bytes."""
        path = self.folder / f"{hashlib.sha256(data).hexdigest()[:20]}.class"
        if not path.exists():
            path.write_bytes(data)
        return path

    def ask(self, command, *files):
        """What a command prints of files, and its status."""
        words = {"show": self.form[:2] if "--release" in self.form else [], "check": self.form}.get(command, self.words)
        done = subprocess.run([self.program, command, *words, *map(self.file, files)], stdout=subprocess.PIPE, stderr=subprocess.PIPE, check=False)
        if done.returncode not in (0, 1) or done.stderr:
            raise SystemExit(f"{self.program} {command}: status {done.returncode}: {done.stderr.decode(errors='replace')}")
        return Reply(done.returncode, done.stdout.decode())

    def class_of(self, data):
        """The class that a file holds; None where it is not well formed."""
        if self.ask("check", data).status:
            return None
        it = HEAD.match(self.ask("show", data).text)
        return Known(data, it["name"], None if it["above"] == "none" else it["above"], bool(int(it["flags"], 16) & INTERFACE))

    def refused_known(self, data):
        """The reply to a class that is not well formed, and so does not become known."""
        status, text = self.ask("check", data)
        return Reply(status, text.replace('"file"', '"known"', 1) if self.is_json else f"known {text}")

    def known_twice(self):
        """The reply to a class of which the name is known."""
        words = {"kind": "known", "answer": "refused", "number": 40}
        return Reply(1, told(words) if self.is_json else "known refused 40\n")

    def now_known(self, it):
        """The reply to a class that becomes known."""
        words = {"kind": "known", "answer": "ok", "name": it.name, **({"super": it.above} if it.above else {})}
        return Reply(0, told(words) if self.is_json else f"known {it.name} super {it.above or 'none'}\n")


def told(words):
    """An object as `--json` prints it. The names are escaped already, but for quotation marks."""
    return json.dumps(words, separators=(",", ":")).replace(r"\\u", r"\u").replace(r"\"", r"\u0022") + "\n"


class Conversation:
    """The state of one conversation: the known classes, in the order in which they came."""

    def __init__(self, program):
        self.program, self.known = program, []

    def reply(self, kind, data=b""):
        """The reply to a message; the state goes on."""
        if kind == FORGET:
            self.known = []
            return Reply(0, "")
        if kind == KNOWN:
            return self.add(data)
        found = self.program.ask(COMMANDS[kind], data, *self.beside(data))
        if kind == b"d" and found.status == 0:
            self.define(self.program.class_of(data))
        return found

    def add(self, data):
        """The reply to a class that is to become known."""
        it = self.program.class_of(data)
        if it is None:
            return self.program.refused_known(data)
        if any(other.name == it.name for other in self.known):
            return self.program.known_twice()
        self.known.append(it)
        return self.program.now_known(it)

    def define(self, it):
        """Makes a class known, in place of one of its name."""
        self.known = [*(other for other in self.known if other.name != it.name), it]

    def beside(self, data):
        """The files of the known classes among which a class is judged: those of other names that stand, where its own chain counts."""
        judged = self.program.class_of(data)
        others = [it for it in self.known if judged is None or it.name != judged.name]
        classes = {it.name: it for it in ([judged] if judged else []) + others}
        return [it.data for it in others if stands(classes, it)]


def replies(program, messages):
    """The replies to messages, each a kind and bytes, from a beginning without known classes."""
    it = Conversation(program)
    return [it.reply(*each) for each in messages]


def encoded(reply):
    """The bytes of a reply."""
    return struct.pack(">BI", reply.status, len(reply.text)) + reply.text.encode("ascii")


def answer(program, stream, known=()):
    """What is written of a whole input, and the status, after these classes are known."""
    state, output, at = Conversation(program), b"", 0
    for data in known:
        state.add(data)
    while at < len(stream):
        kind, length = stream[at : at + 1], int.from_bytes(stream[at + 1 : at + 5], "big")
        end = at + 5 + length
        if kind not in (*COMMANDS, FORGET, KNOWN) or length > MOST or len(stream) < max(at + 5, end):
            return output, 2
        output += encoded(state.reply(kind, stream[at + 5 : end]))
        at = end
    return output, 0
