"""libclassck as the scripts call it: by ctypes, in one process."""
import ctypes
import itertools

COMMANDS = {it: number for number, it in enumerate(("check", "show", "verify", "explain", "play", "verify-each"), 1)}
OPTIONS = {"--json": 1, "--dynamic": 2}
RELEASE = 256
UNTOUCHED = 0xA5


def options_of(words):
    """The sum of the options that these words are."""
    words = iter(words)
    return sum(RELEASE * int(next(words)) if it == "--release" else OPTIONS[it] for it in words)


class Request(ctypes.Structure):
    _fields_ = [("command", ctypes.c_uint32), ("options", ctypes.c_uint32), ("classes", ctypes.c_size_t), ("seed", ctypes.c_uint64)]


class Outcome(ctypes.Structure):
    _fields_ = [("status", ctypes.c_uint32), ("needed", ctypes.c_size_t)]


class Library:
    """The shared library of this path."""

    def __init__(self, path):
        self.call = ctypes.CDLL(str(path)).classck_answer
        self.call.restype = None
        pointer, number = ctypes.c_void_p, ctypes.c_size_t
        self.call.argtypes = [ctypes.POINTER(Request), ctypes.c_char_p, number, pointer, number, pointer, number, ctypes.POINTER(Outcome)]

    def ask(self, request, data, ends, room):
        """The status, how long the text is, and what stands in the room then, and in 16 bytes behind it, which are the library's no more."""
        text = (ctypes.c_ubyte * (room + 16))(*itertools.repeat(UNTOUCHED, room + 16))
        outcome = Outcome(77, 77)
        self.call(request, data, len(data), (ctypes.c_uint32 * len(ends))(*ends), len(ends), text, room, outcome)
        return outcome.status, outcome.needed, bytes(text)

    def answer(self, words, files, known=()):
        """The text and the status that answer the words of a command, with its options, about files."""
        everything = [*files, *known]
        classes = {"play": len(everything), "verify-each": len(files)}.get(words[0], 1)
        request = Request(COMMANDS[words[0]], options_of(words[1:]), classes, 0x0123456789ABCDEF)
        data, ends = b"".join(everything), list(itertools.accumulate(map(len, everything)))
        outcome, room = Outcome(77, 0), 4096
        while True:
            text = ctypes.create_string_buffer(room)
            self.call(request, data, len(data), (ctypes.c_uint32 * len(ends))(*ends), len(ends), text, room, outcome)
            if outcome.needed <= room:
                return text.raw[:outcome.needed].decode(), outcome.status
            room = outcome.needed
