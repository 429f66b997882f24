"""The three answers, of each class and of all: verified, undecided and refused."""
import collections
import dataclasses

from folders import contents
from judging import NOT_JUDGED, REFUSED, WHOLE, lacking_in, missing_in, refuses
from output import escaped

VERIFIED, UNDECIDED, REFUSED_ANSWER = "verified", "undecided", "refused"
ANSWERS = (VERIFIED, UNDECIDED, REFUSED_ANSWER)
# The status of all classes by the worst of their answers.
STATUS = {VERIFIED: 0, UNDECIDED: 3, REFUSED_ANSWER: 1}
# The line of a file that holds another class, and others without a number; and the one of a version above the greatest that a policy allows.
NO_NUMBER, TOO_NEW = 0, -1
ANOTHER_CLASS = "holds the class "


@dataclasses.dataclass
class Refusal:
    """A line that refuses something. `method` is its name and descriptor; `missing` are the classes that are needed; `explained` are the lines below it.

    `reason` tells why a policy lets it pass, if one does.
    """

    line: str
    number: int
    method: str = ""
    missing: tuple = ()
    explained: list = dataclasses.field(default_factory=list)
    reason: str = ""

    @property
    def is_undecided(self):
        return self.number in NOT_JUDGED

    def sentence(self):
        """The meaning of the number as `explain` has it, or the line itself."""
        head = f"  {self.number} "
        return next((it[len(head) :] for it in self.explained if it.startswith(head)), self.line)


@dataclasses.dataclass
class ClassVerdict:
    """The answers on a class: its entry, the jar or folder of the command line, its name as it is printed, and its file."""

    entry: str
    source: str
    name: str
    file: str
    verified: int = 0
    no_code: int = 0
    refusals: list = dataclasses.field(default_factory=list)

    @property
    def answer(self):
        """The worst of its answers, whatever a policy lets pass."""
        return self.worst(self.refusals)

    @property
    def answer_left(self):
        """The worst of its answers that no policy lets pass."""
        return self.worst([it for it in self.refusals if not it.reason])

    @staticmethod
    def worst(refusals):
        if not refusals:
            return VERIFIED
        return UNDECIDED if all(it.is_undecided for it in refusals) else REFUSED_ANSWER


def refusal_of(line, needs):
    """The refusal that this line is. `needs` has the class that is needed for one that is left out, by their names."""
    method, whole = REFUSED.fullmatch(line), WHOLE.match(line)
    number = int((method or whole or [0, NO_NUMBER])[1])
    lacking = lacking_in(line)
    missing = [lacking] if lacking else [escaped(it) for it in missing_in([line])] if number == 77 else []
    name = line[len("method ") :].rpartition(f" refused {number} ")[0] if method else ""
    return Refusal(line, number, name, tuple(needs.get(it, it) for it in missing))


def read_answer(verdict, answer, needs):
    """Reads the answer on a class, a text and whether a line of it refuses, into its verdict."""
    text, status = answer
    if not status:
        verdict.verified, verdict.no_code = f"{text}\n".count(" verified\n"), f"{text}\n".count(" no code\n")
        return verdict
    for line in text.splitlines():
        if line.startswith("  "):
            verdict.refusals[-1].explained.append(line)
        elif refuses(line):
            verdict.refusals.append(refusal_of(line, needs))
        elif line.endswith(" verified"):
            verdict.verified += 1
        else:
            verdict.no_code += 1
    return verdict


def verdicts_of(judged, answers, needs):
    """The verdicts on all classes of jars and folders, in the order of their entries."""
    return [
        read_answer(ClassVerdict(entry, it.label, escaped(name), file), answers.found[file], needs)
        for it in judged
        for entry, _, name, file in it.entries
    ]


def major_of(file):
    """The major version of a class file, or 0 where it has none."""
    data = contents(file)
    return int.from_bytes(data[6:8], "big")


class Summary:
    """The counts of all verdicts: classes by their answers, methods, those that a policy lets pass, and the classes that are needed."""

    def __init__(self, verdicts):
        self.classes = collections.Counter(it.answer for it in verdicts)
        self.verified = sum(it.verified for it in verdicts)
        self.no_code = sum(it.no_code for it in verdicts)
        refusals = [it for verdict in verdicts for it in verdict.refusals]
        self.methods = collections.Counter(UNDECIDED if it.is_undecided else REFUSED_ANSWER for it in refusals if it.method)
        self.numbers = collections.Counter(it.number for it in refusals)
        self.let_pass = sum(bool(it.reason) for it in refusals)
        self.needed = collections.Counter(name for it in refusals for name in it.missing)
        self.status = max((STATUS[it.answer_left] for it in verdicts), key=[0, 3, 1].index, default=0)

    def needed_most(self, count=10):
        """The classes that are needed most, with how many refusals need each."""
        return sorted(self.needed.items(), key=lambda it: (-it[1], it[0]))[:count]
