"""Command lines, and what the program says of each: its texts are those of docs/REFUSALS.md and the README, and for a wrong line
the first that `clap` has."""
import re

from tools.assembler import named
from tools.class_k import K, OBJECT_CLASS
from tools.places import TOP

# The files that stand in the folder in which the program runs.
FILES = {"K": K.data(), "O": OBJECT_CLASS, "A": named("A").data(), "-a": K.data()}
# The toolchain by which the README says that all is proved.
TOOLCHAIN = re.search(r"`(logic \w+ \(rattle-kit[^)]*\))`", (TOP / "README.md").read_text()).group(1)
MISSING = "error: the following required arguments were not provided:"

# The words after the program's name, the first line that is printed, and the status.
LINES = [
    ("check K", "ok", 0),
    ("check -- -a", "ok", 0),
    ("check --json K", '{"kind":"file","answer":"ok"}', 0),
    ("check K --json", '{"kind":"file","answer":"ok"}', 0),
    ("verify K --json O", '{"kind":"method","name":"f","descriptor":"()V","answer":"verified"}', 0),
    ("check --json .", '{"kind":"file","answer":"refused","number":15,"at":0}', 2),
    ("show --json K", "error: unexpected argument '--json' found", 2),
    ("play --json K O", '{"kind":"play","answer":"verified"}', 0),
    ("verify-each --json K --known O", '{"kind":"file","position":1,"name":"K"}', 0),
    ("verify-each K --known O --json --json", "error: the argument '--json' cannot be used multiple times", 2),
    ("check --json --json K", "error: the argument '--json' cannot be used multiple times", 2),
    ("check --json", MISSING, 2),
    ("verify --dynamic K --json O", '{"kind":"method","name":"f","descriptor":"()V","answer":"verified"}', 0),
    ("play --dynamic K O", "play verified", 0),
    ("check --dynamic K", "error: unexpected argument '--dynamic' found", 2),
    ("verify --dynamic --dynamic K", "error: the argument '--dynamic' cannot be used multiple times", 2),
    ("explain K O", "", 0),
    ("explain --dynamic K O A", "", 0),
    ("explain K A", "hierarchy refused 42 K", 1),
    ("explain .", "class refused 15 at 0", 2),
    ("explain K .", "known 1 refused 15 at 0", 2),
    ("explain K missing", "file 2 cannot be opened", 2),
    (
        "explain --json K A",
        '{"kind":"hierarchy","answer":"refused","number":42,"name":"K",'
        '"sentence":"SuperMissing: the superclass of the class is not among the files"}',
        1,
    ),
    ("explain --json --dynamic K O A", "", 0),
    (
        "explain --json .",
        '{"kind":"class","answer":"refused","number":15,"at":0,"sentence":"ReadFailed: the file could not be read on from there"}',
        2,
    ),
    ("explain --json --json K", "error: the argument '--json' cannot be used multiple times", 2),
    ("verify K O A", "method f ()V verified", 0),
    ("verify K A", "hierarchy refused 42 K", 1),
    ("play K O A", "play verified", 0),
    ("play K", "hierarchy refused 42 K", 1),
    ("verify-each K A --known O", "file 1 K", 0),
    ("verify-each --known O A -- K", "file 1 K", 0),
    ("verify-each --known O --known A -- -a", "file 1 K", 0),
    ("verify-each K O", "file 1 K", 0),
    ("verify-each K", "hierarchy refused 43", 1),
    ("check --release 21 K", "ok", 0),
    ("show K --release 17", "class K major 52 minor 0 flags 0021", 0),
    ("verify --release 7 K O", "class refused 11 52.0", 1),
    ("verify --dynamic --release 27 --json K O", '{"kind":"method","name":"f","descriptor":"()V","answer":"verified"}', 0),
    ("verify-each --release 17 K --known O", "file 1 K", 0),
    ("check --release 6 K", "error: invalid value '6' for '--release <N>': 6 is not in 7..=27", 2),
    ("check --release 28 K", "error: invalid value '28' for '--release <N>': 28 is not in 7..=27", 2),
    ("check --release K", "error: invalid value 'K' for '--release <N>': invalid digit found in string", 2),
    ("check K --release", "error: a value is required for '--release <N>' but none was supplied", 2),
    ("play K O --release 17 --release 17", "error: the argument '--release <N>' cannot be used multiple times", 2),
    ("check missing", "file 1 cannot be opened", 2),
    ("verify K O missing A", "file 3 cannot be opened", 2),
    ("play K missing", "file 2 cannot be opened", 2),
    ("verify-each K --known O missing", "file 3 cannot be opened", 2),
    ("verify-each --known missing -- K", "file 2 cannot be opened", 2),
    # a folder among those that are judged
    ("verify-each . --known O", "file 1", 2),
    # a folder is opened, and not read
    ("check .", "refused 15 at 0", 2),
    ("check", MISSING, 2),
    ("verify", MISSING, 2),
    ("explain", MISSING, 2),
    ("play", MISSING, 2),
    ("verify-each", MISSING, 2),
    ("verify-each --known O", MISSING, 2),
    ("verify-each K --known", "error: a value is required for '--known <KNOWN>...' but none was supplied", 2),
    ("", "error: 'classck' requires a subcommand but one was not provided", 2),
    ("check K O", "error: unexpected argument 'O' found", 2),
    ("judge K", "error: unrecognized subcommand 'judge'", 2),
    # help and the version
    ("--version", f"classck 0.9, proved with {TOOLCHAIN}", 2),
    ("-V", f"classck 0.9, proved with {TOOLCHAIN}", 2),
    ("--help", "Verifies Java class files by type checking", 2),
    ("check --help", "Prints `ok`, or `refused` with the number of the first fault and its place", 2),
    ("help show", "Prints what a class file holds, and of each method with code its instructions", 2),
    ("verify -h", "Prints the verdict on each method of a class", 2),
    ("explain -h", "Prints each method of a class that is refused, and why", 2),
    ("play -h", "Prints whether all methods of classes that run together are verified", 2),
    ("verify-each -h", "Prints the verdict on each method of each of many classes", 2),
]
