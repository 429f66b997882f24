"""The command line of classck-jar, and what is begun before all else is loaded."""
import contextlib
import os
import sys

from output import Parser
from program import MOST_CLASSES, RELEASES, Profile, begin_build, end_build

from classck_jar import cache
from classck_jar.ahead import Ahead

FORMATS = ("text", "json", "sarif", "junit")
STANDARD_INPUT = "-"


def end(number, _):
    """Ends the process by a signal, so that its folders are removed."""
    sys.exit(128 + number)


def end_by_signals():
    """Has signals end the process so, before it makes a folder."""
    import signal

    for it in (signal.SIGTERM, signal.SIGHUP):
        signal.signal(it, end)


def bytes_of(word):
    """A number of bytes."""
    number = int(word)
    if not 0 < number <= MOST_CLASSES:
        raise ValueError(word)
    return number


def arguments(usage):
    parser = Parser(usage=usage, prog="classck-jar")
    for it in ("--dynamic", "--explain", "--nested", "--quiet", "--baseline"):
        parser.add_argument(it, action="store_true")
    for it in ("--jdk", "--policy"):
        parser.add_argument(it)
    for it in ("--classpath", "--absent"):
        parser.add_argument(it, action="append", default=[])
    parser.add_argument("--format", choices=FORMATS, default="text")
    parser.add_argument("--release", metavar="N", type=int, choices=RELEASES)
    parser.add_argument("--most-bytes", type=bytes_of, default=MOST_CLASSES)
    parser.add_argument("judged", metavar="JAR|FOLDER|-", nargs="+")
    given = parser.parse_args()
    if given.baseline and not given.policy:
        parser.error("--baseline needs --policy FILE, into which it is written")
    if given.judged.count(STANDARD_INPUT) > 1:
        parser.error("there is one standard input")
    return given


class Progress:
    """Says on a terminal how far it is, in one line that is written anew."""

    def __init__(self, is_quiet):
        self.is_shown = not is_quiet and sys.stderr is not None and sys.stderr.isatty()
        self.is_quiet, self.is_begun = is_quiet, False

    def step(self, words):
        if self.is_shown:
            sys.stderr.write(f"\r\x1b[K{words}")
            sys.stderr.flush()
            self.is_begun = True

    def say(self, words):
        """Says something that is no step: in a pipe too."""
        if not self.is_quiet and sys.stderr:
            self.done()
            print(f"classck-jar: {words}", file=sys.stderr, flush=True)

    def done(self):
        if self.is_begun:
            sys.stderr.write("\r\x1b[K")
            self.is_begun = False


def begun(given, profile):
    """The call that is begun as an earlier one ended: where a JDK is given, whose classes are in the cache, and nothing but jars is judged."""
    if given.jdk is None or given.nested or not os.path.isfile(f"{given.jdk}/lib/modules"):
        return Ahead()
    keys = [cache.key_of_jar(it) for it in given.judged]
    if None in keys:
        return Ahead()
    known = [f"{given.jdk}/lib/modules", *(it for paths in given.classpath for it in paths.split(os.pathsep))]
    key = cache.sum_of(profile, os.getcwd(), [(it, cache.size_and_time(it)) for it in known], keys)
    found = Ahead(f"{cache.top()}/call-{key}")
    found.begin()
    return found


def policy_of(given):
    """The policy of the command line, if it names one; with --baseline one that is not there yet has nothing."""
    if not given.policy:
        return None
    from classck_jar import policy

    if given.baseline:
        policy.may_be_written(given.policy)
    is_there = os.path.exists(given.policy) or not given.baseline
    return policy.Policy.read(given.policy) if is_there else policy.Policy(given.policy)


def main(usage):
    """Judges all, prints the report, and returns the status."""
    given = arguments(usage)
    progress, chosen = Progress(given.quiet), policy_of(given)
    profile = Profile(given.dynamic or bool(chosen and chosen.dynamic), given.release or (chosen and chosen.release))
    with contextlib.ExitStack() as room:
        room.callback(progress.done)
        ahead = room.enter_context(begun(given, profile))
        end_by_signals()
        build = begin_build()
        room.callback(end_build, build)
        # Loaded while the program works.
        from classck_jar.gate import Gate

        return Gate(given, profile, ahead, room, progress).run(chosen, build)
