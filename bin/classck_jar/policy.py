"""The policy of a build: classes that may be missing, and refusals that are allowed for a reason."""
import dataclasses
import json
import os
import re
import tempfile

from output import Refused, escaped, reason
from program import RELEASES

from classck_jar.verdicts import ANOTHER_CLASS, TOO_NEW, Refusal, major_of

KEYS = {"absent", "dynamic", "release", "greatest_major", "allowed"}
ENTRY_KEYS = {"class", "method", "number", "reason"}
# The most bytes of a policy.
MOST = 1 << 24
BASELINE = "in the baseline"
# A longer name is no class of a library; and so many wildcards take a moment for one of this length.
MOST_NAME, MOST_WILDCARDS = 1000, 3


@dataclasses.dataclass(frozen=True)
class Allowed:
    """A refusal that is let pass: of this class, this number and, where it says so, this method; by their names as they are printed."""

    name: str
    number: int
    method: str
    reason: str

    def __str__(self):
        return f"{self.name} {self.method or 'any method'} {self.number}" if self.method else f"{self.name} {self.number}"


def pattern_of(text, path):
    """A pattern of names of classes: ** stands for anything, * for anything but the end of a package's name."""
    parts = re.split(r"(\*\*|\*)", text.replace(".", "/"))
    checked(len(parts) // 2 <= MOST_WILDCARDS, path, f"a pattern has {MOST_WILDCARDS} wildcards at most: {escaped(text)}")
    return re.compile("".join({"**": ".*", "*": "[^/]*"}.get(it, re.escape(it)) for it in parts))


def checked(is_right, path, what):
    if not is_right:
        raise Refused(f"{escaped(path)}: {what}")


def entry_of(found, path):
    """The entry of `allowed` that a policy has as this table."""
    is_table = isinstance(found, dict) and set(found) <= ENTRY_KEYS
    checked(is_table, path, f"each of `allowed` is a table of {', '.join(sorted(ENTRY_KEYS))}")
    name, number, method, why = (found.get(it) for it in ("class", "number", "method", "reason"))
    checked(isinstance(name, str) and name, path, "each of `allowed` has a `class`")
    checked(type(number) is int and number >= 0, path, f"`allowed` of {escaped(name)} has no `number`")
    checked(isinstance(why, str) and why.strip(), path, f"`allowed` of {escaped(name)} has no `reason`")
    checked(method is None or isinstance(method, str), path, f"`method` of {escaped(name)} is no text")
    # The path of an entry may hold a dot; where there is no slash, dots are those between the names of packages.
    return Allowed(name if "/" in name else name.replace(".", "/"), number, method or "", why)


def toml_of(text, path):
    """The table that a text of TOML has."""
    try:
        import tomllib
    except ImportError as why:
        raise Refused(f"{escaped(path)}: TOML is read by Python 3.11 and later: write JSON") from why
    return tomllib.loads(text)


class Policy:
    """A policy as a file has it. `used` has the entries and patterns that something needed."""

    def __init__(self, path="", found=None):
        found = found or {}
        self.path, self.used = path, set()
        lacking = sorted(set(found) - KEYS)
        checked(not lacking, path, f"a policy has {', '.join(sorted(KEYS))}, and not {escaped(', '.join(lacking))}")
        self.absent, self.dynamic, self.greatest_major = found.get("absent", []), found.get("dynamic", False), found.get("greatest_major")
        checked(isinstance(self.absent, list) and all(isinstance(it, str) and it for it in self.absent), path, "`absent` is a list of patterns")
        checked(isinstance(self.dynamic, bool), path, "`dynamic` is true or false")
        self.release = found.get("release")
        checked(self.release is None or type(self.release) is int and self.release in RELEASES, path, f"`release` is a number of {RELEASES[0]} to {RELEASES[-1]}")
        checked(self.greatest_major is None or type(self.greatest_major) is int, path, "`greatest_major` is a number")
        entries = found.get("allowed", [])
        checked(isinstance(entries, list), path, "`allowed` is a list of tables")
        self.allowed = [entry_of(it, path) for it in entries]

    @staticmethod
    def read(path):
        """The policy in a file of TOML or JSON."""
        try:
            with open(path, "rb") as it:
                data = it.read(MOST + 1)
            checked(len(data) <= MOST, path, "a policy has 16 MB at most")
            text = data.decode()
            found = toml_of(text, path) if path.endswith(".toml") else json.loads(text)
        except (OSError, ValueError, RecursionError) as why:
            raise Refused(f"{escaped(path)}: {reason(why)}") from why
        checked(isinstance(found, dict), path, "a policy is a table")
        return Policy(path, found)

    def apply(self, verdicts, more_absent):
        """Refuses the classes above the greatest version, and gives each refusal that is let pass its reason."""
        patterns = [(it, pattern_of(it, self.path)) for it in self.absent] + [(it, pattern_of(it, "--absent")) for it in more_absent]
        by_class = {}
        for it in self.allowed:
            by_class.setdefault(it.name, []).append(it)
        for verdict in verdicts:
            self.refuse_major(verdict)
            for it in verdict.refusals:
                it.reason = self.allows(by_class.get(verdict.name, ()), it) or self.may_be_absent(patterns, it)

    def refuse_major(self, verdict):
        if self.greatest_major is not None:
            major = major_of(verdict.file)
            line = f"has major version {major}, and the policy allows {self.greatest_major}"
            # The policy is applied once more after a baseline is written.
            if major > self.greatest_major and all(it.line != line for it in verdict.refusals):
                verdict.refusals.append(Refusal(line, TOO_NEW))

    def allows(self, entries, refusal):
        """The reason of the first of these entries that allows the refusal, or nothing. All that allow it are used."""
        is_own = refusal.number > 0 or refusal.line.startswith(ANOTHER_CLASS)
        found = [it for it in entries if is_own and it.number == refusal.number and it.method in ("", refusal.method)]
        self.used.update(found)
        return found[0].reason if found else ""

    def may_be_absent(self, patterns, refusal):
        """Why all classes that a refusal misses may be absent, or nothing."""
        found = [[text for text, it in patterns if len(name) <= MOST_NAME and it.fullmatch(name)] for name in refusal.missing]
        if not found or not all(found):
            return ""
        self.used.update(text for it in found for text in it)
        return "may be absent"

    def unused(self):
        """The entries and patterns of the file that nothing needed, as lines."""
        lines = [f"nothing needs `allowed` of {escaped(str(it))} ({escaped(it.reason)})" for it in self.allowed if it not in self.used]
        return lines + [f"nothing needs `absent` {escaped(it)}" for it in self.absent if it not in self.used]

    def with_baseline(self, verdicts):
        """The policy with an entry for all that it does not let pass yet, and without those that nothing needs, as a table."""
        absent = [it for it in self.absent if it in self.used]
        allowed = [it for it in self.allowed if it in self.used]
        for verdict in verdicts:
            for it in verdict.refusals:
                # A name may hold a *, which would stand for others in a pattern.
                if not it.reason and it.missing and "*" not in "".join(it.missing):
                    absent += [name for name in it.missing if name not in absent]
                elif not it.reason and it.number != TOO_NEW:
                    allowed.append(Allowed(verdict.name, it.number, it.method, BASELINE))
        table = {"absent": sorted(set(absent)), "allowed": [table_of(it) for it in dict.fromkeys(allowed)]}
        kept = {"dynamic": self.dynamic or None, "release": self.release, "greatest_major": self.greatest_major}
        return {**{key: it for key, it in kept.items() if it is not None}, **table}


def table_of(entry):
    method = {"method": entry.method} if entry.method else {}
    return {"class": entry.name, **method, "number": entry.number, "reason": entry.reason}


def mode_of(path):
    """The mode of a file, or that of a new one."""
    if os.path.exists(path):
        return os.stat(path).st_mode & 0o777
    mask = os.umask(0)
    os.umask(mask)
    return 0o666 & ~mask


def may_be_written(path):
    """Refuses a file into which no baseline is written."""
    checked(not path.endswith(".toml"), path, "a baseline is written as JSON: give the policy another name")


def write(path, table):
    """Writes a policy as JSON, whole or not at all."""
    try:
        with tempfile.TemporaryDirectory(dir=os.path.dirname(os.path.abspath(path)), prefix=".policy-") as room:
            with open(f"{room}/policy", "w", encoding="ascii") as it:
                it.write(json.dumps(table, indent=2) + "\n")
            os.chmod(it.name, mode_of(path))
            os.replace(it.name, path)
    except OSError as why:
        raise Refused(f"{escaped(path)} cannot be written: {reason(why)}") from why
