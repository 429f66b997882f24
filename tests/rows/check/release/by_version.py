"""A class in several versions, and what `classck check` says of each with `--release` and without it."""
from dataclasses import dataclass, replace

from tools.assembler import ClassFile

RELEASES = (7, 17, 21, 25)
# The versions in which a class is tried if its case names no others.
MAJORS = (50, 51, 52, 60, 61, 65, 69)


@dataclass(frozen=True)
class Case:
    """A class, and the line of it from each of some versions on; below the first of them it is `ok`.

    The line without a release is the last one, which is the same in each version."""

    what: str
    file: ClassFile
    lines: dict
    plain: str = "ok"
    majors: tuple = MAJORS


def line_of(lines, major):
    """The line of the greatest version that is not above this one."""
    return ([line for first, line in sorted(lines.items()) if first <= major] or ["ok"])[-1]


def releases_of(major):
    """The first release that takes a class of this version, and for two of the versions the last one too."""
    given = [it for it in RELEASES if major <= it + 44]
    return sorted({given[0], given[-1]}) if major in (50, 61) else given[:1]


def classes(case, newest=MAJORS[-1]):
    """The class of a case in each of its versions: what it is, its bytes, and the line of a release."""
    for major in (it for it in case.majors if it <= newest):
        yield f"{case.what} in version {major}", replace(case.file, major=major).data(), line_of(case.lines, major)


def by_version(case):
    """The rows of a case: what it is, the command, the file, and the line that is printed."""
    for what, data, line in classes(case):
        for release in releases_of(data[7]):
            yield what, f"check --release {release}", [data], line
        if 51 <= data[7] <= 61:
            yield what, "check", [data], case.plain
