"""All classes that a rule of a release is about, or a neighbour of one, in several versions."""
from rows.check.release.attributes import attributes
from rows.check.release.bootstraps import bootstraps_of_classes
from rows.check.release.by_version import by_version, classes
from rows.check.release.constants import constants
from rows.check.release.members import members
from rows.check.release.order import order
from rows.check.release.tables import tables

CASES = (members, constants, attributes, order, tables, bootstraps_of_classes)


def of_releases():
    """A name for each row, the command, the file, and the line that is printed."""
    for cases in CASES:
        for case in cases():
            yield from by_version(case)


def in_versions(newest):
    """A name for each class, its bytes, and the line of a release that takes it, up to a version."""
    for cases in CASES:
        for case in cases():
            yield from classes(case, newest)
