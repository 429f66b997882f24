"""The crates, in the order of crates.txt."""
import pathlib

TOP = pathlib.Path(__file__).resolve().parents[2]
CRATES = TOP / "crates"


def crates():
    """The names of the crates: each stands after those on which it depends."""
    return [line.split(":")[0].split()[0] for line in (TOP / "crates.txt").read_text().splitlines() if ":" in line]
