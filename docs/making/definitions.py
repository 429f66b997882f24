"""The page of the first sentence of each file of definitions, by whether a reader has to believe it."""
import pathlib
import re

from making.crates import CRATES, crates

LISTED = pathlib.Path(__file__).with_name("believed.txt")
HEAD = """# The definitions, file by file

`docs/make` makes this page of the first sentence of each file of `crates/*/specs`, by the lists of
[believed.txt](making/believed.txt), crate by crate; each crate stands after those on which it depends.
"""
# the lists of a crate, in their order, and the heading of each
KINDS = {
    "believe": "To be believed, in this order",
    "guards": "Laws in other words, which guard some of these",
    "others": "Scaffolding, which connects them with the code",
    "private": "Words of the code's own steps",
}


def sentence(file):
    """The first sentence of the comment with which a file begins; nothing if there is none."""
    lines = file.read_text().splitlines()
    end = next((i for i, line in enumerate(lines) if not line.startswith("-- ")), len(lines))
    text = " ".join(line[3:] for line in lines[:end])
    return re.match(r".*?(?:\.(?= |$)|$)", text)[0].replace("|", "\\|")


def listed():
    """The names in each list of each crate, with what is said of some of them in brackets."""
    found = {}
    for line in LISTED.read_text().splitlines():
        if line and not line.startswith("#"):
            crate, kind, names = re.fullmatch(r"(\w+) (\w+): (.*)", line).groups()
            found.setdefault(crate, {}).setdefault(kind, []).extend(re.findall(r"([\w*/]+)(?: (\([^)]*\)))?", names))
    return found


def files(crate):
    """The files of a crate's definitions, by the paths that the page has; Lib.antt and the file of a folder list others."""
    specs = CRATES / crate / "specs"
    found = [it for it in specs.rglob("*.antt") if it.name != "Lib.antt" and not it.with_suffix("").is_dir()]
    return {str(it.relative_to(specs).with_suffix("")): it for it in sorted(found)}


def parted(there, lists):
    """The paths in each list of a crate, with what is said of some, and the paths that are in none."""
    named = [name for names in lists.values() for name, _ in names]
    rest = [path for path in there if path not in named and not path.startswith("private/")]
    every = [(path, "") for path in rest]
    found = {}
    for kind, names in lists.items():
        found[kind] = [one for name, note in names for one in (every if name == "*" else [(name, note)])]
    found["private"] = [(path, "") for path in there if path.startswith("private/")]
    return found, [] if "*" in named else rest


def faults_of(crate, there, lists, rest):
    """The faults of the lists of a crate, and of its files."""
    named = [name for names in lists.values() for name, _ in names if name != "*"]
    yield from (f"crates/{crate}/specs/{it}.antt: is in no list of docs/making/believed.txt" for it in rest)
    yield from (f"docs/making/believed.txt: {crate}: {it}: there is no such file" for it in named if it not in there)
    yield from (f"docs/making/believed.txt: {crate}: {it} stands twice" for it in set(named) if named.count(it) > 1)
    for path, file in there.items():
        if not sentence(file).endswith("."):
            yield f"crates/{crate}/specs/{path}.antt: does not begin with a sentence"


def strangers(lists):
    """The faults of lists of no crate, or of no kind."""
    known = crates()
    for crate, kinds in lists.items():
        yield from [] if crate in known else [f"docs/making/believed.txt: {crate}: there is no such crate"]
        wrong = [kind for kind in kinds if kind not in KINDS or kind == "private"]
        yield from (f"docs/making/believed.txt: {crate}: {kind}: there is no such list" for kind in wrong)


def page():
    """The page, the number of its rows, and the faults."""
    parts, count, lists = [HEAD], 0, listed()
    faults = list(strangers(lists))
    for crate in crates():
        there, of_crate = files(crate), lists.get(crate, {})
        kinds, rest = parted(there, of_crate)
        faults += sorted(faults_of(crate, there, of_crate, rest))
        parts += [f"\n## {crate}\n"] if there else []
        for kind in KINDS:
            rows = [(path, note) for path, note in kinds.get(kind, ()) if path in there]
            parts += [f"\n| {KINDS[kind]} | What it says |\n|---|---|\n"] if rows else []
            parts += [f"| `{path}`{note and ' '}{note} | {sentence(there[path])} |\n" for path, note in rows]
            count += len(rows)
    return "".join(parts), count, faults
