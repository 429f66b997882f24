"""The page of the public items of each library: docstring, head and clauses of each."""
import re

from making.crates import CRATES, crates

HEAD = """# Contracts

`docs/make` makes this page of the public items of each library: the docstring of each, its head, and of a function the
clauses that it is proved to meet. [ARCHITECTURE.md](ARCHITECTURE.md#how-a-contract-is-read) says how a clause is read.
The clauses of a law are names of statements: `tests/pages/laws.txt` has these in full. A number in a docstring is a
refusal ([REFUSALS.md](REFUSALS.md)).
"""
KINDS = r"(?:const |unsafe |extern \"C\" )*(?P<kind>fn|struct|enum|trait|const|static|type)"
ITEM = re.compile(rf"pub {KINDS} (?P<name>\w+)")
METHOD = re.compile(r"    (?P<pub>pub )?(?:const )?fn (?P<name>\w+)")
OWNER = re.compile(
    r"(?:impl(?:<.*?>)? |pub trait )(?:\w+::)*(?P<name>\w+)(?:<[^{]*>)?(?:: [\w +]+)?(?:\s*where [^{]*)? ?\{"
)
USE = re.compile(r"^pub(\(crate\))? use (?:crate::|self::)?([\w:]+?)::(?:\{([^}]*)\}|(\w+));", re.M)
MODULE = re.compile(r"^pub mod (\w+);", re.M)
# the lines of an enum that is shown by its head alone
MANY = 200


class Source:
    """The files of a crate's src, each with its lines."""

    def __init__(self, crate):
        self.folder = CRATES / crate / "src"
        self.lines = {it: it.read_text().splitlines() for it in sorted(self.folder.rglob("*.rt"))}

    def file(self, *names):
        """The file of a module."""
        return self.folder.joinpath(*names).with_suffix(".rt")

    def text(self, file):
        """The text of a file."""
        return "\n".join(self.lines[file]) + "\n"


def docstring(lines, at):
    """The lines of the docstring in front of the line at a place, without those of attributes between."""
    found, inside = [], False
    for line in reversed(lines[:at]):
        bare = line.strip()
        if bare.startswith("///"):
            found.append(bare[3:].strip())
        elif bare.startswith("#["):
            inside = False
        elif bare.endswith(")]"):
            inside = True
        elif not inside:
            break
    return found[::-1]


def plain(lines):
    """The text of a docstring; its links to items are names."""
    text = "\n".join(lines)
    text = re.sub(r"\[(`[^`\]]+`)\](?:\([^)]*\))?", r"\1", text)
    return re.sub(r"\[([^\]`]+)\]\((?:\w|::)+\)", r"\1", text)


def head(lines, at):
    """The head of the item at a place, with its clauses and without its body."""
    indent = re.match(r" *", lines[at])[0]
    found, depth = [], 0
    for line in lines[at:]:
        if line in (indent + "{", indent + "{}", indent + "{ }"):
            break
        if depth == 0 and line.endswith((" {", " {}")) and not re.match(r"\s*(?:requires|ensures)", line):
            found.append(re.sub(r" \{\}?$", "", line))
            break
        found.append(line)
        depth += line.count("{") - line.count("}")
        if depth == 0 and line.endswith(";"):
            break
    return "\n".join(line[len(indent) :] for line in found)


def body(lines, at):
    """The variants of an enum or the public fields of a struct, with their docstrings; nothing if there are many."""
    if not lines[at].endswith(" {"):
        return []
    inside = lines[at + 1 : lines.index("}", at)]
    wanted = lines[at].startswith("pub enum")
    found, docs = [], []
    for line in inside if len(inside) <= MANY else ():
        if line.strip().startswith("///"):
            docs.append(plain([line]))
        elif not line.strip().startswith("#["):
            found += [*docs, line] if wanted or line.startswith("    pub ") else []
            docs = []
    return found


def owners(lines):
    """The places between which methods of a type stand, with the name of the type and whether it is a trait."""
    for at, line in enumerate(lines):
        if re.match(r"impl\b|pub trait ", line) and " for " not in line:
            head_text = " ".join(lines[at : at + 4])
            found = OWNER.match(head_text)
            if found and "}" in lines[at:]:
                yield at, lines.index("}", at), found["name"], line.startswith("pub trait")


def methods(source, name):
    """The public methods of a type, or the methods of a trait: the lines of the file, and the place of each."""
    for lines in source.lines.values():
        for start, end, owner, is_trait in owners(lines):
            for at in range(start, end) if owner == name else ():
                found = METHOD.match(lines[at])
                if found and (found["pub"] or is_trait):
                    yield lines, at, found["name"]


def items(source, file):
    """Each public item of a file that stands there by itself: its name, its kind and its place."""
    for at, line in enumerate(source.lines.get(file, ())):
        found = ITEM.match(line)
        if found:
            yield found["name"], found["kind"], at


def exported(source, file, folder=()):
    """The public items of a file and of the modules that it re-exports: path, kind and place of each."""
    for name, kind, at in items(source, file):
        yield name, kind, source.lines[file], at
    text = source.text(file)
    for within, path, listed, one in USE.findall(text):
        for name in filter(None, (it.strip() for it in (listed or one).split(",") if not within)):
            yield (name, *found_in(source, (*folder, *path.split("::")), name))
    for module in MODULE.findall(text):
        for name, kind, lines, at in exported(source, source.file(*folder, module), (*folder, module)):
            yield f"{module}::{name}", kind, lines, at


def found_in(source, path, name):
    """Where a module has an item of this name, by itself or of a module below; nothing if it has none."""
    file = source.file(*path)
    for found, kind, at in items(source, file):
        if found == name:
            return kind, source.lines[file], at
    for _, inner, listed, one in USE.findall(source.text(file)) if file in source.lines else ():
        if name in [it.strip() for it in (listed or one).split(",")]:
            return found_in(source, (*path, *inner.split("::")), name)
    return None, None, None


def told(path, lines, at):
    """An item of the page."""
    inside = body(lines, at) if lines[at].startswith(("pub enum", "pub struct")) else []
    code = "\n".join([head(lines, at), *inside])
    return f"\n### {path}\n\n{plain(docstring(lines, at))}\n\n```\n{code}\n```\n"


def crate_items(source, crate):
    """Each public item of a crate: its path, and its text or nothing where it has no docstring."""
    seen = set()
    for name, kind, lines, at in exported(source, source.file("lib")):
        if lines is None:
            yield f"{crate}::{name}", None
            continue
        yield f"{crate}::{name}", docstring(lines, at) and told(f"`{crate}::{name}`", lines, at)
        if kind not in ("struct", "enum", "trait") or name in seen:
            continue
        seen.add(name)
        for inner, place, method in methods(source, name):
            path = f"{crate}::{name}::{method}"
            yield path, docstring(inner, place) and told(f"`{path}`", inner, place)


def introduction(source):
    """The first paragraph of what a library says of itself."""
    lines = source.text(source.file("lib")).splitlines()
    text = []
    for line in lines:
        if not line.startswith("//! "):
            break
        text.append(line[4:])
    return plain(text)


def libraries():
    """The libraries that the program stands on: those of tests and of measurements have no users."""
    for crate in crates():
        if (CRATES / crate / "src/lib.rt").exists() and not crate.endswith("_calls") and crate != "in_process":
            yield crate


def page():
    """The page, the number of its items, and the faults."""
    parts, count, faults = [HEAD], 0, []
    for crate in libraries():
        source = Source(crate)
        parts.append(f"\n## {crate}\n\n{introduction(source)}\n")
        for path, text in crate_items(source, crate):
            if text:
                parts.append(text)
                count += 1
            else:
                faults.append(f"{path}: has no docstring")
    return "".join(parts), count, faults
