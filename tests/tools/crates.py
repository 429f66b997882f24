"""The crates of the repository as rattle knows them: their files and functions, the words for a check, and bodies that are put aside."""
import collections
import functools
import os
import pathlib
import re
import subprocess

from tools.places import TOP

PARTS = ("src", "specs", "proofs")


@functools.cache
def kit():
    """The folder of the toolchain."""
    return os.path.dirname(subprocess.run(["rt", "doc"], stdout=subprocess.PIPE, check=True, text=True).stdout.strip())


def all_crates():
    """The crates of crates.txt by their names."""
    lines = [it.partition("#")[0].partition(":") for it in (TOP / "crates.txt").read_text().splitlines()]
    lines = [(head.split(), tail.split()) for head, colon, tail in lines if colon]
    deps = {head[0]: tail for head, tail in lines}
    crates = {}
    crates.update({head[0]: Crate(head[0], deps, crates, "staticlib" in head) for head, _ in lines})
    return crates


# ---- the functions of a file

FN = re.compile(r"( *)(?:pub(?:\([^)]*\))? )?(?:(?:const|unsafe|extern \"C\") )*fn ([a-z_]\w*)")
OWNER = re.compile(r"( *)(?:pub(?:\([^)]*\))? |unsafe )*((?:impl|trait|mod)\b.*)")


class Function:
    """A function's place in a file: from its comments and attributes (start) over its body to its end."""

    def __init__(self, path, owner, name, start, body, end, text):
        self.path, self.owner, self.name, self.start, self.body, self.end = path, owner, name, start, body, end
        self.header = text[start:body]
        self.cycle = "".join(re.findall(r"#\[cycle\((\w+)\)\]", self.header))
        self.module = [it for it in path[4:-3].split("/") if it not in ("lib", "main", "mod")]
        self.key = path, *owner, name
        # what rattle's name of it ends in: an impl stands in the module of its type, which may be another than the file's
        self.tail = "::".join([owner[-1], name] if owner else [*self.module, name])

    def __str__(self):
        return "::".join([*self.module, *self.owner, self.name])

    def is_told_as(self, name):
        """Whether this is rattle's name of it. The module of a function that stands in no impl is that of its file."""
        return f"::{name}".endswith(f"::{self.tail}") if self.owner else name.partition("::")[2] == self.tail


def head_of(text):
    """The name that rattle gives what holds functions: a trait's or a module's own; an impl's is the type's, with the trait's and
    its arguments' behind it, but for those that the impl is generic over."""
    if not text.startswith("impl"):
        return re.split(r"\W+", text)[1]
    text = re.sub(r"\bwhere\b.*|\{.*", "", text[4:])
    generic = re.match(r"(?:<((?:[^<>]|<[^<>]*>)*)>)?", text)
    parameters = re.findall(r"(?:^|,)\s*(\w+)", re.sub(r"<[^<>]*>", "", generic[1] or ""))
    text = text[generic.end():]
    trait, _, type_ = text.rpartition(" for ")
    plain = lambda it: re.sub(r"<.*", "", it.strip()).split("::")[-1]
    given = [plain(it) for it in re.sub(r"^[^<]*<?|>\s*$", "", trait).split(",")]
    words = [re.sub(r"\W+", "", it) for it in (plain(type_), plain(trait), *[it for it in given if "'" not in it and it not in parameters])]
    return "".join(it[:1].upper() + it[1:] for it in words)


def functions(path, text):
    """The functions of a .rt file as rt fmt writes it, where what ends an item stands as far in as the item. inside holds what is
    known of the function that the line is in: how far in it stands, its name, its start and its body's."""
    found, owners, lead, inside, offset = [], [], None, None, 0
    for whole in text.splitlines(keepends=True):
        line = whole.rstrip()
        depth = len(line) - len(line.lstrip())
        it = FN.match(line)
        if inside is None and it:
            inside, opened = [len(it[1]), it[2], offset if lead is None else lead, None], 0
        if inside:
            far, name, start, body = inside
            opened += line.count("{") - line.count("}")
            if body is None and depth == far and (line.endswith("{") or line.lstrip().startswith("{")):
                body = inside[3] = offset + (line.rindex("{") if line.endswith("{") else far)
            is_short = line.endswith("}") and (offset <= (body or 0) or it)
            if depth == far and line and (line.lstrip() == "}" or is_short) or body is None and not opened and line.endswith(";"):
                body = body or offset + (line.find(" {") + 1 or len(line))
                found.append(Function(path, [own for at, own in owners if at < far], name, start, body, offset + len(line), text))
                inside = lead = None
        else:
            if (it := OWNER.match(line)) and not line.endswith((";", "}")):
                owners.append((len(it[1]), head_of(it[2])))
            if line.lstrip() == "}":
                owners = [it for it in owners if it[0] < depth]
            is_lead = line.lstrip().startswith(("//", "#["))
            lead = (offset if lead is None else lead) if is_lead else None
        offset += len(whole)
    return found


# ---- the crates

class Crate:
    def __init__(self, name, deps, crates, is_static=False):
        self.is_static = is_static
        self.name, self.folder, self.below, self.texts, self.crates = name, TOP / "crates" / name, [], {}, crates

        def walk(of):
            for it in deps.get(of, ()):
                if it in deps and it not in self.below:
                    walk(it)
                    self.below.append(it)

        walk(name)
        self.deps, self.left = dict.fromkeys(["std", *deps[name]]), 0  # left: what is still to be tried
        self.rlib = self.folder / f"out/rlib/{name}.rlib"
        self.root = "src/main.rt" if (self.folder / "src/main.rt").exists() else "src/lib.rt"

    def words(self, jobs=1):
        """The arguments of rattle for the crate, with the places of the libraries below it; the last one has what it links."""
        words = ["--crate-name", self.name, self.root, "-L", f"dependency={kit()}/rlibs"]
        for it in self.deps:
            words += ["--extern", f"{it}={self.crates[it].rlib if it in self.crates else f'{kit()}/rlibs/{it}.rlib'}"]
        for it in self.below:
            words += ["-L", f"dependency={self.crates[it].rlib.parent}"]
        words += ["--antt-project", f"{kit()}/rattle/logic/antt-project.json", "--logic-built", f"{kit()}/logic_built"]
        kind = ["--crate-type", "staticlib"] if self.is_static else []
        return [*words, *kind, "--jobs", str(jobs), "--links", f"{self.name}="]

    def files(self):
        found = [it for part in PARTS for it in sorted((self.folder / part).rglob("*.*"))]
        return [it for it in found if it.suffix in (".rt", ".antt")]

    def read(self):
        for it in self.files():
            self.texts[str(it.relative_to(self.folder))] = it.read_text()
        self.functions = [x for path, text in self.texts.items() if path.endswith(".rt") for x in functions(path, text)]
        self.named = {str(it): it for it in self.functions}

    def proof_folders(self, function, mark=""):
        """The folders of the proof of a function, which stand at rattle's name of it; where it calls itself, at that name with the mark +."""
        found = {os.path.dirname(it) for it in self.texts if it.startswith("proofs/")}
        *outer, last = function.tail.split("::")
        tail = "/".join([*outer, mark + last])
        return [it for it in found if (f"/{it}".endswith(f"/{tail}") if function.owner else it == f"proofs/{tail}")]

    def word_for(self, function):
        """By which word rattle knows the function, and no other one."""
        return function.tail if function.owner else f"{self.name}::{function.tail}"

    def is_cited(self, function):
        """Whether a file of another folder cites the proof of a function."""
        tail = re.escape(function.tail.replace("::", "."))
        own = tuple(f"{it}/" for it in self.proof_folders(function))
        citing = re.compile(rf"Rattle\.{self.name}\.proofs\.(?:[\w.+]*\.)?{tail}\b")
        return any(citing.search(text) for path, text in self.texts.items() if path.endswith(".antt") and not path.startswith(own))

    def rests(self, law):
        """The files of specs and proofs that a law rests on, by their 'use' lines; where one is not found, all."""
        seen, left = set(), [law]
        while left:
            at = left.pop()
            if at in seen:
                continue
            seen.add(at)
            if at in self.named:
                it, folder = self.named[at], f"proofs/{at.replace('::', '/')}/"
                left += [path for path in self.texts if path.startswith(folder)] or [*self.texts]
                uses = re.findall(r"^\s*ghost use ([\w.+]+)\.\{(.*?)\}", self.texts[it.path], re.M)
                uses = [head for head, names in uses if any(re.search(rf"\b{x}\b", it.header) for x in re.findall(r"\w+", names))]
            else:
                uses = re.findall(r"^\s*(?:pub )?(?:ghost )?use ([\w.+]+)", self.texts[at], re.M)
            for use in uses:
                head, name, kind, *parts = [*use.rstrip(".").split("."), "", ""]
                if (head, name) != ("Rattle", self.name):
                    continue
                parts = [it for it in parts if it and it != "contracts"]
                ways = ["/".join(parts[:n]) for n in range(len(parts), 0, -1)]
                found = [x for way in ways for x in (f"{kind}/{way}.antt", way.replace("/", "::"), f"src/{way}.rt")]
                left += [x for x in found if x in self.texts or x in self.named][:1] or [*self.texts]
        return seen


def spliced(text, spans):
    for start, end, put in sorted(spans, reverse=True):
        text = text[:start] + put + text[end:]
    return text


class Stubs:
    """For a crate that was proved as it stands: a body in the place of each that no edit changes, whose proof costs little. It calls a
    function that is said to end at no state. What an edited function owes rests on the contracts of those that it calls, which stay
    as they are."""

    BODY = "{ let _ = crate::ends_nowhere(); unreachable!() }"
    ENDS_NOWHERE = '\nunsafe extern "C" { safe fn ends_nowhere() -> u8 ensures { ⊥ }; }\n'
    name = "the other bodies are put aside"

    def __init__(self, crate, edits):
        self.crate, self.spans, self.folders = crate, collections.defaultdict(list), []
        members = {x for it in edits for x in it.members}
        for it in crate.functions:
            body = crate.texts[it.path][it.body : it.end]
            is_plain = body[:1] == "{" and body[-1:] == "}" and body.strip("{} \n")
            is_alone = not it.cycle and "const fn" not in it.header and not crate.is_cited(it)
            if is_plain and is_alone and it.key not in members:
                self.spans[it.path].append((it.body, it.end, self.BODY))
                self.folders += crate.proof_folders(it)
        end = len(crate.texts[crate.root])
        self.spans[crate.root].append((end, end, self.ENDS_NOWHERE))

    def all_folders(self, room):
        """The folders of the proofs of these functions in a copy of the crate, with those of a function that calls itself."""
        starts = {(path, at) for path, spans in self.spans.items() for at, _, _ in spans}
        own = [it for it in self.crate.functions if (it.path, it.body) in starts]
        return [room / it for it in [*self.folders, *(x for one in own for x in self.crate.proof_folders(one, "+"))]]
