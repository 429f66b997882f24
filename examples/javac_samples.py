"""The samples of examples/javac25, made by javac of a JDK 25: what Java 21 to 25 brought, each judged by the release of its folder.

sources/N are compiled for `--release N` into classes/N. library/ has the sources of known/, small classes that stand for those of the Java library, beside
those of examples/known; expected.txt has the lines of `verify` on each class, and those of releases that do not take it. Every method is to be verified.
"""
import itertools
import pathlib
import subprocess
import tempfile

from sample_runs import HERE, answered, compare, explained, jdk, own_classes, run, stand_ins

FOLDER = HERE / "javac25"
STORED = FOLDER / "expected.txt"
RELEASES = ("21", "25")
# Samples that are given without a release as well, and with those that do not take them.
TAKEN_BY_FEW = tuple(f"javac25/classes/{it}.class" for it in ("21/Choices", "21/Trees$Fork", "25/Early$Chosen"))
COMMANDS = ("check", "verify", "explain", "verify-each")
# One that each release takes, given with a known class of which this does not hold.
OLDER = "classes/8/Sums.class"
# javac takes no patch of a module with `--release`.
PATCHED = ["-g:none", "-nowarn", "-Xlint:none", "-source", "21", "-target", "21", "--patch-module", f"java.base={FOLDER / 'library'}"]


def known():
    """The small classes that stand for those of the Java library."""
    return [*stand_ins(), *stand_ins(FOLDER / "known")]


def samples():
    """The folder of each release, and its classes."""
    return [(it, sorted((FOLDER / "classes" / it).glob("*.class"))) for it in RELEASES]


def one_by_one(release, files, library):
    """The lines of `verify` on each class among the others of its folder; one more where another command does not agree with them."""
    for path in files:
        name = f"{path.parent.name}/{path.name}"
        words = [path, *library, *(it for it in files if it != path)]
        told = run("verify", "--release", release, *words)
        yield from answered(name, *told)
        others = {
            "check": (run("check", "--release", release, path), ("ok\n", 0)),
            "explain": (explained("--release", release, *words), ([], 0)),
            "release 27": (run("verify", "--release", "27", *words), told),
        }
        yield from (f"{name}, {what}: {got}" for what, (got, wanted) in others.items() if got != wanted)


def together(release, files, library):
    """The lines of `verify-each` on all classes of a folder, as those of `verify` are given."""
    text, status = run("verify-each", "--release", release, *files, "--known", *library)
    for line in text.splitlines():
        number = line.split(" ")[1] if line.startswith("file ") else ""
        path = files[int(number) - 1] if number else None
        yield f"{path.parent.name}/{path.name} [{status}]" if path else line


def taken_by_few():
    """What each command says of classes whose version is not judged, without a release and with two that are too low, and its status."""
    for name, release, command in itertools.product(TAKEN_BY_FEW, (None, 17, -1), COMMANDS):
        lower = int(pathlib.Path(name).parent.name) - 1
        yield refused_by(command, lower if release == -1 else release, name, *others_of(command))
    for release in (None, 17, 20):
        yield refused_by("verify", release, OLDER, FOLDER / "known/java.lang.MatchException.class")


def refused_by(command, release, name, *known):
    """The lines of a command that refuse something, and its status, on one line."""
    words = [command, *(["--release", str(release)] if release else [])]
    text, status = run(*words, HERE / name, *known)
    refused = [it for it in text.splitlines() if "refused" in it]
    return f"{name}, {' '.join(words)}: {'; '.join(refused)} [{status}]"


def others_of(command):
    """The words after a class that a command takes: none, or the known ones."""
    return {"check": [], "verify-each": ["--known", *stand_ins()]}.get(command, stand_ins())


def judged(library, least="0"):
    """The lines of all samples, judged by the release of their folder or this one, and one more for each folder of which `verify-each` says something else."""
    for release, files in samples():
        release = max(release, least)
        lines = list(one_by_one(release, files, library))
        yield from lines
        if list(together(release, files, library)) != lines:
            yield f"verify-each --release {release} gives other lines"


def checked(write):
    """How many lines are not as they are stored, with the small known classes and with those of a JDK 25; stores them first if they are to be written."""
    few = list(taken_by_few())
    if write:
        STORED.write_text("\n".join([*judged(known()), *few]) + "\n")
    wrong = compare(STORED, [*judged(known()), *few])
    with tempfile.TemporaryDirectory() as folder:
        library = own_classes(folder, "25", known())
        if library:
            print(f"examples/check: with {len(library)} classes of a JDK 25")
            wrong += compare(STORED, [*judged(library, "25"), *few])
    return wrong


# ---- the classes, of their sources


def javac(home, words, sources, place):
    """Compiles the sources below a folder into a place, and gives the classes there by their files' names."""
    files = sorted(sources.rglob("*.java"))
    subprocess.run([home / "bin/javac", *words, "-d", place, *files], check=True)
    return {it.relative_to(place).as_posix(): it for it in sorted(place.rglob("*.class"))}


def compiled(home, room):
    """The classes of all sources, by the names that they have below the folder of the samples."""
    made = {}
    for it in RELEASES:
        of_release = javac(home, ["-g", "--release", it], FOLDER / "sources" / it, room / it)
        made.update({f"classes/{it}/{name}": path for name, path in of_release.items()})
    small = javac(home, PATCHED, FOLDER / "library", room / "library")
    made.update({f"known/{name.replace('/', '.')}": path for name, path in small.items()})
    return {name: path.read_bytes() for name, path in made.items()}


def differing(made, write):
    """The names of classes that are not stored as they are made; stores them if they are to be written."""
    stored = {it.relative_to(FOLDER).as_posix(): it.read_bytes() for it in FOLDER.rglob("*.class")}
    names = sorted(it for it in {*made, *stored} if made.get(it) != stored.get(it))
    for name in names if write else []:
        path = FOLDER / name
        if name in made:
            path.parent.mkdir(parents=True, exist_ok=True)
            path.write_bytes(made[name])
        else:
            path.unlink()
    return names


def newer(home, room):
    """The lines of methods that are refused of the sources of 21, if they are compiled for 25."""
    files = javac(home, ["-g", "--release", "25"], FOLDER / "sources/21", room / "newer").values()
    text, _ = run("verify-each", "--release", "25", *files, "--known", *known())
    return [it for it in text.splitlines() if " refused " in it]


def unlinked(home):
    """HotSpot's words on each folder that it does not link whole."""
    told = []
    for release, files in samples():
        words = [home / "bin/java", FOLDER / "Link.java", FOLDER / "classes" / release]
        lines = subprocess.run(words, stdout=subprocess.PIPE, check=True).stdout.decode().splitlines()
        told += lines if lines != [f"{len(files)} linked"] else []
    return told


def compared(write):
    """Compiles the sources anew: how many classes are not stored byte by byte as they are made, are refused if made for 25, or not linked by HotSpot."""
    home = jdk("25", "javac")
    if not home:
        print("examples/check: no JDK 25 is found")
        return 1
    with tempfile.TemporaryDirectory() as room:
        room = pathlib.Path(room)
        made = compiled(home, room)
        names = differing(made, write)
        refused, failed = newer(home, room), unlinked(home)
    for it in (*names, *refused, *failed):
        print(f"examples/check: javac25: {it}")
    print(f"examples/check: {len(made)} classes made by {home.name}: {len(names)} not as stored")
    print(f"examples/check: {len(refused)} methods refused if made for 25, {len(failed)} lines of HotSpot on classes that it does not link")
    return len(refused) + len(failed) + (0 if write else len(names))
