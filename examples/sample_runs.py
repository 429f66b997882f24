"""Runs the program over samples for examples/check, finds the JDKs that are installed, and compares lines with stored ones."""
import os
import pathlib
import subprocess

HERE = pathlib.Path(__file__).resolve().parent
PROGRAM = HERE.parent / "classck"


def run(*words):
    """The program's output, and its status."""
    done = subprocess.run([PROGRAM, *words], stdout=subprocess.PIPE, stderr=subprocess.PIPE, check=False)
    return (done.stdout + done.stderr).decode(), done.returncode


def explained(*words):
    """The lines of `explain` that are those of `verify`, and the status; nothing else stands there but lines after these."""
    text, status = run("explain", *words)
    return [it for it in text.splitlines() if not it.startswith("  ")], status


def answered(name, text, status):
    """The output on a sample, after its name and the status."""
    yield f"{name} [{status}]"
    yield from text.splitlines()


def stand_ins(folder=HERE / "known"):
    """The small classes that stand for those of the Java library."""
    return sorted(folder.glob("*.class"))


def jdk(version, tool):
    """The folder of the first JDK of a version that has this tool, in JAVA_HOME or below /usr/lib/jvm; None if there is none."""
    homes = [pathlib.Path(os.environ["JAVA_HOME"])] if "JAVA_HOME" in os.environ else []
    for home in (*homes, *sorted(pathlib.Path("/usr/lib/jvm").glob("*"))):
        release = home / "release"
        if release.exists() and (home / "bin" / tool).exists() and f'JAVA_VERSION="{version}' in release.read_text():
            return home
    return None


def own_classes(folder, version, small):
    """The classes of a JDK of this version that the small ones stand for, put into the folder; none if there is no such JDK."""
    home = jdk(version, "jimage")
    if not home or not (home / "lib/modules").exists():
        return []
    names = [it.stem.replace(".", "/") for it in small]
    wanted = ",".join(f"glob:/java.base/{name}.class" for name in names)
    words = [home / "bin/jimage", "extract", "--dir", folder, "--include", wanted, home / "lib/modules"]
    subprocess.run(words, stdout=subprocess.DEVNULL, check=True)
    return [pathlib.Path(folder) / f"java.base/{name}.class" for name in names]


def compare(stored, got):
    """How many lines are not as they are stored."""
    wanted = stored.read_text().splitlines()
    wrong = 0
    for i in range(max(len(got), len(wanted))):
        have = got[i] if i < len(got) else "(nothing)"
        want = wanted[i] if i < len(wanted) else "(nothing)"
        if have != want:
            wrong += 1
            if wrong <= 20:
                print(f"examples/check: {have}\n        wanted: {want}")
    print(f"examples/check: {stored.name}: {len(got) - wrong} lines as stored, {wrong} not")
    return wrong
