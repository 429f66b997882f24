"""The clients of examples/java, as tests/run/serve tries them: compiled once, and run by the JDK that is there."""
import functools
import subprocess
import sys
import zipfile

from tools.assembler import OBJECT
from tools.class_k import BYTES, PLAIN_OBJECT, with_code
from tools.jdks import jdk, version_of
from tools.made_jars import CUT, FINE, below, fine, jar, returns_object_of
from tools.places import TOP

LEAST, MOST_RELEASE = 17, 27
CLIENTS = ["Gate", "LoaderGate", "GateLoader", "GateAgent"]
MANIFEST = "Manifest-Version: 1.0\nPremain-Class: GateAgent\nCan-Retransform-Classes: true\n\n"
# A jar's samples, and an odd name that two of its classes have.
SAMPLES = [it for folder in ("11", "17") for it in sorted((TOP / f"examples/classes/{folder}").glob("*.class"))]
SUMS = next(it for it in SAMPLES if it.stem == "Sums").read_bytes()
BAD_SUMS = SUMS.replace(b"\x1a\x1b\x60", b"\x1a\x1b\x61")
NOWHERE = "it is in no place"
ENDED = "Gate$Ended: the program ended with status "
# Hands messages to a program, and ends it at the first that is about Guarded.
RELAY = """\
import os, subprocess, sys
process = subprocess.Popen(sys.argv[1:], stdin=subprocess.PIPE, bufsize=0)
while b"Guarded" not in (data := os.read(0, 65536)):
    process.stdin.write(data)
process.kill()
sys.exit("no more")
"""
# The line that Guarded prints before it loads a class.
FRONT = "direct, a lambda, reflected, a proxy, x-y\n"


class Java:
    """The compiled clients, and the program that they ask."""

    def __init__(self, served, place):
        self.served, self.place, self.room = served, place, served.folder / "java"
        self.release = min(version_of(place), MOST_RELEASE)
        self.clients, self.guarded = self.room / "clients", self.room / "guarded"
        self.compile(self.clients, *(TOP / f"examples/java/{it}.java" for it in CLIENTS), TOP / "tests/tools/GateCases.java")
        self.compile(self.guarded, TOP / "tests/tools/Guarded.java")
        self.agent = self.room / "gate.jar"
        with zipfile.ZipFile(self.agent, "w") as it:
            it.writestr("META-INF/MANIFEST.MF", MANIFEST)
            for path in sorted(self.clients.glob("*Gate*.class")):
                it.write(path, path.name)

    def compile(self, folder, *sources):
        subprocess.run([self.place / "javac", "-Xlint:all", "-d", folder, *sources], stderr=subprocess.DEVNULL, check=True)

    def run(self, *words):
        """What a virtual machine prints, what it writes on standard error, and its status."""
        done = subprocess.run([self.place / "java", "-Xshare:auto", *words], stdout=subprocess.PIPE, stderr=subprocess.PIPE, timeout=120, check=False)
        return done.stdout.decode(), done.stderr.decode(), done.returncode

    def case(self, *words):
        return self.run("-cp", self.clients, "GateCases", *words)

    def explained(self, data, *known):
        """What `explain` prints of a class, as this virtual machine would judge it."""
        return self.served.model(release=self.release).ask("explain", data, *known).text

    def script(self, name, text):
        """A program that is a script of the shell."""
        path = self.room / name
        path.write_text(f"#!/bin/sh\n{text}\n")
        path.chmod(0o755)
        return path


def entries():
    """The classes of a jar, by their names with the reason why one is refused, where it is."""
    yield from ((it.stem, it.read_bytes(), "") for it in SAMPLES if it.stem != "Sums")
    yield "Sums", BAD_SUMS, "explained"
    yield "F", below("F", "E"), ""
    yield "E", below("E", OBJECT), ""
    yield "K", returns_object_of("a/Y"), f"a/Y: {NOWHERE}\n"
    yield "N", fine("N").replace(b"()V", b"(I)"), "explained"
    yield "Y", below("Y", "Z"), f"Z: {NOWHERE}\n"
    yield "Z", b"", "it is no class file\n"
    yield "a/L", FINE, "it holds the class K\n"
    yield "b c", fine("b c"), ""
    yield "p/Cut", CUT[:40], "it is no class file\n"
    yield "\u00e9\u20ac", named_in_utf8("\u00e9\u20ac"), ""


def named_in_utf8(name):
    return with_code().data().replace(b"\0\1K", len(name.encode()).to_bytes(2, "big") + name.encode())


def loaded(java, threads):
    """The outcome of each class of a jar that some threads load, and what it should be."""
    path = java.room / "classes.jar"
    path.write_bytes(jar(*((f"{name}.class", data) for name, data, _ in entries())))
    want = {}
    for name, data, why in entries():
        text = java.explained(data, PLAIN_OBJECT) if why and not why.startswith("it holds") else ""
        why = {"explained": ""}.get(why, why)
        if name == "Y":
            why = "Z: its file is cut\n"
        want[name.replace("/", ".")] = "VerifyError: " + text + why if text or why else "loaded"
    got, errors, status = java.case("load", java.served.program, path, str(threads))
    lines = "".join(f"{name}: {text.strip()}\n" for name, text in sorted(want.items()))
    return (got, errors, status), (lines, "", 0)


def asked(java):
    """Answers to eight threads, of which one is interrupted."""
    files = {"Object": PLAIN_OBJECT, "K": BYTES, "Sums": BAD_SUMS, "cut": CUT, "empty": b""}
    for name, data in files.items():
        (java.room / name).write_bytes(data)
    model = java.served.model(release=java.release)
    want = "".join(f"{it.status}\n{it.text}" for it in (model.ask("verify", data) for data in files.values()))
    return java.case("ask", java.served.program, *(java.room / it for it in files)), (f"wrong {[0] * 8}\n{want}", "", 0)


def dying(java, scripts):
    """Both calls of a program that ends, for each such program: whether they say so, with what it says."""
    programs = [java.script(f"dying{number}", it) for number, it in enumerate(scripts)]
    text, errors, status = java.case("die", *programs)
    said = [(it.startswith(ENDED), ": no" in it) for it in text.splitlines()]
    return (said, errors, status), ([(True, ">&2" in it) for it in scripts for _ in range(2)], "", 0)


def closed(java):
    got = java.case("close", java.script("silent", "exec cat >/dev/null"))
    return got, ("Gate$Ended: the gate is closed\n" * 2, "", 0)


def lengths(java):
    model = java.served.model(release=java.release)
    zeros, empty = (model.ask("verify", it) for it in (bytes(2**24), b""))
    want = ["java.lang.IllegalArgumentException: a class file of 16777217 bytes: 16777216 are the most", *(f"Answer[status={it.status}, text={it.text}]" for it in (zeros, empty))]
    text, errors, status = java.case("lengths", java.served.program)
    return (text.splitlines()[:-1], text.splitlines()[-1].partition(":")[0], errors, status), ("\n".join(want).splitlines(), "java.io.IOException", "", 0)


def main_is_run(java):
    words = ["-cp", java.clients, "GateLoader", java.served.program, TOP / "examples/classes/11", "Hello"]
    return java.run(*words), ("Hello, world!\n", "", 0)


def guarded(java):
    """The agent beside a program of which a loader defines some classes."""
    folder = java.room / "plugins"
    folder.mkdir(exist_ok=True)
    for name, data, _ in entries():
        if "/" not in name and name.isascii():
            (folder / f"{name}.class").write_bytes(data)
    names = ["Hello", "Sums", "Shapes", "K", "Shapes$Colour", "Sealed", "Z"]
    text = FRONT + "".join(f"{it}{': ClassFormatError' if it in ('Sums', 'K', 'Z') else ' is loaded'}\n" for it in names)
    text += "programs: 1\n"
    got, errors, status = java.run(f"-javaagent:{java.agent}={java.served.program}", "-cp", java.guarded, "Guarded", f"{folder}/", *names)
    said = [f"classck refuses the class Sums: {java.explained(BAD_SUMS, PLAIN_OBJECT).strip()}\n", f"a/Y: {NOWHERE}\n", "classck refuses the class Z: "]
    return (got, [it in errors for it in said], status), (text, [True] * 3, 0)


def guarded_by_none(java):
    """The agent with a program that is not there, without any, and with one that answers no more after the first class."""
    program = java.script("short", f"exec {sys.executable} {java.room}/relay {java.served.program} \"$@\"")
    (java.room / "relay").write_text(RELAY)
    for words in ("=/absent", "", f"={program}"):
        text, errors, status = java.run(f"-javaagent:{java.agent}{words}", "-cp", java.guarded, "Guarded", "/")
        yield text, errors.partition(":")[0], status


def rows(served, dying_scripts):
    """Each row: what it is, and a call that gives what was got and what is wanted. Without a JDK there is none, and a line says so."""
    place = jdk(LEAST)
    if not place:
        print(f"tests/run/serve: no JDK of version {LEAST} or later: the clients in Java are not run")
        return
    java = functools.cache(lambda: Java(served, place))
    yield "Java: the classes of a jar, by one thread", lambda: loaded(java(), 1)
    yield "Java: the classes of a jar, by eight threads", lambda: loaded(java(), 8)
    yield "Java: eight threads ask", lambda: asked(java())
    yield "Java: programs that end", lambda: dying(java(), dying_scripts)
    yield "Java: a gate is closed while it is asked", lambda: closed(java())
    yield "Java: lengths, and a program that is not there", lambda: lengths(java())
    yield "Java: a class is run by the loader", lambda: main_is_run(java())
    yield "Java: the agent", lambda: guarded(java())
    yield "Java: the agent without a program", lambda: (list(guarded_by_none(java())), [("", "GateAgent", 2)] * 2 + [("", "classck refuses the class Guarded", 1)])
