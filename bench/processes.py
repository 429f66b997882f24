"""Times programs, one process a file. Times are of the whole process, from fork to exit, or those of the processor."""
import os
import pathlib
import re
import subprocess
import time

TOP = pathlib.Path(__file__).resolve().parent.parent
PROGRAM = str(TOP / "crates/classck/out/classck")
OBJECT = str(TOP / "examples/known/java.lang.Object.class")


def is_under_object(path):
    """Whether the superclass of the class in a file is java/lang/Object."""
    text = subprocess.run([PROGRAM, "show", path], stdout=subprocess.PIPE, check=False).stdout.decode()
    return re.search(r"(?m)^super java/lang/Object$", text) is not None


def ended(words):
    """Runs a program with its output thrown away; gives its status, seconds, and what it used."""
    null = [(os.POSIX_SPAWN_OPEN, 1, "/dev/null", os.O_WRONLY, 0), (os.POSIX_SPAWN_OPEN, 2, "/dev/null", os.O_WRONLY, 0)]
    start = time.perf_counter()
    child = os.posix_spawn(words[0], words, os.environ, file_actions=null)
    _, status, usage = os.wait4(child, 0)
    return os.waitstatus_to_exitcode(status), time.perf_counter() - start, usage


def run(words):
    """Runs a program with its output thrown away; gives its status, seconds and largest memory in KB."""
    status, seconds, usage = ended(words)
    return status, seconds, usage.ru_maxrss


def used(words):
    """The processor time in seconds, and the largest memory in KB, of a program whose output is thrown away."""
    _, _, usage = ended(words)
    return usage.ru_utime + usage.ru_stime, usage.ru_maxrss


def measure(name, words, files, rounds=1):
    """Seconds for the files, each in a process of its own: the least of the rounds."""
    best, memory = None, 0
    size = sum(os.path.getsize(it) for it in files)
    for _ in range(rounds):
        seconds = 0
        for file in files:
            _, took, kb = run([*words, file])
            seconds, memory = seconds + took, max(memory, kb)
        best = seconds if best is None else min(best, seconds)
    print(f"{name:18} {len(files) / best:10.0f} classes/s {size / best / 1e6:8.2f} MB/s {best / len(files) * 1e3:8.2f} ms a process {memory / 1024:8.1f} MB at most")
    return best / len(files)
