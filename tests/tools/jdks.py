"""The JDKs that are installed."""
import os
import pathlib
import re
import shutil
import subprocess


def version_of(place):
    """The version of the JDK whose programs are in this folder; 0 if it has none, or cannot compile."""
    if not (place / "java").exists() or not (place / "javac").exists():
        return 0
    said = subprocess.run([place / "java", "-version"], stderr=subprocess.PIPE, check=False).stderr.decode()
    return int((re.search(r'version "(\d+)', said) or "00")[1])


def jdk(least):
    """The folder with the programs of a JDK of this version or a later one, if there is one."""
    places = [pathlib.Path(it).parent for it in (os.environ.get("JAVA_HOME", "-") + "/bin/java", shutil.which("java") or "-")]
    return next((it for it in (*places, *sorted(pathlib.Path("/usr/lib/jvm").glob("*/bin"))) if version_of(it) >= least), None)
