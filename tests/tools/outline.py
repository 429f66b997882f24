"""A copy of the repository's outline, in which a stand-in for `rt` takes the place of the toolchain."""
import os
import re
import shutil
import subprocess

from tools.places import TOP

TOOLS = "sh bash env dirname readlink find mkdir rm touch cat awk date nproc flock sleep chmod grep head mktemp sed sha256sum sort xargs".split()


def crates():
    """The crates by their names, each with those of the repository that it stands on."""
    lines = [it.split(":") for it in (TOP / "crates.txt").read_text().splitlines() if ":" in it and not it.startswith("#")]
    words = {name.split()[0]: below.split() for name, below in lines}
    return {name: {it for it in below if it in words} for name, below in words.items()}


def needed(name="classck"):
    """The crates that the program stands on, and the program."""
    return {name}.union(*map(needed, crates()[name]))


class Copy:
    """A copy with the wrapper, what else is named, the list of crates, and a source for each crate that is older than all that follows. The tools of
    the scripts are those that are named here and no others."""

    def __init__(self, folder, *more, tools=()):
        self.top = folder / "copy of it"
        for name in ("classck", ".ci/build", ".ci/crates", ".ci/current", "crates.txt", *more):
            (self.top / name).parent.mkdir(parents=True, exist_ok=True)
            shutil.copy(TOP / name, self.top / name)
        for crate in crates():
            source = self.top / f"crates/{crate}/src/lib.rt"
            source.parent.mkdir(parents=True)
            source.write_text("")
            os.utime(source, (1, 1))
        self.tools, self.log = folder / "tools", folder / "log"
        self.tools.mkdir()
        for name in (*TOOLS, *tools):
            (self.tools / name).symlink_to(shutil.which(name))
        self.log.write_text("")

    def add(self, name, text):
        """Puts a script among the tools."""
        (self.tools / name).write_text(text)
        (self.tools / name).chmod(0o755)

    def env(self, **more):
        """The environment of each script."""
        logic = re.search(r"(?m)^logic=(.*)$", (self.top / ".ci/build").read_text())[1]
        return {"PATH": str(self.tools), "LOG": str(self.log), "KIT": f"rattle-kit-0 logic {logic}", **more}

    def call(self, *words, program=None, **more):
        """The texts on both outputs, and the status."""
        words, env = [program or self.top / "classck", *words], self.env(**more)
        done = subprocess.run(words, env=env, cwd="/", stdout=subprocess.PIPE, stderr=subprocess.PIPE, check=False)
        return done.stdout.decode(), done.stderr.decode(), done.returncode

    def source(self, crate):
        return self.top / f"crates/{crate}/src/lib.rt"

    def edit(self, crate):
        """Changes a source."""
        with open(self.source(crate), "a") as it:
            it.write("// one line more\n")

    def logged(self):
        lines = self.log.read_text().splitlines()
        self.log.write_text("")
        return lines
