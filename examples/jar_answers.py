"""The answers on the classes of jars, from one process of the program or from processes for each class."""
import os

from class_paths import class_paths
from judging import Verifier, lacking_in
from judging_each import EachVerifier
from output import escaped
from program import call


class Answers:
    """The answers on the classes of jars, each as text and status, by their files."""

    def __init__(self, jars, folders, known, profile, call=call):
        self.paths = class_paths(jars, [known] if known else folders)
        self.of_file = {file: (name, path) for path in self.paths for name, file in path.own.items()}
        self.profile, self.each, self.found = profile, EachVerifier(profile.words(), known, call), {}

    def judge(self, step=None):
        """Has one process for each class path judge the classes; `step` is told how many of all are judged, after each."""
        for path in self.paths:
            self.found.update(self.each.judge(path))
            if step:
                step(len(self.found), len(self.of_file))

    def first_call(self):
        """The words of the first call, as it would be with all known classes that were found; and the names of these."""
        files = self.paths[0].own.values() if self.paths else []
        return self.each.words([*files], self.each.in_folders(self.paths[0]) if files else []), [*self.each.known.files]

    def judge_by_processes(self):
        """Has processes for each class judge it, on all processors."""
        # Loaded where it is needed: that takes as long as unpacking hundreds of classes.
        import concurrent.futures

        verifier = Verifier(self.profile, judged=self.of_file)
        with concurrent.futures.ThreadPoolExecutor(os.cpu_count()) as threads:
            calls = {file: threads.submit(verifier.judge, file, path, name) for file, (name, path) in self.of_file.items()}
            try:
                self.found = {file: it.result() for file, it in calls.items()}
            finally:
                threads.shutdown(cancel_futures=True)

    def needs(self):
        """The class that is in no place, for each class that is left out because of it, by their names as they are printed."""
        lacking = {escaped(name): lacking_in(self.found[file][0]) for file, (name, _) in self.of_file.items()}
        return {name: it for name, it in lacking.items() if it}

    def explain(self, files):
        """Puts the explanations into the answers on these files."""
        self.each.read_all(files)
        verifier = Verifier(self.profile, explains=True, told=self.each.head, judged=self.of_file)
        for file in files:
            name, path = self.of_file[file]
            self.found[file] = verifier.judge(file, path, name)
