"""The run of the gate, once the command line is read: this is loaded while a call of the program works that was begun ahead."""
from folders import Known
from jar_answers import Answers
from output import escaped
from program import end_build

from classck_jar import class_path, inputs, jdk, policy, reports
from classck_jar.verdicts import Summary, verdicts_of

# So many refused classes are explained: each has processes of its own.
MOST_EXPLAINED = 20
# Of reports that have the words of `explain`, so many.
MOST_REPORTED = 200


class Gate:
    """One run over the jars and folders of a command line. `room` removes its files when it is left."""

    def __init__(self, given, profile, ahead, room, progress):
        self.given, self.profile, self.ahead, self.room, self.progress = given, profile, ahead, room, progress

    def known(self):
        """The known classes: those of the JDK, and then those of the class path."""
        store = class_path.Store(self.room, self.given.most_bytes, self.ahead, self.profile.release)
        places = jdk.places_of(self.given.jdk, store, self.progress.say) if self.given.jdk is not None else []
        for it in self.given.classpath:
            places += class_path.places_of(it, store, self.progress.say)
        known = Known(places)
        known.add_found(self.ahead.names or [])
        return known

    def judge(self, build):
        """The verdicts on all classes, and what is to be told beside."""
        given, ahead, known = self.given, self.ahead, self.known()
        self.progress.step("unpacking")
        # The names that an earlier call found are not looked for again.
        found = inputs.Inputs(self, known if ahead.names is None else None)
        judged = found.unpack(given.judged, given.nested)
        end_build(build)
        self.progress.step(f"judging {sum(len(it.entries) for it in judged)} classes among {len(known.files)} known ones")
        answers = Answers(judged, [], known, self.profile, ahead.call)
        answers.judge(lambda done, all: self.progress.step(f"judged {done} of {all} classes"))
        ahead.keep(answers.first_call)
        # Found in the answers as they are before explanations stand in them.
        needs = answers.needs()
        self.progress.step(f"judged {len(answers.found)} classes; {len(set(needs.values()))} others are missing")
        self.explain(judged, answers)
        lines = [f"{it.label} has no class" for it in judged if not it.entries]
        return verdicts_of(judged, answers, needs), found.lines(given.nested) + (lines if not any(it.entries for it in judged) else [])

    def explain(self, judged, answers):
        """Has the first classes that are refused explained, where the report has room for that."""
        most = MOST_REPORTED if self.given.format in ("sarif", "junit") else MOST_EXPLAINED if self.given.explain else 0
        refused = [file for it in judged for *_, file in it.entries if answers.found[file][1]]
        if most and refused:
            self.progress.step(f"explaining {min(most, len(refused))} of {len(refused)} classes")
            answers.explain(refused[:most])
            if len(refused) > most:
                self.progress.say(f"{len(refused) - most} classes that are refused are not explained: the first {most} are")

    def run(self, chosen, build):
        """Judges all by a policy, prints the report, and returns the status."""
        given, chosen = self.given, chosen or policy.Policy("")
        verdicts, told = self.judge(build)
        chosen.apply(verdicts, given.absent)
        if given.baseline:
            policy.write(given.policy, chosen.with_baseline(verdicts))
            self.progress.say(f"{escaped(given.policy)} lets pass what is refused or undecided now")
            chosen = policy.Policy.read(given.policy)
            chosen.apply(verdicts, given.absent)
        summary = Summary(verdicts)
        self.progress.done()
        reports.write(given.format, verdicts, summary, [*told, *chosen.unused()])
        return summary.status
