"""The report as a run of SARIF 2.1.0."""
import json
import urllib.parse

from classck_jar.helps import HELPS

STANDARD = "https://docs.oracle.com/javase/specs/jvms/se17/html/jvms-4.html"
SCHEMA = "https://json.schemastore.org/sarif-2.1.0.json"
# The rules of answers that are explained nowhere.
MEANINGS = {
    -1: "the version is above that of the policy",
    0: "the file holds another class",
    11: "the version of the class is not judged",
    42: "a superclass is missing",
    60: "an instruction has no rule",
    77: "a class is missing",
}


def rule_id(number):
    return f"classck/{number}" if number > 0 else "classck/other" if number == 0 else "classck/version"


def report(verdicts, summary, told, put):
    """One run of SARIF 2.1.0 with a rule for each number that occurs; what is let pass is suppressed with its reason."""
    refusals = [(verdict, it) for verdict in verdicts for it in verdict.refusals]
    numbers = sorted({it.number for _, it in refusals})
    rules = [rule_object(number, [it for _, it in refusals if it.number == number]) for number in numbers]
    results = [result_object(verdict, it, numbers.index(it.number)) for verdict, it in refusals]
    notes = [{"level": "note", "message": {"text": line}} for line in told]
    invocation = {"executionSuccessful": True, "exitCode": summary.status, **({"toolExecutionNotifications": notes} if notes else {})}
    run = {"tool": {"driver": {"name": "classck", "rules": rules}}, "invocations": [invocation], "results": results}
    put(json.dumps({"$schema": SCHEMA, "version": "2.1.0", "runs": [run]}, indent=1))


def level_of(refusal):
    return "warning" if refusal.is_undecided else "error"


def rule_object(number, refusals):
    """The rule of a number, with its meaning as an explanation has it."""
    sentence = next((it.sentence() for it in refusals if it.explained), MEANINGS.get(number, f"refused by {number}"))
    name, _, meaning = sentence.partition(": ")
    rule = {"id": rule_id(number), "shortDescription": {"text": meaning or name}, "helpUri": STANDARD, "defaultConfiguration": {"level": level_of(refusals[0])}}
    if number in HELPS:
        rule["help"] = {"text": f"What can be done: {HELPS[number]}. docs/REFUSALS.md of classck has more on {number}."}
    return {**rule, "name": name} if meaning else rule


def result_object(verdict, it, index):
    """A refusal of a class, at its method."""
    kind, name = ("function", f"{verdict.name}.{it.method}") if it.method else ("type", verdict.name)
    place = {"physicalLocation": {"artifactLocation": {"uri": urllib.parse.quote(verdict.source)}}, "logicalLocations": [{"kind": kind, "fullyQualifiedName": name}]}
    # `](` would make a link of a name (SARIF 3.11.6).
    message = "\n".join([f"{verdict.entry}: {it.line}", *it.explained]).replace("](", "] (")
    found = {"ruleId": rule_id(it.number), "ruleIndex": index, "level": level_of(it), "message": {"text": message}, "locations": [place]}
    return {**found, "suppressions": [{"kind": "external", "status": "accepted", "justification": it.reason}]} if it.reason else found
