"""The report as text and as JSON Lines; `sarif` and `junit` have the other forms, and are loaded where they are asked for."""
import importlib
import json

from classck_jar.verdicts import ANSWERS, REFUSED_ANSWER, UNDECIDED


def write(form, verdicts, summary, told):
    """Prints the report in this form. `told` are lines that are said beside the verdicts."""
    forms = {"text": text, "json": json_lines}
    put = forms.get(form) or importlib.import_module(f"classck_jar.{form}").report
    put(verdicts, summary, told, print)


def text(verdicts, summary, told, put):
    """A line for each refusal, after the entry, with why it is let pass; what the policy is told; and the table."""
    for verdict in verdicts:
        for it in verdict.refusals:
            put(f"{verdict.entry}: {it.line}")
            if it.reason:
                put(f"  let pass: {printable(it.reason)}")
            for line in it.explained:
                put(line)
    for line in told:
        put(line)
    for line in table(summary):
        put(line)


def table(summary):
    """The counts of all, as lines of equal parts."""
    classes, methods = summary.classes, summary.methods
    yield f"classes: {sum(classes.values())}; {', '.join(f'{classes[it]} {it}' for it in ANSWERS)}"
    counts = f"{summary.verified} verified, {summary.no_code} without code, {methods[UNDECIDED]} undecided, {methods[REFUSED_ANSWER]} refused"
    yield f"methods: {summary.verified + summary.no_code + sum(methods.values())}; {counts}"
    if summary.numbers:
        yield "refusals: " + ", ".join(f"{n} of {number}" if number > 0 else f"{n} without a number" if number == 0 else f"{n} too new" for number, n in sorted(summary.numbers.items()))
    if summary.let_pass:
        yield f"let pass: {summary.let_pass}"
    if summary.needed:
        yield "needed most: " + ", ".join(f"{name} ({n})" for name, n in summary.needed_most())


def printable(text):
    """The text of a policy in printable ASCII."""
    return json.dumps(text)[1:-1]


def json_lines(verdicts, summary, told, put):
    """An object for each class, for each line that the policy is told, and for all."""
    for it in verdicts:
        refusals = [refusal_object(refusal) for refusal in it.refusals]
        put(json.dumps({"kind": "class", "source": it.source, "entry": it.entry, "class": it.name, "answer": it.answer, "verified": it.verified, "no_code": it.no_code, "refusals": refusals}))
    for line in told:
        put(json.dumps({"kind": "policy", "line": line}))
    needed = [{"class": name, "refusals": n} for name, n in summary.needed_most()]
    put(json.dumps({"kind": "summary", "classes": {it: summary.classes[it] for it in ANSWERS}, "needed": needed, "let_pass": summary.let_pass, "status": summary.status}))


def refusal_object(it):
    """A refusal with the fields that it has."""
    fields = {"number": it.number, "line": it.line, "method": it.method, "missing": list(it.missing), "reason": it.reason, "explained": it.explained}
    return {key: value for key, value in fields.items() if value or key == "number"}
