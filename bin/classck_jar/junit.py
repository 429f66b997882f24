"""The report as JUnit XML."""
import re
from xml.sax.saxutils import escape, quoteattr

from classck_jar.verdicts import REFUSED_ANSWER, VERIFIED


def report(verdicts, summary, told, put):
    """A test for each class, in a suite for each jar or folder: failed where it is refused, skipped where it is undecided or let pass."""
    put('<?xml version="1.0" encoding="UTF-8"?>')
    put("<testsuites>")
    for source in dict.fromkeys(it.source for it in verdicts):
        cases = [it for it in verdicts if it.source == source]
        failed, skipped = sum(map(is_failed, cases)), sum(map(is_skipped, cases))
        put(f'<testsuite name={quoteattr(source)} tests="{len(cases)}" failures="{failed}" errors="0" skipped="{skipped}">')
        for it in cases:
            put(junit_case(it))
        put("</testsuite>")
    for line in told:
        put(f"<!-- {re.sub('-(?=-)', '- ', line)} -->")
    put("</testsuites>")


def is_failed(verdict):
    return verdict.answer_left == REFUSED_ANSWER


def is_skipped(verdict):
    return verdict.answer != VERIFIED and not is_failed(verdict)


def junit_case(verdict):
    """The test of a class as XML."""
    head = f"<testcase classname={quoteattr(verdict.name.replace('/', '.'))} name={quoteattr(verdict.entry)}"
    if not verdict.refusals:
        return f"{head}/>"
    lines = [line for it in verdict.refusals for line in (it.line, *it.explained)]
    message = quoteattr(verdict.refusals[0].line)
    if is_failed(verdict):
        return f"{head}><failure message={message}>{escape(chr(10).join(lines))}</failure></testcase>"
    return f"{head}><skipped message={message}/></testcase>"
