"""What a run found, for other programs: JSON, and JUnit with a test per rule."""
import json
from xml.etree import ElementTree

from lib.judging.candidate import escape_controls, failure_of
from lib.judging.classes import BETWEEN, level_of, rule_of
from lib.judging.report import show_case, show_finding
from lib.judging.rules import ALONE, CUT, RULES

TESTS = {**RULES, **ALONE, BETWEEN: CUT}


def object_of(finding, again):
    rule = rule_of(finding.name)[-1]
    chunks, reference, candidate, before = finding.difference
    case = show_case(finding.difference)
    first = "first" if finding.name == "not-deterministic" else "reference"
    return {"class": finding.name, "rule": finding.rule,
            "kind": failure_of(candidate) or finding.name.partition("/")[2],
            "level": level_of(finding.name), "source": rule.source, "says": rule.says,
            "page": rule.page, "chunks": [chunk.hex() for chunk in chunks],
            "before": [[chunk.hex() for chunk in stream] for stream in before],
            "case": case, "again": again(case),
            first: reference, "yours": candidate, "found_in": finding.found_in.name,
            "smallest": finding.is_smallest, "streams": finding.streams, "new": finding.is_new}


def format_json(result, seed, again):
    findings = [object_of(finding, again) for finding in result.findings.values()]
    return json.dumps({"version": 3, "seed": seed, "streams": result.streams,
                       "different": result.different, "unassigned": result.unexplained_count,
                       "ended_early": result.ended_early or None, "new": len(result.find_new()),
                       "findings": findings}, indent=1)


def list_tests(result, again):
    """The name of each test, whether it is new that it fails, and what is reported if it does."""
    for name, rule in TESTS.items():
        found = [finding for finding in result.findings.values()
                 if rule_of(finding.name)[-1] is rule]
        found.sort(key=lambda finding: not finding.is_new)
        report = "\n\n".join(show_finding(finding, again) for finding in found)
        yield name, bool(found and found[0].is_new), report
    left = result.unexplained_count
    yield "each difference has a class", left > 0, f"{left} streams have none" * (left > 0)
    is_partial = not result.streams or bool(result.ended_early)
    yield "all streams are judged", is_partial, f"{result.streams} were" * is_partial


def format_junit(result, seed, again):
    suite = ElementTree.Element("testsuite", name=f"judge, seed {escape_controls(seed)}")
    for name, is_new, report in list_tests(result, again):
        case = ElementTree.SubElement(suite, "testcase", classname="judge", name=name)
        if report:
            message = report.splitlines()[0] if is_new else "known"
            kind = "failure" if is_new else "skipped"
            ElementTree.SubElement(case, kind, message=message).text = report
    if result.ended_early:
        ElementTree.SubElement(suite, "system-out").text = f"ended early: {result.ended_early}"
    for count, kind in ("tests", "testcase"), ("failures", "failure"), ("skipped", "skipped"):
        suite.set(count, str(len(list(suite.iter(kind)))))
    text = ElementTree.tostring(suite, encoding="unicode")
    return f'<?xml version="1.0" encoding="UTF-8"?>\n{text}'


FORMATS = {"json": format_json, "junit": format_junit}
