"""How differences are printed: the smallest case, both answers, the rule, and the sum."""
from itertools import groupby

from lib.judging.candidate import failure_of
from lib.judging.classes import level_of, rule_of
from lib.judging.kinds import KINDS, find_first_difference

MAX_LINES, LONGEST = 6, 120


def show_bytes(chunks):
    """Shows the chunks in hex, with `|` at each cut and `*` after a byte that is repeated, as
    --case reads."""
    runs = [[(byte, len(list(run))) for byte, run in groupby(chunk)] for chunk in chunks]
    return " | ".join(" ".join(f"{byte:02x}" + f"*{times}" * (times > 1) for byte, times in chunk)
                      for chunk in runs)


def read_bytes(text):
    """Returns the chunks that show_bytes shows. Raises ValueError."""
    words = [[word.partition("*") for word in chunk.split()] for chunk in text.split("|")]
    return [b"".join(bytes.fromhex(byte) * int(times or 1) for byte, _, times in chunk)
            for chunk in words]


def show_case(difference):
    """Shows the streams that a program is to get, with `/` between two."""
    return " / ".join(map(show_bytes, [*difference.before, difference.chunks]))


def read_case(text):
    """Returns the streams that show_case shows. Raises ValueError."""
    return list(map(read_bytes, text.split("/")))


def show_text(chunks):
    """Shows the front of the chunks, as Python shows bytes."""
    text = " | ".join(repr(chunk)[2:-1] for chunk in chunks)
    return text if len(text) <= 200 else f"{text[:150]} .."


def show_lines(lines, at=0):
    """Shows some lines in a row, the first of them around a position, or that there are none."""
    more = [f".. ({len(lines)} lines)", *lines[-1:] * bool(failure_of(lines))]
    shown = [show_line(line, 0 if index else at) for index, line in enumerate(lines[:MAX_LINES])]
    return " / ".join(shown + more * (len(lines) > MAX_LINES)) or "(no event)"


def show_line(line, at=0):
    """Shows a line, or the part of a long one about a position."""
    start = max(0, min(at - LONGEST // 2, len(line) - LONGEST))
    end = start + LONGEST
    return ".. " * (start > 0) + line[start:end] + " .." * (end < len(line))


def show_answers(one, other):
    """Shows both answers, from their first difference on if they or its lines are long."""
    same = find_first_difference(one, other)
    longest = max([len(line) for line in one[same:same + 1] + other[same:same + 1]], default=0)
    if max(len(one), len(other)) > MAX_LINES or longest > LONGEST:
        one, other = one[same:], other[same:]
    at = find_first_difference(one[0], other[0]) if one and other else 0
    shown = show_lines(one, at), show_lines(other, at)
    # long lines of which one begins as the other look the same
    is_front = longest > LONGEST and one and other and at in (len(one[0]), len(other[0]))
    return (f"{len(one[0])} characters: {shown[0]}",
            f"{len(other[0])} characters: {shown[1]}") if is_front else shown


def show_finding(finding, again):
    """Shows a finding in lines. `again` gives the command that judges a case alone."""
    kind = finding.name.partition("/")[2]
    size, found_size = (sum(map(len, case.chunks))
                        for case in (finding.difference, finding.found_in))
    title = "NEW  " if finding.is_new else "KNOWN"
    shrunk = "shrunk from" if finding.is_smallest else "not shrunk to the end, from"
    names = ("yours", "then") if finding.name == "not-deterministic" else ("reference", "yours")
    _, reference, candidate, others = finding.difference
    answers = zip(names, show_answers(reference, candidate))
    before = f"{len(others)} others, then " * bool(others)
    lines = [f"{title} {finding.name}: {size} bytes, {shrunk} {found_size} of "
             f"{finding.found_in.name}",
             f"  input      {before}{show_text(finding.difference.chunks)}",
             *(f"  {name:10} {answer}" for name, answer in answers)]
    lines += [f"  kind       {KINDS[kind]}"] if kind else []
    for rule in rule_of(finding.name):
        lines += [f"  rule       {rule.says} ({rule.page})",
                  f"  source     {rule.source}"]
    return "\n".join([*lines, f"  level      {level_of(finding.name)}",
                      f"  known      {'no' if finding.is_new else 'yes'}",
                      f"  again      {again(show_case(finding.difference))}"])


def show_sum(result, seed):
    """Shows the table of classes, and the line about all of them."""
    lines = []
    if result.findings:
        width = max(map(len, result.findings))
        lines.append(f"{'class':{width}}  level    streams  smallest  known")
        for finding in sorted(result.findings.values(), key=lambda each: -each.streams):
            size = sum(map(len, finding.difference.chunks))
            level = level_of(finding.name)
            lines.append(f"{finding.name:{width}}  {level:7}  {finding.streams:7}  {size:8}  "
                         f"{'no' if finding.is_new else 'yes'}")
    if count := result.unexplained_count:
        lines.append(f"{count} of the streams that differ weren't assigned to a class")
    if result.ended_early:
        lines.append(f"ended early: {result.ended_early}")
    return "\n".join([*lines, f"{result.streams} streams, {result.different} differ; "
                      f"{len(result.findings)} classes, {len(result.find_new())} of them new; "
                      f"seed {seed}"])
