"""Classes of differences: which rule a difference is about, and how a stream is freed of a rule.

The class of a difference is the name of a rule, `/`, and the kind of the difference. The rule has
`cut:` before it if the parser answers rightly as soon as the stream comes whole: then it is the
rule of what a cut divides.
"""
from bisect import bisect_left, bisect_right
from itertools import accumulate, chain
from typing import NamedTuple

from lib.generating.random_text import cut_at
from lib.judging.definition import LOOKAHEAD, NEAR, StepReader, steps_of
from lib.judging.kinds import FAILURES, FIELDS, KINDS
from lib.judging.rules import ALONE, CUT, MALFORMED, MUST, ORDER, RULES, find_most_special
from lib.judging.shrinking import cuts_of

CUT_PREFIX = "cut:"
# a cut that divides nothing
BETWEEN = "cut:between"
# the rules of what ends a command, and the kinds of its data, which aren't about these
ENDS, DATA = {"command-bell", "command-cut-short"}, {"pieces", "data"}
# rules of what isn't there or is too much, and what re.sub makes a case of others by: a digit for
# what is empty, and one byte for each run
EMPTY = (rb"(\x1b[\[P][<-?]?|[:;])(?![0-9])|(\x1b\])(?=[\x07\x18\x1a\x1b])", rb"\g<1>\g<2>1")
INSTEAD = {"empty-number": EMPTY, "empty-command": EMPTY,
           **dict.fromkeys(("pieces", "limit"), (rb"(?s)(.)\1+", rb"\1"))}


class Difference(NamedTuple):
    """A case, both answers, and the streams that the program had to answer before."""

    chunks: list
    reference: list
    candidate: list
    before: list = []


def is_class(text):
    """Whether a text is the name of a rule, with a kind or without."""
    _, slash, kind = text.partition("/")
    return bool(rule_of(text)) and (not slash or kind in KINDS)


def rule_of(name):
    """Returns the rules of a class: for a cut the one about cuts, then the one of what is cut, if
    there is one."""
    rule = name.partition("/")[0]
    rest = rule.replace(CUT_PREFIX, "", 1)
    is_known = rest in RULES or rest in ALONE or rule == BETWEEN
    return [CUT] * (is_known and rest != rule) + [
        rules[rest] for rules in (RULES, ALONE) if rest in rules]


def level_of(name):
    """Returns the level of a class: that of its rule, unless each rule of this kind is a must."""
    rule, _, kind = name.partition("/")
    is_read = rule in MALFORMED and kind != "replacement"
    return MUST if kind in FAILURES or is_read else rule_of(name)[0].level


def find_needed_rule(chunks, depends_on_cut, same, kind, house, but=()):
    """Finds the name of the rule that a case is about whose answers begin with the same lines: none
    of the rules `but`. It is exact if the case is shrunk."""
    steps = steps_of(b"".join(chunks), house)
    if depends_on_cut:
        return find_cut_rule(steps, cuts_of(chunks), kind)
    if not steps:
        return "text"
    # what is near a limit is about it, as the case is the smallest
    names = {name.replace(NEAR, "") for step in find_needed_steps(steps, same, kind)
             for name in step.rules}
    return find_most_special(name for name in names if name not in but and is_about(name, kind))


def find_cut_rule(steps, cuts, kind):
    """Finds the name of the rule about what cuts divide."""
    divided = {name for index in find_steps_at_cuts(steps, cuts).values() if index is not None
               for name in steps[index].rules if name in ORDER and is_about(name, kind)}
    return CUT_PREFIX + find_most_special(divided) if divided else BETWEEN


def find_needed_steps(steps, same, kind):
    """Finds the steps that a difference after the same lines can be about: none after an event that
    has another field, and no terminator of an event before."""
    ends = list(accumulate(len(step.lines) for step in steps))
    last = next((index for index, end in enumerate(ends) if end > same), len(steps) - 1)
    if kind in FIELDS:
        return steps[:last + 1]
    return [step for step in steps if "terminator" not in step.rules or step == steps[last]]


def is_about(rule, kind):
    """Whether a difference of a kind can be about a rule."""
    return kind not in DATA or rule not in ENDS


def find_steps_at_cuts(steps, cuts):
    """Finds for each cut the index of the step that it divides. What is malformed or unfinished is
    found to be so after its end."""
    found = dict.fromkeys(cuts)
    for index, step in enumerate(steps):
        last = step.end if step.rules[0] in ("malformed", "unfinished") else step.end - 1
        for cut in cuts[bisect_right(cuts, step.start):bisect_right(cuts, last)]:
            found[cut] = index
    return found


def find_nearest(chunks, same, rules, house):
    """Finds, of the rules that occur in a case, the one that comes last before a position in its
    lines, the most special one of several; and all rules of that step."""
    steps = steps_of(b"".join(chunks), house)
    divided = set(find_steps_at_cuts(steps, cuts_of(chunks)).values())
    line, best, of_step = 0, (-1, -1, min(rules)), rules
    for index, step in enumerate(steps):
        names = {name.replace(NEAR, "") for name in step.rules}
        if index in divided:
            names |= {CUT_PREFIX + name for name in step.rules}
        for name in rules.intersection(names):
            position = (index, ORDER.get(name.replace(CUT_PREFIX, ""), 0), name)
            best, of_step = max(best, position), names
        line += len(step.lines)
        if line > same and best[0] >= 0:
            break
    return best[2], of_step


# ---- freeing a case of rules

def free_case(chunks, rules, house):
    """Frees a case of what these rules are about: their bytes, or the cuts that divide them."""
    stream, cuts = b"".join(chunks), cuts_of(chunks)
    steps = steps_of(stream, house) if rules else []
    if any(rules.intersection(step.rules) for step in steps):
        positions = find_kept_positions(stream.decode("latin-1"), rules, house)
        stream = bytes(stream[position] for position in positions)
        cuts = [bisect_left(positions, cut) for cut in cuts]
        steps = steps_of(stream, house)
    unwanted = find_unwanted_cuts(steps, cuts, rules)
    return cut_at(stream, [cut for cut in cuts if cut not in unwanted])


def find_unwanted_cuts(steps, cuts, rules):
    """Finds the cuts that divide what these rules are about, if they are about cuts."""
    divided = {name[len(CUT_PREFIX):] for name in rules if name.startswith(CUT_PREFIX)}
    return {cut for cut, index in find_steps_at_cuts(steps, cuts if divided else []).items()
            if (BETWEEN in rules if index is None else divided.intersection(steps[index].rules))}


def find_kept_positions(text, rules, house):
    """Finds the positions of what is left of a text without what rules are about, in one pass: if
    something goes, only the last that was read before is read again, without what followed it."""
    # the reader has what stands at the positions `front`, and then all from `rest` on
    reader, front, rest, read = StepReader(text, house), [], 0, []
    while True:
        start, state = reader.position, reader.state
        steps = reader.read_next()
        if not steps:
            return [position for positions, _ in read for position in positions]
        dropped = {position for step in steps if rules.intersection(step.rules)
                   for position in range(step.start, step.end)}
        # the ESC that ends data of a device control string is read twice
        end = max(reader.position, start + bool(dropped))
        first, after = (rest + max(0, position - len(front)) for position in (start, end))
        positions = [*front[start:end], *range(first, after)]
        if not dropped:
            read.append((positions, state))
            continue
        again, read[-LOOKAHEAD:] = read[-LOOKAHEAD:], []
        kept = [position for position, at in zip(positions, range(start, end)) if at not in dropped]
        front = [*chain.from_iterable(positions for positions, _ in again), *kept, *front[end:]]
        rest = after
        reader = StepReader("".join(map(text.__getitem__, front)) + text[rest:], house,
                        again[0][1] if again else state)
