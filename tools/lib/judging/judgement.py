"""Judges a parser: compares it with the reference, shrinks what differs, and goes on past what is
known."""
import re
from dataclasses import dataclass, field

from lib.judging.budget import Patience, Time, Tries
from lib.judging.candidate import OutOfTime, failure_of
from lib.judging.cases import Case
from lib.judging.classes import INSTEAD, Difference, find_nearest, find_needed_rule, free_case
from lib.judging.definition import NEAR
from lib.judging.kinds import FAILURES, differences_of
from lib.judging.rules import ALONE, RULES
from lib.judging.shrinking import shrink
from lib.judging.sides import LIMITS, Sides, is_alike, kinds_of

# how many cases are tried to shrink one: with planted faults nine of ten take 129 or fewer. And if
# the program passes a limit, where each case may take its whole time
MAX_CASES, MAX_OVER_LIMIT = 2000, 200
# how often a case is tried again before it is reported: a program whose answer changes every other
# time passes all of these once in 64
MORE_TRIES = 6
NOT_DETERMINISTIC, KEPT_STATE, PROTOCOL = ALONE
# the stream that shows whether the program answers at all
FIRST = Case("the first stream", [b"a"])
OUT_OF_TIME = "the time was over before all streams were judged"


@dataclass
class Finding:
    """A class of differences: its smallest example, the case in which it was found, whether it is
    new, and in how many streams it is."""

    name: str
    difference: Difference
    found_in: Case
    is_new: bool = True
    streams: int = 1
    is_smallest: bool = True

    @property
    def rule(self):
        return self.name.partition("/")[0]


@dataclass
class Judgement:
    """What a run found, and why it ended before its last stream, if it did."""

    streams: int = 0
    different: int = 0
    findings: dict = field(default_factory=dict)
    ended_early: str = ""

    @property
    def unexplained_count(self):
        """The number of streams that differ and have no class."""
        return self.different - sum(finding.streams for finding in self.findings.values())

    def list_rules(self):
        """Lists the rules of the classes found so far."""
        rules = {finding.rule for finding in self.findings.values()} - ALONE.keys()
        return rules | {NEAR + name for name in rules}

    def count(self, name):
        """Counts a stream for a class, and returns whether there is one."""
        if name in self.findings:
            self.findings[name].streams += 1
        return name in self.findings

    def find_new(self):
        """Returns the findings that aren't known."""
        return [finding for finding in self.findings.values() if finding.is_new]

    def find_status(self):
        """Returns 1 if something is new or no stream was judged, 3 if streams are left, else 0."""
        is_bad = self.find_new() or self.unexplained_count or not self.streams
        return 1 if is_bad else 3 if self.ended_early else 0


class Judge:
    """Judges the candidate. `left_out` are the rules of which all streams are freed, `known` the
    classes that aren't new, and `report` is called with each finding."""

    def __init__(self, reference, candidate, view, house, left_out=(), known=(),
                 report=lambda finding: None):
        self.time, self.patience, self.result = Time(candidate), Patience(), Judgement()
        self.sides = Sides(reference, candidate, view, house, self.time)
        self.candidate, self.house = candidate, house
        self.left_out, self.known, self.report = frozenset(left_out), known, report
        # the case that is examined, and the smallest difference that was found of it: what there is
        # to report if the time is over
        self.examined = None

    def run(self, cases):
        """Judges cases until there are none left or the time is over."""
        try:
            reference, answer = self.sides.answer_all([FIRST.chunks])[0]
            if failure_of(answer):
                self.end_unanswered(Difference(FIRST.chunks, reference, answer))
                return self.result
            for batch in self.time.make_batches(cases):
                self.judge_batch(batch)
        except OutOfTime:
            self.result.ended_early = OUT_OF_TIME
            self.report_examined()
        return self.result

    def end_unanswered(self, difference):
        """Reports that the program doesn't answer the first stream, and ends the run."""
        kind = failure_of(difference.candidate)
        self.candidate.answer_aloud(FIRST.chunks)
        name = PROTOCOL if self.candidate.takes_chunks or kind == PROTOCOL else f"text/{kind}"
        self.result.streams = self.result.different = 1
        self.add(name, difference, FIRST)
        self.result.ended_early = "the program doesn't answer the stream `a`"

    def judge_case(self, streams):
        """Judges the last of some streams, which one process reads, and returns both answers."""
        *before, chunks = [free_case(chunks, self.left_out, self.house) for chunks in streams]
        reference, answer = self.sides.answer_last([*before, chunks])
        self.result.streams, self.result.different = 1, int(reference != answer)
        if reference != answer:
            case, difference = Case("--case", chunks), Difference(chunks, reference, answer, before)
            repeated, _ = self.repeat_or_report(case, difference, MORE_TRIES)
            if repeated:
                self.add(self.find_class(repeated), repeated, case)
        return reference, answer

    def judge_batch(self, batch):
        """Judges cases at once, and examines what differs."""
        streams = [free_case(case.chunks, self.left_out, self.house) for case in batch]
        differing = []
        for index, (reference, answer) in enumerate(self.sides.answer_all(streams)):
            if reference != answer:
                before = streams[:index] if self.candidate.takes_chunks else []
                difference = Difference(streams[index], reference, answer, before)
                differing.append((batch[index], difference))
        self.result.streams += len(batch)
        self.result.different += len(differing)
        self.examined = differing[0] if differing else None
        explained = self.find_explained([difference for _, difference in differing])
        for (case, difference), is_explained in zip(differing, explained):
            self.examined = case, difference
            repeated, is_reported = (difference, False) if is_explained else (
                self.repeat_or_report(case, difference))
            if repeated:
                self.examine(case, repeated, is_explained)
            elif not is_reported:  # it was only slow
                self.result.different -= 1
        self.examined = None

    # ---- what is found so far

    def list_excluded(self, but=frozenset()):
        """Lists the rules of which a stream is freed before it is compared again: those left out,
        and those of the classes found so far, but not some of these."""
        return (self.result.list_rules() - but) | self.left_out

    def find_explained(self, differing):
        """Whether each case no longer differs without the rules of the classes found so far."""
        rules = self.result.list_rules()
        if not rules:
            return [False] * len(differing)
        rests = [free_case(difference.chunks, rules, self.house) for difference in differing]
        return [one == other for one, other in self.sides.answer_all(rests)]

    def add(self, name, difference, case, is_smallest=True):
        """Adds a class to what is found, and reports it. It is known if its name or rule is."""
        is_new = name not in self.known and name.partition("/")[0] not in self.known
        finding = Finding(name, difference, case, is_new, is_smallest=is_smallest)
        self.result.findings[name] = finding
        self.report(finding)

    # ---- one difference

    def examine(self, case, difference, is_explained):
        """Counts a case that differs for a class: a new one if it differs without the rules of the
        classes found so far, or in a kind for which its rules have no class yet. Otherwise for one
        of the rule where it differs first."""
        if failure_of(difference.candidate) == PROTOCOL and self.result.count(PROTOCOL):
            return
        if not is_explained and self.report_new(case, difference):
            return
        rules = self.result.list_rules()
        positions = differences_of(difference.reference, difference.candidate) if rules else []
        signatures = [(*find_nearest(difference.chunks, position, rules, self.house), kind)
                      for position, kind in positions]
        if any(self.report_new_kind(case, difference, *signature) for signature in signatures):
            return
        for rule, _, kind in signatures[:1]:
            names = (finding.name for finding in self.result.findings.values()
                     if finding.rule == rule)
            if not self.result.count(f"{rule}/{kind}"):
                self.result.count(next(names, None))

    def report_new(self, case, difference):
        """Reports the class of a case that differs without the rules of the classes found so far.
        Returns whether the case is counted for a class."""
        excluded = self.list_excluded()
        rest = self.sides.find_rest_without(difference, excluded)
        is_left = rest and self.patience.is_left()
        return is_left and self.report_shrunk(case, rest, excluded)

    def report_new_kind(self, case, difference, rule, of_step, kind):
        """The same for a case that differs in a kind for which a rule has no class yet. `of_step`
        are the rules at work where it does."""
        # if several differences meet, there is often another event, which says little
        is_known = kind == "other" or f"{rule}/{kind}" in self.result.findings
        if is_known or not self.patience.is_left_for(rule, kind):
            return False
        excluded = self.list_excluded(of_step)
        rest = self.sides.find_rest_without(difference, excluded, kind)
        if rest:
            self.patience.tries[rule, kind] += 1
        return rest and self.report_shrunk(case, rest, excluded, kind)

    def report_shrunk(self, case, rest, excluded, kind=None):
        """Shrinks a difference without some rules, and reports its class if it is new. Returns
        whether the case is counted for one."""
        most = (MAX_OVER_LIMIT if failure_of(rest.candidate) in LIMITS else
                MAX_CASES // 4 if kind else MAX_CASES)
        tries = Tries(self.time, most)

        def ask(streams):
            return tries.ask(self.sides.find_difference_without, excluded, kind, *streams)

        difference = shrink([rest.chunks], ask, self.candidate.at_once)
        # a kind that doesn't show alone comes from several differences in a row
        is_mixed = difference and kind and len(kinds_of(difference)) > 1
        if self.time.is_over:
            self.examined = case, difference or rest
        if self.time.is_over and not difference:
            raise OutOfTime
        if not difference or is_mixed:
            return False
        repeated, is_reported = self.repeat_or_report(
            case, difference, 1 if self.time.is_over else MORE_TRIES)
        if not repeated:
            return is_reported
        name = self.find_class(difference)
        name = self.find_same(name, difference) or name
        if self.result.count(name):
            self.patience.again += 1
        else:
            self.add(name, difference, case, is_smallest=tries.take_try())
        return True

    def report_examined(self):
        """Reports the difference that there was no time to examine, if nothing was found or there
        is no answer. Its rule is that of where it is."""
        if not self.examined:
            return
        case, difference = self.examined
        position, kind = differences_of(difference.reference, difference.candidate)[0]
        if kind in FAILURES or not self.result.findings:
            rule, _ = find_nearest(difference.chunks, position, {*RULES}, self.house)
            name = PROTOCOL if kind == PROTOCOL else f"{rule}/{kind}"
            if not self.result.count(name):
                self.add(name, difference, case, is_smallest=False)

    def find_class(self, difference):
        """Finds the class of a difference that is shrunk."""
        chunks, reference, candidate, _ = difference
        same, kind = differences_of(reference, candidate)[0]
        if kind == PROTOCOL:
            return PROTOCOL
        stream, needless = b"".join(chunks), []
        is_cut = (self.candidate.takes_chunks and len(chunks) > 1
                  and not self.sides.find_difference([stream]))
        while True:
            rule = find_needed_rule(chunks, is_cut, same, kind, self.house, needless)
            if rule not in INSTEAD or not self.sides.find_difference(
                    [re.sub(*INSTEAD[rule], stream)]):
                return f"{rule}/{kind}"
            needless.append(rule)

    def find_same(self, name, difference):
        """Finds a class of the same rule whose smallest case stands within another, byte after
        byte: what comes after it may differ in another way. None if there is none."""
        rule, _, kind = name.partition("/")
        for other, finding in self.result.findings.items():
            rest = iter(b"".join(difference.chunks))
            is_within = all(byte in rest for byte in b"".join(finding.difference.chunks))
            if finding.rule == rule and kind not in FAILURES and is_within:
                return other
        return None

    # ---- what differs only at times

    def repeat_or_report(self, case, difference, tries=1):
        """Returns the difference that a stream has alone, or None if it has none, and then whether
        it was reported that its answer changes: unless it was only slow."""
        repeated, other = self.repeat(difference, tries)
        if other is None:
            return repeated, False
        self.report_unrepeated(case, repeated, other)
        return None, True

    def repeat(self, difference, tries):
        """Asks about a stream again: alone, and each time in a new process. Returns the difference,
        or None if the program was only slow, and the first other answer, or None if all agree."""
        # a program that doesn't end takes its time again
        for _ in range(min(tries, 2) if failure_of(difference.candidate) in LIMITS else tries):
            again = self.sides.find_difference(difference.chunks)
            if again and is_alike(again, difference):
                continue
            if failure_of(difference.candidate) == "hang":  # it was only slow
                return self.repeat(again, tries) if again else (None, None)
            return difference, again.candidate if again else difference.reference
        return difference._replace(before=[]), None

    def report_unrepeated(self, case, difference, other):
        """Reports or counts that a stream has another answer, too: after others, or at any time."""
        is_known = NOT_DETERMINISTIC in self.result.findings
        after = self.find_after_others(difference) if difference.before and not is_known else None
        name = KEPT_STATE if after else NOT_DETERMINISTIC
        if not self.result.count(name):
            self.add(name, after or Difference(difference.chunks, difference.candidate, other),
                     case)

    def find_after_others(self, difference):
        """Returns the smallest streams whose last is answered so only after the others, or None."""
        if KEPT_STATE in self.result.findings:
            return difference
        tries = Tries(self.time, MAX_CASES // 10)

        def find_change(streams):
            *before, chunks = streams
            after = before and self.sides.find_difference(chunks, before)
            alone = after and self.sides.find_difference(chunks)
            is_alone = alone and is_alike(alone, after)
            return after._replace(before=before) if after and not is_alone else None

        def ask(streams):
            return tries.ask(find_change, streams)

        streams = [*difference.before, difference.chunks]
        smallest = ask(streams) and ask(streams) and shrink(streams, ask)
        if self.time.is_over and not smallest:
            raise OutOfTime
        streams = smallest and [*smallest.before, smallest.chunks]
        is_sure = smallest and (self.time.is_over or all(find_change(streams) for _ in range(4)))
        return smallest if is_sure else None
