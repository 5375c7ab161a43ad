"""The reference and the candidate, whose answers are compared."""
from lib.judging.candidate import failure_of
from lib.judging.classes import Difference, free_case
from lib.judging.kinds import differences_of

# what a program passes when it doesn't end, the first of them
LIMITS = {"hang", "memory", "output"}


class Sides:
    """Both sides, as a view shows them, in the time of a run."""

    def __init__(self, reference, candidate, view, house, time):
        self.reference, self.candidate, self.view, self.house = reference, candidate, view, house
        self.time = time

    def answer_all(self, streams, before=()):
        """Returns both answers to streams, which new processes get after others."""
        self.time.check()
        references = self.reference.answer_all([b"".join(chunks) for chunks in streams])
        answers = self.candidate.answer_all([*before, *streams])[len(before):]
        return [tuple(map(self.view.filter, pair)) for pair in zip(references, answers)]

    def answer_last(self, streams):
        return self.answer_all(streams[-1:], streams[:-1])[0]

    def find_difference(self, chunks, before=()):
        """Finds the difference at a stream, which new processes get after others, or None."""
        reference, answer = self.answer_last([*before, chunks])
        return None if reference == answer else Difference(chunks, reference, answer)

    def find_difference_without(self, rules, kind, chunks):
        """Finds the difference at a stream that has none of some rules, of a kind if one is given,
        or None."""
        is_free = free_case(chunks, rules, self.house) == chunks
        difference = self.find_difference(chunks) if is_free else None
        is_of_kind = difference and (kind is None or kind in kinds_of(difference))
        return difference if is_of_kind else None

    def find_rest_without(self, difference, rules, kind=None):
        """Finds what is left of a difference without some rules."""
        chunks = free_case(difference.chunks, rules, self.house)
        return self.find_difference_without(rules, kind, chunks)


def kinds_of(difference):
    return [kind for _, kind in differences_of(difference.reference, difference.candidate)]


def is_alike(one, other):
    """Whether two answers are wrong in the same way."""
    failures = failure_of(one.candidate), failure_of(other.candidate)
    is_same = failures[0] == failures[1] or LIMITS.issuperset(failures)
    return is_same if failures[0] else one[:3] == other[:3]
