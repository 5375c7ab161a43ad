"""The kind of a difference between two answers, the second half of the name of its class."""
import os
from difflib import SequenceMatcher

from lib.judging.candidate import failure_of

# the same event comes with another field
FIELDS = {
    "character": "an event has another character or byte",
    "numbers": "a sequence has other numbers", "ignore": "the field ignore differs",
    "intermediates": "a sequence has other intermediates", "final": "it has another final byte",
    "bell": "the field bell_terminated differs", "pieces": "a command has other pieces",
    "data": "the data of a command differ"}
# there is no right answer
FAILURES = {
    "crash": "the program failed", "hang": "it gave no answer in time",
    "memory": "it took more memory than it may", "output": "it printed more than it may"}
KINDS = {
    "missing": "an event isn't there", "extra": "there is an event too many",
    "leaked": "text is printed that is no text", "other": "there is another event",
    "replacement": "there are more or fewer U+FFFD, and nothing else differs", **FIELDS, **FAILURES}
# answers with more lines between their common ends are compared at their first difference alone
MAX_LINES = 600
REPLACEMENT = "print fffd"


def find_first_difference(reference, candidate):
    """Finds the number of lines, or of characters, with which both begin."""
    return len(os.path.commonprefix([reference, candidate]))


def differences_of(reference, candidate):
    """Returns the positions and kinds of the differences, in order. A position is a number of the
    reference's lines."""
    failure = failure_of(candidate)
    if failure:
        return [(min(len(candidate) - 1, len(reference)), failure)]
    start = find_first_difference(reference, candidate)
    same = find_first_difference(reference[start:][::-1], candidate[start:][::-1])
    one, other = reference[start:len(reference) - same], candidate[start:len(candidate) - same]
    if max(len(one), len(other)) > MAX_LINES:
        return [(start, kind_of(one[:1], other[:1]))]
    codes = SequenceMatcher(None, one, other, autojunk=False).get_opcodes()
    return [(start + first, kind_of(one[first:last], other[begin:end]))
            for tag, first, last, begin, end in codes if tag != "equal"]


def kind_of(reference, candidate):
    """Returns the kind of the difference of lines, of which none is the same."""
    if {*reference, *candidate} == {REPLACEMENT}:
        return "replacement"
    if not candidate:
        return "missing"
    prints = [any(line.startswith("print ") for line in lines) for lines in (reference, candidate)]
    is_leak = prints == [False, True]
    if not reference:
        return "leaked" if is_leak else "extra"
    for one, other in zip(reference, candidate):
        if one.partition(" ")[0] == other.partition(" ")[0]:
            return kind_of_field(one, other)
    return "leaked" if is_leak else "other"


def kind_of_field(one, other):
    """Returns which field of two lines of a method differs first."""
    method, *fields = one.split(" ")
    others = other.split(" ")[1:]
    if method == "osc":
        data = ["".join(pieces[2:]).replace("-", "") for pieces in (fields, others)]
        is_data = len(fields) == len(others) and data[0] != data[1]
        return "bell" if fields[0] != others[0] else "data" if is_data else "pieces"
    if method in ("csi", "hook", "esc"):
        names = ["numbers", "intermediates", "ignore", "final"][method == "esc":]
        return next(name for name, field, other in zip(names, fields, others) if field != other)
    return "character"
