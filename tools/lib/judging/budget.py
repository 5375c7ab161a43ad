"""What a run may take: its time, and the tries to shrink what differs."""
import time
from collections import Counter
from itertools import islice

from lib.judging.candidate import OutOfTime

# the seconds after the end of the time in which what is found is tried once more, by trial
GRACE = 3
# a batch that takes this many seconds is followed by a smaller one, by trial: what differs is
# reported after its batch
LONG_BATCH = 2
# how many differences are shrunk that turn out to be of a class that was found before, and for one
# rule and kind. By trial: in 1,217 streams each of 14 planted faults had at most 3 of the former,
# and with 100 for the latter no more classes
MAX_AGAIN, MAX_TRIES = 20, 3


class Time:
    """The time of a run, at whose end the candidate answers no more. What was found by then is
    tried alone, in a time of grace."""

    def __init__(self, candidate):
        self.candidate, self.end, self.is_over = candidate, candidate.deadline, False

    def check(self):
        """Raises OutOfTime at the end."""
        deadline = self.candidate.deadline
        if deadline is not None and time.monotonic() >= deadline:
            raise OutOfTime

    def ask(self, question, *about):
        """Returns the answer to a question about something, or None if the time is over."""
        try:
            return None if self.is_over else question(*about)
        except OutOfTime:
            self.is_over, self.candidate.deadline = True, self.end + GRACE
            return None

    def make_batches(self, cases):
        """Yields the cases in batches: of few at first, and then of more as long as they take
        little time. Raises OutOfTime if the time is over and cases are left."""
        cases, size = iter(cases), 2
        while batch := list(islice(cases, size)):
            start = time.monotonic()
            yield batch
            if self.is_over and next(cases, None):
                raise OutOfTime
            is_fast = time.monotonic() - start < LONG_BATCH
            size = min(2 * size, self.candidate.batch) if is_fast else max(1, size // 2)


class Tries:
    """A number of questions that may be asked while there is time."""

    def __init__(self, time, most):
        self.time, self.left = time, iter(range(most))

    def ask(self, question, *about):
        """Returns the answer to a question about something, or None if no more may be asked."""
        return self.time.ask(question, *about) if self.take_try() else None

    def take_try(self):
        """Takes a try, and returns whether one was left, and time."""
        return not self.time.is_over and next(self.left, None) is not None


class Patience:
    """How much is still shrunk of what is likely to be of a known class."""

    def __init__(self):
        # the shrunk differences whose class was found before, and those of a rule and a kind
        self.again, self.tries = 0, Counter()

    def is_left(self):
        return self.again < MAX_AGAIN

    def is_left_for(self, rule, kind):
        return self.tries[rule, kind] < MAX_TRIES
