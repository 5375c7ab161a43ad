"""Shrinks a case that differs: drops bytes and cuts, and replaces bytes by plainer ones, until no
single one can go or become plainer."""
import concurrent.futures
from itertools import accumulate, islice

# a case is a text here: a character for each byte, and one of these for each cut, and between two
# streams
CUT, NEXT = "\u0100", "\u0101"
# in longer cases all bytes of a value are replaced at once
SHORT = 40
# kinds of bytes by their last one, and the bytes tried instead of others of the kind, the plainest
# first
PLAIN = [("\x1a", "a\x0a\x07\x18"), ("\x1b", ""), ("\x1f", "a\x0a"), ("\x7e", "a1;mX"),
         ("\x7f", "a"), ("\x9f", "a\x80"), ("\xbf", "a\xa0"), ("\xc1", "a"), ("\xdf", "a\xc3"),
         ("\xef", "a\xe4"), ("\xf4", "a\xf0"), ("\xff", "a\xff"), (NEXT, "")]


def shrink(streams, ask, at_once=1):
    """Returns what is known of the smallest streams in a row, each in chunks, that were found to
    differ. `ask` returns something of those that do; `at_once` are tried at once."""
    answers = {}

    def answer(text):
        if text not in answers:
            answers[text] = ask(streams_of(text))
        return answers[text]

    def find_first(texts):
        """Finds the first of some texts whose streams differ, or None."""
        texts = iter(texts)
        while batch := list(islice(texts, at_once)):
            differ = threads.map(answer, batch) if at_once > 1 else map(answer, batch)
            found = next((text for text, is_different in zip(batch, differ) if is_different), None)
            if found is not None:
                return found
        return None

    case = NEXT.join(CUT.join(chunk.decode("latin-1") for chunk in chunks) for chunks in streams)
    with concurrent.futures.ThreadPoolExecutor(at_once) as threads:
        case, before = find_first([case.replace(CUT, ""), case]) or case, None
        while case != before:
            before, case = case, find_smallest(case, find_first)
            for position in places_of(case):
                case = find_first(find_plainer(case, position)) or case
    return answer(case)


def find_smallest(items, find_first):
    """Finds a part of a sequence that differs, from which no single item can go. `find_first` gives
    the first of some sequences that differs, or None."""
    size = len(items)
    while size:
        rests = (items[:start] + items[start + size:] for start in range(0, len(items), size))
        rest = find_first(rests)
        items, size = (items, size // 2) if rest is None else (rest, size)
    return items


def places_of(text):
    """Returns the positions of bytes to replace: all, or in a long text the first of each value."""
    return range(len(text)) if len(text) <= SHORT else map(text.index, sorted(set(text)))


def find_plainer(text, position):
    """Returns texts with a plainer byte at a position, and in a long one wherever this byte is."""
    byte, times = text[position], 1 if len(text) <= SHORT else -1
    order = next(order for last, order in PLAIN if byte <= last)
    return [text[:position] + text[position:].replace(byte, plain, times)
            for plain in order.partition(byte)[0]]


def streams_of(text):
    return [[chunk.encode("latin-1") for chunk in stream.split(CUT)]
            for stream in text.split(NEXT)]


def cuts_of(chunks):
    return list(accumulate(map(len, chunks[:-1])))
