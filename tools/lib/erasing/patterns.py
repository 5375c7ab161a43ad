"""Patterns over the tokens of a file, and what stands in their place.

A pattern is Rust in which `$x` stands for one token, or for a bracket with what is in it; `$$x` for
any number of these without `;`, and `$$$x` for any number, the fewest that fit. Blanks and comments
don't count.
"""
from functools import lru_cache

from lib.erasing.source import CLOSING
from lib.erasing.tokens import COMMENT, split


@lru_cache(maxsize=None)
def _split(pattern):
    """Returns the parts of a pattern: pairs of a number of `$`, and a name or a text."""
    parts, count = [], 0
    for token in split(pattern):
        if token.text == "$":
            count += 1
        elif not token.is_blank:
            parts.append((count, token.text))
            count = 0
    return tuple(parts)


def find(source, at, pattern):
    """Finds the last index of a pattern that begins at an index, and the texts of its names; None
    if it doesn't fit, or a comment would be lost."""
    found = None if source.tokens[at].is_blank else _fit(source, at, _split(pattern), {})
    if found is None:
        return None
    end, indices = found
    kept = {index for first, last in indices.values() for index in range(first, last + 1)}
    if any(source.kind(index) == COMMENT and index not in kept for index in range(at, end)):
        return None
    return end, {name: source.text_between(*ends).strip() for name, ends in indices.items()}


def _fit(source, at, parts, indices):
    """Returns the last index of parts that begin at an index, and the indices of names; or None."""
    end = source.find_before(at)
    for index, (count, name) in enumerate(parts):
        if count == 0:
            if source.text(at) != name:
                return None
            end, at = at, source.find_after(at)
        elif count == 1:
            if (end := _find_element_end(source, at)) is None:
                return None
            indices, at = {**indices, name: (at, end)}, source.find_after(end)
        else:
            return _fit_run(source, at, parts[index:], indices)
    return end, indices


def _fit_run(source, at, parts, indices):
    """Returns the same if the first part stands for any number of tokens."""
    (count, name), rest = parts[0], parts[1:]
    # the comments before it are its own
    last = source.find_before(at)
    first = last + 1
    while True:
        if found := _fit(source, at, rest, {**indices, name: (first, last)}):
            return found
        end = _find_element_end(source, at)
        if end is None or count == 2 and source.is_sign(at, ";"):
            return None
        last, at = end, source.find_after(end)


def _find_element_end(source, at):
    """Finds the last index of one token, or of a bracket; None at the end of what is around it."""
    if source.kind(at) is None or source.is_sign(at, CLOSING):
        return None
    return source.match(at)


def rewrite(source, pattern, by, holds=lambda names: True):
    """Puts `by`, a text with names or a function of them, in the place of each match, from the last
    on, if it holds of its names. Returns how many there were.

    An empty text takes out the comments above, too.
    """
    count, ((is_name, first), *_) = 0, _split(pattern)
    indices = [at for at, token in enumerate(source.tokens) if is_name or token.text == first]
    for at in indices[::-1]:
        if (found := find(source, at, pattern)) and holds(found[1]):
            made = by(found[1]) if callable(by) else fill_names(by, found[1])
            if made:
                source.replace(at, found[0], made)
            else:
                source.cut(source.find_attached(at), found[0])
            count += 1
    if count:
        source.used.add((pattern, by))
    return count


def fill_names(by, names):
    """Returns a text with the texts of names in the place of `$x`."""
    made, is_name = [], False
    for token in split(by):
        if token.text == "$":
            is_name = True
        else:
            made.append(names[token.text] if is_name else token.text)
            is_name = False
    return "".join(made)
