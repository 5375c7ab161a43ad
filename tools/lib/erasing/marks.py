"""Marks: comments beside a line of crates/ that say what cargo's form of it is.

    // proof: ..            a comment that cargo's form hasn't, with the lines that go on
    // cargo: TEXT          TEXT stands here
    // cargo instead: TEXT  the same, and the next line, if it is no such mark, isn't there
    // cargo lacks: WHY     the item, member or statement that follows isn't there
    // cargo defaults: WHY  the method that follows, or each of the trait, does nothing or says no

TEXT is erased as the rest of its file is. Examples of docs in "```rattle" aren't there.
"""
import re
from collections import Counter

from lib.erasing.tokens import COMMENT

MARK = re.compile(r"// (?:(proof): .+|cargo(?: (instead))?:(?: (.*))?|cargo (lacks|defaults): .+)")
LIKE_MARK = re.compile(r"//[/!]? *(?:[Pp]roof|[Cc]argo(?: \w+)?):")
ITEMS = {"const", "enum", "fn", "impl", "mod", "static", "struct", "trait", "type", "use"}


def _read_mark(source, at):
    """Returns the kind and the text of the mark at an index, or twice None."""
    text = source.text(at).rstrip()
    if source.kind(at) != COMMENT or not LIKE_MARK.match(text):
        return None, None
    if not (found := MARK.fullmatch(text)):
        source.refuse(f"unknown mark: {text}", at)
    return found[1] or found[2] or found[4] or "adds", found[3] or ""


def put_lines(source):
    """Takes out comments about proofs, and puts in the lines of marks. Returns how often each word
    stood in the lines that these replace."""
    marks = {at: _read_mark(source, at) for at in range(len(source.tokens))}
    replaced = Counter()
    for at, (kind, text) in reversed(marks.items()):
        if kind == "proof":
            source.cut(at, _find_comment_end(source, at))
        if kind == "instead" and marks[at + 2][0] != "instead":
            end = _find_line_end(source, at + 2)
            replaced.update(token.text for token in source.tokens[at + 2:end + 1])
            del source.tokens[at + 1:end + 1]
        if kind == "adds" and text.endswith("! {"):
            # rustfmt leaves the text of a macro as it is
            end = next(index for index in marks if index > at and marks[index][0])
            _indent(source, at + 1, end)
        if text:
            source.replace(at, at, text)
        elif kind == "instead":
            source.cut(at, at)
    return replaced


def _indent(source, first, last):
    for at in range(first, last):
        if "\n" in source.text(at):
            source.tokens[at] = source.tokens[at]._replace(text=f"{source.text(at)}    ")


def _find_line_end(source, at):
    end = at
    while source.kind(end + 1) and "\n" not in source.text(end + 1):
        end += 1
    return end


def _find_comment_end(source, at):
    while source.text(at + 1).count("\n") == 1 and source.text(at + 2).startswith("// ") \
            and not _read_mark(source, at + 2)[0]:
        at += 2
    return at


def find_item_below(source, at):
    """Finds the index of what follows a mark, after attributes."""
    at = source.find_after(at)
    while source.is_sign(at, "#"):
        at = source.find_after(source.find_attribute_end(at))
    return at


def drop_lacking(source):
    """Takes out what cargo's form hasn't, which are laws too, and the exports of modules that it
    hasn't. Returns these modules."""
    indices = [find_item_below(source, at) for at in range(len(source.tokens))
               if _read_mark(source, at)[0] == "lacks"]
    modules = set()
    for at in sorted(indices + source.find_all("mod laws"), reverse=True):
        word = source.skip_visibility(at)
        if source.is_word(word, "mod"):
            modules.add(source.text(source.find_after(word)))
        source.cut(source.find_attached(source.find_visibility(at)), _find_end(source, word))
    for at in (at for module in modules for at in source.find_all(f"use {module}")):
        start = source.find_visibility(at)
        source.cut(source.find_attached(start), source.find_item_end(start))
    return modules


def _find_end(source, at):
    """Finds the end of an item, a member or a statement."""
    if source.text(at) in ITEMS:
        return source.find_item_end(at)
    while not source.is_sign(at, ",;"):
        at = source.match(at) + 1
    return at


def give_defaults(source):
    """Gives bodies to methods that needn't be implemented."""
    for at in reversed(range(len(source.tokens))):
        if _read_mark(source, at)[0] != "defaults":
            continue
        start = find_item_below(source, at)
        for index in range(source.find_item_end(start), start - 1, -1):
            if source.is_word(index, "fn") \
                    and source.is_sign(end := source.find_item_end(index), ";"):
                says_no = source.is_word(source.find_before(end), "bool")
                source.replace(end, end, " {\nfalse\n}" if says_no else " {}")
        source.cut(at, at)
