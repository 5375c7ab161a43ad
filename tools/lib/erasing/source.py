"""The tokens of one file, with the ways to find items and to change them."""
from lib.erasing.tokens import COMMENT, SIGN, SPACE, Refused, Token, split

OPENING, CLOSING = "([{", ")]}"


class Source:
    """A file that is being erased.

    An index is that of a token. One outside the file has the text "" and no kind.
    """

    def __init__(self, text):
        self.tokens = split(text)
        self.used = set()  # the entries of the plan (Plan.list_entries) that were of use here

    def text(self, at):
        return self.tokens[at].text if 0 <= at < len(self.tokens) else ""

    def kind(self, at):
        return self.tokens[at].kind if 0 <= at < len(self.tokens) else None

    def text_between(self, first, last):
        """Returns the text between two indices, with both."""
        return "".join(token.text for token in self.tokens[first : last + 1])

    def is_sign(self, at, signs):
        """Whether one of these signs is the token at an index."""
        return self.kind(at) == SIGN and self.text(at) in signs

    def is_word(self, at, *words):
        return self.text(at) in words

    def refuse(self, message, at=0):
        raise Refused(message, self.tokens[at].line if self.tokens else 1)

    # Finding

    def find_solid(self, at, step=1):
        """Finds the first index from `at` on, by `step`, that is neither space nor comment."""
        while self.kind(at) in (SPACE, COMMENT):
            at += step
        return at

    def find_after(self, at):
        return self.find_solid(at + 1)

    def find_before(self, at):
        return self.find_solid(at - 1, -1)

    def read_words(self, at, count):
        """Returns the texts of the next `count` solid tokens."""
        texts = []
        for _ in range(count):
            texts.append(self.text(at))
            at = self.find_after(at)
        return texts

    def match(self, at):
        """The bracket that belongs to the one at an index, or the index if there is none."""
        depth, step = 0, 1 if self.text(at) in OPENING else -1
        for index in range(at, len(self.tokens) if step > 0 else -1, step):
            depth += self.is_sign(index, OPENING) - self.is_sign(index, CLOSING)
            if depth == 0:
                return index
        return self.refuse("unclosed bracket", at)

    def find_item_end(self, at):
        """Finds the end of the item at an index: its `;`, or the brace that closes its block."""
        start, word = at, self.skip_visibility(at)
        has_block = self.text(self.find_after(word)) == "fn" or not self.is_word(
            word, "use", "static", "const", "type")
        while at < len(self.tokens):
            if has_block and self.is_sign(at, "{"):
                return self.match(at)
            if self.is_sign(at, ";"):
                return at
            at = (self.match(at) if self.is_sign(at, OPENING) else at) + 1
        return self.refuse("unclosed item", start)

    def skip_visibility(self, at):
        if self.text(at) == "pub":
            at = self.find_after(at)
            if self.is_sign(at, "("):
                at = self.find_after(self.match(at))
        return at

    def find_visibility(self, at):
        before = self.find_before(at)
        if self.is_sign(before, ")"):
            return self.find_before(self.match(before))
        return before if self.text(before) == "pub" else at

    def find_attribute_end(self, at):
        """Finds the `]` of the attribute at an index, or None if an item begins there."""
        bracket = self.find_after(at)
        if self.is_sign(bracket, "!"):
            bracket = self.find_after(bracket)
        return self.match(bracket) if self.is_sign(bracket, "[") else None

    def find_items(self):
        """The first and last indices of the items at the top of the file, the last one first."""
        found, at = [], self.find_solid(0)
        while at < len(self.tokens):
            if (end := self.find_attribute_end(at)) is None:
                end = self.find_item_end(at)
                found.append((at, end))
            at = self.find_after(end)
        return reversed(found)

    def find_all(self, front):
        """Finds the indices of what begins with these words, the last one first."""
        wanted = [token.text for token in split(front) if not token.is_blank]
        found = [at for at, token in enumerate(self.tokens) if token.text == wanted[0]
                 and self.read_words(at, len(wanted)) == wanted]
        return found[::-1]

    def find_attached(self, at):
        """Where the comments and attributes begin that stand right above what is at an index."""
        start = at
        while True:
            index = start - 1
            if self.kind(index) == SPACE and self.text(index).count("\n") <= 1:
                index -= 1
            begins_line = index == 0 or "\n" in self.text(index - 1)
            is_of_file = self.text(index).startswith("//!")
            if self.kind(index) == COMMENT and not is_of_file and begins_line:
                start = index
            elif self.is_sign(index, "]") and self.is_sign(self.match(index) - 1, "#"):
                start = self.match(index) - 1
            else:
                return start

    # Changing

    def cut(self, start, end):
        """Takes tokens out. Of the blank lines on both sides the greater number stays."""
        del self.tokens[start : end + 1]
        if self.kind(start - 1) == SPACE and self.kind(start) == SPACE:
            counts = [self.text(at).count("\n") for at in (start - 1, start)]
            del self.tokens[start - 1 if counts[0] < counts[1] else start]

    def replace(self, start, end, text):
        """Puts other text in the place of tokens."""
        line = self.tokens[start].line
        self.tokens[start : end + 1] = [Token(token.kind, token.text, line)
                                        for token in split(text)]

    def insert(self, at, text):
        self.replace(at, at - 1, text)

    def join_text(self):
        """Returns the text of the file as it is now."""
        return self.text_between(0, len(self.tokens)).strip("\n") + "\n"
