"""What tools/test says in the end: how parts ended, what wasn't tested and why."""
import re

# the last line of a part that counts tests
COUNTS = re.compile(r"^(\d+) passed, (\d+) failed.*\n*\Z", re.MULTILINE)


class Report:
    def __init__(self):
        # of each part that was run: its seconds, `passed` or `FAILED`, the part and what it said
        self.ended = []
        # what wasn't tested and why, and the packages that let it be
        self.missing, self.packages = set(), set()

    def add(self, seconds, ended, part, text):
        """Adds a part that was run, and what it says that it didn't test."""
        self.ended.append((seconds, ended, part, text))
        self.missing.update(re.findall("^missing: (.*)", text, re.MULTILINE))

    def count(self, how):
        return sum(ended == how for _, ended, *_ in self.ended)

    def show(self):
        """Lists what was tested and what wasn't, and counts both. If a part counts its tests, the
        last line has these, too."""
        passed, failed = self.count("passed"), self.count("FAILED")
        print("\ntested:")
        for seconds, ended, part, _ in self.ended:
            print(f"{seconds:5.0f} s  {ended}  {part.name}")
        if self.missing:
            print("not tested:", *(f"    {line}" for line in sorted(self.missing)), sep="\n")
        print(f"{passed} passed, {failed} failed, {len(self.missing)} not tested")
        if self.packages:
            print(f"apt install {' '.join(sorted(self.packages))}  # on Debian 12, to test more")
        for _, _, part, text in self.ended:
            if part.counts_tests and (counts := COUNTS.search(text)):
                print(f"{passed + int(counts[1])} passed, {failed + int(counts[2])} failed")
