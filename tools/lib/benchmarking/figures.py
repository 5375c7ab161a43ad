"""The figures of a benchmark: ratios, and the tables of docs/PERFORMANCE.md in Markdown."""
import statistics

from lib.benchmarking.measuring import THEIRS_IN_C

# our side and that of the crate, in the builds that are compared
BUILDS = {"cargo's release profile": ("ours_release", "vte_release"),
          "cargo's best build": ("ours_best", "vte_best"), "Rattle's build": ("rattle", "vte_best")}
# the streams of the tables
COMMON_STREAMS = ["ascii", "prose", "cjk", "emoji", "ls_color", "coloured", "dense_cells",
                  "updates", "osc_title", "sixel", "random"]


class Quartiles:
    """The median of numbers, and the quartiles."""

    def __init__(self, numbers):
        # the quartiles of one number are that
        numbers = numbers if len(numbers) > 1 else 2 * numbers
        self.low, self.median, self.high = statistics.quantiles(numbers, n=4, method="inclusive")

    def __str__(self):
        """Shows the median and the quartiles, with more digits below 0.01."""
        digits = 2 if self.median >= 0.01 else 4
        return f"{self.median:.{digits}f} ({self.low:.{digits}f}–{self.high:.{digits}f})"


def summarize_side(row, side):
    """Returns the nanoseconds per byte of a side."""
    return Quartiles([time for times in row["nanoseconds"][side] for time in times])


def compare_pair(row, ours, other):
    """Returns our times over the other's: in each round, of each placement of our code over each of
    theirs."""
    sides = row["nanoseconds"]
    return Quartiles([our / their for round_of_ours, round_of_others
                      in zip(sides[ours], sides[other])
                      for our in round_of_ours for their in round_of_others])


def compare_sides(row):
    """Compares each pair of sides of a row, by what it is called."""
    sides = row["nanoseconds"]
    if row["kind"] == "calls":
        return {name: compare_pair(row, name, THEIRS_IN_C) for name in sides
                if name != THEIRS_IN_C and THEIRS_IN_C in sides}
    pairs = {"over `advance`": ("ours_best", "`advance`")} if row["kind"] == "strip" else {
        name: pair for name, pair in BUILDS.items() if pair[0] in sides}
    return {name: compare_pair(row, *pair) for name, pair in pairs.items()}


def show_row(row):
    """Shows a row once it is measured."""
    shown = {"ns/byte": summarize_side(row, next(iter(row["nanoseconds"])))} | compare_sides(row)
    return f"{name_row(row)}: {', '.join(f'{name} {figure}' for name, figure in shown.items())}"


def name_row(row):
    return f"{row['kind']} `{row['stream']}` in calls of {row['chunk']:,} B"


def tabulate(rows):
    """Makes the tables of the page, of what was measured."""
    ratios = {(row["kind"], row["stream"]): compare_sides(row) for row in rows
              if row["chunk"] == 4096 and row["stream"] in COMMON_STREAMS}
    stripped = [row for row in rows if row["kind"] == "strip"]
    called = [row for row in rows if row["kind"] == "calls"]
    others = dict.fromkeys(row["kind"] for row in rows)
    if kinds := [kind for kind in others if kind not in ("strip", "calls")]:
        yield tabulate_streams(ratios, kinds)
        yield tabulate_builds(ratios, kinds)
        yield "\n".join(f"- Slower in {build}: {find_slower(rows, build)}." for build in BUILDS)
    if stripped:
        yield tabulate_runs(stripped)
    if called:
        yield tabulate_calls(called)


def tabulate_streams(ratios, kinds):
    """Lists the ratios of each common stream in cargo's release profile."""
    build = next(iter(BUILDS))
    return join_table(["stream", *kinds], [
        [f"`{name}`", *(str(ratios.get((kind, name), {}).get(build, "")) for kind in kinds)]
        for name in COMMON_STREAMS])


def tabulate_builds(ratios, kinds):
    """Lists the ranges of the medians of the common streams."""
    rows = []
    for kind in kinds:
        of_kind = [ratios[kind, name] for name in COMMON_STREAMS if (kind, name) in ratios]
        medians = [[of_stream[build].median for of_stream in of_kind] for build in BUILDS]
        rows.append([f"`{kind}`", *(f"{min(each):.2f} to {max(each):.2f}" if each else ""
                                    for each in medians)])
    return join_table(["", *BUILDS], rows)


def find_slower(rows, build):
    """Names the rows in which we are slower in a build."""
    ratios = [(row, compare_sides(row).get(build)) for row in rows]
    slow = [f"{name_row(row)} {ratio}" for row, ratio in ratios if ratio and ratio.median > 1]
    return ", ".join(slow) or "nothing"


def tabulate_runs(rows):
    """Lists the nanoseconds per byte of each side that strips text, and the ratio."""
    sides = list(rows[0]["nanoseconds"])

    def list_cells(row):
        for side in sides:
            yield f"{summarize_side(row, side).median:.2f}" if side in row["nanoseconds"] else ""
        yield from map(str, compare_sides(row).values())

    return join_table(["stream", "`advance_text`", *sides[1:], *compare_sides(rows[0])],
                      [[f"`{row['stream']}`", *list_cells(row)] for row in rows])


def tabulate_calls(rows):
    """Lists the times of the C library over those of libvterm."""
    return join_table(["stream", "call", *compare_sides(rows[0])], [
        [f"`{row['stream']}`", f"{row['chunk']:,} B", *map(str, compare_sides(row).values())]
        for row in rows])


def join_table(heads, rows):
    lines = [f"| {' | '.join(row)} |" for row in [heads, *rows]]
    return "\n".join([lines[0], f"|{'---|' * len(heads)}", *lines[1:]])
