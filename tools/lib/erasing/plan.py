"""Plans: which crates of crates/ become which Rust crate, and what the passes need for that."""
from dataclasses import dataclass, field


def make_table():
    return field(default_factory=dict)


@dataclass(frozen=True)
class Plan:
    """A Rust crate. It says what differs in kind: the sources know one prover and one library, no
    features and no oldest Rust. What differs in one place is a mark there (marks.py)."""

    folder: str  # what is written; nothing else stands there
    modules: dict  # the Rattle crates: the path of each, seen from anywhere in the Rust crate
    conditions: dict = make_table()  # cargo's features with which these are there
    allowed_lints: tuple = ()  # those that the text needn't pass

    # where names come from: by hand in the Rust crate, or from crates that it depends on
    other_crates: dict = make_table()  # those that aren't part of this one
    of_std: dict = make_table()  # modules of std that Rust's `core` hasn't, or has otherwise
    imports: dict = make_table()  # paths, and what is imported instead
    homes: dict = make_table()  # modules, and their names that are imported where they are used

    # the reader, the allocator, unsized performers: patterns, and what stands in their place
    rules: list = field(default_factory=list)

    def list_names(self):
        """Returns the names that are imported where they are used, and from where."""
        return [(name, home) for home, names in self.homes.items() for name in names.split()]

    def list_entries(self):
        """Returns what a plan seeks, each with what it becomes."""
        return {*(rule[:2] for rule in self.rules), *self.list_names(), *self.imports.items(),
                *self.of_std.items(), *self.other_crates.items()}
