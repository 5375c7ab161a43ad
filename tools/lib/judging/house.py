"""House rules: where terminals rightly differ. Both sides get them, so a parser is judged by the
rules of its house."""
from collections import namedtuple

# for each rule what it may be, the default first; a number stands for any number or none;
# docs/JUDGE.md says what they are about
CHOICES = {
    "encoding": ("utf-8", "bytes"), "malformed": ("subparts", "bytes", "drop"),
    "c1-bytes": ("execute", "replace", "drop"), "c1-characters": ("execute", "print", "drop"),
    "delete": ("print", "drop"), "bell": ("ends", "drop"),
    "command-9c": ("data", "ends"), "device-9c": ("ends", "drop"), "ignored-9c": ("drop", "ends"),
    "terminator": ("event", "silent"), "escaped-commands": ("dispatch", "drop"),
    "cancelled-commands": ("dispatch", "drop"), "empty-commands": ("dispatch", "drop"),
    "colon": ("joins", "separates", "refuses"),
    "limit": 1024, "pieces": 16, "numbers": 32, "largest": 65535,
}
House = namedtuple("House", [name.replace("-", "_") for name in CHOICES],
                   defaults=[choice[0] if isinstance(choice, tuple) else choice
                             for choice in CHOICES.values()])
DEFAULT = House()


def words_of(house):
    """The rules of a house that aren't the defaults, as they are given on the command line."""
    return [f"{name}={'none' if value is None else value}"
            for name, value, default in zip(CHOICES, house, DEFAULT) if value != default]


def house_of(words):
    """Returns the house of words such as `delete=drop`. Raises ValueError."""
    house = DEFAULT
    for word in words:
        name, _, value = word.partition("=")
        if name not in CHOICES:
            raise ValueError(f"unknown house rule {name!r}; choose from {', '.join(CHOICES)}")
        house = house._replace(**{name.replace("-", "_"): value_of(name, value)})
    return house


def value_of(name, value):
    choices = CHOICES[name]
    if isinstance(choices, int):
        least = 1 if name in ("pieces", "numbers") else 0
        if value != "none" and (not value.isdecimal() or int(value) < least):
            raise ValueError(f"{name} is a number from {least} on or none, not {value!r}")
        return None if value == "none" else int(value)
    if value not in choices:
        raise ValueError(f"{name} is one of {', '.join(choices)}, not {value!r}")
    return value
