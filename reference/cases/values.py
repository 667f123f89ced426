"""Values that random descriptions choose from, and what is looked up in a description."""

import copy

from rules import listed

PAGES = (1, 2, 16, 4096, 4096, 4096, 65536)
ALIGNMENTS = (1, 1, 2, 4, 8, 16, 64, 256, 4096, 65536)
ATTRIBUTES = (1, 1, 1, 3, 3, 5, 5, 17, 19, 0, 0, 16, 2, 7, 23)
BASES = (0, 1, 4096, 4095, 4194304, 4194304, 4194304, 2**32, 2**63)
NAMES = ("a.o", "", "b b.o", "\u00e9\u4e16", 'q"\\/\n\t', "\U0001f600", "x" * 300, "\u0000", ".L1")
TRUTHS = (False, True)


class Written:
    """A JSON value that is written in this way."""

    def __init__(self, text):
        self.text = text


def pick(rng, values):
    """One of the values, as a copy that may be changed."""
    return copy.deepcopy(rng.choice(values))


def optional(rng, fields, name, share, values):
    """Gives an object that field in some share of the cases."""
    if rng.random() < share:
        fields[name] = pick(rng, values)


def all_files(description):
    return [file for group in description["groups"] for file in group]


def objects(description):
    return [file for file in all_files(description) if file.get("kind") == "object"]


def all_inputs(description):
    return [entry for file in objects(description) for entry in file.get("sections", [])]


def all_symbols(description):
    return [symbol for file in all_files(description) for symbol in file.get("symbols", [])]


def all_parts(description):
    return [part for section in description["plan"]["sections"] for part in section["parts"]]


def free_parts(description):
    """The numbers of the parts that aren't tables."""
    plan = description["plan"]
    tables = {plan.get(name) for name in listed.TABLE_PARTS}
    return [part for part in range(len(all_parts(description))) if part not in tables]
