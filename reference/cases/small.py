"""Every link of two sections in two files: their slots, what they refer to, the entry, and the options."""

import itertools
import json

PLAN = {"page": 1, "sections": [{"parts": [[2, False]]}], "events": [["sec", 0]]}
# The symbols of both files: their own section, the other one's, one that is undefined, and a weak one for it.
OWN, OTHER, MISSING, WEAK = range(4)
REFERENCES = (
    [],
    [[0, "Relative", OWN, -1, False]],
    [[0, "Absolute", OTHER, 1, True]],
    [[0, "Relative", MISSING, 0, False]],
    [[0, "SymbolSize", WEAK, 0, False]],
    [[0, "None", OTHER, 0, True]],
)
SECTIONS = (
    *itertools.product(("must", "unloaded"), REFERENCES),
    *itertools.product(("discard",), (REFERENCES[0], REFERENCES[3])),
)
# Nothing, the sections of both files, one by the other file's symbol, what is undefined, and a dynamic symbol.
ENTRIES = (None, OWN, 4 + OWN, OTHER, WEAK, 8)


def a_file(size, other, missing, slot, relocations):
    """A file of one section of that size, of which the last byte has a symbol."""
    symbols = [
        {"at": ["sec", 0, size - 1]},
        {"at": ["undef"], "def": other},
        missing,
        {"at": ["undef"], "def": MISSING, "weak": True},
    ]
    section = {"slot": slot, "size": size, "relocs": relocations}
    return {"kind": "object", "symbols": symbols, "sections": [section]}


def every_small_link():
    """The bytes of each of them."""
    choices = SECTIONS, SECTIONS, ENTRIES, (True, False), (True, False)
    for one, two, entry, gc, errors in itertools.product(*choices):
        first = a_file(1, 4 + OWN, {"at": ["undef"]}, *one)
        second = a_file(5, OWN, {"at": ["undef"], "def": MISSING}, *two)
        second["symbols"].append({"at": ["abs", 9], "flags": 2})
        options = {"gc": gc, "error_objects": errors}
        if entry is not None:
            options["entry"] = entry
        link = {"options": options, "plan": PLAN, "groups": [[{"kind": "prelude"}, first], [second]]}
        yield json.dumps(link).encode()
