"""Descriptions that mostly have an image: sections with room for what their relocations write, with data, and with merged data to refer to."""

from .contents import add_contents
from .good import good_description
from .merges import add_merges
from .references import length_of
from .values import all_inputs
from .wide import widen

WORD = 8
DATA_SHARES = (0, 0.5, 0.8, 1)
ADDENDS = (0, 0, 1, -1, 255, 2**32, 2**63 - 1, -(2**63))


def enlarge(rng, description):
    """Gives most sections some bytes more."""
    for entry in all_inputs(description):
        if entry["slot"] != "merge" and "size" in entry and entry["size"] < 600 and rng.random() < 0.7:
            entry["size"] += rng.choice((7, 8, 9, 16, 24))


def settle(rng, entry, row):
    """Makes a relocation one that writes an address, mostly where there is room for it."""
    room = length_of(entry) - WORD
    if room >= 0:
        row[0] = rng.choice((0, room, rng.randint(0, room)))
        row[1] = "Absolute" if rng.random() < 0.7 else row[1]
        row[3] = rng.choice(ADDENDS) if rng.random() < 0.5 else row[3]
    elif row[1] == "Absolute" and rng.random() < 0.97:
        row[1] = "Relative"
    if rng.random() < 0.01:
        row[0] += 1


def image_description(rng):
    """A description that mostly has an image."""
    description = good_description(rng)
    if rng.random() < 0.5:
        add_merges(rng, description)
    widen(rng, description)
    if rng.random() < 0.97:
        description.get("options", {}).pop("relax", None)
    enlarge(rng, description)
    for entry in all_inputs(description):
        for row in entry.get("relocs", []) if entry["slot"] != "discard" else []:
            settle(rng, entry, row)
    add_contents(rng, description, DATA_SHARES)
    return description
