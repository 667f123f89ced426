"""Data of input sections that aren't merged: as many bytes as they have, in some sections of whatever slot."""

from .references import length_of
from .values import all_inputs, optional

# Longer sections get no data, so that texts stay short.
LONGEST = 600
SHARES = (0, 0, 0.1, 0.5, 1)


def random_bytes(rng, length):
    """So many bytes in hexadecimal, with letters of either case."""
    text = rng.randbytes(length).hex()
    return text.upper() if rng.random() < 0.3 else text


def add_contents(rng, description, shares=SHARES):
    """Gives data to a share of the sections that aren't merged, when their sizes and slots are settled."""
    share = rng.choice(shares)
    for entry in all_inputs(description):
        if entry["slot"] != "merge" and length_of(entry) <= LONGEST:
            optional(rng, entry, "data", share, (random_bytes(rng, length_of(entry)),))
