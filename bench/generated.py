"""Descriptions of generated links, as the reference makes them."""

import json
import os
import sys

sys.path.append(os.path.join(os.path.dirname(os.path.abspath(__file__)), "..", "reference"))

from rules.generated import generated_description

SEED = 0
SIZES = (1_000, 10_000, 100_000)


def put(path, size):
    """Writes the description of the link of so many objects."""
    with open(path, "w", encoding="ascii") as stream:
        json.dump(generated_description(SEED, size), stream, separators=(",", ":"))
