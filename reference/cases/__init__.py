"""Link descriptions to try a program on: random small ones, and fixed ones at the limits."""

import json
import random

from .contents import add_contents
from .cut import cut_text
from .faults import break_rules
from .fixed import fixed_cases
from .good import good_description, move_to_the_edge
from .images import image_description
from .maps import changed_map
from .merges import add_merges
from .richer import make_richer
from .shapes import break_shape, random_shapes
from .shortened import shortened_description
from .texts import break_text, json_text
from .thread_local import thread_local_description
from .values import objects
from .thunked import thunked_description
from .wide import widen

__all__ = ["case", "changed_map", "cut_case", "fixed_cases", "image_case", "merging_case", "shortened_case", "thread_local_case"]

# Kinds of random descriptions, with their weights.
MIX = {
    "to be laid out": 46,
    "close to the greatest address": 8,
    "with what plain links lack": 9,
    "with a broken rule": 21,
    "with a wrong shape": 8,
    "of random shapes": 8,
}
FAULTS = {"with a broken rule": break_rules, "with a wrong shape": break_shape}
RICHER_SHARE = 0.6
BROKEN_TEXTS = 0.05


def random_description(rng):
    """A description that is laid out, or has one of the reasons to be refused."""
    (kind,) = rng.choices(tuple(MIX), tuple(MIX.values()))
    if kind == "of random shapes":
        return random_shapes(rng)
    description = good_description(rng)
    widen(rng, description)
    if kind == "close to the greatest address":
        move_to_the_edge(rng, description)
    elif kind == "with what plain links lack" or kind in FAULTS and rng.random() < RICHER_SHARE:
        make_richer(rng, description)
    add_contents(rng, description)
    if kind in FAULTS:
        FAULTS[kind](rng, description)
    return description


def case(seed, number):
    """The bytes of the random case of that number."""
    rng = random.Random("%d:%d" % (seed, number))
    text = json_text(rng, random_description(rng)).encode("utf-8", "surrogatepass")
    return break_text(rng, text) if rng.random() < BROKEN_TEXTS else text


def shortened_case(seed, number):
    """The bytes of the random case of that number in which relaxation mostly leaves something out."""
    rng = random.Random("shortened %d:%d" % (seed, number))
    description = shortened_description(rng)
    add_contents(rng, description)
    return json.dumps(description).encode("utf-8", "surrogatepass")


def thread_local_case(seed, number):
    """The bytes of the random case of that number in which a load segment opens behind zero-filled thread-local data."""
    rng = random.Random("tls %d:%d" % (seed, number))
    return json.dumps(thread_local_description(rng)).encode("utf-8", "surrogatepass")


def image_case(seed, number):
    """The bytes of the random case of that number which mostly has an image."""
    rng = random.Random("images %d:%d" % (seed, number))
    return json.dumps(image_description(rng)).encode("utf-8", "surrogatepass")


def thunked_case(seed, number):
    """The bytes of the random case of that number with a primary part, and mostly more code than a branch reaches."""
    rng = random.Random("thunks %d:%d" % (seed, number))
    return json.dumps(thunked_description(rng)).encode("utf-8", "surrogatepass")


def cut_case(seed, number):
    """The bytes of the random case of that number which has several groups and is small, or has a fault between these."""
    return cut_text(random.Random("cut %d:%d" % (seed, number)))


def merging_case(seed, number):
    """The bytes of the random case of that number in which some input sections are merged."""
    rng = random.Random("merging %d:%d" % (seed, number))
    description = good_description(rng)
    while not has_merge_data(description):
        description = good_description(rng)
        add_merges(rng, description)
    widen(rng, description)
    add_contents(rng, description)
    return json.dumps(description).encode("utf-8", "surrogatepass")


def has_merge_data(description):
    """Whether an input section is merged."""
    return any('"slot": "merge"' in json.dumps(file) for file in objects(description))
