"""Sections that are merged: strings and constants of few different bytes, so that many of them are equal."""

from .values import all_parts, free_parts, objects, optional

# Strings without their ends. Those of one letter stand in eleven buckets of sixteen; `a` and `q` share theirs.
STRINGS = ("", "61", "62", "71", "6162", "616261", "63", "64", "65", "ff", "20" * 40, "78" * 299, "00" * 255)
CONSTANTS = ("", "00", "61", "6100", "01020304", "0102030405060708", "62" * 256, "aa" * 300)
# The most bytes of a bucket, mostly enough for what there is.
LIMITS = (0, 1, 2, 3, 4, 5, 9, 300, 700, 268_435_456)
ENDED_SHARE = 0.97


def random_data(rng):
    """Fields of a section of strings, which mostly end in a zero byte, or of a constant."""
    if rng.random() < 0.35:
        return {"data": rng.choice(CONSTANTS)}
    count = rng.choice((0, 1, 1, 2, 3, 5, 12))
    data = "".join(rng.choice(STRINGS) + "00" for _ in range(count))
    if rng.random() > ENDED_SHARE:
        data += rng.choice(("61", "0061", "ff"))
    return {"strings": True, "data": data}


def merged_parts(description):
    """The parts to which sections that are merged may go."""
    parts = all_parts(description)
    return [part for part in free_parts(description) if parts[part][0] == 1]


def random_merge(rng, part):
    entry = {"slot": "merge", "part": part, **random_data(rng)}
    optional(rng, entry, "attrs", 0.15, (2, 4, 6))
    optional(rng, entry, "size", 0.1, (0, 1, 2**64 - 1))
    return entry


def add_merges(rng, description):
    """Puts sections that are merged into some objects, all to one part or to several."""
    parts, files = merged_parts(description), objects(description)
    if not parts or not files:
        return
    chosen = rng.sample(parts, rng.choice((1, 1, min(2, len(parts)), len(parts))))
    for _ in range(rng.choice((1, 1, 2, 3, 6))):
        held = rng.choice(files).setdefault("sections", [])
        held.insert(rng.randrange(len(held) + 1), random_merge(rng, rng.choice(chosen)))
    if rng.random() < 0.3:
        description.setdefault("options", {})["bucket_limit"] = rng.choice(LIMITS)
