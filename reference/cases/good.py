"""Random well-formed descriptions of plain links: sections, symbols, references, and strings that are merged."""

import json

import reference
from rules import listed

from .merges import add_merges
from .references import add_references
from .values import ALIGNMENTS, ATTRIBUTES, BASES, NAMES, PAGES, TRUTHS, all_inputs, optional

OPTIONS = {
    "output": ("static",),
    **dict.fromkeys(("gc", "error_objects", "error_dynamics", "export_all"), TRUTHS),
    **dict.fromkeys(("restrictive", "strip_all"), TRUTHS),
    "export_list": ([], ["f"], ["a", "", "a"]),
    "discard": listed.DISCARDS,
    "strip_names": ([], ["\u00e9"], ["b", "c"]),
    "identity": NAMES,
    "stack": (0, 1, 7, 4096, 2**63, 2**64 - 1),
    "relax": (False,),
    "branch_range": (0, 0, 2_097_153, 3_145_728, 2**64 - 1),
    "bucket_limit": (1, 600, 268_435_456, 268_435_456),
    "merge_group": (1, 140_000, 4_294_967_296),
}
REFERRING_SHARE = 0.7
MERGING_SHARE = 0.4


def random_size(rng):
    shape = rng.random()
    if shape < 0.15:
        return 0
    if shape < 0.9:
        return rng.randrange(1, 40)
    if shape < 0.98:
        return rng.randrange(1, 300000)
    return rng.choice((2**32, 2**62, 2**63 - 1, 2**63, 2**64 - 70000, 2**64 - 2, 2**64 - 1))


def random_parts(rng):
    alignments = sorted({rng.choice(ALIGNMENTS) for _ in range(rng.choice((1, 1, 1, 2, 3, 5)))})
    return [[alignment, rng.random() < 0.3] for alignment in reversed(alignments)]


def random_section(rng):
    section = {"attrs": rng.choice(ATTRIBUTES), "parts": random_parts(rng)}
    optional(rng, section, "name", 0.5, NAMES)
    optional(rng, section, "align", 0.2, ALIGNMENTS)
    optional(rng, section, "emit", 0.25, ("auto", "always", "always", "never", "never"))
    optional(rng, section, "top", 0.05, TRUTHS)
    optional(rng, section, "counters", 0.05, TRUTHS)
    if section["attrs"] == 0 and rng.random() < 0.3:
        del section["attrs"]
    return section


def random_segment(rng):
    segment = {"kind": rng.choice(("load",) * 8 + ("other", "stack"))}
    optional(rng, segment, "always", 0.2, TRUTHS)
    return segment


def random_events(rng, sections, segments):
    """Each section once, and each segment opened and later closed, mostly round sections."""
    order = list(range(len(sections)))
    rng.shuffle(order)
    events = [["sec", section] for section in order]
    allocated = [place for place, section in enumerate(order) if sections[section].get("attrs", 0) & 1]
    for segment in range(segments):
        if segment == 0 and allocated and rng.random() < 0.85:
            first, last = 0, len(events)
        else:
            first, last = sorted(rng.randrange(len(events) + 1) for _ in range(2))
        events.insert(last, ["endseg", segment])
        events.insert(first, ["seg", segment])
    return events


def split_events(rng, sections, segments):
    """The sections cut into runs, one for each segment, with the unallocated ones mostly outside."""
    order = list(range(len(sections)))
    rng.shuffle(order)
    outside = [section for section in order if not sections[section].get("attrs", 0) & 1]
    inside = [section for section in order if section not in outside or rng.random() < 0.1]
    events = []
    for segment in range(segments):
        first = len(inside) * segment // segments
        last = len(inside) * (segment + 1) // segments
        events += [["seg", segment], *(["sec", section] for section in inside[first:last])]
        events.append(["endseg", segment])
    return events + [["sec", section] for section in outside if section not in inside]


def random_input(rng, part_count):
    entry = {"slot": "must", "part": rng.randrange(part_count), "size": random_size(rng)}
    if entry["size"] == 0 and rng.random() < 0.5:
        del entry["size"]
    if entry["part"] == 0 and rng.random() < 0.5:
        del entry["part"]
    optional(rng, entry, "name", 0.2, NAMES)
    optional(rng, entry, "strings", 0.05, TRUTHS)
    optional(rng, entry, "sorted", 0.05, (False,))
    optional(rng, entry, "attrs", 0.3, (0, 2, 4, 6))
    optional(rng, entry, "relocs", 0.05, ([],))
    optional(rng, entry, "relax", 0.05, ([],))
    return entry


def random_file(rng, part_count):
    file = {"kind": "object"}
    optional(rng, file, "name", 0.8, NAMES)
    optional(rng, file, "symbols", 0.1, ([],))
    if rng.random() < 0.9:
        count = rng.choice((0, 1, 2, 3, 5, 9)) if part_count else 0
        file["sections"] = [random_input(rng, part_count) for _ in range(count)]
    random_marks(rng, file)
    return file


def random_marks(rng, file):
    """Fields of any file that change nothing yet."""
    optional(rng, file, "archive", 0.1, TRUTHS)
    optional(rng, file, "export", 0.1, TRUTHS)
    optional(rng, file, "check", 0.1, TRUTHS)
    optional(rng, file, "candidates", 0.1, ([],))


def random_options(rng):
    options = {}
    for name, values in OPTIONS.items():
        optional(rng, options, name, 0.2, values)
    return options


def random_plan(rng):
    sections = [random_section(rng) for _ in range(rng.choice((0, 1, 2, 3, 4, 6, 9)))]
    segments = rng.choice((0, 1, 1, 1, 2, 3, 5)) if sections else rng.choice((0, 0, 1))
    arrange = split_events if segments and rng.random() < 0.6 else random_events
    plan = {"page": rng.choice(PAGES), "sections": sections}
    if rng.random() < 0.85:
        plan["base"] = ["num", rng.choice(BASES)]
    plan["segments"] = [random_segment(rng) for _ in range(segments)]
    plan["events"] = arrange(rng, sections, segments)
    for name in listed.PLAN_TRUTHS:
        optional(rng, plan, name, 0.05, (False,))
    optional(rng, plan, "regions", 0.05, ([],))
    return plan


def good_description(rng):
    """A well-formed description; its layout may still be refused."""
    plan = random_plan(rng)
    part_count = sum(len(section["parts"]) for section in plan["sections"])
    groups = [
        [random_file(rng, part_count) for _ in range(rng.choice((0, 1, 1, 2, 4)))]
        for _ in range(rng.choice((1, 2, 2, 3, 5)))
    ]
    prelude = {"kind": "prelude"}
    random_marks(rng, prelude)
    optional(rng, prelude, "sections", 0.05, (7, [], [{"slot": "debug"}]))
    optional(rng, prelude, "symbols", 0.05, ([],))
    groups[0].insert(0, prelude)
    description = {"plan": plan, "groups": groups}
    if rng.random() < 0.4:
        description["options"] = random_options(rng)
    if rng.random() < MERGING_SHARE:
        add_merges(rng, description)
    if rng.random() < REFERRING_SHARE:
        add_references(rng, description)
    return description


# Descriptions whose numbers end close to the greatest one


def greatest_ends(description):
    """The greatest ends in memory and in the file, or None where the layout is refused."""
    status, text = reference.answer(["layout", "0"], json.dumps(description).encode())
    if status != reference.LAID_OUT:
        return None
    lines = [line.split() for line in text.decode().splitlines() if line.startswith("part ")]
    memory = [int(words[3], 16) + int(words[4]) for words in lines]
    file = [int(words[6], 16) + int(words[7]) for words in lines]
    return max(memory, default=0), max(file, default=0)


def move_to_the_edge(rng, description):
    """Moves the base, or grows a section, so that an end comes close to 2^64."""
    ends = greatest_ends(description)
    if ends is None:
        return
    inputs = all_inputs(description)
    by = rng.choice((-70000, -4097, -4096, -17, -1, 0, 0, 1, 1, 2, 5, 16, 4096))
    base = description["plan"].get("base", ["num", 0])
    if base[0] == "num" and (rng.random() < 0.5 or not inputs):
        base = base[1] + 2**64 - 1 - ends[0] + by
        description["plan"]["base"] = ["num", min(max(base, 0), 2**64 - 1)]
    elif inputs:
        entry = rng.choice(inputs)
        size = entry.get("size", 0) + 2**64 - 1 - rng.choice(ends) + by
        entry["size"] = min(max(size, 0), 2**64 - 1)
