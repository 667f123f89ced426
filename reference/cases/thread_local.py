"""Descriptions of several load segments with zero-filled thread-local data before one that opens."""

from .good import good_description, random_parts
from .richer import add_section
from .values import optional
from .wide import add_moves, widen

ATTRIBUTES = (1, 1, 3, 5, 9, 25, 25, 25, 17, 0)
ALWAYS = (False, True)


def runs_of(rng, sections, count):
    """The sections in some order, cut into so many runs, of which some are empty."""
    order = list(range(sections))
    rng.shuffle(order)
    cuts = sorted(rng.randrange(sections + 1) for _ in range(count - 1))
    return [order[first:last] for first, last in zip([0, *cuts], [*cuts, sections])]


def add_load_segments(rng, plan):
    """A load segment round each of some runs of sections, mostly one behind the other."""
    plan["segments"], plan["events"] = [], []
    for run in runs_of(rng, len(plan["sections"]), rng.choice((2, 2, 3, 4))):
        number = len(plan["segments"])
        plan["segments"].append({"kind": "load" if rng.random() < 0.95 else "other"})
        optional(rng, plan["segments"][number], "always", 0.2, ALWAYS)
        inside = [["seg", number], *(["sec", section] for section in run), ["endseg", number]]
        if rng.random() < 0.1:
            inside.insert(rng.randrange(1, len(inside) + 1), inside.pop())
        plan["events"] += inside


def add_other_segment(rng, plan):
    """A segment of thread-local data, or of another kind, across the load segments."""
    number, events = len(plan["segments"]), plan["events"]
    plan["segments"].append({"kind": rng.choice(("tls", "tls", "other"))})
    first, last = sorted(rng.randrange(len(events) + 1) for _ in range(2))
    events.insert(last, ["endseg", number])
    events.insert(first, ["seg", number])


def is_given_back(plan):
    """Whether a load segment opens behind zero-filled thread-local data, with no other section between."""
    behind = False
    for kind, operand, *_ in plan["events"]:
        if kind == "sec":
            behind = plan["sections"][operand].get("attrs", 0) & 24 == 24
        elif kind == "seg" and behind and plan["segments"][operand]["kind"] == "load":
            return True
    return False


def thread_local_description(rng):
    """One in which memory is given back to a load segment; sometimes the location moves, or more is added."""
    description = good_description(rng)
    plan = description["plan"]
    while len(plan["sections"]) < 3:
        add_section(description, random_parts(rng))
    while True:
        for section in plan["sections"]:
            section["attrs"] = rng.choice(ATTRIBUTES)
        add_load_segments(rng, plan)
        if rng.random() < 0.3:
            add_other_segment(rng, plan)
        if is_given_back(plan):
            break
    if rng.random() < 0.3:
        add_moves(rng, description)
    if rng.random() < 0.4:
        widen(rng, description)
    return description
