"""Relaxation: bytes of code that are left out where what they refer to is near, pass by pass."""

from .listed import EXECUTABLE, FLAGS
from .reach import FOLLOWED
from .refusal import out_of_reach

MOST_PASSES = 5


class Shrunk:
    """What is left out of each input section: the numbers of its relaxations that were done."""

    def __init__(self, reach):
        self.reach = reach
        self.done = {}

    def ranges(self, place):
        """The start and the length of each range that is left out."""
        relax = self.reach.entries[place].relax
        return [(relax[number][0], relax[number][3]) for number in sorted(self.done.get(place, ()))]

    def size(self, place):
        return self.reach.entries[place].size - sum(length for _, length in self.ranges(place))

    def mapped(self, place, offset):
        """Where an offset is among the bytes that are there; one that isn't is where those behind it are."""
        gone = [min(length, offset - start) for start, length in self.ranges(place) if start < offset]
        return offset - sum(gone)


def is_positioned(entry):
    return entry.slot in FOLLOWED and not entry.sorted


def distance(layout, place, number):
    """How far a relaxation's site is from what it refers to; nothing where that has no place."""
    at, symbol, _, _ = layout.reach.entries[place].relax[number]
    definition = layout.reach.definition(place, symbol)
    target = target_of(layout, definition)
    if target is None:
        return None
    return abs(target - layout.live_address(place) - layout.shrunk.mapped(place, at))


def target_of(layout, definition):
    kind, *operands = layout.reach.symbols[definition][1].at
    if layout.reach.flags[definition] & FLAGS["INTERPOSABLE"]:
        return None
    if kind == "abs":
        return operands[0]
    if definition not in layout.positions:
        return None
    part, offset = layout.positions[definition]
    return layout.walk.part_records[part].memory + offset


def scan(layout, place):
    """The relaxations of a section that can be done now, and by how much the nearest of the others misses."""
    near, margins = set(), []
    for number, (_, _, limit, _) in enumerate(layout.reach.entries[place].relax):
        if number in layout.shrunk.done.get(place, ()):
            continue
        far = distance(layout, place, number)
        if far is None:
            continue
        if far <= limit:
            near.add(number)
        else:
            margins.append(far - limit)
    return near, min(margins, default=None)


def relax(layout):
    """The passes. Each goes by the addresses before it; the walk is made again where sections take fewer bytes."""
    waiting = [
        place
        for place, _, entry in layout.reach.live
        if is_positioned(entry) and entry.attrs & EXECUTABLE
    ]
    for _ in range(MOST_PASSES if layout.link.options.relax else 0):
        found = {place: scan(layout, place) for place in waiting}
        before = layout.capacities()
        for place, (near, _) in found.items():
            layout.shrunk.done.setdefault(place, set()).update(near)
        fall = before - layout.capacities()
        layout.make_owners()
        if fall > 0:
            layout.place()
        margins = {place: margin for place, (_, margin) in found.items() if margin is not None}
        waiting = [place for place in waiting if place in margins and margins[place] <= fall]
        if fall == 0 or not waiting:
            return


def check_relaxed(layout):
    """Refuses the first relaxation that was done and, where all is placed, is too far."""
    for place in sorted(layout.shrunk.done):
        for number in sorted(layout.shrunk.done[place]):
            _, _, limit, _ = layout.reach.entries[place].relax[number]
            if distance(layout, place, number) > limit:
                raise out_of_reach("relaxed", place, number)
