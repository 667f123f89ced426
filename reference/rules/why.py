"""Why an input section is kept: a shortest path of asks to it from a root, and of these the one by the least units."""

from .links import inputs_of
from .reach import DEBUG, FOLLOWED, GROUPED, Reach
from .refusal import REFUSED, Refusal


def order(unit):
    """Symbols come before sections, by their numbers; sections by group, file and index."""
    return (1, *unit) if isinstance(unit, tuple) else (0, unit)


class Paths:
    """The units of a link, with their distances from the roots, as far as they have one."""

    def __init__(self, link):
        self.reach = Reach(link)
        self.entries = {place: entry for place, _, entry in inputs_of(link)}
        self.groups = {}
        for place, entry in self.entries.items():
            if entry.group is not None and entry.slot in GROUPED:
                self.groups.setdefault((place[:2], entry.group), []).append(place)
        self.askers, self.distances = {}, {}
        roots = {unit for unit, _, _ in self.reach.roots() if unit is not None}
        self.distances.update(dict.fromkeys(roots, 1))
        level = roots
        while level:
            level = self.next_level(level)

    def asked_by(self, unit):
        """The units that a unit asks for: each other member of its group, too."""
        yield from (other for other, _, _ in self.reach.asks_of(unit) if other is not None)
        if isinstance(unit, tuple):
            entry = self.entries[unit]
            if entry.group is not None and entry.slot in FOLLOWED + DEBUG:
                yield from (other for other in self.groups.get((unit[:2], entry.group), []) if other != unit)

    def next_level(self, level):
        """The units that those of a level ask for and that are at no distance yet; each is asked for by all of these."""
        found = {}
        for asker in level:
            for unit in self.asked_by(asker):
                if unit not in self.distances:
                    found.setdefault(unit, set()).add(asker)
        for unit, askers in found.items():
            self.askers[unit] = min(askers, key=order)
        distance = 1 + max(self.distances[asker] for asker in level)
        self.distances.update(dict.fromkeys(found, distance))
        return set(found)

    def path_to(self, unit):
        """The units from the first one on, or None where the unit isn't reached."""
        if unit not in self.distances:
            return None
        path = [unit]
        while path[-1] in self.askers:
            path.append(self.askers[path[-1]])
        return path[::-1]


def unit_line(unit):
    return "section %d %d %d" % unit if isinstance(unit, tuple) else "symbol %d" % unit


def why_lines(link, place):
    """What is told of a section, by its group, file and index."""
    paths = Paths(link)
    if place not in paths.entries:
        raise Refusal(REFUSED, "no such section: %d %d %d" % place)
    yield "why %d %d %d" % place
    path = paths.path_to(place)
    if path is None:
        yield "not reached"
    else:
        yield from map(unit_line, path)
    yield "end"
