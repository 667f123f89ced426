"""What symbols stand for when all is placed, and the entry."""

from .expressions import Late, redirects_of
from .listed import FLAGS, FLAGS_OF, OWN_FILES
from .reach import EDGES, FOLLOWED
from .refusal import merge_offset

WRAP = 2**64


def merged_target(reach, number):
    """The merge section that a symbol stands in, and the offset there; nothing if it stands elsewhere."""
    file, symbol = reach.symbols[number]
    if symbol.at[0] != "sec":
        return None
    entry = file.sections[symbol.at[1]]
    return (entry, symbol.at[2]) if entry.slot == "merge" else None


def is_past_end(reach, number, addend):
    """Whether a reference to a symbol chooses no byte of its merge section. By a name the addend isn't looked at."""
    target = merged_target(reach, number)
    if target is None:
        return False
    entry, offset = target
    if not reach.symbols[number][1].name:
        offset = (offset + addend) % WRAP
    return offset >= len(entry.data)


def check_merge_offsets(reach):
    """Refuses the first symbol with a name, and then the first relocation, that chooses no byte of a merge section."""
    for number, (_, symbol) in enumerate(reach.symbols):
        if symbol.name and reach.is_resolved(number) and is_past_end(reach, number, 0):
            raise merge_offset("symbol %d" % number)
    for place, _, entry in reach.live:
        relocations = entry.relocs if entry.slot in FOLLOWED else []
        for index, (_, kind, symbol, addend, _) in enumerate(relocations):
            if FLAGS_OF[kind] and is_past_end(reach, reach.definition(place, symbol), addend):
                raise merge_offset("%d %d %d relocation %d" % (*place, index))


class Values:
    """The value of each symbol that has one, by its number."""

    def __init__(self, layout):
        self.reach, self.merged, self.owners, self.walk = layout.reach, layout.merged, layout.owners, layout.walk
        self.segments, self.joined, self.shrunk = layout.segments, layout.joined, layout.shrunk
        self.addresses = self.owners.addresses(record.memory for record in self.walk.part_records)
        reach = self.reach
        self.late = {number for number, _, _ in redirects_of(reach.link)}
        self.found = {}
        for number, (file, symbol) in enumerate(reach.symbols):
            if reach.is_resolved(number) and number not in self.late:
                value = self.value_of(number, file, symbol)
                if value is not None:
                    self.found[number] = value
        check_merge_offsets(reach)
        self.evaluate_redirects()

    def value_of(self, number, file, symbol):
        """What a symbol stands for. One without a name in a merge section is 0."""
        kind, *operands = symbol.at
        if file.kind in OWN_FILES:
            return self.own_value(kind, operands)
        target = merged_target(self.reach, number)
        if target is not None:
            return self.address_in_merged(*target) if symbol.name else 0
        if kind == "sec":
            place = (*self.reach.places[id(file)], operands[0])
            return self.addresses["live", place] + self.shrunk.mapped(place, operands[1])
        if kind == "common":
            return self.addresses["common", number]
        return operands[0] if kind == "abs" else 0

    def own_value(self, kind, operands):
        """The value of a symbol of the prelude, a synthetic file or a script; none where no load segment is active."""
        if kind in EDGES:
            return self.edge(kind, operands[0])
        if kind == "tlsend":
            return self.segments.thread_local_end
        if kind == "loadbase":
            loads = [
                record.memory
                for segment, record in self.segments.records.items()
                if self.walk.plan.segments[segment].kind == "load"
            ]
            return loads[0] if loads else None
        return 0

    def edge(self, kind, section):
        """The start or the end of an output section, or the greatest end of it and those that are secondary to it."""
        records = self.walk.section_records
        if kind == "start":
            return records[section].memory
        group = [section]
        if kind == "groupend":
            sections = enumerate(self.walk.plan.sections)
            group += [number for number, other in sections if other.primary == section]
        return max(records[number].memory_end for number in group)

    def address_in_merged(self, entry, offset):
        """The address of an offset inside the data of a merge section; past their end there is none, which is refused."""
        if offset >= len(entry.data):
            return None
        section = self.owners.parts[entry.part][0]
        return self.addresses["merged", section] + self.merged[section].place_of(entry, offset)

    # Redirects

    def evaluate_redirects(self):
        for number, file, symbol in redirects_of(self.reach.link):
            _, expression, location, only_provides = symbol.at
            if only_provides and not self.reach.is_resolved(number):
                continue
            own = file.kind == "script" and location[0] != "none"
            records = self.walk.section_records if own else self.joined
            here = self.location_of(location, records)
            names = Late(self.walk.constants, number, here, records, self.found)
            value = names.value_at("symbol %d" % number, expression)
            if self.reach.is_resolved(number):
                self.found[number] = value

    def location_of(self, location, records):
        kind, *operands = location
        if kind == "none":
            return None
        if kind == "counter":
            return self.walk.counters[operands[0]]
        record = records[operands[0]]
        return record.memory if kind == "start" else record.memory_end


def entry_text(reach, values):
    """The address of the entry, or why it has none."""
    if reach.link.options.entry is None:
        return "-"
    number = reach.definitions[reach.link.options.entry]
    if number not in values:
        return "not loaded"
    if reach.flags[number] & FLAGS["DYNAMIC"] and not reach.flags[number] & FLAGS["ABSOLUTE"]:
        return "not an address"
    return "0x%x" % values[number]
