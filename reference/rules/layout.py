"""The layout of a checked description: sizes, places, segments, symbols, and the lines of the report."""

from .links import parts_of
from .listed import EXECUTABLE
from .merging import merged_sections
from .owners import Owners
from .placement import Planned, Segments, Walk, is_plain, merged_records
from .reach import reach_of
from .relaxing import Shrunk, check_relaxed, is_positioned, relax
from .symbols import Values, entry_text
from .tables import Tables
from .thunks import Blocks, check_branches


class Layout:
    """All that a layout is made of, in the order in which it is worked out and refused."""

    def __init__(self, link):
        self.link, self.parts = link, parts_of(link)
        self.merged = merged_sections(link)
        self.reach = reach_of(link)
        self.shrunk, self.blocks = Shrunk(self.reach), None
        content = Owners(link, self.reach, self.merged, self.shrunk)
        self.tables = Tables(link, self.reach, content)
        self.make_owners()
        self.owners.check_sizes()
        self.blocks = Blocks(link, self.reach, self.code_before_primary())
        self.make_owners()
        self.owners.check_sizes()
        self.place()
        relax(self)
        self.joined = merged_records(self.walk)
        self.segments = Segments(link, self.walk, self.tables.emitted, self.tables.active)
        values = Values(self)
        self.values, self.addresses = values.found, values.addresses
        check_branches(self)
        check_relaxed(self)

    def make_owners(self):
        """What takes bytes of each part by what is known now, and where symbols are in their parts."""
        self.owners = Owners(self.link, self.reach, self.merged, self.shrunk, self.blocks)
        self.owners.add_tables(self.tables)
        self.starts = self.owners.addresses([0] * len(self.parts))
        self.positions = {}
        for number, (file, symbol) in enumerate(self.reach.symbols):
            if symbol.at[0] != "sec" or file.kind != "object":
                continue
            place = (*self.reach.places[id(file)], symbol.at[1])
            entry = file.sections[symbol.at[1]]
            if self.reach.is_live(place) and is_positioned(entry):
                offset = self.starts["live", place] + self.shrunk.mapped(place, symbol.at[2])
                self.positions[number] = entry.part, offset

    def code_before_primary(self):
        """The bytes of executable output sections, without the primary part."""
        attributes = self.attributes()
        return sum(
            size
            for part, ((section, _, _), size) in enumerate(zip(self.parts, self.owners.sizes))
            if attributes[section] & EXECUTABLE and part != self.link.plan.named["primary"]
        )

    def place(self):
        self.planned = Planned(self.link, self.parts, self.owners.sizes)
        self.walk = Walk(self.link, self.planned, self.positions, self.tables.headers())

    def capacities(self):
        """The bytes that all live sections take together."""
        return sum(self.owners.section_bytes(place, entry) for place, _, entry in self.reach.live)

    def live_address(self, place):
        """Where a live section stands by the last walk."""
        part = self.reach.entries[place].part
        return self.walk.part_records[part].memory + self.starts["live", place]

    def entry_address(self, table, number):
        """Where the entries of a symbol in a table begin, if it has any."""
        if self.owners.bytes_of((table, number)) == 0:
            return "-"
        return "0x%x" % self.addresses[table, number]

    def attributes(self):
        """The attributes of each output section, with those of its live and merged sections."""
        attributes = [section.attrs for section in self.link.plan.sections]
        entries = [entry for _, _, entry in self.reach.live]
        for entry in entries + [entry for image in self.merged for entry in image.entries]:
            attributes[self.parts[entry.part][0]] |= entry.attrs
        if self.tables.is_partial and self.link.plan.singletons is not None:
            attributes[self.link.plan.singletons] = 0
        return attributes


# The report


def section_lines(layout):
    attributes = layout.attributes()
    for section, record in enumerate(layout.walk.section_records):
        yield "section %d index %s %s lma 0x%x attrs %d" % (
            section,
            layout.tables.emitted.get(section, "-"),
            record.line(),
            record.load,
            attributes[section],
        )


def part_lines(layout):
    planned = layout.planned
    for part, record in enumerate(layout.walk.part_records):
        if part in planned.walked_parts(layout.parts[part][0]):
            yield "part %d %s" % (part, record.line())


def live_lines(layout):
    for place, _, _ in layout.reach.live:
        yield "live %d %d %d 0x%x %d" % (*place, layout.addresses["live", place], layout.shrunk.size(place))


def single_lines(layout):
    for index, place in enumerate(layout.tables.singletons, len(layout.tables.emitted)):
        yield "single %d %d %d %d" % (*place, index)


def merged_lines(layout):
    """A line for each output section that something is merged into, and then one for each distinct piece."""
    for section, image in enumerate(layout.merged):
        if image.entries:
            counts = image.length, len(image.distinct), len(image.pieces), sum(map(len, image.pieces))
            start = layout.addresses["merged", section]
            yield "merged %d %d %d %d %d 0x%x" % (section, *counts, start)
    for section, image in enumerate(layout.merged):
        for piece in image.distinct:
            start = layout.addresses["merged", section] + image.places[piece]
            yield "piece %d 0x%x %d" % (section, start, len(piece))


def thunk_lines(layout):
    """A line for each block that an object owns, and then one for each thunk."""
    for block, (group, number) in layout.blocks.owner_of.items():
        yield "block %d %d %d" % (block, group, number)
    for block, symbols in enumerate(layout.blocks.sets):
        for number in symbols:
            address = layout.blocks.thunk_address(layout.addresses, block, number)
            yield "thunk %d %d %s" % (block, number, "-" if address is None else "0x%x" % address)


def symbol_lines(layout):
    for number, value in sorted(layout.values.items()):
        entries = [layout.entry_address(table, number) for table in ("got", "plt")]
        index = layout.tables.dynamic.get(number, "-")
        flags = layout.reach.flags[number]
        yield "symbol %d 0x%x %d got %s plt %s dyn %s" % (number, value, flags, *entries, index)


def report(link):
    """The lines of the layout of a link."""
    layout = Layout(link)
    yield "layout"
    yield from section_lines(layout)
    yield from part_lines(layout)
    for segment, record in layout.segments.records.items():
        yield "segment %d %s" % (segment, record.line())
    yield from live_lines(layout)
    yield from single_lines(layout)
    yield from merged_lines(layout)
    yield from thunk_lines(layout)
    yield from symbol_lines(layout)
    yield "entry " + entry_text(layout.reach, layout.values)
    yield "end"


def placement_lines(link):
    """What placement answers beside the report: where memory begins, counters, merged records, and segments whose
    file ranges are compacted."""
    layout = Layout(link)
    yield "plain %s" % ("yes" if is_plain(link, layout.planned) else "no")
    yield "headers %d" % layout.walk.headers
    for number, counter in enumerate(layout.walk.counters):
        yield "counter %d 0x%x" % (number, counter)
    for number, record in enumerate(layout.joined):
        yield "merged section %d %s" % (number, record.line())
    for segment in layout.segments.records:
        start, end = layout.segments.compacted_file(segment)
        yield "compacted segment %d file 0x%x %d" % (segment, start, end - start)
    yield "thread-local end 0x%x" % layout.segments.thread_local_end
