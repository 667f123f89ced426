"""Where output sections and their parts stand: the walk over the events, merged records, and segments."""

from .expressions import Constants, Early, Names
from .links import section_order, segments_inside
from .listed import ALLOCATED, THREAD_LOCAL, ZERO_FILL
from .owners import align_up, fitting
from .refusal import (
    base_too_low,
    in_no_segment,
    location_backwards,
    outside_region,
    region_duplicate,
    region_overflow,
    region_unknown,
)

ZERO_FILL_THREAD_LOCAL = THREAD_LOCAL | ZERO_FILL


class Record:
    """Where something stands in memory and in the file, and from where it is loaded."""

    def __init__(self, memory, memory_end, file, file_end, alignment, load=None):
        self.memory, self.memory_end = memory, memory_end
        self.file, self.file_end = file, file_end
        self.alignment = alignment
        self.load = memory if load is None else load

    def is_empty(self):
        return self.memory == self.memory_end and self.file == self.file_end

    def line(self):
        return "mem 0x%x %d file 0x%x %d align %d" % (
            self.memory,
            self.memory_end - self.memory,
            self.file,
            self.file_end - self.file,
            self.alignment,
        )


def hull(records):
    """The least range round all of these; without any, nothing at 0."""
    if not records:
        return Record(0, 0, 0, 0, 1)
    return Record(
        min(record.memory for record in records),
        max(record.memory_end for record in records),
        min(record.file for record in records),
        max(record.file_end for record in records),
        max(record.alignment for record in records),
        min(record.load for record in records),
    )


# What a plan says of its sections


class Planned:
    """The attributes by which sections are placed, and their alignments."""

    def __init__(self, link, parts, sizes):
        self.plan, self.parts, self.sizes = link.plan, parts, sizes
        self.is_partial = link.options.output == "partial"
        self.own_parts = [[] for _ in link.plan.sections]
        for part, (section, _, _) in enumerate(parts):
            self.own_parts[section].append(part)

    def attributes(self, section):
        if self.is_partial and section == self.plan.singletons:
            return 0
        return self.plan.sections[section].attrs

    def primary(self, section):
        """The section that this one is secondary to, or itself."""
        primary = self.plan.sections[section].primary
        return section if primary is None else primary

    def is_allocated(self, section):
        return self.attributes(self.primary(section)) & ALLOCATED != 0

    def is_in_file(self, section):
        return self.attributes(self.primary(section)) & ZERO_FILL == 0

    def is_thread_local(self, section):
        return self.attributes(section) & THREAD_LOCAL != 0

    def is_zero_fill_thread_local(self, section):
        return self.attributes(section) & ZERO_FILL_THREAD_LOCAL == ZERO_FILL_THREAD_LOCAL

    def walked_parts(self, section):
        """The parts with bytes, or the first one where none has any."""
        own = self.own_parts[section]
        return [part for part in own if self.sizes[part]] or own[:1]

    def greatest_alignment(self, section):
        """The section's own, or that of a part with bytes if one is greater."""
        with_bytes = [self.parts[part][1] for part in self.own_parts[section] if self.sizes[part]]
        return max(with_bytes + [self.plan.sections[section].align])


# The walk


class Walk:
    """The events in order, with a cursor in memory and one in the file.

    `positions` tells of symbols in live sections their part and their place in it, `headers` is the size of
    the file header and the program headers.
    """

    def __init__(self, link, planned, positions, headers):
        self.link, self.plan, self.planned = link, link.plan, planned
        self.part_records = [None] * len(planned.parts)
        self.section_records = [None] * len(link.plan.sections)
        self.inside = segments_inside(link)
        self.headers = headers
        self.regions = self.evaluate_regions()
        self.constants = Constants(link, self.regions, headers)
        self.early = Early(self, self.constants, positions)
        self.base = self.early.value_here("base", self.plan.base, 0)
        self.memory, self.file = self.first_memory(), 0
        self.saved = self.pending = self.last_section = None
        self.used = [0] * len(self.regions)
        self.counters = [self.base]
        self.run()

    def evaluate_regions(self):
        """The start and the length of each region. Of two of one name the later is refused."""
        names, regions = set(), []
        for number, region in enumerate(self.plan.regions):
            if region.name in names:
                raise region_duplicate(number)
            names.add(region.name)
            values = [Names().value_at("region %d" % number, region.origin)]
            values.append(Names().value_at("region %d" % number, region.length))
            regions.append(values)
        return regions

    def first_memory(self):
        """Where memory begins: at the base, or so far before it that the headers have room in front of it."""
        plan, base = self.plan, self.base
        if plan.custom_base and (plan.phdrs_headers or not plan.custom_phdrs) and base < self.headers:
            raise base_too_low(base, self.headers)
        if not plan.custom_base and not plan.phdrs_headers:
            return base
        over = base % plan.page
        if over >= self.headers:
            return base - over
        below = base - over - align_up(self.headers - over, plan.page)
        return below if below >= 0 else base

    def run(self):
        steps = {
            "seg": self.open_segment,
            "endseg": lambda event, segment: None,
            "sec": self.place_section,
            "loc": self.move_location,
            "locrel": self.move_location,
            "addr": self.await_address,
        }
        for event, (kind, *operands) in enumerate(self.plan.events):
            steps[kind](event, *operands)

    def await_address(self, event, expression):
        """The value of the expression is where the next section goes."""
        here = self.memory if self.pending is None else self.pending
        self.pending = self.early.value_here("event %d" % event, expression, here)

    def move_location(self, event, expression, section=None):
        """The same, counted; of a section that is placed not before its start."""
        self.await_address(event, expression)
        self.counters.append(self.pending)
        if section is not None:
            placed = self.section_records[self.planned.primary(section)]
            if placed is not None and self.pending < placed.memory:
                raise location_backwards(placed.memory, self.pending)

    def place_alignment(self, segment):
        """The page, or the greatest alignment inside if that is greater."""
        inside = [section for section, segments in enumerate(self.inside) if segment in segments]
        return max([self.plan.page, *map(self.planned.greatest_alignment, inside)])

    def open_segment(self, event, segment):
        """A load segment moves memory, as it was before zero-filled thread-local data, to what is pending, or to the
        next place where file and memory go together."""
        if self.plan.segments[segment].kind != "load":
            return
        self.restore_saved()
        place, alignment = "event %d" % event, self.place_alignment(segment)
        if self.pending is None:
            self.memory = fitting(align_up(self.memory, alignment) + self.file % alignment, place)
        else:
            self.memory = self.pending
            self.file = fitting(self.file + (self.memory - self.file) % alignment, place)

    def place_section(self, event, section):
        place = "event %d" % event
        self.settle_saved(section)
        region = self.enter_region(section)
        moved = self.take_pending(event, section, region)
        if not moved:
            self.begin_run(section, place)
        self.place_parts(section, place)
        self.set_load_address(section)
        if region is not None:
            self.leave_region(region)
        self.last_section = section

    def settle_saved(self, section):
        """Zero-filled thread-local data is placed beside memory, which goes on where the first of it began."""
        if not self.planned.is_zero_fill_thread_local(section):
            self.restore_saved()
        elif self.saved is None:
            self.saved = self.memory

    def restore_saved(self):
        if self.saved is not None:
            self.memory = self.saved
        self.saved = None

    def enter_region(self, section):
        """The number of the section's region, if it has one. Memory goes on where its sections end."""
        name = self.plan.sections[section].region
        if name is None:
            return None
        names = [region.name for region in self.plan.regions]
        if name not in names:
            raise region_unknown(section)
        region = names.index(name)
        self.memory = self.regions[region][0] + self.used[region]
        return region

    def take_pending(self, event, section, region):
        """Moves to the location that is pending; the file follows as far as memory moves. Tells whether there was one."""
        location, self.pending = self.pending, None
        if location is None:
            return False
        if region is not None and not 0 <= location - self.memory <= self.regions[region][1]:
            raise outside_region(location, event)
        if self.file_follows(section):
            if location < self.memory:
                raise location_backwards(self.memory, location)
            self.file = fitting(self.file + location - self.memory, "event %d" % event)
        self.memory = location
        return True

    def file_follows(self, section):
        planned = self.planned
        stays = planned.primary(section) != section and self.plan.sections[section].top
        return not stays and planned.is_allocated(section) and planned.is_in_file(section)

    def begin_run(self, section, place):
        """The first of thread-local sections in a row is rounded up for all such sections."""
        planned = self.planned
        goes_on = self.last_section is not None and planned.is_thread_local(self.last_section)
        if goes_on or planned.is_partial or not planned.is_thread_local(section):
            return
        every = filter(planned.is_thread_local, range(len(self.plan.sections)))
        memory = fitting(align_up(self.memory, max(map(planned.greatest_alignment, every))), place)
        if planned.is_in_file(section):
            self.file = fitting(self.file + memory - self.memory, place)
        self.memory = memory

    def place_parts(self, section, place):
        planned = self.planned
        counts_memory = planned.is_allocated(section) and not planned.is_partial
        memory = self.memory if counts_memory else 0
        greatest, walked = planned.greatest_alignment(section), planned.walked_parts(section)
        for part in walked:
            size, own = planned.sizes[part], planned.parts[part][1]
            alignment = greatest if part == walked[0] else min(greatest, own)
            start, file = fitting(align_up(memory, alignment), place), self.file
            memory = fitting(start + size, place)
            if planned.is_in_file(section):
                file = fitting(align_up(file, alignment), place)
                self.file = fitting(file + size, place)
            self.part_records[part] = Record(start, memory, file, self.file, alignment)
        if counts_memory:
            self.memory = memory
        first = self.part_records[walked[0]]
        for part in set(planned.own_parts[section]) - set(walked):
            own = planned.parts[part][1]
            self.part_records[part] = Record(first.memory, first.memory, first.file, first.file, own)
        self.section_records[section] = hull([self.part_records[part] for part in walked])

    def set_load_address(self, section):
        """Where the section says so, all of it is loaded from there; its own parts are placed by then."""
        expression = self.plan.sections[section].at
        if expression is not None:
            load = self.early.value_here("section %d" % section, expression, self.memory)
            self.section_records[section].load = load

    def leave_region(self, region):
        origin, length = self.regions[region]
        self.used[region] = self.memory - origin
        if self.used[region] > length:
            raise region_overflow(region, self.used[region] - length)


# Merged records and segments


def merged_records(walk):
    """The records where secondary sections are part of the ones that they are secondary to."""
    merged = [
        Record(of.memory, of.memory_end, of.file, of.file_end, of.alignment, of.load)
        for of in walk.section_records
    ]
    for number, section in enumerate(walk.plan.sections):
        if section.primary is None:
            continue
        primary, secondary = merged[section.primary], merged[number]
        if section.counters:
            primary.memory_end = max(primary.memory_end, secondary.memory_end)
            primary.file_end = max(primary.file_end, secondary.file_end)
        else:
            primary.memory_end += secondary.memory_end - secondary.memory
            primary.file_end += secondary.file_end - secondary.file
        if not secondary.is_empty():
            primary.alignment = max(primary.alignment, secondary.alignment)
        for end in (primary.memory_end, primary.file_end):
            fitting(end, "section %d" % section.primary)
        merged[number] = Record(0, 0, 0, 0, 1)
    return merged


class Segments:
    """The records of active segments, by number; and the end of thread-local data, 0 where there is none."""

    def __init__(self, link, walk, emitted, active):
        self.link, self.walk, self.emitted = link, walk, emitted
        self.records, self.thread_local_end = {}, 0
        if walk.planned.is_partial:
            return
        counted = [section for section in section_order(link) if not self.is_skipped(section)]
        for section in counted:
            stands_outside = not walk.inside[section] and walk.planned.is_allocated(section)
            if stands_outside and not link.plan.custom_phdrs:
                raise in_no_segment(section)
        self.records = {segment: self.record_of(segment, counted) for segment in active}
        for segment, record in self.records.items():
            if link.plan.segments[segment].kind == "tls":
                end = align_up(record.memory_end, record.alignment)
                self.thread_local_end = fitting(end, "segment %d" % segment)

    def is_skipped(self, section):
        primary = self.walk.planned.primary(section)
        return self.walk.section_records[section].is_empty() and primary not in self.emitted

    def record_of(self, segment, counted):
        kind = self.link.plan.segments[segment].kind
        if kind == "stack":
            return Record(0, self.link.options.stack, 0, 0, 1)
        return hull(
            [
                self.walk.section_records[section]
                for section in counted
                if segment in self.walk.inside[section]
                and (kind == "tls" or not self.walk.planned.is_zero_fill_thread_local(section))
            ]
        )

    def compacted_file(self, segment):
        """The start and the end in the file where sections without bytes of it don't count."""
        counted = [section for section in section_order(self.link) if not self.is_skipped(section)]
        order = self.link.plan.events
        before = {event[1] for event in order[: order.index(("seg", segment))] if event[0] == "sec"}
        behind = [self.walk.section_records[section] for section in counted if section in before]
        start = behind[-1].file_end if behind else 0
        if self.link.plan.segments[segment].kind == "stack":
            return start, start
        inside = [
            self.walk.section_records[section]
            for section in counted
            if segment in self.walk.inside[section]
        ]
        ends = [record.file_end for record in inside if record.file_end > record.file]
        return start, max([start, *ends])


# Plain plans


def is_plain(link, planned):
    """Whether nothing moves the location and load segments stand one behind the other, each in good order."""
    plan = link.plan
    moves = any(event[0] in ("loc", "locrel", "addr") for event in plan.events)
    if planned.is_partial or moves or plan.regions:
        return False
    opened, ended = None, False
    for kind, operand in plan.events:
        if kind == "sec":
            if opened is None:
                continue
            in_file = planned.is_in_file(operand)
            beside = planned.is_zero_fill_thread_local(operand)
            if not planned.is_allocated(operand) or beside and in_file or in_file and ended:
                return False
            ended = ended or not in_file and not beside
        elif plan.segments[operand].kind == "load":
            if kind == "seg":
                if opened is not None:
                    return False
                opened, ended = operand, False
            else:
                opened = None
    return True
