"""The limits and the rules that a link description keeps, each with how it is refused."""

from . import listed
from .links import files_of, inputs_of, parts_of, symbols_of
from .refusal import bad_link, too_many

ALIGNMENTS = frozenset(2**power for power in range(17))
MERGE_UNIT = 256


def table_parts(link):
    """The parts that the plan names as tables."""
    return {link.plan.named[name] for name in listed.TABLE_PARTS} - {None}


# Limits


def name_bytes(link):
    """The bytes of all names of symbols and of output and input sections, one more for each."""
    names = [symbol.name for _, symbol in symbols_of(link)]
    names += [section.name for section in link.plan.sections]
    names += [entry.name for _, _, entry in inputs_of(link)]
    return sum(len(name.encode()) + 1 for name in names)


def merge_bytes(link):
    """The data of all merge sections, each rounded up."""
    sizes = [entry.size for _, _, entry in inputs_of(link) if entry.slot == "merge"]
    return sum(-(-size // MERGE_UNIT) * MERGE_UNIT for size in sizes)


def measures(link):
    """What is limited, with its count and its limit, in the order in which they are looked at."""
    plan = link.plan
    inputs = [entry for _, _, entry in inputs_of(link)]
    yield "groups", len(link.groups), 65_535
    yield "files", sum(len(files) for files in link.groups), 16_777_216
    yield "output sections", len(plan.sections), 65_279
    yield "parts", len(parts_of(link)), 1_048_576
    yield "segments", len(plan.segments), 64
    yield "regions", len(plan.regions), 64
    yield "events", len(plan.events), 262_144
    yield "symbols", len(symbols_of(link)), 16_777_216
    yield "input sections", len(inputs), 16_777_216
    yield "candidates", sum(len(file.candidates) for _, _, file in files_of(link)), 16_777_216
    for entry in inputs:
        yield "relocations", len(entry.relocs), 16_777_216
    for entry in inputs:
        yield "relaxations", len(entry.relax), 16_777_216
    yield "name bytes", name_bytes(link), 2_147_483_647
    yield "merge bytes", merge_bytes(link), 1_099_511_627_776


def check_limits(link):
    for what, count, limit in measures(link):
        if count > limit:
            raise too_many(what, count, limit)


# Rules, in the order in which they are looked at


def check_options(link):
    options = link.options
    good = options.branch_range == 0 or options.branch_range > 2_097_152
    good = good and options.bucket_limit <= 268_435_456
    good = good and 1 <= options.merge_group <= 4_294_967_296
    if not good or options.entry is not None and options.entry >= len(symbols_of(link)):
        raise bad_link(1, "options")


def check_page(link):
    if link.plan.page not in ALIGNMENTS:
        raise bad_link(2, "plan")


def is_primary(sections, primary, secondary):
    """Whether that section can be what the other one is secondary to."""
    if primary == secondary or primary >= len(sections):
        return False
    return sections[primary].primary is None


def is_good_section(sections, number):
    section = sections[number]
    alignments = [alignment for alignment, _ in section.parts]
    falling = all(first > later for first, later in zip(alignments, alignments[1:]))
    return (
        len(alignments) > 0
        and ALIGNMENTS.issuperset([section.align, *alignments])
        and falling
        and section.attrs <= listed.ALL_ATTRIBUTES
        and (section.primary is None or is_primary(sections, section.primary, number))
    )


def check_sections(link):
    for number in range(len(link.plan.sections)):
        if not is_good_section(link.plan.sections, number):
            raise bad_link(3, "section %d" % number)


def is_good_part_field(link, field):
    """Whether a named part is there, differs from those that it has to, and is what its name asks for."""
    part, parts = link.plan.named[field], parts_of(link)
    if part is None:
        return True
    before = listed.TABLE_PARTS[: listed.NAMED_PARTS.index(field)]
    if part >= len(parts) or any(link.plan.named[other] == part for other in before):
        return False
    _, alignment, packed = parts[part]
    if field == "comment":
        return alignment == 1
    if field == "primary":
        return not packed and alignment <= 16 and link.options.branch_range != 0
    return True


def check_part_fields(link):
    for place, field in enumerate(listed.NAMED_PARTS):
        if not is_good_part_field(link, field):
            raise bad_link(4, "part field %d" % place)


def check_singletons(link):
    singletons = link.plan.singletons
    if singletons is not None:
        if singletons >= len(link.plan.sections) or link.options.output != "partial":
            raise bad_link(5, "plan")


def check_thread_local_segments(link):
    segments = link.plan.segments
    thread_local = [number for number, segment in enumerate(segments) if segment.kind == "tls"]
    if len(thread_local) > 1:
        raise bad_link(6, "segment %d" % thread_local[1])


def is_good_event(link, event, before):
    """Whether an event can follow those before it, of which the ones that name something are given."""
    kind, *operands = event
    if kind in ("seg", "endseg"):
        opened = kind == "seg" or ("seg", operands[0]) in before
        return operands[0] < len(link.plan.segments) and opened and event not in before
    if kind == "sec":
        return operands[0] < len(link.plan.sections) and event not in before
    if kind == "locrel" and operands[1] >= len(link.plan.sections):
        return False
    return kind == "addr" or any(file.kind == "script" for _, _, file in files_of(link))


def check_events(link):
    before = set()
    for place, event in enumerate(link.plan.events):
        if not is_good_event(link, event, before):
            raise bad_link(7, "event %d" % place)
        if event[0] in ("seg", "endseg", "sec"):
            before.add(event)
    if len(before) < len(link.plan.sections) + 2 * len(link.plan.segments):
        raise bad_link(7, "event %d" % len(link.plan.events))


class ExpressionRule:
    """What each expression keeps."""

    def __init__(self, link):
        sections, regions = len(link.plan.sections), len(link.plan.regions)
        self.counts = {"sym": len(symbols_of(link)), "addr": sections, "sizeof": sections}
        self.counts.update(origin=regions, length=regions)

    def is_kept(self, expression, depth=1):
        """Whether what is named is there and nothing stands deeper than 100."""
        kind, *operands = expression
        if depth > 100:
            return False
        if kind in listed.OPERATORS:
            return all(self.is_kept(operand, depth + 1) for operand in operands)
        return kind not in self.counts or operands[0] < self.counts[kind]


def expressions_of(link):
    """All expressions, each with the place at which it is told, in their order."""
    plan = link.plan
    yield "plan", plan.base
    for number, region in enumerate(plan.regions):
        yield "region %d" % number, region.origin
        yield "region %d" % number, region.length
    for number, section in enumerate(plan.sections):
        if section.at is not None:
            yield "section %d" % number, section.at
    for number, event in enumerate(plan.events):
        if event[0] in (*listed.LOCATION_EVENTS, "addr"):
            yield "event %d" % number, event[1]
    for number, (_, symbol) in enumerate(symbols_of(link)):
        if symbol.at[0] == "redirect":
            yield "symbol %d" % number, symbol.at[1]


def check_expressions(link):
    rule = ExpressionRule(link)
    for place, expression in expressions_of(link):
        if not rule.is_kept(expression):
            raise bad_link(8, place)


def check_preludes(link):
    if not link.groups or not link.groups[0] or link.groups[0][0].kind != "prelude":
        raise bad_link(9, "file 0 0")
    for group, number, file in files_of(link):
        if file.kind == "prelude" and (group, number) != (0, 0):
            raise bad_link(9, "file %d %d" % (group, number))


class SymbolRule:
    """What each symbol keeps."""

    def __init__(self, link):
        self.symbols = symbols_of(link)
        self.section_count = len(link.plan.sections)
        self.part_count = len(parts_of(link))
        self.table_parts = table_parts(link)
        self.counters = sum(event[0] in listed.LOCATION_EVENTS for event in link.plan.events)

    def definition(self, number):
        """The symbol that stands for this one, which may be out of range."""
        definition = self.symbols[number][1].definition
        return number if definition is None else definition

    def is_defined(self, number):
        definition = self.definition(number)
        return definition < len(self.symbols) and self.definition(definition) == definition

    def is_good_location(self, kind, operands):
        if kind == "none":
            return True
        return operands[0] <= self.counters if kind == "counter" else operands[0] < self.section_count

    def is_placed(self, file, placement):
        kind, *operands = placement
        if kind not in listed.PLACEMENTS_OF[file.kind]:
            return False
        if kind == "sec":
            if operands[0] >= len(file.sections):
                return False
            section = file.sections[operands[0]]
            return section.slot == "merge" or operands[1] <= section.size
        if kind == "common":
            return operands[0] < self.part_count and operands[0] not in self.table_parts
        if kind in ("start", "end", "groupend"):
            return operands[0] < self.section_count
        if kind == "redirect":
            return self.is_good_location(operands[1][0], operands[1][1:])
        return True

    def is_kept(self, number):
        file, symbol = self.symbols[number]
        good = self.is_defined(number) and symbol.flags < listed.HANDED_IN_FLAGS
        return good and self.is_placed(file, symbol.at)


def check_symbols(link):
    rule = SymbolRule(link)
    for number in range(len(rule.symbols)):
        if not rule.is_kept(number):
            raise bad_link(10, "symbol %d" % number)


class InputRule:
    """What each input section keeps."""

    def __init__(self, link):
        self.parts = parts_of(link)
        self.table_parts = table_parts(link)
        self.singletons = link.plan.singletons

    def is_good_part(self, entry):
        """Whether the section can go to its part."""
        if entry.part >= len(self.parts) or entry.part in self.table_parts:
            return False
        section, alignment, packed = self.parts[entry.part]
        ordinary = entry.slot in ("unloaded", "must")
        if entry.slot == "merge" and alignment != 1:
            return False
        if entry.sorted and (packed or not ordinary):
            return False
        return section != self.singletons or ordinary and not entry.sorted

    def is_kept(self, file, entry):
        if entry.slot == "discard":
            return True
        return (
            self.is_good_part(entry)
            and entry.attrs | listed.INPUT_ATTRIBUTES == listed.INPUT_ATTRIBUTES
            and all(offset < entry.size for offset, _, _, _, _ in entry.relocs)
            and all(symbol < len(file.symbols) for _, _, symbol, _, _ in entry.relocs)
            and all(symbol < len(file.symbols) for _, symbol, _, _ in entry.relax)
            and are_deletable(entry)
        )


def are_deletable(entry):
    """Whether the bytes that relaxations may delete lie inside the section, one behind the other."""
    end = 0
    for start, _, _, length in entry.relax:
        if start < end or length < 1:
            return False
        end = start + length
    return end <= entry.size


def check_inputs(link):
    rule = InputRule(link)
    for place, file, entry in inputs_of(link):
        if not rule.is_kept(file, entry):
            raise bad_link(11, "input %d %d %d" % place)


def check_tables(link):
    """The tables that relocations want entries of have parts, also where their section is discarded."""
    missing = {field.upper() for field in ("plt", "got") if link.plan.named[field] is None}
    for place, _, entry in inputs_of(link):
        wanted = {table for _, kind, _, _, _ in entry.relocs for table in listed.TABLES_OF[kind]}
        if missing.intersection(wanted):
            raise bad_link(12, "input %d %d %d" % place)


def is_good_candidate(link, candidate):
    output, group, number, index = candidate
    if output >= len(link.plan.sections) or group >= len(link.groups):
        return False
    if number >= len(link.groups[group]):
        return False
    file = link.groups[group][number]
    return file.kind == "object" and index < len(file.sections)


def check_candidates(link):
    for group, number, file in files_of(link):
        if not all(is_good_candidate(link, candidate) for candidate in file.candidates):
            raise bad_link(13, "file %d %d" % (group, number))


def check_data(link):
    """Data of sections that aren't merged are as many bytes as they have, also where these are discarded."""
    for place, _, entry in inputs_of(link):
        if entry.slot != "merge" and entry.data is not None and len(entry.data) != entry.size:
            raise bad_link(14, "input %d %d %d" % place)


RULES = (
    *(check_options, check_page, check_sections, check_part_fields, check_singletons),
    *(check_thread_local_segments, check_events, check_expressions),
    *(check_preludes, check_symbols, check_inputs, check_tables, check_candidates, check_data),
)


def check_link(link):
    """Refuses the first list that is too long, or the first broken rule at its first place."""
    check_limits(link)
    for check in RULES:
        check(link)
