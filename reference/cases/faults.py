"""Faults: a limit that is passed, or a rule that is broken or just kept."""

import copy

from rules import listed

from . import contents, richer
from .references import length_of
from .values import all_files, all_inputs, all_parts, all_symbols, objects

ODD_ALIGNMENTS = (0, 3, 6, 65535, 65536, 65537, 131072, 2**63, 2**64 - 1)


def break_options(rng, description):
    options = description.setdefault("options", {})
    count = len(all_symbols(description))
    choices = {
        "branch_range": (1, 4096, 2_097_151, 2_097_152, 2_097_153),
        "bucket_limit": (268_435_456, 268_435_457, 2**64 - 1),
        "merge_group": (0, 1, 4_294_967_296, 4_294_967_297, 2**64 - 1),
        "entry": (max(count - 1, 0), count, count + 1, 2**32 - 1),
    }
    name = rng.choice(tuple(choices))
    options[name] = rng.choice(choices[name])


def break_page(rng, description):
    description["plan"]["page"] = rng.choice(ODD_ALIGNMENTS)


def break_section(rng, description):
    sections = description["plan"]["sections"]
    number = rng.randrange(len(sections))
    section = sections[number]
    choice = rng.randrange(8)
    if choice == 0:
        section["parts"] = []
    elif choice == 1:
        section["attrs"] = rng.choice((31, 32, 33, 64, 2**32 - 1))
    elif choice == 2:
        section["parts"].append(copy.copy(rng.choice(section["parts"])))
    elif choice == 3:
        section["parts"].reverse()
    elif choice == 4:
        rng.choice(section["parts"])[0] = rng.choice(ODD_ALIGNMENTS)
    elif choice == 5:
        section["align"] = rng.choice(ODD_ALIGNMENTS)
    else:
        break_primary(rng, sections, number)


def break_primary(rng, sections, number):
    other = rng.randrange(len(sections))
    sections[number]["primary"] = rng.choice((number, other, other, len(sections), 2**32 - 1))
    if rng.random() < 0.5:
        sections[other]["primary"] = rng.choice((number, rng.randrange(len(sections))))


def break_part_fields(rng, description):
    """Named parts that may be equal, out of range, or of another kind."""
    plan, count = description["plan"], len(all_parts(description))
    choices = (0, max(count - 1, 0), count, 2**32 - 1, rng.randrange(max(count, 1)))
    for name in rng.sample((*listed.NAMED_PARTS, "comment", "primary"), rng.choice((1, 1, 2, 3))):
        plan[name] = rng.choice(choices)
    if rng.random() < 0.7:
        description.setdefault("options", {})["branch_range"] = rng.choice((0, 2_097_153, 2**64 - 1))


def odd_operand(rng, description):
    """What may be named by an expression, or may not."""
    plan = description["plan"]
    counts = {
        "sym": len(all_symbols(description)),
        **dict.fromkeys(("addr", "sizeof"), len(plan["sections"])),
        **dict.fromkeys(("origin", "length"), len(plan.get("regions", []))),
    }
    kind = rng.choice(tuple(counts))
    return [kind, rng.choice((max(counts[kind] - 1, 0), counts[kind], counts[kind], 2**32 - 1))]


def deep_expression(rng, depth):
    """An expression of that depth, whose deepest operand stands anywhere."""
    expression = ["num", 1]
    for _ in range(depth - 1):
        operands = [expression, ["num", rng.choice((0, 1, 2))]]
        if rng.random() < 0.5:
            operands.reverse()
        expression = [rng.choice(listed.OPERATORS), *operands]
    return expression


def break_expressions(rng, description):
    """An expression of any place that names what isn't there, or that is about 100 deep."""
    plan = description["plan"]
    expression = odd_operand(rng, description)
    if rng.random() < 0.3:
        expression = deep_expression(rng, rng.choice((98, 99, 100, 101, 102)))
    elif rng.random() < 0.5:
        operands = [expression, richer.expression_for(rng, description)]
        rng.shuffle(operands)
        expression = [rng.choice(listed.OPERATORS), *operands]
    choice = rng.randrange(5)
    if choice == 0:
        plan["base"] = expression
    elif choice == 1:
        region = {"origin": ["num", 0], "length": ["num", 1], rng.choice(("origin", "length")): expression}
        plan.setdefault("regions", []).append(region)
    elif choice == 2:
        rng.choice(plan["sections"])["at"] = expression
    elif choice == 3:
        richer.add_event(rng, description, ["addr", expression])
    else:
        file = rng.choice(all_files(description))
        richer.add_symbols(rng, description, file)
        rng.choice(file["symbols"])["at"] = ["redirect", expression, ["none"], True]


def break_tables(rng, description):
    """Relocations that want entries of tables, with or without the tables' parts."""
    richer.add_table_relocation(rng, description)
    for name in rng.choice((("got",), ("plt",), ("got", "plt"))):
        description["plan"].pop(name, None)


def break_candidates(rng, description):
    """Candidates of which one number may be out of range."""
    richer.add_candidates(rng, description)
    made = description["groups"][-1][0]["candidates"]
    if rng.random() < 0.8:
        rng.choice(made)[rng.randrange(4)] = rng.choice((0, 1, 2, 7, 2**32 - 1))
    if rng.random() < 0.5:
        rng.choice(all_files(description))["candidates"] = made


def break_thread_local(rng, description):
    for _ in range(rng.choice((1, 2, 2, 3))):
        richer.add_thread_local_segment(rng, description)


def break_events(rng, description):
    events = description["plan"]["events"]
    place = rng.randrange(len(events))
    choice = rng.randrange(6)
    if choice == 0:
        del events[place]
    elif choice == 1:
        events.insert(rng.randrange(len(events) + 1), copy.deepcopy(events[place]))
    elif choice == 2:
        plan = description["plan"]
        counts = (len(plan["sections"]), len(plan["segments"]), len(events))
        events[place][-1] = rng.choice((0, 1, *counts, 2**32 - 1))
    elif choice == 3:
        events[place][0] = rng.choice(("seg", "sec", "endseg"))
    elif choice == 4:
        other = rng.randrange(len(events))
        events[place], events[other] = events[other], events[place]
    else:
        list_name = rng.choice(("sections", "segments"))
        spare = {"parts": [[1, False]]} if list_name == "sections" else {"kind": "load"}
        description["plan"][list_name].append(spare)


def break_locations(rng, description):
    """Locations with or without a script, of sections that may be out of range."""
    sections = len(description["plan"]["sections"])
    expression = richer.expression_for(rng, description)
    number = rng.choice((0, max(sections - 1, 0), sections, sections))
    relative = ["locrel", expression, number]
    event = rng.choice((["loc", expression], relative, relative, ["addr", expression]))
    richer.add_event(rng, description, event)
    if rng.random() < 0.7:
        kind = rng.choice(("script", "script", "script", "synthetic"))
        description["groups"].append([{"kind": kind}])


def break_files(rng, description):
    groups = description["groups"]
    choice = rng.randrange(6)
    if choice == 0:
        del groups[0][0]
    elif choice == 1:
        rng.choice(groups).append({"kind": "prelude", "name": "second"})
    elif choice == 2:
        groups.insert(0, [])
    elif choice == 3:
        description["groups"] = []
    elif choice == 4:
        groups[0].insert(0, {"kind": rng.choice(("object", "script", "notloaded"))})
    else:
        groups[0][0] = {"kind": rng.choice(("object", "dynamic"))}


# Symbols


def break_definition(rng, description):
    """A symbol that is defined by one that isn't there, or by another that may not stand for itself."""
    symbols = all_symbols(description)
    if rng.random() < 0.4:
        rng.choice(symbols)["def"] = rng.choice((len(symbols), len(symbols) - 1, 2**32 - 1))
        return
    first, second, third = (rng.randrange(len(symbols)) for _ in range(3))
    symbols[first]["def"] = second
    symbols[second]["def"] = third


def object_placements(rng, description, file):
    """Placements of an object's symbol out of range, or just within it."""
    plan, parts = description["plan"], len(all_parts(description))
    held = file.get("sections", []) if file["kind"] == "object" else []
    if held:
        index = rng.randrange(len(held))
        length = length_of(held[index])
        yield ["sec", index, min(length + rng.choice((0, 1, 1)), 2**64 - 1)]
        yield ["sec", len(held), 0]
    yield ["sec", rng.choice((0, 2**32 - 1)), 0]
    for part in (parts, max(parts - 1, 0), *(plan[name] for name in listed.TABLE_PARTS if name in plan)):
        yield ["common", part, 4]


def internal_placements(rng, description):
    """Placements of a symbol of the linker's own out of range, or just within it."""
    plan = description["plan"]
    sections = len(plan["sections"])
    counters = sum(event[0] in listed.LOCATION_EVENTS for event in plan["events"])
    number = rng.choice((sections, sections, max(sections - 1, 0), 2**32 - 1))
    for kind in ("start", "end", "groupend"):
        yield [kind, number]
    for place in (["start", number], ["end", number], ["counter", counters], ["counter", counters + 1]):
        yield ["redirect", ["dot"], place, False]


def other_placements(rng, description, file):
    """Placements of any kind of file."""
    yield from object_placements(rng, description, file)
    yield from internal_placements(rng, description)
    for kind in ("undef", "dyn", "undefined", "force", "tlsend", "loadbase"):
        yield [kind]
    yield ["abs", 0]
    yield ["redirect", ["dot"], ["none"], False]


def odd_placement(rng, description, file):
    if file["kind"] == "object" and rng.random() < 0.7:
        return rng.choice(list(object_placements(rng, description, file)))
    if file["kind"] in listed.OWN_FILES and rng.random() < 0.7:
        return rng.choice(list(internal_placements(rng, description)))
    return rng.choice(list(other_placements(rng, description, file)))


def break_symbol(rng, description):
    files = all_files(description)
    file = rng.choice((files[0], rng.choice(files)))
    if not file.get("symbols") or rng.random() < 0.5:
        richer.add_symbols(rng, description, file)
    symbol = rng.choice(file["symbols"])
    choice = rng.randrange(6)
    if choice == 0:
        symbol["flags"] = rng.choice((63, 64, 65, 128, 2**32 - 1))
    elif choice == 1:
        break_definition(rng, description)
    else:
        symbol["at"] = odd_placement(rng, description, file)


# Input sections


def break_part(rng, description, entry):
    parts = all_parts(description)
    plan = description["plan"]
    choice = rng.randrange(5)
    if choice == 0:
        entry["part"] = rng.choice((len(parts), len(parts) - 1, 2**32 - 1))
    elif choice == 1:
        plan[rng.choice(listed.TABLE_PARTS)] = entry.get("part", 0)
    elif choice == 2:
        entry["slot"] = "merge"
        entry.setdefault("data", "00" * rng.choice((0, 1, 9)))
    elif choice == 3:
        entry["sorted"] = True
        slots = ("must", "must", "must", "unloaded", "debug", "mustdebug", "merge", "discard")
        entry["slot"] = rng.choice(slots)
        if entry["slot"] == "merge":
            entry["data"] = "0000"
    else:
        plan["singletons"] = rng.randrange(len(plan["sections"]))
        entry["slot"] = rng.choice(("must", "must", "unloaded", "debug", "mustdebug", "discard"))
        entry["sorted"] = rng.random() < 0.5


def file_of(description, entry):
    """The object that this very section stands in."""
    for file in objects(description):
        if any(entry is other for other in file.get("sections", [])):
            return file
    raise KeyError(entry)


def break_references(rng, description, entry):
    """Relocations and relaxations at the ends of what they may name."""
    file = file_of(description, entry)
    if rng.random() < 0.8:
        richer.add_symbols(rng, description, file)
    count = len(file.get("symbols", []))
    symbol = rng.choice((0, 0, max(count - 1, 0), count, 2**32 - 1))
    length = length_of(entry)
    if rng.random() < 0.5:
        offset = rng.choice((0, max(length - 1, 0), length, 2**64 - 1))
        entry.setdefault("relocs", []).append([offset, "Relative", symbol, 0, False])
    else:
        entry["relax"] = list(odd_relaxations(rng, length, symbol))


def odd_relaxations(rng, length, symbol):
    """One or two relaxations that may be too long or empty, or may overlap."""
    start = rng.choice((0, length // 2, length))
    deleted = rng.choice((0, 1, 2, length - start, length - start + 1, length // 4))
    yield [start, symbol, 0, deleted]
    if rng.random() < 0.5:
        second = max(start + rng.choice((0, deleted - 1, deleted, deleted + 1)), 0)
        yield [min(second, 2**64 - 1), symbol, 2**64 - 1, 1]


def break_input(rng, description):
    entry = rng.choice(all_inputs(description))
    choice = rng.randrange(5)
    if choice < 2:
        break_part(rng, description, entry)
    elif choice == 2:
        entry["attrs"] = rng.choice((0, 1, 6, 7, 8, 14, 16, 2**32 - 1))
    else:
        break_references(rng, description, entry)
    if rng.random() < 0.1:
        entry["slot"] = "discard"


def break_data(rng, description):
    """Data of a section of whatever slot: mostly a byte more or less than it has, or no bytes."""
    entry = rng.choice(all_inputs(description))
    if rng.random() < 0.3:
        entry["slot"] = rng.choice(listed.SLOTS)
    length = min(length_of(entry), contents.LONGEST)
    entry["data"] = "5a" * max(rng.choice((0, length - 1, length, length + 1, length + 1)), 0)


# Limits


def break_limit(rng, description):
    plan = description["plan"]
    if rng.random() < 0.5:
        region = {"origin": ["num", 0], "length": ["num", 1]}
        plan["regions"] = [region] * rng.choice((63, 64, 65, 65, 66, 300))
        return
    count = rng.choice((64, 65, 65, 66, 200)) - len(plan["segments"])
    for segment in range(len(plan["segments"]), len(plan["segments"]) + count):
        plan["segments"].append({"kind": "load"})
        plan["events"] += [["seg", segment], ["endseg", segment]]


# Each with a weight.
RULE_BREAKS = {
    break_limit: 1,
    break_options: 1,
    break_page: 1,
    break_section: 3,
    break_part_fields: 3,
    break_thread_local: 1,
    break_events: 3,
    break_locations: 2,
    break_expressions: 4,
    break_files: 1,
    break_symbol: 6,
    break_input: 8,
    break_tables: 2,
    break_candidates: 2,
    break_data: 3,
}


def break_rules(rng, description):
    """One to three faults; one that finds nothing to break leaves the description as it is."""
    for _ in range(rng.choice((1, 1, 1, 2, 3))):
        try:
            (fault,) = rng.choices(tuple(RULE_BREAKS), tuple(RULE_BREAKS.values()))
            fault(rng, description)
        except (IndexError, KeyError, ValueError):
            continue
