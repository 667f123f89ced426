"""What plain links lack, added to well-formed descriptions so that they stay well formed."""

from rules import listed

from .good import random_marks, random_parts
from .references import (
    add_relocations,
    connect,
    mark_symbol,
    object_placement,
    put_section,
    put_symbols,
)
from .values import NAMES, all_files, all_parts, free_parts, objects, optional


def random_expression(rng, section_count, depth=0):
    """An expression that names no symbol or region, and sections in range where there are any."""
    choice = rng.random()
    if choice < 0.3 and depth < 5:
        operator = rng.choice(listed.OPERATORS)
        operands = [random_expression(rng, section_count, depth + 1) for _ in range(2)]
        return [operator, *operands]
    if choice < 0.4 and section_count:
        return [rng.choice(("addr", "sizeof")), rng.randrange(section_count)]
    if choice < 0.5:
        return [rng.choice(("dot", "headers"))]
    return ["num", rng.choice((0, 1, 16, 4096, 2**64 - 1))]


def expression_for(rng, description):
    return random_expression(rng, len(description["plan"]["sections"]))


# Places to put something


def an_object(rng, description):
    """One of the objects, or a new one."""
    if not objects(description):
        description["groups"].append([{"kind": "object"}])
    return rng.choice(objects(description))


def a_section(rng, description):
    """One of the output sections, or a new one, with its number."""
    sections = description["plan"]["sections"]
    if not sections or rng.random() < 0.1:
        add_section(description, random_parts(rng))
    number = rng.randrange(len(sections))
    return number, sections[number]


def add_section(description, parts):
    """An unallocated output section, placed last; answers the number of its first part."""
    first = len(all_parts(description))
    plan = description["plan"]
    plan["events"].append(["sec", len(plan["sections"])])
    plan["sections"].append({"parts": parts})
    return first


def add_input(rng, description, **fields):
    """An input section of that slot, in a part that it may go to."""
    parts = all_parts(description)
    fitting = [
        part
        for part in free_parts(description)
        if not (fields.get("sorted") and parts[part][1])
    ]
    if not fitting:
        fitting = [add_section(description, [[1, False]])]
    entry = {"part": rng.choice(fitting), **fields}
    entry["size"] = rng.choice((0, 1, 4, 8, 100))
    optional(rng, entry, "attrs", 0.2, (2, 4, 6))
    optional(rng, entry, "name", 0.3, NAMES)
    put_section(rng, an_object(rng, description), entry)
    return entry


# Symbols


def internal_placement(rng, description):
    sections = len(description["plan"]["sections"])
    if sections and rng.random() < 0.4:
        return [rng.choice(("start", "end", "groupend")), rng.randrange(sections)]
    if rng.random() < 0.5:
        return [rng.choice(("undefined", "force", "tlsend", "loadbase"))]
    counters = sum(event[0] in listed.LOCATION_EVENTS for event in description["plan"]["events"])
    places = [["none"], ["counter", rng.randrange(counters + 1)]]
    if sections:
        places.append([rng.choice(("start", "end")), rng.randrange(sections)])
    return ["redirect", expression_for(rng, description), rng.choice(places), rng.random() < 0.5]


def add_symbols(rng, description, file):
    """Symbols of the file's kind."""
    symbols = []
    for _ in range(rng.choice((1, 1, 2, 4))):
        if file["kind"] == "object":
            placement = object_placement(rng, file)
        elif file["kind"] in listed.OUTSIDE_FILES:
            placement = [rng.choice(("dyn", "undef"))]
        else:
            placement = internal_placement(rng, description)
        symbols.append(mark_symbol(rng, {"at": placement}))
    put_symbols(description, file, symbols)


# What plain links lack


def add_debug(rng, description):
    add_input(rng, description, slot=rng.choice(("debug", "mustdebug")))


def add_group(rng, description):
    slot = rng.choice(("must", "unloaded", "discard"))
    add_input(rng, description, slot=slot)["group"] = rng.choice((0, 1, 2**32 - 1))


def add_common(rng, description):
    parts = free_parts(description) or [add_section(description, [[8, False]])]
    placement = ["common", rng.choice(parts), rng.choice((0, 1, 64, 2**64 - 1))]
    put_symbols(description, an_object(rng, description), [{"at": placement}])


def add_file(rng, description):
    file = {"kind": rng.choice(listed.FILE_KINDS[2:])}
    optional(rng, file, "name", 0.5, NAMES)
    optional(rng, file, "sections", 0.1, (7, [], [{}]))
    random_marks(rng, file)
    group = rng.choice(description["groups"])
    group.insert(rng.randrange(1, len(group) + 1) if group else 0, file)
    if rng.random() < 0.6:
        add_symbols(rng, description, file)


def add_location(rng, description):
    """A script, and a location that only it may have."""
    number, _ = a_section(rng, description)
    expression = expression_for(rng, description)
    event = rng.choice((["loc", expression], ["locrel", expression, number]))
    add_event(rng, description, event)
    script = {"kind": "script"}
    description["groups"].append([script])
    if rng.random() < 0.5:
        add_symbols(rng, description, script)


def add_event(rng, description, event):
    events = description["plan"]["events"]
    events.insert(rng.randrange(len(events) + 1), event)


def set_output(rng, description):
    description.setdefault("options", {})["output"] = rng.choice(("dynamic", "shared"))


def add_table(rng, description):
    first = add_section(description, [[8, False], [4, True], [1, False]])
    for part, name in enumerate(rng.sample(listed.TABLE_PARTS, rng.choice((1, 1, 2, 3))), first):
        description["plan"][name] = part


def add_comment(rng, description):
    fitting = [part for part in free_parts(description) if all_parts(description)[part][0] == 1]
    description["plan"]["comment"] = rng.choice(fitting or [add_section(description, [[1, False]])])


def add_table_relocation(rng, description):
    slot = rng.choice(("must", "discard", "unloaded"))
    entry = add_input(rng, description, slot=slot)
    entry["size"] = rng.choice((1, 8))
    for file in objects(description):
        if any(entry is other for other in file.get("sections", [])):
            add_symbols(rng, description, file)
            add_relocations(rng, entry, len(file["symbols"]), listed.TABLE_RELOCATIONS)
    first = add_section(description, [[8, False], [4, True]])
    for part, name in enumerate(("got", "plt"), first):
        description["plan"].setdefault(name, part)


def add_candidates(rng, description):
    """A file of made symbols with candidates, as far as objects have sections."""
    number, _ = a_section(rng, description)
    description["groups"].append([{"kind": "synthetic", "candidates": candidates(rng, description, number)}])


def candidates(rng, description, output):
    """Some sections of objects, each for that output section."""
    held = [
        [output, group, number, index]
        for group, files in enumerate(description["groups"])
        for number, file in enumerate(files)
        if file["kind"] == "object"
        for index in range(len(file.get("sections", [])))
    ]
    return [rng.choice(held) for _ in range(rng.choice((1, 2, 5)))] if held else []


def set_plan(rng, description):
    """One of the fields that ask for more than sections one behind the other."""
    plan = description["plan"]
    number, section = a_section(rng, description)
    expression = expression_for(rng, description)
    choice = rng.randrange(8)
    if choice == 0:
        plan[rng.choice(listed.PLAN_TRUTHS)] = True
    elif choice == 1:
        plan["regions"] = [{"name": "r", "origin": expression, "length": ["num", 8]}]
    elif choice == 2:
        section["attrs"] = section.get("attrs", 0) | 8
    elif choice == 3:
        section["region"] = rng.choice(NAMES)
    elif choice == 4:
        section["at"] = expression
    elif choice == 5:
        add_event(rng, description, ["addr", expression])
    elif choice == 6:
        plan["base"] = ["add", expression, ["num", 1]]
    else:
        add_section(description, random_parts(rng))
        plan["sections"][-1]["primary"] = number


def add_thread_local_segment(rng, description):
    segments = description["plan"]["segments"]
    events = description["plan"]["events"]
    first, last = sorted(rng.randrange(len(events) + 1) for _ in range(2))
    events.insert(last, ["endseg", len(segments)])
    events.insert(first, ["seg", len(segments)])
    segments.append({"kind": "tls"})


def set_partial(rng, description):
    if rng.random() < 0.5:
        description.setdefault("options", {})["output"] = "partial"
    if rng.random() < 0.7:
        description["plan"]["singletons"] = rng.choice((0, 1, 2**32 - 1))


def add_sorted(rng, description):
    add_input(rng, description, slot=rng.choice(("must", "unloaded", "discard")), sorted=True)


def set_primary(rng, description):
    parts = all_parts(description)
    fitting = [part for part in free_parts(description) if parts[part][0] <= 16 and not parts[part][1]]
    description["plan"]["primary"] = rng.choice(fitting or [add_section(description, [[16, False]])])
    description.setdefault("options", {})["branch_range"] = rng.choice((2_097_153, 2**64 - 1))


def set_relax(rng, description):
    description.setdefault("options", {})["relax"] = True


def add_prelude_symbol(rng, description):
    add_symbols(rng, description, all_files(description)[0])


ADDITIONS = (
    *(add_debug, add_group, add_common, add_file, add_location, set_output),
    *(add_table, add_comment, add_table_relocation, add_candidates, set_plan, set_plan, set_plan),
    *(add_thread_local_segment, set_partial, add_sorted, set_primary, set_relax),
    add_prelude_symbol,
)


def make_richer(rng, description):
    """Adds one to four things that plain links lack, and connects them."""
    for _ in range(rng.choice((1, 1, 1, 2, 4))):
        rng.choice(ADDITIONS)(rng, description)
    connect(rng, description)
