"""What good descriptions have beside sections one behind the other, each kind as soon as it may be made."""

from rules import listed

from .good import random_marks
from .references import connect, mark_symbol, put_symbols
from .richer import (
    add_comment,
    add_input,
    add_section,
    add_sorted,
    candidates,
    internal_placement,
    set_primary,
    set_relax,
)
from .values import NAMES, TRUTHS, all_files, all_parts, all_symbols, objects, optional

STEPS = (0, 1, 3, 4, 8, 16, 100, 4096)
REGION_NAMES = ("a", "b", "")


def a_number(rng, description):
    """An expression that often has a value near the location."""
    plan, count = description["plan"], len(all_symbols(description))
    step = ["num", rng.choice(STEPS)]
    forms = [
        ["add", ["dot"], step],
        ["add", ["dot"], step],
        ["align", ["dot"], ["num", rng.choice((1, 2, 16, 64, 4096, 0))]],
        ["max", ["dot"], step],
        ["add", ["headers"], step],
        step,
    ]
    if plan["sections"]:
        section = rng.randrange(len(plan["sections"]))
        forms.append(["add", ["addr", section], ["add", ["sizeof", section], step]])
    if plan.get("regions"):
        forms.append([rng.choice(("origin", "length")), rng.randrange(len(plan["regions"]))])
    if count:
        forms.append(["add", ["sym", rng.randrange(count)], step])
    form = rng.choice(forms)
    if rng.random() < 0.1:
        form = [rng.choice(listed.OPERATORS), form, rng.choice(forms)]
    return form


# Plans


def add_regions(rng, description):
    plan = description["plan"]
    names = rng.sample(REGION_NAMES, rng.choice((1, 2, 3)))
    if rng.random() < 0.05:
        names.append(names[0])
    plan["regions"] = [
        {
            "name": name,
            "origin": ["num", rng.choice((0, 256, 4096, 2**32, 2**64 - 5))],
            "length": ["mul", ["num", rng.choice((1, 8, 65536, 2**40))], ["num", rng.choice((1, 3, 9))]],
        }
        for name in names
    ]
    for section in plan["sections"]:
        optional(rng, section, "region", 0.4, (*names, *names, *names, *names, rng.choice(REGION_NAMES)))


def add_moves(rng, description):
    plan = description["plan"]
    for _ in range(rng.choice((1, 1, 2, 4))):
        events = plan["events"]
        event = ["addr", a_number(rng, description)]
        if rng.random() < 0.6:
            event = ["loc", a_number(rng, description)]
            if plan["sections"] and rng.random() < 0.4:
                event = ["locrel", event[1], rng.randrange(len(plan["sections"]))]
            if not any(file["kind"] == "script" for file in all_files(description)):
                description["groups"].append([{"kind": "script"}])
        events.insert(rng.randrange(len(events) + 1), event)


def make_thread_local(rng, description):
    """Some sections in a row, mostly, with a segment round them."""
    plan = description["plan"]
    placed = [place for place, event in enumerate(plan["events"]) if event[0] == "sec"]
    if not placed:
        return
    first, last = sorted(rng.randrange(len(placed)) for _ in range(2))
    for place in placed[first : last + 1]:
        if rng.random() < 0.9:
            section = plan["sections"][plan["events"][place][1]]
            section["attrs"] = section.get("attrs", 0) & 7 | rng.choice((8, 8, 24))
    if rng.random() < 0.7:
        segment = len(plan["segments"])
        plan["segments"].append({"kind": "tls"})
        plan["events"].insert(placed[last] + 1, ["endseg", segment])
        plan["events"].insert(placed[first], ["seg", segment])


def make_secondary(rng, description):
    sections = description["plan"]["sections"]
    if len(sections) < 2:
        return
    numbers = list(range(len(sections)))
    rng.shuffle(numbers)
    count = rng.randrange(1, len(numbers))
    for number in numbers[count:]:
        if rng.random() < 0.6:
            sections[number]["primary"] = rng.choice(numbers[:count])
            optional(rng, sections[number], "top", 0.4, (True,))
            optional(rng, sections[number], "counters", 0.4, (True,))


def set_bases(rng, description):
    plan = description["plan"]
    for name in listed.PLAN_TRUTHS:
        optional(rng, plan, name, 0.5, TRUTHS)
    if rng.random() < 0.5:
        plan["base"] = ["add", ["num", rng.choice((0, 63, 120, 4096, 65536))], a_number(rng, description)]


def set_load_addresses(rng, description):
    for section in description["plan"]["sections"]:
        if rng.random() < 0.3:
            section["at"] = a_number(rng, description)


PLAN_CHANGES = (
    *(add_regions, add_moves, add_moves, make_thread_local, make_secondary, set_bases),
    set_load_addresses,
)


def widen_plan(rng, description):
    for change in rng.sample(PLAN_CHANGES, rng.choice((1, 1, 2, 3))):
        change(rng, description)


# Tables and outputs


def set_output(rng, description):
    options = description.setdefault("options", {})
    options["output"] = rng.choice(("dynamic", "shared"))
    optional(rng, options, "export_all", 0.3, TRUTHS)
    optional(rng, options, "export_list", 0.4, ([], ["a.o", ""], ["\u00e9\u4e16"]))
    optional(rng, options, "restrictive", 0.3, TRUTHS)


def add_tables(rng, description):
    """Some or all tables in sections of their own, and relocations that want entries."""
    plan = description["plan"]
    names = list(listed.TABLE_PARTS)
    rng.shuffle(names)
    names = names[: rng.choice((1, 2, 5, 11))]
    for place in range(0, len(names), 3):
        first = add_section(description, [[8, False], [4, True], [1, False]])
        for part, name in enumerate(names[place : place + 3], first):
            plan[name] = part
    if rng.random() < 0.5:
        add_comment(rng, description)
        optional(rng, description.setdefault("options", {}), "identity", 0.7, NAMES)
    kinds = [kind for kind in listed.TABLE_RELOCATIONS if all(name.lower() in plan for name in listed.TABLES_OF[kind])]
    relocations = [relocation for file in objects(description) for relocation in all_relocations(file)]
    for relocation in relocations if kinds else []:
        if rng.random() < 0.5:
            relocation[1] = rng.choice(kinds)


def all_relocations(file):
    return [item for entry in file.get("sections", []) if entry["slot"] != "discard" for item in entry.get("relocs", [])]


def make_partial(rng, description):
    description.setdefault("options", {})["output"] = "partial"
    sections = description["plan"]["sections"]
    if sections and rng.random() < 0.6:
        number = rng.randrange(len(sections))
        parts = [part for part in range(len(all_parts(description))) if section_of(description, part) == number]
        held = [entry for file in objects(description) for entry in file.get("sections", [])]
        wrong = [entry for entry in held if entry.get("part", 0) in parts and not is_ordinary(entry)]
        if not wrong:
            description["plan"]["singletons"] = number


def is_ordinary(entry):
    return entry["slot"] == "discard" or entry["slot"] in ("unloaded", "must") and not entry.get("sorted")


def section_of(description, part):
    for number, section in enumerate(description["plan"]["sections"]):
        part -= len(section["parts"])
        if part < 0:
            return number
    raise IndexError("no such part")


# Files of the linker's own, and scripts


def add_own_symbols(rng, description):
    for _ in range(rng.choice((1, 1, 2, 3))):
        file = all_files(description)[0]
        if rng.random() < 0.7:
            file = {"kind": rng.choice(("synthetic", "synthetic", "script"))}
            random_marks(rng, file)
            if file["kind"] == "synthetic" and description["plan"]["sections"]:
                output = rng.randrange(len(description["plan"]["sections"]))
                file["candidates"] = candidates(rng, description, output)
            description["groups"].append([file])
        placements = [own_placement(rng, description) for _ in range(rng.choice((1, 2, 4)))]
        put_symbols(description, file, [mark_symbol(rng, {"at": placement}) for placement in placements])
    connect(rng, description)


def own_placement(rng, description):
    placement = internal_placement(rng, description)
    if placement[0] == "redirect" and rng.random() < 0.7:
        placement[1] = a_number(rng, description)
        if placement[2] == ["none"] and rng.random() < 0.7:
            placement[1] = ["num", 7]
    return placement


# Code


def make_code(rng, description):
    for file in objects(description):
        for entry in file.get("sections", []):
            if entry["slot"] not in ("discard", "merge") and rng.random() < 0.8:
                entry["attrs"] = rng.choice((4, 6))


def add_thunks(rng, description):
    """A primary part, and in most cases more code than a branch reaches."""
    set_primary(rng, description)
    make_code(rng, description)
    options = description["options"]
    options["branch_range"] = 2_097_152 + rng.choice((1, 1, 10, 100, 100, 1000, 300_000))
    if rng.random() < 0.8:
        entry = add_input(rng, description, slot="unloaded")
        entry.update(size=options["branch_range"], attrs=4)
    for file in objects(description):
        for relocation in all_relocations(file):
            relocation[4] = rng.random() < 0.7


def make_relaxed(rng, description):
    set_relax(rng, description)
    make_code(rng, description)


# What may be added, each with the share of descriptions that get it.
WIDER = (
    (0.15, add_thunks),
    (0.2, make_relaxed),
    (0.1, add_sorted),
    (0.3, add_own_symbols),
    (0.5, widen_plan),
    (0.3, add_tables),
    (0.3, set_output),
    (0.1, make_partial),
)


def widen(rng, description):
    """Adds what not every description has."""
    for share, add in WIDER:
        if rng.random() < share:
            add(rng, description)
