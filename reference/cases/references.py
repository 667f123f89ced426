"""Symbols of objects, and what refers to them: definitions, relocations and the entry."""

from rules import listed

from .values import NAMES, TRUTHS, all_files, all_inputs, all_symbols, free_parts, objects, optional

ADDENDS = (0, 0, 0, -4, -1, 1, 2, 5, 256, 2**63 - 1, -(2**63))
COMMONS_SHARE = 0.4
# What a discarded section may say of itself.
ODD_RELOCATIONS = ([[2**64 - 1, "None", 77, 0, True]], [[0, "Absolute", 2**32 - 1, -1, False]])
ODD_RELAXATIONS = ([[9, 9, 9, 0], [0, 0, 0, 99]], [[2**64 - 1, 2**32 - 1, 0, 2**64 - 1]])


def length_of(entry):
    """The bytes of an input section."""
    return len(entry.get("data", "")) // 2 if entry["slot"] == "merge" else entry.get("size", 0)


# Symbols


def object_placement(rng, file):
    """A place of an object's symbol, mostly in one of the sections that aren't discarded."""
    held = file.get("sections", [])
    if held and rng.random() < 0.75:
        index = rng.randrange(len(held))
        if held[index]["slot"] == "discard" and rng.random() < 0.8:
            index = rng.randrange(len(held))
        length = length_of(held[index])
        if held[index]["slot"] == "merge":
            return ["sec", index, merged_offset(rng, length)]
        return ["sec", index, rng.choice((0, length // 2, length))]
    return rng.choice((["abs", 0], ["abs", 7], ["abs", 2**64 - 1], ["undef"], ["undef"]))


def common_placement(rng, parts):
    """A common in one of the parts; a large one now and then."""
    return ["common", rng.choice(parts), rng.choice((0, 1, 1, 3, 4, 8, 9, 64, 100, 300000, 2**63, 2**64 - 1))]


def add_commons(rng, description):
    """Commons of some objects, among their other symbols."""
    parts = free_parts(description)
    for file in objects(description) if parts else []:
        for _ in range(rng.choice((0, 0, 1, 2, 3))):
            held = file.setdefault("symbols", [])
            symbol = mark_symbol(rng, {"at": common_placement(rng, parts)})
            held.insert(rng.randrange(len(held) + 1), symbol)


def merged_offset(rng, length):
    """An offset in data that are merged: mostly of one of their bytes, else at their end or anywhere."""
    if length and rng.random() < 0.85:
        return rng.choice((0, length - 1, rng.randrange(length)))
    return rng.choice((0, length, 256, 1000, 2**64 - 1))


def mark_symbol(rng, symbol):
    """Gives a symbol a name, flags and marks in some share of the cases."""
    optional(rng, symbol, "name", 0.6, NAMES)
    optional(rng, symbol, "flags", 0.3, (0, 1, 2, 3, 8, 62, 63))
    optional(rng, symbol, "weak", 0.6 if symbol["at"] == ["undef"] else 0.2, TRUTHS)
    for mark in ("local", "hidden"):
        optional(rng, symbol, mark, 0.2, TRUTHS)
    return symbol


def put_symbols(description, file, symbols):
    """Adds symbols to a file; what names others by their numbers goes on to name them."""
    place, count = 0, len(all_symbols(description))
    for other in all_files(description):
        place += len(other.get("symbols", []))
        if other is file:
            break
    options = description.get("options", {})
    for holder, name in [(options, "entry"), *((symbol, "def") for symbol in all_symbols(description))]:
        if place <= holder.get(name, -1) < count:
            holder[name] += len(symbols)
    file.setdefault("symbols", []).extend(symbols)


def put_section(rng, file, entry):
    """Puts a section among those of an object, whose symbols go on to name theirs."""
    held = file.setdefault("sections", [])
    place = rng.randrange(len(held) + 1)
    for symbol in file.get("symbols", []):
        if symbol["at"][0] == "sec" and symbol["at"][1] >= place:
            symbol["at"][1] += 1
    held.insert(place, entry)


def connect_definitions(rng, symbols):
    """A symbol that stands for each one: mostly one that is defined, for those that aren't."""
    share = rng.choice((0.3, 0.6, 0.8))
    standing = [
        number
        for number, symbol in enumerate(symbols)
        if rng.random() < (share / 4 if symbol["at"] == ["undef"] else share)
    ] or [0]
    for number, symbol in enumerate(symbols):
        symbol.pop("def", None)
        if number not in standing:
            symbol["def"] = rng.choice(standing)
        elif rng.random() < 0.2:
            symbol["def"] = number


# References


def add_relocations(rng, entry, symbol_count, kinds):
    length = length_of(entry)
    entry["relocs"] = [
        [
            rng.choice((0, length // 2, length - 1)),
            rng.choice(kinds),
            rng.randrange(symbol_count),
            rng.choice(ADDENDS),
            rng.random() < 0.3,
        ]
        for _ in range(rng.choice((1, 2, 5)))
    ]
    if length >= 4 and rng.random() < 0.3:
        starts = sorted(rng.sample(range(min(length, 50)), rng.choice((1, 2, 3))))
        ends = [*starts[1:], length]
        entry["relax"] = [
            [start, rng.randrange(symbol_count), rng.choice((0, 100, 2**64 - 1)), end - start]
            for start, end in zip(starts, ends)
        ]


def connect(rng, description):
    """Definitions, an entry, relocations and relaxations between what is there."""
    symbols = all_symbols(description)
    if not symbols:
        return
    connect_definitions(rng, symbols)
    if rng.random() < 0.4:
        description.setdefault("options", {})["entry"] = rng.randrange(len(symbols))
    share = rng.choice((0.2, 0.5, 0.8))
    for file in objects(description):
        for entry in file.get("sections", []):
            if file.get("symbols") and length_of(entry) > 0 and rng.random() < share:
                add_relocations(rng, entry, len(file["symbols"]), listed.PLAIN_RELOCATIONS)


# What is left out


def discard(rng, entry):
    """Makes it a section that is left out, with parts, attributes and references that nothing looks at."""
    entry["slot"] = "discard"
    optional(rng, entry, "part", 0.5, (2**32 - 1,))
    optional(rng, entry, "attrs", 0.3, (1, 2**32 - 1))
    optional(rng, entry, "relocs", 0.3, ODD_RELOCATIONS)
    optional(rng, entry, "relax", 0.3, ODD_RELAXATIONS)


def choose_slots(rng, description):
    """Some sections that are kept only if something refers to them, and a few that are left out."""
    share = rng.choice((0.3, 0.6, 0.9))
    for entry in all_inputs(description):
        if entry["slot"] == "merge":
            continue
        if rng.random() < share:
            entry["slot"] = "unloaded"
        elif rng.random() < 0.04:
            discard(rng, entry)
        elif rng.random() < 0.3:
            entry["slot"] = rng.choice(("debug", "debug", "mustdebug"))


def choose_groups(rng, description):
    """Groups of sections of one file."""
    share = rng.choice((0, 0, 0.3, 0.7))
    for entry in all_inputs(description):
        optional(rng, entry, "group", share, (0, 1, 2**32 - 1))


def add_other_files(rng, description):
    """Files that aren't objects: dynamic ones and such as aren't loaded, with symbols; made ones and scripts without."""
    for _ in range(rng.choice((0, 0, 1, 2))):
        file = {"kind": rng.choice(("dynamic", "dynamic", "notloaded", "synthetic", "script"))}
        optional(rng, file, "check", 0.5, TRUTHS)
        if file["kind"] in listed.OUTSIDE_FILES:
            count = rng.choice((0, 1, 2, 4))
            placements = [[rng.choice(("dyn", "undef"))] for _ in range(count)]
            file["symbols"] = [mark_symbol(rng, {"at": placement}) for placement in placements]
        group = rng.choice(description["groups"])
        group.insert(rng.randrange(1, len(group) + 1) if group else 0, file)


def choose_options(rng, description):
    options = {}
    optional(rng, options, "gc", 0.2, (False, False, True))
    optional(rng, options, "error_objects", 0.35, (False, False, True))
    optional(rng, options, "error_dynamics", 0.35, (False, False, True))
    optional(rng, options, "restrictive", 0.2, TRUTHS)
    optional(rng, options, "export_list", 0.2, ([], [""], ["a.o"]))
    if options:
        description.setdefault("options", {}).update(options)


def add_references(rng, description):
    """Symbols, sections that aren't kept in any case, and what refers to what."""
    choose_slots(rng, description)
    choose_groups(rng, description)
    choose_options(rng, description)
    for file in objects(description):
        count = rng.choice((0, 1, 2, 3, 6))
        symbols = [mark_symbol(rng, {"at": object_placement(rng, file)}) for _ in range(count)]
        if symbols:
            file["symbols"] = symbols
    if rng.random() < COMMONS_SHARE:
        add_commons(rng, description)
    add_other_files(rng, description)
    connect(rng, description)
