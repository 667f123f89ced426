"""Descriptions in which relaxation mostly leaves something out, beside all else that a link may have."""

from .good import good_description
from .references import length_of, mark_symbol, put_symbols
from .richer import set_relax
from .values import all_symbols, objects
from .wide import widen

LONGEST = 60
DISTANCES = (0, 1, 4, 8, 12, 16, 24, 40, 64, 100, 200, 400, 2**64 - 1)


def make_code(rng, description):
    """Makes most sections short code that is kept."""
    for file in objects(description):
        for entry in file.get("sections", []):
            if entry["slot"] not in ("discard", "merge") and rng.random() < 0.85:
                entry["attrs"] = rng.choice((4, 6))
                if length_of(entry) > LONGEST or rng.random() < 0.5:
                    entry["size"] = rng.randrange(1, LONGEST)
                    for relocation in entry.get("relocs", []):
                        relocation[0] %= entry["size"]
                if rng.random() < 0.6:
                    entry["slot"] = "must"


def add_targets(rng, description, file):
    """Symbols in the sections of an object, at their edges and inside, that stand for themselves."""
    targets = []
    for index, entry in enumerate(file.get("sections", [])):
        if entry["slot"] not in ("discard", "merge"):
            for _ in range(rng.choice((0, 1, 1, 2))):
                targets.append({"at": ["sec", index, rng.choice((0, rng.randrange(length_of(entry) + 1), length_of(entry)))]})
    if rng.random() < 0.1:
        targets.append({"at": ["abs", rng.choice((0, 4096, 4194304))]})
    put_symbols(description, file, [mark_symbol(rng, target) for target in targets])


def add_relaxations(rng, entry, symbol_count):
    """Relaxations of a section, one behind the other or touching, with limits about the distances that there are."""
    entry["relax"], offset = [], 0
    while offset < length_of(entry) and len(entry["relax"]) < 12:
        offset += rng.choice((0, 0, 1, 4, 8))
        length = rng.choice((1, 2, 4, 4, 4, 8))
        if offset + length <= length_of(entry):
            entry["relax"].append([offset, rng.randrange(symbol_count), rng.choice(DISTANCES), length])
        offset += length


def keep_inside(file):
    """Moves symbols behind their sections to the ends of these."""
    for symbol in file.get("symbols", []):
        if symbol["at"][0] == "sec" and file["sections"][symbol["at"][1]]["slot"] != "merge":
            symbol["at"][2] = min(symbol["at"][2], length_of(file["sections"][symbol["at"][1]]))


def name_targets(rng, description):
    """Lets some of what isn't defined be symbols of elsewhere."""
    symbols = all_symbols(description)
    standing = [number for number, symbol in enumerate(symbols) if symbol.get("def", number) == number]
    named = {symbol["def"] for number, symbol in enumerate(symbols) if symbol.get("def", number) != number}
    for number in standing:
        if symbols[number]["at"] == ["undef"] and number not in named and rng.random() < 0.6:
            others = [other for other in standing if symbols[other]["at"] != ["undef"]]
            if others:
                symbols[number]["def"] = rng.choice(others)


def shorten(rng, description):
    set_relax(rng, description)
    make_code(rng, description)
    for file in objects(description):
        add_targets(rng, description, file)
        keep_inside(file)
        for entry in file.get("sections", []):
            if file.get("symbols") and entry["slot"] not in ("discard", "merge") and rng.random() < 0.8:
                add_relaxations(rng, entry, len(file["symbols"]))
    name_targets(rng, description)


def shortened_description(rng):
    description = good_description(rng)
    if rng.random() < 0.7:
        widen(rng, description)
    shorten(rng, description)
    return description
