"""Descriptions with more code than a branch reaches: objects end to end, whose branches go near and far."""

RANGES = (2_097_153, 2_097_252, 2_500_000, 3_145_728)
# What is left of a branch's range where thunks are planned.
LEFT = 2_097_152
# Shares of a range.
SHARES = (0.1, 0.3, 0.5, 0.7, 0.99, 1, 1.2)
SMALL = (0, 1, 4, 16, 64, 4096)


def size_of(rng, reach):
    """Few bytes, or a share of what branches reach, or of what is planned for."""
    if rng.random() < 0.3:
        return rng.choice(SMALL)
    return int(rng.choice((reach, reach, reach - LEFT, LEFT)) * rng.choice(SHARES)) + rng.randrange(8)


def object_of(rng, reach, parts):
    """An object with code in these parts, and symbols in it."""
    sections, symbols = [], []
    for index in range(rng.choice((1, 1, 1, 2, 3))):
        slot = rng.choice(("must", "must", "must", "unloaded"))
        sections.append({"slot": slot, "part": rng.choice(parts), "size": size_of(rng, reach), "attrs": rng.choice((4, 4, 4, 6, 0))})
        symbols.append({"at": ["sec", index, rng.choice((0, 0, sections[index]["size"], sections[index]["size"] // 2))]})
    return {"kind": "object", "sections": sections, "symbols": symbols}


def add_branches(rng, files):
    """Branches from each section to symbols of any of the files."""
    named = [[(rng.randrange(len(files)), 0) for _ in range(rng.choice((1, 1, 2, 3)))] for _ in files]
    firsts = [0]
    for file, names in zip(files, named):
        firsts.append(firsts[-1] + len(file["symbols"]) + len(names))
    for file, names in zip(files, named):
        file["symbols"] += [{"at": ["undef"], "def": firsts[other] + symbol} for other, symbol in names]
        for section in file["sections"]:
            section["relocs"] = [
                [0, rng.choice(("Relative", "Relative", "Absolute", "None")), target, rng.choice((0, -4)), rng.random() < 0.9]
                for target in range(len(file["symbols"]))
                if section["size"] > 0 and rng.random() < 0.7
            ]


def thunked_description(rng):
    """One of code in a primary part, and sometimes in another before or behind it."""
    count = rng.choice((1, 1, 2, 3))
    parts = [[alignment, False] for alignment in sorted(rng.sample((1, 2, 4, 8, 16), count), reverse=True)]
    primary = rng.randrange(len(parts))
    reach = rng.choice(RANGES) + rng.randrange(100)
    most = [primary] * 6 + list(range(len(parts)))
    files = [object_of(rng, reach, most) for _ in range(rng.choice((3, 4, 5, 7, 9)))]
    add_branches(rng, files)
    plan = {"page": rng.choice((1, 16, 4096)), "base": ["num", rng.choice((0, 65536))], "primary": primary}
    plan["sections"] = [{"name": ".text", "attrs": 5, "parts": parts}]
    plan["segments"], plan["events"] = [{"kind": "load"}], [["seg", 0], ["sec", 0], ["endseg", 0]]
    groups = [[{"kind": "prelude"}]]
    for file in files:
        if rng.random() < 0.6:
            groups.append([])
        groups[-1].append(file)
    return {"options": {"branch_range": reach, "gc": rng.random() < 0.8}, "plan": plan, "groups": groups}
