"""Reports that are changed at some places: maps, and texts that are none."""

import re

LARGEST = 2**64 - 1
MOST_CHANGES = 3
STRAY = b"\n 0x-a9"


def other_number(rng, number):
    """A number beside this one, or far from it."""
    near = [number + 1, max(number - 1, 0), number + rng.randint(1, 64), max(number - rng.randint(1, 64), 0), number * 2]
    far = [0, 1, LARGEST, LARGEST - number, 2**64, rng.getrandbits(64)]
    return rng.choice(near + far)


def with_other_number(rng, line):
    """The line with another number at one of its places."""
    found = list(re.finditer(rb"(?<= )(0x[0-9a-f]+|[0-9]+)", line))
    if not found:
        return line
    at = rng.choice(found)
    text = at[1]
    if text.startswith(b"0x"):
        return line[: at.start()] + b"0x%x" % other_number(rng, int(text, 16)) + line[at.end() :]
    return line[: at.start()] + b"%d" % other_number(rng, int(text)) + line[at.end() :]


def change_number(rng, lines):
    """Another number in one of the lines, mostly of a section or a segment."""
    told = [at for at, line in enumerate(lines) if line.startswith((b"section", b"segment"))]
    at = rng.choice(told) if told and rng.random() < 0.9 else rng.randrange(len(lines))
    lines[at] = with_other_number(rng, lines[at])


def double_line(rng, lines):
    at = rng.randrange(len(lines))
    lines.insert(at, lines[at])


def drop_line(rng, lines):
    del lines[rng.randrange(len(lines))]


def move_line(rng, lines):
    line = lines.pop(rng.randrange(len(lines)))
    lines.insert(rng.randint(0, len(lines)), line)


def change_byte(rng, lines):
    """A stray byte in one of the lines, in place of another or before it."""
    at = rng.randrange(len(lines))
    place = rng.randint(0, len(lines[at]))
    behind = place + rng.randint(0, 1)
    lines[at] = lines[at][:place] + bytes([rng.choice(STRAY)]) + lines[at][behind:]


CHANGES = {change_number: 20, double_line: 1, drop_line: 1, move_line: 2, change_byte: 1}


def changed_map(rng, report):
    """The bytes of a report, changed at one to three places."""
    lines = report.split(b"\n")
    for change in rng.choices(tuple(CHANGES), tuple(CHANGES.values()), k=rng.randint(1, MOST_CHANGES)):
        if len(lines) > 1:
            change(rng, lines)
    return b"\n".join(lines)
