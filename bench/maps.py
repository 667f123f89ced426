"""Maps: as a report has them, with a million sections in one segment, with a segment for each, and with a line too many."""

# Names of the shapes, with two sizes for each, of which the second is ten times the first, and how the answer begins.
MAPS = {
    "live": ((200_000, 2_000_000), b"map ok: 1 sections, 1 segments\n"),
    "sections": ((100_000, 1_000_000), b"map ok: "),
    "segments": ((100_000, 1_000_000), b"map ok: "),
    "one too many": ((100_000, 1_000_000), b"not a map: line "),
}

BASE, BYTES = 0x400000, 16


def range_text(at, size):
    return "mem 0x%x %d file 0x%x %d align 16" % (BASE + at, size, at, size)


def section_lines(count, size):
    for number in range(count):
        start = BASE + size * number
        yield "section %d index %d %s lma 0x%x attrs 1\n" % (number, number, range_text(size * number, size), start)


def map_lines(shape, count):
    """The lines of a map: live sections of one output section, or so many output sections, and one segment or as many."""
    yield "layout\n"
    if shape == "live":
        yield from section_lines(1, BYTES * count)
    else:
        yield from section_lines(count, BYTES)
    if shape == "segments":
        for number in range(count):
            yield "segment %d %s\n" % (number, range_text(BYTES * number, BYTES))
    else:
        yield "segment 0 %s\n" % range_text(0, BYTES * count)
    if shape == "live":
        for number in range(count):
            yield "live 1 0 %d 0x%x %d\n" % (number, BASE + BYTES * number, BYTES)
    yield "entry -\nend\n"
    if shape == "one too many":
        yield "end\n"


def put(path, shape, count):
    """Writes the map, and gives how many lines of sections and segments it has."""
    with open(path, "w", encoding="ascii") as stream:
        stream.writelines(map_lines(shape, count))
    return {"live": 2, "segments": 2 * count}.get(shape, count + 1)
