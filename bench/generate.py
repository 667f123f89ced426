#!/usr/bin/env python3
"""Write a valid link description of about BYTES bytes to standard output.

usage: generate.py BYTES [SEED [SHAPE]]

The description depends on the three words alone. It is written as it is made: no more than one
file of it is held at a time. SHAPE says what the bytes go to:

    objects   groups of eight objects of some 25 sections each (the default)
    plan      as many output sections as fit, up to the limit, then objects
    files     objects without sections
    single    one object with all input sections
    linked    objects with symbols, relocations and names, from which dead code leaves
    gathered  the same, all objects in one group
    scattered the same of few sections each, and a group for each, or for more where these are over 60,000
    chain     objects of sections of which each refers to the next, over all objects
    star      objects of sections that all refer to one symbol, eight times each
    exports   symbols that are looked up in a list of exports, and a dynamic file that takes them
    tenth     strings that are merged, of 30 bytes, a tenth of them different
    distinct  the same, all different
    equal     the same, all equal
    one       one string that is merged
    empty     sections without data that are merged
    named     strings that are merged, each with a symbol that a relocation names
    grouped   linked ones with section groups, merge data, debug data, dynamic files and commons
    tabled    the same, thread-local data, and all tables, of which a good part of the symbols has entries
    whole     the same with a script, symbols of the linker, and thunks for far code, but without commons
    sorted    sections that are sorted by their names, of which there are 20,000
    singles   output that is linked again, of which a fifth of the sections stay output sections of their own
    branches  4 GiB of code, and branches that reach 128 MiB: mostly in their own file
    far       the same, each branch to a function of another file
    shortened code of which one relaxation in three is done, all in one pass
    stepwise  code in which each pass of relaxation lets one more of every section be done
    candidates  symbols at the start of one output section, and as many sections that each of them asks for
    real      a link in the proportions of a large real one: 200 output sections, 53 sections and 150 symbols a file
    moves     output sections, up to the limit, each at a location of an expression of depth 50
    regions   output sections in 64 regions, each with a load address
    secondary output sections of which three in four are secondary

All are laid out.
"""

import math
import random
import sys

from attributes import ALLOCATED, EXECUTABLE, WRITABLE, ZERO_FILL
from forms import GROUPED, LINKED, TABLED, WHOLE
from merges import MERGES, put_merges
from named import NAMED, put_named
from plans import PLANS, put_plans
from real import put_real
from relaxed import RELAXED, put_relaxed
from thunked import THUNKED, put_thunked
from ways import put_candidates, put_exports, put_ways
from whole import put_whole_link

PAGE = 4096
BASE = 4194304
MOST_BYTES = 500_000_000
MOST_OUTPUT_SECTIONS = 65_000
MOST_SEGMENTS = 8
FORMS = {
    **{"linked": LINKED, "gathered": LINKED, "scattered": LINKED},
    **{"grouped": GROUPED, "tabled": TABLED, "whole": WHOLE},
}
# How many sections the largest object of these has.
MOST_SECTIONS, FEW_SECTIONS = 50, 5
MOST_GROUPS, BYTES_OF_SMALL_OBJECT = 60_000, 1_390
WAYS = ("chain", "star")
SHAPES = ("objects", "plan", "files", "single", "real", *WAYS, "exports", "candidates", *MERGES, *NAMED, *THUNKED, *RELAXED, *FORMS, *PLANS)

# Share of the output sections, attributes, name, and alignments to choose from. The order is the
# order in memory: within a segment nothing with file bytes follows a zero-filled section.
KINDS = (
    (0.30, ALLOCATED, ".rodata", (32, 16, 8, 4, 1)),
    (0.60, ALLOCATED | EXECUTABLE, ".text", (64, 16, 8, 4, 2)),
    (0.80, ALLOCATED | WRITABLE, ".data", (4096, 32, 16, 8, 1)),
    (0.88, ALLOCATED | WRITABLE | ZERO_FILL, ".bss", (64, 32, 16, 8, 1)),
    (1.00, 0, ".debug", (8, 4, 2, 1)),
)


class Writer:
    """Standard output with a count of the bytes that went there."""

    def __init__(self, stream):
        self.stream = stream
        self.written = 0

    def put(self, text):
        self.stream.write(text)
        self.written += len(text)


def output_section_count(total, shape):
    """The number of output sections of a description of `total` bytes."""
    if shape == "plan":
        return max(8, min(MOST_OUTPUT_SECTIONS, total // 90))
    return max(3, min(32, total // 400)) + math.isqrt(total) // 10


def section_text(rng, index, count):
    """One output section: its text, whether it is allocated, and the number of its parts."""
    place = index / count
    _, attributes, name, choices = next(kind for kind in KINDS if place < kind[0])
    parts = [
        "[%d,%s]" % (alignment, "true" if rng.random() < 0.1 else "false")
        for alignment in choices
        if rng.random() < 0.5
    ] or ["[%d,false]" % choices[-1]]
    text = '{"name":"%s_%05d","attrs":%d,"parts":[%s]}' % (name, index, attributes, ",".join(parts))
    return text, attributes & ALLOCATED != 0, len(parts)


def event_texts(allocated, count, segments):
    """The events: the allocated sections cut into that many segments, the others behind them."""
    for segment in range(segments):
        first = allocated * segment // segments
        last = allocated * (segment + 1) // segments
        yield '["seg",%d]' % segment
        for section in range(first, last):
            yield '["sec",%d]' % section
        yield '["endseg",%d]' % segment
    for section in range(allocated, count):
        yield '["sec",%d]' % section


def put_list(writer, texts):
    """The items of a list, one to a line."""
    separator = "\n"
    for text in texts:
        writer.put(separator + text)
        separator = ",\n"


def put_plan(writer, rng, count):
    """The plan; answers the number of its parts."""
    totals = {"allocated": 0, "parts": 0}

    def sections():
        for index in range(count):
            text, allocated, parts = section_text(rng, index, count)
            totals["allocated"] += allocated
            totals["parts"] += parts
            yield text

    writer.put('{"plan":{"page":%d,"base":["num",%d],"sections":[' % (PAGE, BASE))
    put_list(writer, sections())
    segments = min(MOST_SEGMENTS, 1 + count // 24)
    writer.put('],\n"segments":[%s]' % ",".join(['{"kind":"load"}'] * segments))
    writer.put(',\n"events":[')
    put_list(writer, event_texts(totals["allocated"], count, segments))
    writer.put("]},\n")
    return totals["parts"]


def input_section_text(rng, parts):
    """One input section: low parts are the common ones, and small sizes the common sizes."""
    part = int(parts * rng.random() ** 2)
    size = int(2000 * rng.random() ** 3)
    return '{"slot":"must","part":%d,"size":%d}' % (part, size)


def object_start(number):
    """An object's text up to its list of sections."""
    return '{"kind":"object","name":"lib/unit_%04d/source_%07d.o","sections":[' % (
        number // 64 % 10000,
        number,
    )


def put_single(writer, rng, parts, total):
    """One group of one object that holds all input sections."""
    writer.put(",\n[" + object_start(0))
    separator = ""
    while writer.written < total - 20:
        writer.put(separator + input_section_text(rng, parts))
        separator = ","
    writer.put("]}]")


def files_of_group(total, shape):
    """Eight, or as many as keep the number of groups within its limit; all of them, or one, where the shape says so."""
    if shape == "gathered":
        return total
    if shape == "scattered":
        return 1 + total // (MOST_GROUPS * BYTES_OF_SMALL_OBJECT)
    return max(8, total // (4_000_000 if shape == "files" else 50_000_000))


def put_objects(writer, rng, parts, total, shape):
    """Groups of objects until the description is long enough."""
    group_files = files_of_group(total, shape)
    number = 0
    while number == 0 or writer.written < total - 500:
        writer.put(",\n[")
        for place in range(group_files):
            if place > 0 and writer.written >= total - 500:
                break
            most = 0 if shape == "files" else 1 + int(49 * rng.random())
            texts = [input_section_text(rng, parts) for _ in range(most)]
            separator = "," if place > 0 else ""
            writer.put(separator + object_start(number) + ",".join(texts) + "]}\n")
            number += 1
        writer.put("]")


def generate(stream, total, seed, shape):
    """The whole description."""
    rng = random.Random(seed)
    writer = Writer(stream)
    if shape in FORMS:
        most = FEW_SECTIONS if shape == "scattered" else MOST_SECTIONS
        put_whole_link(writer, rng, total, files_of_group(total, shape), PAGE, BASE, FORMS[shape], most)
        return
    if shape == "real":
        put_real(writer, rng, total, files_of_group(total, shape), PAGE, BASE)
        return
    if shape in WAYS:
        put_ways(writer, total, files_of_group(total, shape), PAGE, BASE, shape)
        return
    if shape == "exports":
        put_exports(writer, total, PAGE, BASE)
        return
    if shape == "candidates":
        put_candidates(writer, total, PAGE, BASE)
        return
    if shape in NAMED:
        put_named(writer, rng, total, files_of_group(total, shape), PAGE, BASE, shape)
        return
    if shape in THUNKED:
        put_thunked(writer, rng, total, files_of_group(total, shape), PAGE, BASE, shape)
        return
    if shape in RELAXED:
        put_relaxed(writer, total, files_of_group(total, shape), PAGE, BASE, shape)
        return
    if shape in PLANS:
        put_plans(writer, total, PAGE, shape)
        return
    if shape in MERGES:
        put_merges(writer, total, files_of_group(total, shape), PAGE, BASE, shape)
        return
    parts = put_plan(writer, rng, output_section_count(total, shape))
    writer.put('"groups":[\n[{"kind":"prelude"}]')
    if shape == "single":
        put_single(writer, rng, parts, total)
    else:
        put_objects(writer, rng, parts, total, shape)
    writer.put("\n]}\n")


def main(words):
    usage = "usage: generate.py BYTES [SEED [%s]], BYTES up to %d" % ("|".join(SHAPES), MOST_BYTES)
    if not 1 <= len(words) <= 3 or not all(word.isdigit() for word in words[:2]):
        sys.exit(usage)
    total = int(words[0])
    seed = int(words[1]) if len(words) > 1 else 0
    shape = words[2] if len(words) > 2 else "objects"
    if total > MOST_BYTES or shape not in SHAPES:
        sys.exit(usage)
    generate(sys.stdout, total, seed, shape)


if __name__ == "__main__":
    main(sys.argv[1:])
