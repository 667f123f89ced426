"""Links whose input sections go by their names: sorted ones, and ones that stay output sections of their own."""

import random

NAMED = ("sorted", "singles")
# How many sections an object has, and how many names there are for all.
SECTIONS, NAMES = 100, 20_000
# How many objects without singletons there are for each one with some.
PLAIN_OBJECTS = 4


def plan_text(page, base, shape):
    """The plan: code, and a section for what is sorted, or that of the singletons."""
    sections = '[{"name":".text","attrs":5,"parts":[[16,false]]},{"name":".init","attrs":3,"parts":[[8,false]]}]'
    if shape == "sorted":
        return (
            '{"page":%d,"base":["num",%d],"sections":%s,"segments":[{"kind":"load"}],'
            '"events":[["seg",0],["sec",0],["sec",1],["endseg",0]]}' % (page, base, sections)
        )
    return '{"page":%d,"sections":%s,"events":[["sec",0],["sec",1]],"singletons":1}' % (page, sections)


def sorted_text(rng):
    """A section that is sorted by its name."""
    name = ".init_array.%05d" % rng.randrange(NAMES)
    return '{"slot":"must","part":1,"size":8,"name":"%s","sorted":true}' % name


def single_text(rng):
    """A section that stays an output section of its own."""
    return '{"slot":"must","part":1,"size":%d,"name":".text.f%07d"}' % (
        rng.randrange(64),
        rng.randrange(10_000_000),
    )


def plain_text(rng):
    """A section of code."""
    return '{"slot":"must","part":0,"size":%d,"name":".text.g%07d"}' % (
        rng.randrange(64),
        rng.randrange(10_000_000),
    )


def object_text(rng, number, shape):
    """An object."""
    text = sorted_text if shape == "sorted" else single_text if number % (1 + PLAIN_OBJECTS) == 0 else plain_text
    sections = ",\n".join(text(rng) for _ in range(SECTIONS))
    return '{"kind":"object","name":"lib/source_%07d.o","sections":[%s]}' % (number, sections)


def put_named(writer, rng, total, group_files, page, base, shape):
    """The whole description."""
    options = "" if shape == "sorted" else '"options":{"output":"partial"},\n'
    writer.put('{%s"plan":%s,\n"groups":[\n[{"kind":"prelude"}]' % (options, plan_text(page, base, shape)))
    number, is_last = 0, False
    while not is_last:
        text = object_text(rng, number, shape)
        is_last = writer.written + 2 * len(text) > total
        start = ",\n[" if number % group_files == 0 else ","
        end = "]" if is_last or number % group_files == group_files - 1 else ""
        writer.put(start + text + end)
        number += 1
    writer.put("\n]}\n")
