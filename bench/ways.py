"""Links in which much depends on a few things: a way that leads through all sections, one symbol that all name, a list in
which all symbols are looked up, and an output section at whose start all symbols stand."""

SECTIONS = 25  # of an object
REFERENCES = 8  # of a section to the one symbol
RELOCATION = '[%d,"%s",%d,%d,false]'
LAST_BYTES = 8_000


def plan_text(page, base):
    """One section of code in a load segment."""
    return (
        '{"page":%d,"base":["num",%d],"sections":[{"name":".text","attrs":5,"parts":[[16,false]]}],'
        '"segments":[{"kind":"load"}],"events":[["seg",0],["sec",0],["endseg",0]]}' % (page, base)
    )


def object_text(number, symbols, sections):
    name = "lib/unit_%04d/source_%07d.o" % (number // 64 % 10000, number)
    return '{"kind":"object","name":"%s","symbols":[%s],\n"sections":[%s]}\n' % (
        name,
        ",".join(symbols),
        ",".join(sections),
    )


def section_text(slot, relocations):
    return '{"slot":"%s","size":64,"attrs":4,"relocs":[%s]}' % (slot, ",".join(relocations))


def chain_object(number, is_last):
    """Each section refers to the next one; the last one to the first of the next object, if there is one."""
    symbols = ['{"at":["sec",%d,0]}' % index for index in range(SECTIONS)]
    if not is_last:
        symbols.append('{"at":["undef"],"def":%d}' % ((number + 1) * (SECTIONS + 1)))
    sections = []
    for index in range(SECTIONS):
        # The last section of all refers to itself.
        target = min(index + 1, len(symbols) - 1)
        slot = "must" if number == index == 0 else "unloaded"
        sections.append(section_text(slot, [RELOCATION % (8, "Relative", target, -4)]))
    return object_text(number, symbols, sections)


def star_object(number, _):
    """Each section refers to the first symbol of all, eight times."""
    symbol = '{"at":["sec",0,0]}' if number == 0 else '{"at":["undef"],"def":0}'
    relocations = [RELOCATION % (7 * place, "Absolute", 0, place) for place in range(REFERENCES)]
    return object_text(number, [symbol], [section_text("must", relocations)] * SECTIONS)


OBJECTS = {"chain": chain_object, "star": star_object}


def put_ways(writer, total, group_files, page, base, shape):
    """The whole description."""
    writer.put('{"plan":%s,\n"groups":[\n[{"kind":"prelude"}]' % plan_text(page, base))
    number, is_last = 0, False
    while not is_last:
        is_last = writer.written >= total - LAST_BYTES
        start = ",\n[" if number % group_files == 0 else ","
        end = "]" if is_last or number % group_files == group_files - 1 else ""
        writer.put(start + OBJECTS[shape](number, is_last) + end)
        number += 1
    writer.put("\n]}\n")


# Exports that are looked up in a list

EXPORT_BYTES = 94  # of a symbol, its name in the list, and who takes it
PER_FILE = 1000


def put_exports(writer, total, page, base):
    """Symbols of which every other one is in the list of exports, and a dynamic file that takes them all."""
    count = max(2, total // EXPORT_BYTES)
    writer.put('{"options":{"restrictive":true,"export_list":[')
    separator = ""
    for number in reversed(range(0, count, 2)):
        writer.put(separator + '"exported_symbol_%08d"' % number)
        separator = ","
    writer.put(']},\n"plan":%s,\n"groups":[\n[{"kind":"prelude"}]' % plan_text(page, base))
    for first in range(0, count, PER_FILE):
        names = range(first, min(first + PER_FILE, count))
        symbols = ['{"name":"exported_symbol_%08d","at":["sec",0,0]}' % number for number in names]
        start = ",\n[" if first == 0 else ","
        writer.put(start + object_text(first // PER_FILE, symbols, [section_text("unloaded", [])]))
    for first in range(0, count, PER_FILE):
        numbers = range(first, min(first + PER_FILE, count))
        symbols = ['{"at":["undef"],"def":%d}' % number for number in numbers]
        start = '],\n[{"kind":"dynamic","symbols":[' if first == 0 else ","
        writer.put(start + ",".join(symbols))
    writer.put("]}]\n]}\n")


# Candidates of one output section, for all of which each of as many symbols asks

CANDIDATE_BYTES = 148  # of a candidate, its section, a symbol at the start, and the reference to it


def put_listed(writer, count, text_of):
    """The texts of so many numbers, in lines of a thousand."""
    for first in range(0, count, PER_FILE):
        numbers = range(first, min(first + PER_FILE, count))
        writer.put((",\n" if first > 0 else "") + ",".join(map(text_of, numbers)))


def put_candidates(writer, total, page, base):
    """An object whose first section refers to all symbols of a synthetic file, and these to all its other sections."""
    count = max(2, total // CANDIDATE_BYTES)
    unloaded = section_text("unloaded", [])
    writer.put('{"plan":%s,\n"groups":[\n[{"kind":"prelude"}],\n' % plan_text(page, base))
    writer.put('[{"kind":"object","name":"candidates.o","symbols":[')
    put_listed(writer, count, lambda number: '{"at":["undef"],"def":%d}' % (count + number))
    writer.put('],\n"sections":[{"slot":"must","size":%d,"attrs":4,"relocs":[' % (8 * count))
    put_listed(writer, count, lambda number: RELOCATION % (8 * number, "Absolute", number, 0))
    writer.put("]},\n")
    put_listed(writer, count, lambda _: unloaded)
    writer.put(']}],\n[{"kind":"synthetic","name":"edges","symbols":[')
    put_listed(writer, count, lambda _: '{"at":["start",0]}')
    writer.put('],\n"candidates":[')
    put_listed(writer, count, lambda number: "[0,1,0,%d]" % (number + 1))
    writer.put("]}]\n]}\n")
