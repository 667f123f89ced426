"""Links in which one unit is asked for: behind a long chain, in a large section group, among many candidates, by many scripts, and
in a link as they are, where nothing leads to it."""

import os
import re
import subprocess
import sys

HERE = os.path.dirname(os.path.abspath(__file__))

# Names of the shapes, with two sizes for each, of which the second is ten times the first: sections, of `linked` bytes.
WHY = {"linked": (10_000_000, 100_000_000), "chain": (100_000, 1_000_000), "group": (10_000, 100_000), "edge": (10_000, 100_000), "scripts": (10_000, 100_000)}

PLAN_START = '{"plan":{"page":4096,"sections":[{"parts":[[8,false]]}],"segments":[{"kind":"load"}],"events":[["seg",0],["sec",0],\n'
START = '["endseg",0]]},\n"groups":[\n[{"kind":"prelude"}],\n['
LOCATION = '["loc",["max",["dot"],["sym",0]]],\n'
ENDING = "]\n]}\n"


def section_text(slot, fields="", size=8):
    return '{"slot":"%s","part":0,"size":%d%s}' % (slot, size, fields)


def reference_text(place, symbol):
    return '[%d,"Absolute",%d,0,false]' % (8 * place, symbol)


def chain_texts(count):
    """Each section refers to a symbol in the next one."""
    yield '{"kind":"object","symbols":[\n'
    yield ",\n".join('{"at":["sec",%d,0]}' % number for number in range(count))
    yield '],"sections":[\n'
    for number in range(count):
        after = ',"relocs":[%s]' % reference_text(0, number + 1) if number + 1 < count else ""
        yield section_text("must" if number == 0 else "unloaded", after)
        yield ",\n" if number + 1 < count else "]}\n"


def group_texts(count):
    """All sections but the first one, which refers to a symbol in the last one, are in one section group."""
    yield '{"kind":"object","symbols":[{"at":["sec",%d,0]}],"sections":[\n' % (count - 1)
    yield section_text("must", ',"relocs":[%s]' % reference_text(0, 0))
    for _ in range(1, count):
        yield ",\n" + section_text("unloaded", ',"group":0')
    yield "]}\n"


def edge_texts(count):
    """A section refers to so many symbols at the start of one output section, for which so many sections are candidates."""
    yield '{"kind":"object","symbols":[\n'
    yield ",\n".join('{"at":["undef"],"def":%d}' % (count + number) for number in range(count))
    yield '],"sections":[\n'
    yield section_text("must", ',"relocs":[\n%s]' % ",\n".join(reference_text(number, number) for number in range(count)), 8 * count)
    for _ in range(1, count):
        yield ",\n" + section_text("unloaded")
    yield ']},\n{"kind":"synthetic","symbols":[\n'
    yield ",\n".join('{"at":["start",0]}' for _ in range(count))
    yield '],"candidates":[\n'
    yield ",\n".join("[0,1,0,%d]" % number for number in range(1, count))
    yield "]}\n"


def script_texts(count):
    """A symbol to which as many expressions of the location counter refer as there are scripts, in a section that nothing else keeps."""
    yield '{"kind":"object","symbols":[{"at":["sec",0,0]}],"sections":[%s]}' % section_text("unloaded")
    for _ in range(count):
        yield ',\n{"kind":"script"}'


TEXTS = {"chain": chain_texts, "group": group_texts, "edge": edge_texts, "scripts": script_texts}


def dead_section(program, path):
    """The words for a section that isn't live, before one that is in the same file."""
    before = None
    with open(path, "rb") as source:
        told = subprocess.run([program, "layout", "0"], stdin=source, stdout=subprocess.PIPE, check=True).stdout
    for group, file, index in re.findall(rb"^live (\d+) (\d+) (\d+) ", told, re.MULTILINE):
        if before and before[:2] == (group, file) and int(index) > before[2] + 1:
            return ["why", group.decode(), file.decode(), str(before[2] + 1)]
        before = group, file, int(index)
    sys.exit("all sections are live")


def put(program, path, shape, count):
    """Writes the description, and gives the words that ask for a unit of it that is found last, or not at all."""
    if shape == "linked":
        with open(path, "wb") as stream:
            subprocess.run([sys.executable, os.path.join(HERE, "generate.py"), str(count), "0", shape], stdout=stream, check=True)
        return dead_section(program, path)
    with open(path, "w", encoding="ascii") as stream:
        stream.write(PLAN_START)
        stream.writelines(LOCATION for _ in range(count if shape == "scripts" else 0))
        stream.write(START)
        stream.writelines(TEXTS[shape](count))
        stream.write(ENDING)
    found = {"chain": count - 1, "group": count - 2, "edge": count - 1, "scripts": 0}
    return ["why", "1", "0", str(found[shape])]
