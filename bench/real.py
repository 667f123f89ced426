"""A link in the proportions of a large real one: files of 53 sections, 7 relocations a section and 150 symbols a file, in groups of
eight; chains of references that cross groups; 200 output sections, ten of them of merged strings whose lengths are uneven."""

from attributes import ALLOCATED, EXECUTABLE, WRITABLE, ZERO_FILL
from whole import chance, joined, name_text

SECTIONS, SYMBOLS, RELOCATIONS = 53, 150, 7
# Sections of an object that hold strings to merge; the last ones.
STRING_SECTIONS = 4
CODE, READ_ONLY, STRINGS, DATA, ZERO, APART = 90, 40, 10, 40, 10, 10
OUTPUTS = CODE + READ_ONLY + STRINGS + DATA + ZERO + APART
ALIGNMENTS = (16, 8, 1)
KINDS = ("Relative", "Relative", "Relative", "Absolute", "SymRelGotBase", "Relative")
# One string in so many is long, up to so many bytes; the others have some 20.
LONG_ONE_IN, LONG_BYTES = 50, 4000
LAST_BYTES = 60_000


def outputs():
    """Name and attributes of each output section, in the order in memory."""
    ranges = (
        (".rodata", ALLOCATED, READ_ONLY),
        (".rodata.str", ALLOCATED, STRINGS),
        (".text", ALLOCATED | EXECUTABLE, CODE),
        (".data", ALLOCATED | WRITABLE, DATA),
        (".bss", ALLOCATED | WRITABLE | ZERO_FILL, ZERO),
        (".debug", 0, APART),
    )
    return [("%s.%02d" % (name, number), attributes) for name, attributes, count in ranges for number in range(count)]


def numbers_of(name, made):
    return [number for number, (other, _) in enumerate(made) if other.rpartition(".")[0] == name]


def plan_text(made, page, base):
    """A load segment for what is read, for code, and for what is written."""
    segments = ((".rodata", ".rodata.str"), (".text",), (".data", ".bss"))
    events = []
    for segment, names in enumerate(segments):
        inside = [number for name in names for number in numbers_of(name, made)]
        events += ['["seg",%d]' % segment, *('["sec",%d]' % number for number in inside), '["endseg",%d]' % segment]
    events += ['["sec",%d]' % number for number in numbers_of(".debug", made)]
    parts = joined("[%d,false]" % alignment for alignment in ALIGNMENTS)
    sections = joined('\n{"name":"%s","attrs":%d,"parts":[%s]}' % (name, attributes, parts) for name, attributes in made)
    return '{"page":%d,"base":["num",%d],"sections":[%s],\n"segments":[%s],\n"events":[%s]}' % (
        page,
        base,
        sections,
        joined(['{"kind":"load"}'] * len(segments)),
        joined(events),
    )


def strings_data(rng):
    """Strings of uneven length, many of which other files have too."""
    texts = []
    for _ in range(rng.randrange(2, 12)):
        length = rng.randrange(200, LONG_BYTES) if rng.randrange(LONG_ONE_IN) == 0 else rng.randrange(4, 36)
        number = rng.randrange(40_000)
        texts.append(("%d_" % number * (1 + length // 5))[:length] + "\0")
    return "".join(texts).encode().hex()


def low(rng):
    """A section of an object that others refer to: mostly one of the first, so that a good part of them all is dead."""
    return int((SECTIONS - STRING_SECTIONS) * rng.random() ** 8)


class Objects:
    """Objects in turn. Each refers to symbols of its own, of the file before it, and of files of other groups."""

    def __init__(self, rng, made):
        self.rng, self.made, self.count = rng, made, 0
        self.places = {name: numbers_of(name, made) for name in (".rodata", ".rodata.str", ".text", ".data", ".bss", ".debug")}

    def symbol_texts(self):
        """A symbol for each section, places in them, and references to the starts of sections of other files."""
        rng = self.rng
        for section in range(SECTIONS):
            local = section >= SECTIONS - STRING_SECTIONS
            named = '"local":true' if local else '"name":"%s"' % name_text(rng)
            yield '{"at":["sec",%d,0],%s}' % (section, named)
        outside = 40 if self.count else 0
        for _ in range(SYMBOLS - SECTIONS - outside):
            section = rng.randrange(SECTIONS - STRING_SECTIONS)
            yield '{"name":"%s","at":["sec",%d,%d],"%s":true}' % (
                name_text(rng),
                section,
                rng.randrange(8),
                "local" if chance(rng, 0.6) else "hidden",
            )
        for number in range(outside):
            # The file before, so that chains go through all; else any file.
            file = self.count - 1 if number < 8 else rng.randrange(self.count)
            target = file * SYMBOLS + low(rng)
            yield '{"name":"%s","at":["undef"],"def":%d}' % (name_text(rng), target)

    def relocation_texts(self, size):
        rng = self.rng
        last = SYMBOLS - 1
        for number in range(RELOCATIONS):
            outside = chance(rng, 0.3) and self.count
            symbol = last - rng.randrange(40) if outside else low(rng)
            kind = KINDS[rng.randrange(len(KINDS))]
            yield '[%d,"%s",%d,%d,%s]' % (8 * number % (size - 7), kind, symbol, -4, "false")

    def section_texts(self):
        rng = self.rng
        for section in range(SECTIONS):
            if section >= SECTIONS - STRING_SECTIONS:
                output = rng.choice(self.places[".rodata.str"])
                yield '{"name":".rodata.str","slot":"merge","part":%d,"data":"%s","strings":true}' % (
                    len(ALIGNMENTS) * output + 2,
                    strings_data(rng),
                )
                continue
            kind = rng.randrange(100)
            slot, name = (
                ("debug", ".debug")
                if kind < 8
                else ("unloaded", ".rodata" if kind < 25 else ".data" if kind < 38 else ".bss" if kind < 42 else ".text")
            )
            size = 64 + 8 * int(300 * rng.random() ** 8)
            # Few are kept in any case: chains keep the rest alive.
            slot = "must" if section == 0 and self.count % 16 == 0 else slot
            relocations = "" if name == ".bss" else ',"relocs":[%s]' % joined(self.relocation_texts(size))
            yield '{"name":"%s","slot":"%s","part":%d,"size":%d%s}' % (
                name_text(rng, name + "."),
                slot,
                len(ALIGNMENTS) * rng.choice(self.places[name]) + rng.randrange(len(ALIGNMENTS)),
                size,
                relocations,
            )

    def text(self):
        start = '{"kind":"object","name":"lib/unit_%04d/source_%07d.o"' % (self.count // 64, self.count)
        symbols, sections = joined(self.symbol_texts()), joined(self.section_texts())
        self.count += 1
        return '%s,"symbols":[%s],\n"sections":[%s]}\n' % (start, symbols, sections)


def put_real(writer, rng, total, group_files, page, base):
    """The whole description."""
    made = outputs()
    writer.put('{"options":{"gc":true,"identity":"measured","stack":8388608,"entry":0},\n"plan":%s,\n' % plan_text(made, page, base))
    writer.put('"groups":[\n[{"kind":"prelude"}]')
    objects = Objects(rng, made)
    while objects.count == 0 or writer.written < total - LAST_BYTES:
        writer.put(",\n[")
        for place in range(group_files):
            writer.put(("," if place > 0 else "") + objects.text())
            if writer.written >= total - LAST_BYTES:
                break
        writer.put("]")
    writer.put("\n]}\n")
