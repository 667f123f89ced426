"""The groups and the plan of a whole link: symbols, relocations, names; section groups and merge data in two forms.

Per object some 25 sections, with about 3 symbols and 8 relocations for each, and names of some 30
bytes. The link keeps every rule. What an object refers to stands in it or in a file before it.
"""

from attributes import EXECUTABLE
from forms import WHOLE

ADDENDS = (-4, -4, -4, 0, 0, 0, 8, 16)
WORDS = (
    *("alloc", "borrow", "buffer", "cursor", "decode", "encode", "filter", "format", "header"),
    *("insert", "layout", "memory", "number", "output", "parse", "query", "record", "report"),
    *("section", "shared", "signal", "source", "stream", "string", "symbol", "table", "value"),
)
DYNAMIC_FILES, DYNAMIC_SYMBOLS = 2, 60
UNDEFINED_SHARE, LOCAL_SHARE, GROUP_SHARE, RELAX_SHARE = 0.4, 0.25, 0.15, 0.03
MOST_KNOWN = 4096
MOST_CANDIDATES = 1000
LAST_BYTES = 20_000
# What planning leaves free of the range of a branch. The range is that and as many bytes as the description has: far code takes some
# eight times as many, and all other sections together half.
SPARED = 2_097_152
FAR_SHARE = 0.25


def joined(texts):
    return ",".join(texts)


def chance(rng, share):
    return rng.random() < share


def truth(value):
    return "true" if value else "false"


def name_text(rng, start=""):
    """A name of some 30 bytes."""
    first, second = rng.choice(WORDS), rng.choice(WORDS)
    return "%s_ZN%d%s%d%s8h%07xE" % (start, len(first), first, len(second), second, rng.getrandbits(28))


# The plan, and the files before the objects


def events(form):
    """Each output section, and round its own sections each segment."""
    for segment, (_, first, _) in enumerate(form.segments):
        if first is None:
            yield from ('["seg",%d]' % segment, '["endseg",%d]' % segment)
    for number, (name, _, _, _) in enumerate(form.outputs):
        for segment, (_, first, _) in enumerate(form.segments):
            if first == name:
                yield '["seg",%d]' % segment
        yield '["sec",%d]' % number
        for segment, (_, _, last) in enumerate(form.segments):
            if last == name:
                yield '["endseg",%d]' % segment


def plan_text(form, page, base):
    sections = joined(
        '\n{"name":"%s","attrs":%d,"parts":[%s]}'
        % (name, attributes, joined("[%d,false]" % alignment for alignment in alignments))
        for name, attributes, alignments, _ in form.outputs
    )
    named = joined(
        '"%s":%d' % (field, part)
        for name, _, _, fields in form.outputs
        for part, field in enumerate(fields, form.first_parts[name])
    )
    return '{"page":%d,"base":["num",%d],"sections":[%s],\n"segments":[%s],\n"events":[%s]%s}' % (
        page,
        base,
        sections,
        joined('{"kind":"%s"}' % kind for kind, _, _ in form.segments),
        joined(events(form)),
        ",\n" + named if named else "",
    )


PRELUDE_SYMBOLS = (
    ("__executable_start", '["loadbase"]'),
    ("__ehdr_start", '["start",%d]' % WHOLE.numbers[".headers"]),
    ("__bss_start", '["start",%d]' % WHOLE.numbers[".bss"]),
    ("_edata", '["end",%d]' % WHOLE.numbers[".data"]),
    ("_end", '["groupend",%d]' % WHOLE.numbers[".bss"]),
    ("__tls_end", '["tlsend"]'),
    ("_etext", '["end",%d]' % WHOLE.numbers[".text"]),
    ("__heap_start", '["redirect",["align",["dot"],["num",4096]],["end",%d],true]' % WHOLE.numbers[".bss"]),
)


class Link:
    """What is kept of a link while it is written."""

    def __init__(self, writer, rng, form):
        self.writer, self.rng, self.form = writer, rng, form
        self.symbols = 0  # symbols so far, over all files
        self.files = 0  # objects so far
        self.known = []  # some symbols of files so far that stand for themselves
        self.candidates = []

    def keep(self, items, item, most):
        """Keeps an item, in place of another one where there are as many as may be."""
        if len(items) < most:
            items.append(item)
        else:
            items[self.rng.randrange(most)] = item

    def put_first_files(self):
        """The prelude; a script and the dynamic files."""
        own, dynamic = "own" in self.form.extras, "dynamic" in self.form.extras
        symbols = PRELUDE_SYMBOLS if own else ()
        prelude = joined('{"name":"%s","at":%s}' % symbol for symbol in symbols)
        self.writer.put('[{"kind":"prelude","symbols":[%s]}]' % prelude)
        self.symbols = len(symbols)
        files = []
        if own:
            script = '{"name":"heap_size","at":["redirect",["num",65536],["none"],true]}'
            files.append('{"kind":"script","name":"link.ld","symbols":[%s]}' % script)
            self.symbols += 1
        for number in range(DYNAMIC_FILES if dynamic else 0):
            names = [name_text(self.rng) for _ in range(DYNAMIC_SYMBOLS)]
            texts = joined('{"name":"%s","at":["dyn"],"flags":2}' % name for name in names)
            files.append('{"kind":"dynamic","name":"lib%d.so","symbols":[%s]}' % (number, texts))
            self.known += range(self.symbols, self.symbols + DYNAMIC_SYMBOLS)
            self.symbols += DYNAMIC_SYMBOLS
        self.writer.put(",\n[%s]" % ",\n".join(files))

    def put_last_file(self):
        """A synthetic file, with sections that its symbols keep."""
        if "own" not in self.form.extras:
            return
        number = WHOLE.numbers[".init_array"]
        symbols = '{"name":"__start_array","at":["start",%d]},{"name":"__stop_array","at":["end",%d]}'
        candidates = joined("[%d,%d,%d,%d]" % ((number, *place)) for place in self.candidates)
        self.writer.put(
            ',\n[{"kind":"synthetic","name":"generated","symbols":[%s],"candidates":[%s]}]'
            % (symbols % (number, number), candidates)
        )


def first_object_symbol(form):
    own = len(PRELUDE_SYMBOLS) + 1 if "own" in form.extras else 0
    return own + (DYNAMIC_FILES * DYNAMIC_SYMBOLS if "dynamic" in form.extras else 0)


# Objects


class Section:
    """An input section: its number in the object, what kind it is, its bytes."""

    def __init__(self, rng, form, index):
        # The first one of an object is code, so that the link has an entry.
        line = form.inputs[0] if index == 0 else rng.choice(form.inputs)
        if index == 1 and form.far and chance(rng, FAR_SHARE):
            line = form.far
        self.index = index
        self.slot, self.output, self.attributes, largest, relocations = line
        self.data = self.merge_data(rng, largest) if self.slot == "merge" else None
        self.size = len(self.data) // 2 if self.data else 8 * rng.randrange(1, largest // 8 + 1)
        self.relocations = min(self.size, int(relocations * 2 * rng.random() + 0.5))
        self.group = None

    @staticmethod
    def merge_data(rng, largest):
        """Strings, each with its zero byte, in hexadecimal digits."""
        count = rng.randrange(1, largest // 10 + 1)
        strings = ["%s_%d\0" % (rng.choice(WORDS), rng.getrandbits(8)) for _ in range(count)]
        return "".join(strings).encode().hex()


class Object:
    """The sections and symbols of an object, and their text."""

    def __init__(self, link, sections):
        self.link, self.rng = link, link.rng
        self.form = link.form
        self.sections = [Section(self.rng, self.form, index) for index in range(sections)]
        self.symbol_texts = []
        self.targets = []  # symbols to refer to, each with its greatest addend, if any
        self.choose_groups()
        self.make_symbols()

    def choose_groups(self):
        """Some pairs of neighbours, the second with what the first needs."""
        if "groups" not in self.form.extras:
            return
        for first, second in zip(self.sections, self.sections[1:]):
            grouped = first.slot == "unloaded" and second.slot in ("unloaded", "debug")
            if grouped and first.group is None and chance(self.rng, GROUP_SHARE):
                first.group = second.group = first.index

    def add_symbol(self, text, target=True, most=None):
        if target:
            self.targets.append((len(self.symbol_texts), most))
        self.symbol_texts.append(text)
        self.link.symbols += 1

    def make_symbols(self):
        """About three for each section: of the section, others of it, and ones of other files."""
        for section in self.sections:
            self.name_section(section)
            for _ in range(self.rng.randrange(1, 4)):
                if chance(self.rng, UNDEFINED_SHARE) and self.link.known:
                    self.refer_outside()
                else:
                    self.name_place(section)
        if "common" in self.form.extras:
            self.name_common()

    def name_common(self):
        """A common, that others may refer to."""
        part = self.form.first_parts[".bss"] + self.rng.randrange(self.form.part_counts[".bss"])
        self.link.keep(self.link.known, self.link.symbols, MOST_KNOWN)
        text = '{"name":"%s","at":["common",%d,%d]}'
        self.add_symbol(text % (name_text(self.rng), part, 8 * self.rng.randrange(1, 64)))

    def name_section(self, section):
        """A symbol of the section itself: unnamed and local, or a name that others may refer to."""
        live = section.slot != "discard"
        if section.slot in ("merge", "debug", "discard"):
            most = section.size - 1 if section.slot == "merge" else None
            self.add_symbol('{"at":["sec",%d,0],"local":true}' % section.index, live, most)
            return
        number = self.link.symbols
        grouped = ',"weak":true,"flags":16' if section.group == section.index else ""
        name = name_text(self.rng)
        self.add_symbol('{"name":"%s","at":["sec",%d,0]%s}' % (name, section.index, grouped))
        self.link.keep(self.link.known, number, MOST_KNOWN)

    def name_place(self, section):
        """A local or hidden place in the section."""
        offset = self.rng.randrange(section.size)
        start = ".L" if chance(self.rng, LOCAL_SHARE) else ""
        mark = "local" if start or chance(self.rng, 0.5) else "hidden"
        text = '{"name":"%s","at":["sec",%d,%d],"%s":true}'
        place = (name_text(self.rng, start), section.index, offset, mark)
        self.add_symbol(text % place, section.slot not in ("discard", "merge"))

    def refer_outside(self):
        text = '{"name":"%s","at":["undef"],"def":%d%s}'
        weak = ',"weak":true' if chance(self.rng, 0.05) else ""
        self.add_symbol(text % (name_text(self.rng), self.rng.choice(self.link.known), weak))

    # Texts

    def relocation_texts(self, section):
        """Relocations at rising offsets."""
        for number in range(section.relocations):
            bits = self.rng.getrandbits(32)
            symbol, most = self.targets[(bits >> 9) % len(self.targets)]
            kind, thunkable = self.form.kinds[bits % len(self.form.kinds)]
            # Where branches are looked at, only code has some.
            thunkable = thunkable and (self.form.far is None or section.attributes & EXECUTABLE != 0)
            addend = ADDENDS[bits >> 6 & 7] if most is None else (bits >> 9) % (most + 1)
            yield '[%d,"%s",%d,%d,%s]' % (
                number * section.size // section.relocations,
                kind,
                symbol,
                addend,
                truth(thunkable),
            )

    def relaxation_texts(self, section):
        for start in range(0, min(section.size, 48), 16):
            yield "[%d,%d,%d,4]" % (start, self.rng.choice(self.targets)[0], 1 << 20)

    def section_fields(self, section):
        yield '{"name":"%s","slot":"%s"' % (name_text(self.rng, section.output + "."), section.slot)
        parts = self.form.part_counts[section.output]
        part = self.form.first_parts[section.output] + self.rng.randrange(parts)
        yield ',"part":%d' % part
        if section.slot == "merge":
            yield ',"data":"%s","strings":true' % section.data
        else:
            yield ',"size":%d' % section.size
        if "own" in self.form.extras and section.output == ".init_array" and chance(self.rng, 0.5):
            yield ',"sorted":true'
        if section.attributes:
            yield ',"attrs":%d' % section.attributes
        if section.group is not None:
            yield ',"group":%d' % section.group
        if section.relocations:
            yield ',"relocs":[%s]' % joined(self.relocation_texts(section))
        if section.output == ".text" and chance(self.rng, RELAX_SHARE):
            yield ',"relax":[%s]' % joined(self.relaxation_texts(section))
        yield "}"

    def text(self):
        number = self.link.files
        start = '{"kind":"object","name":"lib/unit_%04d/source_%07d.o"' % (number // 64 % 10000, number)
        archive = ',"archive":true' if number % 4 == 3 else ""
        sections = joined("".join(self.section_fields(section)) for section in self.sections)
        return '%s,"symbols":[%s],\n"sections":[%s]%s}\n' % (
            start,
            joined(self.symbol_texts),
            sections,
            archive,
        )


def put_objects(link, total, group_files, first_group, most):
    """Groups of objects until the description is long enough."""
    writer, rng = link.writer, link.rng
    group = first_group
    while link.files == 0 or writer.written < total - LAST_BYTES:
        writer.put(",\n[")
        for place in range(group_files):
            if place > 0 and writer.written >= total - LAST_BYTES:
                break
            made = Object(link, 1 + int((most - 1) * rng.random()))
            for section in made.sections:
                if section.output == ".init_array":
                    link.keep(link.candidates, (group, place, section.index), MOST_CANDIDATES)
            writer.put(("," if place > 0 else "") + made.text())
            link.files += 1
        writer.put("]")
        group += 1


def put_whole_link(writer, rng, total, group_files, page, base, form, most):
    """The whole description, of objects of less than so many sections."""
    link = Link(writer, rng, form)
    options = form.options % first_object_symbol(form)
    if form.far:
        options = '%s,"branch_range":%d}' % (options[:-1], SPARED + max(1, total))
    writer.put('{"options":%s,\n"plan":%s,\n' % (options, plan_text(form, page, base)))
    writer.put('"groups":[\n')
    link.put_first_files()
    put_objects(link, total, group_files, 2, most)
    link.put_last_file()
    writer.put("\n]}\n")
