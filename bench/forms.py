"""What whole links are made of, in four forms: with everything that real ones have, and with what is laid out."""

from attributes import ALLOCATED, EXECUTABLE, THREAD_LOCAL, WRITABLE, ZERO_FILL


class Form:
    """The tables of one form.

    outputs: output sections, with their attributes, the alignments of their parts, and the fields that name
    those parts. segments: the kind, and the first and the last output section inside. inputs: weight, slot,
    output section, attributes, greatest size, and relocations on average. kinds: the kinds of relocations,
    and whether a thunk may stand in. extras: what else there is, of "groups" of sections, "dynamic" files,
    a "common" in each object, and the linker's "own" files, a script, and sections that are sorted. far: a line
    like those of inputs, of code further away than branches reach; one object in four has a section of it.
    """

    def __init__(self, outputs, segments, inputs, kinds, options, extras=(), far=None):
        self.outputs, self.segments, self.options, self.far = outputs, segments, options, far
        self.extras = frozenset(extras)
        self.lines = inputs
        self.inputs = [line[1:] for line in inputs for _ in range(line[0])]
        self.pairs = kinds
        self.kinds = [pair for pair, weight in kinds for _ in range(weight)]
        self.numbers = {name: number for number, (name, _, _, _) in enumerate(outputs)}
        self.part_counts = {name: len(alignments) for name, _, alignments, _ in outputs}
        self.first_parts = {}
        first = 0
        for name, _, alignments, _ in outputs:
            self.first_parts[name] = first
            first += len(alignments)


# The output sections of a link with all tables, before and behind where far code stands.
HEADERS_TO_CODE = (
    (".headers", ALLOCATED, (8, 4), ("file_header", "program_headers")),
    (".dynsym", ALLOCATED, (8,), ("dynsym",)),
    (".dynstr", ALLOCATED, (1,), ("dynstr",)),
    (".rodata", ALLOCATED, (32, 16, 8, 4, 1), ()),
    (".rodata.str", ALLOCATED, (1,), ()),
    (".eh_frame", ALLOCATED, (8,), ()),
    (".init", ALLOCATED | EXECUTABLE, (4,), ()),
    (".plt", ALLOCATED | EXECUTABLE, (16,), ("plt",)),
    (".text", ALLOCATED | EXECUTABLE, (64, 32, 16, 8, 4, 2, 1), ()),
)
DATA_TO_TABLES = (
    (".tdata", ALLOCATED | WRITABLE | THREAD_LOCAL, (8,), ()),
    (".tbss", ALLOCATED | WRITABLE | THREAD_LOCAL | ZERO_FILL, (8,), ()),
    (".init_array", ALLOCATED | WRITABLE, (8,), ()),
    (".data.rel.ro", ALLOCATED | WRITABLE, (32, 8), ()),
    (".got", ALLOCATED | WRITABLE, (8,), ("got",)),
    (".data", ALLOCATED | WRITABLE, (32, 16, 8, 4, 1), ()),
    (".bss", ALLOCATED | WRITABLE | ZERO_FILL, (64, 32, 8, 1), ()),
    (".comment", 0, (1,), ("comment",)),
    (".debug_info", 0, (1,), ()),
    (".debug_line", 0, (1,), ()),
    (".debug_str", 0, (1,), ()),
    (".symtab", 0, (8, 4), ("symtab_local", "symtab_global")),
    (".strtab", 0, (1,), ("strtab",)),
    (".shstrtab", 0, (1,), ("shstrtab",)),
    (".section_headers", 0, (8,), ("section_headers",)),
)


def all_segments(last_code):
    """The segments round these, of which the one of code ends with that output section."""
    return (
        ("load", ".headers", ".eh_frame"),
        ("load", ".init", last_code),
        ("load", ".tdata", ".bss"),
        ("other", ".tdata", ".got"),
        ("tls", ".tdata", ".tbss"),
        ("stack", None, None),
    )


WHOLE = Form(
    outputs=(
        *HEADERS_TO_CODE,
        (".text.far", ALLOCATED | EXECUTABLE, (16,), ("primary",)),
        *DATA_TO_TABLES,
    ),
    segments=all_segments(".text.far"),
    inputs=(
        (42, "unloaded", ".text", EXECUTABLE, 700, 10),
        (11, "unloaded", ".rodata", 0, 300, 3),
        (7, "unloaded", ".data.rel.ro", WRITABLE, 200, 8),
        (4, "unloaded", ".data", WRITABLE, 200, 3),
        (4, "unloaded", ".bss", WRITABLE, 4000, 0),
        (1, "unloaded", ".tdata", WRITABLE, 32, 0),
        (2, "must", ".init_array", WRITABLE, 8, 1),
        (7, "must", ".eh_frame", 0, 900, 12),
        (5, "debug", ".debug_info", 0, 4000, 24),
        (4, "debug", ".debug_line", 0, 2000, 12),
        (6, "merge", ".rodata.str", 0, 160, 0),
        (3, "merge", ".debug_str", 0, 300, 0),
        (1, "merge", ".comment", 0, 40, 0),
        (3, "discard", ".text", EXECUTABLE, 100, 4),
    ),
    kinds=(
        (("Relative", False), 24),
        (("PltRelative", True), 16),
        (("Absolute", False), 12),
        (("GotRelative", False), 6),
        *((kind, 1) for kind in (("AbsoluteAddition", False), ("AbsoluteSubtraction", False))),
        *(((kind, False), 1) for kind in ("GotTpOff", "TlsGd", "DtpOff", "None")),
    ),
    options=(
        '{"output":"dynamic","gc":true,"export_list":["plugin_init","plugin_exit"],"discard":"default",'
        '"strip_names":["__unused_start","__unused_end"],"identity":"measured","stack":8388608,"entry":%d}'
    ),
    extras=("groups", "dynamic", "own"),
    far=("unloaded", ".text.far", EXECUTABLE, 1 << 20, 10),
)

LINKED = Form(
    outputs=(
        (".rodata", ALLOCATED, (32, 16, 8, 4, 1), ()),
        (".eh_frame", ALLOCATED, (8,), ()),
        (".init", ALLOCATED | EXECUTABLE, (4,), ()),
        (".text", ALLOCATED | EXECUTABLE, (64, 32, 16, 8, 4, 2, 1), ()),
        (".init_array", ALLOCATED | WRITABLE, (8,), ()),
        (".data.rel.ro", ALLOCATED | WRITABLE, (32, 8), ()),
        (".data", ALLOCATED | WRITABLE, (32, 16, 8, 4, 1), ()),
        (".bss", ALLOCATED | WRITABLE | ZERO_FILL, (64, 32, 8, 1), ()),
        (".note", 0, (4,), ()),
    ),
    segments=(
        ("load", ".rodata", ".eh_frame"),
        ("load", ".init", ".text"),
        ("load", ".init_array", ".bss"),
        ("other", ".init_array", ".data.rel.ro"),
        ("stack", None, None),
    ),
    inputs=(
        (52, "unloaded", ".text", EXECUTABLE, 700, 10),
        (16, "unloaded", ".rodata", 0, 300, 3),
        (9, "unloaded", ".data.rel.ro", WRITABLE, 200, 8),
        (6, "unloaded", ".data", WRITABLE, 200, 3),
        (6, "unloaded", ".bss", WRITABLE, 4000, 0),
        (2, "must", ".init_array", WRITABLE, 8, 1),
        (2, "must", ".eh_frame", 0, 900, 12),
        (4, "unloaded", ".note", 0, 100, 8),
        (3, "discard", ".text", EXECUTABLE, 100, 4),
    ),
    kinds=(
        (("Relative", False), 24),
        (("Relative", True), 16),
        (("Absolute", False), 12),
        (("SymRelGotBase", False), 6),
        *(((kind, False), 1) for kind in ("AbsoluteAddition", "AbsoluteSubtraction", "SymbolSize")),
        *(((kind, False), 1) for kind in ("RelativeLoongArchHigh", "DtpOff", "None")),
    ),
    options='{"gc":true,"discard":"default","identity":"measured","stack":8388608,"entry":%d}',
)

GROUPED = Form(
    outputs=(
        *((".rodata.str", ALLOCATED, (1,), ()), *LINKED.outputs),
        *((".debug_info", 0, (1,), ()), (".debug_line", 0, (1,), ()), (".debug_str", 0, (1,), ())),
    ),
    segments=(("load", ".rodata.str", ".eh_frame"), *LINKED.segments[1:]),
    inputs=(
        (42, "unloaded", ".text", EXECUTABLE, 700, 10),
        (12, "unloaded", ".rodata", 0, 300, 3),
        (7, "unloaded", ".data.rel.ro", WRITABLE, 200, 8),
        (4, "unloaded", ".data", WRITABLE, 200, 3),
        (4, "unloaded", ".bss", WRITABLE, 4000, 0),
        (2, "must", ".init_array", WRITABLE, 8, 1),
        (7, "must", ".eh_frame", 0, 900, 12),
        (5, "debug", ".debug_info", 0, 4000, 24),
        (4, "debug", ".debug_line", 0, 2000, 12),
        (6, "merge", ".rodata.str", 0, 160, 0),
        (3, "merge", ".debug_str", 0, 300, 0),
        (3, "discard", ".text", EXECUTABLE, 100, 4),
    ),
    kinds=LINKED.pairs,
    options=LINKED.options,
    extras=("groups", "dynamic", "common"),
)

# A shared object: what `GROUPED` has, thread-local data, and a part for each table. Every symbol that others may name is exported.
TABLED = Form(
    outputs=(*HEADERS_TO_CODE, *DATA_TO_TABLES),
    segments=all_segments(".text"),
    inputs=WHOLE.lines,
    kinds=WHOLE.pairs,
    options=(
        '{"output":"shared","gc":true,"discard":"default","strip_names":["__unused_start","__unused_end"],'
        '"identity":"measured","stack":8388608,"entry":%d}'
    ),
    extras=GROUPED.extras,
)
