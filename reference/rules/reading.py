"""From a JSON value to a link description, or the path of the first value of a wrong shape."""

from types import SimpleNamespace

from . import listed
from .shapes import (
    Fields,
    addend,
    fixed_list,
    hexadecimal,
    index,
    list_of,
    number,
    one_of,
    tagged,
    text,
    truth,
)

# Lists whose first item tells what follows it


def expression(value, path):
    """Its operator and its operands, as a tuple."""
    return read_expression(value, path)


def location(value, path):
    return read_location(value, path)


READERS = {
    "number": number,
    "index": index,
    "truth": truth,
    "expression": expression,
    "location": location,
}


def one_form_of(forms):
    """The shape of a list that begins with a listed text, and goes on as that text tells."""
    return tagged({tag: [READERS[shape] for shape in shapes] for tag, shapes in forms.items()})


read_expression = one_form_of(listed.EXPRESSIONS)
read_location = one_form_of(listed.LOCATIONS)
event = one_form_of(listed.EVENTS)
placement = one_form_of(listed.PLACEMENTS)


# Options and plan


def options(value, path):
    fields = Fields(value, path)
    return SimpleNamespace(
        output=fields.optional("output", one_of(listed.OUTPUTS), "static"),
        gc=fields.optional("gc", truth, True),
        error_objects=fields.optional("error_objects", truth, True),
        error_dynamics=fields.optional("error_dynamics", truth, True),
        export_all=fields.optional("export_all", truth, False),
        export_list=fields.optional("export_list", list_of(text)),
        restrictive=fields.optional("restrictive", truth, False),
        strip_all=fields.optional("strip_all", truth, False),
        discard=fields.optional("discard", one_of(listed.DISCARDS), "default"),
        strip_names=fields.optional("strip_names", list_of(text), []),
        identity=fields.optional("identity", text),
        stack=fields.optional("stack", number, 0),
        entry=fields.optional("entry", index),
        relax=fields.optional("relax", truth, False),
        branch_range=fields.optional("branch_range", number, 0),
        bucket_limit=fields.optional("bucket_limit", number, 268_435_456),
        merge_group=fields.optional("merge_group", number, 140_000),
    )


def plan_section(value, path):
    fields = Fields(value, path)
    return SimpleNamespace(
        name=fields.optional("name", text, ""),
        attrs=fields.optional("attrs", index, 0),
        align=fields.optional("align", number, 1),
        parts=fields.optional("parts", list_of(fixed_list(number, truth)), []),
        primary=fields.optional("primary", index),
        emit=fields.optional("emit", one_of(listed.EMITS), "auto"),
        region=fields.optional("region", text),
        at=fields.optional("at", expression),
        top=fields.optional("top", truth, False),
        counters=fields.optional("counters", truth, False),
    )


def segment(value, path):
    fields = Fields(value, path)
    return SimpleNamespace(
        kind=fields.required("kind", one_of(listed.SEGMENT_KINDS)),
        always=fields.optional("always", truth, False),
    )


def region(value, path):
    fields = Fields(value, path)
    return SimpleNamespace(
        name=fields.optional("name", text, ""),
        origin=fields.required("origin", expression),
        length=fields.required("length", expression),
    )


def plan(value, path):
    fields = Fields(value, path)
    read = SimpleNamespace(
        page=fields.required("page", number),
        base=fields.optional("base", expression, ("num", 0)),
        custom_base=fields.optional("custom_base", truth, False),
        custom_phdrs=fields.optional("custom_phdrs", truth, False),
        phdrs_headers=fields.optional("phdrs_headers", truth, False),
        sections=fields.optional("sections", list_of(plan_section), []),
        segments=fields.optional("segments", list_of(segment), []),
        regions=fields.optional("regions", list_of(region), []),
        events=fields.optional("events", list_of(event), []),
    )
    read.named = {name: fields.optional(name, index) for name in listed.NAMED_PARTS}
    read.singletons = fields.optional("singletons", index)
    return read


# Files


def symbol(value, path):
    fields = Fields(value, path)
    return SimpleNamespace(
        name=fields.optional("name", text, ""),
        at=fields.required("at", placement),
        definition=fields.optional("def", index),
        flags=fields.optional("flags", index, 0),
        local=fields.optional("local", truth, False),
        weak=fields.optional("weak", truth, False),
        hidden=fields.optional("hidden", truth, False),
    )


relocation = fixed_list(number, one_of(listed.RELOCATIONS), index, addend, truth)
relaxation = fixed_list(number, index, number, number)


def input_section(value, path):
    fields = Fields(value, path)
    read = SimpleNamespace(
        name=fields.optional("name", text, ""),
        slot=fields.required("slot", one_of(listed.SLOTS)),
        part=fields.optional("part", index, 0),
        size=fields.optional("size", number, 0),
        data=fields.optional("data", hexadecimal),
    )
    if read.slot == "merge":
        read.data = read.data or b""
        read.size = len(read.data)
    read.strings = fields.optional("strings", truth, False)
    read.sorted = fields.optional("sorted", truth, False)
    read.attrs = fields.optional("attrs", index, 0)
    read.group = fields.optional("group", index)
    read.relocs = fields.optional("relocs", list_of(relocation), [])
    read.relax = fields.optional("relax", list_of(relaxation), [])
    return read


def file(value, path):
    fields = Fields(value, path)
    read = SimpleNamespace(
        kind=fields.required("kind", one_of(listed.FILE_KINDS)),
        name=fields.optional("name", text, ""),
        symbols=fields.optional("symbols", list_of(symbol), []),
        sections=[],
    )
    if read.kind == "object":
        read.sections = fields.optional("sections", list_of(input_section), [])
    read.archive = fields.optional("archive", truth, False)
    read.export = fields.optional("export", truth, False)
    read.check = fields.optional("check", truth, False)
    candidate = fixed_list(index, index, index, index)
    read.candidates = fields.optional("candidates", list_of(candidate), [])
    return read


def description(value):
    """The options, the plan and the groups of files."""
    fields = Fields(value, "")
    return SimpleNamespace(
        options=fields.optional("options", options, options({}, "/options")),
        plan=fields.required("plan", plan),
        groups=fields.optional("groups", list_of(list_of(file)), []),
    )
