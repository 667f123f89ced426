"""Random values of the shapes of the whole format, and of other shapes at any place."""

from rules import listed

from .values import NAMES, Written, pick

DEEPEST_EXPRESSION = 6
WRONG_VALUES = (
    None,
    True,
    False,
    0,
    1,
    -1,
    64,
    2**32 - 1,
    2**32,
    2**63,
    2**64 - 1,
    -(2**63),
    *map(Written, ("-0", "1.0", "1e2", "0.5", "18446744073709551616", "-9223372036854775809")),
    *map(Written, ("1E+2", "0e0", "100000000000000000000000", "1e-400")),
    *("", "must", "load", "7", "seg", "num", "00", "0", "None"),
    [],
    {},
    [[]],
    [None],
    ["num", 7],
    ["dot"],
    ["undef"],
    ["seg", 0],
    [8, False],
    [0, "None", 0, 0, False],
    [{"kind": "object"}],
)
LISTED_TEXTS = (
    *(*listed.FILE_KINDS, *listed.SLOTS, *listed.SEGMENT_KINDS, *listed.EMITS),
    *("seg", "sec", "endseg", "loc", "locrel", "addr", "num", "sym", "dot", "add", "none"),
    *(*listed.OUTPUTS, "default", "all", "Must", " must", ""),
    *("start", "counter", "undef", "dyn", "common", "abs", "redirect", "Got", "got"),
)
FIELD_NAMES = (
    *("options", "plan", "groups", "page", "base", "sections", "segments", "events", "regions"),
    *("name", "attrs", "align", "parts", "kind", "slot", "part", "size", "always", "symbols"),
    *("data", "group", "sorted", "strings", "relocs", "relax", "check", "archive", "candidates"),
    *("at", "def", "flags", "local", "weak", "hidden", "origin", "length", "primary", "emit"),
    *("region", "top", "counters", "output", "gc", "entry", "identity", "stack", "export", "got"),
    *("singletons", "comment", "unknown", "", "Page", "sections ", "dynstr", "custom_base"),
)


class Maker:
    """Makes values; in a share of the places one of another shape."""

    def __init__(self, rng, share, length):
        self.rng, self.share, self.length = rng, share, length

    def is_wrong(self):
        return self.rng.random() < self.share

    def wrong(self):
        return pick(self.rng, WRONG_VALUES)

    # Single values

    def whole(self, least, largest):
        if self.is_wrong():
            outside = (least - 1, largest + 1, Written("-0"), Written("%d.0" % least))
            return self.rng.choice((self.wrong(), *outside))
        return self.rng.choice((0, 0, 1, 2, 7, least, largest, largest - 1))

    def number(self):
        return self.whole(0, 2**64 - 1)

    def index(self):
        return self.whole(0, 2**32 - 1)

    def addend(self):
        return self.whole(-(2**63), 2**63 - 1)

    def truth(self):
        return self.wrong() if self.is_wrong() else self.rng.random() < 0.5

    def text(self):
        return self.wrong() if self.is_wrong() else self.rng.choice(NAMES)

    def listed(self, *texts):
        if self.is_wrong():
            return self.rng.choice((self.wrong(), *LISTED_TEXTS))
        return self.rng.choice(texts)

    def hexadecimal(self):
        texts = ("", "00", "6100", "aAfF09", "00" * 257)
        odd = ("0", "0g", "000", "G0", "0x", " 00", "00\n", "\u06600")
        return self.rng.choice((self.wrong(), *odd)) if self.is_wrong() else self.rng.choice(texts)

    # Lists and objects

    def list_of(self, make):
        if self.is_wrong():
            return self.wrong()
        return [make() for _ in range(self.rng.choice(self.length))]

    def fixed(self, *items):
        """Items that were made, now and then with one too few or too many."""
        items = list(items)
        if not self.is_wrong():
            return items
        choice = self.rng.randrange(4)
        if choice == 0:
            return items[: self.rng.randrange(len(items))]
        if choice == 1:
            return [*items, self.wrong()]
        if choice == 2:
            return dict.fromkeys(self.rng.sample(FIELD_NAMES, 2), 0)
        return self.wrong()

    def fields(self, required, optional):
        """Fields that are always there, and ones that mostly aren't."""
        made = {name: make() for name, make in required.items() if not self.is_wrong()}
        share = self.rng.choice((0, 0.1, 0.3, 0.6))
        for name, make in optional.items():
            if self.rng.random() < share:
                made[name] = make()
        if self.rng.random() < 0.03:
            made.setdefault(self.rng.choice(FIELD_NAMES), self.wrong())
        return self.wrong() if self.is_wrong() else made

    def tagged(self, forms, depth=0):
        """A list whose first text tells what follows."""
        tag = self.rng.choice(tuple(forms))
        items = [self.of_shape(shape, depth) for shape in forms[tag]]
        if self.is_wrong():
            tag = self.rng.choice((self.wrong(), *LISTED_TEXTS))
        return self.fixed(tag, *items)

    def of_shape(self, shape, depth):
        """A value of the shape of that name, inside that many expressions."""
        if shape == "expression":
            return self.expression(depth)
        if shape == "location":
            return self.tagged(listed.LOCATIONS)
        return {"number": self.number, "index": self.index, "truth": self.truth}[shape]()

    # The format

    def expression(self, depth=0):
        operators = depth < DEEPEST_EXPRESSION and self.rng.random() < 0.3
        forms = {
            tag: shapes
            for tag, shapes in listed.EXPRESSIONS.items()
            if (tag in listed.OPERATORS) == operators
        }
        return self.tagged(forms, depth + 1)

    def options(self):
        truths = ("gc", "error_objects", "error_dynamics", "export_all", "restrictive", "strip_all")
        names = {
            "output": lambda: self.listed(*listed.OUTPUTS),
            **dict.fromkeys(truths, self.truth),
            **dict.fromkeys(("export_list", "strip_names"), lambda: self.list_of(self.text)),
            "discard": lambda: self.listed(*listed.DISCARDS),
            "identity": self.text,
            "entry": self.index,
            "relax": self.truth,
            **dict.fromkeys(("stack", "branch_range", "bucket_limit", "merge_group"), self.number),
        }
        return self.fields({}, names)

    def plan_section(self):
        optional = {
            "name": self.text,
            "attrs": self.index,
            "align": self.number,
            "parts": lambda: self.list_of(lambda: self.fixed(self.number(), self.truth())),
            "primary": self.index,
            "emit": lambda: self.listed(*listed.EMITS),
            "region": self.text,
            "at": self.expression,
            "top": self.truth,
            "counters": self.truth,
        }
        return self.fields({}, optional)

    def segment(self):
        kind = {"kind": lambda: self.listed(*listed.SEGMENT_KINDS)}
        return self.fields(kind, {"always": self.truth})

    def region(self):
        return self.fields({"origin": self.expression, "length": self.expression}, {"name": self.text})

    def event(self):
        return self.tagged(listed.EVENTS)

    def plan(self):
        parts = (*listed.NAMED_PARTS, "singletons")
        optional = {
            "base": self.expression,
            **dict.fromkeys(listed.PLAN_TRUTHS, self.truth),
            "sections": lambda: self.list_of(self.plan_section),
            "segments": lambda: self.list_of(self.segment),
            "regions": lambda: self.list_of(self.region),
            "events": lambda: self.list_of(self.event),
            **dict.fromkeys(parts, self.index),
        }
        return self.fields({"page": lambda: self.rng.choice((16, 16, 16, self.number()))}, optional)

    def placement(self):
        return self.tagged(listed.PLACEMENTS)

    def symbol(self):
        marks = dict.fromkeys(("local", "weak", "hidden"), self.truth)
        numbers = dict.fromkeys(("def", "flags"), self.index)
        return self.fields({"at": self.placement}, {"name": self.text, **numbers, **marks})

    def relocation(self):
        kind = self.listed(*listed.PLAIN_RELOCATIONS, *listed.TABLE_RELOCATIONS)
        return self.fixed(self.number(), kind, self.index(), self.addend(), self.truth())

    def relaxation(self):
        return self.fixed(self.number(), self.index(), self.number(), self.number())

    def input_section(self):
        optional = {
            "name": self.text,
            "part": self.index,
            "size": self.number,
            "data": self.hexadecimal,
            "strings": self.truth,
            "sorted": self.truth,
            "attrs": self.index,
            "group": self.index,
            "relocs": lambda: self.list_of(self.relocation),
            "relax": lambda: self.list_of(self.relaxation),
        }
        return self.fields({"slot": lambda: self.listed(*listed.SLOTS, "merge")}, optional)

    def file(self):
        def candidate():
            return self.fixed(*(self.index() for _ in range(4)))

        optional = {
            "name": self.text,
            "symbols": lambda: self.list_of(self.symbol),
            "sections": lambda: self.list_of(self.input_section),
            **dict.fromkeys(("archive", "export", "check"), self.truth),
            "candidates": lambda: self.list_of(candidate),
        }
        return self.fields({"kind": lambda: self.listed(*listed.FILE_KINDS, "object", "object")}, optional)

    def description(self):
        def groups():
            made = self.list_of(lambda: self.list_of(self.file))
            if isinstance(made, list) and self.rng.random() < 0.7:
                made.insert(0, [{"kind": "prelude"}])
            return made

        options = {"options": self.options} if self.rng.random() < 0.5 else {}
        return self.fields({**options, "plan": self.plan, "groups": groups}, {})


def random_shapes(rng):
    """A description of the right shapes with any numbers, and with few or no values of other shapes."""
    share = rng.choice((0, 0.002, 0.005, 0.01, 0.02))
    return Maker(rng, share, rng.choice(((1,), (1, 2), (0, 1, 2, 3)))).description()


def all_places(value):
    """Each container with a key or an index of it."""
    keys = value if isinstance(value, dict) else range(len(value)) if isinstance(value, list) else ()
    for key in keys:
        yield value, key
        yield from all_places(value[key])


def break_shape(rng, description):
    """One to three values of another shape, too many or too few, or fields that aren't known there."""
    for _ in range(rng.choice((1, 1, 1, 2, 3))):
        places = list(all_places(description))
        if not places:
            return
        container, key = rng.choice(places)
        choice = rng.random()
        if choice < 0.5:
            container[key] = pick(rng, WRONG_VALUES)
        elif choice < 0.65:
            del container[key]
        elif choice < 0.8 and isinstance(container, list):
            container.append(pick(rng, WRONG_VALUES))
        elif choice < 0.9:
            add_field(rng, places)
        else:
            change_text(rng, places)


def add_field(rng, places):
    objects = [value[key] for value, key in places if isinstance(value[key], dict)]
    fields = rng.choice(objects or [{}])
    fields[rng.choice(FIELD_NAMES)] = pick(rng, WRONG_VALUES)


def change_text(rng, places):
    texts = [(value, key) for value, key in places if isinstance(value[key], str)]
    if texts:
        container, key = rng.choice(texts)
        container[key] = rng.choice(LISTED_TEXTS)
