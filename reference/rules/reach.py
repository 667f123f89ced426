"""What is kept: all that a path from a root leads to, and the flags that references give to symbols."""

from .links import definitions_of, files_of, first_symbols, inputs_of, parts_of, symbols_of
from .listed import FLAGS, FLAGS_OF, HAS_RESOLUTION, LOCATION_EVENTS, NEAR_ALONE, OPERATORS, OWN_FILES
from .refusal import references

# A unit is a symbol, by its number, or an input section, by its group, file and index. An ask is the unit
# that it reaches, if any, and the symbol that it gives flags to, if any, with the flags.
NO_FLAGS = 0
FOLLOWED, DEBUG = ("unloaded", "must"), ("debug", "mustdebug")
# Who is kept by a member of its group.
GROUPED = ("unloaded", "must", "debug")
UNDEFINED = ("undef", "undefined", "force")
EDGES = ("start", "end", "groupend")
EXPORT_ALL, EXPORT_LISTED = "all", "listed"


def symbols_in(expression):
    """The symbols that an expression names, by their numbers."""
    kind, *operands = expression
    if kind == "sym":
        yield operands[0]
    elif kind in OPERATORS:
        for operand in operands:
            yield from symbols_in(operand)


class Reach:
    """The units that are reached, the input sections among them that are live, and the flags of symbols."""

    def __init__(self, link):
        self.link = link
        self.symbols = symbols_of(link)
        self.definitions = definitions_of(link)
        self.first_symbols = first_symbols(link)
        self.inputs = list(inputs_of(link))
        self.entries = {place: entry for place, _, entry in self.inputs}
        self.places = {id(file): (group, number) for group, number, file in files_of(link)}
        self.members = {}
        for place, _, entry in self.inputs:
            if entry.group is not None and entry.slot in GROUPED:
                self.members.setdefault((place[:2], entry.group), []).append(place)
        self.flags = [symbol.flags for _, symbol in self.symbols]
        self.reached = set()
        self.walk()
        self.live = [item for item in self.inputs if self.is_live(item[0])]
        self.live_in = {}
        for item in self.live:
            self.live_in.setdefault(item[0][:2], []).append(item)
        self.kept = set(self.kept_outputs())

    def is_live(self, place):
        return place in self.reached and self.entries[place].slot in FOLLOWED + DEBUG

    def live_of(self, group, number):
        """The live sections of a file."""
        return self.live_in.get((group, number), [])

    def is_resolved(self, number):
        """Whether a symbol of a loaded file stands for itself and something asks for it; one of the linker's files or a
        script needs a name."""
        file, symbol = self.symbols[number]
        if not self.is_canonical(number) or file.kind == "notloaded":
            return False
        return self.flags[number] & HAS_RESOLUTION != 0 and (symbol.name != "" or file.kind not in OWN_FILES)

    def definition(self, place, index):
        """The symbol that stands for the one with this index in the file of a section."""
        return self.definitions[self.first_symbols[place[:2]] + index]

    def own_symbols(self, file):
        """The numbers of a file's symbols, with what they are."""
        return enumerate(file.symbols, self.first_symbols[self.places[id(file)]])

    def is_canonical(self, number):
        return self.definitions[number] == number

    def kept_outputs(self):
        """The output sections that are kept though nothing in them may have bytes."""
        parts = parts_of(self.link)
        for _, _, entry in self.live:
            if entry.size == 0 and entry.slot in FOLLOWED:
                yield parts[entry.part][0]
        for number, (file, symbol) in enumerate(self.symbols):
            if file.kind == "script" and number in self.reached and symbol.at[0] == "redirect":
                _, _, location, _ = symbol.at
                if location[0] in ("start", "end"):
                    yield location[1]

    # Who asks for what

    def refer(self, number, flags):
        """The ask for what stands for a symbol, with these flags."""
        definition = self.definitions[number]
        return definition, definition, flags

    def roots(self):
        """What is kept in any case."""
        by_kind = {
            "prelude": self.prelude_roots,
            "object": self.object_roots,
            "dynamic": self.dynamic_roots,
            "script": self.script_roots,
        }
        for _, _, file in files_of(self.link):
            if file.kind in by_kind:
                yield from by_kind[file.kind](file)

    def prelude_roots(self, file):
        if self.link.options.entry is not None:
            yield self.refer(self.link.options.entry, FLAGS["DIRECT"])
        for number, symbol in self.own_symbols(file):
            if symbol.at[0] == "redirect" and self.is_canonical(number):
                yield from self.asks_of_redirect(number, symbol)
            if symbol.at[0] == "force" and not self.is_undefined(self.definitions[number]):
                yield self.refer(number, FLAGS["DIRECT"])

    def object_roots(self, file):
        slots = ("must", "mustdebug") if self.link.options.gc else FOLLOWED + DEBUG
        for index, entry in enumerate(file.sections):
            if entry.slot in slots:
                yield (*self.places[id(file)], index), None, NO_FLAGS
        mode = self.export_mode(file)
        for number, _ in self.own_symbols(file):
            if mode is not None and self.can_export(number, mode) and not self.is_discarded(number):
                yield self.refer(number, FLAGS["EXPORT_DYNAMIC"])

    def dynamic_roots(self, file):
        for number, _ in self.own_symbols(file):
            definition = self.definitions[number]
            if definition == number or self.is_undefined(definition):
                continue
            kind = self.symbols[definition][0].kind
            if kind == "script":
                yield self.refer(number, NO_FLAGS)
            elif kind == "object" and self.can_export(definition, EXPORT_ALL) and not self.is_discarded(definition):
                yield self.refer(number, FLAGS["EXPORT_DYNAMIC"])

    def script_roots(self, file):
        for number, symbol in self.own_symbols(file):
            only_provided = symbol.at[0] == "redirect" and symbol.at[3]
            if self.is_canonical(number) and not only_provided:
                yield self.refer(number, NO_FLAGS)
        for event in self.link.plan.events:
            if event[0] in LOCATION_EVENTS:
                for number in symbols_in(event[1]):
                    yield self.refer(number, FLAGS["DIRECT"])

    def export_mode(self, file):
        """Which symbols of an object are exported: all that can be, those of the list, or none."""
        options = self.link.options
        if options.output == "shared" and (file.export or not file.archive):
            return EXPORT_ALL
        if options.output not in ("dynamic", "shared"):
            return None
        if options.export_all:
            return EXPORT_ALL
        return None if options.export_list is None else EXPORT_LISTED

    def can_export(self, number, mode):
        file, symbol = self.symbols[number]
        if not self.is_canonical(number) or self.is_undefined(number):
            return False
        if symbol.local or symbol.hidden or symbol.flags & FLAGS["DOWNGRADE_LOCAL"]:
            return False
        options = self.link.options
        if options.export_list is None or mode == EXPORT_ALL and not options.restrictive:
            return True
        return symbol.name in options.export_list

    def is_discarded(self, number):
        """Whether a symbol stands in a section that is left out."""
        file, symbol = self.symbols[number]
        return symbol.at[0] == "sec" and file.sections[symbol.at[1]].slot == "discard"

    def asks_of_redirect(self, number, symbol):
        """A redirect asks for itself and for the symbols of its expression."""
        yield self.refer(number, FLAGS["DIRECT"])
        for other in symbols_in(symbol.at[1]):
            yield self.refer(other, FLAGS["DIRECT"])

    def asks_of_symbol(self, number):
        file, symbol = self.symbols[number]
        place, kind = self.places[id(file)], symbol.at[0]
        if file.kind == "object" and kind == "sec":
            yield (*place, symbol.at[1]), None, NO_FLAGS
        elif file.kind == "synthetic" and kind in EDGES:
            for output, *candidate in file.candidates:
                if output == symbol.at[1]:
                    yield tuple(candidate), None, NO_FLAGS
        elif file.kind == "script":
            if kind == "redirect":
                yield from self.asks_of_redirect(number, symbol)
            if symbol.name and not symbol.hidden:
                yield self.refer(number, FLAGS["EXPORT_DYNAMIC"])

    def asks_of_section(self, place):
        """A section asks for the others of its group and, if it has no debug data, for the symbols of its relocations; a
        discarded or merged one for nothing."""
        entry = self.entries[place]
        if entry.group is not None and entry.slot in FOLLOWED + DEBUG:
            for other in self.members.pop((place[:2], entry.group), []):
                yield other, None, NO_FLAGS
        if entry.slot in FOLLOWED:
            for _, kind, symbol, _, is_thunkable in entry.relocs:
                if FLAGS_OF[kind]:
                    yield self.refer(self.first_symbols[place[:2]] + symbol, FLAGS_OF[kind])
                if is_thunkable and entry.part == self.link.plan.named["primary"]:
                    yield None, self.first_symbols[place[:2]] + symbol, NEAR_ALONE

    def asks_of(self, unit):
        return self.asks_of_section(unit) if isinstance(unit, tuple) else self.asks_of_symbol(unit)

    def walk(self):
        waiting = list(self.roots())
        while waiting:
            unit, symbol, flags = waiting.pop()
            if symbol is not None:
                self.flags[symbol] |= flags
            if unit is not None and unit not in self.reached:
                self.reached.add(unit)
                waiting.extend(self.asks_of(unit))

    # What can't be met

    def lacks(self, place, file, relocation):
        """Whether a relocation needs a symbol that is defined nowhere."""
        _, kind, symbol, _, _ = relocation
        needed = FLAGS_OF[kind] and not file.symbols[symbol].weak
        return needed and self.is_undefined(self.definition(place, symbol))

    def is_undefined(self, definition):
        return self.symbols[definition][1].at[0] in UNDEFINED

    def faults(self):
        """A line for each reference that can't be met, by file, section and relocation."""
        for group, number, file in files_of(self.link):
            for index, entry in enumerate(file.sections):
                yield from self.section_faults((group, number, index), file, entry)
            if file.kind == "dynamic" and file.check and self.link.options.error_dynamics:
                first = self.first_symbols[group, number]
                for index, symbol in enumerate(file.symbols, first):
                    if not symbol.weak and self.is_undefined(self.definitions[index]):
                        yield "undefined: symbol %d from %d %d" % (index, group, number)

    def section_faults(self, place, file, entry):
        if place in self.reached and entry.slot == "discard":
            yield "discarded: %d %d %d" % place
        if self.link.options.error_objects and self.is_live(place) and entry.slot in FOLLOWED:
            for index, relocation in enumerate(entry.relocs):
                if self.lacks(place, file, relocation):
                    symbol = self.definition(place, relocation[2])
                    yield "undefined: symbol %d from %d %d %d relocation %d" % (symbol, *place, index)


def reach_of(link):
    """What is reached, unless there are references that can't be met: all of them are told."""
    reach = Reach(link)
    faults = list(reach.faults())
    if faults:
        raise references(faults)
    return reach


def reach_lines(link):
    """What the traversal answers: live sections, the flags of all symbols, and output sections that are kept."""
    reach = reach_of(link)
    for place, _, _ in reach.live:
        yield "live %d %d %d" % place
    for number, flags in enumerate(reach.flags):
        yield "flags %d %d" % (number, flags)
    for section in sorted(reach.kept):
        yield "keeps %d" % section
