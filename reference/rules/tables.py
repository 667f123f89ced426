"""What is emitted, what is told of symbols in tables, and the entries that take bytes of table parts."""

from .links import inputs_of, parts_of, section_order, segments_inside, symbols_of
from .listed import FLAGS, OWN_FILES, TABLE_PARTS
from .reach import EDGES, UNDEFINED

SYMBOL_ENTRY, FILE_HEADER, PROGRAM_HEADER, SECTION_HEADER = 24, 64, 56, 64
# The bytes of an entry of the GOT for each flag that wants one, in their order, and of one of the PLT.
GOT_ENTRIES = {"GOT": 8, "GOT_TLS_OFFSET": 8, "GOT_TLS_MODULE": 16, "GOT_TLS_DESCRIPTOR": 16}
PLT_ENTRY = 16


def name_bytes(name):
    """The bytes of a name and of the zero byte behind it."""
    return len(name.encode()) + 1


class Tables:
    """The sections that are emitted, and the entries of each table part.

    `content` has the owners of all other parts. A prelude's symbol that is asked for because of what is
    emitted has its flag from then on. `order` has the dynamic symbols in the order of their entries, and
    `dynamic` the index of each.
    """

    def __init__(self, link, reach, content):
        self.link, self.reach, self.plan = link, reach, link.plan
        self.parts = parts_of(link)
        self.is_partial = link.options.output == "partial"
        self.singletons = [place for place, _, entry in reach.live if self.is_singleton(entry)]
        first = self.entries(whole=False)
        sizes = [
            content.sizes[part] + sum(size for _, size in first.get(part, []))
            for part in range(len(self.parts))
        ]
        self.emitted = self.emitted_sections(sizes)
        self.active = self.active_segments()
        self.ask_late()
        self.whole = self.entries(whole=True)

    def headers(self):
        """The bytes of the file header and the program headers, whether or not they stand in parts."""
        return FILE_HEADER + PROGRAM_HEADER * len(self.active)

    def is_singleton(self, entry):
        return self.is_partial and self.parts[entry.part][0] == self.plan.singletons

    # What is emitted

    def emitted_sections(self, sizes):
        """The output index of each section that is emitted."""
        marked = set(self.reach.kept)
        marked.update(section for (section, _, _), size in zip(self.parts, sizes) if size)
        marked.update(number for number, section in enumerate(self.plan.sections) if section.emit == "always")
        for number, symbol in self.prelude_symbols():
            if symbol.at[0] in EDGES and self.reach.is_resolved(number):
                marked.add(symbol.at[1])
        primaries = {section: self.plan.sections[section].primary for section in marked}
        marked = {section if primary is None else primary for section, primary in primaries.items()}
        emitted = [section for section in section_order(self.link) if section in marked and self.may_be(section)]
        return {section: index for index, section in enumerate(emitted)}

    def may_be(self, section):
        """Whether a section can be emitted at all."""
        return self.plan.sections[section].emit != "never" and not (
            self.is_partial and section == self.plan.singletons
        )

    def has_content(self, section):
        """Whether an emitted section has more than tables."""
        tables = {self.plan.named[name] for name in TABLE_PARTS}
        own = [part for part, (number, _, _) in enumerate(self.parts) if number == section]
        return section in self.emitted and any(part not in tables for part in own)

    def active_segments(self):
        inside = segments_inside(self.link)
        filled = {segment for section in self.emitted for segment in inside[section]}
        if self.is_partial:
            return []
        return [
            number
            for number, segment in enumerate(self.plan.segments)
            if self.plan.custom_phdrs or segment.always or segment.kind == "stack" or number in filled
        ]

    # Symbols

    def prelude_symbols(self):
        return self.reach.own_symbols(self.link.groups[0][0])

    def ask_late(self):
        """Asks for the prelude's symbols that are forced, or at the edge of what is emitted, if nothing did."""
        for number, symbol in self.prelude_symbols():
            kind, *operands = symbol.at
            told = kind == "force" or kind in EDGES and self.is_told(operands[0])
            is_first = kind == "start" and operands[0] == 0
            if self.link.options.strip_all or not told or is_first or not symbol.name:
                continue
            if self.reach.is_canonical(number) and not self.reach.is_resolved(number):
                self.reach.flags[number] |= FLAGS["DIRECT"]

    def is_told(self, section):
        return self.has_content(section) if self.is_partial else section in self.emitted

    def is_loaded(self, file, symbol):
        """Whether a symbol of an object stands in no section, or in one that the output has."""
        if symbol.at[0] != "sec":
            return True
        place = (*self.reach.places[id(file)], symbol.at[1])
        return file.sections[symbol.at[1]].slot == "merge" or self.reach.is_live(place)

    def is_copied(self, number, file, symbol):
        """Whether the symbol table has an entry of it."""
        if not symbol.name or not self.reach.is_canonical(number):
            return False
        resolved = self.reach.is_resolved(number)
        if file.kind in OWN_FILES:
            return resolved
        if self.is_partial and resolved:
            discarded = self.reach.is_discarded(number) and not symbol.local
            if symbol.at[0] in UNDEFINED or discarded:
                return True
        return file.kind == "object" and self.is_object_copied(file, symbol, resolved)

    def is_object_copied(self, file, symbol, resolved):
        options = self.link.options
        names_group = symbol.flags & FLAGS["GROUP_SIGNATURE"] != 0
        is_must = names_group or self.is_partial and resolved
        if symbol.at[0] in UNDEFINED or not self.is_loaded(file, symbol):
            return False
        if symbol.at[0] == "common" and not resolved:
            return False
        if symbol.local and not is_must:
            is_internal = symbol.name.startswith(".L")
            if options.discard == "all" or options.discard == "default" and is_internal:
                return False
        return names_group or symbol.name not in options.strip_names

    def is_local(self, file, symbol):
        return symbol.local or symbol.hidden and file.kind in OWN_FILES

    def is_exported(self, number, file, symbol):
        if not self.reach.is_canonical(number):
            return False
        if file.kind == "prelude":
            return symbol.at[0] == "redirect"
        return file.kind in ("object", "script") and self.reach.flags[number] & FLAGS["EXPORT_DYNAMIC"] != 0

    def dynamic_order(self):
        """The dynamic symbols in the order of their entries behind the first, which is no symbol's."""
        if self.link.options.output not in ("dynamic", "shared"):
            return []
        symbols = list(enumerate(symbols_of(self.link)))
        taken = [
            number
            for number, _ in symbols
            if self.reach.is_resolved(number) and self.reach.flags[number] & FLAGS["DYNAMIC"]
        ]
        exported = [number for number, (file, symbol) in symbols if self.is_exported(number, file, symbol)]
        self.exported_from = len(taken)
        return taken + exported

    # Entries

    def entries(self, whole):
        """The entries of each table part that the plan names, by part; those that the prelude owns, but for what
        relocations want, are there in the whole tables alone."""
        lists = {
            **self.wanted_entries(),
            **self.symbol_entries(whole),
            **self.dynamic_entries(whole),
            **(self.header_entries() if whole else {}),
        }
        named = self.plan.named
        return {named[name]: entries for name, entries in lists.items() if named[name] is not None}

    def wanted_entries(self):
        """The entries of the GOT and the PLT of each symbol, one behind the other."""
        got, plt = [], []
        for number in range(len(self.reach.symbols)):
            if self.reach.is_resolved(number):
                flags = self.reach.flags[number]
                size = sum(size for name, size in GOT_ENTRIES.items() if flags & FLAGS[name])
                got.append((("got", number), size))
                plt.append((("plt", number), PLT_ENTRY if flags & FLAGS["PLT"] else 0))
        return {"got": got, "plt": plt}

    def symbol_entries(self, whole):
        """The entries of both halves of the symbol table, and the names."""
        lists = {"symtab_local": [], "symtab_global": [], "strtab": []}
        if self.link.options.strip_all:
            return lists
        if whole:
            lists["symtab_local"].append((("null",), SYMBOL_ENTRY))
            lists["strtab"].append((("null",), 1))
            for owner in self.content_owners():
                lists["symtab_local"].append((owner, SYMBOL_ENTRY))
        for number, (file, symbol) in enumerate(self.reach.symbols):
            if self.is_copied(number, file, symbol) and (whole or file.kind != "prelude"):
                half = "symtab_local" if self.is_local(file, symbol) else "symtab_global"
                lists[half].append((("symbol", number), SYMBOL_ENTRY))
                lists["strtab"].append((("name", number), name_bytes(symbol.name)))
        return lists

    def content_owners(self):
        """In partial output, the emitted sections that are more than tables, and the singletons."""
        if not self.is_partial:
            return []
        sections = [("content", section) for section in self.emitted if self.has_content(section)]
        return sections + [("singleton", place) for place in self.singletons]

    def dynamic_entries(self, whole):
        """The entries of dynamic symbols, and their names."""
        self.order = self.dynamic_order()
        # of two entries of one symbol the later counts, which is the one among the exports
        self.dynamic = {number: index for index, number in enumerate(self.order, 1)}
        symbols, names = [], []
        if self.link.options.output in ("dynamic", "shared"):
            if whole:
                symbols.append((("dynamic null",), SYMBOL_ENTRY))
                names.append((("dynamic null",), 1))
            for index, number in enumerate(self.order):
                file, symbol = self.reach.symbols[number]
                if whole or file.kind != "prelude" or index >= self.exported_from:
                    symbols.append((("dynamic", index), SYMBOL_ENTRY))
                    names.append((("dynamic", index), name_bytes(symbol.name)))
        return {"dynsym": symbols, "dynstr": names}

    def header_entries(self):
        named = [self.plan.sections[section].name for section in self.emitted]
        singletons = set(self.singletons)
        named += [entry.name for place, _, entry in inputs_of(self.link) if place in singletons]
        return {
            "file_header": [(("file header",), FILE_HEADER)],
            "program_headers": [(("program header", segment), PROGRAM_HEADER) for segment in self.active],
            "section_headers": [(("section header", index), SECTION_HEADER) for index in range(len(named))],
            "shstrtab": [(("section name", index), name_bytes(name)) for index, name in enumerate(named)],
        }
