#!/usr/bin/env python3
"""ELF64 x86-64 objects and archives, given as to a linker, to a link description of a static executable.

    describe.py [-LDIR] [-lNAME] OBJECT .. ARCHIVE .. > link.json

Beside what docs/FORMAT.md asks for, the description has keys that its reader passes over and write.py uses: `path` of a
file; `start` of an input section, where its bytes are in that file, and `types`, those of its relocations; `info` and
`size` of a symbol; `p_type` and `p_flags` of a segment; `sh_type` of an output section.
"""

from __future__ import annotations

import json
import os
import re
import struct
from collections import deque
from dataclasses import dataclass, field
from typing import Any, Dict, Iterable, Iterator, List, NamedTuple, Optional, Set, Tuple

import elf
from elf import Object, Section, Symbol, refuse
from report import ALLOC, CODE, FLAGS, NOBITS, TLS, WRITE

Row = Dict[str, Any]  # an object of the description
BASE, PAGE, DATA = 0x400000, 4096, ALLOC | WRITE
ARRAYS = (".preinit_array", ".init_array", ".fini_array")
# Output sections in their order; `*N` is the place of others with the attributes N.
ORDER = ["", "program headers", ".note", ".rela.iplt", ".rodata", "*1", ".eh_frame_hdr", ".eh_frame"]
ORDER += [".gcc_except_table", ".init", ".plt", ".text", ".fini", "*5", ".tdata", ".tbss", *ARRAYS, ".ctors", ".dtors"]
ORDER += [".data.rel.ro", ".got", ".data", "*3", "*19", ".bss"]
ORDER += [".comment", ".symtab", ".strtab", ".shstrtab", "section headers"]
# Those that are there anyway: attributes, type, alignments, when they are emitted. The first holds the file header, and
# is emitted for the section header of no section. What stands in `.shstrtab` has no say in what is emitted.
PLANNED: List[Tuple[str, int, int, Set[int], str]] = [
    ("", ALLOC, 0, {8}, "always"), ("program headers", ALLOC, 0, {8}, "never"), ("section headers", 0, 0, {8}, "never"),
    (".rela.iplt", ALLOC, elf.SHT_PROGBITS, {8}, "auto"), (".plt", ALLOC | CODE, elf.SHT_PROGBITS, {16}, "auto"),
    *((name, DATA, elf.SHT_PROGBITS, {8}, "auto") for name in (*ARRAYS, ".got", ".data")),
    (".text", ALLOC | CODE, elf.SHT_PROGBITS, {1}, "auto"), (".bss", DATA | NOBITS, elf.SHT_NOBITS, {8}, "auto"),
    (".comment", 0, elf.SHT_PROGBITS, {1}, "auto"), (".symtab", 0, elf.SHT_SYMTAB, {8, 4}, "auto"),
    (".strtab", 0, elf.SHT_STRTAB, {1}, "auto"), (".shstrtab", 0, elf.SHT_STRTAB, {1}, "always"),
]  # fmt: skip
# The table parts: output section and alignment.
TABLES = {"file_header": ("", 8), "program_headers": ("program headers", 8), "section_headers": ("section headers", 8)}
TABLES.update(got=(".got", 8), plt=(".plt", 16), symtab_local=(".symtab", 8), symtab_global=(".symtab", 4))
TABLES.update(strtab=(".strtab", 1), shstrtab=(".shstrtab", 1), comment=(".comment", 1))
PREFIXES = [".text", ".rodata", ".data.rel.ro", ".data", ".bss", ".tdata", ".tbss", ".gcc_except_table", *ARRAYS]
IN_A_ROW = {".init", ".fini", ".eh_frame", ".eh_frame_hdr"}  # in link order, nothing between: one packed part
ROOTS = {".init", ".fini", ".ctors", ".dtors", *ARRAYS}
# What the linker's own symbols stand at, where no file defines them.
EDGES = {"__bss_start": ".bss start", "_GLOBAL_OFFSET_TABLE_": ".got start"}
EDGES["__GNU_EH_FRAME_HDR"] = ".eh_frame_hdr start"
for name in ("", "_"):
    EDGES.update({f"{name}end": ".bss end", f"{name}edata": ".data end", f"{name}etext": ".text end"})
for at in ("start", "end"):
    EDGES.update({f"__{name[1:]}_{at}".replace(".", "_"): f"{name} {at}" for name in (*ARRAYS, ".rela.iplt")})
STRONG, COMMON, WEAK, NONE = 3, 2, 1, 0  # ranks of definitions


@dataclass
class Input:
    """An input section of the description; output section and alignment say which part it goes to."""

    name: str
    slot: str
    size: int
    output: str
    align: int
    attrs: int = 0
    start: Optional[int] = None  # in the file; none where it has no bytes there
    data: Optional[str] = None
    strings: bool = False
    sorted: bool = False
    group: Optional[int] = None
    relocs: List[List[Any]] = field(default_factory=list)
    types: List[int] = field(default_factory=list)


class Definition(NamedTuple):
    """What stands for a global name: of two, the one with the greater rank."""

    rank: Tuple[int, int]
    file: File
    index: int
    symbol: Symbol


@dataclass(eq=False)
class File:
    """An object, with what the description has of it: its sections by their ELF numbers, and behind them made ones."""

    object: Object
    definitions: Dict[str, Definition]  # of all files
    inputs: List[Input] = field(default_factory=list)
    dropped: Set[int] = field(default_factory=set)  # members of section groups that another file has
    groups: Dict[int, int] = field(default_factory=dict)  # section to group
    records: Dict[int, Dict[int, int]] = field(default_factory=dict)  # of an .eh_frame: offset to input
    marks: List[int] = field(default_factory=list)  # made symbols, each at the start of an input
    first: int = 0  # number of its first symbol

    def resolve(self, seen: Set[str]) -> None:
        """Of section groups of one signature the first stays. A strong definition stands for a global name, else the
        largest common, else the first weak one, else none."""
        for index, (signature, comdat, sections) in enumerate(self.object.groups):
            if comdat and signature in seen:
                self.dropped.update(sections)
            else:
                self.groups.update((section, index) for section in sections)
            seen.add(signature)
        for index, symbol in enumerate(self.object.symbols):
            if symbol.binding == elf.STB_LOCAL:
                continue
            mine = Definition(self.rank_of(symbol), self, index, symbol)
            known = self.definitions.setdefault(symbol.name, mine)
            if known is not mine and mine.rank[0] == known.rank[0] == STRONG:
                refuse(f"duplicate symbol {symbol.name}: {known.file.object.name}, {self.object.name}")
            if mine.rank > known.rank:
                self.definitions[symbol.name] = mine

    def rank_of(self, symbol: Symbol) -> Tuple[int, int]:
        if symbol.section == elf.SHN_UNDEF or symbol.section in self.dropped:
            return NONE, 0
        if symbol.section == elf.SHN_COMMON:
            return COMMON, symbol.size
        return (WEAK if symbol.binding == elf.STB_WEAK else STRONG), 0

    def definition(self, index: int) -> Optional[Symbol]:
        symbol = self.object.symbols[index] if index < len(self.object.symbols) else None
        return self.definitions[symbol.name].symbol if symbol and symbol.binding != elf.STB_LOCAL else symbol

    def add_inputs(self) -> None:
        self.inputs = [self.section_input(index, section) for index, section in enumerate(self.object.sections)]
        for index, section in enumerate(self.object.sections):
            if section.name == ".eh_frame" and index not in self.dropped:
                self.add_frames(index, section)
        self.add_resolvers()
        for index, made in enumerate(self.inputs[: len(self.object.sections)]):  # last: groups are known
            if made.slot in ("unloaded", "must"):
                made.group = self.groups.get(index)
                for one in self.object.relocations.get(index, []):
                    self.relocate(made, *one)

    def section_input(self, index: int, section: Section) -> Input:
        """What the description says of a section of an object."""
        output = next((p for p in PREFIXES if f"{section.name}.".startswith(f"{p}.")), section.name)
        made = Input(section.name, "discard", section.size, output, section.align, attributes(section) & (WRITE | CODE))
        cut = section.name in (".eh_frame", ".note.gnu.property") or section.flags & elf.SHF_EXCLUDE
        table = section.type in (0, elf.SHT_SYMTAB, elf.SHT_RELA, elf.SHT_GROUP)
        wanted = section.flags & elf.SHF_ALLOC or section.name == ".comment"
        if cut or table or not wanted or index in self.dropped:
            return made
        if section.type != elf.SHT_NOBITS:
            made.start = self.object.start + section.offset
        strings = elf.SHF_MERGE | elf.SHF_STRINGS
        if section.flags & (strings | elf.SHF_WRITE) == strings and section.entsize == section.align == 1:
            made.slot, made.strings, made.data = "merge", True, self.object.contents(section).hex()
            return made
        keep = output in ROOTS or section.type == elf.SHT_NOTE or section.flags & elf.SHF_GNU_RETAIN
        made.slot = "must" if keep else "unloaded"
        if output in ARRAYS:
            priority = section.name[len(output) + 1 :]
            made.name, made.sorted = f"{output}.{int(priority) if priority else 65536:05}", True
        return made

    def add(self, made: Input) -> int:
        self.inputs.append(made)
        return len(self.inputs) - 1

    def mark(self, made: int) -> int:
        """A symbol at the start of an input section."""
        self.marks.append(made)
        return len(self.object.symbols) + len(self.marks) - 1

    def group_of(self, section: int) -> int:
        return self.groups.setdefault(section, len(self.object.groups) + section)

    def relocate(self, made: Input, offset: int, number: int, symbol: int, addend: int) -> None:
        if number not in elf.RELOCATIONS:
            refuse(f"{self.object.name}: a relocation R_X86_64_{elf.REFUSED.get(number, number)}: no rule for it here")
        kind, target = elf.RELOCATIONS[number].kind, self.definition(symbol)
        if target and target.section and target.type == elf.STT_GNU_IFUNC and kind in ("Absolute", "AbsoluteSet", "Relative"):
            kind = "PltRelative"
        made.relocs.append([offset, kind, symbol, addend, False])
        made.types.append(number)

    def add_frames(self, index: int, section: Section) -> None:
        """Cuts an `.eh_frame` into records, which are input sections of their own."""
        data, at = self.object.contents(section) + bytes(8), 0
        waiting = deque(self.object.relocations.get(index, []))
        records = self.records[index] = {}
        while at < section.size or not records:  # without bytes there is one record without bytes
            length, back = struct.unpack_from("<II", data, at)
            if length == 0xFFFFFFFF:
                refuse(f"{self.object.name}: a record of .eh_frame with 64-bit length")
            size = min(length + 4, section.size - at)
            slot = "must" if size == 4 else "unloaded"  # the end stays
            made = Input(".eh_frame", slot, size, ".eh_frame", 8, start=self.object.start + section.offset + at)
            while waiting and waiting[0].offset < at + size:
                offset, *rest = waiting.popleft()
                self.relocate(made, offset - at, *rest)
            records[at] = self.add_frame(index, made, records[at + 4 - back]) if length and back else self.add(made)
            at += length + 4

    def add_frame(self, index: int, made: Input, cie: int) -> int:
        """A frame is in the group of its function's section, and so is its row of `.eh_frame_hdr`. Gives the frame's
        number, or that of the whole `.eh_frame` if another file has the function."""
        function = next((row for row in made.relocs if row[0] == 8), None)
        section = self.object.symbols[function[2]].section if function else 0
        if not 0 < section < len(self.object.sections):
            refuse(f"{self.object.name}: a frame of .eh_frame whose function isn't in a section")
        if section in self.dropped:
            return index
        made.group = self.group_of(section)
        self.relocate(made, 4, elf.CIE_POINTER, self.mark(cie), 0)
        frame = self.add(made)
        row = Input("", "unloaded", 8, ".eh_frame_hdr", 4, data=bytes(8).hex(), group=made.group)
        self.relocate(row, 0, elf.FRAME_ROW, function[2], function[3])
        self.relocate(row, 4, elf.FRAME_ROW, self.mark(frame), 0)
        self.add(row)
        return frame

    def add_resolvers(self) -> None:
        """A row of 24 bytes for each indirect function, which goes with its resolver's section."""
        for index, symbol in enumerate(self.object.symbols):
            here = symbol.section and symbol.section not in self.dropped and self.definition(index) is symbol
            if here and symbol.type == elf.STT_GNU_IFUNC:
                row = Input("", "unloaded", 24, ".rela.iplt", 8, group=self.group_of(symbol.section))
                row.data = struct.pack("<QQQ", 0, elf.R_IRELATIVE, 0).hex()
                self.relocate(row, 0, elf.RESOLVED_ENTRY, index, 0)
                self.relocate(row, 16, elf.RESOLVER, index, 0)
                self.add(row)

    def placement(self, symbol: Symbol, plan: Plan) -> List[Any]:
        section, value = symbol.section, symbol.value
        if section == elf.SHN_ABS:
            return ["abs", value]
        if section == elf.SHN_COMMON:
            return ["common", plan.parts[".bss", value], symbol.size]
        if section in self.records:
            start = max(at for at in self.records[section] if at <= value)
            return ["sec", self.records[section][start], value - start]
        if section and (section not in self.dropped or symbol.binding == elf.STB_LOCAL):
            return ["sec", section, value]
        return ["undef"] if symbol.name else ["abs", 0]  # the first symbol of an object is none

    def symbol_row(self, symbol: Symbol, plan: Plan, number: int, numbers: Dict[str, int]) -> Row:
        local, flags = symbol.binding == elf.STB_LOCAL, 1 if symbol.section == elf.SHN_ABS else 0
        if symbol.type == elf.STT_GNU_IFUNC and symbol.section:
            flags |= 4
        row = {"at": self.placement(symbol, plan), "flags": flags, "local": local}
        row["def"] = number if local else numbers[symbol.name]
        row.update(weak=symbol.binding == elf.STB_WEAK, info=symbol.binding << 4 | symbol.type, size=symbol.size)
        return row if symbol.type in (elf.STT_SECTION, elf.STT_FILE) else {**row, "name": symbol.name}

    def described(self, plan: Plan, numbers: Dict[str, int]) -> Row:
        own = enumerate(self.object.symbols, self.first)
        symbols = [self.symbol_row(symbol, plan, number, numbers) for number, symbol in own]
        symbols += [{"at": ["sec", made, 0], "local": True} for made in self.marks]
        sections = []
        for made in self.inputs:
            row = {key: value for key, value in vars(made).items() if value is not None}
            del row["output"], row["align"]
            sections.append(row if made.slot == "discard" else {**row, "part": plan.parts[made.output, made.align]})
        path = os.path.abspath(self.object.path)
        return {"kind": "object", "name": self.object.name, "path": path, "symbols": symbols, "sections": sections}


def read_words(words: Iterable[str]) -> Iterator[str]:
    """The files that a linker's words name, as the compiler's driver gives them."""
    folders, rest = [], iter(words)
    for word in rest:
        if word in ("-shared", "-pie", "-r", "-T"):
            refuse(f"output or input by {word}: only static executables are described")
        elif word in ("-o", "-dynamic-linker", "-m", "-z", "-plugin", "--hash-style", "-e"):
            next(rest, None)
        elif word.startswith("-L"):
            folders.append(word[2:] or next(rest))
        elif word.startswith("-l"):
            tries = [os.path.join(folder, f"lib{word[2:]}.a") for folder in folders]
            yield next((path for path in tries if os.path.exists(path)), None) or refuse(f"no archive for {word}")
        elif not word.startswith("-"):
            yield word


def load_all(paths: List[str]) -> List[Object]:
    """The objects, and the members of archives that something refers to, in the order in which they are given."""
    lazy: Dict[str, Tuple[int, int]] = {}
    loaded: Dict[Tuple[int, int], Object] = {}
    for at, path in enumerate(paths):
        if not elf.is_archive(path):
            loaded[at, 0] = elf.load(path, 0)
            continue
        for name, header in elf.archive_index(path).items():
            lazy.setdefault(name, (at, header))
    waiting = list(loaded.values())
    defined = {s.name for the in waiting for s in the.symbols if s.binding != elf.STB_LOCAL and s.section}
    for the in waiting:  # it grows as members come in
        for s in the.symbols:
            place = lazy.get(s.name)
            if s.section or s.binding != elf.STB_GLOBAL or s.name in defined or not place or place in loaded:
                continue
            member = loaded[place] = elf.load(paths[place[0]], place[1])
            defined.update(t.name for t in member.symbols if t.binding != elf.STB_LOCAL and t.section)
            waiting.append(member)
    return [loaded[place] for place in sorted(loaded)]


@dataclass
class Output:
    name: str
    attrs: int
    sh_type: int
    aligns: Set[int] = field(default_factory=set)
    emit: str = "auto"

    def place(self) -> int:
        name = ".note" if self.name.startswith(".note") else self.name
        return ORDER.index(next(n for n in (name, f"*{self.attrs & ~TLS}", "*3") if n in ORDER))

    def segments(self) -> List[Tuple[str, int, int]]:
        """Those that it stands in, the outermost first: kind, type and flags."""
        if not self.attrs & ALLOC:
            return []
        if self.attrs & WRITE and self.attrs & CODE:
            refuse(f"{self.name}: both written and code")
        around = [("load", 1, 4 | (2 if self.attrs & WRITE else 0) | (1 if self.attrs & CODE else 0))]
        inner = {".note": ("other", 4, 4), ".eh_frame_hdr": ("other", 0x6474E550, 4)}.get(ORDER[self.place()])
        return around + [("tls", 7, 4)] if self.attrs & TLS else around + [inner] if inner else around


def attributes(section: Section) -> int:
    attrs = sum(attr for attr, flag in FLAGS.items() if section.flags & flag)
    return attrs | (NOBITS if section.type == elf.SHT_NOBITS else 0)


def outputs_of(files: List[File]) -> List[Output]:
    outputs = {name: Output(name, attrs, sh_type, set(aligns), emit) for name, attrs, sh_type, aligns, emit in PLANNED}
    for file in files:
        for index, made in enumerate(file.inputs):
            if made.slot == "discard":
                continue
            attrs, sh_type = ALLOC, elf.SHT_PROGBITS
            if index < len(file.object.sections):
                attrs, sh_type = attributes(file.object.sections[index]), file.object.sections[index].type
            there = outputs.setdefault(made.output, Output(made.output, attrs, sh_type))
            there.attrs = (there.attrs | attrs) & ~NOBITS | (there.attrs & attrs & NOBITS)  # zeros only where all are
            there.aligns.add(made.align)
        outputs[".bss"].aligns.update(s.value for s in file.object.symbols if s.section == elf.SHN_COMMON)
    return sorted(outputs.values(), key=Output.place)


class Plan:
    """Output sections by number, parts by output section and alignment, and the order of placement."""

    def __init__(self, outputs: List[Output]) -> None:
        self.sections: List[Row] = []
        self.segments: List[Row] = []
        self.events: List[List[Any]] = []
        self.number: Dict[str, int] = {}
        self.parts: Dict[Tuple[str, int], int] = {}
        is_open: List[Tuple[Tuple[str, int, int], int]] = []
        for output in outputs:
            around = output.segments()
            while [segment for segment, _ in is_open] != around[: len(is_open)]:
                self.events.append(["endseg", is_open.pop()[1]])
            for segment in around[len(is_open) :]:
                is_open.append((segment, self.open(segment)))
            self.place(output)
        self.events.append(["endseg", self.open(("stack", 0x6474E551, 6))])

    def open(self, segment: Tuple[str, int, int]) -> int:
        self.events.append(["seg", len(self.segments)])
        self.segments.append(dict(zip(("kind", "p_type", "p_flags"), segment)))
        return len(self.segments) - 1

    def place(self, output: Output) -> None:
        first, packed = sum(len(section["parts"]) for section in self.sections), output.name in IN_A_ROW
        aligns = sorted(output.aligns, reverse=True)
        self.parts.update(((output.name, align), first + (0 if packed else at)) for at, align in enumerate(aligns))
        self.number[output.name] = len(self.sections)
        self.events.append(["sec", len(self.sections)])
        row = {"name": output.name, "attrs": output.attrs, "sh_type": output.sh_type, "emit": output.emit}
        self.sections.append({**row, "parts": [[align, packed] for align in (aligns[:1] if packed else aligns)]})

    def described(self) -> Row:
        tables = {table: self.parts[part] for table, part in TABLES.items()}
        lists = {"sections": self.sections, "segments": self.segments, "events": self.events}
        return {"page": PAGE, "base": ["num", BASE], **lists, **tables}


def linker_symbols(names: Iterable[str], plan: Plan) -> Tuple[List[Row], Set[str]]:
    """Of undefined names those that the linker makes: edges of sections, also by `__start_` and `__stop_`, and the
    names of the output sections that these two keep."""
    made, kept = [], set()
    for name in names:
        bound = re.fullmatch(r"__(start|stop)_(\w+)", name)
        section, edge = EDGES.get(name, "- -").split()
        if bound and bound[2] in plan.number:
            section, edge = bound[2], "start" if bound[1] == "start" else "end"
            kept.add(section)
        if section in plan.number:
            made.append({"name": name, "at": [edge, plan.number[section]]})
        elif name in ("__ehdr_start", "__executable_start"):
            made.append({"name": name, "at": ["loadbase"]})
    return made, kept


def describe(*words: str) -> None:
    definitions, seen = {}, set()
    files = [File(the, definitions) for the in load_all(list(read_words(words)))]
    for file in files:
        file.resolve(seen)
    for file in files:
        file.add_inputs()
    plan = Plan(outputs_of(files))
    made, kept = linker_symbols([name for name, found in definitions.items() if found.rank[0] == NONE], plan)
    at = len(made)
    for file in files:
        file.first = at
        at += len(file.object.symbols) + len(file.marks)
    numbers = {name: found.file.first + found.index for name, found in definitions.items()}
    numbers.update((row["name"], number) for number, row in enumerate(made))
    candidates: List[List[int]] = []  # what `__start_` and `__stop_` keep
    head = {"slot": "must", "size": 12, "data": (bytes([1, 0x1B, 0x03, 0x3B]) + bytes(8)).hex()}  # of rows of frames
    heads = [{**head, "part": plan.parts[of]} for of in [(".eh_frame_hdr", 4)] if of in plan.parts]
    own: List[Row] = [{"kind": "synthetic", "symbols": made, "candidates": candidates}]
    own.append({"kind": "object", "name": "header of frames", "sections": heads})
    for group, file in enumerate(files, 2):
        inputs = [(index, one.output) for index, one in enumerate(file.inputs) if one.slot != "discard"]
        candidates += [[plan.number[output], group, 0, index] for index, output in inputs if output in kept]
    groups = [[{"kind": "prelude"}], own, *([file.described(plan, numbers)] for file in files)]
    if "_start" not in numbers:
        refuse("no symbol _start")
    options = {"output": "static", "identity": "a layout that is proved", "entry": numbers["_start"]}
    print(json.dumps({"options": options, "plan": plan.described(), "groups": groups}, separators=(",", ":")))


if __name__ == "__main__":
    elf.run(describe)
