#!/usr/bin/env python3
"""The report of a description that describe.py made, and the files that this names, to an executable.

    write.py link.json link.report OUTPUT

Each size that is written is checked against the report's. docs/WRITERS.md says which line of a report is used where.
"""

from __future__ import annotations

import json
import re
import struct
from pathlib import Path
from typing import Any, Dict, List, Optional, Tuple

import elf
from elf import RELOCATIONS, RelocationType, file_bytes, refuse
from report import FLAGS, GOT, GOT_TPOFF, INDIRECT, NOBITS, TLS, Range, Report, Value, read_report

Row = Dict[str, Any]  # an object of the description
FileAt = Tuple[int, int]  # group, file
Place = Tuple[int, ...]  # group, file, section
MASK = (1 << 64) - 1


def expect(what: str, mine: int, told: int) -> None:
    if mine != told:
        refuse(f"{what}: {mine}, of which the report tells {told}")


def bucket_of(piece: bytes) -> int:
    """By the 64-bit FNV-1a hash."""
    value = 0xCBF29CE484222325
    for byte in piece:
        value = (value ^ byte) * 0x100000001B3 & MASK
    return value % 16


def got_word(known: Value, flag: int) -> int:
    """Where a symbol's word of one kind stands in its entry of the GOT: words come in the order of the flags."""
    if known.got is None or not known.flags & flag:
        refuse(f"no entry of the GOT with flag {flag}")
    return known.got + (8 if known.flags & GOT and flag > GOT else 0)


class Output:
    """The file that is made, and all that is looked up for it."""

    def __init__(self, link: Row, report: Report) -> None:
        self.report, self.plan, self.identity = report, link["plan"], link["options"]["identity"]
        self.image = bytearray(max(there.file + there.file_size for there in report.section.values()))
        self.files: Dict[FileAt, Row] = {}
        self.first_symbol: Dict[FileAt, int] = {}
        self.symbols: List[Tuple[FileAt, Row]] = []  # by number, with the file
        for group, files in enumerate(link["groups"]):
            for at, file in enumerate(files):
                self.files[group, at] = file
                self.first_symbol[group, at] = len(self.symbols)
                self.symbols += (((group, at), row) for row in file.get("symbols", []))
        sections = self.plan["sections"]
        self.part_owner = [number for number, section in enumerate(sections) for _ in section["parts"]]
        self.named = {section["name"]: report.section[number] for number, section in enumerate(sections)}
        self.pieces: Dict[Tuple[int, bytes], int] = {}  # merged ones by output section: their addresses

    def part(self, number: int) -> Range:
        """A part's ranges; one without bytes has no line, and is where its output section starts."""
        owner = self.report.section[self.part_owner[number]]
        return self.report.part.get(number) or Range(owner.mem, 0, owner.file, 0, 1)

    def put(self, part: int, mem: int, data: bytes) -> None:
        """Bytes of a part: as far behind its start in the file as in memory."""
        there = self.part(part)
        at = mem - there.mem
        if at < 0 or at + len(data) > there.file_size:
            refuse(f"part {part}: {len(data)} bytes at {mem:#x} are outside of its {there.file_size}")
        self.image[there.file + at : there.file + at + len(data)] = data

    def whole(self, table: str, data: bytes) -> None:
        """All bytes of a table's part."""
        part = self.plan[table]
        expect(f"bytes of {table}", len(data), self.part(part).file_size)
        self.put(part, self.part(part).mem, data)

    def row(self, place: Place) -> Row:
        return self.files[place[:2]]["sections"][place[2]]

    def thread_pointer(self) -> int:
        """The end of thread-local data, which code on this machine counts back from."""
        kinds = [segment["kind"] for segment in self.plan["segments"]]
        tls = self.report.segment.get(kinds.index("tls")) if "tls" in kinds else None
        return -(-(tls.mem + tls.mem_size) // tls.align) * tls.align if tls else refuse("no thread-local segment")

    def target(self, file: FileAt, symbol: int, addend: int) -> Tuple[int, int, int]:
        """What stands for a relocation's symbol, which is given by its index in the file; its value; and the addend."""
        number = self.first_symbol[file] + symbol
        number = self.symbols[number][1].get("def", number)
        owner, row = self.symbols[number]
        if row["at"][0] == "sec" and not row.get("name") and self.row((*owner, row["at"][1]))["slot"] == "merge":
            # a symbol without a name: the addend chooses the byte, and is used up
            return number, self.piece_address((*owner, row["at"][1]), row["at"][2] + addend), 0
        known = self.report.symbol.get(number)
        value = known.value if known else 0  # defined nowhere, and weak
        return number, known.plt if known and known.flags & INDIRECT and known.plt else value, addend

    def piece_address(self, place: Place, offset: int) -> int:
        """Where the output has a byte of a merged section."""
        row = self.row(place)
        data = bytes.fromhex(row["data"])
        start, end = data.rfind(0, 0, offset) + 1, data.index(0, offset) + 1
        return self.pieces[self.part_owner[row["part"]], data[start:end]] + offset - start

    def term(self, letter: str, number: int) -> int:
        """A term of a formula that isn't the symbol's value, the addend or the place."""
        if letter == "T":
            return self.thread_pointer()
        if letter == "H":  # rows of frames count from their header
            return self.named[".eh_frame_hdr"].mem
        known = self.report.symbol[number]
        return known.value if letter == "V" else got_word(known, GOT if letter == "G" else GOT_TPOFF)

    def write_merged(self) -> None:
        """Distinct pieces by bucket, in each in the order in which they come; `piece` lines tell where each stands."""
        buckets: Dict[int, List[Dict[bytes, int]]] = {}  # by output section: 16 times pieces and their part
        merged = (row for file in self.files.values() for row in file.get("sections", []) if row["slot"] == "merge")
        for row in merged:
            of_owner = buckets.setdefault(self.part_owner[row["part"]], [{} for _ in range(16)])
            for text in bytes.fromhex(row["data"]).split(b"\0")[:-1]:
                of_owner[bucket_of(text + b"\0")].setdefault(text + b"\0", row["part"])
        for owner, of_owner in buckets.items():
            mine, told = [item for bucket in of_owner for item in bucket.items()], self.report.pieces.get(owner, [])
            expect(f"pieces of output section {owner}", len(mine), len(told))
            for (piece, part), line in zip(mine, told):
                expect("bytes of a piece", len(piece), line.size)
                self.pieces[owner, piece] = line.mem
                self.put(part, line.mem, piece)

    def write_live(self) -> None:
        """What each live section has in its `data` or in its file, with its relocations done."""
        for place, live in self.report.live.items():
            file, row = self.files[place[:2]], self.row(place)
            expect(f"bytes of section {place}", row["size"], live.size)
            if "data" in row:
                data = bytearray.fromhex(row["data"])
            elif "start" in row:
                data = bytearray(file_bytes(file["path"])[row["start"] : row["start"] + row["size"]])
            else:
                continue  # zeros that the file doesn't have
            for (at, _, symbol, addend, _), number in zip(row.get("relocs", []), row.get("types", [])):
                self.relocate(data, live.mem, RELOCATIONS[number], at, self.target(place[:2], symbol, addend))
            self.put(row["part"], live.mem, bytes(data))

    def relocate(self, data: bytearray, mem: int, how: RelocationType, at: int, target: Tuple[int, int, int]) -> None:
        """Fills the field at an offset of data that stand there in memory."""
        number, value, addend = target
        terms, result = {"S": value, "A": addend, "P": mem + at}, 0
        for sign, letter in re.findall("(-?)([A-Z])", how.formula):
            term = terms[letter] if letter in terms else self.term(letter, number)
            result += -term if sign else term
        try:
            struct.pack_into(f"<{how.form}", data, at, result & MASK if how.form == "Q" else result)
        except struct.error:
            refuse(f"{how.name} at {mem + at:#x} doesn't reach {value:#x}, or what is asked of it")

    def write_frame_header(self) -> None:
        """`.eh_frame_hdr` has a row for each live frame, which write_live filled in; here they are put in order."""
        there = self.named.get(".eh_frame_hdr")
        if there:
            rows = sorted(struct.iter_unpack("<ii", self.image[there.file + 12 : there.file + there.file_size]))
            head = struct.pack("<iI", self.named[".eh_frame"].mem - there.mem - 4, len(rows))
            ordered = head + b"".join(struct.pack("<ii", *row) for row in rows)
            self.image[there.file + 4 : there.file + 4 + len(ordered)] = ordered

    def write_got_and_plt(self) -> None:
        """Entries by the numbers of symbols; those of the PLT are jumps by the GOT's word for the value."""
        got, plt = bytearray(), bytearray()
        got_start, plt_start = (self.part(self.plan[table]).mem for table in ("got", "plt"))
        for number, known in sorted(self.report.symbol.items()):
            if known.plt is not None:
                expect(f"PLT entry of symbol {number}", plt_start + len(plt), known.plt)
                plt += b"\xff\x25" + struct.pack("<i", got_word(known, GOT) - known.plt - 6)
                plt += bytes.fromhex("662e0f1f840000000000")
            if known.got is not None:
                expect(f"GOT entry of symbol {number}", got_start + len(got), known.got)
                if known.flags & GOT:
                    got += struct.pack("<Q", known.value)
                if known.flags & GOT_TPOFF:
                    got += struct.pack("<Q", known.value - self.thread_pointer() & MASK)
        self.whole("got", got)
        self.whole("plt", plt)

    def write_identity(self) -> None:
        """The linker's identity stands behind what is merged in the part for it."""
        part = self.plan["comment"]
        image = self.report.merged.get(self.part_owner[part])
        start = image.mem + image.size if image else self.part(part).mem
        self.put(part, start, f"Linker: {self.identity}\0".encode())

    def is_copied(self, number: int) -> bool:
        """Whether the symbol table has it."""
        owner, row = self.symbols[number]
        name, at, is_told = row.get("name", ""), row["at"], number in self.report.symbol
        if not name or row.get("def", number) != number:
            return False
        if self.files[owner]["kind"] != "object":
            return is_told
        if at[0] == "undef" or (row.get("local") and name.startswith(".L")):
            return False
        if at[0] == "sec":
            return (*owner, at[1]) in self.report.live or self.row((*owner, at[1]))["slot"] == "merge"
        return at[0] != "common" or is_told

    def value_of(self, number: int) -> Tuple[int, Optional[int]]:
        """A symbol's value and its output section by what it stands at, also where the report gives it no value."""
        (owner, row), known = self.symbols[number], self.report.symbol.get(number)
        value, (kind, *at) = known.value if known else 0, row["at"]
        if kind == "sec":
            place = (*owner, at[0])
            if known is None:
                merged = self.row(place)["slot"] == "merge"
                value = self.piece_address(place, at[1]) if merged else self.report.live[place].mem + at[1]
            return value, self.part_owner[self.row(place)["part"]]
        return value, at[0] if kind in ("start", "end") else self.part_owner[at[0]] if kind == "common" else None

    def write_symbols(self) -> None:
        names, local_rows, global_rows = bytearray(1), bytearray(24), bytearray()
        for number, (_, row) in enumerate(self.symbols):
            if self.is_copied(number):
                value, section = self.value_of(number)
                index = self.report.section[section].index if section is not None else None
                info = row.get("info", elf.STB_GLOBAL << 4)
                if info & 15 == elf.STT_TLS:  # these count from the start of thread-local data
                    value -= min(there.mem for there in self.report.section.values() if there.attrs & TLS)
                index = elf.SHN_ABS if index is None else index
                entry = struct.pack("<IBBHQQ", len(names), info, 0, index, value & MASK, row.get("size", 0))
                (local_rows if row.get("local") else global_rows).extend(entry)
                names += row["name"].encode("utf-8", "surrogateescape") + b"\0"
        self.whole("symtab_local", local_rows)
        self.whole("symtab_global", global_rows)
        self.whole("strtab", names)

    def write_program_headers(self) -> None:
        rows, page = b"", self.plan["page"]
        for index, there in sorted(self.report.segment.items()):
            planned = self.plan["segments"][index]
            load = planned["kind"] == "load"
            offset = there.file if there.file_size or not load else there.mem % page
            if load and (there.mem - offset) % page:
                refuse(f"segment {index}: memory and file differ modulo {page}")
            rows += struct.pack("<IIQQQ", planned["p_type"], planned["p_flags"], offset, there.mem, there.mem)
            rows += struct.pack("<QQQ", there.file_size, there.mem_size, max(there.align, page if load else 1))
        self.whole("program_headers", rows)

    def write_section_headers(self) -> None:
        names, rows = bytearray(), bytearray()
        emitted = sorted((r.index, number) for number, r in self.report.section.items() if r.index is not None)
        for index, number in emitted:
            there, planned = self.report.section[number], self.plan["sections"][number]
            flags = sum(flag for attr, flag in FLAGS.items() if there.attrs & attr)
            size = there.mem_size if there.attrs & NOBITS else there.file_size
            link = info = entry_size = 0
            if planned["name"] == ".symtab":
                link, entry_size = self.named[".strtab"].index, 24
                info = self.part(self.plan["symtab_local"]).file_size // 24
            header = struct.pack("<IIQQQQ", len(names), planned["sh_type"], flags, there.mem, there.file, size)
            header += struct.pack("<IIQQ", link, info, there.align, entry_size)
            rows += header if index else bytes(64)
            names += planned["name"].encode() + b"\0"
        self.whole("section_headers", rows)
        self.whole("shstrtab", names)

    def write_file_header(self) -> None:
        entry = refuse("no entry") if self.report.entry is None else self.report.entry
        segments, sections = (self.part(self.plan[name]) for name in ("program_headers", "section_headers"))
        head = b"\x7fELF\x02\x01\x01" + bytes(9) + struct.pack("<HHI", 2, 62, 1)
        head += struct.pack("<QQQI", entry, segments.file, sections.file, 0)
        counts = (segments.file_size // 56, 64, sections.file_size // 64, self.named[".shstrtab"].index)
        self.whole("file_header", head + struct.pack("<6H", 64, 56, *counts))


def write(description: str, report: str, output: str) -> None:
    with open(report, encoding="utf-8") as lines:
        out = Output(json.loads(Path(description).read_bytes()), read_report(lines))
    out.write_merged()  # first: relocations ask where pieces are
    out.write_live()
    out.write_frame_header()
    out.write_got_and_plt()
    out.write_identity()
    out.write_symbols()
    out.write_program_headers()
    out.write_section_headers()
    out.write_file_header()
    Path(output).write_bytes(out.image)
    Path(output).chmod(0o755)


if __name__ == "__main__":
    elf.run(write)
