"""ELF64 x86-64 objects and archives as describe.py reads them, and the relocations by which write.py fills fields."""

from __future__ import annotations

import struct
import sys
from dataclasses import dataclass, field
from functools import lru_cache
from typing import Callable, Dict, List, NamedTuple, NoReturn, Tuple

SHT_PROGBITS, SHT_SYMTAB, SHT_STRTAB, SHT_RELA, SHT_NOTE, SHT_NOBITS, SHT_REL, SHT_GROUP = 1, 2, 3, 4, 7, 8, 9, 17
SHF_WRITE, SHF_ALLOC, SHF_EXECINSTR, SHF_MERGE, SHF_STRINGS = 1, 2, 4, 0x10, 0x20
SHF_TLS, SHF_GNU_RETAIN, SHF_EXCLUDE = 0x400, 0x200000, 0x80000000
SHN_UNDEF, SHN_ABS, SHN_COMMON, SHN_XINDEX = 0, 0xFFF1, 0xFFF2, 0xFFFF
STB_LOCAL, STB_GLOBAL, STB_WEAK = 0, 1, 2
STT_SECTION, STT_FILE, STT_TLS, STT_GNU_IFUNC = 3, 4, 6, 10
R_IRELATIVE = 37
# Fields of sections that describe.py makes, above the numbers that ELF gives.
CIE_POINTER, FRAME_ROW, RESOLVED_ENTRY, RESOLVER = 256, 257, 258, 259


class RelocationType(NamedTuple):
    """What a field wants of its symbol, by the description's word, its form (of `struct`), and how it is computed."""

    kind: str
    form: str
    formula: str  # of terms that write.py has
    name: str


RELOCATIONS: Dict[int, RelocationType] = {
    number: RelocationType(kind, form, formula, f"R_X86_64_{name}")
    for kind, form, formula, names in (
        ("None", "", "", {0: "NONE"}),
        ("Absolute", "Q", "S+A", {1: "64"}),
        ("AbsoluteSet", "I", "S+A", {10: "32"}),
        ("AbsoluteSet", "i", "S+A", {11: "32S"}),
        ("Relative", "i", "S+A-P", {2: "PC32", 4: "PLT32", 26: "GOTPC32"}),
        ("GotRelative", "i", "G+A-P", {9: "GOTPCREL", 41: "GOTPCRELX", 42: "REX_GOTPCRELX"}),
        ("GotTpOff", "i", "O+A-P", {22: "GOTTPOFF"}),
        ("TpOff", "i", "S+A-T", {23: "TPOFF32"}),
        ("Relative", "i", "P-S", {CIE_POINTER: "(of a frame, to its common information)"}),
        ("Relative", "i", "S+A-H", {FRAME_ROW: "(in a row of .eh_frame_hdr)"}),
        ("PltRelative", "Q", "G", {RESOLVED_ENTRY: "(the entry that a resolver fills)"}),
        ("PltRelative", "Q", "V", {RESOLVER: "(a resolver)"}),
    )
    for number, name in names.items()
}
REFUSED = {3: "GOT32", 12: "16", 13: "PC16", 14: "8", 15: "PC8", 16: "DTPMOD64", 17: "DTPOFF64", 18: "TPOFF64"}
REFUSED.update({19: "TLSGD", 20: "TLSLD", 21: "DTPOFF32", 24: "PC64", 25: "GOTOFF64", 27: "GOT64", 28: "GOTPCREL64"})
REFUSED.update({29: "GOTPC64", 31: "PLTOFF64", 32: "SIZE32", 33: "SIZE64", 34: "GOTPC32_TLSDESC", 36: "TLSDESC"})


class Refusal(Exception):
    """What these programs can't say or don't find as it should be."""


def refuse(what: str) -> NoReturn:
    raise Refusal(what)


def run(main: Callable[..., None]) -> None:
    """Runs a program by its words; a refusal is told in one line."""
    try:
        main(*sys.argv[1:])
    except Refusal as refusal:
        sys.exit(f"{sys.argv[0]}: {refusal}")


Section = NamedTuple(
    "Section",
    [("name", str), ("type", int), ("flags", int), ("addr", int), ("offset", int), ("size", int), ("link", int)]
    + [("info", int), ("align", int), ("entsize", int)],
)
Symbol = NamedTuple(
    "Symbol", [("name", str), ("binding", int), ("type", int), ("section", int), ("value", int), ("size", int)]
)
Relocation = NamedTuple("Relocation", [("offset", int), ("type", int), ("symbol", int), ("addend", int)])


@dataclass
class Object:
    """A relocatable file: a file of its own, or a member of an archive, whose bytes begin at `start` of the file."""

    path: str
    start: int
    name: str
    image: bytes
    sections: List[Section] = field(default_factory=list)
    symbols: List[Symbol] = field(default_factory=list)
    relocations: Dict[int, List[Relocation]] = field(default_factory=dict)  # of a section, by rising offset
    groups: List[Tuple[str, bool, List[int]]] = field(default_factory=list)  # signature, whether COMDAT, members

    def __post_init__(self) -> None:
        if self.image[:6] != b"\x7fELF\x02\x01" or struct.unpack_from("<HH", self.image, 16) != (1, 62):
            refuse(f"{self.name}: not an ELF64 x86-64 object")
        (table,), (count, names) = struct.unpack_from("<Q", self.image, 40), struct.unpack_from("<HH", self.image, 60)
        if not count or names == SHN_XINDEX:
            refuse(f"{self.name}: more than 65,279 sections")
        rows = [struct.unpack_from("<IIQQQQIIQQ", self.image, table + 64 * i) for i in range(count)]
        texts = self.image[rows[names][4] :]
        self.sections = [Section(text_at(texts, row[0]), *row[1:8], row[8] or 1, row[9]) for row in rows]
        for section in sorted(self.sections, key=lambda one: one.type != SHT_SYMTAB):  # symbols first
            self.read(section)

    def contents(self, section: Section) -> bytes:
        return b"" if section.type == SHT_NOBITS else self.image[section.offset : section.offset + section.size]

    def read(self, section: Section) -> None:
        if section.type == SHT_SYMTAB:
            texts = self.contents(self.sections[section.link])
            for name, info, _, *rest in struct.iter_unpack("<IBBHQQ", self.contents(section)):
                self.symbols.append(Symbol(text_at(texts, name), info >> 4, info & 15, *rest))
        elif section.type == SHT_RELA:
            rows = struct.iter_unpack("<QQq", self.contents(section))
            self.relocations[section.info] = sorted(Relocation(o, i & 0xFFFFFFFF, i >> 32, a) for o, i, a in rows)
        elif section.type == SHT_REL:
            refuse(f"{self.name}: relocations without addends (SHT_REL)")
        elif section.type == SHT_GROUP:
            (flags,), *members = struct.iter_unpack("<I", self.contents(section))
            signature = self.symbols[section.info]
            name = signature.name or self.sections[signature.section].name
            self.groups.append((name, bool(flags & 1), [member for (member,) in members]))


def text_at(texts: bytes, offset: int) -> str:
    return texts[offset : texts.index(0, offset)].decode("utf-8", "surrogateescape")


@lru_cache(maxsize=None)
def file_bytes(path: str) -> bytes:
    with open(path, "rb") as file:
        return file.read()


def is_archive(path: str) -> bool:
    return file_bytes(path)[:8] == b"!<arch>\n"


def archive_index(path: str) -> Dict[str, int]:
    """Names of symbols, and where the header of the first member is that defines each."""
    image = file_bytes(path)
    if image[8:24].rstrip() != b"/":
        return {} if len(image) == 8 else refuse(f"{path}: an archive without an index")
    (count,) = struct.unpack_from(">I", image, 68)
    offsets = struct.unpack_from(f">{count}I", image, 72)
    names = image[72 + 4 * count : 68 + int(image[56:66])].decode("utf-8", "surrogateescape").split("\0")
    return dict(reversed(list(zip(names, offsets))))


def load(path: str, header: int) -> Object:
    """An object, or the member of an archive with its header there."""
    image = file_bytes(path)
    if not is_archive(path):
        return Object(path, 0, path, image)
    name, size, start = image[header : header + 16].decode().rstrip(), image[header + 48 : header + 58], header + 60
    if name[0] == "/":  # in the table of long names, which is behind the index
        at = 128 + (int(image[56:66]) + 1) // 2 * 2 + int(name[1:])
        name = image[at : image.index(b"\n", at)].decode()
    return Object(path, start, f"{path}({name.rstrip('/')})", image[start : start + int(size)])
