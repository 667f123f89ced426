"""The lines of a report, as records; docs/FORMAT.md, "The report", says what each line tells."""

from __future__ import annotations

from dataclasses import dataclass, field
from typing import Dict, Iterable, List, NamedTuple, Optional, Tuple

from elf import SHF_ALLOC, SHF_EXECINSTR, SHF_TLS, SHF_WRITE, refuse

ALLOC, WRITE, CODE, TLS, NOBITS = 1, 2, 4, 8, 16  # of `attrs`
FLAGS = {ALLOC: SHF_ALLOC, WRITE: SHF_WRITE, CODE: SHF_EXECINSTR, TLS: SHF_TLS}
INDIRECT, GOT, GOT_TPOFF = 4, 128, 512  # of a symbol's flags
Bytes = NamedTuple("Bytes", [("mem", int), ("size", int)])  # of a live section, a merged image or a piece of one
Value = NamedTuple("Value", [("value", int), ("flags", int), ("got", Optional[int]), ("plt", Optional[int])])


class Range(NamedTuple):
    """Where a section, a part or a segment stands: starts and bytes."""

    mem: int
    mem_size: int
    file: int
    file_size: int
    align: int
    attrs: int = 0  # of a section
    index: Optional[int] = None  # of a section: its number among the emitted ones


@dataclass
class Report:
    section: Dict[int, Range] = field(default_factory=dict)
    part: Dict[int, Range] = field(default_factory=dict)
    segment: Dict[int, Range] = field(default_factory=dict)
    live: Dict[Tuple[int, ...], Bytes] = field(default_factory=dict)  # by group, file and index
    merged: Dict[int, Bytes] = field(default_factory=dict)  # by output section
    pieces: Dict[int, List[Bytes]] = field(default_factory=dict)  # likewise
    symbol: Dict[int, Value] = field(default_factory=dict)
    entry: Optional[int] = None


def read_report(lines: Iterable[str]) -> Report:
    rest, report, kind = iter(lines), Report(), ""
    first = next(rest, "").rstrip()
    if first != "layout":
        refuse(f"no report, but: {first}")
    for line in rest:
        kind, *words = line.split()
        told = [None if word == "-" else int(word, 0) for word in words if word == "-" or word[0].isdigit()]
        if kind == "section":
            number, index, *ranges, _, attrs = told
            report.section[number] = Range(*ranges, attrs, index)
        elif kind in ("part", "segment"):
            getattr(report, kind)[told[0]] = Range(*told[1:])
        elif kind == "live":
            report.live[tuple(told[:3])] = Bytes(*told[3:])
        elif kind == "merged":
            report.merged[told[0]] = Bytes(told[5], told[1])
        elif kind == "piece":
            report.pieces.setdefault(told[0], []).append(Bytes(*told[1:]))
        elif kind == "symbol":
            report.symbol[told[0]] = Value(*told[1:5])
        elif kind == "entry":
            report.entry = told[0] if told else None  # `not an address` has no number
    return report if kind == "end" else refuse("a report without its end")
