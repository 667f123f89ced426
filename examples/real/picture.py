#!/usr/bin/env python3
"""A report as a picture: memory and file of each segment and section to scale, and what was left out beside what stays.

    picture.py link.report [link.json] > map.svg

With the description, sections have names, and input sections are told that it has and the report hasn't.
"""

from __future__ import annotations

import json
from html import escape
from pathlib import Path
from typing import Any, Dict, List, Tuple

from elf import run
from report import ALLOC, CODE, NOBITS, WRITE, Range, Report, read_report

LEFT, BAR, NOTE, ROW = 200, 260, 215, 22  # where bars begin, their length, the room for a note, a line's height
FILE, WIDTH = LEFT + BAR + NOTE, LEFT + 2 * (BAR + NOTE)
COLOURS = {"segment": "#c9b458", "read only": "#5a9e58", "code": "#d95f30", "written": "#3b7dc4", "zeros": "#9fc3e8"}
COLOURS.update({"not in memory": "#8d7bab", "left out": "#b5b5b5"})
STYLE = "text{font:12px sans-serif;fill:#222}.t{font-size:16px;font-weight:bold}.s{fill:#666}"


def colour_of(attrs: int) -> str:
    rules = ((CODE, "code"), (NOBITS, "zeros"), (WRITE, "written"), (ALLOC, "read only"))
    return COLOURS[next((name for bit, name in rules if attrs & bit and attrs & ALLOC), "not in memory")]


def bytes_text(size: int) -> str:
    return f"{size:,} byte{'' if size == 1 else 's'}"


class Page:
    """Lines of a picture, from the top."""

    def __init__(self) -> None:
        self.y, self.lines = 34, []

    def text(self, x: float, text: str, style: str = "", most: int = 150) -> None:
        text = text if len(text) <= most else text[: most - 2] + ".."
        self.lines.append(f'<text x="{x}" y="{self.y}" class="{style}">{escape(text)}</text>')

    def box(self, x: float, width: float, colour: str) -> None:
        size = f'x="{x:.2f}" y="{self.y - 13}" width="{max(width, 2):.2f}" height="16"'
        self.lines.append(f'<rect {size} fill="{colour}"/>')

    def heading(self, text: str, *columns: Tuple[int, str]) -> None:
        self.y += ROW
        self.text(20, text, "t")
        for x, column in columns:
            self.text(x, column, "s")
        self.y += ROW

    def bar(self, x: int, ends: Tuple[int, int], start: int, size: int, colour: str) -> None:
        """From start on, where the whole line goes from one end to the other; and a note behind it."""
        scale = BAR / max(ends[1] - ends[0], 1)
        self.box(x, BAR, "#f0f0f0")
        self.box(min(x + (start - ends[0]) * scale, x + BAR - 2), size * scale, colour)
        self.text(x + BAR + 8, f"{start:#x}, {bytes_text(size)}")

    def places(self, rows: List[Tuple[str, str, Range]]) -> None:
        """Name, colour and ranges of each, with a bar for memory and one for the file."""
        in_memory = [there for _, colour, there in rows if colour != COLOURS["not in memory"]]
        mem = min((r.mem for r in in_memory), default=0), max((r.mem + r.mem_size for r in in_memory), default=0)
        file = 0, max((there.file + there.file_size for _, _, there in rows), default=0)
        texts = (f"{name}, {start:#x} to {end:#x}" for name, (start, end) in (("memory", mem), ("file", file)))
        self.heading("Where", *zip((LEFT, FILE), texts))
        for name, colour, there in rows:
            self.text(20, name, most=28)
            if there in in_memory and there.mem_size:
                self.bar(LEFT, mem, there.mem, there.mem_size, colour)
            if there.file_size:
                self.bar(FILE, file, there.file, there.file_size, colour)
            self.y += ROW

    def left_out(self, report: Report, link: Dict[str, Any], names: List[str]) -> None:
        """What stays of input sections and what doesn't, by output section; and the largest that don't."""
        owner = [number for number, row in enumerate(link["plan"].get("sections", [])) for _ in row["parts"]]
        sums: Dict[int, List[int]] = {}
        gone: List[Tuple[int, str]] = []
        files = ((g, f, file) for g, group in enumerate(link["groups"]) for f, file in enumerate(group))
        inputs = ((g, f, i, file, row) for g, f, file in files for i, row in enumerate(file.get("sections", [])))
        for g, f, i, file, row in inputs:
            if row["slot"] not in ("must", "unloaded", "debug", "mustdebug"):
                continue
            number, live, size = owner[row.get("part", 0)], report.live.get((g, f, i)), row.get("size", 0)
            sums.setdefault(number, [0, 0])[0 if live else 1] += live.size if live else size
            if not live:
                gone.append((size, f"{bytes_text(size)}: {row.get('name') or names[number]} of {file.get('name', '')}"))
        self.heading("Kept and left out", (LEFT, "bytes of input sections, but for merged ones"))
        scale = 2 * BAR / (max((kept + out for kept, out in sums.values()), default=0) or 1)
        for number, (kept, out) in sorted(sums.items()):
            self.text(20, names[number], most=28)
            self.box(LEFT, kept * scale, colour_of(report.section[number].attrs) if kept else "none")
            self.box(LEFT + kept * scale, out * scale, COLOURS["left out"] if out else "none")
            self.text(LEFT + 2 * BAR + 12, f"{bytes_text(kept)} stay, {out:,} left out")
            self.y += ROW
        for _, text in sorted(gone, key=lambda one: -one[0])[:10]:
            self.text(LEFT, f"left out: {text}", "s")
            self.y += ROW


def picture(report: str, description: str = "") -> None:
    link = json.loads(Path(description).read_bytes()) if description else {}
    with open(report, encoding="utf-8") as lines:
        told = read_report(lines)
    page, plan = Page(), link.get("plan", {})
    names = [row.get("name") or f"section {i}" for i, row in enumerate(plan.get("sections", [{}] * len(told.section)))]
    for at, (name, colour) in enumerate(COLOURS.items()):
        page.box(LEFT + 130 * at, 14, colour)
        page.text(LEFT + 130 * at + 20, name, "s")
    page.y += ROW // 2
    kinds = [f", {row['kind']}" for row in plan.get("segments", [])] or [""] * 64
    rows = [(f"segment {i}{kinds[i]}", COLOURS["segment"], r) for i, r in told.segment.items()]
    rows += [(names[i], colour_of(r.attrs), r) for i, r in told.section.items()]
    page.places([row for row in rows if row[2].mem_size or row[2].file_size])
    if link:
        page.left_out(told, link, names)
    size = f'width="{WIDTH}" height="{page.y}" viewBox="0 0 {WIDTH} {page.y}"'
    back = f'<style>{STYLE}</style><rect width="{WIDTH}" height="{page.y}" fill="#fff"/>'
    print(f'<svg xmlns="http://www.w3.org/2000/svg" {size}>', back, *page.lines, "</svg>", sep="\n")


if __name__ == "__main__":
    run(picture)
