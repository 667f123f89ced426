"""Maps: texts in the form of a report, whoever made them. Which texts are maps, and what is wrong with those that are."""

import re

from .refusal import REFUSED, UNREADABLE, Refusal

LARGEST = 2**64 - 1
ALLOCATED, THREAD_LOCAL, ZERO_FILLED = 1, 8, 16

# What stands for a field: a number, an address, and either of them or none. All else is a word.
FIELDS = {
    "N": "(0|[1-9][0-9]*)",
    "A": "0x(0|[1-9a-f][0-9a-f]*)",
    "N?": "(-|0|[1-9][0-9]*)",
    "A?": "(-|0x(?:0|[1-9a-f][0-9a-f]*))",
}
RANGES = "mem A N file A N align N"
# The kinds of lines in their order, each with its forms.
KINDS = [
    ["layout"],
    ["section N index N? " + RANGES + " lma A attrs N"],
    ["part N " + RANGES],
    ["segment N " + RANGES],
    ["live N N N A N"],
    ["single N N N N"],
    ["merged N N N N N A"],
    ["piece N A N"],
    ["block N N N"],
    ["thunk N N A?"],
    ["symbol N A N got A? plt A? dyn N?"],
    ["entry A?", "entry not loaded", "entry not an address"],
    ["end"],
]
LAYOUT, SECTION, SEGMENT, ENTRY, END = 0, 1, 3, 11, 12


class Line:
    """The line of a section or a segment, with its ranges."""

    def __init__(self, number, values):
        self.number = number
        self.memory, self.file = values[0:2], values[2:4]
        self.attrs = values[4]

    def ranges(self):
        return self.memory, self.file


def pattern_of(form):
    return re.compile(" ".join(FIELDS.get(field, field) for field in form.split(" ")).encode())


PATTERNS = [(kind, pattern_of(form), form.split(" ")) for kind, forms in enumerate(KINDS) for form in forms]


def number_of(field, text):
    """The number that stands in a field, or nothing for none."""
    if text == b"-":
        return None
    return int(text[2:] if text.startswith(b"0x") else text, 16 if field.startswith("A") else 10)


def read_line(text):
    """The kind of a line and its numbers, if it has one of the forms."""
    for kind, pattern, fields in PATTERNS:
        found = pattern.fullmatch(text)
        if found:
            numbers = [number_of(*pair) for pair in zip((f for f in fields if f in FIELDS), found.groups())]
            if all(number is None or number <= LARGEST for number in numbers):
                return kind, numbers
    return None, []


def can_follow(before, kind):
    """Whether a line of a kind can stand behind one of another, or first."""
    if before is None:
        return kind == LAYOUT
    if before in (LAYOUT, ENTRY, END) and kind == before:
        return False
    return kind >= before and before != END and (kind == END) == (before == ENTRY)


def not_a_map(number):
    return Refusal(UNREADABLE, "not a map: line %d" % number)


def read_map(data):
    """The lines of the sections and of the segments of a map."""
    sections, segments, before = [], [], None
    *lines, rest = data.split(b"\n")
    for number, text in enumerate(lines, 1):
        kind, values = read_line(text)
        if kind is None or not can_follow(before, kind):
            raise not_a_map(number)
        if kind == SECTION:
            sections.append(Line(number, values[2:6] + values[8:]))
        elif kind == SEGMENT:
            segments.append(Line(number, values[1:5] + [0]))
        before = kind
    if rest or before != END:
        raise not_a_map(len(lines) + 1)
    return sections, segments


def counts_in_memory(section):
    hidden = section.attrs & THREAD_LOCAL and section.attrs & ZERO_FILLED
    return section.memory[1] > 0 and section.attrs & ALLOCATED and not hidden


def counts_in_file(section):
    return section.file[1] > 0


def first_overlap(ranges):
    """The lines of the two of these ranges that are told, in rising order: of pairs of start, line and bytes."""
    ranges = sorted(ranges)
    for place, (start, line, _) in enumerate(ranges):
        for before in ranges[:place]:
            if start < before[0] + before[2]:
                return tuple(sorted((line, before[1])))
    return None


def is_inside(inner, outer):
    return outer[0] <= inner[0] and sum(inner) <= sum(outer)


def is_held(section, segment):
    inside = all(is_inside(*pair) for pair in zip(section.ranges(), segment.ranges()))
    return inside and segment.memory[0] - segment.file[0] == section.memory[0] - section.file[0]


def check_map(sections, segments):
    """Refuses the first fault of a map."""
    for line in sections + segments:
        if any(sum(its_range) > LARGEST for its_range in line.ranges()):
            raise Refusal(REFUSED, "map overflow: line %d" % line.number)
    counted = [section for section in sections if counts_in_memory(section)]
    pair = first_overlap((section.memory[0], section.number, section.memory[1]) for section in counted)
    if pair:
        raise Refusal(REFUSED, "memory overlap: lines %d and %d" % pair)
    counted = [section for section in sections if counts_in_file(section)]
    pair = first_overlap((section.file[0], section.number, section.file[1]) for section in counted)
    if pair:
        raise Refusal(REFUSED, "file overlap: lines %d and %d" % pair)
    for section in sections:
        needs = section.attrs & ALLOCATED and section.file[1] > 0
        if needs and not any(is_held(section, segment) for segment in segments):
            raise Refusal(REFUSED, "line %d is in no segment" % section.number)


def map_lines(data):
    """The line that is told of a text."""
    sections, segments = read_map(data)
    check_map(sections, segments)
    yield "map ok: %d sections, %d segments" % (len(sections), len(segments))
