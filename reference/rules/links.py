"""What is looked up in a link description."""


def files_of(link):
    """Each file with its group and its number there."""
    for group, files in enumerate(link.groups):
        for number, file in enumerate(files):
            yield group, number, file


def symbols_of(link):
    """All symbols, in the order of their numbers, each with its file."""
    return [(file, symbol) for _, _, file in files_of(link) for symbol in file.symbols]


def inputs_of(link):
    """Each input section: its group, file and index, the file itself, and the section."""
    for group, number, file in files_of(link):
        for index, entry in enumerate(file.sections):
            yield (group, number, index), file, entry


def definitions_of(link):
    """For each symbol, by its number, the number of the one that stands for it."""
    return [
        number if symbol.definition is None else symbol.definition
        for number, (_, symbol) in enumerate(symbols_of(link))
    ]


def first_symbols(link):
    """For each file, by its group and its number there, the number of its first symbol."""
    first, numbers = 0, {}
    for group, number, file in files_of(link):
        numbers[group, number] = first
        first += len(file.symbols)
    return numbers


def parts_of(link):
    """All parts by number: the output section, the alignment and whether it is packed."""
    return [
        (number, alignment, packed)
        for number, section in enumerate(link.plan.sections)
        for alignment, packed in section.parts
    ]


def section_order(link):
    """The output sections as the events place them."""
    return [event[1] for event in link.plan.events if event[0] == "sec"]


def segments_inside(link):
    """For each output section the segments that it stands in."""
    inside = [set() for _ in link.plan.sections]
    opened = set()
    for event in link.plan.events:
        if event[0] == "seg":
            opened.add(event[1])
        elif event[0] == "endseg":
            opened.remove(event[1])
        elif event[0] == "sec":
            inside[event[1]] = set(opened)
    return inside
