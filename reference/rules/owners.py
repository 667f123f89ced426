"""What takes bytes of each part, in which order, and where in the part it stands."""

from .links import files_of, parts_of
from .refusal import address_overflow

LARGEST_ADDRESS = 2**64 - 1


def align_up(number, alignment):
    return (number + alignment - 1) // alignment * alignment


def fitting(number, place):
    if number > LARGEST_ADDRESS:
        raise address_overflow(place)
    return number


class Owners:
    """The owners of each part, one behind the other: what they are, and their bytes.

    What is merged is named by its output section, a live section by its group, file and index, a common by its
    number, thunks by the file that owns them, and an entry of a table by the table and the symbol's number.
    `shrunk` tells the size of each section; `blocks` are the thunks, if they are known by now.
    """

    def __init__(self, link, reach, merged, shrunk, blocks=None):
        self.link, self.reach, self.parts = link, reach, parts_of(link)
        self.shrunk, self.blocks = shrunk, blocks
        self.of_part = [[] for _ in self.parts]
        for section, image in enumerate(merged):
            if image.entries:
                self.add(image.entries[0].part, ("merged", section), image.length)
        self.add_identity()
        for group, number, _ in files_of(link):
            self.add_sections(group, number)
            self.add_commons(group, number)
            self.add_thunks(group, number)
        self.add_sorted()
        self.add_up()

    def add(self, part, owner, size):
        self.of_part[part].append((owner, size))

    def add_up(self):
        self.sizes = [sum(size for _, size in owners) for owners in self.of_part]
        self.by_owner = {owner: size for owners in self.of_part for owner, size in owners}

    def capacity(self, part, size):
        """The bytes that something of that size takes: up to the next multiple, unless the part is packed."""
        _, alignment, packed = self.parts[part]
        return size if packed else align_up(size, alignment)

    def section_bytes(self, place, entry):
        return self.capacity(entry.part, self.shrunk.size(place))

    def add_identity(self):
        """What the linker calls itself, with a zero byte."""
        part, identity = self.link.plan.named["comment"], self.link.options.identity
        if part is not None and identity is not None:
            self.add(part, ("identity",), len(("Linker: " + identity).encode()) + 1)

    def add_sections(self, group, number):
        for place, _, entry in self.reach.live_of(group, number):
            if not entry.sorted:
                self.add(entry.part, ("live", place), self.section_bytes(place, entry))

    def add_commons(self, group, number):
        """The commons that this file defines and something needs."""
        for index, symbol in self.reach.own_symbols(self.link.groups[group][number]):
            if symbol.at[0] == "common" and self.reach.is_resolved(index):
                _, part, size = symbol.at
                self.add(part, ("common", index), self.capacity(part, size))

    def add_thunks(self, group, number):
        """The thunks of the block that this file owns, if it owns one."""
        if self.blocks is not None and (group, number) in self.blocks.owner_of.values():
            size = self.blocks.bytes_of((group, number))
            self.add(self.blocks.primary, ("thunks", (group, number)), size)

    def add_sorted(self):
        """Sections that are put in order by their names, behind those of all files."""
        held = [(entry.name.encode(), place, entry) for place, _, entry in self.reach.live if entry.sorted]
        for _, place, entry in sorted(held, key=lambda item: item[:2]):
            self.add(entry.part, ("live", place), self.section_bytes(place, entry))

    def add_tables(self, tables):
        for part, entries in tables.whole.items():
            self.of_part[part].extend(entries)
        self.add_up()

    def bytes_of(self, owner):
        """The bytes of an owner of which there is one at most."""
        return self.by_owner.get(owner, 0)

    def check_sizes(self):
        """Refuses the first part with which the sizes of all parts are too large together."""
        total = 0
        for part, size in enumerate(self.sizes):
            total = fitting(total + size, "part %d" % part)

    def addresses(self, starts):
        """Where each owner stands, where the parts start at these addresses."""
        found = {}
        for start, owners in zip(starts, self.of_part):
            for owner, size in owners:
                found[owner] = start
                start += size
        return found
