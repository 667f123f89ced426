"""The bytes of the output file, as far as a layout tells them: live sections with their relocations, and what is merged."""

from .layout import Layout
from .reach import DEBUG
from .refusal import no_image
from .symbols import merged_target

LONGEST = 1_073_741_824
WRAP = 2**64
WORD = 8


class Image:
    """Where things stand in the file, and what they hold."""

    def __init__(self, link):
        self.layout = Layout(link)
        self.link, self.reach = link, self.layout.reach
        self.length = max((record.file_end for record in self.layout.walk.section_records), default=0)
        self.bytes = bytearray()

    def is_in_file(self, part):
        return self.layout.planned.is_in_file(self.layout.parts[part][0])

    def sections(self):
        """The live sections whose bytes stand in the file."""
        return [(place, entry) for place, _, entry in self.reach.live if self.is_in_file(entry.part)]

    def writers(self, entry):
        """The relocations of a section that write a value, with their indexes."""
        if entry.slot in DEBUG:
            return []
        return [(index, row) for index, row in enumerate(entry.relocs) if row[1] == "Absolute"]

    def check(self):
        """Refuses what has no image."""
        if self.link.options.relax:
            raise no_image("relax")
        if self.length > LONGEST:
            raise no_image("%d bytes, limit %d" % (self.length, LONGEST))
        for place, entry in self.sections():
            for index, row in self.writers(entry):
                if row[0] + WORD > entry.size:
                    raise no_image("no room at %d %d %d relocation %d" % (*place, index))

    def value(self, place, symbol, addend):
        """What a relocation writes: an address in merged data, else the symbol's value and the addend."""
        number = self.reach.definition(place, symbol)
        target = merged_target(self.reach, number)
        if target is None:
            return (self.layout.values.get(number, 0) + addend) % WRAP
        entry, offset = target
        by_name = bool(self.reach.symbols[number][1].name)
        chosen = offset if by_name else (offset + addend) % WRAP
        section = self.layout.parts[entry.part][0]
        found = self.layout.addresses["merged", section] + self.layout.merged[section].place_of(entry, chosen)
        return (found + addend) % WRAP if by_name else found

    def put(self, part, address, data):
        """Bytes of a part, as far behind its start in the file as in memory."""
        record = self.layout.walk.part_records[part]
        start = record.file + address - record.memory
        self.bytes[start : start + len(data)] = data

    def content(self, place, entry):
        """A section's data, or zeros, with what its relocations write."""
        content = bytearray(bytes(entry.size) if entry.data is None else entry.data)
        for _, (offset, _, symbol, addend, _) in self.writers(entry):
            content[offset : offset + WORD] = self.value(place, symbol, addend).to_bytes(WORD, "little")
        return content

    def write(self):
        self.bytes = bytearray(self.length)
        for place, entry in self.sections():
            self.put(entry.part, self.layout.addresses["live", place], self.content(place, entry))
        for section, image in enumerate(self.layout.merged):
            if image.entries:
                part = image.entries[0].part
                if self.is_in_file(part):
                    self.put(part, self.layout.addresses["merged", section], b"".join(image.distinct))
        return bytes(self.bytes)


def image(link):
    """The image of a link, which isn't refused."""
    made = Image(link)
    made.check()
    return made.write()
