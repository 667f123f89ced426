"""What is merged: the pieces of merge sections, the distinct ones that the output keeps, and where offsets stand in it."""

from .links import inputs_of, parts_of
from .refusal import not_terminated, too_large

BUCKETS = 16
WRAP = 2**64


def hash_of(piece):
    """FNV-1a of 64 bits."""
    number = 0xCBF29CE484222325
    for byte in piece:
        number = (number ^ byte) * 0x100000001B3 % WRAP
    return number


def is_terminated(entry):
    return not entry.strings or entry.data[-1:] in (b"", b"\0")


def pieces_of(entry):
    """The data of a terminated section, cut after each zero byte; those of a constant in one piece, if there are any."""
    if not entry.strings:
        return [entry.data] if entry.data else []
    return [text + b"\0" for text in entry.data.split(b"\0")[:-1]]


class Merged:
    """What is merged into an output section, and what it keeps: its distinct pieces, bucket by bucket."""

    def __init__(self, section, limit, entries):
        for number, entry in enumerate(entries):
            if not is_terminated(entry):
                raise not_terminated(section, number)
        self.entries = entries
        self.pieces = [piece for entry in entries for piece in pieces_of(entry)]
        self.buckets = [[] for _ in range(BUCKETS)]
        for piece in dict.fromkeys(self.pieces):
            self.buckets[hash_of(piece) % BUCKETS].append(piece)
        self.check_limit(section, limit)
        self.distinct = [piece for bucket in self.buckets for piece in bucket]
        self.places = {}
        self.length = 0
        for piece in self.distinct:
            self.places[piece] = self.length
            self.length += len(piece)

    def check_limit(self, section, limit):
        """Refuses the first piece of the least bucket that ends behind the most bytes of a bucket."""
        for number, bucket in enumerate(self.buckets):
            start = 0
            for piece in bucket:
                if start + len(piece) > limit:
                    raise too_large(section, number, start, len(piece))
                start += len(piece)

    def place_of(self, entry, offset):
        """Where in the image an offset inside the data of a section is."""
        for piece in pieces_of(entry):
            if offset < len(piece):
                return self.places[piece] + offset
            offset -= len(piece)
        raise IndexError("no data at that offset")


def merged_sections(link):
    """What is merged into each output section; the first one that can't be merged is refused."""
    parts = parts_of(link)
    entries = [[] for _ in link.plan.sections]
    for _, _, entry in inputs_of(link):
        if entry.slot == "merge":
            entries[parts[entry.part][0]].append(entry)
    limit = link.options.bucket_limit
    return [Merged(section, limit, held) for section, held in enumerate(entries)]
