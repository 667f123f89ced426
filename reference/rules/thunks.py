"""Thunks: which object's code stands where in the planning, the blocks, their sets, and what branches reach."""

from .links import files_of, inputs_of
from .listed import EXECUTABLE, FLAGS, NEAR_ALONE
from .reach import FOLLOWED
from .refusal import out_of_reach

SPARED = 2_097_152
THUNK_BYTES = 16


class Blocks:
    """The sets of the blocks, and for each object with code of the primary part its block and whether it owns it.

    `start` is where the first object stands. Without blocks nothing stands in for anything.
    """

    def __init__(self, link, reach, start):
        self.link, self.reach = link, reach
        self.primary, self.limit = link.plan.named["primary"], link.options.branch_range
        self.sets, self.block_of, self.owner_of = [], {}, {}
        code = sum(entry.size for _, _, entry in inputs_of(link) if is_code(entry))
        if self.primary is None or code < self.limit:
            return
        self.range = self.limit - SPARED
        self.ends = {}
        for group, number, _ in files_of(link):
            held = [entry for _, _, entry in reach.live_of(group, number) if self.is_primary(entry)]
            end = start + sum(entry.size for entry in held if entry.slot in FOLLOWED)
            self.ends[group, number] = start, end
            start = end
        self.assign([place for place, (start, end) in self.ends.items() if start < end])
        for block in range(max(1, len(self.owner_of))):
            files = [place for place, own in self.block_of.items() if own == block]
            named = {number for place in files for number in self.named_by(place)}
            if block == 0:
                named |= set(self.named_outside())
            self.sets.append(sorted(named))

    def is_primary(self, entry):
        return entry.part == self.primary

    def assign(self, objects):
        """Gives each object its block. The first is owned by its first object, any other one by the last object in range
        of where its first one begins."""
        waiting = list(objects)
        block = 0
        while waiting:
            taken = [waiting.pop(0)]
            if block > 0:
                taken += self.run(waiting, self.ends[taken[0]][0])
            owner = taken[-1]
            taken += self.run(waiting, self.ends[owner][1])
            self.owner_of[block] = owner
            self.block_of.update(dict.fromkeys(taken, block))
            block += 1

    def run(self, waiting, start):
        """Takes the objects that end near enough behind that place."""
        taken = []
        while waiting and self.ends[waiting[0]][1] - start < self.range:
            taken.append(waiting.pop(0))
        return taken

    def named_by(self, place):
        """What stands for the symbols that branches of an object's code name, unless all of them are near."""
        group, number = place
        start, end = self.ends[place]
        for symbol, _ in self.reach.own_symbols(self.link.groups[group][number]):
            if self.reach.flags[symbol] & NEAR_ALONE:
                definition = self.reach.definitions[symbol]
                flags = self.reach.flags[definition]
                home = self.primary_home(definition)
                if home is None or flags & (FLAGS["IFUNC"] | FLAGS["DYNAMIC"]):
                    is_near = end < self.range
                else:
                    home_start, home_end = self.ends[home]
                    home_start = 0 if flags & FLAGS["PLT"] else home_start
                    is_near = max(end, home_end) - min(start, home_start) < self.range
                if not is_near:
                    yield definition

    def primary_home(self, number):
        """The object of a symbol in a section of the primary part."""
        file, symbol = self.reach.symbols[number]
        if symbol.at[0] != "sec" or not self.is_primary(file.sections[symbol.at[1]]):
            return None
        return self.reach.places[id(file)]

    def named_outside(self):
        """What stands in the primary part and branches of other parts name."""
        for place, _, entry in self.reach.live:
            if entry.slot in FOLLOWED and not self.is_primary(entry):
                for _, _, symbol, _, is_thunkable in entry.relocs:
                    definition = self.reach.definition(place, symbol)
                    if is_thunkable and self.primary_home(definition) is not None:
                        yield definition

    def bytes_of(self, place):
        """The bytes of the thunks of the block that a file owns."""
        return sum(
            THUNK_BYTES * len(self.sets[block]) for block, owner in self.owner_of.items() if owner == place
        )

    def thunk_address(self, addresses, block, number):
        """Where a symbol's thunk of a block stands, if it has one there."""
        if block not in self.owner_of or number not in self.sets[block]:
            return None
        rank = self.sets[block].index(number)
        return addresses["thunks", self.owner_of[block]] + THUNK_BYTES * rank


def is_code(entry):
    return entry.slot != "discard" and entry.attrs & EXECUTABLE != 0


def check_branches(layout):
    """Refuses the first branch that reaches neither what it names nor the thunk for it."""
    reach, blocks, addresses = layout.reach, layout.blocks, layout.addresses
    if blocks.primary is None:
        return
    for place, _, entry in reach.live:
        for index, (offset, _, symbol, _, is_thunkable) in enumerate(entry.relocs):
            definition = reach.definition(place, symbol) if is_thunkable else None
            target = None if definition is None else branch_target(layout, definition)
            if entry.slot not in FOLLOWED or target is None:
                continue
            site = addresses["live", place] + layout.shrunk.mapped(place, offset)
            block = blocks.block_of.get(place[:2]) if blocks.is_primary(entry) else 0
            thunk = blocks.thunk_address(addresses, block, definition)
            ways = [target] if thunk is None else [target, thunk]
            if not any(abs(way - site) < blocks.limit for way in ways):
                raise out_of_reach("branch", place, index)


def branch_target(layout, definition):
    """Where a branch to a symbol goes: to its entry of the PLT, or to its value if that is known when linking."""
    if definition not in layout.values:
        return None
    if layout.owners.bytes_of(("plt", definition)):
        return layout.addresses["plt", definition]
    is_given_later = layout.reach.flags[definition] & (FLAGS["ABSOLUTE"] | FLAGS["DYNAMIC"])
    return None if is_given_later else layout.values[definition]
