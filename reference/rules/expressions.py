"""The values of expressions: before and within the walk over events, and of redirects behind it."""

from .links import definitions_of, symbols_of
from .listed import OPERATORS
from .reach import UNDEFINED
from .refusal import wrong_expression

LARGEST = 2**64 - 1
MISSING, NO_ADDRESS, SELF_REFERENCE = "missing symbol", "no address", "self reference"
DIVISION_BY_ZERO, OVERFLOW = "division by zero", "overflow"


class NoValue(Exception):
    """Why an expression has no value."""

    def __init__(self, cause):
        super().__init__(cause)
        self.cause = cause


def divided(number, divisor):
    if divisor == 0:
        raise NoValue(DIVISION_BY_ZERO)
    return number // divisor


OPERATIONS = {
    "add": lambda a, b: a + b,
    "sub": lambda a, b: a - b,
    "mul": lambda a, b: a * b,
    "div": divided,
    "align": lambda a, b: divided(a + b - 1, b) * b,
    "max": max,
    "min": min,
}


class Names:
    """What the names in an expression stand for; by themselves for nothing."""

    def lookup(self, kind, *_):
        raise NoValue(NO_ADDRESS)

    def value(self, expression):
        """The value, or the first cause from the left why there is none."""
        kind, *operands = expression
        if kind == "num":
            return operands[0]
        if kind not in OPERATORS:
            return self.lookup(kind, *operands)
        left, right = [self.value(operand) for operand in operands]
        result = OPERATIONS[kind](left, right)
        if not 0 <= result <= LARGEST:
            raise NoValue(OVERFLOW)
        return result

    def value_at(self, place, expression):
        """The value, or the refusal of an expression at that place."""
        try:
            return self.value(expression)
        except NoValue as fault:
            raise wrong_expression(place, fault.cause) from None


def redirects_of(link):
    """The redirects that stand for themselves, of the prelude and then of scripts, by number."""
    definitions = definitions_of(link)
    for kind in ("prelude", "script"):
        for number, (file, symbol) in enumerate(symbols_of(link)):
            if file.kind == kind and symbol.at[0] == "redirect" and definitions[number] == number:
                yield number, file, symbol


class Constants(Names):
    """Names whose values are known before anything is placed: regions, headers, absolute symbols, and redirects of such.

    `found` has the value of each constant redirect, or the cause why it has none.
    """

    def __init__(self, link, regions, headers):
        self.symbols, self.definitions = symbols_of(link), definitions_of(link)
        self.regions, self.headers = regions, headers
        self.found = {}
        for number, _, symbol in redirects_of(link):
            if self.is_constant(symbol.at[1]):
                try:
                    self.found[number] = self.value(symbol.at[1])
                except NoValue as fault:
                    self.found[number] = fault

    def is_constant(self, expression):
        """Whether an expression has such names alone, of redirects those before it."""
        kind, *operands = expression
        if kind in OPERATORS:
            return all(map(self.is_constant, operands))
        if kind == "sym":
            definition = self.definitions[operands[0]]
            return definition in self.found or self.symbols[definition][1].at[0] == "abs"
        return kind in ("num", "origin", "length", "headers")

    def lookup(self, kind, *operands):
        if kind == "headers":
            return self.headers
        if kind in ("origin", "length"):
            return self.regions[operands[0]][kind == "length"]
        if kind == "sym":
            return self.symbol_value(self.definitions[operands[0]])
        raise NoValue(NO_ADDRESS)

    def symbol_value(self, definition):
        kind, *operands = self.symbols[definition][1].at
        if kind in UNDEFINED:
            raise NoValue(MISSING)
        if kind == "abs":
            return operands[0]
        known = self.found.get(definition)
        if known is None:
            raise NoValue(NO_ADDRESS)
        if isinstance(known, NoValue):
            raise known
        return known


class Early(Names):
    """Names as they stand for something in the walk: constants, the location, and what is placed by then."""

    def __init__(self, walk, constants, positions):
        self.walk, self.constants, self.positions = walk, constants, positions
        self.location = 0

    def value_here(self, place, expression, location):
        self.location = location
        return self.value_at(place, expression)

    def lookup(self, kind, *operands):
        if kind == "dot":
            return self.location
        if kind in ("addr", "sizeof"):
            return self.section_value(kind, self.walk.section_records[operands[0]])
        if kind == "sym":
            return self.symbol_value(self.constants.definitions[operands[0]])
        return self.constants.lookup(kind, *operands)

    def section_value(self, kind, record):
        if record is None:
            raise NoValue(NO_ADDRESS)
        return record.memory if kind == "addr" else record.memory_end - record.memory

    def symbol_value(self, definition):
        """A symbol in a live section that isn't sorted or debug data has an address as soon as its part is placed."""
        if definition in self.positions:
            part, offset = self.positions[definition]
            record = self.walk.part_records[part]
            if record is None:
                raise NoValue(NO_ADDRESS)
            return record.memory + offset
        return self.constants.symbol_value(definition)


class Late(Names):
    """Names as they stand for something in a redirect, when all is placed.

    `values` are those of the symbols that have one by then, and `location` is that of the redirect, if any.
    """

    def __init__(self, constants, own, location, records, values):
        self.constants, self.own, self.location = constants, own, location
        self.records, self.values = records, values

    def lookup(self, kind, *operands):
        if kind == "dot" and self.location is not None:
            return self.location
        if kind in ("addr", "sizeof"):
            record = self.records[operands[0]]
            return record.memory if kind == "addr" else record.memory_end - record.memory
        if kind == "sym":
            return self.symbol_value(self.constants.definitions[operands[0]])
        if kind == "dot":
            raise NoValue(NO_ADDRESS)
        return self.constants.lookup(kind, *operands)

    def symbol_value(self, definition):
        if self.constants.symbols[definition][1].at[0] in UNDEFINED:
            raise NoValue(MISSING)
        if definition == self.own:
            raise NoValue(SELF_REFERENCE)
        if definition not in self.values:
            raise NoValue(NO_ADDRESS)
        return self.values[definition]
