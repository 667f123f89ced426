"""The description that a seed and a number of objects give, and the line that is told of its layout."""

from .layout import Layout
from .refusal import usage

LARGEST_SEED = 2**64 - 1
MOST_OBJECTS = 100_000
OBJECTS_PER_GROUP = 8


def drawn_numbers(state):
    """The numbers that are drawn from this state on."""
    while True:
        state = (state * 6364136223846793005 + 1442695040888963407) % 2**64
        yield state >> 33


def one_of(numbers, count):
    return next(numbers) % count


def object_file(numbers, number, size):
    """An object, which takes its six numbers."""
    code = 16 + one_of(numbers, 240)
    data = 8 + one_of(numbers, 56)
    strings = [97 + one_of(numbers, 26), 0, ord("x"), 97 + one_of(numbers, 26), 0]
    called = one_of(numbers, size)
    used = one_of(numbers, size)
    relocations = [[0, "Relative", 3, 0, False], [4, "Absolute", 4, 0, False], [8, "Absolute", 2, 0, False]]
    return {
        "kind": "object",
        "name": "o%d" % number,
        "sections": [
            {"slot": "unloaded" if number else "must", "part": 0, "attrs": 4, "size": code, "relocs": relocations},
            {"slot": "unloaded", "part": 2, "attrs": 2, "size": data},
            {"slot": "merge", "part": 1, "strings": True, "data": bytes(strings).hex()},
        ],
        "symbols": [
            {"name": "f", "at": ["sec", 0, 0]},
            {"name": "d", "at": ["sec", 1, 0]},
            {"at": ["sec", 2, 0]},
            {"name": "u", "at": ["undef"], "def": 5 * called},
            {"name": "v", "at": ["undef"], "def": 5 * used + 1},
        ],
    }


def section(name, attributes, alignment):
    return {"name": name, "attrs": attributes, "parts": [[alignment, False]]}


def generated_description(seed, size):
    """The JSON value of the description."""
    numbers = drawn_numbers(seed)
    objects = [object_file(numbers, number, size) for number in range(size)]
    plan = {
        "page": 4096,
        "base": ["num", 4194304],
        "sections": [section(".text", 5, 16), section(".rodata", 1, 1), section(".data", 3, 8)],
        "segments": [{"kind": "load"}],
        "events": [["seg", 0], ["sec", 0], ["sec", 1], ["sec", 2], ["endseg", 0]],
    }
    starts = range(0, size, OBJECTS_PER_GROUP)
    groups = [[{"kind": "prelude"}]] + [objects[start : start + OBJECTS_PER_GROUP] for start in starts]
    return {"plan": plan, "groups": groups}


def number_of(word, least, most):
    """The number that a word writes, which is no command if it lies elsewhere or is written otherwise."""
    if not (word.isascii() and word.isdigit()) or word != str(int(word)) or not least <= int(word) <= most:
        raise usage()
    return int(word)


def seed_and_size(words):
    """The two numbers behind `gen`."""
    if len(words) != 3:
        raise usage()
    return number_of(words[1], 0, LARGEST_SEED), number_of(words[2], 1, MOST_OBJECTS)


def summary_line(link, seed, size):
    """The line of the layout of that link."""
    layout = Layout(link)
    live = len(layout.reach.live)
    end = max(record.memory_end for record in layout.walk.part_records)
    return "gen %d %d live %d of %d merged %d end 0x%x" % (seed, size, live, 2 * size, layout.merged[1].length, end)
