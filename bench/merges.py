"""Links of data that are merged: strings of 30 bytes of which a tenth, all or one are different, one long string, empty sections."""

import random

STRINGS = 500  # of a section
SECTIONS = 8  # of an object
STRING_BYTES = 30
HEX_BYTES = 2 * STRING_BYTES
LAST_BYTES = 300
# Names of the shapes, in the order in which they are measured.
MERGES = ("tenth", "distinct", "equal", "one", "empty", "named")


def plan_text(page, base):
    """One section of strings in a load segment."""
    return (
        '{"page":%d,"base":["num",%d],"sections":[{"name":".rodata.str","attrs":1,"parts":[[1,false]]}],'
        '"segments":[{"kind":"load"}],"events":[["seg",0],["sec",0],["endseg",0]]}' % (page, base)
    )


def string_text(number):
    """The string that is a number, in hexadecimal, with its end."""
    return "%0*d" % (STRING_BYTES - 1, number)


def in_hexadecimal(text):
    return text.encode().hex() + "00"


def section_text(data):
    return '{"slot":"merge","strings":true,"data":"%s"}' % data


def object_start(number, members=""):
    return '{"kind":"object","name":"lib/unit_%04d/source_%07d.o",%s"sections":[' % (
        number // 64 % 10000,
        number,
        members,
    )


class Numbers:
    """The numbers that strings are made from: so many different ones in all."""

    def __init__(self, different):
        self.different, self.next = different, 0
        self.rng = random.Random(different)

    def take(self, count):
        """The next ones: each in turn where all are different, else any of them."""
        first, self.next = self.next, self.next + count
        if self.next <= self.different:
            return range(first, self.next)
        return [self.rng.randrange(self.different) for _ in range(count)]


def strings_section(numbers):
    return section_text("".join(in_hexadecimal(string_text(number)) for number in numbers.take(STRINGS)))


def different_strings(total, shape):
    """How many different strings there are in a description of `total` bytes."""
    strings = max(10, total // HEX_BYTES)
    return {"tenth": strings // 10, "distinct": 2 * strings, "equal": 1}[shape]


def strings_objects(total, shape):
    """Objects of sections of strings, without end."""
    numbers, number = Numbers(different_strings(total, shape)), 0
    while True:
        count = SECTIONS if total > SECTIONS * STRINGS * HEX_BYTES else 1
        yield object_start(number) + ",\n".join(strings_section(numbers) for _ in range(count)) + "]}"
        number += 1


def empty_objects(_, __):
    """Objects of empty sections, without end."""
    number = 0
    while True:
        yield object_start(number) + ",".join([section_text("")] * 1000) + "]}"
        number += 1


def named_objects(_, __):
    """Objects of which each string has a symbol that a relocation names, without end."""
    number = 0
    rng = random.Random(0)
    while True:
        texts = [string_text(rng.randrange(1_000_000)) for _ in range(50)]
        symbols = ['{"name":"s%d","at":["sec",1,%d]}' % (at, STRING_BYTES * at) for at in range(50)]
        relocations = ['[%d,"Absolute",%d,0,false]' % (8 * at, at) for at in range(50)]
        live = '{"slot":"must","size":400,"relocs":[%s]}' % ",".join(relocations)
        data = "".join(map(in_hexadecimal, texts))
        start = object_start(number, '"symbols":[%s],\n' % ",".join(symbols))
        yield start + live + ",\n" + section_text(data) + "]}"
        number += 1


OBJECTS = {
    **dict.fromkeys(("tenth", "distinct", "equal"), strings_objects),
    "empty": empty_objects,
    "named": named_objects,
}


def put_one(writer, total):
    """One object with one string."""
    writer.put(",\n[" + object_start(0) + '{"slot":"merge","strings":true,"data":"')
    while writer.written < total - LAST_BYTES:
        writer.put("61" * min(100_000, max(1, (total - LAST_BYTES - writer.written) // 2)))
    writer.put('00"}]}]')


def put_merges(writer, total, group_files, page, base, shape):
    """The whole description."""
    writer.put('{"plan":%s,\n"groups":[\n[{"kind":"prelude"}]' % plan_text(page, base))
    if shape == "one":
        put_one(writer, total)
    else:
        objects = OBJECTS[shape](total, shape)
        number, is_last = 0, False
        while not is_last:
            text = next(objects)
            is_last = writer.written + 2 * len(text) > total
            start = ",\n[" if number % group_files == 0 else ","
            end = "]" if is_last or number % group_files == group_files - 1 else ""
            writer.put(start + text + end)
            number += 1
    writer.put("\n]}\n")
