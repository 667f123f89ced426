"""Descriptions of which an image is written: a long one from little, one of many data, and one of many addresses."""

import time

# Names of the shapes, with how many sections there are, the bytes of each, and how many addresses each has.
IMAGES = {"zeros": (100, 9_000_000, 0), "data": (200, 1_000_000, 0), "addresses": (1_000, 24_000, 3_000)}

PLAN = '{"plan":{"page":4096,"sections":[{"attrs":1,"parts":[[8,false]]}],"segments":[{"kind":"load"}],"events":[["seg",0],["sec",0],["endseg",0]]},\n'
START = '"groups":[\n[{"kind":"prelude"}],\n[{"kind":"object","symbols":[{"at":["sec",0,0]}],"sections":[\n'
ENDING = "]}]\n]}\n"
# A last section in which an address has no room, so that all is done but the writing.
REFUSED = ',\n{"slot":"must","size":7,"relocs":[[0,"Absolute",0,0,false]]}'
REFUSED_ANSWER = b"no image: no room at 1 0 "
ROUNDS = 3


def section_text(shape, size, addresses):
    fields = '"slot":"must","size":%d' % size
    if shape == "data":
        fields += ',"data":"%s"' % ("0123456789abcdef" * (size // 8))
    if addresses:
        fields += ',"relocs":[%s]' % ",".join('[%d,"Absolute",0,%d,false]' % (8 * place, place) for place in range(addresses))
    return "{%s}" % fields


def put(path, shape, is_refused):
    """Writes the description, and gives the bytes of its image."""
    count, size, addresses = IMAGES[shape]
    text = section_text(shape, size, addresses)
    with open(path, "w", encoding="ascii") as stream:
        stream.write(PLAN + START)
        for number in range(count):
            stream.write(text if number == 0 else ",\n" + text)
        stream.write((REFUSED if is_refused else "") + ENDING)
    return count * size


def copy_seconds(length):
    """The processor seconds of a plain copy of so many bytes into new memory, the least of some."""
    source, least = b"\1" * length, None
    for _ in range(ROUNDS):
        start = time.process_time()
        copied = bytearray(source)
        taken = time.process_time() - start
        del copied
        least = taken if least is None else min(least, taken)
    return least
