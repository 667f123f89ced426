"""Links with many output sections that a plan moves: by locations, into regions, and as parts of others."""

OBJECT_BYTES = 45  # of an input section
MOST_SECTIONS = 65_000  # the limit is 65,279
DEPTH = 50
REGIONS = 64
# Names of the shapes, in the order in which they are measured.
PLANS = ("moves", "regions", "secondary")

PRELUDE = '[{"kind":"prelude"}],[{"kind":"script"}]'


def deep_text(first):
    """An expression that is as deep as that, a little behind the location."""
    text = '["dot"]'
    for level in range(1, DEPTH):
        if level % 2:
            text = '["max",%s,["sym",0]]' % text
        else:
            text = '["add",["num",%d],%s]' % ((first + level) % 3, text)
    return text


# Three of them, for section after section.
LOCATIONS = tuple(map(deep_text, range(3)))


def section_texts(shape, count):
    """The output sections."""
    for number in range(count):
        if shape == "moves":
            yield '{"attrs":3,"parts":[[8,false]]}'
        elif shape == "regions":
            at = '["add",["addr",%d],["num",65536]]' % number
            yield '{"attrs":3,"parts":[[8,false]],"region":"region_%02d","at":%s}' % (number % REGIONS, at)
        elif number % 4 == 0:
            yield '{"attrs":3,"parts":[[8,false]]}'
        else:
            counters = "true" if number % 4 == 1 else "false"
            primary = number - number % 4
            yield '{"attrs":3,"parts":[[8,false]],"primary":%d,"counters":%s}' % (primary, counters)


def event_texts(shape, count):
    yield '["seg",0]'
    for number in range(count):
        if shape == "moves":
            yield '["loc",%s]' % LOCATIONS[number % 3]
        yield '["sec",%d]' % number
    yield '["endseg",0]'


def region_texts():
    for number in range(REGIONS):
        origin = '["mul",["num",%d],["num",1073741824]]' % (number + 1)
        yield '{"name":"region_%02d","origin":%s,"length":["num",1073741824]}' % (number, origin)


def section_count(total, shape):
    """The number of output sections of a description of `total` bytes."""
    one = {"moves": 30 + len(LOCATIONS[0]), "regions": 100, "secondary": 75}[shape] + OBJECT_BYTES + 10
    return max(4, min(MOST_SECTIONS, total // one))


def put_list(writer, texts):
    separator = "\n"
    for text in texts:
        writer.put(separator + text)
        separator = ",\n"


def put_plans(writer, total, page, shape):
    """The whole description: each output section has one input section."""
    count = section_count(total, shape)
    writer.put('{"plan":{"page":%d,"sections":[' % page)
    put_list(writer, section_texts(shape, count))
    writer.put('],"segments":[{"kind":"load"}],"regions":[')
    put_list(writer, region_texts() if shape == "regions" else ())
    writer.put('],"events":[')
    put_list(writer, event_texts(shape, count))
    writer.put(']},\n"groups":[%s,\n[{"kind":"object","symbols":[{"at":["abs",7]}],"sections":[' % PRELUDE)
    put_list(writer, ('{"slot":"must","part":%d,"size":%d}' % (part, 9 + part % 7) for part in range(count)))
    writer.put("]}]\n]}\n")
