"""Fixed descriptions at the limits, and odd whole texts."""


def plan_text(sections="", segments="", events="", page="1", more=""):
    """A description of a plan and a prelude."""
    fields = '"page":%s,"sections":[%s],"segments":[%s],"events":[%s]%s'
    plan = fields % (page, sections, segments, events, more)
    return '{"plan":{%s},"groups":[[{"kind":"prelude"}]]}' % plan


def repeated(text, count):
    return ",".join([text] * count)


def counted(text, count):
    return ",".join(text % number for number in range(count))


def nested(depth):
    return '{"unknown":%s%s,"plan":{"page":1},"groups":[[{"kind":"prelude"}]]}' % (
        "[" * depth,
        "]" * depth,
    )


def nested_expression(depth):
    """A base of that many lists one in the other."""
    base = '["add",' * (depth - 1) + '["num",1]' + ',["num",1]]' * (depth - 1)
    return plan_text(more=',"base":' + base)


def many_groups(count):
    return '{"plan":{"page":1},"groups":[[{"kind":"prelude"}]%s]}' % (",[]" * (count - 1))


def regions(count):
    return ',"regions":[%s]' % repeated('{"origin":["num",1],"length":["num",1]}', count)


def many_marks(count):
    """As many always emitted sections and always active segments, all open at once."""
    sections = repeated('{"emit":"always","align":2,"parts":[[1,false]]}', count)
    segments = repeated('{"kind":"other","always":true}', 64)
    events = [counted('["seg",%d]', 64), counted('["sec",%d]', count), counted('["endseg",%d]', 64)]
    return plan_text(sections, segments, ",".join(events))


def nested_segments(count):
    """As many segments as there may be, each round all of these output sections, with an input each."""
    events = [counted('["seg",%d]', 64), counted('["sec",%d]', count), counted('["endseg",%d]', 64)]
    sections = repeated('{"attrs":1,"parts":[[8,false],[1,false]]}', count)
    plan = plan_text(sections, repeated('{"kind":"load"}', 64), ",".join(events))
    inputs = counted('{"slot":"must","part":%d,"size":1}', count)
    return plan[: -len("]}")] + ',[{"kind":"object","sections":[%s]}]]}' % inputs


def object_text(fields):
    """A description of an object, and of nothing that it goes to."""
    return '{"plan":{"page":1},"groups":[[{"kind":"prelude"}],[{"kind":"object",%s}]]}' % fields


def long_object(count, last):
    """An object with that many symbols, all defined by the first, and relocations, the last one given."""
    symbols = '{"at":["abs",0]},' + repeated('{"at":["undef"],"def":0}', count - 1)
    relocations = repeated('[0,"None",0,0,false]', count - 1) + "," + last
    section = '{"slot":"discard","size":1,"relocs":[%s]}' % relocations
    return object_text('"symbols":[%s],"sections":[%s]' % (symbols, section))


def chained_definitions(count):
    """Symbols of which only the last but one is defined by one that isn't its own definition."""
    last = '{"at":["abs",0],"def":%d},{"at":["abs",0],"def":0}' % (count - 1)
    symbols = repeated('{"at":["abs",0]}', count - 2) + "," + last
    return object_text('"symbols":[%s]' % symbols)


def one_part_link(symbols, sections):
    """An object of these symbols and sections, which go to the only part."""
    plan = plan_text('{"parts":[[1,false]]}', "", '["sec",0]')
    return plan[: -len("]}")] + ',[{"kind":"object","symbols":[%s],"sections":[%s]}]]}' % (symbols, sections)


def linked_sections(count, target):
    """So many sections of which the first is kept, and each refers to the one that `target` tells."""
    sections = [
        '{"slot":"%s","size":1,"relocs":[[0,"Relative",%d,0,false]]}'
        % ("must" if number == 0 else "unloaded", target(number))
        for number in range(count)
    ]
    return one_part_link(counted('{"at":["sec",%d,0]}', count), ",".join(sections))


def missed_symbol(count):
    """So many relocations of a kept section, all with one symbol that is defined nowhere."""
    relocations = repeated('[0,"Relative",0,0,false]', count)
    return one_part_link('{"at":["undef"]}', '{"slot":"must","size":1,"relocs":[%s]}' % relocations)


def reach_texts():
    """Long ways from what is kept, and many references to one symbol."""
    count = 20_000
    return {
        "a chain of sections": linked_sections(count, lambda number: min(number + 1, count - 1)),
        "a chain of sections that goes back": linked_sections(count, lambda number: (number - 1) % count),
        "sections that all refer to the first": linked_sections(count, lambda number: 0),
        "relocations that miss their symbol": missed_symbol(count),
    }


def whole_texts():
    """Whole texts that are odd, or nested deeply."""
    return {
        "no bytes": "",
        "a space": " ",
        "a list": "[]",
        "a text": '"plan"',
        "null": "null",
        "an empty object": "{}",
        "two values": "{} {}",
        "nested to the limit": nested(126),
        "nested too deeply": nested(127),
        "nested far too deeply": nested(100_000),
        "brackets alone": "[" * 100_000,
        "an expression to the limit": nested_expression(125),
        "an expression too deep": nested_expression(126),
    }


def segment_texts():
    """Segments and regions at their limits."""
    load = repeated('{"kind":"load"}', 64)
    events = counted('["seg",%d]', 64) + "," + counted('["endseg",%d]', 64)
    return {
        "64 segments": plan_text(segments=load, events=events),
        "65 segments": plan_text(segments=repeated('{"kind":"load"}', 65)),
        "64 nested segments": nested_segments(2000),
        "64 segments that are always active": many_marks(1000),
        "64 regions": plan_text(more=regions(64)),
        "65 regions": plan_text(more=regions(65)),
        "65 segments and regions": plan_text(segments=repeated('{"kind":"load"}', 65), more=regions(65)),
    }


def long_texts():
    """Long lists, most of them at their limits."""
    one_part = '{"parts":[[1,false]]}'
    return {
        "most groups": many_groups(65_535),
        "too many groups": many_groups(65_536),
        "most output sections": plan_text(repeated(one_part, 65_279), "", counted('["sec",%d]', 65_279)),
        "too many output sections": plan_text(repeated("{}", 65_280)),
        "many parts": plan_text(repeated('{"parts":[[1,false],[1,false]]}', 65_279)),
        "most parts": plan_text('{"parts":[%s]}' % repeated("[1,true]", 1_048_576)),
        "too many parts": plan_text('{"parts":[%s]}' % repeated("[1,true]", 1_048_577)),
        "most events": plan_text(events=repeated('["sec",0]', 262_144)),
        "too many events": plan_text(events=repeated('["sec",0]', 262_145)),
        "most locations": plan_text(events=repeated('["addr",["dot"]]', 262_144)),
        "too many locations": plan_text(events=repeated('["addr",["dot"]]', 262_145)),
        "many relocations": long_object(50_000, '[0,"Relative",9,-1,true]'),
        "many relocations, one of a wrong shape": long_object(50_000, '[0,"Relative",9,-0,true]'),
        "many symbols, one without definition": chained_definitions(50_000),
    }


def fixed_cases():
    """Names and bytes of the descriptions."""
    texts = {**whole_texts(), **segment_texts(), **long_texts(), **reach_texts()}
    return {name: text.encode() for name, text in texts.items()}
