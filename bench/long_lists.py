"""Descriptions with one very long list, for what must not grow with the input: the stack.

Each is the text before the list, an item, how many of it there are, the text behind, and how the
program's answer begins.
"""

import collections

LongList = collections.namedtuple("LongList", "name before item count behind wanted")

MILLION = 1_000_000
ITEMS_AT_ONCE = 10_000
ONE_SECTION = (
    '{"plan":{"page":1,"sections":[{"attrs":1,"parts":[[1,false]]}],"segments":[{"kind":"load"}],'
    '"events":[["seg",0],["sec",0],["endseg",0]]},"groups":[[{"kind":"prelude"}],['
)
EMPTY_PLAN = '{"plan":{"page":1},"groups":[[{"kind":"prelude"}],['
PRELUDE = '"groups":[[{"kind":"prelude"}]]}'
OBJECT = '{"kind":"object",'
ONE_RELOCATED = ONE_SECTION + OBJECT + '"symbols":[{"at":["undef"]%s}],"sections":[{"slot":"must","size":1,"relocs":['

LONG_LISTS = (
    LongList("values", '{"unknown":[', "0", 10 * MILLION, '],"plan":{"page":1},' + PRELUDE, "layout\n"),
    LongList(
        "texts",
        '{"options":{"strip_names":[',
        '""',
        10 * MILLION,
        ']},"plan":{"page":1},' + PRELUDE,
        "layout\n",
    ),
    LongList("files", EMPTY_PLAN, '{"kind":"object"}', MILLION, "]]}", "layout\n"),
    LongList(
        "groups",
        '{"plan":{"page":1},"groups":[[{"kind":"prelude"}],',
        '[{"kind":"object"},{"kind":"object"}]',
        65_534,
        "]}",
        "layout\n",
    ),
    LongList(
        "sections",
        ONE_SECTION + OBJECT + '"sections":[',
        '{"slot":"must","size":1}',
        MILLION,
        "]}]]}",
        "layout\n",
    ),
    LongList(
        "section group",
        ONE_SECTION + OBJECT + '"sections":[',
        '{"slot":"must","group":7}',
        MILLION,
        "]}]]}",
        "layout\n",
    ),
    LongList(
        "discarded",
        ONE_SECTION + OBJECT + '"sections":[',
        '{"slot":"discard","part":9}',
        MILLION,
        "]}]]}",
        "layout\n",
    ),
    LongList(
        "symbols",
        EMPTY_PLAN + OBJECT + '"symbols":[',
        '{"at":["undef"],"def":0}',
        MILLION,
        "]}]]}",
        "layout\n",
    ),
    LongList(
        "relocations",
        ONE_RELOCATED % "",
        '[0,"None",0,0,false]',
        MILLION,
        "]}]}]]}",
        "layout\n",
    ),
    LongList(
        "references",
        ONE_RELOCATED % ',"weak":true',
        '[0,"Absolute",0,0,false]',
        MILLION,
        "]}]}]]}",
        "layout\n",
    ),
    LongList(
        "not met",
        ONE_RELOCATED % "",
        '[0,"Absolute",0,0,false]',
        MILLION,
        "]}]}]]}",
        "undefined: symbol 0 from 1 0 0 relocation 0\nundefined: symbol 0 from 1 0 0 relocation 1\n",
    ),
    LongList(
        "candidates",
        ONE_SECTION + OBJECT + '"sections":[{"slot":"must","size":1}],"candidates":[',
        "[0,1,0,0]",
        MILLION,
        "]}]]}",
        "layout\n",
    ),
    LongList(
        "events",
        '{"plan":{"page":1,"events":[',
        '["addr",["dot"]]',
        262_144,
        "]}," + PRELUDE,
        "layout\n",
    ),
    LongList(
        "parts",
        '{"plan":{"page":1,"sections":[',
        '{"parts":[[16,false],[8,false],[4,false],[2,false],[1,false]]}',
        65_279,
        "]}," + PRELUDE,
        "bad link: rule 7, event 0\n",
    ),
)


def put(stream, long_list):
    """Writes the description; a few of its items are held at a time."""
    stream.write(long_list.before.encode())
    left = long_list.count
    separator = b""
    while left > 0:
        count = min(left, ITEMS_AT_ONCE)
        stream.write(separator + b",".join([long_list.item.encode()] * count))
        separator = b","
        left -= count
    stream.write(long_list.behind.encode())
