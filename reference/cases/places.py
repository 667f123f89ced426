"""Small descriptions, changed at every place of their text."""

import json

from .texts import NUMBER_TEXTS, STRAY_BYTES

# One is laid out, one has symbols, one has members of a wrong shape, one has sections that refer to each
# other, and one what stands in sections and files beside that. Keys stand in another order than the
# format's, beside unknown ones with numbers.
DESCRIPTIONS = (
    {
        "groups": [
            [{"kind": "prelude"}],
            [{"sections": [{"slot": "must", "size": 8}, {"slot": "discard"}], "kind": "object"}],
        ],
        "unknown": [1, {"deep": [2]}],
        "plan": {
            "page": 4096,
            "sections": [{"attrs": 1, "parts": [[8, False]]}],
            "segments": [{"kind": "load"}],
            "events": [["seg", 0], ["sec", 0], ["endseg", 0]],
        },
    },
    {
        "plan": {"page": 1},
        "groups": [
            [{"kind": "prelude"}],
            [{"symbols": [{"at": ["abs", 4], "name": "a"}, {"at": ["undef"]}], "kind": "object"}],
        ],
    },
    {
        "options": {"stack": 1},
        "groups": [
            [{"kind": "notloaded", "sections": 7, "symbols": [{"at": ["undef"], "def": 0}]}],
        ],
        "plan": {"page": 1},
    },
    {
        "options": {"entry": 1},
        "plan": {"page": 1, "sections": [{"parts": [[1, False]]}], "events": [["sec", 0]]},
        "groups": [
            [
                {"kind": "prelude"},
                {
                    "kind": "object",
                    "sections": [
                        {"relocs": [[1, "Relative", 0, -4, True]], "size": 9, "slot": "unloaded"},
                        {"data": "0aFf", "size": 2, "slot": "unloaded"},
                    ],
                    "symbols": [{"at": ["undef"], "def": 2}, {"at": ["sec", 0, 8]}, {"at": ["sec", 1, 0]}],
                },
            ],
        ],
    },
    {
        "plan": {"page": 1, "sections": [{"parts": [[1, False]]}], "events": [["sec", 0]]},
        "groups": [
            [
                {"kind": "prelude"},
                {
                    "kind": "object",
                    "candidates": [[0, 0, 1, 0]],
                    "symbols": [{"at": ["abs", 1]}],
                    "sections": [
                        {"slot": "must", "size": 4, "relax": [[0, 0, 8, 1], [2, 0, 8, 2]]},
                        {"data": "6aFf00", "slot": "merge"},
                    ],
                },
            ],
        ],
    },
)
# Several groups, so that the text is cut also into pieces that aren't small.
GROUPED = (
    {
        "plan": {"page": 1},
        "groups": [
            [{"kind": "prelude"}],
            [{"kind": "object", "symbols": [{"at": ["undef"]}]}],
            [{"kind": "object", "sections": [{"slot": "must", "size": 1}]}, {"kind": "dynamic"}],
            [],
            [{"name": "\u00e9],[{", "kind": "script"}],
            [{"kind": "synthetic"}],
        ],
        "options": {"gc": False},
    },
)
WRONG_TEXTS = ("7", '"x"', "[]", "{}", "null", "[{}]", "[[{}]]", '[{"kind":7}]', "1e999")


def text_of(value):
    """A value in JSON, with its members in the order that they have."""
    return json.dumps(value, separators=(",", ":"))


def objects_in(value):
    """A value and all that stands in it, with a way to write the whole anew for each object."""
    if isinstance(value, dict):
        yield value, lambda text: text
        names, values = list(value), list(value.values())
        for inner, around in objects_within(values):
            yield inner, lambda text, around=around: object_text(
                list(zip(map(text_of, names), around(text)))
            )
    if isinstance(value, list):
        for inner, around in objects_within(value):
            yield inner, lambda text, around=around: "[%s]" % ",".join(around(text))


def objects_within(values):
    """The same for several values, of which the texts are a list."""
    for place, value in enumerate(values):
        before, after = map(text_of, values[:place]), map(text_of, values[place + 1 :])
        texts = list(before), list(after)
        for inner, around in objects_in(value):
            yield inner, lambda text, around=around, texts=texts: [*texts[0], around(text), *texts[1]]


def object_text(members):
    return "{%s}" % ",".join("%s:%s" % member for member in members)


def member_changes(value):
    """The description with one object's members doubled, escaped, left out or moved."""
    for inner, around in objects_in(value):
        members = [(text_of(name), text_of(member)) for name, member in inner.items()]
        yield around(object_text(members[::-1]))
        for place, (name, member) in enumerate(members):
            others = members[:place] + members[place + 1 :]
            escaped = '"%s"' % "".join("\\u%04x" % ord(letter) for letter in json.loads(name))
            yield around(object_text(others))
            yield around(object_text([(name, member)] + others))
            yield around(object_text(others + [(escaped, member)]))
            for wrong in WRONG_TEXTS:
                yield around(object_text([(name, wrong)] + members))
                yield around(object_text(members + [(name, wrong)]))


def text_changes(text):
    """The text cut off at each place, with each stray byte there, and each number written otherwise."""
    for place in range(len(text)):
        yield text[:place]
        yield text[:place] + text[place + 1 :]
        for stray in STRAY_BYTES:
            yield text[:place] + stray + text[place:]
        digit = text[place : place + 1].isdigit() and not text[place - 1 : place].isdigit()
        end = place
        while digit and text[end : end + 1].isdigit():
            end += 1
        for number in NUMBER_TEXTS if digit else ():
            yield text[:place] + number + text[end:]
    for stray in STRAY_BYTES:
        yield text + stray


def changed_at_every_place(descriptions=DESCRIPTIONS):
    for description in descriptions:
        yield text_of(description).encode()
        yield from (text.encode() for text in member_changes(description))
        yield from text_changes(text_of(description).encode())
