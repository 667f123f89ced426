"""Small descriptions of several groups, or of one, whose texts are cut between these and between their files: written in odd ways, and with faults
where a cut may be."""

import json
import re

from .good import good_description
from .shapes import WRONG_VALUES, random_shapes
from .texts import STRAY_BYTES, break_text, escaped, json_text
from .values import optional, pick

# Longer ones are made anew, so that many are read in little time.
LONGEST = 1200
NAMES = ("a", "", "\u00e9", "\U0001f600", '],[{"a', "b" * 70)
# What ends or holds the same letters as the beginning of a group behind another: a text is cut there, and then read whole. So it stands
# in few descriptions.
ODD_SHARE = 0.2
ODD_NAMES = ("],[{", "\u00e9],[{", "\U0001f600],[{")
ODD_SYMBOLS = [{"at": ["undef"], "name": "],[{"}]
UNKNOWN = (
    [[1], [{"a": 0}], [{"b": 0}]],
    {"groups": [[{"kind": "object"}], [{"kind": "object"}]]},
    [{"kind": "object"}, {"kind": "object"}],
    [{"kind": "load"}, {"sections": [{"kind": "script"}, {"symbols": []}]}],
    {"],[{": [[], [{"],[{": 1}]]},
    "],[{",
    7,
)
KINDS = ("object", "object", "object", "dynamic", "script", "notloaded", "synthetic")
BLANKS = (b" ", b"\n", b"\t", b"\r\n", b"   ")
BEHIND_THE_END = (b" ", b"\n", b"}", b"]", b",", b"x", b"{}", b"\xff", b'],[{"a":0}]}')
# Behind it a key begins, and not what follows a text that ends so.
BETWEEN_GROUPS = re.compile(rb'\]\s*,\s*\[\{"(?=[a-z\\])')
# Where a file begins behind another of its group, by a first key that is no symbol's nor section's.
BETWEEN_FILES = re.compile(rb'\}\s*,\s*\{"(?=(?:kind|symbols|sections|archive|export|check|candidates)")')
# What may stand there that is none.
NO_GROUPS = (b"],,[{\"", b"]]", b"][{\"", b"],[[{\"", b"],{\"", b"]},[{\"")
NO_FILES = (b"},,{\"", b"}}", b"}{\"", b"},{{\"", b"},[{\"", b"}],{\"", b"}],[[{\"")


def plain_file(rng, odd):
    """A file of little more than a kind and a name, that may hold what looks like a group."""
    file = {"kind": rng.choice(KINDS)}
    optional(rng, file, "name", 0.5, NAMES + ODD_NAMES * odd)
    optional(rng, file, "x", 0.2 * odd, UNKNOWN)
    optional(rng, file, "symbols", 0.2, ([{"at": ["undef"]}], [{"at": ["abs", 1]}] * 2, ODD_SYMBOLS)[: 2 + odd])
    optional(rng, file, "sections", 0.2, ([{"slot": "must"}], [{"slot": "merge", "data": "6100"}, {"slot": "debug"}]))
    return file


def plain_description(rng, odd=False):
    """A description of plain files alone."""
    files = [plain_file(rng, odd) for _ in range(rng.choice((1, 3, 5, 8, 12)))]
    return {"plan": {"page": rng.choice((1, 4096))}, "groups": [[{"kind": "prelude"}], files]}


def regroup(rng, groups, odd):
    """The files of these groups and some plain ones, in one group, in one for each, or in some, with empty ones between."""
    files = [file for group in groups for file in group]
    files += [plain_file(rng, odd) for _ in range(rng.choice((0, 1, 3, 5)))]
    share = rng.choice((0, 0.5, 0.8, 0.8, 1, 1, 1, 1))
    made = [[]]
    for file in files:
        if made[-1] and rng.random() < share:
            made.append([])
        made[-1].append(file)
    for _ in range(rng.choice((0, 0, 0, 1, 3))):
        made.insert(rng.randrange(len(made) + 1), [])
    return [] if rng.random() < 0.02 else made


def break_group(rng, groups):
    """A value of a wrong shape in the first group, the last one, or one between."""
    group = rng.choice((groups[0], groups[-1], rng.choice(groups)))
    choice = rng.randrange(4)
    if choice == 0 or not group or not isinstance(group[0], dict):
        group.append(pick(rng, WRONG_VALUES))
    elif choice == 1:
        rng.choice(group).pop("kind", None)
    else:
        rng.choice(group)[rng.choice(("kind", "name", "symbols", "sections", "export"))] = pick(rng, WRONG_VALUES)


def members_of(rng, description, odd):
    """Its members in any order, now and then with unknown ones and a second list of groups."""
    members = list(description.items())
    if rng.random() < 0.5:
        rng.shuffle(members)
    if rng.random() < 0.3:
        members.insert(rng.randrange(len(members) + 1), ("x", pick(rng, UNKNOWN) if odd else [1, {"a": None}]))
    if rng.random() < 0.08:
        again = rng.choice((pick(rng, WRONG_VALUES), plain_description(rng)["groups"]))
        members.insert(rng.randrange(len(members) + 1), ("groups", again))
    return members


def blank(rng, share):
    return rng.choice(BLANKS) if rng.random() < share else b""


def blank_between(rng, text, share):
    """The text with blanks where a group or a file begins behind another, in a share of the places; such a text is cut where the bracket stands
    by the brace and that by the key."""

    def spaced_groups(found):
        if rng.random() >= share:
            return found[0]
        begins = b"[" + blank(rng, 0.05) + b"{" + blank(rng, 0.05) + b'"'
        return b"]" + blank(rng, 0.7) + b"," + blank(rng, 0.7) + begins

    def spaced_files(found):
        if rng.random() >= share:
            return found[0]
        return b"}" + blank(rng, 0.7) + b"," + blank(rng, 0.7) + b"{" + blank(rng, 0.05) + b'"'

    return BETWEEN_FILES.sub(spaced_files, BETWEEN_GROUPS.sub(spaced_groups, text))


def text_of(rng, description, odd):
    """Its text, with a key or two in escapes now and then."""
    texts = ["%s:%s" % (escaped(rng, name), json_text(rng, value)) for name, value in members_of(rng, description, odd)]
    text = "{%s}" % ",".join(texts)
    if rng.random() < 0.05:
        text = json.dumps(json.loads(text), indent=rng.choice((0, 1, 2)), ensure_ascii=False)
    text = text.replace('"groups"', rng.choice(('"groups"',) * 9 + ('"\\u0067roups"',)))
    return blank_between(rng, text.encode("utf-8", "surrogatepass"), rng.choice((0, 0, 0.3, 1)))


def break_between(rng, text):
    """The text with a fault where one group or file ends and the next begins."""
    between, others = rng.choice(((BETWEEN_GROUPS, NO_GROUPS), (BETWEEN_FILES, NO_FILES)))
    places = list(between.finditer(text))
    if not places:
        return break_text(rng, text)
    found = rng.choice(places)
    place = rng.randint(found.start(), found.end())
    choice = rng.randrange(4)
    if choice == 0:
        return text[:place]
    if choice == 1:
        return text[:place] + text[place + 1 :]
    if choice == 2:
        return text[: found.start()] + rng.choice(others) + text[found.end() :]
    return text[:place] + rng.choice(STRAY_BYTES) + text[place:]


def small_description(rng):
    """A description that may have anything and is small, or one of plain files."""
    make = rng.choice((plain_description, plain_description, good_description, good_description, random_shapes))
    description = make(rng)
    while not isinstance(description, dict) or len(json_text(rng, description)) > LONGEST:
        description = make(rng)
    return description


def cut_text(rng):
    """The bytes of such a description."""
    description, odd = small_description(rng), rng.random() < ODD_SHARE
    groups = description.get("groups")
    if isinstance(groups, list) and all(isinstance(group, list) for group in groups):
        description["groups"] = regroup(rng, groups, odd)
        if description["groups"] and rng.random() < 0.15:
            break_group(rng, description["groups"])
    text = text_of(rng, description, odd)
    choice = rng.random()
    if choice < 0.15:
        return break_between(rng, text)
    if choice < 0.2:
        return text + rng.choice(BEHIND_THE_END)
    return break_text(rng, text) if choice < 0.25 else text
