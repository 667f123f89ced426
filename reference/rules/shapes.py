"""Shapes of JSON values. A reader takes a value and its path, and answers what it reads."""

import re

from .refusal import wrong_shape

LARGEST_64 = 2**64 - 1
LARGEST_32 = 2**32 - 1

MISSING = object()


def as_type(value, wanted, path):
    if type(value) is not wanted:
        raise wrong_shape(path)
    return value


def whole(value, least, largest, path):
    if not least <= as_type(value, int, path) <= largest:
        raise wrong_shape(path)
    return value


def number(value, path):
    return whole(value, 0, LARGEST_64, path)


def index(value, path):
    """A number that names or counts something, or a set of flags."""
    return whole(value, 0, LARGEST_32, path)


def addend(value, path):
    return whole(value, -(2**63), 2**63 - 1, path)


def truth(value, path):
    return as_type(value, bool, path)


def text(value, path):
    return as_type(value, str, path)


def hexadecimal(value, path):
    """Bytes, two digits of either case for each."""
    if not re.fullmatch(r"([0-9a-fA-F]{2})*", as_type(value, str, path)):
        raise wrong_shape(path)
    return bytes.fromhex(value)


def one_of(texts):
    """The shape of a listed text."""

    def read(value, path):
        if as_type(value, str, path) not in texts:
            raise wrong_shape(path)
        return value

    return read


def list_of(read_item):
    """The shape of a list of any number of items."""

    def read(value, path):
        items = as_type(value, list, path)
        return [read_item(item, "%s/%d" % (path, place)) for place, item in enumerate(items)]

    return read


def read_items(items, readers, first, path):
    """The items from that place on, one for each reader."""
    for place, read_item in enumerate(readers, first):
        item = items[place] if place < len(items) else MISSING
        yield read_item(item, "%s/%d" % (path, place))


def check_length(items, wanted, path):
    """Items too many are found after those before them are read."""
    if len(items) > wanted:
        raise wrong_shape(path)


def fixed_list(*readers):
    """The shape of a list of just these items."""

    def read(value, path):
        items = as_type(value, list, path)
        found = tuple(read_items(items, readers, 0, path))
        check_length(items, len(readers), path)
        return found

    return read


def tagged(forms):
    """The shape of a fixed list whose first item is a listed text that tells what follows."""

    def read(value, path):
        items = as_type(value, list, path)
        (tag,) = read_items(items, [one_of(forms)], 0, path)
        found = (tag, *read_items(items, forms[tag], 1, path))
        check_length(items, len(found), path)
        return found

    return read


class Fields:
    """The fields of an object. They are looked at in the order in which they are asked for."""

    def __init__(self, value, path):
        self.values = as_type(value, dict, path)
        self.path = path

    def required(self, name, read):
        return read(self.values.get(name, MISSING), "%s/%s" % (self.path, name))

    def optional(self, name, read, default=None):
        return self.required(name, read) if name in self.values else default
