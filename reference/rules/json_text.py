"""From bytes to a JSON value, or the refusal of what is no JSON."""

import json
import re

from .refusal import not_json

LEAST_WHOLE = -(2**63)
LARGEST_WHOLE = 2**64 - 1
MOST_DIGITS = 20
DEEPEST_NESTING = 127


class Fraction:
    """A number that isn't whole, is negative zero or is too long: of a wrong shape everywhere."""


def read_float(text):
    """A number with a fraction or an exponent, which must be within reach of a 64-bit float."""
    if float(text) in (float("inf"), float("-inf")):
        raise ValueError(text)
    return Fraction()


def read_integer(text):
    """A whole number; what fits neither 64-bit range is read as a float."""
    if text == "-0" or len(text) > MOST_DIGITS:
        return read_float(text)
    number = int(text)
    return number if LEAST_WHOLE <= number <= LARGEST_WHOLE else read_float(text)


def refuse_constant(text):
    raise ValueError(text)


def has_lone_surrogate(value):
    if isinstance(value, str):
        return any("\ud800" <= letter <= "\udfff" for letter in value)
    return isinstance(value, list) and any(map(has_lone_surrogate, value))


def read_object(pairs):
    """An object: the last of equal keys stays, but every text in it must be a text."""
    if any(has_lone_surrogate(key) or has_lone_surrogate(value) for key, value in pairs):
        raise ValueError("lone surrogate")
    return dict(pairs)


def check_nesting(text):
    depth = 0
    for bracket in re.findall(r"[\[\]{}]", re.sub(r'"(?:[^"\\]|\\.)*"', "", text, flags=re.S)):
        depth += 1 if bracket in "[{" else -1
        if depth > DEEPEST_NESTING:
            raise ValueError("nested too deeply")


def read_json(data):
    """The value that these bytes are."""
    try:
        text = data.decode("utf-8")
        check_nesting(text)
        value = json.loads(
            text,
            parse_float=read_float,
            parse_int=read_integer,
            parse_constant=refuse_constant,
            object_pairs_hook=read_object,
        )
        if has_lone_surrogate(value):
            raise ValueError("lone surrogate")
        return value
    except (ValueError, RecursionError):
        raise not_json() from None
