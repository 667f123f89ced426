"""The JSON text of a description, written in odd ways or broken."""

import json

from .shapes import WRONG_VALUES
from .values import Written


def escaped(rng, text):
    """A text in JSON, sometimes with escapes that it doesn't need."""
    if rng.random() < 0.05:
        units = text.encode("utf-16-be", "surrogatepass")
        pairs = [units[place : place + 2].hex() for place in range(0, len(units), 2)]
        return '"%s"' % "".join("\\u" + rng.choice((pair, pair.upper())) for pair in pairs)
    return json.dumps(text, ensure_ascii=rng.random() < 0.5)


def gap(rng):
    return rng.choice((" ", "\n", "\t", "\r\n", "  ")) if rng.random() < 0.03 else ""


def json_text(rng, value):
    """A value in JSON with odd spaces, escapes, and fields that stand twice or out of order."""
    if isinstance(value, Written):
        return value.text
    if isinstance(value, str):
        return escaped(rng, value)
    if isinstance(value, list):
        items = [gap(rng) + json_text(rng, item) + gap(rng) for item in value]
        return "[%s]" % ",".join(items)
    if not isinstance(value, dict):
        return json.dumps(value)
    fields = list(value.items())
    if rng.random() < 0.1:
        rng.shuffle(fields)
    if fields and rng.random() < 0.01:
        name = rng.choice(fields)[0]
        fields.insert(rng.randrange(len(fields) + 1), (name, rng.choice(WRONG_VALUES)))
    texts = [
        "%s%s%s:%s" % (gap(rng), escaped(rng, name), gap(rng), gap(rng) + json_text(rng, item))
        for name, item in fields
    ]
    return "{%s}" % ",".join(texts)


NUMBER_TEXTS = (
    *(b"-0", b"0", b"00", b"01", b"1.0", b"1e0", b"1E2", b"0.0", b"-1", b"+1", b".5", b"1.", b"1e"),
    *(b"1e400", b"-1e400", b"1e-400", b"9" * 400, b"18446744073709551615", b"18446744073709551616"),
    *(b"4294967295", b"4294967296", b"-9223372036854775808", b"-9223372036854775809", b"0x1"),
    *(b"NaN", b"Infinity", b"nul", b"null", b"true", b"0e400", b"1e308", b"1.8e308", b"-"),
)
STRAY_BYTES = (
    *(b"{", b"}", b"[", b"]", b",", b":", b'"', b"\\", b"0", b"-", b" ", b"\n", b"\x00", b"\x1f"),
    *(b"\x7f", b"\xff", b"\xc3", b"\xc3\xa9", b"\xed\xa0\x80", b"\xf4\x90\x80\x80", b"\xef\xbb\xbf"),
    *(b"\\ud800", b"\\ud83d\\ude00", b"\\udc00", b"\\u00e9", b"\\x", b"\\/", b"\\b", b"//", b"\x0b"),
)


def break_text(rng, text):
    """Bytes cut off, taken out, put in, or a number written in another way."""
    for _ in range(rng.choice((1, 1, 1, 2))):
        place = rng.randrange(len(text) + 1)
        choice = rng.randrange(5)
        if choice == 0:
            text = text[:place]
        elif choice == 1:
            text = text[:place] + text[place + 1 :]
        elif choice == 2:
            text = text[:place] + rng.choice(STRAY_BYTES) + text[place:]
        else:
            text = replace_number(rng, text, place)
    return text


def replace_number(rng, text, place):
    start = place
    while start < len(text) and text[start : start + 1] not in b"0123456789":
        start += 1
    end = start
    while end < len(text) and text[end : end + 1] in b"0123456789":
        end += 1
    return text[:start] + rng.choice(NUMBER_TEXTS) + text[end:]
