#!/usr/bin/env python3
"""An independent layout of link descriptions: plain, slow, and made from the written rules alone.

usage: reference.py WORDS.. < DESCRIPTION
       reference.py --reach|--placement < DESCRIPTION

With the words of a command, `layout N`, `gen SEED SIZE`, `why G F I`, `check` or `image N`, it writes what the program is
to write and ends with the status that it is to end with; what `check` reads is a map. With --reach it writes what the
traversal answers: the live sections, the flags of all symbols, and the output sections that are kept.
With --placement it writes what placement answers beside the report: whether the plan is plain, the bytes of
the headers, the counters, merged records, compacted segments, and the end of thread-local data.
"""

import re
import sys

from rules.checking import check_link
from rules.generated import generated_description, seed_and_size, summary_line
from rules.image import image
from rules.json_text import read_json
from rules.layout import placement_lines, report
from rules.maps import map_lines
from rules.reach import reach_lines
from rules.reading import description
from rules.refusal import LAID_OUT, UNREADABLE, Refusal, usage
from rules.why import why_lines

LONGEST_INPUT = 1_073_741_824
LARGEST_NUMBER = 4_294_967_295
# the numbers of workers, as they are written; the answer doesn't depend on them
WORKERS = [str(number) for number in range(65)]


def whole_input(data):
    """The input, which isn't too long."""
    if len(data) > LONGEST_INPUT:
        raise Refusal(UNREADABLE, "input is longer than %d bytes" % LONGEST_INPUT)
    return data


def link_of(data):
    """The description, which keeps all limits and rules."""
    link = description(read_json(whole_input(data)))
    check_link(link)
    return link


def number_of(word):
    """The number that a word is, up to 4,294,967,295."""
    if re.fullmatch("0|[1-9][0-9]{0,9}", word) is None or int(word) > LARGEST_NUMBER:
        raise usage()
    return int(word)


def laid_out_lines(words, data):
    """The lines of the report."""
    if len(words) != 2 or words[1] not in WORKERS:
        raise usage()
    return report(link_of(data))


def generated_lines(words, _):
    """The line of the layout of a generated link."""
    seed, size = seed_and_size(words)
    link = description(generated_description(seed, size))
    check_link(link)
    yield summary_line(link, seed, size)


def section_lines(words, data):
    """Why a section is kept, by the words for its group, file and index."""
    if len(words) != 4:
        raise usage()
    place = tuple(number_of(word) for word in words[1:])
    return why_lines(link_of(data), place)


def checked_lines(words, data):
    """What is told of a map."""
    if len(words) != 1:
        raise usage()
    return map_lines(whole_input(data))


def image_bytes(words, data):
    """The bytes of the output file, as far as a layout tells them."""
    if len(words) != 2 or words[1] not in WORKERS:
        raise usage()
    return image(link_of(data))


# What each command that tells lines tells, by its first word.
COMMANDS = {
    "layout": laid_out_lines,
    "gen": generated_lines,
    "why": section_lines,
    "check": checked_lines,
}


def ended(lines):
    """Lines, each with its end."""
    return "".join(line + "\n" for line in lines).encode()


def command_bytes(words, data):
    """The bytes that a command tells."""
    if words and words[0] == "image":
        return image_bytes(words, data)
    if not words or words[0] not in COMMANDS:
        raise usage()
    return ended(COMMANDS[words[0]](words, data))


def answer_of(make_bytes, *inputs):
    """The status and these bytes, or those of the refusal."""
    try:
        return LAID_OUT, make_bytes(*inputs)
    except Refusal as refusal:
        return refusal.status, ended(refusal.lines)


def answer(words, data):
    """The status and the bytes that these words and this input give."""
    return answer_of(command_bytes, words, data)


def reach_answer(_, data):
    """What the traversal alone answers."""
    return answer_of(lambda: ended(reach_lines(link_of(data))))


def placement_answer(_, data):
    """What placement answers beside the report."""
    return answer_of(lambda: ended(placement_lines(link_of(data))))


# What is asked of the reference alone, by the first word.
OWN_WORDS = {
    "--reach": reach_answer,
    "--placement": placement_answer,
}


def own_answer(words, data):
    """What words that may begin with one of its own give."""
    if words and words[0] in OWN_WORDS:
        return OWN_WORDS[words[0]](words[1:], data)
    return answer(words, data)


def main(words):
    status, text = own_answer(words, sys.stdin.buffer.read())
    sys.stdout.buffer.write(text)
    sys.exit(status)


if __name__ == "__main__":
    main(sys.argv[1:])
