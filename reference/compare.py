#!/usr/bin/env python3
"""Compare the program with the reference on random small descriptions.

usage: compare.py PROGRAM COUNT [SEED [FIRST]]
       compare.py PROGRAM --places
       compare.py PROGRAM --small
       compare.py PROGRAM --generated COUNT
       compare.py PROGRAM --shortened COUNT [SEED]
       compare.py PROGRAM --merging COUNT [SEED]
       compare.py PROGRAM --tls COUNT [SEED]
       compare.py PROGRAM --thunks COUNT [SEED]
       compare.py PROGRAM --why COUNT [SEED]
       compare.py PROGRAM --maps COUNT [SEED]
       compare.py PROGRAM --images COUNT [SEED]

Runs PROGRAM on the random descriptions of the numbers FIRST to FIRST + COUNT - 1, and where FIRST is
0 on the fixed ones too, on each one with the words `layout 0`, and with 1, 2, 4 and 8 in place of 0. Shows
each one on which status or bytes differ from the reference's, which are the same for all of these. Ends
with 1 if there was one. The same SEED and number give the same description.

With --places, the descriptions are some small ones, changed at every place of their text: cut there, with
a stray byte there, with another number, with a member doubled, escaped, left out or moved. With --small, they
are all links of two sections that may refer to each other and to what is undefined. With --generated, the
words are `gen`, random seeds and numbers of objects up to 300, and there is no input. With --shortened, in most
of the random descriptions relaxation leaves something out; with --merging, in each of them something is merged; with
--tls, in each of them a load segment opens behind zero-filled thread-local data; with --thunks, each has a primary part, and
most of them more code than a branch reaches. With --why, the words are `why` and three sections of each random description, one
after the other. With --maps, the words are `check`, and the inputs are reports, as they are and changed at one to three places. With
--images, the words are `image 0`, `image 2` and `image 8`, and most descriptions have data.
"""

import collections
import glob
import itertools
import json
import os
import random
import re
import sys

import cases
import reference
from cases.places import changed_at_every_place
from cases.small import every_small_link
from program import program_answer
from rules.refusal import LAID_OUT

# No worker, one, two, four, and more than most of the descriptions have groups.
WORKERS = (0, 1, 2, 4, 8)
IMAGE_WORKERS = (0, 2, 8)
MOST_SHOWN = 2000
HERE = os.path.dirname(os.path.abspath(__file__))
# Other answers of status 0, by their first words.
DONE = {b"why": "kept", b"map": "good map"}
SECTIONS_EACH = 3
LISTED = {"--places": changed_at_every_place, "--small": every_small_link}


def shown(text):
    return text.decode("utf-8", "replace")[:MOST_SHOWN]


def kind_of(status, text):
    """A short name of an answer, for the counts at the end."""
    if status == LAID_OUT:
        return DONE.get(text.split(b" ")[0], "laid out") if b"\nnot reached\n" not in text else "not reached"
    if text.startswith((b"discarded:", b"undefined:")):
        return "references that can't be met"
    line = re.sub("description:.*", "description", shown(text).strip())
    line = re.sub("(link: rule [0-9]+|overflow: [a-z]+|too many [a-z ]+).*", r"\1", line)
    line = re.sub("(such section|: lines?) .*|^line [0-9]+", lambda found: found[1] or "line", line)
    line = re.sub("(merge offset: [a-z]*|not null-terminated|bucket too large).*", r"\1", line)
    line = re.sub(r"(expression at [a-z]+).*(: .*)", r"\1\2", line)
    line = re.sub(r"(backwards|headers|overflowed) .*", r"\1", line)
    return re.sub("(section|region|event|address) [(]?[0-9a-fx]+[)]?", r"\1", line)


class Comparison:
    def __init__(self, program):
        self.program = program
        self.kinds = collections.Counter()
        self.mismatches = 0

    def compare(self, name, data):
        """Compares a description, which has one answer, with what the program gives by each number of workers."""
        wanted = reference.answer(["layout", "0"], data)
        self.compare_by(name, data, wanted, [["layout", str(workers)] for workers in WORKERS])

    def compare_words(self, words, name="", data=b""):
        """Compares an input with these words, which have no number of workers; none where nothing is read behind them."""
        self.compare_by(name or " ".join(words), data, reference.answer(words, data), [words])

    def compare_by(self, name, data, wanted, ways):
        """Compares an answer with what the program gives by each of these words, up to the first that differs."""
        self.kinds[kind_of(*wanted)] += 1
        for words in ways:
            try:
                got = program_answer(self.program, words, data)
            except BrokenPipeError:
                got = None, b"(input not read)"
            if got != wanted:
                self.show(name, data, words, wanted, got)
                return

    def show(self, name, data, words, wanted, got):
        self.mismatches += 1
        print("MISMATCH %s, words %s, input of %d bytes:" % (name, " ".join(words), len(data)))
        print(shown(data))
        print("wanted status %s:\n%s" % (wanted[0], shown(wanted[1])))
        print("got status %s:\n%s" % (got[0], shown(got[1])))

    def summary(self):
        for kind, count in self.kinds.most_common():
            print("%7d  %s" % (count, kind))
        print("%d cases, %d mismatches" % (sum(self.kinds.values()), self.mismatches))


def compare_listed(program, kind):
    comparison = Comparison(program)
    for number, data in enumerate(LISTED[kind]()):
        comparison.compare("%s %d" % (kind, number), data)
    return comparison


def compare_generated(program, count):
    comparison = Comparison(program)
    numbers = random.Random(count)
    for _ in range(count):
        seed, size = numbers.getrandbits(numbers.randint(0, 64)), numbers.randint(1, 300)
        comparison.compare_words(["gen", str(seed), str(size)])
    return comparison


def compare_shortened(program, count, seed=0):
    comparison = Comparison(program)
    for number in range(count):
        comparison.compare("shortened %d:%d" % (seed, number), cases.shortened_case(seed, number))
    return comparison


def compare_merging(program, count, seed=0):
    comparison = Comparison(program)
    for number in range(count):
        comparison.compare("merging %d:%d" % (seed, number), cases.merging_case(seed, number))
    return comparison


def compare_thread_local(program, count, seed=0):
    comparison = Comparison(program)
    for number in range(count):
        comparison.compare("tls %d:%d" % (seed, number), cases.thread_local_case(seed, number))
    return comparison


def compare_thunked(program, count, seed=0):
    comparison = Comparison(program)
    for number in range(count):
        comparison.compare("thunks %d:%d" % (seed, number), cases.thunked_case(seed, number))
    return comparison


def sections_of(data):
    """The places of all sections of a description, as far as it is one."""
    try:
        groups = json.loads(data)["groups"]
        files = [(g, f, file) for g, group in enumerate(groups) for f, file in enumerate(group)]
        return [(g, f, i) for g, f, file in files for i, _ in enumerate(file.get("sections", []))]
    except (AttributeError, KeyError, RecursionError, TypeError, ValueError):
        return []


def compare_why(program, count, seed=0):
    comparison = Comparison(program)
    for number in range(count):
        data = cases.case(seed, number)
        rng = random.Random("why %d:%d" % (seed, number))
        places = sections_of(data)
        for _ in range(SECTIONS_EACH):
            place = rng.choice(places) if places and rng.random() < 0.95 else [rng.randint(0, 3) for _ in range(3)]
            comparison.compare_words(["why", *map(str, place)], "why %d:%d" % (seed, number), data)
    return comparison


def reports(seed):
    """The reports of examples, and then of random descriptions, each with its name."""
    for path in sorted(glob.glob(os.path.join(HERE, "..", "examples", "*.report"))):
        with open(path, "rb") as file:
            yield os.path.basename(path), file.read()
    for number in itertools.count():
        status, report = reference.answer(["layout", "0"], cases.case(seed, number))
        if status == LAID_OUT:
            yield "%d:%d" % (seed, number), report


def compare_maps(program, count, seed=0):
    comparison = Comparison(program)
    for name, report in itertools.islice(reports(seed), count):
        changed = cases.changed_map(random.Random("maps %d:%s" % (seed, name)), report)
        comparison.compare_words(["check"], "maps " + name, report)
        comparison.compare_words(["check"], "maps %s, changed" % name, changed)
    return comparison


def compare_images(program, count, seed=0):
    comparison = Comparison(program)
    for number in range(count):
        data = cases.image_case(seed, number)
        wanted = reference.answer(["image", "0"], data)
        comparison.compare_by("images %d:%d" % (seed, number), data, wanted, [["image", str(workers)] for workers in IMAGE_WORKERS])
    return comparison


def compare_random(program, count, seed=0, first=0):
    comparison = Comparison(program)
    if first == 0:
        for name, data in cases.fixed_cases().items():
            comparison.compare("fixed, " + name, data)
    for number in range(first, first + count):
        comparison.compare("random %d:%d" % (seed, number), cases.case(seed, number))
    return comparison


def asked_for(words):
    """What compares the program, and the numbers that it is told; None where the words ask for nothing."""
    kind, numbers = (words[1], words[2:]) if words[1:] and words[1].startswith("--") else ("", words[1:])
    if kind in LISTED and not numbers:
        return (lambda program: compare_listed(program, kind)), []
    compare, most = COUNTED.get(kind, (None, 0))
    if 1 <= len(numbers) <= most and all(number.isdigit() for number in numbers):
        return compare, [int(number) for number in numbers]
    return None


def main(words):
    asked = asked_for(words)
    if asked is None:
        sys.exit(USAGE)
    compare, numbers = asked
    comparison = compare(words[0], *numbers)
    comparison.summary()
    sys.exit(1 if comparison.mismatches else 0)


COUNTED = {
    "": (compare_random, 3),
    "--generated": (compare_generated, 1),
    "--shortened": (compare_shortened, 2),
    "--merging": (compare_merging, 2),
    "--tls": (compare_thread_local, 2),
    "--thunks": (compare_thunked, 2),
    "--why": (compare_why, 2),
    "--maps": (compare_maps, 2),
    "--images": (compare_images, 2),
}
USAGE = (
    "usage: compare.py PROGRAM COUNT [SEED [FIRST]], "
    "or compare.py PROGRAM --places|--small|--generated COUNT|--shortened COUNT [SEED]|--merging COUNT [SEED]|--tls COUNT [SEED]|--thunks COUNT [SEED]|"
    "--why COUNT [SEED]|--maps COUNT [SEED]|--images COUNT [SEED]"
)


if __name__ == "__main__":
    main(sys.argv[1:])
