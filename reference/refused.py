#!/usr/bin/env python3
"""Refuse the program each growth of its memory in turn, and each call that gives memory back, by no worker and by several.

usage: refused.py PROGRAM [DESCRIPTION..]

For each of the descriptions, unless told those of examples/ and some random ones in which something is merged in
several groups, for 0, 2 and 4 workers, for why its first section is kept, and for its image by 0 and 2: a run in which the first growth is refused,
one in which the second is, and so on to the last. The same of two generated links, and of a check of each map of
examples/, the reports among them. Each has to write nothing and end with 6, or to do without and
answer as the run in which none is refused, which with one thread few do. The same where what gives memory back is refused,
which most runs do without. The examples are of every kind: merged strings, thunks, relaxation, output that is linked again,
redirects, tables; two generated links are laid out by the call that has one thread alone. Says at its end how many calls
of both kinds there were, and ends with 1 where a run did something else. Needs a C compiler, `cc`.
"""

import glob
import json
import os
import subprocess
import sys
import tempfile

import cases

HERE = os.path.dirname(os.path.abspath(__file__))
WORDS = ("layout 0", "layout 2", "layout 4", "why 1 0 0", "image 0", "image 2")
MAPS = ("*.report", "*.map")
GENERATED = ("gen 3 9", "gen 7 200")
MERGED = 6
NO_MEMORY = 6
KINDS = "growth", "return"
SECONDS = 60


class Refusing:
    """The program, with an allocator that refuses one call."""

    def __init__(self, program, folder):
        self.program, self.told = program, os.path.join(folder, "told")
        self.allocator = os.path.join(folder, "refusing.so")
        source = os.path.join(HERE, "refusing.c")
        subprocess.run(["cc", "-O1", "-shared", "-fPIC", "-o", self.allocator, source], check=True)

    def run(self, words, data, kind, refused):
        """Status and output where the call of that kind and number is refused, and whether there was one; 0 refuses none."""
        variables = {**os.environ, "LD_PRELOAD": self.allocator, "TOLD": self.told, "KIND": kind, "REFUSED": str(refused or 1 << 62)}
        command = [self.program, *words.split()]
        ended = subprocess.run(command, input=data, stdout=subprocess.PIPE, env=variables, timeout=SECONDS)
        was_refused = os.path.exists(self.told)
        if was_refused:
            os.remove(self.told)
        return (ended.returncode, ended.stdout), was_refused


def refuse_each(refusing, name, words, data, kind):
    """Refuses each call of a kind in turn; answers how many there were, how many the run did without, and how many did something else."""
    whole, _ = refusing.run(words, data, kind, 0)
    allowed = {whole, (NO_MEMORY, b"")}
    counts, goes_on = Counts(), True
    while goes_on:
        got, goes_on = refusing.run(words, data, kind, counts.refused + 1)
        counts.refused += goes_on
        counts.spared += goes_on and got == whole
        if got not in (allowed if goes_on else {whole}):
            counts.wrong += 1
            print("%s, %s, %s %d: status %d, %r" % (name, words, kind, counts.refused, got[0], got[1][:200]))
    print("%s, %s, %s: %s" % (name, words, kind, counts), flush=True)
    return counts


class Counts:
    """Of calls that were refused: how many, how many a run did without, and how many it met otherwise than it may."""

    def __init__(self):
        self.refused = self.spared = self.wrong = 0

    def add(self, other):
        self.refused += other.refused
        self.spared += other.spared
        self.wrong += other.wrong

    def __str__(self):
        return "%d refused, %d done without, %d wrong" % (self.refused, self.spared, self.wrong)


def merged(number):
    """A random description in which something is merged, with a group for each input."""
    description = json.loads(cases.merging_case(0, number))
    description.setdefault("options", {})["merge_group"] = 1
    return json.dumps(description).encode()


def examples(pattern):
    """The paths of examples with such a name."""
    return sorted(glob.glob(os.path.join(HERE, "..", "examples", pattern)))


def texts(paths):
    """Names and texts of files."""
    for path in paths:
        with open(path, "rb") as file:
            yield os.path.basename(path), file.read()


def descriptions(paths):
    """Names and texts of descriptions."""
    yield from texts(paths or examples("*.json"))
    for number in range(0 if paths else MERGED):
        yield "merged %d" % number, merged(number)


def runs(paths):
    """Names, words and descriptions of the runs."""
    for name, data in descriptions(paths):
        for line in WORDS:
            yield name, line, data
    for line in () if paths else GENERATED:
        yield "generated", line, b""
    for name, data in texts([] if paths else [path for pattern in MAPS for path in examples(pattern)]):
        yield name, "check", data


def main(words):
    if not words:
        sys.exit(__doc__)
    counts = {kind: Counts() for kind in KINDS}
    with tempfile.TemporaryDirectory() as folder:
        refusing = Refusing(os.path.abspath(words[0]), folder)
        for name, line, data in runs(words[1:]):
            for kind in KINDS:
                counts[kind].add(refuse_each(refusing, name, line, data, kind))
    for kind in KINDS:
        print("in all, %s: %s" % (kind, counts[kind]))
    sys.exit(1 if any(count.wrong for count in counts.values()) else 0)


if __name__ == "__main__":
    main(sys.argv[1:])
