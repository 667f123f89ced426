#!/usr/bin/env python3
"""Hold descriptions to their answers, which were worked out by hand.

usage: selftest.py [PROGRAM]

Tries the reference, or PROGRAM where one is given, on all examples that are written down: those of
known/, of the documents and of examples/. Ends with 1 where an answer is another one.
"""

import sys

import reference
import written
from program import program_answer

SHORT = 300


def answer_of(program, example):
    """What the program gives, or the reference where there is none."""
    data = example.data.encode()
    if program is not None:
        return program_answer(program, example.words, data)
    if example.is_own():
        return reference.own_answer(example.words, data)
    return reference.answer(example.words, data)


def main(words):
    if len(words) > 1:
        sys.exit("usage: selftest.py [PROGRAM]")
    program = words[0] if words else None
    count = wrong = 0
    for example in written.all_examples():
        if program is not None and example.is_own():
            continue
        wanted, got = (example.status, example.text), answer_of(program, example)
        count += 1
        if got != wanted:
            wrong += 1
            print("WRONG: %s, words %r, input\n%s" % (example.place, example.words, example.data[:SHORT]))
            print("wanted %d\n%s" % (example.status, example.text.decode("utf-8", "replace")))
            print("got %s\n%s" % (got[0], got[1].decode("utf-8", "replace")))
    print("%d examples, %d wrong" % (count, wrong))
    sys.exit(1 if wrong or not count else 0)


if __name__ == "__main__":
    main(sys.argv[1:])
