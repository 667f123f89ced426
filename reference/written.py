"""Examples that are written down: an input and, below it, the bytes that it is to give.

In known/*.txt a line with a # is a remark. `words [..]` and `status N` say which words the program
gets, and which status it is to end with, from there to the end of the file; without the first the
words are `layout 0`. Words that begin with -- are the reference's own. Each other block of lines, up to
the next empty one, is an example: the line of its input, and the lines of its text. In an input,
"«65 of X»" stands for 65 times X with commas between, and `quoted` before a JSON text says that the
input is what the text says. In a text, `bytes` before hexadecimal digits stands for these bytes, without the end of a line.

In documents an example is an indented line that is a JSON list or object, followed by the indented
lines of its text; a "·" is a space at the end of a line, and what follows it a remark. In examples/
the description and the text are files of the same name: the report, or a text whose first line is the words, or the image; and a
map and what is told of it.
"""

import collections
import json
import os
import re

from rules.refusal import LAID_OUT, REFUSED, UNREADABLE

HERE = os.path.dirname(os.path.abspath(__file__))
TOP = os.path.dirname(HERE)
DOCUMENTS = ("FORMAT.md", "DECISIONS.md")
LAYOUT_WORDS = ["layout", "0"]
IMAGE_WORDS = ["image", "0"]
INDENT = " " * 4
BYTES = "bytes "
UNREADABLE_STARTS = (b"not JSON", b"not a link description:", b"not a map:", b"input is longer")
DONE_STARTS = (b"layout\n", b"why ", b"map ok:")


class Example(collections.namedtuple("Example", "place words data status text")):
    def is_own(self):
        """Whether its words are those of the reference alone."""
        return self.words[:1] and self.words[0].startswith("--")



def lines_of(path):
    """The lines of a file, without their ends, each with its number."""
    with open(path, encoding="utf-8") as file:
        yield from enumerate(file.read().split("\n"), 1)


def told(line):
    """The bytes that a line of a text stands for."""
    return bytes.fromhex(line[len(BYTES) :]) if line.startswith(BYTES) else line.encode() + b"\n"


def joined(lines):
    return b"".join(map(told, lines))


# Known answers


def input_of(line):
    """The input that a line stands for."""
    kind, _, text = line.partition(" ")
    if kind == "quoted":
        return json.loads(text)
    return re.sub("«([0-9]+) of ([^»]*)»", lambda found: ",".join([found[2]] * int(found[1])), line)


def known_examples(path):
    """The examples of a file of known answers."""
    words, status, block, first = LAYOUT_WORDS, None, [], 0
    for number, line in lines_of(path):
        if line == "" and block:
            place = "%s:%d" % (os.path.relpath(path, TOP), first)
            yield Example(place, words, input_of(block[0]), status, joined(block[1:]))
            block = []
        elif block:
            block.append(line)
        elif line.startswith("words "):
            words = json.loads(line[len("words ") :])
        elif line.startswith("status "):
            status = int(line[len("status ") :])
        elif line != "" and not line.startswith("#"):
            block, first = [line], number


# Examples in documents and beside them


def laid_down(place, data, text, words=LAYOUT_WORDS):
    """An example with this text."""
    return Example(place, words, data, LAID_OUT if words == IMAGE_WORDS else status_of(text), text)


def status_of(text):
    """The status that goes with a text."""
    if text.startswith(DONE_STARTS):
        return LAID_OUT
    return UNREADABLE if text.startswith(UNREADABLE_STARTS) else REFUSED


def document_examples(path):
    """The examples of a document."""
    data, first, text = None, 0, []
    for number, line in lines_of(path):
        indented = line[len(INDENT) :] if line.startswith(INDENT) else ""
        begins = indented.startswith(("{", "["))
        if text and (begins or indented == ""):
            place = "%s:%d" % (os.path.relpath(path, TOP), first)
            yield laid_down(place, data, joined(text))
        if begins:
            data, first, text = indented, number, []
        elif indented == "":
            data, text = None, []
        elif data is not None:
            line_text, space, _ = indented.partition("·")
            text.append(line_text + " " if space else line_text)


def bytes_of(path):
    """The bytes of a file."""
    with open(path, "rb") as file:
        return file.read()


def words_for(ending, text):
    """The words that give a text in a file with this ending."""
    if ending == ".why":
        return text.split(b"\n")[0].decode().split(" ")
    return ENDINGS.get(ending, LAYOUT_WORDS)


# The ending of a file with a text, and that of its input; and the words, where they are neither those of a report nor in the text.
INPUTS = {".report": ".json", ".why": ".json", ".image": ".json", ".checked": ".map"}
ENDINGS = {".checked": ["check"], ".image": IMAGE_WORDS}


def file_examples(folder):
    """The texts of a folder, each with the input of the same name."""
    for name in sorted(os.listdir(folder)):
        start, ending = os.path.splitext(name)
        if ending in INPUTS:
            path = os.path.join(folder, name)
            text = bytes_of(path)
            data = bytes_of(os.path.join(folder, start + INPUTS[ending])).decode()
            yield laid_down(os.path.relpath(path, TOP), data, text, words_for(ending, text))


def all_examples():
    """Known answers, and the examples of the documents and beside them."""
    known = os.path.join(HERE, "known")
    for name in sorted(os.listdir(known)):
        yield from known_examples(os.path.join(known, name))
    for name in DOCUMENTS:
        yield from document_examples(os.path.join(TOP, "docs", name))
    yield from file_examples(os.path.join(TOP, "examples"))
