#!/usr/bin/env python3
"""Hold what is read of a description in pieces, one after the other and by workers, to what is read of it whole.

usage: pieces.py [--proved] COUNT [SEED [FIRST]]
       pieces.py [--proved] --places

Takes the random descriptions of the numbers FIRST to FIRST + COUNT - 1, nine in ten of them small and of several groups, or the texts of
small descriptions that are changed at every place. Reads each one whole, and in pieces of at least 1, 64, 100, 256 and 1,024 bytes, one
after the other and by 0, 1, 2, 4 and 8 workers, and shows each one on which what was read, or the fault, isn't the same. A size that cuts a
text as a smaller one did isn't tried again. Says at its end how many texts were cut, how many readings there were, and how often pieces
gave the answer: where they give none a text is read whole. Ends with 1 where something differs or the program that reads didn't end well.

The readers are public calls of crates/lk_input whose pieces have the size that is asked for. A small program (in_pieces/main.txt) calls
them: a copy of the crates below it is made for it, and `rt try` builds and runs it there, all texts in a few runs. That proves nothing and
takes two processor minutes, and then some 10 microseconds for each byte that is read, since `rt try` also looks whether each step is a
sound one. In the copy, lk_input also tells where a text is cut and whether pieces give the answer (in_pieces/counted.txt).

With --proved lk_input stays as it is, and `rt run` proves the program, which takes some three processor minutes, and builds it, so that it
runs at full speed. Nothing is told of cuts then, and all readers try all sizes. What `rt` has built of the crates, in crates/*/out/rlib, is
copied, too; the rest is proved first.
"""

import collections
import itertools
import pathlib
import re
import shutil
import subprocess
import sys
import tempfile
from collections.abc import Iterator

import cases
from cases.places import DESCRIPTIONS, GROUPED, changed_at_every_place

HERE = pathlib.Path(__file__).resolve().parent
ROOT = HERE.parent
NAME = "lk_reads_in_pieces"
NEEDED = ("lk_devices", "lk_link", "lk_input", "lk_test_rows")
EXPORTED = "pub use %s::{is_read_in_turn, piece_lengths};\n"
SUMMARY = "lk_read_tests/src/reading/summary.rt"
# One random description in so many is one of those of compare.py, some of which are long.
OTHER_KIND = 10
# How many bytes of texts one run reads at most, by `rt try` or by the proved program.
BATCH = 200_000
PROVED_BATCH = 8_000_000
# For how many seconds one run of `rt try` lasts at most. Its other way to run a program is of no use here.
SECONDS = 3600
STEPS = 1000
MOST_SHOWN = 2000
CUTS = (
    ", %(cut)d of them cut, %(cut_twice)d into three pieces or more; %(cuttings)d ways to cut them, of which "
    "%(answered)d gave the answer in pieces"
)

Text = tuple[str, bytes]


def crates_below(names: tuple[str, ...]) -> dict[str, list[str]]:
    """The crates of the repository that these stand on, and these, each with what it stands on."""
    lines = [line.partition(":") for line in (ROOT / "crates.txt").read_text().splitlines() if not line.startswith("#")]
    listed = {name: below.split() for name, _, below in lines}
    wanted, found = list(names), {}
    while wanted:
        name = wanted.pop()
        if name in listed and name not in found:
            found[name] = listed[name]
            wanted += listed[name]
    return found


def copy_crate(name: str, to: pathlib.Path, proved: bool) -> None:
    """Copies a crate, and what is built of it where it is to be proved."""
    folder, copy = ROOT / "crates" / name, to / "crates" / name
    shutil.copytree(folder, copy, ignore=shutil.ignore_patterns("out", "must-fail"))
    if proved and (folder / "out" / "rlib").is_dir():
        shutil.copytree(folder / "out" / "rlib", copy / "out" / "rlib")


def tell_cuts(source: pathlib.Path) -> None:
    """Lets this copy of lk_input tell where a text is cut and whether pieces give the answer."""
    for file, more in (("read.rt", (HERE / "in_pieces" / "counted.txt").read_text()), ("lib.rt", EXPORTED % "read")):
        with open(source / file, "a", encoding="utf-8") as at:
            at.write(more)


def make_crates(to: pathlib.Path, proved: bool) -> pathlib.Path:
    """Copies these crates, with what lk_input is to tell unless it is proved, and puts the program beside them; its folder."""
    crates = {**crates_below(NEEDED), NAME: list(NEEDED)}
    for name in crates:
        if name != NAME:
            copy_crate(name, to, proved)
    shutil.copy(ROOT / "HANDLES", to)
    (to / "crates.txt").write_text("".join("%s: %s\n" % (name, " ".join(below)) for name, below in crates.items()))
    folder = to / "crates" / NAME
    (folder / "src").mkdir(parents=True)
    shutil.copy(HERE / "in_pieces" / "main.txt", folder / "src" / "main.rt")
    shutil.copy(ROOT / "crates" / SUMMARY, folder / "src")
    if proved:
        shutil.copy(HERE / "in_pieces" / "untold.txt", folder / "src" / "cuts.rt")
    else:
        tell_cuts(to / "crates" / "lk_input" / "src")
        (folder / "src" / "cuts.rt").write_text(EXPORTED % "lk_input")
    return folder


def batches(texts: Iterator[Text], most: int) -> Iterator[list[Text]]:
    """The texts in rows that one run reads, of so many bytes at most."""
    batch, size = [], 0
    for name, data in texts:
        if batch and size + len(data) > most:
            yield batch
            batch, size = [], 0
        batch.append((name, data))
        size += len(data)
    if batch:
        yield batch


def write_batches(folder: pathlib.Path, texts: Iterator[Text], most: int) -> dict[str, list[Text]]:
    """Writes a file for each run, in which a line with its length stands before each text; the texts by file."""
    written = {}
    for number, batch in enumerate(batches(texts, most)):
        written["%05d" % number] = batch
        (folder / ("%05d" % number)).write_bytes(b"".join(b"%d\n%s" % (len(data), data) for _, data in batch))
    return written


def run_all(crate: pathlib.Path, folder: pathlib.Path) -> tuple[bool, str]:
    """Builds the program and runs it on each file of a folder, with a line on standard error behind each run; whether all ended well, and
    what they wrote."""
    command = ["rt", "try", "--steps", str(STEPS), "--seconds", str(SECONDS), "--cases", str(folder)]
    run = subprocess.run(command, cwd=crate, stdin=subprocess.DEVNULL, stdout=subprocess.PIPE, check=False)
    return run.returncode == 0, run.stdout.decode(errors="replace")


def run_proved(crate: pathlib.Path, folder: pathlib.Path) -> tuple[bool, str]:
    """The same by the program as it is proved and built, up to the first run that doesn't end well."""
    said = ""
    for file in sorted(folder.iterdir()):
        with open(file, "rb") as batch:
            run = subprocess.run(["rt", "run"], cwd=crate, stdin=batch, stdout=subprocess.PIPE, check=False)
        said += "== %s\n%s" % (file.name, run.stdout.decode(errors="replace"))
        if run.returncode:
            return False, said
    return True, said


def show(name: str, data: bytes, line: str) -> None:
    print("%s, %s, text of %d bytes:" % (name, line, len(data)))
    print(data.decode("utf-8", "replace")[:MOST_SHOWN])


def told(said: str, written: dict[str, list[Text]]) -> collections.Counter:
    """Shows what differs, and adds up the counts of all runs."""
    counts, batch = collections.Counter(), []
    for line in said.splitlines():
        found = re.fullmatch("== ([0-9]+)", line)
        if found:
            batch = written[found[1]]
        elif line.startswith("Counts {"):
            counts.update({name: int(count) for name, count in re.findall("([a-z_]+): ([0-9]+)", line)})
        elif line.startswith("different "):
            show(*batch[int(line.split()[1])], line)
        else:
            print(line)
    return counts


def hold(texts: Iterator[Text], proved: bool) -> bool:
    """Holds all readings of these texts to those of the whole; whether none differs."""
    with tempfile.TemporaryDirectory(prefix="pieces-") as room:
        crate = make_crates(pathlib.Path(room), proved)
        folder = pathlib.Path(room) / "batches"
        folder.mkdir()
        written = write_batches(folder, texts, PROVED_BATCH if proved else BATCH)
        ended, said = (run_proved if proved else run_all)(crate, folder)
    counts = told(said, written)
    cuts = "" if proved else CUTS
    print(("%(texts)d texts" + cuts + "; %(readings)d readings, %(different)d different") % collections.defaultdict(int, counts))
    return ended and counts["texts"] == sum(map(len, written.values())) and not counts["different"]


def random_texts(count: int, seed: int = 0, first: int = 0) -> Iterator[Text]:
    for number in range(first, first + count):
        make = cases.cut_case if number % OTHER_KIND else cases.case
        yield "random %d:%d" % (seed, number), make(seed, number)


def texts_by_places() -> Iterator[Text]:
    for number, data in enumerate(itertools.chain(*map(changed_at_every_place, (DESCRIPTIONS, GROUPED)))):
        yield "places %d" % number, data


def main(words: list[str]) -> None:
    proved = words[:1] == ["--proved"]
    words = words[int(proved) :]
    if words == ["--places"]:
        texts = texts_by_places()
    elif 1 <= len(words) <= 3 and all(word.isdigit() for word in words):
        texts = random_texts(*map(int, words))
    else:
        sys.exit(__doc__)
    sys.exit(0 if hold(texts, proved) else 1)


if __name__ == "__main__":
    main(sys.argv[1:])
