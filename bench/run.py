#!/usr/bin/env python3
"""Measure the program on generated descriptions, and print ratios.

usage: run.py [--merges|--named|--thunks|--relaxed|--plans] [PROGRAM [MEGABYTES..]]
       run.py --long [PROGRAM]
       run.py --memory [PROGRAM]
       run.py --workers [PROGRAM [MEGABYTES [ROUNDS [SHAPE..]]]]
       run.py --generated [PROGRAM]
       run.py --maps [PROGRAM]
       run.py --why [PROGRAM]
       run.py --images [PROGRAM]

PROGRAM is crates/lk_program/out/lk_program unless given, the sizes are 1, 10 and 100 MB. Each
description is given to the program in three ways, several times: by the words `why` and a section that isn't there, so that it is read
and checked and no more; by `layout 0`; and by that, but whole as a member that isn't known, so that it is parsed and let go. The run fails where an answer isn't of the kind that is wanted or two runs
over the same bytes differ. Seconds are processor seconds, the least of the runs. None of them is judged:
each is set against others of the same run.

With --merges, the descriptions are of strings that are merged, and little else; with --named of sections that go
by their names; with --thunks of branches that don't reach; with --relaxed of code that is shortened. With --plans
they have many output sections that the plan moves.

With --long, each description has one list that is as long as it may be, or millions long. The run fails
where the program crashes, runs out of its stack of 8 MB or answers something else.

With --memory, glibc counts what the program holds of memory over some descriptions of 10 MB, or of as much of
it as the limit of output sections lets there be.

With --workers, each description of 100 MB is laid out by 0, 2 and 4 workers in turn, in several rounds, and what comes after
reading is set against that of 0 workers in the same round. The run fails where they give other bytes. It wants a C compiler.

With --generated, the words `gen` are set against `layout 0` over the description of the same link.

With --maps, the word `check` is set against `wc -l` over the same map.

With --why, the words `why` ask for one unit of a link, and what comes after reading is set against parsing. The run fails where the unit
isn't told.

With --images, the words `image 0` write long images to nowhere, and what comes behind the layout is set against a plain copy of as many bytes
into new memory. The run fails where an image has another length.
"""

import hashlib
import math
import os
import resource
import subprocess
import sys
import tempfile
import time

import against_serde
import generated
import images
import long_lists
import maps
import memory
import why
import workers as by_workers
from merges import MERGES
from named import NAMED
from plans import PLANS
from relaxed import RELAXED
from thunked import THUNKED

HERE = os.path.dirname(os.path.abspath(__file__))
DEFAULT_PROGRAM = os.path.join(HERE, "..", "crates", "lk_program", "out", "lk_program")
DEFAULT_MEGABYTES = (1, 10, 100)
SHAPE_MEGABYTES = (1, 4)
LARGE_SHAPES = ("objects", "linked", "real", "grouped", "tabled", "whole", "chain", "star", "exports", "candidates")
PLAN_MEGABYTES = (1, 4, 16)
SMALL_SHAPES = ("plan", "files", "single")
RUNS, MOST_RUNS, SMALL_BYTES = 3, 7, 5_000_000
BLOCK = 1 << 20
LONGEST_START = 100
STACK_BYTES = 8 << 20

# Words by which a description is read and checked, and no more, and how the answer begins.
READ_WORDS = ("why", "4294967295", "4294967295", "4294967295")
READ_ANSWER = b"no such section: "
LAID_OUT_ANSWER = b"layout\n"
# What stands round a description that is parsed and let go.
PARSED_START = b'{"unknown":'
PARSED_ENDING = b',"plan":{"page":1},"groups":[[{"kind":"prelude"}]]}'
PARSED_ANSWER = b"layout\nentry -\nend\n"
# What a layout may take after reading, beside its report.
BYTES_OF_SECTION, BYTES_OF_SYMBOL = 16, 24

FIRST_COLUMN = ("description", -16)
LAID_OUT_COLUMNS = (
    *(("seconds", 8), ("ms/MB", 7), ("growth", 7), ("x wc -l", 8), ("read", 6), ("the rest", 9)),
    *(("peak", 8), ("output", 7)),
)
LAID_OUT_LEGEND = """\
growth: the power of the size by which the seconds grow, 1 is linear; read, the rest: parts of the
seconds; peak and output: multiples of the size
"""
REST_COLUMNS = (
    *(("parse", 7), ("growth", 7), ("read/parse", 11), ("rest", 7), ("growth", 7), ("rest/parse", 11)),
    ("peak/parse", 11),
)
REST_LEGEND = """\
parse: ms/MB of making one JSON value of the whole text; rest: ms/MB of all after reading; growth: the powers
of the size by which they grow; peak/parse: the peak memory as a multiple of that of parsing. Aim: rest/parse
at most 0.25, where strings are merged 0.2.
"""
MEMORY_COLUMNS = (
    *(("MB", 6), ("sections", 9), ("symbols", 9), ("reading", 8), ("read", 6), ("after", 7)),
    *(("of 16+24", 9), ("room", 6), ("peak", 6)),
)
MEMORY_LEGEND = """\
reading, read, peak: the most that is held while reading, the description, and the most of all, as multiples
of the size; after: what is held beside the description before the report is made, in MB, and as a part of 16
bytes for each section and 24 for each symbol; room: that of the report, as a multiple of it. Aim: of 16+24
at most 1.
"""
MEMORY_BYTES = 10_000_000
# How the placement of a symbol begins; the load address of an output section has the same key.
SYMBOL_PLACES = tuple(b'"at":["%s"' % kind for kind in (b"sec", b"common", b"abs", b"undef", b"dyn"))
GENERATED_COLUMNS = (("MB", 6), ("layout", 8), ("gen", 8), ("growth", 7), ("gen/layout", 11), ("peak MB", 8), ("peak/layout", 12))
GENERATED_LEGEND = """\
MB: of the description; layout, gen: seconds; growth: the power of the number of objects by which those of gen
grow; peak: of gen. Aim: gen/layout at most 0.3 at 100,000 objects.
"""

MAP_COLUMNS = (("MB", 6), ("seconds", 8), ("ms/MB", 7), ("growth", 7), ("x wc -l", 8), ("beside", 8), ("a line", 7))
MAP_LEGEND = """\
growth: the power of the number of lines by which seconds grow, from a tenth of them; beside: the peak memory that is more than the
text, in MB; a line: the bytes of it for each line of a section or a segment. Aim: at most 12 times `wc -l`, and 64 bytes a line.
"""

WHY_COLUMNS = (("MB", 6), ("parse", 7), ("read/parse", 11), ("rest", 7), ("growth", 7), ("rest/parse", 11), ("beside", 7))
WHY_LEGEND = """\
parse: ms/MB of making one JSON value of the whole text; rest: ms/MB of all after reading; growth: the power of the number of
sections by which it grows, from a tenth of them; beside: the peak memory that is more than that of reading, in MB. Aim: rest/parse
at most 0.15.
"""

IMAGE_COLUMNS = (("MB", 6), ("image", 7), ("seconds", 8), ("behind", 7), ("a copy", 7), ("ratio", 6), ("beside", 7), ("of it", 6))
IMAGE_LEGEND = """\
MB: of the description; image: its MB; behind: the seconds behind the layout, by a run that is refused there; a copy: those of a plain copy
of the image's bytes into new memory; beside: the peak memory that is more than that of the refused run, in MB, and as a part of the
image. Aim: ratio at most 1.3, of it at most 1.
"""

BASELINE_COLUMNS = (("ours", 7), ("serde", 7), ("ratio", 6), ("peak MB", 8), ("serde MB", 9), ("ratio", 6))
BASELINE_LEGEND = """\
ours, serde: processor seconds of reading a description of 100 MB, ours with its check and the answer that a section isn't there;
then the peak memory. Aim: 0.95 of serde's seconds, 1.1 for tenth, and 0.85 of its memory.
"""

WORKERS_COLUMNS = (
    ("workers", 7), ("clock", 6), ("of 0 in its round", 18), ("seconds", 8),
    ("rest", 6), ("of 0 in its round", 18), ("seconds", 8), ("peak", 6), ("of 0", 6),
)
WORKERS_LEGEND = """\
clock: seconds by the clock, the least of all rounds; of 0 in its round: the clock as a part of that with 0 workers in the same
round, the least, the middle and the greatest; seconds: those of all processors likewise, the middle; rest: the least of the clock
after reading, and then the same two of it; peak: memory in MB.
"""

LONG_COLUMNS = (("items", 9), ("MB", 6), ("seconds", 8), ("ms/MB", 7), ("peak MB", 8), ("peak", 6))


class Measured:
    """One run of a command: its status, seconds by the clock and of processors, peak memory, and output."""

    def __init__(self, status, clock, usage, output):
        self.status, self.clock = status, clock
        self.seconds = usage.ru_utime + usage.ru_stime
        self.peak = usage.ru_maxrss * 1024
        digest = hashlib.sha256()
        with open(output, "rb") as file:
            self.start = file.read(LONGEST_START)
            digest.update(self.start)
            while block := file.read(BLOCK):
                digest.update(block)
        self.digest, self.written = digest.digest(), os.path.getsize(output)


def limit_stack():
    """The stack that programs have on most systems, whatever this one gives."""
    _, most = resource.getrlimit(resource.RLIMIT_STACK)
    resource.setrlimit(resource.RLIMIT_STACK, (STACK_BYTES, most))


def measure(command, path, output, environment=None):
    """Runs a command over a file; its output goes to another file."""
    with open(path, "rb") as source, open(output, "wb") as sink:
        start = time.monotonic()
        child = subprocess.Popen(command, stdin=source, stdout=sink, preexec_fn=limit_stack, env=environment)
        _, status, usage = os.wait4(child.pid, 0)
        clock = time.monotonic() - start
        child.returncode = os.waitstatus_to_exitcode(status)
    return Measured(child.returncode, clock, usage, output)


def best(command, path, output, wanted):
    """The fastest of several runs, which must give the same bytes, with this beginning."""
    count = MOST_RUNS if os.path.getsize(path) < SMALL_BYTES else RUNS
    runs = [measure(command, path, output) for _ in range(count)]
    for run in runs:
        if not run.start.startswith(wanted):
            sys.exit("%s: status %d, %r" % (command, run.status, run.start))
    if len({(run.status, run.digest) for run in runs}) != 1:
        sys.exit("%s: two runs over the same bytes gave different ones" % command)
    return min(runs, key=lambda run: run.seconds)


def generate(path, total, shape):
    command = [sys.executable, os.path.join(HERE, "generate.py"), str(total), "0", shape]
    with open(path, "wb") as file:
        subprocess.run(command, stdout=file, check=True)


def surround(path, start, ending, target):
    """Writes a file with something before it and behind it."""
    with open(path, "rb") as source, open(target, "wb") as sink:
        sink.write(start)
        while block := source.read(BLOCK):
            sink.write(block)
        sink.write(ending)


def count_texts(path, *texts):
    """How often each of these texts stands in a file, of which no line is long."""
    with open(path, "rb") as file:
        counts = [0] * len(texts)
        for line in file:
            for place, text in enumerate(texts):
                counts[place] += line.count(text)
    return counts


def power(later, earlier):
    """The power of the size by which something grows; each of the two is an amount and a size."""
    if later[0] <= 0 or earlier[0] <= 0:
        return "-"
    return "%.2f" % (math.log(later[0] / earlier[0]) / math.log(later[1] / earlier[1]))


class Stages:
    """The processor seconds of what the program does with one description, one stage after the other."""

    def __init__(self, series, megabytes):
        path, output = series.path, series.output
        command = [series.program, "layout", "0"]
        generate(path, megabytes * 1_000_000, series.shape)
        self.size = os.path.getsize(path)
        self.lines = best(["wc", "-l"], path, output, b"")
        self.whole = best(command, path, output, LAID_OUT_ANSWER)
        around = path + ".around"
        surround(path, PARSED_START, PARSED_ENDING, around)
        self.parsed = best(command, around, output, PARSED_ANSWER)
        os.remove(around)
        self.read = best([series.program, *READ_WORDS], path, output, READ_ANSWER)
        self.reading = self.read.seconds
        self.rest = self.whole.seconds - self.reading


class Series:
    """Descriptions of one shape and of rising sizes."""

    def __init__(self, program, folder, shape):
        self.program, self.shape = program, shape
        self.path, self.output = os.path.join(folder, "description"), os.path.join(folder, "output")
        # A child's peak is never below that of the process which started it.
        self.floor = measure(["true"], os.devnull, self.output).peak
        self.before = None

    def peak_text(self, peak, size):
        """A multiple of the size, or a bound where the measuring itself took as much."""
        return "%s%.2f" % ("<" if peak <= 1.05 * self.floor else "", peak / size)

    def growth(self, stages, *names):
        """The powers by which these grew since the size before."""
        if self.before is None:
            return "-"
        earlier = self.before
        amounts = [((get(stages), stages.size), (get(earlier), earlier.size)) for get in names]
        return " ".join(power(*pair) for pair in amounts)

    def laid_out_row(self, stages):
        seconds = stages.whole.seconds
        parts = (stages.reading, stages.rest)
        return (
            "%.3f" % seconds,
            "%.1f" % (seconds * 1e9 / stages.size),
            self.growth(stages, lambda of: of.whole.seconds),
            "%.0f" % (seconds / stages.lines.seconds),
            *("%.0f%%" % (100 * part / seconds) for part in parts),
            self.peak_text(stages.whole.peak, stages.size),
            "%.2f" % (stages.whole.written / stages.size),
        )

    def rest_row(self, stages):
        parsing = stages.parsed.seconds
        return (
            "%.1f" % (parsing * 1e9 / stages.size),
            self.growth(stages, lambda of: of.parsed.seconds),
            "%.2f" % (stages.reading / parsing),
            "%.1f" % (stages.rest * 1e9 / stages.size),
            self.growth(stages, lambda of: of.rest),
            "%.2f" % (stages.rest / parsing),
            "%s%.2f" % (
                "<" if stages.whole.peak <= 1.05 * self.floor else "",
                stages.whole.peak / stages.parsed.peak,
            ),
        )

    def stages(self, sizes):
        """What was measured at each size; the one before stands in `before` meanwhile."""
        for megabytes in sizes:
            stages = Stages(self, megabytes)
            yield stages
            self.before = stages


def print_line(columns, words):
    widths = [width for _, width in (FIRST_COLUMN, *columns)]
    print(" ".join("%*s" % pair for pair in zip(widths, words)), flush=True)


def print_headings(columns):
    print_line(columns, [heading for heading, _ in (FIRST_COLUMN, *columns)])


def print_table(columns, legend, series, sizes_of, row, *later_rows):
    """A line for each size of each series; answers the lines of other tables on the same runs."""
    print_headings(columns)
    later = [[] for _ in later_rows]
    for one in series:
        for stages in one.stages(sizes_of(one.shape)):
            name = "%s %d MB" % (one.shape, round(stages.size / 1e6))
            print_line(columns, (name, *row(one, stages)))
            for lines, later_row in zip(later, later_rows):
                lines.append((name, *later_row(one, stages)))
    print(legend)
    return later


def long_row(program, path, output, long_list):
    """One run over a description with a long list; ends with 1 where the answer isn't the wanted one."""
    with open(path, "wb") as stream:
        long_lists.put(stream, long_list)
    size = os.path.getsize(path)
    run = measure([program, "layout", "0"], path, output)
    if not run.start.startswith(long_list.wanted.encode()):
        sys.exit("%s: status %d, %r" % (long_list.name, run.status, run.start))
    return (
        long_list.count,
        "%.1f" % (size / 1e6),
        "%.2f" % run.seconds,
        "%.1f" % (run.seconds * 1e9 / size),
        "%.0f" % (run.peak / 1e6),
        "%.1f" % (run.peak / size),
    )


def measure_long_lists(program, folder):
    path, output = os.path.join(folder, "description"), os.path.join(folder, "output")
    print_headings(LONG_COLUMNS)
    for long_list in long_lists.LONG_LISTS:
        print_line(LONG_COLUMNS, (long_list.name, *long_row(program, path, output, long_list)))


def memory_row(program, folder, shape):
    """What the program holds over one description."""
    path, output = os.path.join(folder, "description"), os.path.join(folder, "output")
    generate(path, MEMORY_BYTES, shape)
    size = os.path.getsize(path)
    sections, *placed = count_texts(path, b'"slot":', *SYMBOL_PLACES)
    symbols = sum(placed)
    held = memory.held([program, "layout", "0"], path, output, os.path.join(folder, "trace"))
    return (
        "%.1f" % (size / 1e6),
        sections,
        symbols,
        "%.2f" % (held.reading / size),
        "%.2f" % (held.description / size),
        "%.2f" % (held.before_report / 1e6),
        "%.2f" % (held.before_report / (BYTES_OF_SECTION * sections + BYTES_OF_SYMBOL * symbols)),
        "%.1f" % (held.report / os.path.getsize(output)),
        "%.2f" % (held.all / size),
    )


def measure_memory(program, folder):
    print_headings(MEMORY_COLUMNS)
    for shape in (*LARGE_SHAPES, *PLANS):
        print_line(MEMORY_COLUMNS, (shape, *memory_row(program, folder, shape)))
    print(MEMORY_LEGEND)


def measure_baseline(program, folder):
    baseline = against_serde.build(folder)
    if baseline is None:
        sys.exit("cargo can't build the other program here; Debian's packages for it: " + against_serde.PACKAGES)
    path, output = os.path.join(folder, "description"), os.path.join(folder, "output")
    print_headings(BASELINE_COLUMNS)
    for shape in against_serde.SHAPES:
        generate(path, against_serde.MEGABYTES * 1_000_000, shape)
        theirs = best([baseline], path, output, b"")
        ours = best([program, *READ_WORDS], path, output, READ_ANSWER)
        line = (
            *("%.2f" % run.seconds for run in (ours, theirs)),
            "%.2f" % (ours.seconds / theirs.seconds),
            *("%.0f" % (run.peak / 1e6) for run in (ours, theirs)),
            "%.2f" % (ours.peak / theirs.peak),
        )
        print_line(BASELINE_COLUMNS, (shape, *line))
    print(BASELINE_LEGEND)


def worker_rows(program, path, output, timer, count):
    """A row for each number of workers over a description, which all have to answer alike."""
    def by(workers):
        run = measure([program, "layout", str(workers)], path, output, timer.environment)
        if not run.start.startswith(LAID_OUT_ANSWER):
            sys.exit("layout %d: status %d, %r" % (workers, run.status, run.start))
        run.rest, run.processors = timer.last()
        return run

    by_number, runs = by_workers.rounds(by, count)
    if len({run.digest for run in runs}) != 1:
        sys.exit("two numbers of workers gave different bytes")
    alone = by_number[0]
    for workers, some in by_number.items():
        yield (
            workers,
            "%.2f" % some.clock,
            "%.2f, %.2f, %.2f" % some.clock_of_alone,
            "%.2f" % some.seconds_of_alone,
            "%.2f" % some.rest,
            "%.2f, %.2f, %.2f" % some.rest_of_alone,
            "%.2f" % some.rest_seconds_of_alone,
            "%.0f" % (some.peak / 1e6),
            "%.2f" % (some.peak / alone.peak),
        )


def measure_workers(program, folder, megabytes=by_workers.MEGABYTES, count=by_workers.ROUNDS, *shapes):
    path, output = os.path.join(folder, "description"), os.path.join(folder, "output")
    library = by_workers.compiled(folder)
    print_headings(WORKERS_COLUMNS)
    for shape in shapes or by_workers.SHAPES:
        generate(path, int(megabytes) * 1_000_000, shape)
        for row in worker_rows(program, path, output, by_workers.Timer(library, path), int(count)):
            print_line(WORKERS_COLUMNS, (shape, *row))
    print(WORKERS_LEGEND)


def measure_generated(program, folder):
    path, nothing, output = (os.path.join(folder, name) for name in ("description", "nothing", "output"))
    open(nothing, "wb").close()
    print_headings(GENERATED_COLUMNS)
    before = None
    for size in generated.SIZES:
        generated.put(path, size)
        words = ["gen", str(generated.SEED), str(size)]
        told = best([program, *words], nothing, output, " ".join(words).encode())
        laid_out = best([program, "layout", "0"], path, output, b"layout\n")
        growth = math.log(told.seconds / before[1], size / before[0]) if before else None
        before = size, told.seconds
        line = (
            "%.1f" % (os.path.getsize(path) / 1e6),
            "%.3f" % laid_out.seconds,
            "%.3f" % told.seconds,
            "" if growth is None else "%.2f" % growth,
            "%.2f" % (told.seconds / laid_out.seconds),
            "%.0f" % (told.peak / 1e6),
            "%.2f" % (told.peak / laid_out.peak),
        )
        print_line(GENERATED_COLUMNS, ("%d objects" % size, *line))
    print(GENERATED_LEGEND)


def measure_maps(program, folder):
    path, output = os.path.join(folder, "map"), os.path.join(folder, "output")
    print_headings(MAP_COLUMNS)
    for shape, (counts, wanted) in maps.MAPS.items():
        before = None
        for count in counts:
            lines = maps.put(path, shape, count)
            size = os.path.getsize(path)
            checked, counted = best([program, "check"], path, output, wanted), best(["wc", "-l"], path, output, b"")
            growth = power((checked.seconds, count), before) if before else ""
            before = checked.seconds, count
            line = (
                "%.1f" % (size / 1e6),
                "%.2f" % checked.seconds,
                "%.1f" % (checked.seconds * 1e9 / size),
                growth,
                "%.1f" % (checked.seconds / counted.seconds),
                "%.1f" % ((checked.peak - size) / 1e6),
                "%.0f" % ((checked.peak - size) / lines),
            )
            print_line(MAP_COLUMNS, ("%s %d" % (shape, count), *line))
    print(MAP_LEGEND)


def why_rests(program, path, output, shape):
    """For each size of a shape the number of sections, the description's bytes, and what parsing, reading and the whole took."""
    for count in why.WHY[shape]:
        words = [program, *why.put(program, path, shape, count)]
        size = os.path.getsize(path)
        whole = best(words, path, output, b"")
        if whole.status != 0:
            sys.exit("%s: status %d, %r" % (words, whole.status, whole.start))
        around = path + ".around"
        surround(path, PARSED_START, PARSED_ENDING, around)
        parsed = best([program, "layout", "0"], around, output, PARSED_ANSWER)
        os.remove(around)
        yield count, size, parsed, best([program, *READ_WORDS], path, output, READ_ANSWER), whole


def measure_why(program, folder):
    path, output = os.path.join(folder, "description"), os.path.join(folder, "output")
    print_headings(WHY_COLUMNS)
    for shape in why.WHY:
        before = None
        for count, size, parsed, read, whole in why_rests(program, path, output, shape):
            rest = whole.seconds - read.seconds
            growth = power((rest, count), before) if before else ""
            before = rest, count
            line = (
                "%.1f" % (size / 1e6),
                "%.1f" % (parsed.seconds * 1e9 / size),
                "%.2f" % (read.seconds / parsed.seconds),
                "%.1f" % (rest * 1e9 / size),
                growth,
                "%.2f" % (rest / parsed.seconds),
                "%.1f" % ((whole.peak - read.peak) / 1e6),
            )
            print_line(WHY_COLUMNS, ("%s %d" % (shape, count), *line))
    print(WHY_LEGEND)


def measure_images(program, folder):
    path, output, nowhere = os.path.join(folder, "description"), os.path.join(folder, "output"), os.devnull
    words = [program, "image", "0"]
    print_headings(IMAGE_COLUMNS)
    for shape in images.IMAGES:
        images.put(path, shape, True)
        refused = best(words, path, output, images.REFUSED_ANSWER)
        length = images.put(path, shape, False)
        written = measure(words, path, output)
        if (written.status, written.written) != (0, length):
            sys.exit("%s: status %d, %d bytes" % (words, written.status, written.written))
        whole, copy = best(words, path, nowhere, b""), images.copy_seconds(length)
        behind = whole.seconds - refused.seconds
        line = (
            "%.1f" % (os.path.getsize(path) / 1e6),
            "%.1f" % (length / 1e6),
            "%.2f" % whole.seconds,
            "%.3f" % behind,
            "%.3f" % copy,
            "%.2f" % (behind / copy),
            "%.1f" % ((whole.peak - refused.peak) / 1e6),
            "%.2f" % ((whole.peak - refused.peak) / length),
        )
        print_line(IMAGE_COLUMNS, (shape, *line))
    print(IMAGE_LEGEND)


SPECIAL_SHAPES = {"--merges": MERGES, "--named": NAMED, "--plans": PLANS, "--thunks": THUNKED, "--relaxed": RELAXED}
OTHER_MEASURES = {
    "--long": measure_long_lists,
    "--memory": measure_memory,
    "--generated": measure_generated,
    "--workers": measure_workers,
    "--baseline": measure_baseline,
    "--maps": measure_maps,
    "--why": measure_why,
    "--images": measure_images,
}


def main(words):
    if words and words[0] in OTHER_MEASURES:
        with tempfile.TemporaryDirectory() as folder:
            program, *more = words[1:] or [DEFAULT_PROGRAM]
            OTHER_MEASURES[words[0]](os.path.abspath(program), folder, *more)
        return
    special = SPECIAL_SHAPES.get(words[0]) if words else None
    words = words[1:] if special else words
    program = os.path.abspath(words[0] if words else DEFAULT_PROGRAM)
    sizes = sorted(map(int, words[1:])) or (PLAN_MEGABYTES if special == PLANS else DEFAULT_MEGABYTES)

    def sizes_of(shape):
        return SHAPE_MEGABYTES if shape in SMALL_SHAPES else sizes

    with tempfile.TemporaryDirectory() as folder:
        shapes = special or (*LARGE_SHAPES, *SMALL_SHAPES)
        laid_out = [Series(program, folder, shape) for shape in shapes]
        rows = Series.laid_out_row, Series.rest_row
        (rest,) = print_table(LAID_OUT_COLUMNS, LAID_OUT_LEGEND, laid_out, sizes_of, *rows)
        print_headings(REST_COLUMNS)
        for line in rest:
            print_line(REST_COLUMNS, line)
        print(REST_LEGEND)


if __name__ == "__main__":
    main(sys.argv[1:])
