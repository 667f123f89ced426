"""Runs by more workers than one, by the clock: in turn with those of none, over the same bytes.

How long all takes after reading is told by each run itself, through a library that is compiled here and preloaded
(after_reading.c). A machine's clock moves more between rounds than workers bring, so runs are compared inside a round.
"""

import os
import subprocess

# What has many references, in groups of eight files, in one and in some 60,000; and what is merged.
SHAPES = ("linked", "real", "gathered", "scattered", "star", "grouped", "tabled", "tenth", "distinct", "equal", "one", "empty", "named")
WORKERS = (0, 2, 4)
ROUNDS = 5
MEGABYTES = 100
SOURCE = os.path.join(os.path.dirname(os.path.abspath(__file__)), "after_reading.c")


def compiled(folder):
    """The library that tells the time after reading."""
    library = os.path.join(folder, "after_reading.so")
    compiler = os.environ.get("CC", "cc")
    subprocess.run([compiler, "-O2", "-shared", "-fPIC", "-o", library, SOURCE, "-ldl"], check=True)
    return library


class Timer:
    """Tells of a run over a description how long all took after reading."""

    def __init__(self, library, path):
        self.told = library + ".told"
        self.environment = {
            **os.environ,
            "LD_PRELOAD": library,
            "AFTER_READING": self.told,
            "AFTER_READING_BYTES": str(os.path.getsize(path)),
        }

    def last(self):
        """Seconds by the clock, and of all processors, of the run that ended last; no file is there if it told none."""
        with open(self.told) as file:
            clock, processors = map(float, file.read().split())
        os.remove(self.told)
        return clock, processors


def spread(values):
    """The least, the middle and the greatest."""
    ordered = sorted(values)
    return ordered[0], ordered[len(ordered) // 2], ordered[-1]


class Runs:
    """The runs of one description by some workers, a run for each round, beside those of none."""

    def __init__(self, runs, alone):
        def of_alone(measure):
            return spread(measure(run) / measure(other) for run, other in zip(runs, alone))

        self.clock = min(run.clock for run in runs)
        self.peak = max(run.peak for run in runs)
        self.rest = min(run.rest for run in runs)
        self.clock_of_alone = of_alone(lambda run: run.clock)
        self.seconds_of_alone = of_alone(lambda run: run.seconds)[1]
        self.rest_of_alone = of_alone(lambda run: run.rest)
        self.rest_seconds_of_alone = of_alone(lambda run: run.processors)[1]


def rounds(measured, count):
    """By workers the runs of all rounds, in each of which every number of workers has its turn."""
    runs = {workers: [] for workers in WORKERS}
    for _ in range(count):
        for workers in WORKERS:
            runs[workers].append(measured(workers))
    return {workers: Runs(some, runs[0]) for workers, some in runs.items()}, [run for some in runs.values() for run in some]
