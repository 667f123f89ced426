"""What the program holds in memory, allocation by allocation, as glibc's own counter tells it.

The counter is the library libmemusage.so of glibc. It writes an entry of 24 bytes for each allocation and each
release, behind two entries of its own; an entry begins with the bytes that are held then.
"""

import array
import os
import subprocess

LIBRARY = "libmemusage.so"
ENTRY_WORDS, OWN_ENTRIES = 3, 2


class Held:
    """The bytes that a run holds: at most, when all is read, and from then on."""

    def __init__(self, levels, written):
        steps = [after - before for before, after in zip(levels, levels[1:])]
        # Before the last allocation of as many bytes as the report has, the greatest release is that of the input, when all is read.
        late = max(place for place, step in enumerate(steps) if step >= written)
        end = min(range(late), key=steps.__getitem__) + 1
        # The greatest allocation after that is the room of the report, which is made when all else is there.
        report = max(range(end, len(steps)), key=steps.__getitem__)
        self.description = levels[end]
        self.reading = max(levels[: end + 1])
        self.report = steps[report]
        self.before_report = max(levels[end : report + 1]) - self.description
        self.all = max(levels)


def held(command, path, output, trace):
    """What a command holds over a file; its output goes to another one."""
    counter = {
        "LD_PRELOAD": LIBRARY,
        "MEMUSAGE_OUTPUT": trace,
        "MEMUSAGE_NO_TIMER": "1",
        # Each entry is written at once, since the program ends without what a library does at the end.
        "MEMUSAGE_BUFFER_SIZE": "1",
    }
    with open(path, "rb") as source, open(output, "wb") as sink:
        subprocess.run(
            command,
            stdin=source,
            stdout=sink,
            stderr=subprocess.DEVNULL,
            env={**os.environ, **counter},
            check=True,
        )
    words = array.array("Q")
    with open(trace, "rb") as file:
        words.frombytes(file.read())
    return Held(words[OWN_ENTRIES * ENTRY_WORDS :: ENTRY_WORDS], os.path.getsize(output))
