#!/usr/bin/env python3
"""Tries the wrong bodies of this folder, which the gate leaves out: the prover has to refuse each.

usage: python3 edits/try.py [CRATE..]
       python3 edits/try.py --apply

Tries those of the crates that are named, or all, on a copy that holds no other edits. What the gate has kept of the
crates is taken from it; the rest is proved first. The last line tells how many were refused, and not by a limit of the
prover or a name that is gone; the status is 0 where all were, and `rt ci` failed at nothing else.

With --apply, proves nothing: looks whether each edit of this folder and of each crate's must-fail/ still applies, so whether its old
text stands once in its file. Takes no time; the status is 1 where one doesn't.
"""

import pathlib
import shutil
import subprocess
import sys
import tempfile

EDITS = pathlib.Path(__file__).resolve().parent
ROOT = EDITS.parent
REFUSED = ": refused, as it must be"
# Refused by a limit of the prover, or since a proof names what the edit took away: that shows little of a contract.
HARDLY = REFUSED + " (only"


def copy_without_edits(to: pathlib.Path) -> None:
    """Copies what `rt ci` reads, but for what was built and the edits that the gate tries."""
    for name in ("crates.txt", "HANDLES"):
        shutil.copy(ROOT / name, to)
    shutil.copytree(ROOT / "crates", to / "crates", ignore=shutil.ignore_patterns("out", "must-fail"))


def tried(names: list[str], root: pathlib.Path) -> tuple[int, int]:
    """Runs `rt ci`, passes on what it says, and gives its status and how many edits it found refused."""
    refused = 0
    command = ["rt", "ci", *names]
    with subprocess.Popen(command, cwd=root, stdout=subprocess.PIPE, stderr=subprocess.STDOUT, text=True) as run:
        for line in run.stdout:
            print(line, end="", flush=True)
            refused += REFUSED in line and HARDLY not in line
    return run.returncode, refused


class Stale(Exception):
    """Why an edit doesn't apply."""


def apply_edit(edit: pathlib.Path, crate: pathlib.Path) -> None:
    """Makes the edit on texts of the crate's files, and keeps none of them."""
    texts: dict[str, str] = {}
    name = old = None
    for line in edit.read_text().splitlines():
        key, _, value = line.partition(": ")
        if key == "file":
            name = value
            texts.setdefault(name, (crate / name).read_text() if (crate / name).is_file() else "")
        elif key == "old" and name is not None:
            old = value
            if texts[name].count(old) != 1:
                raise Stale(f"in {name} this stands {texts[name].count(old)} times: {old}")
        elif key == "new" and name is not None and old is not None:
            texts[name] = texts[name].replace(old, value)
            old = None
        else:
            raise Stale(f"no line of an edit: {line}")
    if not texts or old is not None:
        raise Stale("it changes nothing")


def apply_all() -> int:
    """Tells each edit that doesn't apply, and how many do; the status."""
    count = stale = 0
    for edit in sorted([*EDITS.glob("*/*.edit"), *ROOT.glob("crates/*/must-fail/*.edit")]):
        crate = edit.parent.parent if edit.parent.name == "must-fail" else ROOT / "crates" / edit.parent.name
        count += 1
        try:
            apply_edit(edit, crate)
        except Stale as why:
            stale += 1
            print(f"{edit.relative_to(ROOT)}: {why}")
    print(f"{count - stale} of {count} edits apply")
    return int(stale or not count)


def main() -> int:
    if sys.argv[1:] == ["--apply"]:
        return apply_all()
    known = sorted(at.name for at in EDITS.iterdir() if at.is_dir())
    names = sys.argv[1:] or known
    for name in names:
        if name not in known:
            sys.exit(f"there is no folder edits/{name}: {', '.join(known)}")
    with tempfile.TemporaryDirectory(prefix="edits-") as room:
        root = pathlib.Path(room)
        copy_without_edits(root)
        for name in names:
            shutil.copytree(EDITS / name, root / "crates" / name / "must-fail")
        count = sum(at.is_file() for name in names for at in (EDITS / name).rglob("*"))
        status, refused = tried(names, root)
    print(f"{refused} of {count} refused")
    return status or int(refused != count)


if __name__ == "__main__":
    sys.exit(main())
