"""Reading against a Rust program with serde's derive, which cargo builds from Debian's packages where they are there."""

import os
import shutil
import subprocess

HERE = os.path.dirname(os.path.abspath(__file__))
REGISTRY = "/usr/share/cargo/registry"
PACKAGES = "librust-serde-dev librust-serde-derive-dev librust-serde-json-dev librust-hex-dev"
SHAPES = ("linked", "objects", "chain", "tabled", "grouped", "tenth")
MEGABYTES = 100


def build(folder):
    """The built program; none where it can't be built here."""
    if shutil.which("cargo") is None or not os.path.isdir(REGISTRY):
        return None
    target = os.path.join(folder, "target")
    source = os.path.join(folder, "baseline")
    shutil.copytree(os.path.join(HERE, "baseline"), source)
    settings = ('source.crates-io.replace-with="debian"', 'source.debian.directory="%s"' % REGISTRY)
    command = ["cargo", "build", "--release", "--offline", "--quiet", "--target-dir", target]
    for setting in settings:
        command += ["--config", setting]
    built = subprocess.run(command, cwd=source, check=False).returncode == 0
    return os.path.join(target, "release", "baseline") if built else None
