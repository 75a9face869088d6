"""The plain program of bench/peer: where it is built, and whether it answers as `mds_city` does."""

import subprocess
import sys
from pathlib import Path

from harness.counting import ROOT

FOLDER = ROOT / "bench/peer"
DEBIAN = Path("/usr/share/cargo/registry")
"""Where Debian's packages librust-serde-json-dev and librust-httparse-dev leave their sources."""


def build_words():
    """How it is built: over Debian's sources where they are there, or else over those of crates.io."""
    words = ["cargo", "build", "--release", "--quiet"]
    if DEBIAN.is_dir():
        debian = ['source.crates-io.replace-with="debian"', f'source.debian.directory="{DEBIAN}"']
        words += ["--offline", *(word for setting in debian for word in ("--config", setting))]
    return words


def hindrance():
    """Why it can't be built, or nothing where it was."""
    try:
        done = subprocess.run(build_words(), cwd=FOLDER, stdin=subprocess.DEVNULL, capture_output=True, text=True)
    except OSError as fault:
        return f"cargo: {fault.strerror}"
    return next(iter(done.stderr.splitlines()), "cargo failed") if done.returncode else None


def compare(program, peer):
    """Ends the benchmark where the two don't print the same."""
    examples = sorted(str(path) for path in (ROOT / "examples").glob("*.json"))
    journals = sorted(str(path) for path in (ROOT / "examples").glob("*.journal"))
    listed = [["vehicles", path] for path in journals]
    for words in (["table"], *(["replay", path] for path in examples), *listed):
        outs = [subprocess.run([it, *words], stdout=subprocess.PIPE).stdout for it in (program, peer)]
        if outs[0] != outs[1]:
            sys.exit(f"the plain program doesn't answer as mds_city does: {' '.join(words)}")


def plain_program(program):
    """The path of the plain program, or nothing where it can't be built; then it is said why."""
    why = hindrance()
    if why:
        print(f"No plain program to compare with: {why}")
        return None
    peer = str(FOLDER / "target/release/peer")
    compare(program, peer)
    return peer
