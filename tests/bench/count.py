#!/usr/bin/env python3
"""Counts the instructions of the parts of crates/bench, and of the same work in plain Rust, and prints them side by side.

Needs valgrind and rustc. Run it at the top of the repository: python3 tests/bench/count.py
It builds crates/bench by `rt run` (through LLVM) and plain.rs by rustc, checks that both print the same, and runs both under callgrind.
A part's count is that of a run which stops after the part, less that of a run which stops before it.

The C library moves long runs by one instruction that repeats (`rep movsb`), which callgrind counts once for each byte.
Both programs are run with a setting of that library which has it move by whole vectors at every length.
"""

import os
import pathlib
import re
import subprocess
import sys
import tempfile

HERE = pathlib.Path(__file__).resolve().parent
CRATE = HERE.parent.parent / "crates" / "bench"
MOVES = {**os.environ, "GLIBC_TUNABLES": "glibc.cpu.x86_rep_movsb_threshold=1000000000"}
RUSTC = ["rustc", "-C", "opt-level=3", "--edition", "2024", "-A", "dead_code"]

MAKES = {"l": "lines", "s": "spool", "p": "pair"}
LOADS = {"j": "jobs", "t": "texts"}
PARTS = ["open", "post and send", "take", "show", "draw up"]


def build(folder):
    """The two programs."""
    subprocess.run(["rt", "run", "--backend", "llvm"], cwd=CRATE, stdin=subprocess.DEVNULL, stdout=subprocess.DEVNULL, check=True)
    plain = folder / "plain"
    subprocess.run([*RUSTC, "-o", plain, HERE / "plain.rs"], check=True)
    return CRATE / "out" / "bench", plain


def run(program, setting):
    """What the program prints."""
    return subprocess.run([program], input=setting, capture_output=True, text=True, check=True).stdout


def count(program, setting, folder):
    """How many instructions a run takes."""
    command = ["valgrind", "--tool=callgrind", f"--callgrind-out-file={folder}/out", program]
    said = subprocess.run(command, input=setting, env=MOVES, capture_output=True, text=True, check=True).stderr
    return int(re.search(r"Collected : (\d+)", said).group(1))


def counts(program, setting, folder):
    """The instructions of each part."""
    totals = [count(program, f"{setting}{parts}", folder) for parts in range(len(PARTS) + 1)]
    return [after - before for before, after in zip(totals, totals[1:])]


def differing(ours, plain):
    """The settings at which the two programs do not print the same."""
    settings = [f"{make}{load}{parts}" for make in MAKES for load in LOADS for parts in range(len(PARTS) + 1)]
    return [setting for setting in settings if run(ours, setting) != run(plain, setting)]


def print_table(ours, plain, folder):
    print("| carrier | load | part | Rattle | Rust | ratio |")
    print("|---|---|---|---:|---:|---:|")
    for make, make_name in MAKES.items():
        for load, load_name in LOADS.items():
            pairs = zip(PARTS, counts(ours, make + load, folder), counts(plain, make + load, folder))
            for part, own, other in pairs:
                print(f"| {make_name} | {load_name} | {part} | {own} | {other} | {own / other:.2f} |")


def main():
    with tempfile.TemporaryDirectory() as name:
        folder = pathlib.Path(name)
        ours, plain = build(folder)
        bad = differing(ours, plain)
        if bad:
            sys.exit(f"the programs differ at {' '.join(bad)}")
        print_table(ours, plain, folder)


main()
