#!/usr/bin/env python3
"""Prints how much stack the calls of crates/bench take, and how large the values are that they work with.

Needs objdump. Run it at the top of the repository, after `rt run` in crates/bench: python3 tests/bench/stack.py
A function's frame is read off its code: what it takes off the stack pointer, 8 bytes for each register that it saves,
and 8 for the address that it returns to. Calls that stand within another function have no frame of their own.
"""

import pathlib
import re
import subprocess

PROGRAM = pathlib.Path(__file__).resolve().parent.parent.parent / "crates" / "bench" / "out" / "bench"
OWN = ("rooms::", "spool::", "carriers::", "pair::", "seats::", "sheets::", "records::", "letters::", "bench::main>")


def functions():
    """The names of the functions and their instructions."""
    command = ["objdump", "--disassemble", "--demangle", "--no-show-raw-insn", "-M", "intel", PROGRAM]
    listing = subprocess.run(command, capture_output=True, text=True, check=True).stdout
    for part in listing.split("\n\n"):
        found = re.match(r"\s*[0-9a-f]+ <(.*)>:\n", part)
        if found:
            yield found.group(1), part


def frame(code):
    """How many bytes a function's frame has. Of a large one whole pages are taken first, down to an address in r11."""
    entry = code.split("call")[0]
    pages = [int(size, 16) for size in re.findall(r"\bsub +r11,0x([0-9a-f]+)", entry)]
    taken = [int(size, 16) for size in re.findall(r"\bsub +rsp,0x([0-9a-f]+)", entry)]
    saved = len(re.findall(r"\bpush\b", entry))
    return sum(pages) + sum(taken[-1:]) + 8 * saved + 8


def main():
    print(subprocess.run([PROGRAM], input="", capture_output=True, text=True, check=True).stdout)
    frames = [(frame(code), name) for name, code in functions() if f"{name}>".startswith(OWN)]
    for size, name in sorted(frames, reverse=True):
        print(size, name)


main()
