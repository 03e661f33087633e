"""Runs a program on input that is given whole or written piece by piece."""

import fcntl
import os
import re
import subprocess
import termios
import threading
import time
from pathlib import Path

PATIENCE = 30  # seconds that the program may take for one input


class Program:
    def __init__(self, path):
        self.path = path

    def run(self, arguments, data):
        """The status, standard output and standard error."""
        done = subprocess.run([self.path, *arguments], input=data, capture_output=True, timeout=PATIENCE)
        return done.returncode, done.stdout, done.stderr

    def run_fed(self, arguments, feed):
        """The status and standard output for the input that feed(pipe, process) writes."""
        process = subprocess.Popen([self.path, *arguments], bufsize=0, stdin=subprocess.PIPE,
                                   stdout=subprocess.PIPE, stderr=subprocess.DEVNULL)
        output = bytearray()
        reader = threading.Thread(target=lambda: output.extend(process.stdout.readall()))
        watchdog = threading.Timer(PATIENCE, process.kill)
        reader.start()
        watchdog.start()
        try:
            feed(process.stdin.fileno(), process)
        except BrokenPipeError:
            pass  # the program has ended before its input
        finally:
            process.stdin.close()
            reader.join()
            process.stdout.close()
            status = process.wait()
            watchdog.cancel()
        return status, bytes(output)

    def run_in_pieces(self, arguments, data, sizes):
        """The input comes in pieces of these sizes, each read before the next is written."""

        def feed(pipe, process):
            at = turn = 0
            while at < len(data):
                size = sizes[turn % len(sizes)]
                write_all(pipe, data[at : at + size])
                wait_until_read(pipe)
                at, turn = at + size, turn + 1

        return self.run_fed(arguments, feed)

    def run_until_end(self, arguments, data):
        """The status and standard output, and whether the program was given all of the data."""
        all_written = []

        def feed(pipe, process):
            write_all(pipe, data)
            all_written.append(True)

        return *self.run_fed(arguments, feed), bool(all_written)

    def peak_memory(self, arguments, data):
        """The peak in KiB, taken when the program has read all of the data.

        It comes from the program's entry in /proc: the peak that os.wait4
        tells has the size of the process that started it mixed in."""
        peaks = []

        def feed(pipe, process):
            write_all(pipe, data)
            wait_until_read(pipe)
            status = Path(f"/proc/{process.pid}/status").read_text()
            peaks.append(int(re.search(r"VmHWM:\s*(\d+) kB", status)[1]))

        self.run_fed(arguments, feed)
        return peaks[0]


def write_all(pipe, data):
    rest = memoryview(data)
    while rest:
        rest = rest[os.write(pipe, rest) :]


def wait_until_read(pipe):
    """Waits until all that is in the pipe was read, or a moment at most."""
    waiting = bytearray(4)
    for _ in range(500):
        fcntl.ioctl(pipe, termios.FIONREAD, waiting)
        if not any(waiting):
            return
        time.sleep(0.0001)
