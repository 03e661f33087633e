"""Runs a program on an input or an output that fails: a full device, a folder, a stream that is closed or breaks off.

Each function answers the status, and what was printed where that can be told. What stands on standard error is
thrown away, or goes to the file or the pipe that is named as `stderr`.
"""

import os
import resource
import signal
import subprocess
import tempfile
import threading
import tty

from run_program import PATIENCE, wait_until_read, write_all


def run(command, **streams):
    """The status, and standard output where it is a pipe."""
    done = subprocess.run(command, timeout=PATIENCE, **{"stderr": subprocess.DEVNULL, **streams})
    return done.returncode, done.stdout


def in_shell(program, arguments, ends, **streams):
    """The same, where a shell closes or opens the streams as `ends` says."""
    return run(["sh", "-c", f'exec "$0" "$@" {ends}', program.path, *arguments], **streams)


def from_file(program, arguments, data, **streams):
    with tempfile.TemporaryFile() as file:
        file.write(data)
        file.seek(0)
        return run([program.path, *arguments], stdin=file, stdout=subprocess.PIPE, **streams)


def on_full_device(program, arguments, data, **streams):
    with open("/dev/full", "wb") as full:
        return run([program.path, *arguments], input=data, stdout=full, **streams)[0]


def on_closed_output(program, arguments, data, **streams):
    return in_shell(program, arguments, ">&-", input=data, **streams)[0]


def on_output_hung_up(program, arguments, data, most, stderr=subprocess.DEVNULL):
    """The reader of the output takes so many bytes and goes."""
    process = subprocess.Popen([program.path, *arguments], bufsize=0, stdin=subprocess.PIPE,
                               stdout=subprocess.PIPE, stderr=stderr)
    watchdog = threading.Timer(PATIENCE, process.kill)
    watchdog.start()
    if most == 0:
        process.stdout.close()

    def feed():
        try:
            write_all(process.stdin.fileno(), data)
        except BrokenPipeError:
            pass  # the program has ended before its input
        process.stdin.close()

    feeder = threading.Thread(target=feed)
    feeder.start()
    while most > 0:
        most -= len(process.stdout.read(most)) or most
    process.stdout.close()
    feeder.join()
    status = process.wait()
    watchdog.cancel()
    return status


def on_output_cut(program, arguments, data, most, **streams):
    """The output is a file that can hold so many bytes."""

    def limit():
        signal.signal(signal.SIGXFSZ, signal.SIG_IGN)
        resource.setrlimit(resource.RLIMIT_FSIZE, (most, most))

    with tempfile.TemporaryFile() as file:
        status, _ = run([program.path, *arguments], input=data, stdout=file, preexec_fn=limit, restore_signals=False, **streams)
        file.seek(0)
        return status, file.read()


def from_folder(program, arguments, **streams):
    folder = os.open("/", os.O_RDONLY)
    try:
        return run([program.path, *arguments], stdin=folder, stdout=subprocess.PIPE, **streams)
    finally:
        os.close(folder)


def from_closed_input(program, arguments, **streams):
    return in_shell(program, arguments, "<&-", stdout=subprocess.PIPE, **streams)


def from_unreadable_input(program, arguments, **streams):
    return in_shell(program, arguments, "0>/dev/null", stdout=subprocess.PIPE, **streams)


def from_broken_input(program, arguments, data, stderr=subprocess.DEVNULL):
    """The input gives the data, and then an error: a terminal that is hung up."""
    reads, writes = os.openpty()
    tty.setraw(writes)
    process = subprocess.Popen([program.path, *arguments], bufsize=0, stdin=reads,
                               stdout=subprocess.PIPE, stderr=stderr)
    watchdog = threading.Timer(PATIENCE, process.kill)
    watchdog.start()
    output = bytearray()
    reader = threading.Thread(target=lambda: output.extend(process.stdout.readall()))
    reader.start()
    write_all(writes, data)
    wait_until_read(reads)
    os.close(writes)
    reader.join()
    process.stdout.close()
    status = process.wait()
    watchdog.cancel()
    os.close(reads)
    return status, bytes(output)


def with_error(run, *arguments):
    """What the run answers, and standard error."""
    reads, writes = os.pipe()
    with open(reads, "rb") as error:
        try:
            answer = run(*arguments, stderr=writes)
        finally:
            os.close(writes)
        return answer, error.read()
