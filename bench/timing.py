"""Runs built programs and measures them."""
import os
import pathlib
import subprocess
import sys
import time

CRATES = pathlib.Path(__file__).resolve().parent.parent / "crates"
MANGLE = [CRATES / "mangle/out/mangle"]


def built(name, *words):
    """The command that runs a timing program."""
    return [CRATES / name / "out" / name, *words]


def run(command, text):
    """Seconds, and peak memory in kilobytes."""
    start = time.perf_counter()
    process = subprocess.Popen(command, stdin=subprocess.PIPE, stdout=subprocess.PIPE)
    process.stdin.write(text)
    process.stdin.close()
    process.stdout.read()
    _, status, usage = os.wait4(process.pid, 0)
    if status != 0:
        sys.exit(f"{command[0]} ended with {status}")
    return time.perf_counter() - start, usage.ru_maxrss


def best(command, text, times=3):
    """The least of each in so many runs."""
    runs = [run(command, text) for _ in range(times)]
    return min(seconds for seconds, _ in runs), min(memory for _, memory in runs)


def stages(command, text, times=3):
    """Of each stage, by the name that the program gives it on standard error, the least of the microseconds in so many
    runs, in the order in which the stages come."""
    found = {}
    for _ in range(times):
        process = subprocess.run(command, input=text, stdout=subprocess.DEVNULL, stderr=subprocess.PIPE)
        if process.returncode != 0:
            sys.exit(f"{command[0]} ended with {process.returncode}")
        for line in process.stderr.decode().splitlines():
            stage, taken = line.split()
            found[stage] = min(int(taken), found.get(stage, int(taken)))
    return found
