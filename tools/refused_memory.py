#!/usr/bin/env python3
"""Runs the built program, or a crate's tests, with one allocation after the other refused, and prints how they end.

    tools/refused_memory.py PROGRAM [--words TEXT] [FILE..]

PROGRAM is crates/mangle/out/mangle, which `./mangle` builds. It is run with the words of TEXT on each file,
examples/*.json if none is given, once with nothing refused, and then for N from 1 on, until it asks for memory fewer than
N times: with the Nth time refused alone, and with that one and all after it. A run must end as the first one did, or with
status 10, its message, and nothing on standard output; any other end is printed, and the exit status is 1. A few lines of
C stand between the program and malloc; `cc` translates them.

    tools/refused_memory.py --tests CRATE [--to N]

For N from 1 on, to --to or until no test fails, `rt try --test --fail-alloc N` runs the crate's tests, which proves
nothing. A test may pass, with its answer all the same, or end in want of memory: then what it prints names AllocError or
Memory. Any other end is printed, and the exit status is 1: so ends a test too that asserts a plain `bool`, which is to
be judged by reading. The exit status is 1 as well where `rt try` has no answer. Each N builds the tests anew, which
takes minutes.
"""
import argparse
import collections
import os
import pathlib
import re
import subprocess
import sys
import tempfile

ROOT = pathlib.Path(__file__).resolve().parent.parent

# ---- the built program

# What glibc calls malloc and realloc has other names too, which these two call. Each refusal writes a byte to a pipe.
REFUSING = r"""
#include <stdlib.h>
#include <unistd.h>
void *__libc_malloc(size_t size);
void *__libc_realloc(void *place, size_t size);
static long number, first;
static int onwards, pipe_end;
__attribute__((constructor)) static void begin(void) {
    first = atol(getenv("REFUSED"));
    onwards = atoi(getenv("ONWARDS"));
    pipe_end = atoi(getenv("PIPE_END"));
}
static int is_refused(void) {
    if (first == 0) return 0;
    number += 1;
    if (number != first && !(onwards && number > first)) return 0;
    return write(pipe_end, "x", 1) == 1;
}
void *malloc(size_t size) { return is_refused() ? 0 : __libc_malloc(size); }
void *realloc(void *place, size_t size) { return is_refused() ? 0 : __libc_realloc(place, size); }
"""

WANTED = (10, b"", b"mangle: out of memory\n")


def end_of(command, library, text, first, onwards):
    """How a run ends: status, standard output and standard error; and whether anything was refused."""
    reading, writing = os.pipe()
    told = {"LD_PRELOAD": str(library), "REFUSED": str(first), "ONWARDS": str(int(onwards)), "PIPE_END": str(writing)}
    run = subprocess.run(command, input=text, capture_output=True, env=told, pass_fds=[writing], timeout=60)
    os.close(writing)
    refused = os.read(reading, 1) != b""
    os.close(reading)
    return (run.returncode, run.stdout, run.stderr), refused


def try_program(command, files):
    faults = 0
    with tempfile.TemporaryDirectory() as folder:
        library = pathlib.Path(folder) / "refusing.so"
        subprocess.run(["cc", "-shared", "-fPIC", "-x", "c", "-o", library, "-"], input=REFUSING.encode(), check=True)
        for file in files:
            text = file.read_bytes()
            answer, _ = end_of(command, library, text, 0, False)
            for onwards in False, True:
                ends, number, refused = collections.Counter(), 0, True
                while True:
                    number += 1
                    end, refused = end_of(command, library, text, number, onwards)
                    if not refused:
                        break
                    word = "wanted memory" if end == WANTED else "answered" if end == answer else "ended otherwise"
                    ends[word] += 1
                    if word == "ended otherwise":
                        print(f"{file.name}, {number}: {end}")
                faults += ends["ended otherwise"]
                form = "that one and all after it" if onwards else "that one alone"
                print(f"{file.name}: {number - 1} tried, {form}: " + ", ".join(f"{ends[word]} {word}" for word in sorted(ends)))
                if end != answer:
                    print(f"{file.name}: another end where nothing is refused: {end}")
                    faults += 1
    return 1 if faults else 0


# ---- tests

TEST = re.compile(r"^test (\S+) \.\.\. (ok|FAILED)$((?:\n[ \t]+.*)*)", re.M)
WANT = re.compile(r"AllocError|memory", re.I)


def try_tests(crate, last):
    all_ends, number = collections.Counter(), 0
    while number != last:
        number += 1
        run = subprocess.run(
            ["rt", "try", "--test", "--fail-alloc", str(number)],
            cwd=ROOT / "crates" / crate, stdin=subprocess.DEVNULL, stdout=subprocess.PIPE, stderr=subprocess.STDOUT, text=True,
        )
        tests = TEST.findall(run.stdout)
        if not tests or "run=ended" not in run.stdout:
            print(f"{number}: no answer, status {run.returncode}\n{run.stdout}", end="")
            return 1
        ends = collections.Counter()
        for name, word, told in tests:
            end = "passed" if word == "ok" else "wanted memory" if WANT.search(told) else "ended otherwise"
            ends[end] += 1
            if end == "ended otherwise":
                print(f"{number}: {name}{told}")
        all_ends += ends
        print(f"{number}: " + ", ".join(f"{ends[end]} {end}" for end in sorted(ends)), flush=True)
        if ends["passed"] == len(tests):
            break
    print(f"tried {number}: " + ", ".join(f"{all_ends[end]} {end}" for end in sorted(all_ends)))
    return 1 if all_ends["ended otherwise"] else 0


def main():
    reader = argparse.ArgumentParser(description=__doc__.splitlines()[0])
    reader.add_argument("--tests", metavar="CRATE")
    reader.add_argument("--to", type=int, metavar="N")
    reader.add_argument("--words", default="", metavar="TEXT")
    reader.add_argument("program", type=pathlib.Path, nargs="?")
    reader.add_argument("files", type=pathlib.Path, nargs="*")
    words = reader.parse_intermixed_args()
    if words.tests:
        return try_tests(words.tests, words.to)
    if not words.program:
        reader.error("a program, or --tests and a crate")
    command = [words.program.resolve(), *words.words.split()]
    return try_program(command, words.files or sorted((ROOT / "examples").glob("*.json")))


if __name__ == "__main__":
    sys.exit(main())
