#!/usr/bin/env python3
"""Prints time and peak memory of `mangle` on a file, as ratios to `serde_json` reading and writing the same bytes, and
where the time goes, by stage.

Needs the built programs: run `./mangle` once, and `rt run` in crates/bench_tree and crates/bench_whole. Best of three
runs each; words: files that hold ESTree in JSON (default: a program of 12 MB made here)."""
import pathlib
import sys

from programs import mixed, module
from timing import MANGLE, best, built, stages


def print_times(name, text):
    seconds, memory = best(MANGLE, text)
    plain_seconds, plain_memory = best(built("bench_tree", "value"), text)
    print(f"{name}, {len(text)} bytes: mangle : value = {seconds / plain_seconds:.2f} in time, "
          f"{memory / plain_memory:.2f} in memory")
    found = stages(built("bench_whole", "times"), text)
    whole = sum(found.values())
    print("  " + ", ".join(f"{stage} {100 * taken / whole:.0f}%" for stage, taken in found.items()))


if len(sys.argv) > 1:
    for path in sys.argv[1:]:
        print_times(path, pathlib.Path(path).read_bytes())
else:
    print_times("functions of some statements", module(mixed(24000)))
