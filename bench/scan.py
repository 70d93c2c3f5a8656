#!/usr/bin/env python3
"""Prints how long the scan by eight bytes takes as a ratio to a plain loop over the same bytes.

Needs the built program: run `rt run` in crates/bench_scan once. Best of five runs each."""
from timing import best, built


def seconds(word):
    return best(built("bench_scan", word), b"", 5)[0]


idle = seconds("none")
print(f"scan : loop = {(seconds('scan') - idle) / (seconds('loop') - idle):.2f}")
