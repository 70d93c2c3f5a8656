#!/usr/bin/env python3
"""Prints time and peak memory of reading and printing a tree of some 10 MB, as ratios to `serde_json` reading and
writing the same bytes in the same run.

Needs the built program: run `rt run` in crates/bench_tree once. Best of five runs each."""
from programs import mixed, module
from timing import best, built

text = module(mixed(24000))
seconds, memory = best(built("bench_tree", "tree"), text, 5)
plain_seconds, plain_memory = best(built("bench_tree", "value"), text, 5)
print(f"{len(text)} bytes, tree : value = {seconds / plain_seconds:.2f} in time, {memory / plain_memory:.2f} in memory")
