#!/usr/bin/env python3
"""Prints how long the analysis of a tree takes, its tables of scopes and of private names, as a ratio to `serde_json`
reading the same bytes, and how many times as long it takes for ten times the names, over programs of several shapes.

Needs the built program: run `rt run` in crates/bench_analysis once. Best of three runs each; words: how many names
a program has (default 5000, then ten times as many)."""
import sys

from programs import classes, deep, functions, many_scopes, module, one_name, one_scope
from timing import built, stages

PROGRAM = built("bench_analysis", "times")


def times(body):
    """Microseconds of `serde_json` and of the analysis."""
    found = stages(PROGRAM, module(body))
    reading = found.pop("json")
    return reading, sum(found.values())


count = int(sys.argv[1]) if len(sys.argv) > 1 else 5000
for shape in (functions, deep, one_scope, many_scopes, one_name, classes):
    reading, analysis = times(shape(count))
    more_reading, more_analysis = times(shape(10 * count))
    print(f"{shape.__name__}: analysis : reading = {analysis / reading:.2f}, then {more_analysis / more_reading:.2f}; "
          f"ten times the names take {more_analysis / analysis:.1f} times as long")
