#!/usr/bin/env python3
"""Runs the built program on mutated inputs, and prints how many runs ended with each status.

    tools/mutate.py PROGRAM [--seed N] [--count N] [FILE..]

PROGRAM is crates/mangle/out/mangle, which `./mangle` builds. The inputs are made of the files, examples/*.json if none
is given, by one to three edits each: bytes are flipped, cut or repeated; values of the JSON are dropped, doubled or
swapped. They are the same for the same files, seed (1) and count (1000).

Every run must end within a second, on a machine that does little else; with a status of README.md's table and its
message on standard error, or nothing there at 0; with nothing on standard output but at 0 and 9; at 0 with JSON there,
an object of exactly `node` and `fixes`. The first input for which that isn't so is saved to mutated.json in the current
folder, and the exit status is 1.
"""
import argparse
import collections
import copy
import json
import pathlib
import random
import re
import subprocess
import sys

ROOT = pathlib.Path(__file__).resolve().parent.parent
SECONDS = 1

# ---- JSON, of which objects are lists of their fields: a key may come twice


class Fields(list):
    """An object: pairs of key and value, each a list."""


def parsed(text):
    return json.loads(text, object_pairs_hook=lambda pairs: Fields([key, value] for key, value in pairs))


def written(value):
    if isinstance(value, Fields):
        return "{" + ",".join(json.dumps(key) + ":" + written(inner) for key, inner in value) + "}"
    if isinstance(value, list):
        return "[" + ",".join(map(written, value)) + "]"
    return json.dumps(value)


def spots(value):
    """Where values stand in a value: the list or object, and the index there."""
    for i, part in enumerate(value if isinstance(value, list) else []):
        yield value, i
        yield from spots(part[1] if isinstance(value, Fields) else part)


# ---- edits


def edited_value(draw, text):
    """The text with a value dropped, doubled or swapped with another one."""
    value = parsed(text)
    everywhere = list(spots(value))
    if not everywhere:
        return text
    (here, i), (there, j) = draw.choice(everywhere), draw.choice(everywhere)
    edit = draw.choice(["drop", "double", "swap"])
    if edit == "drop":
        del here[i]
    elif edit == "double":
        here.insert(draw.randrange(len(here) + 1), copy.deepcopy(here[i]))
    else:
        one, other = (copy.deepcopy(at[k][1] if isinstance(at, Fields) else at[k]) for at, k in ((here, i), (there, j)))
        for at, k, new in (here, i, other), (there, j, one):
            at[k] = [at[k][0], new] if isinstance(at, Fields) else new
    return written(value).encode()


def edited_bytes(draw, text):
    """The text with a bit of a byte flipped, or some bytes cut or repeated."""
    start = draw.randrange(len(text) + 1)
    end = min(len(text), start + draw.choice([1, 1, 2, 8, 64, len(text)]))
    edit = draw.choice(["flip", "cut", "repeat"])
    if edit == "flip":
        flipped = bytes(byte ^ 1 << draw.randrange(8) for byte in text[start : start + 1])
        return text[:start] + flipped + text[start + 1 :]
    times = 0 if edit == "cut" else draw.choice([2, 3, 200]) if end - start < 64 else 2
    return text[:start] + text[start:end] * times + text[end:]


def mutated(draw, text):
    for _ in range(draw.randint(1, 3)):
        try:
            text = draw.choice([edited_value, edited_bytes])(draw, text)
        except (ValueError, RecursionError):
            text = edited_bytes(draw, text)
    return text


# ---- runs


def messages():
    """The statuses of README.md's table, each with its message."""
    table = {}
    readme = (ROOT / "README.md").read_text(encoding="utf-8")
    for numbers, cell in re.findall(r"^\| ([\d, ]+) \|([^|]*)\|", readme, re.M):
        texts = [text.removeprefix("mangle: ") for text in re.findall(r"`([^`]+)`", cell)]
        for i, number in enumerate(numbers.split(",")):
            table[int(number)] = f"mangle: {texts[i]}\n" if texts else ""
    return table


def keys_of(answer):
    """The keys of an answer, None where it is no object; a ValueError where it is no JSON."""
    # Numbers stay texts, since an int of many digits isn't read; NaN and Infinity are a ValueError, as of int("NaN").
    text = answer.decode("utf-8")
    value = json.loads(text, object_pairs_hook=Fields, parse_int=str, parse_float=str, parse_constant=int)
    return sorted(key for key, _ in value) if isinstance(value, Fields) else None


def fault_of(run, table):
    """The rule that a run breaks, or None."""
    if run.returncode not in table:
        return f"no status of the table: {run.returncode}"
    if run.returncode not in (0, 9) and run.stdout:
        return f"status {run.returncode}, and something on standard output"
    if run.stderr.decode("utf-8", "replace") != table[run.returncode]:
        return f"status {run.returncode}, and another text on standard error: {run.stderr!r}"
    if run.returncode == 0:
        try:
            if keys_of(run.stdout) != ["fixes", "node"]:
                return "the answer is no object of exactly node and fixes"
        except ValueError as error:
            return f"the answer doesn't read as JSON: {error}"
    return None


def main():
    reader = argparse.ArgumentParser(description=__doc__.splitlines()[0])
    reader.add_argument("program", type=pathlib.Path)
    reader.add_argument("--seed", type=int, default=1)
    reader.add_argument("--count", type=int, default=1000)
    reader.add_argument("files", nargs="*", type=pathlib.Path)
    words = reader.parse_intermixed_args()
    texts = [path.read_bytes() for path in words.files or sorted((ROOT / "examples").glob("*.json"))]
    draw, table, ends, fault = random.Random(words.seed), messages(), collections.Counter(), None
    for number in range(1, words.count + 1):
        text = mutated(draw, draw.choice(texts))
        try:
            run = subprocess.run([words.program.resolve()], input=text, capture_output=True, timeout=SECONDS)
            ends[run.returncode] += 1
            fault = fault_of(run, table)
        except subprocess.TimeoutExpired:
            fault = f"no end within {SECONDS} s"
        if fault:
            pathlib.Path("mutated.json").write_bytes(text)
            print(f"run {number}: {fault}; its input is in mutated.json")
            break
    for status in sorted(ends):
        print(f"status {status}: {ends[status]} runs")
    return 1 if fault else 0


if __name__ == "__main__":
    sys.exit(main())
