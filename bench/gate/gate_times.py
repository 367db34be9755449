#!/usr/bin/env python3
"""What the gate spends: gate_times.py [--anew] [--log FILE] [NAME ..], at the top of a checkout, with nothing else running.

It runs `rt ci` (of the crates named and those below them, or of all), notes when each line comes (FILE has them, with seconds from the start), and prints a table: for each crate the seconds by the clock
from the proof of the last crate below it to its own proof and to that of its tests (waiting for a processor or for memory is in them), and the
number of its edits with the second at which the first of them was tried; then the seconds by the clock and the processor seconds of the whole run, and
its last line. On a machine that has nothing kept, or with --anew, that is the gate from nothing. `gate_times.py --table FILE` prints the table of an
earlier run once more.
"""
import os
import re
import resource
import subprocess
import sys
import time


def crates():
    """The crates with those below them, in the order of crates.txt."""
    with open("crates.txt") as lines:
        found = [line.partition(":") for line in lines if re.match(r"\w", line)]
    return {name.split()[0]: rest.split() for name, _, rest in found}


def run(flags, log):
    began = time.monotonic()
    with open(log, "w") as out:
        gate = subprocess.Popen(["rt", "ci", *flags], stdin=subprocess.DEVNULL, stdout=subprocess.PIPE, stderr=subprocess.STDOUT, text=True, errors="replace",
                                env={**os.environ, "PYTHONUNBUFFERED": "1"})
        for line in gate.stdout:
            out.write(f"{time.monotonic() - began:8.1f} {line}")
            out.flush()
        status = gate.wait()
        spent = resource.getrusage(resource.RUSAGE_CHILDREN)
        out.write(f"{time.monotonic() - began:8.1f} spent {spent.ru_utime + spent.ru_stime:.0f} s of processors\n")
    return status


def table(log):
    below, proved, tested, edits, last = crates(), {}, {}, {}, ["", ""]
    with open(log) as lines:
        for line in lines:
            at, text = float(line[:8]), line[9:].strip()
            if found := re.match(r"rt: (\w+) proved$", text):
                proved[found.group(1)] = at
            elif found := re.match(r"rt: (\w+): its tests are proved$", text):
                tested[found.group(1)] = at
            elif found := re.match(r"rt: (\w+): trying its must-fail edits \((\d+)\)$", text):
                edits[found.group(1)] = found.group(2), at
            last = [last[1], text] if text else last
    print("| Crate | Proof | Tests | Edits, the first at |\n|---|---|---|---|")
    for name, low in below.items():
        start = max([proved.get(it, 0) for it in low] + [0])
        row = [f"{ended[name] - start:.0f}" if name in ended else "" for ended in (proved, tested)]
        print(f"| `{name}` | {row[0]} | {row[1]} | {'{}, {:.0f}'.format(*edits[name]) if name in edits else ''} |")
    print(f"\nThe last proof after {max([*proved.values(), *tested.values(), 0]):.0f} s, all after {at:.0f} s; {last[1]}; {last[0]}")


def main():
    words = sys.argv[1:]
    if words[:1] == ["--table"]:
        return table(words[1])
    log = "gate-times.log"
    if "--log" in words:
        at = words.index("--log")
        log = words[at + 1]
        del words[at : at + 2]
    status = run(words, log)
    table(log)
    sys.exit(status)


main()
