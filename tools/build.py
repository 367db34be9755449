#!/usr/bin/env python3
"""Proves and builds the program plcase: build.py TOP <LINES

LINES are the lines of TOP/crates.txt that the program stands on, itself last. Each library is proved as soon as those below it are, as many side by
side as there are processors and memory for; what is proved and unchanged is done at once. A line a crate says how far it is. What the proofs print
stands in TOP/build.log. The status is 0 where the program stands then.
"""
import os
import subprocess
import sys
import time

BYTES_OF_A_PROOF = 4 << 30


def lanes():
    """How many proofs run side by side."""
    with open("/proc/meminfo") as lines:
        free = next(int(line.split()[1]) * 1024 for line in lines if line.startswith("MemAvailable:"))
    return max(1, min(len(os.sched_getaffinity(0)), free // BYTES_OF_A_PROOF))


def main():
    top, below = sys.argv[1], {}
    for line in sys.stdin:
        name, _, rest = line.partition(":")
        below[name.split()[0]] = rest.split()
    program = list(below)[-1]
    waiting, running, done, began = [it for it in below if it != program], {}, set(), time.monotonic()
    most = lanes()
    print(f"plcase: proving {len(waiting)} libraries, {most} side by side; from nothing this takes 20 to 25 minutes on four processors; see build.log", flush=True)
    with open(f"{top}/build.log", "w") as log:
        while waiting or running:
            ready = [it for it in waiting if all(low in done for low in below[it] if low in below)][: most - len(running)]
            jobs = max(1, most // (len(ready) + len(running) or 1))  # a proof that runs alone gets all
            for name in ready:
                waiting.remove(name)
                running[name] = subprocess.Popen(["rt", "check", "--jobs", str(jobs)], cwd=f"{top}/crates/{name}", stdin=subprocess.DEVNULL, stdout=log, stderr=log)
            time.sleep(0.2)
            for name in [it for it, proof in running.items() if proof.poll() is not None]:
                if running.pop(name).returncode:
                    for proof in running.values():
                        proof.terminate()
                    sys.exit(f"plcase: {name} was not proved, see build.log")
                done.add(name)
                print(f"plcase: {name} stands, {len(done)} of {len(below)}, after {time.monotonic() - began:.0f} s", flush=True)
        folder = f"{top}/crates/{program}"
        status = subprocess.run(["rt", "run", "--", "build", "data/thin.json"], cwd=folder, stdin=subprocess.DEVNULL, stdout=log, stderr=log).returncode
    if status or not os.access(f"{folder}/out/{program}", os.X_OK):
        sys.exit("plcase: the program was not built, see build.log")
    os.utime(f"{folder}/out/{program}")
    print(f"plcase: the program stands, after {time.monotonic() - began:.0f} s", flush=True)


main()
