"""Compares a built program with the reference: compare.py PROGRAM BUNDLES."""
import collections
import json
import pathlib
import subprocess
import sys
import tempfile

import faults
from bundles import Bundle, toml, without_nulls
from cases import Case, Line

PROGRAM, BUNDLES = pathlib.Path(sys.argv[1]).resolve(), int(sys.argv[2])
SEEN = collections.Counter()


class Differs(Exception):
    pass


def answer(place, *words):
    """The status, the output and the error output of the program, run in a folder."""
    ended = subprocess.run([PROGRAM, *words], cwd=place, capture_output=True, check=False)
    return ended.returncode, ended.stdout.decode(), ended.stderr.decode()


def refusal(status, line):
    return status, "", f"plcase: {line}\n"


def equal(what, found, wanted):
    if found != wanted:
        raise Differs(f"{what}\n  found  {found}\n  wanted {wanted}")


def compare_good(place, bundle, draw):
    """A bundle without faults: its case, and the text of each product, in JSON and in TOML."""
    (place / "b.json").write_text(json.dumps(bundle, ensure_ascii=draw.random() < 0.5))
    (place / "b.toml").write_text(toml(bundle))
    line, case = Line(bundle["line"]), Case(bundle)
    wanted = (0, case.document(), "") if case.valid else refusal(3, "bundle rule B30 at line 0 0 0")
    built = answer(place, "build", "b.json")
    equal("build", built, wanted)
    equal("build of TOML", answer(place, "build", "b.toml"), wanted)
    SEEN["bundles" if case.valid else "bundles without a product"] += 1
    (place / "case.json").write_text(built[1])
    for number, world in enumerate(line.worlds):
        names = [name for name, is_true in zip(line.names, world) if is_true]
        draw.shuffle(names)
        (place / "c.json").write_text(json.dumps({"features": names}))
        (place / "c.toml").write_text(toml({"features": names}))
        text, form = case.text(number), draw.choice(["json", "toml"])
        wanted = refusal(5, "not valid") if text is None else (0, text, "")
        equal(f"product at {names}", answer(place, "product", f"b.{form}", f"c.{form}"), wanted)
        if case.valid:
            equal(f"derive at {names}", answer(place, "derive", "case.json", f"c.{form}"), wanted)
        SEEN["configurations"] += 1


def compare_changed(place, made):
    """A changed bundle: its first fault, or its case."""
    (place / "b.json").write_text(json.dumps(made.document))
    bundle = without_nulls(made.document)
    fault = faults.first_fault(bundle)
    if fault is None and any(node["kind"] == "solution" for template in bundle["templates"] for node in template["nodes"]):
        wanted = refusal(16, "not built yet")
    elif fault is None:
        case = Case(bundle)
        fault = None if case.valid else "B30 at line 0 0 0"
        wanted = (0, case.document(), "")
    if fault is not None:
        wanted = refusal(3, f"bundle rule {fault}")
    equal("build", answer(place, "build", "b.json"), wanted)
    SEEN["changed bundles"] += 1
    SEEN[f"  {fault.split()[0]}" if fault else "  without a fault"] += 1


def main():
    for seed in range(BUNDLES):
        made = Bundle(seed)
        with tempfile.TemporaryDirectory() as folder:
            place = pathlib.Path(folder)
            try:
                compare_good(place, made.document, made.draw)
                if made.maybe(0.6):
                    made.add_systems()
                if made.maybe(0.3):
                    made.add_solution()
                for _ in range(made.draw.choice([1, 1, 1, 2, 3])):
                    made.change()
                compare_changed(place, made)
            except Differs as found:
                print(f"bundle {seed}: {found}\n{json.dumps(made.document)}")
                sys.exit(1)
    for what, count in sorted(SEEN.items()):
        print(f"{count:6} {what}")


main()
