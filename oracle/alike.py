"""Many logs told by two programs, which must say the same; what chain/compare.py and listing/compare.py share."""
import argparse
import collections
import os
import random
import sys

ROOT = os.path.dirname(os.path.dirname(os.path.abspath(__file__)))
sys.path.insert(0, os.path.join(ROOT, "samples"))
sys.dont_write_bytecode = True
from logs import samples  # noqa: E402


def compare(programs, logs, always, kinds, draw, tell, lines):
    """Tells the test logs, the first `always` logs of seed 1 and `--logs` of `--seed`; answers the logs' count and that of the kinds.

    `draw` makes a log of a random source and its number; `tell` is given the command's words and a log and answers what both say, or
    why that is a fault; `lines` finds the kinds in what was said. Those of seed 1, which every run tells, and the test logs must have
    just `kinds`: so that each is met hangs on no seed."""
    words = argparse.ArgumentParser()
    for program in programs:
        words.add_argument(program)
    words.add_argument("--seed", type=int, default=1)
    words.add_argument("--logs", type=int, default=logs)
    given = words.parse_args()
    seen = collections.Counter()

    def one(name, data):
        said, fault = tell(given, data)
        if fault:
            path = os.path.join(ROOT, "target/oracle/differs.log")
            with open(path, "wb") as file:
                file.write(data)
            sys.exit(f"{name} {fault}; it is in {path}")
        seen.update(lines(said))

    def drawn(seed, number):
        one(f"log {number} of seed {seed}", draw(random.Random(f"{seed} {number}"), number))

    for name, data in samples().items():
        one(name, data)
    for number in range(always):
        drawn(1, number)
    if seen.keys() != kinds:
        sys.exit(f"lines of other kinds than {sorted(kinds)}: {sorted(seen)}")
    for number in range(given.logs):
        drawn(given.seed, number)
    return len(samples()) + always + given.logs, ", ".join(f"{kind} {count}" for kind, count in sorted(seen.items()))
