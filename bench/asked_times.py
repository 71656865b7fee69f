#!/usr/bin/env python3
"""Times `pota_ask` with ten questions beside one, on a log of 32 processes and 50,000 events.

    bench/asked_times.py POTA_ASK [RUNS]

POTA_ASK is the built program. The log is that of `log_times.py`. The questions are of each form; a second row has ten of atoms alone, as
most suites have. A row has the least processor time of RUNS runs (5) in milliseconds, and the ratio to one question of atoms, which needs
one least cut. `surely` and `at end` alone settle rows. The exit status is 1 where ten questions take more than three times one. It
takes about a minute, and writes one temporary file.
"""
import os
import resource
import subprocess
import sys
import tempfile

from log_times import generated

ONE_OF_ATOMS = ["never P1.n = 320 & P2.n = 1"]
ONE_SETTLED = ["at end P8.n >= 7"]
ATOMS = [f"never P{p}.n = {32 * p} & P{p + 1}.n = 1" for p in range(1, 11)]
FORMS = [
    "never P1.n = 320 & P2.n = 1",
    "can P3.n = 2 & P9.n = 8",
    "always !(P4.n = 3 & P5.n = 40004)",
    "always P6.n >= 0",
    "surely P7.n = 6",
    "at end P8.n >= 7",
    "EF (P9.n = 8 & P10.n = 9)",
    "never intransit(P1,P2) > 3",
    "can empty(P2,P3) & P2.n > 100",
    "never P11.n = 10 & P12.n = 11 & P13.n = 12",
]


def took(program, questions, log):
    """The processor time of one run in milliseconds."""
    before = resource.getrusage(resource.RUSAGE_CHILDREN)
    with open(log, "rb") as text:
        run = subprocess.run([program, *questions], stdin=text, stdout=subprocess.DEVNULL, check=False)
    if run.returncode not in (0, 1):
        sys.exit(f"{program} ended with {run.returncode}")
    after = resource.getrusage(resource.RUSAGE_CHILDREN)
    return 1000 * (after.ru_utime + after.ru_stime - before.ru_utime - before.ru_stime)


def main():
    program = sys.argv[1]
    runs = int(sys.argv[2]) if len(sys.argv) > 2 else 5
    with tempfile.TemporaryDirectory() as room:
        log = os.path.join(room, "run.log")
        with open(log, "w", encoding="utf-8") as text:
            text.write(generated())
        rows = [("one of atoms", ONE_OF_ATOMS, ONE_OF_ATOMS), ("ten of atoms", ATOMS, ONE_OF_ATOMS)]
        rows += [("one that is settled", ONE_SETTLED, ONE_OF_ATOMS), ("ten of each form", FORMS, ONE_OF_ATOMS)]
        times = {tuple(asked): min(took(program, asked, log) for _ in range(runs)) for _, asked, _ in rows}
    slow = False
    for title, asked, one in rows:
        ratio = times[tuple(asked)] / times[tuple(one)]
        slow = slow or ratio > 3
        print(f"{title:20} {times[tuple(asked)]:6.0f} ms {ratio:6.2f}")
    return int(slow)


if __name__ == "__main__":
    sys.exit(main())
