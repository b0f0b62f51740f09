#!/usr/bin/env python3
"""Times reading and `check_all` alone, on one, two and four processors.

    check.py DB.. [--program CMD] [--beside CMD] [--metamath CMD] [--rounds 5]

--program is ../crates/workbench/out/workbench check, which reads a database and checks its proofs eleven times. --beside is a reference program as
`yard_check`, which is called with `--threads N DB` and tells its times on the standard error as `parse_us N verify_us N steps N`. Medians over the
rounds, in milliseconds; of a round the median of the eleven checks. A measurement and no test.
"""

import argparse
import os
import pathlib
import re
import shlex
import statistics
import subprocess
import time

HERE = pathlib.Path(__file__).resolve().parent
PROCESSORS = [1, 2, 4]


def on(count, command):
    """The output of a command that may run on so many processors."""
    return subprocess.run(["taskset", "-c", f"0-{count - 1}", *command], capture_output=True, text=True, check=True)


def ours(program, db, count):
    """Milliseconds for reading, and for a check."""
    said = on(count, [*program, db]).stderr
    read = int(re.search(r"read_us (\d+)", said)[1])
    checks = [int(time) for time in re.findall(r"check_us (\d+)", said)]
    return read / 1e3, statistics.median(checks) / 1e3


def beside(program, db, count):
    """The same of a reference program, and how many steps the proofs have."""
    said = on(count, [*program, "--threads", str(count), db]).stderr
    read, check, steps = (int(re.search(rf"{word} (\d+)", said)[1]) for word in ("parse_us", "verify_us", "steps"))
    return read / 1e3, check / 1e3, steps


def metamath(program, db):
    """Milliseconds of the whole process."""
    start = time.perf_counter()
    subprocess.run([*program, f'read "{db}"', "verify proof *", "exit"], capture_output=True, check=True)
    return (time.perf_counter() - start) * 1e3


def main():
    parser = argparse.ArgumentParser(description=__doc__, formatter_class=argparse.RawDescriptionHelpFormatter)
    parser.add_argument("db", type=pathlib.Path, nargs="+")
    parser.add_argument("--program", default=f"{HERE.parent}/crates/workbench/out/workbench check")
    parser.add_argument("--beside")
    parser.add_argument("--metamath")
    parser.add_argument("--rounds", type=int, default=5)
    options = parser.parse_args()
    program = shlex.split(options.program)
    print(f"nproc {os.cpu_count()}, load {os.getloadavg()[0]:.1f}; medians of {options.rounds} rounds in ms\n")
    print("| database | processors | read | check | beside: read | check | read / beside | check / beside | ns a step | metamath whole |")
    print("|---" * 10 + "|")
    for db in options.db:
        for count in PROCESSORS:
            mine, theirs, old = [], [], []
            for _ in range(options.rounds):
                mine.append(ours(program, db, count))
                if options.beside:
                    theirs.append(beside(shlex.split(options.beside), db, count))
                if options.metamath and count == 1:
                    old.append(metamath(shlex.split(options.metamath), db))
            read, check = (statistics.median(column) for column in list(zip(*mine)))
            row = [db.name, count, f"{read:.1f}", f"{check:.1f}", "", "", "", "", "", f"{statistics.median(old):.1f}" if old else ""]
            if theirs:
                theirs_read, theirs_check, steps = (statistics.median(column) for column in zip(*theirs))
                row[4:9] = [f"{theirs_read:.1f}", f"{theirs_check:.1f}", f"{read / theirs_read:.2f}", f"{check / theirs_check:.2f}", f"{check * 1e6 / steps:.0f}"]
            print("| " + " | ".join(str(cell) for cell in row) + " |", flush=True)


if __name__ == "__main__":
    main()
