#!/usr/bin/env python3
"""Times `mmrefactor verify` beside `metamath`, and beside a yardstick without proofs, over the same sources.

    verify.py [--databases FOLDER] [--program CMD] [--metamath CMD] [--yardstick CMD] [--workers 1,2,4] [--rounds 5] [NAME..]

The sources are Debian's (package metamath-databases), or the *.mm of FOLDER; NAME, as in `ql`, measures that one alone. Medians over the
rounds, turn and turn about, of the whole process, in milliseconds, and the most resident bytes of the first number of workers in bytes a byte
of source. `metamath` reads and verifies by `verify proof *`; --yardstick, called as `CMD --threads N SOURCE`, is a program to compare with.
A measurement and no test; `hostile.py --by verify` measures texts that were made to be slow.
"""

import argparse
import os
import pathlib
import shlex
import statistics
import subprocess
import time

HERE = pathlib.Path(__file__).resolve().parent
DEBIAN = "/usr/share/metamath/databases"


def once(command):
    """Milliseconds and the most resident bytes of a process, and its status."""
    start = time.perf_counter()
    child = subprocess.Popen(command, stdout=subprocess.DEVNULL, stderr=subprocess.DEVNULL, stdin=subprocess.DEVNULL)
    _, status, used = os.wait4(child.pid, 0)
    child.returncode = os.waitstatus_to_exitcode(status)
    return (time.perf_counter() - start) * 1e3, used.ru_maxrss * 1024, child.returncode


def measured(commands, rounds):
    """Of each command the median of the milliseconds and of the bytes, and its statuses, taken in turns."""
    turns = [[once(command) for command in commands] for _ in range(rounds)]
    return [(statistics.median(it[0] for it in row), statistics.median(it[1] for it in row), {it[2] for it in row}) for row in zip(*turns)]


def rows(options, sources):
    """Prints a row for each source."""
    workers = options.workers.split(",")
    heads = ["source", *(f"verify, {it}" for it in workers), "metamath", *(f"metamath / verify, {it}" for it in workers)]
    heads += [f"yardstick, {it}" for it in workers] if options.yardstick else []
    heads += [f"verify / yardstick, {it}" for it in workers] if options.yardstick else []
    heads += ["bytes a byte", "status"]
    print("| " + " | ".join(heads) + " |\n" + "|---" * len(heads) + "|")
    for source in sources:
        ours = [[*shlex.split(options.program), "verify", "--workers", it, str(source)] for it in workers]
        theirs = [[*shlex.split(options.metamath), f'read "{source}"', "verify proof *", "exit"]]
        beside = [[*shlex.split(options.yardstick), "--threads", it, str(source)] for it in workers] if options.yardstick else []
        found = measured([*ours, *theirs, *beside], options.rounds)
        mine, other, yard = found[: len(ours)], found[len(ours)], found[len(ours) + 1 :]
        row = [source.name, *(f"{it[0]:.1f}" for it in mine), f"{other[0]:.1f}", *(f"{other[0] / it[0]:.2f}" for it in mine)]
        row += [*(f"{it[0]:.1f}" for it in yard), *(f"{a[0] / b[0]:.2f}" for a, b in zip(mine, yard))]
        statuses = set.union(*(it[2] for it in mine))
        row += [f"{mine[0][1] / source.stat().st_size:.1f}", " ".join(map(str, sorted(statuses)))]
        print("| " + " | ".join(row) + " |", flush=True)


def main():
    parser = argparse.ArgumentParser(description=__doc__, formatter_class=argparse.RawDescriptionHelpFormatter)
    parser.add_argument("names", nargs="*", metavar="NAME")
    parser.add_argument("--databases", type=pathlib.Path, default=pathlib.Path(DEBIAN))
    parser.add_argument("--program", default=f"{HERE.parent}/crates/mmrefactor/out/mmrefactor")
    parser.add_argument("--metamath", default="metamath")
    parser.add_argument("--yardstick")
    parser.add_argument("--workers", default="1,2,4")
    parser.add_argument("--rounds", type=int, default=5)
    options = parser.parse_args()
    sources = sorted(options.databases.glob("*.mm"), key=lambda it: it.stat().st_size)
    print(f"nproc {os.cpu_count()}, load {os.getloadavg()[0]:.1f}; medians of {options.rounds} rounds in ms\n")
    rows(options, [it for it in sources if not options.names or it.stem in options.names])


if __name__ == "__main__":
    main()
