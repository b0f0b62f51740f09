#!/usr/bin/env python3
"""How long a run takes with more workers: scripts of renames and shows over one database.

    workers.py DB [--program CMD] [--beside CMD] [--workers 1 2 4] [--scripts 64] [--transactions 200] [--rounds 3] [--out DIR]

Each script has so many transactions, one after another a rename of a label to another name and back, and a show. In the first row the labels
of two scripts differ; in the second all scripts use eight. The table has medians over the rounds of the time of the whole process, side by
side in one run, less that of an empty script; and how many numbers met a conflict (void entries of the history). `--beside` names a program
that has no `--workers`, as the one-thread editor's was.
"""

import argparse
import pathlib
import sys
from statistics import median

from mixed import run, units

HERE = pathlib.Path(__file__).resolve().parent


def script(labels, number, count):
    """A script of so many transactions on these labels."""
    lines = []
    for turn in range(count):
        label = labels[turn // 2 % len(labels)]
        other = f"{label}-{number}"
        command = f"show {label}" if turn % 2 else f"rename {label} {other} rename {other} {label}"
        lines.append(f"begin {command} commit\n")
    return "".join(lines)


def spent(program, options, db, paths, workers):
    """The time of a run in milliseconds, and its void entries; of a program without workers, none."""
    if workers is None:
        return run(program, "run", db, *paths)[0], 0
    history = options.out / "history"
    took = run(program, "run", "--workers", workers, "--history", history, db, *paths)[0]
    return took, history.read_text().splitlines().count("void")


def row(name, options, paths, empty):
    """The line of one row: for each program and number of workers its time and its void entries."""
    columns = [(options.program, workers) for workers in options.workers]
    if options.beside:
        columns.append((options.beside, None))
    times, voids = {column: [] for column in columns}, {}
    for _ in range(options.rounds):
        for column in columns:
            program, workers = column
            opening = spent(program, options, options.db, [empty], workers)[0]
            took, voids[column] = spent(program, options, options.db, paths, workers)
            times[column].append(took - opening)
    cells = [f"{median(times[c]):.0f} ms ({voids[c]} void)" if c[1] else f"{median(times[c]):.0f} ms" for c in columns]
    heads = [f"{c[1]} workers" if c[1] else "one-thread editor" for c in columns]
    print(f"{name}: " + ", ".join(f"{head} {cell}" for head, cell in zip(heads, cells)), flush=True)


def main():
    parser = argparse.ArgumentParser(description=__doc__, formatter_class=argparse.RawDescriptionHelpFormatter)
    parser.add_argument("db", type=pathlib.Path)
    parser.add_argument("--program", default=str(HERE.parent / "crates/mmrefactor/out/mmrefactor"))
    parser.add_argument("--beside")
    parser.add_argument("--workers", type=int, nargs="+", default=[1, 2, 4])
    parser.add_argument("--scripts", type=int, default=64)
    parser.add_argument("--transactions", type=int, default=200)
    parser.add_argument("--rounds", type=int, default=3)
    parser.add_argument("--out", type=pathlib.Path, default=pathlib.Path("/tmp/mmrefactor-workers"))
    options = parser.parse_args()
    options.out.mkdir(parents=True, exist_ok=True)
    empty = options.out / "empty.edits"
    empty.write_text("")
    labels = [label for label, _ in units(run(options.program, "run", options.db, empty)[1].removeprefix("library\n"))]
    share = max(1, len(labels) // options.scripts)
    for name, own in (
        ("different labels", lambda k: labels[k * share : (k + 1) * share]),
        ("eight hot labels", lambda k: labels[:8]),
    ):
        paths = [options.out / f"{k}.edits" for k in range(options.scripts)]
        for k, path in enumerate(paths):
            path.write_text(script(own(k), k, options.transactions))
        row(name, options, paths, empty)


if __name__ == "__main__":
    sys.exit(main())
