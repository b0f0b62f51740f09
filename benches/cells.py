#!/usr/bin/env python3
"""A library in cells beside the one-thread editor: opening, reading back, and transactions of one kind.

    cells.py DB.. [--program crates/workbench/out/workbench] [--beside CMD] [--transactions 2000] [--lists 20] [--rounds 3] [--seed 1] [--out DIR]

For each DB it takes the time of reading and checking, of opening in plain cells (less the former) and of reading all back (less that); and
for scripts of renames, shows, small additions, moves, deletions and lists the time of the transactions by the editor and over cells, each less that of
an empty script; and by another program of mmrefactor's command line, if one is named. Medians over the rounds, taken in turns; in milliseconds.
What the two count as done and refused has to be the same.
"""

import argparse
import pathlib
import random
import subprocess
import sys
import time
from statistics import median

sys.path.insert(0, str(pathlib.Path(__file__).resolve().parent))
from mixed import units  # noqa: E402

TOP = pathlib.Path(__file__).resolve().parent.parent


def run(program, *arguments):
    """The time of a run in milliseconds, and what it prints."""
    start = time.perf_counter()
    done = subprocess.run([program, *map(str, arguments)], capture_output=True, check=False)
    if done.returncode != 0:
        raise SystemExit(f"{program} {arguments}: {done.stderr.decode()}")
    return (time.perf_counter() - start) * 1e3, done.stdout.decode()


def transactions(kind, labels, steps, count, chance):
    """So many transactions of one command each. `steps` is a proof and a statement that any theorem may have."""
    names = list(labels)
    for number in range(count):
        place = chance.randrange(len(names))
        if kind == "rename":
            old, names[place] = names[place], f"new-{number}"
            yield f"rename {old} {names[place]}"
        elif kind == "show":
            yield f"show {names[place]}"
        elif kind == "add":
            # one theorem comes and goes, so that the library doesn't fill up
            statement, proof = steps
            yield f"add 4000000000 new-{number} $p {statement} $= {proof} $." if number % 2 == 0 else f"delete new-{number - 1}"
        elif kind == "move":
            yield f"move {names[place]} {100 * (place + 1) + chance.randint(1, 99)}"
        else:
            yield "list"


def main():
    parser = argparse.ArgumentParser(description=__doc__.splitlines()[0])
    parser.add_argument("databases", nargs="+", type=pathlib.Path)
    parser.add_argument("--program", default=TOP / "crates/workbench/out/workbench", type=pathlib.Path)
    parser.add_argument("--beside", help="an editor of mmrefactor's command line, as a yardstick", type=str)
    parser.add_argument("--transactions", type=int, default=2000)
    parser.add_argument("--lists", type=int, default=20)
    parser.add_argument("--rounds", type=int, default=3)
    parser.add_argument("--seed", type=int, default=1)
    parser.add_argument("--out", type=pathlib.Path, default=pathlib.Path("/tmp/cells"))
    asked = parser.parse_args()
    asked.out.mkdir(parents=True, exist_ok=True)
    empty = asked.out / "empty.edits"
    empty.write_text("", encoding="utf-8")
    for database in asked.databases:
        times = {task: [] for task in ("check", "open", "back")}
        for _ in range(asked.rounds):
            for task, taken in times.items():
                taken.append(run(asked.program, "cells", task, database)[0])
        check, opened, back = (median(times[task]) for task in ("check", "open", "back"))
        print(f"{database.name}: check {check:.0f}, open {opened - check:.0f}, read back {back - opened:.0f}")
        found = units(database.read_text(encoding="utf-8"))
        labels = [label for label, _ in found]
        theorem = next(lines[-1].split() for _, lines in reversed(found) if len(lines) == 1 and "$p" in lines[-1].split())
        at, by = theorem.index("$p"), theorem.index("$=")
        steps = (" ".join(theorem[at + 1:by]), " ".join(theorem[by + 1:-1]))
        for kind in ("rename", "show", "add", "move", "list"):
            count = asked.lists if kind == "list" else asked.transactions
            script = asked.out / f"{database.stem}-{kind}.edits"
            chance = random.Random(asked.seed)
            script.write_text("".join(f"begin {c} commit\n" for c in transactions(kind, labels, steps, count, chance)), encoding="utf-8")
            spent = {"editor": [], "cells": []}
            printed = set()
            for _ in range(asked.rounds):
                for task, taken in spent.items():
                    base = run(asked.program, "cells", task, database, empty)[0]
                    whole, said = run(asked.program, "cells", task, database, script)
                    taken.append(whole - base)
                    printed.add(said)
            if len(printed) != 1:
                raise SystemExit(f"{database.name} {kind}: the two differ: {printed}")
            editor, cells = median(spent["editor"]), median(spent["cells"])
            beside = ""
            if asked.beside:
                times = [run(asked.beside, "run", database, script)[0] - run(asked.beside, "run", database, empty)[0] for _ in range(asked.rounds)]
                beside = f", beside {median(times):.1f}"
            print(f"{database.name} {kind} x{count}: editor {editor:.1f}, cells {cells:.1f}, ratio {cells / max(editor, 0.001):.2f}{beside} ({printed.pop().strip()})")


if __name__ == "__main__":
    main()
