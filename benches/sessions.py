#!/usr/bin/env python3
"""Sessions on running words, side by side with the one-thread editor behind a lock: 1, 2 and 4 threads over 4,096 assertions.

    sessions.py [--program CMD] [--beside CMD] [--cells CMD] [--citations 3] [--transactions 2500] [--rounds 5] [--seed 1] [--out DIR]
                [WORKLOAD..]

The workloads are `renames` (scripts rename labels of their own), `hot` (all scripts rename the same eight labels there and back, in one
transaction), `shows`, and `mixed` (nine shows to one rename, of a script's own labels). Each has 16 scripts of so many transactions, and
each thread takes the next script that nobody has taken. The database is made by the seed: four axioms, and theorems, each of which cites
the first and so many others (`--citations`; with 0 nothing cites what the scripts rename, so that the editor copies no proof).

`--program` is the built crate workbench, which does them by `sessions` and by `mutex`. `--beside` names an editor of the command line
`run --workers N --room W --lock tl2|mutex --times DB SCRIPT..`, which says `run_us N` on the standard error, and `--cells` a program that
runs transactions on so many bare cells, of the command line `tl2|mutex disjoint|uniform THREADS TRANSACTIONS READS WRITES CELLS`, which
prints `tps N`.

All sides run in turn, once each round, so that a change of the machine's load meets them alike. Times are of the transactions alone,
without reading, opening and writing, in nanoseconds a transaction of all threads together: medians over the rounds, in brackets the best.
A ratio is the median of those within a round. `cpu` is what all threads used of the processors, which other work on the machine changes
least. What `sessions` and `mutex` count has to be the same. It is a measurement and no test: it passes whatever times it finds.
"""

import argparse
import os
import pathlib
import random
import re
import shlex
import subprocess
from statistics import median

from generate import Formula, formula, identity

HERE = pathlib.Path(__file__).resolve().parent
THREADS = (1, 2, 4)
ASSERTIONS = 4096
SCRIPTS = 16
HOT_LABELS = 8
# What scripts don't rename: the axioms, and the theorem that each other one cites.
FIRST = 5
# The share of renames, and for `--cells` how many cells a transaction reads and writes, of how many, and by which pattern.
WORKLOADS = {
    "renames": (1.0, (10, 5, 28672, "disjoint")),
    "hot": (1.0, (16, 9, 64, "uniform")),
    "shows": (0.0, (16, 0, 28672, "uniform")),
    "mixed": (0.1, (16, 1, 28672, "disjoint")),
}


# ---------------------------------------------------------------- inputs


def by_way_of(proof, target, cited, label):
    """A proof of the target that cites one more theorem: from `cited -> target` and `cited`."""
    both = cited.implies(target)
    weaker = [*target.steps, *both.steps, *proof, *target.steps, *cited.steps, "a1", "mp"]
    variables = [f"w{name.lower()}" for name in "PQR" if name in cited.symbols]
    return [*cited.steps, *target.steps, *variables, label, *weaker, "mp"]


def database(chance, citations):
    """Each theorem is `( A -> A )`, and cites the first and so many of the four hundred before it."""
    lines = ["$c ( ) -> wff |- $.", "$v P Q R $.", "wp $f wff P $.", "wq $f wff Q $.", "wr $f wff R $."]
    lines += ["wi $a wff ( P -> Q ) $.", "a1 $a |- ( P -> ( Q -> P ) ) $."]
    lines += ["a2 $a |- ( ( P -> ( Q -> R ) ) -> ( ( P -> Q ) -> ( P -> R ) ) ) $."]
    lines += ["${", "min $e |- P $.", "maj $e |- ( P -> Q ) $.", "mp $a |- Q $.", "$}"]
    first = Formula(["P"], ["wp"])
    theorems = [("t0", first.implies(first))]
    lines.append(f"t0 $p |- {' '.join(theorems[0][1].symbols)} $= {' '.join(identity(first))} $.")
    for number in range(1, ASSERTIONS - 4):
        of = formula(chance, chance.randint(1, 3))
        target, proof = of.implies(of), [*of.steps, "t0"]
        for label, cited in chance.sample(theorems[-400:], min(citations, len(theorems))):
            proof = by_way_of(proof, target, cited, label)
        theorems.append((f"t{number}", target))
        lines.append(f"t{number} $p |- {' '.join(target.symbols)} $= {' '.join(proof)} $.")
    return "\n".join(lines) + "\n"


def commands(workload, own, number, count, chance):
    """The commands of each transaction of the script with this number, over its own labels."""
    share = WORKLOADS[workload][0]
    names = {label: label for label in own}
    for _ in range(count):
        label = chance.choice(own)
        old = names[label]
        if workload == "hot":
            yield f"rename {label} {label}-{number} rename {label}-{number} {label}"
        elif chance.random() < share:
            names[label] = f"{label}-r" if old == label else label
            yield f"rename {old} {names[label]}"
        else:
            yield f"show {old}"


def write_inputs(options):
    """The database's path, and for each workload those of its scripts."""
    options.out.mkdir(parents=True, exist_ok=True)
    chance = random.Random(options.seed)
    base = options.out / "library.mm"
    base.write_text(database(chance, options.citations), encoding="ascii")
    labels = [f"t{number}" for number in range(FIRST - 4, ASSERTIONS - 4)]
    chance.shuffle(labels)
    scripts = {}
    for workload in options.workloads:
        scripts[workload] = [options.out / f"{workload}-{number}.edits" for number in range(SCRIPTS)]
        for number, path in enumerate(scripts[workload]):
            own = labels[:HOT_LABELS] if workload == "hot" else labels[number::SCRIPTS]
            made = commands(workload, own, number, options.transactions, chance)
            path.write_text("".join(f"begin {each} commit\n" for each in made), encoding="ascii")
    return base, scripts


# ---------------------------------------------------------------- runs


def run(command, *arguments):
    """The standard output, and the standard error."""
    done = subprocess.run([*shlex.split(command), *map(str, arguments)], capture_output=True, check=False)
    if done.returncode != 0:
        raise SystemExit(f"{command} {arguments}: {done.stderr.decode()}")
    return done.stdout.decode(), done.stderr.decode()


def number_of(name, text):
    """The number behind a name in a text."""
    return float(re.search(rf"\b{name} (\d+)", text)[1])


class Sides:
    """The programs of one workload: each answers nanoseconds a transaction, by how many threads, and ours those of the processors too."""

    def __init__(self, workload, base, scripts, options):
        self.workload, self.base, self.scripts, self.options = workload, base, scripts, options
        self.count = SCRIPTS * options.transactions
        self.printed, self.voids, self.used = set(), 0, {}

    def names(self):
        beside = ("beside tl2", "beside mutex") if self.options.beside else ()
        return ("sessions", "mutex", *beside, *(("cells tl2", "cells mutex") if self.options.cells else ()))

    def timed(self, name, threads):
        kind, engine = name.split() if " " in name else ("own", name)
        if kind == "cells":
            reads, writes, cells, pattern = WORKLOADS[self.workload][1]
            each = self.count // threads
            return 1e9 / number_of("tps", run(self.options.cells, engine, pattern, threads, each, reads, writes, cells)[0])
        if kind == "beside":
            line = ("run", "--workers", threads, "--room", 4_000_000, "--lock", engine, "--times", self.base, *self.scripts)
            return number_of("run_us", run(self.options.beside, *line)[1]) * 1e3 / self.count
        said, noted = run(self.options.program, "sessions", engine, threads, self.base, *self.scripts)
        self.printed.add(said.strip())
        self.voids = max(self.voids, int(number_of("voids", noted)))
        self.used.setdefault((engine, threads), []).append(number_of("cpu_us", noted) * 1e3 / self.count)
        return number_of("run_us", noted) * 1e3 / self.count


def measured(sides, rounds):
    """The times of each round, by the name and the number of threads."""
    times = {(name, threads): [] for name in sides.names() for threads in THREADS}
    for _ in range(rounds):
        for name, threads in times:
            times[name, threads].append(sides.timed(name, threads))
    if len(sides.printed) != 1:
        raise SystemExit(f"{sides.workload}: the counts differ: {sides.printed}")
    return times


def ratio(tops, bottoms):
    return median(top / bottom for top, bottom in zip(tops, bottoms))


def shown(values):
    """The median, and in brackets the best."""
    return f"{median(values):.0f} ({min(values):.0f})"


HEAD = ("sessions / mutex", "1 thread / these", "cpu sessions", "cpu mutex")


def rows(sides, times):
    """The lines of one workload's table: one for each number of threads."""
    for threads in THREADS:
        own, mutex = times["sessions", threads], times["mutex", threads]
        ratios = [f"{ratio(own, mutex):.2f}", f"{ratio(times['sessions', 1], own):.2f}"]
        used = [shown(sides.used[engine, threads]) for engine in ("sessions", "mutex")]
        yield [sides.workload, threads, *(shown(times[name, threads]) for name in sides.names()), *ratios, *used]


def stolen():
    """How many ticks of all processors the host took, and how many there were."""
    ticks = [int(word) for word in pathlib.Path("/proc/stat").read_text(encoding="ascii").splitlines()[0].split()[1:9]]
    return ticks[7], sum(ticks)


def line(cells):
    return f"| {' | '.join(str(cell) for cell in cells)} |"


def options_given():
    parser = argparse.ArgumentParser(description=__doc__, formatter_class=argparse.RawDescriptionHelpFormatter)
    parser.add_argument("workloads", nargs="*", metavar="WORKLOAD", help=", ".join(WORKLOADS))
    parser.add_argument("--program", default=str(HERE.parent / "crates/workbench/out/workbench"))
    parser.add_argument("--beside", help="an editor, as a yardstick")
    parser.add_argument("--cells", help="a program over bare cells, as a yardstick")
    parser.add_argument("--citations", type=int, default=3, help="of each theorem, besides the first")
    parser.add_argument("--transactions", type=int, default=2500, help="of each script")
    parser.add_argument("--rounds", type=int, default=5)
    parser.add_argument("--seed", type=int, default=1)
    parser.add_argument("--out", type=pathlib.Path, default=pathlib.Path("/tmp/sessions-bench"))
    options = parser.parse_args()
    if unknown := set(options.workloads) - set(WORKLOADS):
        parser.error(f"no such workload: {', '.join(sorted(unknown))}")
    options.workloads = options.workloads or list(WORKLOADS)
    return options


def main():
    options = options_given()
    base, scripts = write_inputs(options)
    before = stolen()
    for place, workload in enumerate(options.workloads):
        sides = Sides(workload, base, scripts[workload], options)
        times = measured(sides, options.rounds)
        if place == 0:
            head = ["workload", "threads", *sides.names(), *HEAD]
            print("\n".join([line(head), "|---" * len(head) + "|"]))
        for cells in rows(sides, times):
            print(line(cells), flush=True)
        print(f"<!-- {sides.count} transactions: {sides.printed.pop()}; at most {sides.voids} numbers met a conflict -->", flush=True)
    taken, ticks = (after - was for after, was in zip(stolen(), before))
    share = 100 * taken / max(1, ticks)
    print(f"{options.rounds} rounds; load {os.getloadavg()[1]:.1f}, {os.cpu_count()} processors, of which the host took {share:.0f} %")


if __name__ == "__main__":
    main()
