#!/usr/bin/env python3
"""Times the program on made inputs, side by side with another program of the same command line.

    bench.py [--program CMD] [--beside CMD] [--metamath CMD] [--out DIR] [--rounds 7] [--check DB]..

--program is the program under test (default ../crates/mmrefactor/out/mmrefactor), --beside one to compare with, --metamath the program of
that name (reading alone, and reading with `verify proof *`). The second table is of `check`, over made inputs and over each DB that is
named, on one, two and four processors, beside metamath on one. The programs are run in turn, once each round, so that a change of the
machine's load meets them alike. Medians over the rounds in milliseconds, in brackets the best round; ratios are medians of the ratios
within a round. It is a measurement and no test: it passes whatever it finds.
"""

import argparse
import os
import pathlib
import shlex
import subprocess
import sys
import time
from statistics import median

HERE = pathlib.Path(__file__).resolve().parent
SIZES = (1, 4, 16)


def make(path, *arguments):
    if not path.exists():
        subprocess.run([sys.executable, str(HERE / "generate.py"), *map(str, arguments)], check=True)


def checked(out, named):
    """{name: a database to check}."""
    out.mkdir(parents=True, exist_ok=True)
    rows = {}
    for kind, count, what in (("hypotheses", 1000, "hypotheses"), ("pairs", 362, "variables in one $d"), ("proof", 16384, "steps of one proof")):
        path = out / f"{kind}.mm"
        make(path, kind, path, "--count", count)
        rows[f"{count:,} {what}"] = path
    path = out / "theorems16.mm"
    make(path, "theorems", path, "--megabytes", 16)
    rows[f"4,092 theorems, {path.stat().st_size / 1e6:.1f} MB"] = path
    for path in named:
        rows[path.name] = path
    return rows


def inputs(out):
    """{name: arguments of the program behind `run`}."""
    out.mkdir(parents=True, exist_ok=True)
    empty = out / "empty.edits"
    empty.write_text("")
    rows = {}
    for size in SIZES:
        path = out / f"db{size}.mm"
        # The text stays below 16,777,216 bytes, the most that is read.
        make(path, "db", path, "--megabytes", size)
        rows[f"read and write {path.stat().st_size / 1e6:.1f} MB"] = [path, empty]
    for size in SIZES:
        path = out / f"blocks{size}.mm"
        make(path, "blocks", path, "--megabytes", size)
        rows[f"blocks: read and write {path.stat().st_size / 1e6:.1f} MB"] = [path, empty]
    axioms, renames = out / "axioms.mm", out / "renames.edits"
    make(axioms, "axioms", axioms, "--count", 4096)
    make(renames, "renames", renames, "--count", 10_000, "--axioms", 4096)
    rows["open 4,096 axioms"] = [axioms, empty]
    rows["10,000 renames over 4,096 axioms"] = [axioms, renames]
    return rows


def milliseconds(command, processors=None):
    """How long a command takes, on the first processors or on all, and what it prints."""
    chosen = None if processors is None else (lambda: os.sched_setaffinity(0, range(processors)))
    start = time.perf_counter()
    done = subprocess.run(command, stdout=subprocess.PIPE, stderr=subprocess.PIPE, check=False, preexec_fn=chosen)
    took = (time.perf_counter() - start) * 1e3
    if done.returncode != 0:
        raise SystemExit(f"{shlex.join(map(str, command))}: {done.stderr.decode()}")
    return took, done.stdout


def table_of_checks(options):
    """`check` on one processor, two and more, beside metamath: reading alone, and with its proofs. The ratio is that of one processor."""
    counts = [n for n in (1, 2, 4) if n <= (os.cpu_count() or 1)]
    titles = [f"on {n}" for n in counts] + (["metamath reads", "and verifies", "ratio on 1"] if options.metamath else [])
    print("\n| checked | " + " | ".join(titles) + " |")
    print("|---" * (1 + len(titles)) + "|")
    for name, path in checked(options.out, options.check).items():
        commands = {f"on {n}": ([*shlex.split(options.program), "check", path], n) for n in counts}
        if options.metamath:
            read = f'read "{path}"'
            commands["reads"] = ([*shlex.split(options.metamath), read, "exit"], 1)
            commands["verifies"] = ([*shlex.split(options.metamath), read, "verify proof *", "exit"], 1)
        took = {column: [] for column in commands}
        for _ in range(options.rounds):
            for column, (command, processors) in commands.items():
                took[column].append(milliseconds(command, processors)[0])
        cells = [f"{median(of):.1f} ({min(of):.1f})" for of in took.values()]
        if options.metamath:
            cells.append(f"{median(a / b for a, b in zip(took['on 1'], took['verifies'])):.2f}")
        print(f"| {name} | " + " | ".join(cells) + " |")


def main():
    parser = argparse.ArgumentParser(description=__doc__, formatter_class=argparse.RawDescriptionHelpFormatter)
    parser.add_argument("--program", default=str(HERE.parent / "crates/mmrefactor/out/mmrefactor"))
    parser.add_argument("--beside")
    parser.add_argument("--metamath")
    parser.add_argument("--check", type=pathlib.Path, action="append", default=[])
    parser.add_argument("--out", type=pathlib.Path, default=pathlib.Path("/tmp/mmrefactor-benches"))
    parser.add_argument("--rounds", type=int, default=7)
    options = parser.parse_args()
    programs = {"mmrefactor": shlex.split(options.program)}
    if options.beside:
        programs["beside"] = shlex.split(options.beside)
    print(f"nproc {os.cpu_count()}, load {os.getloadavg()[0]:.1f}, medians of {options.rounds} rounds in ms (best)\n")
    print("| input | " + " | ".join(programs) + (" | ratio |" if options.beside else " |"))
    print("|---" * (1 + len(programs) + bool(options.beside)) + "|")
    medians = {}
    for name, arguments in inputs(options.out).items():
        took = {program: [] for program in programs}
        outputs = {}
        for _ in range(options.rounds):
            for program, command in programs.items():
                spent, outputs[program] = milliseconds([*command, "run", *arguments])
                took[program].append(spent)
        if len(set(outputs.values())) > 1:
            raise SystemExit(f"{name}: the programs print different texts")
        medians[name] = median(took["mmrefactor"])
        cells = [f"{median(of):.1f} ({min(of):.1f})" for of in took.values()]
        if options.beside:
            cells.append(f"{median(a / b for a, b in zip(took['mmrefactor'], took['beside'])):.2f}")
        print(f"| {name} | " + " | ".join(cells) + " |")
    for start in ("read", "blocks"):
        reads = [spent for name, spent in medians.items() if name.startswith(start)]
        print(f"\n{start}: from {SIZES[1]} to {SIZES[2]} MB {reads[2] / reads[1]:.2f} times")
    table_of_checks(options)


if __name__ == "__main__":
    main()
