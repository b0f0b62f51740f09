#!/usr/bin/env python3
"""Runs random scripts by many workers, again and again, and judges each run by what it prints.

    soak.py DB.. [--program CMD] [--workbench CMD] [--workers 1 2 8 64] [--runs 40] [--scripts 64] [--transactions 6] [--seed 1] [--out DIR]

For each DB and each number of workers it makes, with one seed a run, so many scripts of random transactions of all commands but `replace` over the
same labels, so that workers meet, and runs them with a history. A run is as it should be where

- each script has one outcome for each of its transactions, in order, and its numbers and places don't go back;
- the numbers of those that committed are those of the history's done entries, each of one;
- a replay of the history, which does the same transactions on one thread, gives the printed library;
- `check` accepts the printed library.

It stops at the first run that is not, whose files stay in DIR, and says at the end how many transactions committed, were refused, read, and
met a conflict after they had drawn a number.

With `--workbench`, the built crate of that name, it runs scripts of `show`, `move`, `reprove` and `rename` by it instead, each by a session of its own, and
looks at each conflict that a try met: its cell is to be one that the transaction may read, and that a transaction of another script may
write (`footprints.py`); and where the cell was free, the transaction whose number its word shows is to be one of these. It says how many
conflicts there were, and stops at the first that is between transactions whose footprints are apart.
"""

import argparse
import collections
import pathlib
import re
import shlex
import subprocess
import sys

import footprints
from mixed import Script, run

HERE = pathlib.Path(__file__).resolve().parent
OUTCOME = re.compile(r"(\d+)\.(\d+) (committed|read|refused|store full|numbers used|too many commands|no memory) ?(\d+)?")


def outcomes(report):
    """The outcomes of each script, by its number: (transaction, kind, number or place)."""
    scripts = collections.defaultdict(list)
    for line in report.splitlines():
        if line.startswith(" "):
            continue
        found = OUTCOME.match(line)
        if not found:
            raise SystemExit(f"no outcome: {line}")
        script, transaction, kind, place = found.groups()
        scripts[int(script)].append((int(transaction), kind, int(place or 0)))
    return scripts


def fault_of(report, history, counts):
    """What is wrong with the outcomes of a run, by its history."""
    scripts, numbers = outcomes(report), []
    if len(scripts) != len(counts):
        return "a script without outcomes"
    for script, count in enumerate(counts, 1):
        own, behind = scripts[script], 0
        if [transaction for transaction, _, _ in own] != list(range(1, count + 1)):
            return f"script {script}: not one outcome for each transaction"
        for _, kind, place in own:
            if kind == "committed":
                numbers.append(place)
                if place <= behind:
                    return f"script {script}: number {place} behind {behind}"
            elif kind not in ("read", "refused"):
                return f"script {script}: {kind}"
            elif place < behind:
                return f"script {script}: place {place} behind {behind}"
            behind = place
    entries = [line for line in history.splitlines() if line in ("void", "done")]
    done = [number for number, entry in enumerate(entries, 1) if entry == "done"]
    return None if sorted(numbers) == done else "the committed numbers aren't those of the done entries"


def judge(program, db, scripts, counts, workers, out):
    """Runs the scripts, and says how they ended: how many of each outcome, and how many void entries."""
    kept, export = out / "history", out / "export.mm"
    printed = run(program, "run", "--workers", workers, "--room", 16777216, "--history", kept, db, *scripts)[1]
    report, library = printed.split("library\n", 1)
    history = kept.read_text()
    fault = fault_of(report, history, counts)
    if not fault and run(program, "replay", db, kept)[1].split("library\n", 1)[1] != library:
        fault = "the replay gives another library"
    export.write_text(library)
    verdict = subprocess.run([*shlex.split(program), "check", str(export)], capture_output=True, check=False)
    if not fault and verdict.returncode:
        fault = f"the export is refused: {verdict.stderr.decode()}"
    if fault:
        (out / "report").write_text(report)
        raise SystemExit(f"{db.name}, {workers} workers: {fault}; see {out}")
    ended = collections.Counter(kind for own in outcomes(report).values() for _, kind, _ in own)
    ended["void"] = history.splitlines().count("void")
    return ended


def meet(program, db, text, options):
    """Runs scripts by sessions of their own, again and again, and looks at each conflict."""
    seen = collections.Counter()
    for turn in range(options.runs):
        library = footprints.Library(text)
        scripts = library.scripts(f"{options.seed}.{turn}", options.scripts, options.transactions)
        paths = [options.out / f"{script}.edits" for script in range(1, len(scripts) + 1)]
        for path, script in zip(paths, scripts):
            path.write_text(footprints.text_of(script))
        printed = run(program, "meets", db, *paths)[1]
        counts, wrong = footprints.conflicts(library, scripts, printed)
        if wrong:
            (options.out / "met").write_text(printed)
            raise SystemExit(f"{db.name}: {wrong[0]}; see {options.out}")
        seen += counts
    told = ", ".join(f"{count} {where}" for where, count in sorted(seen.items())) or "none"
    print(f"{db.name}, {options.scripts} scripts, {options.runs} runs: conflicts {told}; none between footprints that are apart", flush=True)


def main():
    parser = argparse.ArgumentParser(description=__doc__, formatter_class=argparse.RawDescriptionHelpFormatter)
    parser.add_argument("db", type=pathlib.Path, nargs="+")
    parser.add_argument("--program", default=str(HERE.parent / "crates/mmrefactor/out/mmrefactor"))
    parser.add_argument("--workbench")
    parser.add_argument("--workers", type=int, nargs="+", default=[1, 2, 8, 64])
    parser.add_argument("--runs", type=int, default=40)
    parser.add_argument("--scripts", type=int, default=64)
    parser.add_argument("--transactions", type=int, default=6)
    parser.add_argument("--seed", type=int, default=1)
    parser.add_argument("--out", type=pathlib.Path, default=pathlib.Path("/tmp/mmrefactor-soak"))
    options = parser.parse_args()
    options.out.mkdir(parents=True, exist_ok=True)
    empty = options.out / "empty.edits"
    empty.write_text("")
    for db in options.db:
        text = run(options.program, "run", db, empty)[1].removeprefix("library\n")
        if options.workbench:
            meet(options.workbench, db, text, options)
            continue
        for workers in options.workers:
            ended = collections.Counter()
            for turn in range(options.runs):
                paths = [options.out / f"{script}.edits" for script in range(1, options.scripts + 1)]
                for script, path in enumerate(paths):
                    made = Script(text, f"{options.seed}.{turn}.{script}")
                    path.write_text("".join(made.transactions(options.transactions)))
                ended += judge(options.program, db, paths, [options.transactions] * len(paths), workers, options.out)
            told = ", ".join(f"{count} {kind}" for kind, count in sorted(ended.items()))
            print(f"{db.name}, {workers} workers, {options.runs} runs: {told}", flush=True)


if __name__ == "__main__":
    sys.exit(main())
