#!/usr/bin/env python3
"""Mixed transactions over a real database: makes them, runs them, and compares.

    mixed.py DB.. [--program CMD] [--beside CMD] [--transactions 400] [--rounds 1] [--seed 1] [--out DIR]

For each DB it asks the program for its canonical text (a run of an empty script), makes a script of random transactions of all commands
but `replace`, runs it, checks the export with the program's `check`, and, where another program of the same command line is named, compares what
both print, byte by byte, and how long each takes: the run of the script less that of the empty one, medians over the rounds. It stops at
the first difference or refusal of an export.
"""

import argparse
import pathlib
import random
import shlex
import subprocess
import sys
import time
from statistics import median

HERE = pathlib.Path(__file__).resolve().parent


def run(program, *arguments):
    start = time.perf_counter()
    done = subprocess.run([*shlex.split(program), *map(str, arguments)], capture_output=True, check=False)
    if done.returncode != 0:
        raise SystemExit(f"{program} {arguments}: {done.stderr.decode()}")
    return (time.perf_counter() - start) * 1e3, done.stdout.decode()


def units(text):
    """(label, lines) of each assertion of a canonical text."""
    found, lines = [], []
    for line in text.splitlines():
        words = line.split()
        if not words or words[0] in ("$c", "$v") or (len(words) > 1 and words[1] == "$f"):
            continue
        lines.append(line)
        if lines[0] == "${" and line != "$}":
            continue
        body = lines if len(lines) == 1 else lines[1:-1]
        found.append((body[-1].split()[0], lines))
        lines = []
    return found


def renamed(label, new, lines):
    """The lines of an assertion with another label, in those of its hypotheses too."""
    def word(w):
        return new + w[len(label):] if w == label or w.startswith(label + ".") else w
    return " ".join(" ".join(word(w) for w in line.split()) for line in lines)


class Script:
    """Random transactions over the assertions of a database. It needn't know what is refused: that is the program's matter."""

    def __init__(self, text, seed):
        self.chance = random.Random(seed)
        self.units = units(text)
        self.labels = [label for label, _ in self.units]
        self.theorems = [(label, lines) for label, lines in self.units if " $p " in lines[-1] + lines[-2 if len(lines) > 1 else -1]]
        self.fresh = 0

    def label(self):
        return self.chance.choice(self.labels)

    def new(self):
        self.fresh += 1
        return f"new-{self.fresh}"

    def rename(self):
        place, new = self.chance.randrange(len(self.labels)), self.new()
        old, self.labels[place] = self.labels[place], new
        return f"rename {old} {new}"

    def move(self):
        place = self.chance.randrange(len(self.labels))
        return f"move {self.labels[place]} {max(0, 100 * (place + 1) + self.chance.randint(-300, 300))}"

    def add(self):
        if not self.theorems:
            return "list"
        label, lines = self.chance.choice(self.theorems)
        new = self.new()
        place = [known for known, _ in self.units].index(label)
        self.labels.append(new)
        return f"add {100 * (place + 1) + self.chance.randint(0, 1000)} {renamed(label, new, lines)}"

    def reprove(self):
        if not self.theorems:
            return "list"
        label, lines = self.chance.choice(self.theorems)
        steps = " ".join(lines).split(" $= ")[1].split(" $.")[0]
        return f"reprove {label} $= {steps} $."

    def delete(self):
        return f"delete {self.label()}"

    def show(self):
        return f"show {self.label()}"

    def command(self):
        kinds = [self.rename, self.move, self.add, self.reprove, self.delete, self.show, self.show]
        return self.chance.choice(kinds)()

    def transactions(self, count):
        for i in range(count):
            commands = [self.command() for _ in range(self.chance.choice((1, 1, 1, 2, 3)))]
            if i % 100 == 50:
                commands.append("list")
            yield f"begin {' '.join(commands)} commit\n"


def main():
    parser = argparse.ArgumentParser(description=__doc__, formatter_class=argparse.RawDescriptionHelpFormatter)
    parser.add_argument("db", type=pathlib.Path, nargs="+")
    parser.add_argument("--program", default=str(HERE.parent / "crates/mmrefactor/out/mmrefactor"))
    parser.add_argument("--beside")
    parser.add_argument("--transactions", type=int, default=400)
    parser.add_argument("--rounds", type=int, default=1)
    parser.add_argument("--seed", type=int, default=1)
    parser.add_argument("--out", type=pathlib.Path, default=pathlib.Path("/tmp/mmrefactor-benches"))
    options = parser.parse_args()
    options.out.mkdir(parents=True, exist_ok=True)
    programs = [options.program] + ([options.beside] if options.beside else [])
    empty, script, export = (options.out / name for name in ("empty.edits", "mixed.edits", "export.mm"))
    empty.write_text("")
    for db in options.db:
        text = run(options.program, "run", db, empty)[1].removeprefix("library\n")
        script.write_text("".join(Script(text, options.seed).transactions(options.transactions)))
        spent, printed = {program: [] for program in programs}, {}
        for _ in range(options.rounds):
            for program in programs:
                opening = run(program, "run", db, empty)[0]
                took, printed[program] = run(program, "run", db, script)
                spent[program].append(took - opening)
        if len(set(printed.values())) > 1:
            raise SystemExit(f"{db}: the programs print different texts")
        report, library = printed[options.program].split("library\n", 1)
        export.write_text(library)
        verdict = run(options.program, "check", export)[1].strip()
        committed, refused = (sum(f" {word} " in line for line in report.splitlines() if line[0] != " ") for word in ("committed", "refused"))
        times = ", ".join(f"{program.split('/')[-1]} {median(of):.1f} ms" for program, of in spent.items())
        print(f"{db.name}: {options.transactions} transactions, {committed} committed, {refused} refused, export {verdict}; {times}")


if __name__ == "__main__":
    main()
