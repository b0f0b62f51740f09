#!/usr/bin/env python3
"""Times `mmrefactor edit` beside `mmrefactor verify` over the same source, and says how much memory each takes.

    edit.py [--databases FOLDER] [--program CMD] [--times 20] [--workers 1,4] [--rounds 3] [--seed 0] [NAME..]

The sources are Debian's (package metamath-databases), or the *.mm of FOLDER; NAME, as in `set`, measures that one alone. The script has
so many renames and so many other proofs, each a transaction: in the other proof a theorem without `$e` that the old one cites is replaced
by its own steps. Medians over the rounds, turn and turn about, of the whole process, in milliseconds, and the most resident bytes in bytes
a byte of source. The ratio is that of the edit, on as many workers, to the verify, which has all processors. A measurement and no test.
"""

import argparse
import concurrent.futures
import os
import pathlib
import random
import re
import runpy
import shlex
import subprocess
import tempfile

HERE = pathlib.Path(__file__).resolve().parent
measured = runpy.run_path(str(HERE / "verify.py"), run_name="verify")["measured"]
parsed = runpy.run_path(f"{HERE.parent}/tools/real-libraries", run_name="libraries")["parsed"]


def cited_by(source):
    """The labels that each compressed proof of a source names, in order, and how long its letters are."""
    text = re.sub(r"\$\(.*?\$\)", " ", source.read_text(encoding="ascii", errors="replace"), flags=re.S)
    found = re.findall(r"(\S+)\s+\$p\s[^$]*\$=\s*\(([^)]*)\)([^$]*)\$\.", text)
    return {label: (words.split(), len("".join(letters.split()))) for label, words, letters in found if "?" not in letters}


def inlined(found, floats, label, other):
    """The steps of a theorem's proof, each citation of another one in it replaced by that one's steps; None where they can't be."""
    stack = []
    for step in found[label]["steps"]:
        one = found.get(step)
        if one is None or step in found[label]["hypotheses"]:
            stack.append([step])
            continue
        many = len(one["floats"]) + len(one["hypotheses"])
        given, stack = stack[len(stack) - many :], stack[: len(stack) - many]
        if step == other:
            place = dict(zip(one["floats"], given))
            stack.append([it for own in one["steps"] for it in place.get(own, [own])])
        else:
            stack.append([it for words in given for it in words] + [step])
    return stack[0] if len(stack) == 1 else None


def script_of(program, source, times, seed):
    """A script of renames and other proofs over a source, and how many it has of each."""
    chance, cited = random.Random(seed), cited_by(source)
    short = {it for it, (_, length) in cited.items() if length < 60}
    pairs = [(it, word) for it, (words, length) in cited.items() if length < 400 for word in words if word in short]
    pairs = chance.sample(pairs, min(len(pairs), 60 * times))
    wanted = sorted({it for pair in pairs for it in pair})
    taken = subprocess.run([*shlex.split(program), "take", *(f"--for={it}" for it in wanted), str(source)], capture_output=True, check=True)
    floats, found = parsed(taken.stdout.decode())
    proofs = {}
    for label, other in pairs:
        one = found[other]
        own = all(it not in floats or it in one["floats"] for it in one["steps"] or ())
        plain = one["steps"] and found[label]["steps"] and own and not one["hypotheses"] and not one["pairs"]
        steps = inlined(found, floats, label, other) if plain and label not in proofs and len(proofs) < times else None
        if steps:
            proofs[label] = f"begin reprove {label} $= {' '.join(steps)} $. commit"
    names = chance.sample(sorted(set(cited) - set(wanted)), times)
    return "\n".join([*proofs.values(), *(f"begin rename {it} {it}-renamed commit" for it in names)]) + "\n", len(names), len(proofs)


def rows(options, sources, folder):
    """Prints a row for each source."""
    workers = options.workers.split(",")
    heads = ["source", "renames", "other proofs", "verify", *(f"edit, {it}" for it in workers), *(f"edit / verify, {it}" for it in workers)]
    print("| " + " | ".join([*heads, "verify: bytes a byte", *(f"edit, {it}" for it in workers), "status"]) + " |")
    print("|---" * (len(heads) + len(workers) + 2) + "|")
    for source in sources:
        # In a process of its own: what a child is said to have had at most counts what its parent had as it began.
        with concurrent.futures.ProcessPoolExecutor(1) as apart:
            text, renames, proofs = apart.submit(script_of, options.program, source, options.times, options.seed).result()
        script = pathlib.Path(folder) / f"{source.stem}.edits"
        script.write_text(text)
        program = shlex.split(options.program)
        edits = [[*program, "edit", "--force", "--workers", it, str(source), str(script)] for it in workers]
        verify, *found = measured([[*program, "verify", str(source)], *edits], options.rounds)
        row = [source.name, renames, proofs, f"{verify[0]:.1f}", *(f"{it[0]:.1f}" for it in found)]
        row += [f"{it[0] / verify[0]:.2f}" for it in found]
        row += [f"{it[1] / source.stat().st_size:.1f}" for it in (verify, *found)]
        print("| " + " | ".join(map(str, [*row, " ".join(map(str, sorted(set.union(*(it[2] for it in found)))))])) + " |", flush=True)


def main():
    parser = argparse.ArgumentParser(description=__doc__, formatter_class=argparse.RawDescriptionHelpFormatter)
    parser.add_argument("names", nargs="*", metavar="NAME")
    parser.add_argument("--databases", type=pathlib.Path, default=pathlib.Path("/usr/share/metamath/databases"))
    parser.add_argument("--program", default=f"{HERE.parent}/crates/mmrefactor/out/mmrefactor")
    parser.add_argument("--times", type=int, default=20)
    parser.add_argument("--workers", default="1,4")
    parser.add_argument("--rounds", type=int, default=3)
    parser.add_argument("--seed", type=int, default=0)
    options = parser.parse_args()
    sources = sorted(options.databases.glob("*.mm"), key=lambda it: it.stat().st_size)
    print(f"nproc {os.cpu_count()}, load {os.getloadavg()[0]:.1f}; medians of {options.rounds} rounds in ms\n")
    with tempfile.TemporaryDirectory() as folder:
        rows(options, [it for it in sources if not options.names or it.stem in options.names], folder)


if __name__ == "__main__":
    main()
