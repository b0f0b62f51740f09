#!/usr/bin/env python3
"""Makes inputs for the benches: large well-formed databases, and scripts.

    generate.py db FILE --megabytes N [--seed S]     a database of about N MB: many symbols, and axioms of many symbols
    generate.py blocks FILE --megabytes N            the same size of axioms in blocks, each with hypotheses and $d
    generate.py hypotheses FILE --count N            one axiom with N hypotheses
    generate.py pairs FILE --count N                 one axiom with one $d of N variables
    generate.py proof FILE --count N                 one theorem with a proof of N steps
    generate.py theorems FILE --megabytes N          4,092 theorems with long proofs behind 4 axioms, about N MB
    generate.py axioms FILE --count N                a database of N short axioms, labels a0 ..
    generate.py renames FILE --count N --axioms M    N transactions, each renaming one of M axioms, again and again
    generate.py real DB FILE FILE --count N          two scripts for a database: the first renames N of its axioms, the second
                                                     shows them under their new labels

Nothing here is random but for the seed, so the same call makes the same bytes.
"""

import argparse
import random
import re


def write_tokens(file, words, width=100):
    """The words, separated by spaces, with a line end now and then."""
    line = 0
    for word in words:
        file.write(word)
        line += len(word) + 1
        if line > width:
            file.write("\n")
            line = 0
        else:
            file.write(" ")
    file.write("\n")


def make_database(path, size, seed):
    """About `size` bytes: 1,000 constants and variables a megabyte, at most 30,000 each, and axioms for the rest."""
    chance = random.Random(seed)
    count = min(30_000, max(500, size // 1000))
    constants = ["wff", "|-"] + [f"c{i}" for i in range(count)]
    variables = [f"v{i}" for i in range(count)]
    with open(path, "w", encoding="ascii") as file:
        write_tokens(file, ["$c", *constants, "$."])
        write_tokens(file, ["$v", *variables, "$."])
        for i, variable in enumerate(variables):
            file.write(f"f{i} $f wff {variable} $.\n")
        symbols = constants + variables
        axioms = 4_000
        mean = sum(len(symbol) + 1 for symbol in symbols) / len(symbols)
        each = max(2, int((size - file.tell()) / axioms / mean) - 3)
        for i in range(axioms):
            words = [chance.choice(symbols) for _ in range(each)]
            write_tokens(file, [f"a{i}", "$a", "|-", *words, "$."])


def make_blocks(path, size, seed):
    """About `size` bytes: 4,000 axioms, each in a block with 4 hypotheses and a $d of 6 variables."""
    chance = random.Random(seed)
    constants = ["wff", "|-"] + [f"c{i}" for i in range(500)]
    variables = [f"v{i}" for i in range(500)]
    with open(path, "w", encoding="ascii") as file:
        write_tokens(file, ["$c", *constants, "$."])
        write_tokens(file, ["$v", *variables, "$."])
        for i, variable in enumerate(variables):
            file.write(f"f{i} $f wff {variable} $.\n")
        symbols = constants + variables
        axioms = 4_000
        mean = sum(len(symbol) + 1 for symbol in symbols) / len(symbols)
        each = max(2, int((size / axioms - 120) / mean / 5))
        for i in range(axioms):
            file.write("${\n")
            write_tokens(file, ["$d", *chance.sample(variables, 6), "$."])
            for k in range(4):
                words = [chance.choice(symbols) for _ in range(each)]
                write_tokens(file, [f"h{i}-{k}", "$e", "|-", *words, "$."])
            words = [chance.choice(symbols) for _ in range(each)]
            write_tokens(file, [f"a{i}", "$a", "|-", *words, "$."])
            file.write("$}\n")


def make_hypotheses(path, count):
    with open(path, "w", encoding="ascii") as file:
        file.write("$c wff |- $.\n$v p $.\nwp $f wff p $.\n${\n")
        for i in range(count):
            file.write(f"h{i} $e |- p $.\n")
        file.write("a $a |- p $.\n$}\n")


def make_pairs(path, count):
    with open(path, "w", encoding="ascii") as file:
        file.write("$c wff |- $.\n")
        variables = [f"v{i}" for i in range(count)]
        write_tokens(file, ["$v", *variables, "$."])
        for i, variable in enumerate(variables):
            file.write(f"f{i} $f wff {variable} $.\n")
        file.write("${\n")
        write_tokens(file, ["$d", *variables, "$."])
        file.write("a $a |- $.\n$}\n")


def make_proof(path, count):
    """The first step cites an axiom without hypotheses, each other a rule with one."""
    with open(path, "w", encoding="ascii") as file:
        file.write("$c |- $.\nax $a |- $.\n${\nh $e |- $.\nmp $a |- $.\n$}\n")
        write_tokens(file, ["th", "$p", "|-", "$=", "ax", *["mp"] * (count - 1), "$."])


class Formula:
    """A formula by its symbols, and by the steps that build it."""

    def __init__(self, symbols, steps):
        self.symbols, self.steps = symbols, steps

    def implies(self, other):
        return Formula(["(", *self.symbols, "->", *other.symbols, ")"], [*self.steps, *other.steps, "wi"])


def formula(chance, leaves):
    if leaves == 1:
        variable = chance.choice("PQR")
        return Formula([variable], [f"w{variable.lower()}"])
    left = chance.randrange(1, leaves)
    return formula(chance, left).implies(formula(chance, leaves - left))


def identity(a):
    """The steps that prove ( a -> a ) from the two axioms of implication."""
    aa = a.implies(a)
    aaa, outer = a.implies(aa), a.implies(aa.implies(a))
    first = [*a.steps, *aa.steps, "a1"]
    second = [*a.steps, *aa.steps, *a.steps, "a2"]
    middle = [*outer.steps, *aaa.implies(aa).steps, *first, *second, "mp"]
    return [*aaa.steps, *aa.steps, *a.steps, *a.steps, "a1", *middle, "mp"]


def make_theorems(path, size, count, seed):
    """Theorems |- ( A -> A ), each by a proof of its own over random formulas A of about the same size."""
    chance = random.Random(seed)
    # A leaf takes about 39 steps of a proof, with its share of the rest, of 3 bytes each and a space.
    leaves = max(1, size // count // 165)
    with open(path, "w", encoding="ascii") as file:
        file.write("$c ( ) -> wff |- $.\n$v P Q R $.\nwp $f wff P $.\nwq $f wff Q $.\nwr $f wff R $.\n")
        file.write("wi $a wff ( P -> Q ) $.\na1 $a |- ( P -> ( Q -> P ) ) $.\n")
        file.write("a2 $a |- ( ( P -> ( Q -> R ) ) -> ( ( P -> Q ) -> ( P -> R ) ) ) $.\n")
        file.write("${\nmin $e |- P $.\nmaj $e |- ( P -> Q ) $.\nmp $a |- Q $.\n$}\n")
        for i in range(count):
            a = formula(chance, leaves)
            write_tokens(file, [f"t{i}", "$p", "|-", *a.implies(a).symbols, "$=", *identity(a), "$."])


def make_axioms(path, count):
    with open(path, "w", encoding="ascii") as file:
        file.write("$c wff -> ( ) $.\n$v p q $.\nwp $f wff p $.\nwq $f wff q $.\n")
        for i in range(count):
            file.write(f"a{i} $a wff ( p -> q ) $.\n")


def make_renames(path, count, axioms):
    """Each axiom is renamed in turn: a7 to a7-1, then a7-1 to a7-2, and so on."""
    with open(path, "w", encoding="ascii") as file:
        for i in range(count):
            axiom, turn = i % axioms, i // axioms
            old = f"a{axiom}" if turn == 0 else f"a{axiom}-{turn}"
            file.write(f"begin rename {old} a{axiom}-{turn + 1} commit\n")


def make_real(db, renames, shows, count):
    """Scripts for axioms spread evenly over the database."""
    with open(db, encoding="ascii") as file:
        labels = re.findall(r"(\S+)\s+\$a\s", file.read())
    step = max(1, len(labels) // count)
    chosen = labels[::step][:count]
    with open(renames, "w", encoding="ascii") as file:
        for label in chosen:
            file.write(f"begin rename {label} {label}-renamed commit\n")
    with open(shows, "w", encoding="ascii") as file:
        for label in chosen:
            file.write(f"begin show {label}-renamed commit\n")


def main():
    parser = argparse.ArgumentParser(description=__doc__, formatter_class=argparse.RawDescriptionHelpFormatter)
    kinds = parser.add_subparsers(dest="kind", required=True)
    db = kinds.add_parser("db")
    db.add_argument("file")
    db.add_argument("--megabytes", type=float, required=True)
    db.add_argument("--seed", type=int, default=1)
    blocks = kinds.add_parser("blocks")
    blocks.add_argument("file")
    blocks.add_argument("--megabytes", type=float, required=True)
    blocks.add_argument("--seed", type=int, default=1)
    theorems = kinds.add_parser("theorems")
    theorems.add_argument("file")
    theorems.add_argument("--megabytes", type=float, required=True)
    theorems.add_argument("--count", type=int, default=4092)
    theorems.add_argument("--seed", type=int, default=1)
    for kind in ("hypotheses", "pairs", "proof"):
        single = kinds.add_parser(kind)
        single.add_argument("file")
        single.add_argument("--count", type=int, required=True)
    axioms = kinds.add_parser("axioms")
    axioms.add_argument("file")
    axioms.add_argument("--count", type=int, required=True)
    renames = kinds.add_parser("renames")
    renames.add_argument("file")
    renames.add_argument("--count", type=int, required=True)
    renames.add_argument("--axioms", type=int, required=True)
    real = kinds.add_parser("real")
    real.add_argument("db")
    real.add_argument("renames")
    real.add_argument("shows")
    real.add_argument("--count", type=int, default=150)
    options = parser.parse_args()
    if options.kind == "db":
        make_database(options.file, int(options.megabytes * 1_000_000), options.seed)
    elif options.kind == "blocks":
        make_blocks(options.file, int(options.megabytes * 1_000_000), options.seed)
    elif options.kind == "hypotheses":
        make_hypotheses(options.file, options.count)
    elif options.kind == "pairs":
        make_pairs(options.file, options.count)
    elif options.kind == "proof":
        make_proof(options.file, options.count)
    elif options.kind == "theorems":
        make_theorems(options.file, int(options.megabytes * 1_000_000), options.count, options.seed)
    elif options.kind == "axioms":
        make_axioms(options.file, options.count)
    elif options.kind == "renames":
        make_renames(options.file, options.count, options.axioms)
    else:
        make_real(options.db, options.renames, options.shows, options.count)


if __name__ == "__main__":
    main()
