#!/usr/bin/env python3
"""Times `check`, `verify`, `add` and `reprove` on small texts that were made to be slow, each beside one of a tenth of its size.

    hostile.py [--program CMD] [--out DIR] [--rounds 5] [--only WORD] [--by check|verify|add|reprove]

--program is the program under test (default ../crates/mmrefactor/out/mmrefactor), called as `CMD check DB` or `CMD run DB SCRIPT`. By `add` the
last theorem of a text is added to the library of what stands before it; by `reprove` it is given its own proof again. The time of
an empty database, or of an empty script over the same one, is taken off. A row is even where its time is at most twice ten times that of its neighbour, a tenth of its size: best
times of the rounds, and at least 5 ms is said of the neighbour, since less can't be told from noise. A measurement and no test: it passes
whatever it finds.
"""

import argparse
import itertools
import os
import pathlib
import re
import shlex
import subprocess
import time

HERE = pathlib.Path(__file__).resolve().parent
LEAST = 5.0
MOST_STEPS = 16384
# words enough for each row; more would take longer to clear than some rows take
ROOM = "2097152"
# the end of a block whose axiom gives `|- T` back
RULE = ["rt", "$e", "|-", "T", "$.", "rule", "$a", "|-", "T", "$.", "$}"]


def words(*parts, width=100):
    """The words in lines."""
    lines, line = [], ""
    for word in itertools.chain(*parts):
        line += word + " "
        if len(line) > width:
            lines.append(line)
            line = ""
    return "\n".join([*lines, line]) + "\n"


def prelude(variables):
    """The constants of every row, and so many variables with their $f."""
    return (
        words(["$c", "wff", "|-", "T", "$."], ["$v", *variables, "$."])
        + "".join(f"f{v} $f wff {v} $.\n" for v in variables)
        + "true $a |- T $.\n"
    )


def halves(count, citations):
    """One $d of `count` variables; an axiom with one pair is cited over the two halves of them."""
    vs = [f"v{i}" for i in range(count)]
    half = count // 2
    # a $e of the axiom makes both variables mandatory; its expression is the two substitutes, one behind the other
    rule = words(["${", "$d", vs[0], vs[1], "$.", "re", "$e", "wff", vs[0], vs[1], "$.", *RULE])
    scope = words(["${", "$d", *vs, "$."]) + words(["l", "$e", "wff", *vs[:half], "$."], ["r", "$e", "wff", *vs[half:], "$."])
    scope += words(["b", "$e", "wff", *vs, "$."])
    proof = words(["th", "$p", "|-", "T", "$="], ["l", "r", "b"] * citations, ["true"], ["rule"] * citations, ["$.", "$}"])
    return prelude(vs) + rule + scope + proof


def odd_and_even(count, citations):
    """The same over every other variable, so that the pairs that are compared don't stand side by side."""
    vs = [f"v{i}" for i in range(count)]
    text = halves(count, citations)
    half = count // 2
    mixed = words(["l", "$e", "wff", *vs[1::2], "$."], ["r", "$e", "wff", *vs[::2], "$."])
    mixed += words(["b", "$e", "wff", *vs[1::2], *vs[::2], "$."])
    plain = words(["l", "$e", "wff", *vs[:half], "$."], ["r", "$e", "wff", *vs[half:], "$."]) + words(["b", "$e", "wff", *vs, "$."])
    return text.replace(plain, mixed)


def mandatory(count, citations):
    """An axiom whose `count` variables are all in one $d, cited with those variables, in as few theorems as will do."""
    vs = [f"v{i}" for i in range(count)]
    text = prelude(vs)
    text += words(["${", "$d", *vs, "$.", "re", "$e", "wff", *vs, "$.", *RULE])
    most = (MOST_STEPS - 1) // (count + 2)
    number = 0
    while citations > 0:
        now, citations = min(most, citations), citations - min(most, citations)
        scope = words(["${", "$d", *vs, "$.", f"h{number}", "$e", "wff", *vs, "$."])
        arguments = [f"f{v}" for v in vs] + [f"h{number}"]
        text += scope + words([f"th{number}", "$p", "|-", "T", "$="], arguments * now, ["true"], ["rule"] * now, ["$.", "$}"])
        number += 1
    return text


def hypotheses(count, citations):
    """An axiom of one variable with `count` hypotheses."""
    hyps = "".join(f"e{i} $e |- p $.\n" for i in range(count))
    text = "$c wff |- T $.\n$v p $.\nfp $f wff p $.\nwt $a wff T $.\ntrue $a |- T $.\n${\n" + hyps + "rule $a |- p $.\n$}\n"
    arguments = ["wt"] + ["true"] * (count - 1)
    return text + words(["th", "$p", "|-", "T", "$="], arguments * citations, ["true"], ["rule"] * citations, ["$."])


def own_variables(count, citations):
    """An axiom with `count` hypotheses, each of a variable of its own."""
    vs = [f"v{i}" for i in range(count)]
    hyps = "".join(f"e{i} $e wff {v} $.\n" for i, v in enumerate(vs))
    text = prelude(vs) + "${\n" + hyps + "et $e |- T $.\nrule $a |- T $.\n$}\n"
    floats = [f"f{v}" for v in vs]
    return text + words(["th", "$p", "|-", "T", "$="], (floats + floats) * citations, ["true"], ["rule"] * citations, ["$."])


def into_itself(count, citations):
    """A statement of `count` variables, each with itself for a substitute."""
    vs = [f"v{i}" for i in range(count)]
    text = prelude(vs) + words(["all", "$a", "wff", *vs, "$."])
    text += words(["${", "e", "$e", "wff", vs[0], "$.", "et", "$e", "|-", "T", "$.", "drop", "$a", "|-", "T", "$.", "$}"])
    floats = [f"f{v}" for v in vs]
    # the expression goes in for a variable, and is dropped
    steps = [*floats, "all", "h"]
    scope = words(["${", "h", "$e", "wff", *vs, "$."])
    return text + scope + words(["th", "$p", "|-", "T", "$="], steps * citations, ["true"], ["drop"] * citations, ["$.", "$}"])


def to_the_limit(count, citations):
    """A statement of `count` times one variable, whose substitute has as many symbols as 65,535 allow."""
    each = 65534 // count
    text = "$c wff T $.\n$v p $.\nfp $f wff p $.\n"
    text += words(["part", "$a", "wff"], ["T"] * each, ["$."]) + words(["all", "$a", "wff"], ["p"] * count, ["$."])
    # all but the last expression are left over, so that the answer is a fault of the end
    return text + words(["th", "$p", "wff"], ["T"] * (each * count), ["$="], ["part", "all"] * citations, ["$."])


def new_labels(count):
    """A theorem each of whose steps names another label, which no assertion has."""
    return "$c |- T $.\n" + words(["th", "$p", "|-", "T", "$="], (f"s{i}" for i in range(count)), ["$."])


def known_labels(count, labels):
    """So many rules of one hypothesis, each cited once."""
    names = list(itertools.islice(labels, count))
    text = "$c |- T $.\ntrue $a |- T $.\n" + "".join(f"${{\ne{i} $e |- T $.\n{name} $a |- T $.\n$}}\n" for i, name in enumerate(names))
    return text + words(["th", "$p", "|-", "T", "$=", "true", *names, "$."])


def plain():
    return (f"r{i}" for i in itertools.count())


def anagrams():
    """Labels of the same letters, which any sum of letters puts into one bucket."""
    return ("".join(letters) for letters in itertools.permutations("abcdefgh"))


def many_variables(count):
    """A substitute of `count` different variables, that is to be apart from one without any."""
    vs = [f"v{i}" for i in range(count)]
    text = prelude(vs) + "none $a wff T $.\n"
    text += words(["${", "$d", vs[0], vs[1], "$.", "re", "$e", "wff", vs[0], vs[1], "$.", *RULE])
    scope = words(["${", "l", "$e", "wff", *vs, "$.", "b", "$e", "wff", *vs, "T", "$."])
    return text + scope + words(["th", "$p", "|-", "T", "$=", "l", "none", "b", "true", "rule", "$.", "$}"])


def pairs_behind_constants(count):
    """The pairs of one $d of `count` variables, mandatory in an axiom that is cited, behind 5,000 other symbols of an axiom."""
    constants = [f"c{i}" for i in range(5000)]
    text = words(["$c", *constants, "$."], ["many", "$a", constants[0], *constants[1:], "$."])
    return text + mandatory(count, 1)


def many_floats(count):
    """4,000 axioms of one variable each, behind so many $f."""
    vs = [f"v{i}" for i in range(count)]
    return prelude(vs) + "".join(f"a{i} $a wff {vs[i % count]} $.\n" for i in range(4000))


def repeated(count, times):
    """One long $d, said again and again in one block."""
    vs = [f"v{i}" for i in range(count)]
    return prelude(vs) + "${\n" + words(["$d", *vs, "$."] * times) + "x $a |- T $.\n$}\n"


def repeated_by_turns(count, times):
    """Two long $d, said by turns in one block, each time from the front or from the back."""
    vs = [f"v{i}" for i in range(2 * count)]
    turns = [vs[:count], vs[count:], vs[count - 1 :: -1], vs[: count - 1 : -1]]
    return prelude(vs) + "${\n" + words(*(["$d", *turns[turn % 4], "$."] for turn in range(times))) + "x $a |- T $.\n$}\n"


def number(n):
    """The letters of a number from 1 of a compressed proof (Metamath book, appendix B)."""
    rest, letters = (n - 1) // 20, chr(ord("A") + (n - 1) % 20)
    while rest:
        rest, letter = divmod(rest - 1, 5)
        letters = chr(ord("U") + letter) + letters
    return letters


def marks(count):
    """A compressed proof of so many marks, each used twice."""
    text = words(["$c", "wff", "(", ")", "$."], ["$v", "p", "q", "$."], ["wp", "$f", "wff", "p", "$.", "wq", "$f", "wff", "q", "$."])
    text += words(["e", "$a", "wff", "(", ")", "$.", "${", "x", "$e", "wff", "p", "$.", "y", "$e", "wff", "q", "$."])
    text += words(["d", "$a", "wff", "(", ")", "$.", "$}", "t", "$p", "wff", "(", ")", "$=", "(", "e", "d", ")", "A"])
    return text + words("AZ" + number(3 + k) * 2 + "B" for k in range(count)) + "$.\n"


def doubled(count):
    """A proof whose expressions double at each of so many steps: past 27 of them it would write down over 2^28 symbols."""
    text = words(["$c", "wff", "$."], ["$v", "p", "$."], ["wp", "$f", "wff", "p", "$.", "d", "$a", "wff", "p", "p", "$."])
    return text + words(["t", "$p", "wff", "p", "$=", "wp"], ["d"] * count, ["$."])


def many_marked(count):
    """Theorems of so many compressed proofs, each of one step."""
    text = words(["$c", "wff", "$."], ["$v", "p", "$."], ["wp", "$f", "wff", "p", "$."])
    return text + "".join(f"t{i} $p wff p $= ( ) A $.\n" for i in range(count))


def split(text):
    """What stands before the last theorem, and the theorem with its block."""
    at = text.rindex("${") if text.rstrip().endswith("$}") else text.rindex("th $p")
    return text[:at], text[at:]


def added(text):
    """A database, and the script that adds the last theorem of a text to it."""
    before, unit = split(text)
    return before, f"begin add 4000000 {unit} commit\n"


def reproved(text):
    """The text, and the script that gives its last theorem its proof again."""
    _, unit = split(text)
    label = re.search(r"(\S+)\s+\$p", unit)[1]
    names = {name: f"{label}.{k}" for k, name in enumerate(re.findall(r"(\S+)\s+\$e", unit), 1)}
    steps = unit.split("$=")[1].split("$.")[0].split()
    return text, f"begin reprove {label} $= " + words(names.get(step, step) for step in steps) + "$. commit\n"


def rows():
    """(name, the text of a tenth, the text) of each row, as thunks."""
    return [
        ("halves of one $d cited: 36 variables, 114", lambda: halves(36, 100), lambda: halves(114, 100)),
        ("halves of one $d cited: 114 variables, 362", lambda: halves(114, 1), lambda: halves(362, 1)),
        ("halves of one $d of 362 cited 10, 100 times", lambda: halves(362, 10), lambda: halves(362, 100)),
        ("halves of one $d of 362 cited 409, 4,095 times", lambda: halves(362, 409), lambda: halves(362, 4095)),
        ("odd and even of one $d of 362 cited 10, 100 times", lambda: odd_and_even(362, 10), lambda: odd_and_even(362, 100)),
        ("6,441, 65,341 mandatory pairs cited 10 times", lambda: mandatory(114, 10), lambda: mandatory(362, 10)),
        ("65,341 mandatory pairs cited 10, 100 times", lambda: mandatory(362, 10), lambda: mandatory(362, 100)),
        ("100, 1,000 hypotheses cited 16 times", lambda: hypotheses(100, 16), lambda: hypotheses(1000, 16)),
        ("100, 999 hypotheses of own variables cited 8 times", lambda: own_variables(100, 8), lambda: own_variables(999, 8)),
        ("400, 4,000 variables into themselves 3 times", lambda: into_itself(400, 3), lambda: into_itself(4000, 3)),
        ("a substitution up to the limit 10, 100 times", lambda: to_the_limit(4000, 10), lambda: to_the_limit(4000, 100)),
        ("1,638, 16,384 steps of new labels", lambda: new_labels(1638), lambda: new_labels(16384)),
        ("409, 4,094 rules cited", lambda: known_labels(409, plain()), lambda: known_labels(4094, plain())),
        ("409, 4,094 rules cited, of the same letters", lambda: known_labels(409, anagrams()), lambda: known_labels(4094, anagrams())),
        ("a substitute of 3,000, 30,000 variables", lambda: many_variables(3000), lambda: many_variables(30000)),
        ("4,000 axioms behind 6,553, 65,535 $f", lambda: many_floats(6553), lambda: many_floats(65535)),
        ("a $d of 362 said 5, 50 times", lambda: repeated(362, 5), lambda: repeated(362, 50)),
        ("a $d of 362 said 200, 2,000 times", lambda: repeated(362, 200), lambda: repeated(362, 2000)),
        ("two $d of 255 said 200, 2,000 times by turns", lambda: repeated_by_turns(255, 200), lambda: repeated_by_turns(255, 2000)),
    ]


def rows_to_verify():
    """Rows in the whole language."""
    return [
        ("1,000, 10,000 marks, each used twice", lambda: marks(1000), lambda: marks(10000)),
        ("10,000, 100,000 marks, each used twice", lambda: marks(10000), lambda: marks(100000)),
        ("expressions that double 20, 23 times", lambda: doubled(20), lambda: doubled(23)),
        ("expressions that double 26, 40 times", lambda: doubled(26), lambda: doubled(40)),
        ("4,000, 40,000 theorems of one step", lambda: many_marked(4000), lambda: many_marked(40000)),
        ("3,000, 30,000 variables into themselves once", lambda: into_itself(3000, 1), lambda: into_itself(30000, 1)),
        ("6,441, 65,341 mandatory pairs behind 5,000 symbols", lambda: pairs_behind_constants(114), lambda: pairs_behind_constants(362)),
        ("a $d of 362 cited whole 100, 1,000 times", lambda: halves(362, 100), lambda: halves(362, 1000)),
    ]


def best(command, rounds):
    """The least time of so many calls in milliseconds, and what the last one printed."""
    least = float("inf")
    for _ in range(rounds):
        start = time.perf_counter()
        done = subprocess.run(command, capture_output=True, check=False)
        least = min(least, (time.perf_counter() - start) * 1e3)
    said = (done.stdout + done.stderr).decode().strip().split("\n")[0].rsplit("/", 1)[-1]
    return least, said[:60]


class Bench:
    """The program, called in one of three ways."""

    def __init__(self, options):
        self.program = shlex.split(options.program)
        self.rounds = options.rounds
        self.by = options.by
        self.db, self.script = (options.out / name for name in ("hostile.mm", "hostile.edits"))

    def checked(self, text):
        self.db.write_text(text)
        words = ["verify", "--workers", "1"] if self.by == "verify" else ["check"]
        return best([*self.program, *words, self.db], self.rounds)

    def run(self, script):
        self.script.write_text(script)
        return best([*self.program, "run", "--room", ROOM, self.db, self.script], self.rounds)

    def took(self, text):
        """The time that a text takes beyond an empty one, and what is answered."""
        if self.by in ("check", "verify"):
            nothing, _ = self.checked("$c T $.\n")
            spent, said = self.checked(text)
            return max(spent - nothing, 0.0), said
        db, script = (added if self.by == "add" else reproved)(text)
        self.db.write_text(db)
        nothing, _ = self.run("")
        spent, said = self.run(script)
        return max(spent - nothing, 0.0), said


def main():
    parser = argparse.ArgumentParser(description=__doc__, formatter_class=argparse.RawDescriptionHelpFormatter)
    parser.add_argument("--program", default=str(HERE.parent / "crates/mmrefactor/out/mmrefactor"))
    parser.add_argument("--out", type=pathlib.Path, default=pathlib.Path("/tmp/mmrefactor-benches"))
    parser.add_argument("--rounds", type=int, default=5)
    parser.add_argument("--only", default="", help="the rows whose name has this")
    parser.add_argument("--by", choices=["check", "add", "reprove", "verify"], default="check")
    options = parser.parse_args()
    options.out.mkdir(parents=True, exist_ok=True)
    bench = Bench(options)
    print(f"by {options.by}; nproc {os.cpu_count()}, load {os.getloadavg()[0]:.1f}; best of {options.rounds} rounds in ms, less those of nothing\n")
    print("| row | a tenth | whole | whole / (10 tenths) | even | answer |")
    print("|---" * 6 + "|")
    for name, small, large in rows() + (rows_to_verify() if options.by == "verify" else []):
        if options.only not in name or (options.by in ("add", "reprove") and "$p" not in small()):
            continue
        took = [bench.took(make()) for make in (small, large)]
        ratio = took[1][0] / (10 * max(took[0][0], LEAST))
        even = took[1][0] <= 20 * max(took[0][0], LEAST)
        print(f"| {name} | {took[0][0]:.2f} | {took[1][0]:.2f} | {ratio:.2f} | {'yes' if even else 'NO'} | {took[1][1]} |", flush=True)


if __name__ == "__main__":
    main()
