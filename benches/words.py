#!/usr/bin/env python3
"""Times transactions over shared words, side by side with the engines of a C++ transactional memory.

    words.py --yardstick DIR [--program PATH] [--out DIR] [--rounds 5] [--cells 28672] [--transactions 300000] [--threads 1,2,4]
             [--engines tl2,mutex,gnu] [PATTERN..]

It builds ../crates/workbench, unless --program names one that is built, and DIR/yard_stm.cpp, whose engines are `tl2` (a hand-written
Transactional Locking II), `mutex` (one lock) and `gnu` (GCC's transactional memory). In each program each thread commits so many transactions, of the same cells in the same order: a
transaction reads four cells and adds one to two of them, and in the pattern `read` it reads a hundred and writes none. In `disjoint` each
thread has its own part of the cells, and `hot` is over eight cells.

All programs run in turn, once each round, so that a change of the machine's load meets them alike. Times are of whole processes: medians
over the rounds in milliseconds, in brackets the best round. Ratios are of transactions a second, medians of those within a round. Each sum
is tested. It is a measurement and no test: it passes whatever times it finds.
"""

import argparse
import pathlib
import subprocess
import time
from statistics import median

HERE = pathlib.Path(__file__).resolve().parent
CRATE = HERE.parent / "crates" / "workbench"
PATTERNS = ("disjoint", "uniform", "hot", "read")
ENGINES = ("tl2", "mutex", "gnu")
THREADS = (1, 2, 4)
OURS = "ours"
HOT_CELLS = 8


def reads_and_writes(pattern):
    """How many cells a transaction reads, and to how many of them it adds one."""
    return (100, 0) if pattern == "read" else (4, 2)


def build(options):
    """The paths of both programs."""
    options.out.mkdir(parents=True, exist_ok=True)
    yardstick = options.out / "yard_stm"
    source = options.yardstick / "yard_stm.cpp"
    subprocess.run(["g++", "-std=c++20", "-O2", "-fgnu-tm", "-pthread", "-o", str(yardstick), str(source)], check=True)
    if options.program:
        return options.program, yardstick
    # A short run: the command that builds the program also runs it.
    subprocess.run(["rt", "run", "--", "words", "hot", "8", "1", "2"], cwd=CRATE, stdout=subprocess.DEVNULL, check=True)
    return CRATE / "out" / "workbench", yardstick


def timed(command):
    """Milliseconds, and the standard output."""
    start = time.perf_counter()
    done = subprocess.run([str(word) for word in command], stdout=subprocess.PIPE, check=True)
    return (time.perf_counter() - start) * 1e3, done.stdout.decode()


def time_ours(program, pattern, threads, options):
    took, said = timed([program, "words", pattern, options.cells, options.transactions, threads])
    count = threads * options.transactions
    wanted = f"committed {count} sum {reads_and_writes(pattern)[1] * count}\n"
    if said != wanted:
        raise SystemExit(f"{pattern}: workbench prints {said!r}, wanted {wanted!r}")
    return took


def time_theirs(program, engine, pattern, threads, options):
    """The yardstick, too, takes the number of transactions of each thread. It tests its sum by itself."""
    mode = "disjoint" if pattern == "disjoint" else "uniform"
    cells = min(options.cells, HOT_CELLS) if pattern == "hot" else options.cells
    reads, writes = reads_and_writes(pattern)
    return timed([program, engine, mode, threads, options.transactions, reads, writes, cells])[0]


def measured(pattern, programs, options):
    """The times of each round, by the program's name and the number of threads."""
    ours, yardstick = programs
    times = {(name, threads): [] for name in (OURS, *options.engines) for threads in options.threads}
    for _ in range(options.rounds):
        for threads in options.threads:
            times[OURS, threads].append(time_ours(ours, pattern, threads, options))
            for engine in options.engines:
                times[engine, threads].append(time_theirs(yardstick, engine, pattern, threads, options))
    return times


def row(cells):
    return f"| {' | '.join(str(cell) for cell in cells)} |"


def table(head, rows):
    return "\n".join([row(head), "|---" * len(head) + "|", *map(row, rows)])


def ratio(slow, fast):
    """How many times faster, in the median round."""
    return median(a / b for a, b in zip(slow, fast))


def print_ratios(results, options):
    """Above 1: ours is faster."""
    rows = []
    for pattern, times in results.items():
        for threads in options.threads:
            own = times[OURS, threads]
            ratios = [f"{ratio(times[engine, threads], own):.2f}" for engine in options.engines]
            rows.append([pattern, threads, f"{median(own):.0f} ({min(own):.0f})", *ratios])
    print("Transactions a second, ours over theirs (above 1: ours is faster):\n")
    print(table(["pattern", "threads", f"{OURS} ms", *(f"{OURS} / {engine}" for engine in options.engines)], rows))


def print_gains(results, options):
    """Each thread has the same work, so n threads as fast as one do n times as much a second."""
    rows = []
    for pattern, times in results.items():
        for threads in options.threads:
            if threads == 1:
                continue
            gains = [threads * ratio(times[name, 1], times[name, threads]) for name in (OURS, *options.engines)]
            rows.append([pattern, threads, *(f"{gain:.2f}" for gain in gains)])
    print("\nTransactions a second of several threads, over those of one:\n")
    print(table(["pattern", "threads", OURS, *options.engines], rows))


def listed(kind, allowed):
    """The type of an option: words of those allowed, between commas."""

    def parse(text):
        words = [kind(word) for word in text.split(",")]
        if unknown := [word for word in words if word not in allowed]:
            raise argparse.ArgumentTypeError(f"not one of {', '.join(map(str, allowed))}: {', '.join(map(str, unknown))}")
        return words

    return parse


def options_given():
    parser = argparse.ArgumentParser(description=__doc__, formatter_class=argparse.RawDescriptionHelpFormatter)
    parser.add_argument("patterns", nargs="*", metavar="PATTERN", help=", ".join(PATTERNS))
    parser.add_argument("--yardstick", type=pathlib.Path, required=True, help="the folder of yard_stm.cpp")
    parser.add_argument("--program", type=pathlib.Path, help="the built workbench; else it is built")
    parser.add_argument("--out", type=pathlib.Path, default=pathlib.Path("/tmp/words-bench"))
    parser.add_argument("--rounds", type=int, default=5)
    parser.add_argument("--cells", type=int, default=28672)
    parser.add_argument("--transactions", type=int, default=300_000, help="of each thread")
    parser.add_argument("--threads", type=listed(int, THREADS), default=THREADS)
    parser.add_argument("--engines", type=listed(str, ENGINES), default=ENGINES)
    options = parser.parse_args()
    if unknown := set(options.patterns) - set(PATTERNS):
        parser.error(f"no such pattern: {', '.join(sorted(unknown))}")
    options.patterns = options.patterns or PATTERNS
    return options


def main():
    options = options_given()
    programs = build(options)
    results = {pattern: measured(pattern, programs, options) for pattern in options.patterns}
    print_ratios(results, options)
    if 1 in options.threads and len(options.threads) > 1:
        print_gains(results, options)


if __name__ == "__main__":
    main()
