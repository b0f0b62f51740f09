#!/usr/bin/env python3
"""Times `mmrefactor take` beside the time in which `metamath` reads the same source.

    take.py [--databases FOLDER] [--program CMD] [--metamath CMD] [--rounds 5] [NAME..]

The sources are Debian's (package metamath-databases), or the *.mm of FOLDER; NAME, as in `ql`, measures that one alone. Of each it takes all
where it has at most 4,096 assertions, and else what some labels need and what stands between two. Medians over the rounds, turn and turn
about, of the whole process, in milliseconds, and the most resident bytes in megabytes. A measurement and no test.
"""

import argparse
import os
import pathlib
import shlex
import statistics
import subprocess
import time

HERE = pathlib.Path(__file__).resolve().parent
DEBIAN = "/usr/share/metamath/databases"
# Which assertions are taken of a source. One that isn't here is taken whole.
CHOICES = {
    "set": [["--for", "sqrt2irr"], ["--for", "id"], ["--for", "pnt"]],
    "iset": [["--for", "bernneq3"]],
    "nf": [["--for", "nchoice"]],
}


def once(command, out):
    """Milliseconds and the most resident megabytes of a process, and whether it ended well."""
    start = time.perf_counter()
    with open(out, "wb") as to:
        child = subprocess.Popen(command, stdout=to, stderr=subprocess.DEVNULL, stdin=subprocess.DEVNULL)
        _, status, used = os.wait4(child.pid, 0)
        child.returncode = os.waitstatus_to_exitcode(status)
    return (time.perf_counter() - start) * 1e3, used.ru_maxrss / 1024, child.returncode == 0


def median(turns):
    """The median of the milliseconds and of the megabytes."""
    return [statistics.median(turn[part] for turn in turns) for part in (0, 1)]


def main():
    parser = argparse.ArgumentParser(description=__doc__, formatter_class=argparse.RawDescriptionHelpFormatter)
    parser.add_argument("names", nargs="*", metavar="NAME")
    parser.add_argument("--databases", type=pathlib.Path, default=pathlib.Path(DEBIAN))
    parser.add_argument("--program", default=f"{HERE.parent}/crates/mmrefactor/out/mmrefactor")
    parser.add_argument("--metamath", default="metamath")
    parser.add_argument("--rounds", type=int, default=5)
    options = parser.parse_args()
    program, metamath = shlex.split(options.program), shlex.split(options.metamath)
    print(f"nproc {os.cpu_count()}, load {os.getloadavg()[0]:.1f}; medians of {options.rounds} rounds\n")
    print("| source | choice | take (ms) | resident (MB) | text (MB) | metamath reads (ms) | resident (MB) | take / reads | resident / source |")
    print("|---" * 9 + "|")
    for source in sorted(options.databases.glob("*.mm"), key=lambda it: it.stat().st_size):
        if options.names and source.stem not in options.names:
            continue
        for choice in CHOICES.get(source.stem, [[]]):
            ours, theirs, out = [], [], "/tmp/take.mm"
            for _ in range(options.rounds):
                ours.append(once([*program, "take", *choice, str(source)], out))
                text = os.path.getsize(out) / 1e6
                theirs.append(once([*metamath, f'read "{source}"', "exit"], os.devnull))
            (time_of, bytes_of), (other_time, other_bytes) = median(ours), median(theirs)
            said = " ".join(choice) if all(turn[2] for turn in ours) else " ".join(choice) + " (refused)"
            numbers = [time_of, bytes_of, text, other_time, other_bytes]
            row = [source.name, said or "all", *(f"{number:.1f}" for number in numbers)]
            row += [f"{time_of / other_time:.2f}", f"{bytes_of * 1048576 / source.stat().st_size:.1f}"]
            print("| " + " | ".join(row) + " |", flush=True)


if __name__ == "__main__":
    main()
