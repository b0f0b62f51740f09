"""Which cells a transaction may read and write, by the table of docs/ARCHITECTURE.md: of `show`, `move`, `reprove` and `rename`, which leave
each assertion in its slot. A model by hand, and a wide one: a slot stands for each label that it may get by some command of the whole
run, and `move` may read all ranks and proofs where something cites the assertion."""

import collections
import random
import re

from mixed import units

SLOTS = 4096
PARTS = ("name", "statement", "proof", "rank", "citers")


def bucket(label):
    """The bucket of a label: that of L for L.k."""
    dotted = re.fullmatch(r"(.+)\.([1-9][0-9]*)", label)
    trunk = dotted[1] if dotted and int(dotted[2]) <= 1000 else label
    number = 0
    for byte in trunk.encode():
        number = (31 * number + byte) % SLOTS
    return number


def cell(slot, kind):
    """A cell of a slot."""
    return 5 * slot + PARTS.index(kind)


def link(slot):
    """The next cell of a slot."""
    return 6 * SLOTS + slot


def head(number):
    """The cell of a bucket."""
    return 5 * SLOTS + number


class Library:
    """The assertions of a canonical text, in the slots from 0 up, and the transactions of a run on them."""

    def __init__(self, text):
        self.floating = {words[0] for words in map(str.split, text.splitlines()) if words[1:2] == ["$f"]}
        self.labels, self.proofs = [], []
        for label, lines in units(text):
            words = " ".join(lines).split()
            self.labels.append(label)
            self.proofs.append(words[words.index("$=") + 1:-1 - (words[-1] == "$}")] if "$=" in words else [])
        place = {label: slot for slot, label in enumerate(self.labels)}
        self.cited = [{place[step] for step in proof if step in place} for proof in self.proofs]
        self.citing = set().union(*self.cited)
        self.slots = {label: {slot} for label, slot in place.items()}

    def scripts(self, seed, count, transactions):
        """Random scripts, as lists of transactions, each a list of commands."""
        chance, made = random.Random(seed), []
        for script in range(count):
            labels, fresh = list(self.labels), 0
            made.append([])
            for _ in range(transactions):
                commands = []
                for _ in range(chance.choice((1, 1, 1, 2, 3))):
                    slot = chance.randrange(len(labels))
                    kind = chance.choice(("show", "move", "rename") + ("reprove",) * bool(self.proofs[slot]))
                    if kind == "rename":
                        fresh += 1
                        commands.append((kind, labels[slot], f"s{script}-{fresh}"))
                        labels[slot] = commands[-1][2]
                    elif kind == "move":
                        commands.append((kind, labels[slot], str(100 * (slot + 1) + chance.randint(-99, 99))))
                    elif kind == "reprove":
                        commands.append((kind, labels[slot], "$=", *self.proofs[slot], "$."))
                    else:
                        commands.append((kind, labels[slot]))
                made[-1].append(commands)
        self.name(made)
        return made

    def name(self, scripts):
        """Notes which slots each label may stand for."""
        renames = [command for script in scripts for commands in script for command in commands if command[0] == "rename"]
        for _ in renames:
            before = sum(map(len, self.slots.values()))
            for _, old, new in renames:
                self.slots.setdefault(new, set()).update(self.slots.get(old, ()))
            if sum(map(len, self.slots.values())) == before:
                break
        self.members = collections.defaultdict(set)
        for label, slots in self.slots.items():
            self.members[bucket(label)] |= slots

    def chain(self, label):
        """What a look for the label may read."""
        number = bucket(label)
        return {head(number)}.union(*({cell(slot, "name"), link(slot)} for slot in self.members[number]))

    def reads(self, command):
        kind, label, *rest = command
        found = self.chain(label)
        for slot in self.slots.get(label, ()):
            if kind == "show":
                found |= {cell(slot, part) for part in PARTS} | {cell(other, "name") for other in self.cited[slot]}
            elif kind == "move":
                found |= {cell(slot, part) for part in PARTS[2:]} | {cell(other, "rank") for other in self.cited[slot]}
                if slot in self.citing:
                    found |= {cell(other, part) for other in range(len(self.labels)) for part in ("rank", "proof")}
            elif kind == "reprove":
                found |= {cell(slot, "statement"), cell(slot, "rank"), cell(slot, "proof")}
            else:
                found |= {cell(slot, "name"), link(slot)}
        if kind == "rename":
            found |= self.chain(rest[0])
        for step in rest[1:-1] if kind == "reprove" else ():
            if step not in self.floating and not re.fullmatch(re.escape(label) + r"\.[1-9][0-9]*", step):
                found |= self.chain(step) | {cell(slot, part) for slot in self.slots.get(step, ()) for part in ("statement", "rank")}
        return found

    def writes(self, command):
        kind, label, *rest = command
        slots = self.slots.get(label, set())
        if kind == "move":
            return {cell(slot, "rank") for slot in slots}
        if kind == "reprove":
            return {cell(slot, "proof") for slot in slots}
        if kind == "rename":
            leading = {head(bucket(label)), head(bucket(rest[0]))} | {link(slot) for slot in self.members[bucket(label)]}
            return leading | {cell(slot, "name") for slot in slots} | {link(slot) for slot in slots}
        return set()


def text_of(script):
    return "".join(f"begin {' '.join(' '.join(command) for command in commands)} commit\n" for commands in script)


MET = re.compile(r"(\d+)\.(\d+) met (\d+) (\d+) (\d+)")
COMMITTED = re.compile(r"(\d+)\.(\d+) committed (\d+)")


def conflicts(library, scripts, printed):
    """How many conflicts there were, at a free cell and at a locked one; and those that are not as they should be: at a cell that the
    transaction may not read, or that no transaction of another script may write, or, where it was free, not the one whose number it shows."""
    def all_of(cells, commands):
        return set().union(*map(cells, commands))

    every = [(s, t, commands) for s, script in enumerate(scripts, 1) for t, commands in enumerate(script, 1)]
    writes = {(s, t): all_of(library.writes, commands) for s, t, commands in every}
    numbers = {int(n): (int(s), int(t)) for s, t, n in COMMITTED.findall(printed)}
    counts, wrong = collections.Counter(), []
    for s, t, at, word, place in (map(int, found) for found in MET.findall(printed)):
        counts["at a locked cell" if word % 2 else "at a free cell"] += 1
        others = [key for key, cells in writes.items() if key[0] != s and at in cells]
        if at not in all_of(library.reads, scripts[s - 1][t - 1]):
            wrong.append(f"{s}.{t} met cell {at}, which it may not read")
        elif not others:
            wrong.append(f"{s}.{t} met cell {at}, which no other script may write")
        elif word % 2 == 0 and numbers.get(word // 2) not in others:
            wrong.append(f"{s}.{t} met cell {at} with the number {word // 2}, whose transaction may not write it")
    return counts, wrong
