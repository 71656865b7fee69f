#!/usr/bin/env python3
"""Asks random formulas of random logs, and again of the same logs with what the formula names alone.

    bench/kept_logs.py POTA POTA_LOG [LOGS [SEED]]

POTA and POTA_LOG are the built programs. Of each of LOGS generated logs (200) one formula without EX is asked by `pota check`, then
by `pota_log --keep .. | pota check` with the names of the formula and some more, in any order. The last line has how many verdicts
differ; the exit status is 1 where one does or a program fails. It takes about a second for 40 logs, and writes no file.
"""
import random
import subprocess
import sys

RELATIONS = ["<", "<=", ">", ">=", "=", "!="]
TEMPORAL = ["EF", "AG", "EG"]
WATCHES = ["stable", "calm", "owing"]
SECONDS = 60


class Log:
    """A random run: processes with a counter `c` that never falls and levels `x` and `y`, and messages between them."""

    def __init__(self, rng):
        self.rng = rng
        self.procs = [f"p{i}" for i in range(rng.randint(2, 4))]
        self.variables = {name: ["c", "x", "y"][: rng.randint(1, 3)] for name in self.procs}
        self.values = {name: {v: rng.randint(0, 2) for v in vs} for name, vs in self.variables.items()}
        self.opening = {name: dict(values) for name, values in self.values.items()}
        self.clocks = {name: [0] * len(self.procs) for name in self.procs}
        self.sent = []
        self.lines = []
        for number in range(rng.randint(4, 60)):
            self.event(rng.choice(self.procs), number)

    def event(self, name, number):
        place = self.procs.index(name)
        waiting = [message for message in self.sent if message[1] == name]
        action = "int"
        kind = self.rng.random()
        clock = self.clocks[name]
        if kind < 0.35 and waiting:
            message = self.rng.choice(waiting)
            self.sent.remove(message)
            sender, _, count, then = message
            clock[:] = [max(a, b) for a, b in zip(clock, then)]
            action = f"recv {sender} {count}"
        clock[place] += 1
        if kind > 0.6:
            to = self.rng.choice([other for other in self.procs if other != name])
            self.sent.append((name, to, number, list(clock)))
            action = f"send {to} {number}"
        words = ["ev", name, ",".join(map(str, clock)), action] + self.assign(name)
        self.lines.append(" ".join(words))

    def assign(self, name):
        words = []
        for variable in self.variables[name]:
            if self.rng.random() < 0.3:
                old = self.values[name][variable]
                new = old + self.rng.randint(0, 2) if variable == "c" else self.rng.randint(0, 3)
                self.values[name][variable] = new
                words.append(f"{variable}={new}")
        return words

    def text(self):
        lines = ["pota-log 1", "procs " + " ".join(self.procs)]
        for name in self.procs:
            lines.append(f"vars {name} " + " ".join(f"{v}={k}" for v, k in self.opening[name].items()))
        lines += self.lines
        for at in sorted(self.rng.sample(range(len(self.lines) + 1), self.rng.randint(0, 2)), reverse=True):
            if self.closes(at):
                lines.insert(len(lines) - len(self.lines) + at, "batch")
        return "\n".join(lines + ["end"]) + "\n"

    def closes(self, at):
        """Events stand behind what they count, so that a batch may end anywhere behind the first event."""
        return 0 < at < len(self.lines)


class Formula:
    """A random formula of the supported fragment without EX, and the arguments of `--keep` that it needs."""

    def __init__(self, rng, log):
        self.rng = rng
        self.log = log
        self.watched = {}
        self.names = set()
        self.text = " | ".join(self.temporal(2) for _ in range(rng.choice([1, 1, 2])))

    def temporal(self, depth):
        parts = [self.part(depth) for _ in range(self.rng.randint(1, 3))]
        return f"{self.rng.choice(TEMPORAL)} ({' & '.join(parts)})"

    def part(self, depth):
        if depth and self.rng.random() < 0.35:
            return self.temporal(depth - 1)
        return self.rng.choice([self.local, self.local, self.channel, self.difference])()

    def local(self):
        name = self.rng.choice(self.log.procs)
        return f"({self.of_one(name, 2)})"

    def of_one(self, name, depth):
        if depth and self.rng.random() < 0.4:
            sides = [self.of_one(name, depth - 1) for _ in range(2)]
            return f"({sides[0]}) {self.rng.choice('&|')} ({sides[1]})"
        if depth and self.rng.random() < 0.2:
            return f"!({self.of_one(name, depth - 1)})"
        watch = self.rng.choice(WATCHES)
        if self.rng.random() < 0.15 and self.watched.setdefault(watch, name) == name:
            self.names.add(name)
            return f"{name}@{watch}"
        variable = self.variable(name, self.rng.choice(self.log.variables[name]))
        other = self.rng.random() < 0.2
        side = self.variable(name, self.rng.choice(self.log.variables[name])) if other else self.rng.randint(0, 4)
        return f"{variable} {self.rng.choice(RELATIONS)} {side}"

    def variable(self, name, variable):
        self.names.add(f"{name}.{variable}")
        return f"{name}.{variable}"

    def channel(self):
        sender, receiver = self.rng.sample(self.log.procs, 2)
        self.names.add(f"{sender}>{receiver}")
        if self.rng.random() < 0.4:
            return self.rng.choice(["", "!"]) + f"empty({sender},{receiver})"
        relation = self.rng.choice([r for r in RELATIONS if r != "!="])
        return f"intransit({sender},{receiver}) {relation} {self.rng.randint(0, 2)}"

    def difference(self):
        left, right = [self.variable(name, "c") for name in self.rng.sample(self.log.procs, 2)]
        relation = self.rng.choice([r for r in RELATIONS if r != "!="])
        return f"{left} - {right} {relation} {self.rng.randint(0, 3)}"


def keep_words(rng, log, formula):
    """The formula's names and some that it doesn't need, behind a `--keep` each, in any order."""
    names = set(formula.names)
    for _ in range(rng.randint(0, 2)):
        name, other = rng.sample(log.procs, 2)
        names.add(rng.choice([f"{name}.c", f"{name}>{other}", name]))
    names = sorted(names)
    rng.shuffle(names)
    return [word for name in names for word in ("--keep", name)]


def run(words, text):
    done = subprocess.run(words, input=text, capture_output=True, text=True, timeout=SECONDS)
    return done.returncode, done.stdout, done.stderr


def verdict(pota, formula, text):
    status, _, told = run([pota, "check", formula], text)
    return status if status in (0, 1) else f"status {status}: {told.strip()}"


def events(text):
    return sum(line.startswith("ev ") for line in text.splitlines())


def main():
    if len(sys.argv) not in (3, 4, 5):
        sys.exit(__doc__)
    pota, pota_log = sys.argv[1:3]
    logs = int(sys.argv[3]) if len(sys.argv) > 3 else 200
    seed = int(sys.argv[4]) if len(sys.argv) > 4 else 1
    differ = failed = true = all_events = kept_events = 0
    for number in range(logs):
        rng = random.Random(seed * 1_000_003 + number)
        log = Log(rng)
        formula = Formula(rng, log)
        words = keep_words(rng, log, formula)
        text = log.text()
        whole = verdict(pota, formula.text, text)
        status, kept, told = run([pota_log, *words], text)
        part = verdict(pota, formula.text, kept) if status == 0 else f"pota_log {status}: {told.strip()}"
        failed += not isinstance(whole, int) or not isinstance(part, int)
        differ += whole != part
        true += whole == 0
        all_events += events(text)
        kept_events += events(kept)
        if whole != part or not isinstance(whole, int):
            print(f"log {number}: whole {whole}, kept {part}: {formula.text} by {' '.join(words)}")
    print(f"{logs} logs, {all_events} events, {kept_events} kept; {true} verdicts are true; {failed} failed; {differ} differ")
    sys.exit(1 if differ or failed else 0)


if __name__ == "__main__":
    main()
