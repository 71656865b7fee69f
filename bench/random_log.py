"""Random logs of small runs in each form, with their states at all consistent cuts: for bench/asked.py."""
import collections

CUTS = 3000
LOG_FORMS = {"one log without clocks": [], "merged logs": ["--merged"], "two-line log": ["--vclog"]}


class Log:
    """A random run: processes with counters `c` that never fall and levels `x` and `y`, and messages between them."""

    def __init__(self, rng):
        self.rng = rng
        self.form = "one log" if rng.random() < 0.75 else rng.choice(list(LOG_FORMS))
        self.procs = [f"p{place + 1}" for place in range(rng.randint(2, 5))]
        self.first = {name: self.first_values(name) for name in self.procs}
        self.clocks = {name: [] for name in self.procs}
        self.lines = {name: [] for name in self.procs}
        self.after = {name: [{f"{name}.{v}": k for v, k in self.first[name].items()}] for name in self.procs}
        self.order = []
        self.sent = []
        # A host of a two-line log is one that has a record.
        for name in self.procs if self.form == "two-line log" else []:
            self.event(name)
        for _ in range(rng.randint(0, 25 - len(self.order))):
            self.event(rng.choice(self.procs))

    def first_values(self, name):
        if self.form == "two-line log":
            return {"n": 0}
        names = ["c", "x", "y"][: self.rng.randint(1 if name == "p1" else 0, 3)]
        return {variable: self.rng.randint(0, 2) for variable in names}

    def event(self, name):
        place = self.procs.index(name)
        clock = list(self.clocks[name][-1]) if self.clocks[name] else [0] * len(self.procs)
        after = dict(self.after[name][-1])
        action = "int"
        waiting = [message for message in self.sent if message[1] == name]
        kind = self.rng.random()
        if kind < 0.4 and waiting:
            message = self.rng.choice(waiting)
            self.sent.remove(message)
            sender, _, number, then = message
            clock = [max(pair) for pair in zip(clock, then)]
            action = f"recv {sender} {number}"
            self.pass_on(after, f"{sender}>{name}", -1)
        clock[place] += 1
        if kind > 0.6:
            to = self.rng.choice([other for other in self.procs if other != name])
            self.sent.append((name, to, len(self.order), list(clock)))
            action = f"send {to} {len(self.order)}"
            self.pass_on(after, f"{name}>{to}", 1)
        words = [f"{variable}={self.assign(after, name, variable)}" for variable in self.first[name] if self.rng.random() < 0.4]
        if self.form == "two-line log":
            after[f"{name}.n"] = clock[place]
        self.order.append(name)
        self.clocks[name].append(tuple(clock))
        self.lines[name].append((action, words))
        self.after[name].append(after)

    def pass_on(self, after, channel, count):
        """A two-line log has clocks alone, and nothing in transit."""
        if self.form != "two-line log":
            after[channel] = after.get(channel, 0) + count

    def assign(self, after, name, variable):
        old = after[f"{name}.{variable}"]
        after[f"{name}.{variable}"] = new = old + self.rng.randint(0, 2) if variable == "c" else self.rng.randint(-1, 3)
        return new

    def rising(self):
        """The variables that never fall."""
        for name in self.procs:
            for variable in self.first[name]:
                values = [after[f"{name}.{variable}"] for after in self.after[name]]
                if values == sorted(values):
                    yield name, f"{name}.{variable}"

    def line(self, name, place):
        action, words = self.lines[name][place]
        clock = "~" if self.form == "one log without clocks" else ",".join(map(str, self.clocks[name][place]))
        return " ".join(["ev", name, clock, action, *words])

    def text(self):
        header = [f"pota-log {2 if self.form == 'one log without clocks' else 1}", "procs " + " ".join(self.procs)]
        if self.form == "two-line log":
            return "".join(self.records())
        if self.form == "merged logs":
            parts = [[*header, *self.vars_line(name), *self.lines_of(name), "end"] for name in self.procs]
            self.rng.shuffle(parts)
            return "".join("\n".join(part) + "\n" for part in parts)
        variables = [line for name in self.procs for line in self.vars_line(name)]
        return "\n".join([*header, *variables, *self.in_some_order(), "end"]) + "\n"

    def vars_line(self, name):
        """A process without variables has none."""
        values = [f"{variable}={value}" for variable, value in self.first[name].items()]
        return [" ".join(["vars", name, *values])] if values else []

    def lines_of(self, name):
        return [self.line(name, place) for place in range(len(self.lines[name]))]

    def in_some_order(self):
        """The lines of all processes in any order, or in that of the run, perhaps with a batch."""
        order = list(self.order)
        any_order = self.rng.random() < 0.5
        if any_order:
            self.rng.shuffle(order)
        lines = [self.line(name, order[:at].count(name)) for at, name in enumerate(order)]
        if not any_order and lines and self.rng.random() < 0.4:
            lines.insert(self.rng.randint(1, len(lines)), "batch")
        return lines

    def records(self):
        for at, name in enumerate(self.order):
            clock = self.clocks[name][self.order[:at].count(name)]
            counts = ",".join(f'"{other}":{count}' for other, count in zip(self.procs, clock) if count)
            yield f"{name} {{{counts}}}\nevent\n"

    def next_cuts(self, cut):
        """The consistent cuts with one event more."""
        for place, name in enumerate(self.procs):
            if cut[place] < len(self.clocks[name]):
                more = (*cut[:place], cut[place] + 1, *cut[place + 1:])
                if all(count <= there for count, there in zip(self.clocks[name][cut[place]], more)):
                    yield more

    def states(self):
        """The states at all consistent cuts, those of less events first; none where there are CUTS or more."""
        found = {(0,) * len(self.procs): None}
        for cut in (waiting := list(found)):
            for more in self.next_cuts(cut):
                if more not in found:
                    found[more] = None
                    waiting.append(more)
            if len(found) >= CUTS:
                return {}
        return {cut: self.state(cut) for cut in found}

    def state(self, cut):
        """The values of the variables, and the numbers of messages in transit: those sent without those received."""
        state = collections.Counter()
        for name, count in zip(self.procs, cut):
            state.update(self.after[name][count])
        return state
