"""Writes the log of one process for `pota`. Each rule of docs/LOGGING.md is one place in it.

    log = Log("a", ["server", "a", "b"], {"cs": 0}, "run")  # goes to run/a.log
    stamp = log.send("server")           # before the message, which carries the stamp (JSON)
    with log.receive(stamp) as first:    # around the handler; `first` is false for a copy
        log.set(cs=1)                    # belongs to the line of the receipt
    log.set(cs=0)                        # outside of a receipt: an event of its own

A folder is one run: a process that finds its log there continues it, as restarted.
"""
import atexit, contextlib, operator, os, pathlib, re, signal, sys, threading


def name_of(text):
    """`node-1` becomes `node_1` and `7` becomes `_7`: names have letters, digits and `_`."""
    return re.sub(r"^(?=\d)", "_", re.sub(r"[^A-Za-z0-9_]", "_", text))


def whole_lines(text):
    """A log to continue: half a line at its end is cut, and its `end` removed."""
    text = text[: text.rfind(b"\n") + 1]
    return text[:-4] if text.endswith(b"\nend\n") else text


class Log:
    def __init__(self, me, procs, variables={}, folder=".", clocks=True):
        self.lock, self.pid, self.clocks, self.held = threading.RLock(), os.getpid(), clocks, None
        self.me, self.procs = name_of(me), [name_of(process) for process in procs]
        self.variables = {name_of(name): value for name, value in variables.items()}
        self.clock, self.at, self.received = [0] * len(procs), self.procs.index(self.me), set()
        self.begin(pathlib.Path(folder, self.me + ".log"))
        atexit.register(self.close)
        if threading.current_thread() is threading.main_thread():
            if signal.getsignal(signal.SIGTERM) == signal.SIG_DFL:  # ends as `sys.exit` does
                signal.signal(signal.SIGTERM, lambda number, _: sys.exit(128 + number))

    def begin(self, path):
        """Begins a log, or continues the one found: its clock, and the messages it received."""
        head = f"pota-log {1 if self.clocks else 2}\nprocs {' '.join(self.procs)}\n"
        head += f"vars {self.me}{self.words(self.variables)}\n" if self.variables else ""
        found = whole_lines(path.read_bytes()).decode() if path.exists() else ""
        events = re.findall(r"^ev \S+ (\S+) (\S+) ?(\S*) ?(\d*)", found, re.M)
        if events and found.split("\n")[:2] != head.split("\n")[:2]:
            raise ValueError(f"{path} is a log of another run")
        self.file = os.open(path, os.O_WRONLY | os.O_CREAT | os.O_APPEND, 0o644)
        os.ftruncate(self.file, len(found) if events else 0)
        if not events:
            return os.write(self.file, head.encode())
        self.clock = [int(n) for n in events[-1][0].split(",")] if self.clocks else self.clock
        self.clock[self.at] = len(events)
        self.received = {(e[2], int(e[3])) for e in events if e[1] == "recv"}
        self.event(**self.variables)  # what the restart lost

    def words(self, values):
        """` x=1 y=-2`: whole numbers of 64 bits, of variables that the header has."""
        for name, value in values.items():
            if name not in self.variables or not -(1 << 63) <= operator.index(value) < 1 << 63:
                raise ValueError(f"{name}={value}: no variable of {self.me}, or no 64-bit number")
        return "".join(f" {name}={int(value)}" for name, value in values.items())

    def hold(self, kind, values, known=()):
        """Begins an event: increments the clock, holds the line until its variables are set."""
        self.write_held()
        self.words(values)  # a wrong name fails here, before anything changes
        self.clock = [max(pair) for pair in zip(self.clock, known or self.clock, strict=True)]
        self.clock[self.at] += 1
        self.held = (f"{','.join(map(str, self.clock)) if self.clocks else '~'} {kind}", values)

    def write_held(self):  # one write for a line, and no buffer that a crash would lose
        held, self.held = self.held, None
        if held:
            os.write(self.file, f"ev {self.me} {held[0]}{self.words(held[1])}\n".encode())

    def set(self, **values):
        """Sets variables at the receipt being handled, or at an event of its own."""
        with self.lock:
            self.words(values)
            self.held[1].update(values) if self.held else self.event(**values)

    def event(self, *after, **values):
        """An internal event; `after` is what `now()` gave elsewhere: a tie that is no message."""
        with self.lock:
            self.hold("int", values, *after)
            self.write_held()

    def now(self):  # the clock, to pass on where something besides messages ties processes
        with self.lock:
            self.write_held()
            return self.clock

    def send(self, receiver, /, **values):
        """Logs a send, before the message goes, and gives its stamp: sender, number, clock."""
        with self.lock:
            self.hold(f"send {name_of(receiver)} {self.clock[self.at] + 1}", values)
            self.write_held()
            return [self.me, self.clock[self.at], self.clock if self.clocks else []]

    @contextlib.contextmanager
    def receive(self, stamp):
        """A receipt, whose line is written at the end of the `with` block; false for a copy."""
        sender, number, clock = stamp
        with self.lock:
            first = (sender, number) not in self.received
            self.received.add((sender, number))
            self.hold(f"recv {sender} {number}" if first else "int", {}, clock)
            try:
                yield first
            finally:
                self.write_held()

    def close(self):  # once, and not in a forked child
        with self.lock:
            if self.file is not None and self.pid == os.getpid():
                self.write_held()
                self.file = os.write(self.file, b"end\n") and os.close(self.file)


if __name__ == "__main__":  # ends the logs of killed processes: python3 potalog.py FILE ..
    for path in map(pathlib.Path, sys.argv[1:]):
        path.write_bytes(whole_lines(path.read_bytes()) + b"end\n")
