"""Runs a system of processes that send each other datagrams on this machine, and log.

A network loses messages, copies them and holds them up: here a datagram is lost at its sender one
time in twenty, goes out twice one time in twenty, and waits at its receiver for up to four
milliseconds, so that messages overtake each other. A run is ended after LENGTH seconds.

Beside the log of each process, the file `order` in the folder of the run gets each line as it is
written: the order in which events were logged.
"""
import argparse, heapq, json, os, pathlib, random, signal, socket, sys, time, traceback

HERE = pathlib.Path(__file__).resolve().parent
sys.path.insert(0, str(HERE.parent / "loggers" / "python"))
import potalog

LENGTH, LOSS, COPIES, DELAY = 0.15, 0.05, 0.05, 0.004
AGAIN = 0.015  # a message without an answer is sent again after so many seconds


class Log(potalog.Log):
    """A log whose events go to the common file too."""

    def __init__(self, me, procs, variables, folder):
        self.common = os.open(folder / "order", os.O_WRONLY | os.O_CREAT | os.O_APPEND, 0o644)
        super().__init__(me, procs, variables, folder)

    def write_held(self):
        held = self.held
        super().write_held()
        if held:
            line = f"ev {self.me} {held[0]}{self.words(held[1])}\n"
            os.write(self.common, line.encode())


class Node:
    """A process of the system: its log, its datagrams, and what it does at a later time.

    A system's own kinds of process have `first_values`, `start` and `receive`.
    """

    def __init__(self, me, network, folder, form):
        self.me, self.network, self.folder, self.mended = me, network, folder, form == "mended"
        self.later, self.count = [], 0
        self.log = Log(me, list(network), self.first_values(), folder)

    def after(self, seconds, step, *words):
        """Does a step so many seconds from now."""
        self.count += 1
        heapq.heappush(self.later, (time.monotonic() + seconds, self.count, step, words))

    def send(self, receiver, **content):
        """Logs a send and sends it; gives the message, to be sent again."""
        message = {"from": self.me, "stamp": self.log.send(receiver), "content": content}
        self.send_again(receiver, message)
        return message

    def send_again(self, receiver, message):
        """Sends a message, which is logged once however often it goes out."""
        datagram = json.dumps(message).encode()
        for _ in range(2 if random.random() < COPIES else 1):
            if random.random() >= LOSS:
                self.network[self.me].sendto(datagram, self.network[receiver].getsockname())

    def send_until(self, is_done, receiver, **content):
        """Sends a message again and again, until it is no longer needed."""

        def again(message):
            if not is_done():
                self.send_again(receiver, message)
                self.after(AGAIN, again, message)

        self.after(AGAIN, again, self.send(receiver, **content))

    def handle(self, message):
        with self.log.receive(message["stamp"]) as first:
            self.receive(message["from"], first, **message["content"])

    def run(self):
        self.start()
        while True:
            wait = self.later[0][0] - time.monotonic() if self.later else 1
            if wait <= 0:
                _, _, step, words = heapq.heappop(self.later)
                step(*words)
                continue
            self.network[self.me].settimeout(wait)
            try:
                message = json.loads(self.network[self.me].recv(65536))
            except (TimeoutError, BlockingIOError):
                continue
            self.after(random.random() * DELAY, self.handle, message)


def begin(node, *words):
    """Begins a process, which goes on until it is told to stop; gives its number."""
    child = os.fork()
    if child:
        return child
    random.seed()
    signal.alarm(10)  # whatever becomes of the one that began it
    try:
        process = node(*words)
        process.run()
    except SystemExit:  # it was told to stop
        process.log.close()
        os._exit(0)
    except BaseException:
        traceback.print_exc()
        os._exit(1)


def drain(network):
    """A process that is killed loses what came to it."""
    network.setblocking(False)
    try:
        while True:
            network.recv(65536)
    except BlockingIOError:
        pass


def wait_for_logs(folder, names):
    """Waits until all processes have begun, up to five seconds."""
    for _ in range(500):
        logs = [folder / f"{name}.log" for name in names]
        if all(log.exists() and "vars" in log.read_text() for log in logs):
            return
        time.sleep(0.01)
    sys.exit(f"{folder}: a process did not begin")


def run(folder, nodes, form, victim):
    """One run. The victim, if there is one, is killed, and every other time begun again."""
    network = {name: socket.socket(socket.AF_INET, socket.SOCK_DGRAM) for name in nodes}
    for it in network.values():
        it.bind(("127.0.0.1", 0))
    running = {name: begin(node, name, network, folder, form) for name, node in nodes.items()}
    wait_for_logs(folder, nodes)
    end = time.monotonic() + LENGTH
    if victim:
        time.sleep(random.uniform(0, LENGTH / 2))
        os.kill(running[victim], signal.SIGKILL)
        os.waitpid(running.pop(victim), 0)
        if random.random() < 0.5:
            time.sleep(AGAIN)
            drain(network[victim])
            running[victim] = begin(nodes[victim], victim, network, folder, form)
    time.sleep(max(0.05, end - time.monotonic()))
    for process in running.values():
        os.kill(process, signal.SIGTERM)
    ends = {name: os.waitpid(process, 0)[1] for name, process in running.items()}
    # what was begun again may be told to stop before its logger has taken over the signal
    return not any(end for name, end in ends.items() if (name, end) != (victim, signal.SIGTERM))


def is_shown(folder, is_bad):
    """Whether some state is bad in the order in which events were logged."""
    values = {}
    for log in folder.glob("*.log"):
        for line in log.read_text().splitlines():
            if line.startswith("vars "):
                take_values(values, line.split(" ")[1:])
    for line in (folder / "order").read_text().splitlines():
        take_values(values, line.split(" ")[1:])
        if is_bad(values):
            return True
    return False


def take_values(values, words):
    for word in words[1:]:
        if "=" in word:
            name, value = word.split("=")
            values[f"{words[0]}.{name}"] = int(value)


def main(nodes, question, is_bad, killable):
    words = argparse.ArgumentParser(description="Prints the question, or makes runs 1 to N.")
    words.add_argument("form", choices=["question", "planted", "mended"])
    words.add_argument("folder", nargs="?", type=pathlib.Path, help="gets a folder for each run")
    words.add_argument("--runs", type=int, default=1, metavar="N")
    words.add_argument("--kill", action="store_true", help="kill a process in each run")
    asked = words.parse_args()
    if asked.form == "question":
        return print(question)
    for number in range(1, asked.runs + 1):
        folder = asked.folder / str(number)
        folder.mkdir(parents=True)
        if not run(folder, nodes, asked.form, random.choice(killable) if asked.kill else None):
            sys.exit(f"run {number}: a process failed")
        (folder / "order_shows").write_text("bad\n" if is_shown(folder, is_bad) else "nothing\n")
