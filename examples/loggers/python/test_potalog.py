"""The logger's tests: python3 test_potalog.py. Where POTA names the program, it is asked too."""
import json, os, pathlib, re, signal, socket, subprocess, sys, tempfile, threading
import time, unittest
import potalog

HERE = pathlib.Path(__file__).resolve().parent
POTA = os.environ.get("POTA")
PROCS = ["client", "store-1"]


def carried(stamp):
    """The stamp as it comes out of a message."""
    return json.loads(json.dumps(stamp))


def kill(log):
    """Leaves a log as a process that is killed while it writes a line."""
    os.write(log.file, b"ev store_1 2,")
    log.pid = None


def play(folder, clocks):
    """A message that is lost, a reply out of a handler, a copy, a kill and a restart."""
    client = potalog.Log("client", PROCS, {"asked": 0, "told": 0}, folder, clocks)
    store = potalog.Log("store-1", PROCS, {"kept": 0}, folder, clocks)
    client.send("store-1", asked=1)
    request = carried(client.send("store-1", asked=2))
    with store.receive(request) as first:
        store.set(kept=1)
        reply = carried(store.send("client"))
        store.set(kept=2)
    with client.receive(reply):
        client.set(told=True)
    client.set(asked=0)
    kill(store)
    store = potalog.Log("store-1", PROCS, {"kept": 0}, folder, clocks)
    with store.receive(request) as second:
        pass
    with client.receive(carried(store.send("client"))):
        client.set(told=2)
    client.close()
    store.close()
    return first, second


def lines_of(folder, name):
    return (pathlib.Path(folder) / f"{name}.log").read_text().splitlines()


class OneProcess(unittest.TestCase):
    def setUp(self):
        self.room = tempfile.TemporaryDirectory()
        self.folder = self.room.name
        self.addCleanup(self.room.cleanup)

    def test_scenario(self):
        for form in ("clocks", "no_clocks"):
            folder = pathlib.Path(self.folder, form)
            folder.mkdir()
            self.assertEqual(play(folder, form == "clocks"), (True, False))
            for name in ("client", "store_1"):
                wanted = lines_of(HERE / "../scenario" / form, name)
                self.assertEqual(lines_of(folder, name), wanted)

    def test_failing_handler(self):
        log = potalog.Log("a", ["a", "b"], {"x": 0}, self.folder)
        with self.assertRaises(KeyError), log.receive(["b", 1, [0, 1]]):
            log.set(x=1)
            raise KeyError
        log.set(x=2)
        log.close()
        lines = ["ev a 1,1 recv b 1 x=1", "ev a 2,1 int x=2", "end"]
        self.assertEqual(lines_of(self.folder, "a")[3:], lines)

    def test_tie(self):
        log = potalog.Log("a", ["a", "b"], {"x": 0}, self.folder)
        log.event([0, 7], x=1)
        self.assertEqual(log.now(), [1, 7])
        log.close()

    def test_mistakes(self):
        log = potalog.Log("a", ["a", "b"], {"x": 0}, self.folder)
        for values in ({"y": 1}, {"x": 1 << 63}):
            self.assertRaises(ValueError, log.set, **values)
        self.assertRaises(TypeError, log.set, x=1.5)
        log.set(x=1)
        self.assertRaises(ValueError, log.receive(["b", 1, [1, 1, 1]]).__enter__)
        self.assertRaises(ValueError, potalog.Log, "a", ["a", "c"], {}, self.folder)
        log.close()
        log.close()
        self.assertEqual(lines_of(self.folder, "a")[3:], ["ev a 1,0 int x=1", "end"])

    def test_names(self):
        names = [potalog.name_of(it) for it in ("node-1", "7", "n.é")]
        self.assertEqual(names, ["node_1", "_7", "n__"])

    def test_threads(self):
        log = potalog.Log("a", ["a", "b"], {"x": 0}, self.folder)

        def work(number):
            for message in range(50):
                with log.receive(["b", 1000 * number + message, [0, message]]):
                    log.set(x=number)
                log.event(x=number)

        threads = [threading.Thread(target=work, args=(number,)) for number in range(4)]
        for it in threads:
            it.start()
        for it in threads:
            it.join()
        log.close()
        events = lines_of(self.folder, "a")[3:-1]
        own = [int(re.match(r"ev a (\d+),\d+ (recv|int)\b.* x=\d$", it)[1]) for it in events]
        self.assertEqual(own, list(range(1, 401)))

    def test_forked_child(self):
        log = potalog.Log("a", ["a"], {}, self.folder)
        child = os.fork()
        if not child:
            log.close()
            os._exit(0)
        os.waitpid(child, 0)
        self.assertEqual(len(lines_of(self.folder, "a")), 2)
        log.close()


def free_ports():
    sockets = [socket.socket(socket.AF_INET, socket.SOCK_DGRAM) for _ in range(2)]
    for it in sockets:
        it.bind(("127.0.0.1", 0))
    ports = [str(it.getsockname()[1]) for it in sockets]
    for it in sockets:
        it.close()
    return ports


def wait_for(text, path):
    """Waits until a log has a text, up to twenty seconds."""
    for _ in range(2000):
        if path.exists() and text in path.read_text():
            return
        time.sleep(0.01)
    raise AssertionError(f"{path} lacks {text}")


def run_pair(folder, form):
    """The store is killed and started again, the client is killed, and the store told to stop."""
    ports, started = free_ports(), []

    def start(name):
        words = [sys.executable, HERE / "pair.py", name, folder, *ports, form]
        started.append(subprocess.Popen(words))
        return started[-1]

    try:
        store, client = start("store"), start("client")
        wait_for(" kept=2", folder / "store.log")
        store.kill()
        store.wait()
        store = start("store")
        wait_for(" int kept=0", folder / "store.log")
        wait_for(" told=4", folder / "client.log")
        wait_for(" int\n", folder / "store.log")
        client.kill()
        client.wait()
        store.terminate()
        store.wait(20)
    finally:
        for it in started:
            it.kill()
            it.wait()


class TwoProcesses(unittest.TestCase):
    def test_pair(self):
        for form in ("clocks", "no-clocks"):
            with self.subTest(form), tempfile.TemporaryDirectory() as room:
                folder = pathlib.Path(room)
                run_pair(folder, form)
                store, client = lines_of(folder, "store"), lines_of(folder, "client")
                self.assertEqual(store[-1], "end")
                self.assertNotEqual(client[-1], "end")
                potalog_words = [sys.executable, HERE / "potalog.py", folder / "client.log"]
                subprocess.run(potalog_words, check=True)
                self.assertEqual(lines_of(folder, "client"), client + ["end"])
                self.assertTrue(any(line.endswith(" int") for line in store), "no copy")
                if POTA:
                    self.ask(folder, form)

    def ask(self, folder, form):
        logs = [(folder / f"{name}.log").read_text() for name in ("client", "store")]
        forms = one_log_forms(logs)
        for formula in FORMULAS:
            answers = {answer("".join(logs), formula, "--merged")}
            answers |= {answer(text, formula) for text in forms}
            self.assertEqual(len(answers), 1, (folder, formula, answers))
        if form == "clocks":
            for formula in BY_NUMBERS:
                two_lines, numbered = two_line_log(logs), numbered_log(logs)
                self.assertEqual(answer(two_lines, formula, "--vclog"), answer(numbered, formula))


class Page(unittest.TestCase):
    """The client and the store of docs/LOGGING.md, as they are on the page."""

    def setUp(self):
        page = (HERE / "../../../docs/LOGGING.md").read_text()
        self.room = tempfile.TemporaryDirectory()
        self.addCleanup(self.room.cleanup)
        self.folder = pathlib.Path(self.room.name)
        (self.folder / "run1").mkdir()
        programs = re.findall(r"(?s)```python\n(.*?)```", page)
        port = free_ports()[0]
        for name, text in zip(("client", "store"), programs, strict=True):
            (self.folder / f"{name}.py").write_text(text.replace("7001", port))
        self.asked = re.search(r"(?s)\n    cat (run1/\S+) \| pota (.*?)\n\n```\n(.*?)```", page)

    def start(self, name):
        words = [sys.executable, f"{name}.py"]
        search = {**os.environ, "PYTHONPATH": str(HERE)}
        return subprocess.Popen(words, cwd=self.folder, env=search, stderr=subprocess.DEVNULL)

    def test_page(self):
        store = self.start("store")
        self.addCleanup(store.kill)
        clients = (self.start("client") for _ in range(50) if not time.sleep(0.1))
        self.assertTrue(any(client.wait(20) == 0 for client in clients), "no client ended well")
        self.assertEqual(store.wait(20), 0)
        if POTA:
            command = f"cat {self.asked[1]} | '{POTA}' {self.asked[2]}"
            said = subprocess.check_output(command, shell=True, cwd=self.folder, text=True)
            self.assertEqual(said, self.asked[3])


class Converter(unittest.TestCase):
    def test_json_lines(self):
        events = (HERE / "../scenario/events.jsonl").read_text()
        words = [sys.executable, HERE / "from_json.py"]
        log = subprocess.check_output(words, input=events, text=True)
        self.assertEqual(log, (HERE / "../scenario/events.log").read_text())
        if POTA:
            formula = "EF (web_1.waits = 1 & queue.length = 0)"
            self.assertIn("\nverdict true\n", answer(log, formula))


FORMULAS = ["true", "EF (client.told = 4 & store.kept = 0)", "EG intransit(client,store) <= 1",
            "AG store.kept <= 4", "AG EF intransit(store,client) >= 1", "EX client true",
            "EF (client.asked = 3 & client.told = 2 & store.kept = 3)"]
BY_NUMBERS = ["EF (client.n = 3 & store.n = 2)", "AG client.n - store.n <= 2",
              "EG store.n - client.n <= 9"]


def one_log_forms(logs):
    """The text of one log of all that was logged, with clocks if it has them, and without."""
    lines = [line for log in logs for line in log.splitlines()]
    heads = logs[0].splitlines()[:2] + [line for line in lines if line.startswith("vars ")]
    events = [line for line in lines if line.startswith("ev ")]
    text = "\n".join(heads + events + ["end"]) + "\n"
    return [text, re.sub(r"(?m)^(ev \w+) \S+", r"\1 ~", text.replace("pota-log 1", "pota-log 2"))]


def clocks_of(logs):
    events = [re.match(r"ev (\w+) (\S+)", line) for log in logs for line in log.splitlines()]
    return [(it[1], [int(count) for count in it[2].split(",")]) for it in events if it]


def two_line_log(logs):
    """The clocks as loggers for ShiViz write them."""
    text = ""
    for me, clock in clocks_of(logs):
        text += f"{me} {json.dumps(dict(zip(('client', 'store'), clock)))}\nan event\n"
    return text


def numbered_log(logs):
    """A log of the same clocks whose one variable is the number of the event."""
    text = "pota-log 1\nprocs client store\nvars client n=0\nvars store n=0\n"
    for me, clock in clocks_of(logs):
        own = clock[("client", "store").index(me)]
        text += f"ev {me} {','.join(map(str, clock))} int n={own}\n"
    return text + "end\n"


def answer(text, formula, *options):
    words = [POTA, "check", "--slice", "--witness", formula, *options]
    done = subprocess.run(words, input=text, capture_output=True, text=True, timeout=20)
    return done.stdout if done.returncode in (0, 1) else f"{done.returncode} {done.stderr}"


if __name__ == "__main__":
    unittest.main()
