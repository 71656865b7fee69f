#!/usr/bin/env python3
"""Times `pota_log` beside `pota check true`, on a log of 32 processes and 50,000 events in each form.

    bench/log_times.py POTA POTA_LOG [RUNS [LOG]]

POTA and POTA_LOG are the built programs. LOG is one log with its clocks in one batch, in place of the log that `bench/log` makes. The
forms are the log itself, the same without its clocks, as a two-line log, as a log for each process, and these where each eighth is cut
in the middle of an event, 40 events before its end. What is printed goes to a file. A row has the least processor time of RUNS runs (5)
in milliseconds, and the peaks in units of 1,048,576 bytes. The exit status is 1 where `pota_log` takes more than twice the time of
`pota check true`. It takes about half a minute, and writes temporary files alone.
"""
import multiprocessing
import os
import re
import subprocess
import sys
import tempfile

PROCESSES = 32
EVENTS = 50_000
LEFT_BEHIND = 40
# The file, the title, the options, and whether `--torn` goes with them.
FORMS = [
    ("one", "one log", [], True),
    ("without", "the same without clocks", [], True),
    ("two", "the same as a two-line log", ["--vclog"], False),
    ("merged", "32 logs, merged", ["--merged"], True),
    ("torn", "32 logs, four of them torn", ["--merged"], True),
]


def generated():
    """The log of `bench/log`: each third event sends to the next process, whose next event receives."""
    clocks = [[0] * PROCESSES for _ in range(PROCESSES)]
    lines = ["pota-log 1", "procs " + " ".join(f"P{p + 1}" for p in range(PROCESSES))]
    lines += [f"vars P{p + 1} n=0" for p in range(PROCESSES)]
    for event in range(EVENTS):
        p = event % PROCESSES
        before = (p - 1) % PROCESSES
        action = "int"
        if event % 3 == 1:
            action = f"send P{(p + 1) % PROCESSES + 1} {event}"
        elif event % 3 == 2:
            clocks[p] = [max(pair) for pair in zip(clocks[p], clocks[before])]
            action = f"recv P{before + 1} {event - 1}"
        clocks[p][p] += 1
        lines.append(f"ev P{p + 1} {','.join(map(str, clocks[p]))} {action} n={event}")
    return "\n".join(lines + ["end"]) + "\n"


def without_clocks(log):
    return re.sub(r"^(ev \S+) \S+", r"\1 ~", log.replace("pota-log 1", "pota-log 2", 1), flags=re.M)


def two_lines(log):
    """A record of each event, with its clock."""
    records = []
    names = log.split("\n", 2)[1].split(" ")[1:]
    for name, clock in re.findall(r"^ev (\S+) (\S+)", log, re.M):
        counts = ",".join(f'"{other}":{count}' for other, count in zip(names, clock.split(",")) if count != "0")
        records.append(f"{name} {{{counts}}}\nevent\n")
    return "".join(records)


def of_processes(log):
    """The log of each process, in the order of the names."""
    lines = log.split("\n")
    logs = []
    for name in lines[1].split(" ")[1:]:
        own = [line for line in lines[2:] if line.startswith((f"vars {name} ", f"ev {name} "))]
        logs.append("\n".join([*lines[:2], *own, "end"]) + "\n")
    return logs


def torn(log):
    """Cut in the middle of an event. What follows it in a merged input follows on the half line."""
    lines = log.split("\n")[: -LEFT_BEHIND - 1]
    return "\n".join([*lines[:-1], lines[-1][: len(lines[-1]) // 2]])


def write_forms(folder, path):
    """Writes the forms, in a process of its own: a program's peak counts what the process that starts it has."""
    log = open(path).read() if path else generated()
    logs = of_processes(log)
    cut = [torn(one) if place % 8 == 7 else one for place, one in enumerate(logs)]
    forms = {"one": log, "without": without_clocks(log), "two": two_lines(log), "merged": "".join(logs), "torn": "".join(cut)}
    for name, text in forms.items():
        with open(f"{folder}/{name}", "w") as file:
            file.write(text)


def measure(words, path, runs):
    """The least time of processor in milliseconds, and the peak."""
    times, peaks = [], []
    for _ in range(runs):
        with open(path) as log, open(f"{path}.out", "w") as out:
            child = subprocess.Popen(words, stdin=log, stdout=out, stderr=subprocess.DEVNULL)
            _, status, used = os.wait4(child.pid, 0)
        child.returncode = os.waitstatus_to_exitcode(status)
        if child.returncode:
            sys.exit(f"{' '.join(words)}: exit status {child.returncode}")
        times.append(1000 * (used.ru_utime + used.ru_stime))
        peaks.append(used.ru_maxrss / 1024)
    return min(times), max(peaks)


def main():
    if len(sys.argv) not in (3, 4, 5):
        sys.exit(__doc__)
    pota, pota_log = sys.argv[1:3]
    runs = int(sys.argv[3]) if len(sys.argv) > 3 else 5
    slow = False
    with tempfile.TemporaryDirectory() as folder:
        writer = multiprocessing.Process(target=write_forms, args=(folder, sys.argv[4] if len(sys.argv) > 4 else None))
        writer.start()
        writer.join()
        print("| input | bytes | `pota check true`, ms | `pota_log`, ms | `--torn`, ms | peaks, MB |\n|---|---|---|---|---|---|")
        for name, title, options, torn_too in FORMS:
            path = f"{folder}/{name}"
            alone = made = mended = None
            if name != "torn":
                alone = measure([pota, "check", "true", *options], path, runs)
                made = measure([pota_log, *options], path, runs)
                slow = slow or made[0] > 2 * alone[0]
            if torn_too:
                mended = measure([pota_log, "--torn", *options], path, runs)
            print(row(title, os.path.getsize(path), alone, made, mended))
    sys.exit(1 if slow else 0)


def row(title, size, *measured):
    times = " | ".join(f"{one[0]:.0f}" if one else "" for one in measured)
    peaks = ", ".join(f"{one[1]:.1f}" for one in measured if one)
    return f"| {title} | {size:,} | {times} | {peaks} |"


if __name__ == "__main__":
    main()
