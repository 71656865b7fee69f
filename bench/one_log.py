#!/usr/bin/env python3
"""Asks the outside cases of crates/call_rows as they are, and again of the one log that `pota_log` writes of them.

    bench/one_log.py POTA POTA_LOG POTA_VERIFY [ROWS]

The three are the built programs; ROWS has the cases in place of crates/call_rows/stdin. Each case of `check` and `certify` whose
arguments are valid is asked by `pota` alone, and by `pota_log | pota` without the option of its form. The outputs must be the same,
and where `pota_log` refuses the log, `pota` must give the same fault, or one of the formula. What is written is read and written
again, which must give the same bytes. Each verdict on a written log is certified, and `pota_verify` must accept it; a formula with a
watch has no certificate. A line for each form says how many came out so, and before it comes each case that did not. The exit status
is 1 where there is one. It takes about a minute, and writes no file.
"""
import os
import re
import subprocess
import sys

SECONDS = 60
FORMS = ["one log", "one log without clocks", "two-line log", "merged logs"]
# What a case says that can be said by bytes alone; others are made, or have failing sources.
PLAIN = {"case", "word", "log", "log-as-before", "cut", "pieces", "status", "room", "batches", "report", "diag", "workers", "end"}
VALID = {0, 1, 3, 4}


class Case:
    """The arguments and the log of a case."""

    def __init__(self, earlier):
        self.name = ""
        self.words = []
        self.log = b""
        self.earlier = earlier
        self.cut = 0
        self.plain = True

    def take(self, line):
        keyword, _, text = line.partition(" ")
        self.plain = self.plain and keyword in PLAIN
        if keyword == "case":
            self.name = text
        elif keyword == "word":
            self.words.append(bytes_of(text))
        elif keyword == "log":
            self.log += bytes_of(text) + b"\n"
        elif keyword == "log-as-before":
            self.log = self.earlier
        elif keyword == "cut":
            self.cut = int(text)

    def text(self):
        return self.log[: len(self.log) - self.cut]

    def form(self):
        if b"--vclog" in self.words:
            return "two-line log"
        if b"--merged" in self.words:
            return "merged logs"
        return "one log without clocks" if b" ~ " in self.log else "one log"


def bytes_of(text):
    """The bytes that a text of the rows means: a backslash and two digits are one."""
    return re.sub(rb"\\([0-9a-f]{2})", lambda found: bytes([int(found[1], 16)]), text.encode("latin-1"))


def cases_of(path):
    """The plain cases of the sections `outside`."""
    outside = False
    case = Case(b"")
    for line in open(path, encoding="latin-1"):
        line = line.rstrip("\n")
        if line.startswith("rows "):
            outside = line.startswith("rows outside ")
        elif line and not line.startswith("#"):
            case.take(line)
        if line == "end":
            if outside and case.plain and {b"check", b"certify"} & set(case.words):
                yield case
            case = Case(case.log)


def run(words, text):
    done = subprocess.run(words, input=text, capture_output=True, timeout=SECONDS)
    return done.returncode, done.stdout, done.stderr


def fault(told):
    """What is told, without the program's name. Where a counter falls has its line in the log that is asked."""
    text = told.split(b": ", 1)[-1]
    return re.sub(rb"^log .* (L21 )", rb"\1", text)


class Programs:
    def __init__(self, pota, pota_log, pota_verify):
        self.pota = pota
        self.pota_log = pota_log
        self.pota_verify = pota_verify

    def judge(self, case, count):
        """What came out otherwise than it must, if something did; counts what came out."""
        status, report, told = alone = run([self.pota, *case.words], case.text())
        if status not in VALID:
            return None
        count["cases"] += 1
        options = [word for word in (b"--vclog", b"--merged") if word in case.words]
        made, log, refused = run([self.pota_log, *options], case.text())
        if made == 4:
            count["refused"] += 1
            of_formula = status == 3 or fault(told).startswith(b"L21 ")
            return None if of_formula or (status, fault(told)) == (4, fault(refused)) else f"refused: {refused}, alone {told}"
        if made != 0:
            return f"pota_log {made}: {refused}"
        count["written"] += 1
        piped = run([self.pota, *[word for word in case.words if word not in options]], log)
        if (piped[:2], fault(piped[2])) != (alone[:2], fault(told)):
            return f"alone {alone}, piped {piped}"
        count["same"] += 1
        if run([self.pota_log], log) != (0, log, b""):
            return "written again it is another"
        count["again"] += 1
        return self.certified(status, report, log, count) if status in (0, 1) else None

    def certified(self, status, report, log, count):
        formula = re.findall(rb"^formula (.*)$", report, re.M)[-1]
        certified, certificate, told = run([self.pota, b"certify", formula], log)
        if certified == 3 and b" F12 " in told:
            return None
        if certified != status:
            return f"certified {certified}: {told}"
        count["certified"] += 1
        accepted = run([self.pota_verify, formula], log + certificate)
        if accepted != (0, b"accepted false\n" if status else b"accepted true\n", b""):
            return f"verified {accepted}"
        count["accepted"] += 1
        return None


def main():
    if len(sys.argv) not in (4, 5):
        sys.exit(__doc__)
    programs = Programs(*sys.argv[1:4])
    top = os.path.dirname(os.path.dirname(os.path.abspath(__file__)))
    rows = sys.argv[4] if len(sys.argv) > 4 else f"{top}/crates/call_rows/stdin"
    counts = {form: dict.fromkeys(["cases", "refused", "written", "same", "again", "certified", "accepted"], 0) for form in FORMS}
    failed = 0
    for case in cases_of(rows):
        said = programs.judge(case, counts[case.form()])
        if said:
            failed += 1
            print(f"{case.name}, {case.form()}: {said}")
    for form, count in counts.items():
        print(f"{form}: {', '.join(f'{number} {what}' for what, number in count.items())}")
    sys.exit(1 if failed else 0)


if __name__ == "__main__":
    main()
