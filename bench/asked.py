#!/usr/bin/env python3
"""Asks random questions of generated logs by `pota_ask`, and again by `pota` with the formula that each form is asked by.

    bench/asked.py POTA_ASK POTA [SEED]

POTA_ASK and POTA are the built programs. Of each of 300 generated logs, one in four in another form than one log with its clocks, five
questions are asked in one call of `pota_ask`, and each by `pota check`: `never F` by EF of each alternative of F, `always F` by AG, or
by EF of the opposite, and so on as docs/ASKING.md has it. A question that `pota` refuses must be refused by `pota_ask` too, and another
one comes in its place. Where a log has less than 3,000 consistent cuts, they are listed, and the question is answered by its definition
as well; the state that is shown for a `never` or an `always` is one of them and must show what it says. Of a part that holds at no
state, as a comment says, EF must be false.

Two questions over processes stand among these five. With the names of each two processes in it, or of each one, such a question is
asked of `pota` by the same table, by its definition, and alone of `pota_ask`: it holds where all of these do, and what is below its line
must be how many there are, or what is below the first of them that fails, with its processes and how many fail. One that no processes
have the variables for must be refused.

A line for each answer that differs is printed, and behind them one line with the counts; of each form it says how many questions hold.
The exit status is 1 where an answer differs. It takes about two minutes, and writes no file.
"""
import collections
import itertools
import operator
import random
import re
import subprocess
import sys

from random_log import LOG_FORMS, Log

LOGS = 300
QUESTIONS = 5
OVERS = 2
SECONDS = 60
FORMS = ["never", "can", "always", "surely", "at end", "plain"]
# `empty(a,b)` is a comparison too, of the messages in transit with 0.
TRUE_OF = {"<": operator.lt, "<=": operator.le, ">": operator.gt, ">=": operator.ge, "=": operator.eq, "!=": operator.ne}
OPPOSITE = {"<": ">=", ">=": "<", ">": "<=", "<=": ">", "=": "!=", "!=": "="}


class Atom:
    """A comparison. `measure` gives of a state what is compared with 0."""

    def __init__(self, left, relation, right, measure):
        self.left = left
        self.relation = relation
        self.right = right
        self.measure = measure

    def text(self):
        if self.left.startswith("empty"):
            return ("!" if self.relation == "!=" else "") + self.left
        return f"{self.left} {self.relation} {self.right}"

    def opposite(self):
        return Atom(self.left, OPPOSITE[self.relation], self.right, self.measure)

    def true_at(self, state):
        return TRUE_OF[self.relation](self.measure(state), 0)


def compared(process, variable, relation, other):
    """A variable with a number, or with another one of the process."""
    left = f"{process}.{variable}"
    if isinstance(other, int):
        return Atom(left, relation, str(other), lambda state: state[left] - other)
    right = f"{process}.{other}"
    return Atom(left, relation, right, lambda state: state[left] - state[right])


def is_empty(sender, receiver):
    return Atom(f"empty({sender},{receiver})", "=", "", lambda state: state[f"{sender}>{receiver}"])


def in_transit(sender, receiver, relation, number):
    return Atom(f"intransit({sender},{receiver})", relation, str(number), lambda state: state[f"{sender}>{receiver}"] - number)


class Formulas:
    """Random formulas about a log: atoms, ("!", formula), and ("&", formula, formula), ("|", formula, formula)."""

    def __init__(self, rng, log):
        self.rng = rng
        self.log = log
        self.procs = log.procs
        self.with_variables = [name for name in log.procs if log.first[name]]
        self.rising = list(log.rising())

    def formula(self, atoms, process):
        """Of this process alone, if there is one."""
        if atoms == 1:
            made = self.atom(process)
        else:
            sign = "&" if self.rng.random() < 0.6 else "|"
            if sign == "|" and self.rng.random() < 0.6:
                process = process or self.some_process()
            first = self.rng.randint(1, atoms - 1)
            made = (sign, self.formula(first, process), self.formula(atoms - first, process))
        return ("!", made) if self.rng.random() < 0.15 else made

    def some_process(self):
        return self.rng.choice(self.with_variables)

    def atom(self, process):
        kind = 0 if process else self.rng.random()
        if kind > 0.85 and len({name for name, _ in self.rising}) > 1:
            return self.difference()
        if kind > 0.6:
            return self.channel()
        return self.comparison(process or self.some_process())

    def comparison(self, process):
        relation = self.rng.choice(list(TRUE_OF))
        variable, other = [self.rng.choice(self.variables(process)) for _ in range(2)]
        if self.rng.random() >= 0.15:
            other = self.rng.randint(-1, 4)
        return self.made(compared, (process,), variable, relation, other)

    def variables(self, process):
        return list(self.log.first[process])

    def channel(self):
        ends = self.rng.sample(self.procs, 2)
        if self.rng.random() < 0.4:
            return self.made(is_empty, ends)
        return self.made(in_transit, ends, self.relation(), self.rng.randint(0, 2))

    def made(self, maker, processes, *others):
        return maker(*processes, *others)

    def difference(self):
        one, left = self.rng.choice(self.rising)
        right = self.rng.choice([variable for name, variable in self.rising if name != one])
        number = self.rng.randint(-2, 3)
        return Atom(f"{left} - {right}", self.relation(), str(number), lambda state: state[left] - state[right] - number)

    def relation(self):
        """`!=` is refused in most places, and comes less often."""
        return self.rng.choice([*list(OPPOSITE)[:5] * 3, "!="])


class Template:
    """An atom with names in the place of processes."""

    def __init__(self, maker, processes, others):
        self.maker = maker
        self.processes = processes
        self.others = others

    def put_in(self, processes):
        """The atom with these processes for their names."""
        return self.maker(*(processes.get(name, name) for name in self.processes), *self.others)


class OverFormulas(Formulas):
    """The same with names that processes are put in for, and with no difference."""

    def __init__(self, rng, log, names):
        super().__init__(rng, log)
        others = [name for name in log.procs if name not in names]
        self.names = names
        self.procs = [*names * 3, *others] if len(names) > 1 or others else log.procs
        self.with_variables = [*names * 4, *(name for name in others if log.first[name])]
        self.rising = []

    def variables(self, process):
        """Of a name those of some process."""
        return super().variables(process) if process not in self.names else super().variables(self.rng.choice(
            [name for name in self.log.procs if self.log.first[name]]))

    def made(self, maker, processes, *others):
        return Template(maker, processes, others)


def put_in(formula, processes):
    """The formula with these processes for their names."""
    if isinstance(formula, Template):
        return formula.put_in(processes)
    return (formula[0], *(put_in(part, processes) for part in formula[1:]))


def variables_of(formula):
    """The variables that the formula names."""
    if isinstance(formula, Atom):
        return {word for word in (formula.left, formula.right) if "." in word}
    return {variable for part in formula[1:] for variable in variables_of(part)}


def text(formula, inside=""):
    """With the parentheses that are needed inside a term with this sign."""
    if isinstance(formula, Atom):
        return formula.text()
    if formula[0] == "!":
        return "!" + text(formula[1], "!")
    joined = f" {formula[0]} ".join(text(part, formula[0]) for part in formula[1:])
    return f"({joined})" if inside == "!" or (inside, formula[0]) == ("&", "|") else joined


def true_at(formula, state):
    if isinstance(formula, Atom):
        return formula.true_at(state)
    if formula[0] == "!":
        return not true_at(formula[1], state)
    return (all if formula[0] == "&" else any)(true_at(part, state) for part in formula[1:])


def pushed(formula, opposite=False):
    """The formula, or its opposite, with each `!` at an atom."""
    if isinstance(formula, Atom):
        return formula.opposite() if opposite else formula
    if formula[0] == "!":
        return pushed(formula[1], not opposite)
    sign = {"&": "|", "|": "&"}[formula[0]] if opposite else formula[0]
    return (sign, *(pushed(part, opposite) for part in formula[1:]))


def alternatives(formula):
    """What `|` joins at the top."""
    if isinstance(formula, Atom) or formula[0] != "|":
        return [formula]
    return [one for part in formula[1:] for one in alternatives(part)]


def somewhere(formula, opposite=False):
    """EF of each alternative of the formula, or of its opposite."""
    return " | ".join(f"EF ({text(one)})" for one in alternatives(pushed(formula, opposite)))


class Question:
    """A form, which for a plain formula is its operator if it has one, and a formula."""

    def __init__(self, kind, form, formula, name=""):
        self.kind = kind
        self.form = form
        self.formula = formula
        asked = text(self.formula)
        self.asked = f"{self.form} ({asked})" if self.form.isupper() else f"{self.form} {asked}".strip()
        self.text = name + self.asked

    def by_table(self, verdict):
        """Whether it holds, by the verdict of the formula that it is asked by; None if `pota` refuses that."""
        if self.kind == "plain":
            return verdict(self.asked)
        if self.form == "can":
            return verdict(somewhere(self.formula))
        if self.form == "never":
            return turned(verdict(somewhere(self.formula)))
        if self.form == "surely":
            return turned(verdict(f"EG !({text(self.formula)})"))
        if self.form == "at end":
            return verdict(f"AG EF ({text(self.formula)})")
        answer = verdict(f"AG ({text(self.formula)})")
        return turned(verdict(somewhere(self.formula, True))) if answer is None else answer

    def by_definition(self, log, states):
        """Whether it holds, by the states at all consistent cuts."""
        true = {cut: true_at(self.formula, state) for cut, state in states.items()}
        if self.form in ("never", "can", "EF"):
            return any(true.values()) != (self.form == "never")
        if self.form in ("always", "AG"):
            return all(true.values())
        if self.form == "surely":
            return not path_in(log, {cut for cut in true if not true[cut]}, list(true))
        if self.form == "EG":
            return path_in(log, {cut for cut in true if true[cut]}, list(true))
        return list(true.values())[-1 if self.form == "at end" else 0]


def some_form(rng, formulas):
    """A kind of question, its form, and a formula."""
    kind = rng.choice(FORMS)
    form = rng.choice(["", "EF", "AG", "EG"]) if kind == "plain" else kind
    local = form in ("surely", "EG") and rng.random() < 0.7
    return kind, form, formulas.formula(rng.randint(1, 4), formulas.some_process() if local else None)


class Over:
    """A question over processes, and its instances."""

    def __init__(self, rng, log):
        self.names = rng.choice([["p", "q"], ["p", "q"], ["p2", "p1"], ["p"], ["p3"]])
        self.kind, self.form, self.formula = some_form(rng, OverFormulas(rng, log, self.names))
        plain = self.put_in(dict(zip(self.names, self.names)))
        self.plain = plain
        self.text = rng.choice(["", "a name: "]) + f"for {' '.join(self.names)}: {plain.text}"
        several = list(itertools.permutations(log.procs, len(self.names)))
        self.processes = [processes for processes in several if self.has_variables(log, processes)]
        self.instances = [self.put_in(dict(zip(self.names, processes))) for processes in self.processes]

    def put_in(self, processes):
        return Question(self.kind, self.form, put_in(self.formula, processes))

    def has_variables(self, log, processes):
        there = {f"{name}.{variable}" for name in log.procs for variable in log.first[name]}
        return variables_of(put_in(self.formula, dict(zip(self.names, processes)))) <= there

    def below(self, blocks, answers):
        """What is below its line, by what is below those of its instances."""
        many = "" if len(answers) == 1 else "s" if len(self.names) > 1 else "es"
        what = f"pair{many} of processes" if len(self.names) > 1 else f"process{many}"
        first = answers.index(False) if False in answers else 0
        block, comments = parts_of(blocks[first])
        if all(answers):
            block = f"  # asked of {len(answers)} {what}\n"
        else:
            chosen = ", ".join(f"{name} = {process}" for name, process in zip(self.names, self.processes[first]))
            front = f"  ---\n  for: {chosen}\n  fails: {answers.count(False)} of {len(answers)}\n"
            block = front + (block.removeprefix("  ---\n") or "  ...\n")
        return block + (comments if all(parts_of(block)[1] for block in blocks) else "")


def parts_of(below):
    """The block below a line, and the comments."""
    at = below.find("  # ")
    return (below, "") if at < 0 else (below[:at], below[at:])


def blocks_of(out):
    """What is below each line of a question."""
    return re.split(r"^(?:not )?ok .*\n", out, flags=re.M)[1:]


def turned(answer):
    return None if answer is None else not answer


def path_in(log, allowed, cuts):
    """Whether a path from the first to the last of the cuts visits allowed ones alone."""
    reached = {cuts[0]} & allowed
    for cut in cuts:
        if cut in reached:
            reached |= allowed & set(log.next_cuts(cut))
    return cuts[-1] in reached


def run(words, log):
    done = subprocess.run(words, input=log, capture_output=True, text=True, timeout=SECONDS)
    return done.returncode, done.stdout, done.stderr


class Comparison:
    """One log, what is asked of it, and what came out otherwise than it must."""

    def __init__(self, rng, programs, counts):
        self.rng = rng
        self.pota_ask, self.pota = programs
        self.counts = counts
        self.log = Log(rng)
        self.options = LOG_FORMS.get(self.log.form, [])
        self.text = self.log.text()
        self.differences = []

    def verdict(self, formula):
        status, _, told = run([self.pota, "check", formula, *self.options], self.text)
        if status not in (0, 1, 3):
            self.differences.append(f"pota {status}: {told.strip()}: {formula}")
        return {0: True, 1: False}.get(status)

    def accepts(self, formula):
        """True where `pota` takes the formula, whatever names the log has, and else None."""
        _, _, told = run([self.pota, "check", formula, *self.options], self.text)
        return None if re.match(r"pota: formula byte \d+: F[1-9] ", told) else True

    def ask(self, questions):
        return run([self.pota_ask, *self.options, *questions], self.text)

    def questions(self):
        """Questions that `pota` takes, each with its answer."""
        formulas = Formulas(self.rng, self.log)
        taken = []
        while len(taken) < QUESTIONS:
            name = self.rng.choice(["", "", "a name: "])
            question = Question(*some_form(self.rng, formulas), name)
            answer = question.by_table(self.verdict)
            if answer is not None:
                taken.append((question, answer))
                continue
            self.refuse(question.text, "pota_ask: question 1: byte ")
            self.counts["refused"] += 1
        return taken

    def refuse(self, question, must):
        """The question must be refused, and so be told of."""
        status, out, told = self.ask([question])
        if status != 3 or out or not told.startswith(must):
            self.differences.append(f"must be refused, and is answered with {status}: {told} {question}")

    def overs(self):
        """Questions over processes that are answered, each with the answers to its instances."""
        taken = []
        while len(taken) < OVERS:
            over = Over(self.rng, self.log)
            if over.plain.by_table(self.accepts) is None:
                self.refuse(over.text, "pota_ask: question 1: byte ")
                self.counts["refused"] += 1
            elif not over.instances:
                self.refuse(over.text, "pota_ask: question 1: Q12 ")
                self.counts["none"] += 1
            else:
                taken.append((over, [one.by_table(self.verdict) for one in over.instances]))
        return taken

    def define_over(self, over, answers, block, states):
        """What is below the line of a question over processes, by its instances alone."""
        self.counts["over"] += 1
        self.counts["over holds"] += all(answers)
        self.counts["instances"] += len(answers)
        blocks = []
        for one, answer in zip(over.instances, answers):
            status, out, _ = self.ask([one.text])
            blocks += blocks_of(out) or [""]
            if status != int(not answer):
                self.differences.append(f"of {one.text} by pota {answer}, by pota_ask {status}")
            if states and one.by_definition(self.log, states) != answer:
                self.differences.append(f"by definition {not answer}, answered {answer}: {one.text} of {over.text}")
        if block != over.below(blocks, answers):
            self.differences.append(f"of {over.text} must be below\n{over.below(blocks, answers)}is\n{block}")

    def compare(self):
        taken = self.questions()
        for one in self.overs():
            taken.insert(self.rng.randint(0, len(taken)), one)
        status, out, told = self.ask([question.text for question, _ in taken])
        hold = [all(answer) if isinstance(answer, list) else answer for _, answer in taken]
        if status != int(not all(hold)) or told:
            self.differences.append(f"exit status {status} {told.strip()}: {[question.text for question, _ in taken]}")
        lines = [f"{'ok' if held else 'not ok'} {place} - {question.text}" for place, ((question, _), held) in enumerate(zip(taken, hold), 1)]
        if [line for line in out.split("\n") if not line.startswith("  ")] != ["TAP version 14", f"1..{len(taken)}", *lines, ""]:
            self.differences.append(f"must be {lines}, is {out}")
        states = self.log.states()
        self.counts["small"] += bool(states)
        for (question, answer), block in zip(taken, blocks_of(out)):
            if isinstance(question, Over):
                self.define_over(question, answer, block, states)
            else:
                self.define(question, answer, block, states)

    def define(self, question, answer, block, states):
        """What is below the line of a question of the log."""
        self.counts[question.kind] += 1
        self.counts[f"{question.kind} holds"] += answer
        for part in re.findall(r"^  # (.*) holds at no state of this log$", block, re.M):
            self.counts["parts"] += 1
            if self.verdict(f"EF ({part})") is not False:
                self.differences.append(f"{part} holds at some state: {question.text}")
        if states:
            self.counts["by definition"] += 1
            self.by_states(question, answer, block, states)

    def by_states(self, question, answer, block, states):
        if question.by_definition(self.log, states) != answer:
            self.differences.append(f"by definition {not answer}, answered {answer}: {question.text}")
        if not answer and question.form in ("never", "always"):
            self.counts["shown"] += 1
            shown = re.findall(r"^  at: (.*)$", block, re.M)
            cut = tuple(int(part.split(" ")[1]) for part in shown[0].split(", ")) if shown else None
            if cut not in states or true_at(question.formula, states[cut]) != (question.form == "never"):
                self.differences.append(f"the state {shown} shows nothing: {question.text}")


def main():
    if len(sys.argv) not in (3, 4):
        sys.exit(__doc__)
    seed = int(sys.argv[3]) if len(sys.argv) > 3 else 1
    counts = collections.Counter()
    for number in range(LOGS):
        one = Comparison(random.Random(seed * 1_000_003 + number), sys.argv[1:3], counts)
        one.compare()
        counts[one.log.form] += 1
        counts["events"] += len(one.log.order)
        counts["differ"] += len(one.differences)
        for difference in one.differences:
            print(f"log {number}, {one.log.form}: {difference}")
    forms = ", ".join(f"{counts[form]} {form} ({counts[form + ' holds']} hold)" for form in FORMS)
    others = ", ".join(f"{counts[form]} {form}" for form in LOG_FORMS)
    print(
        f"{LOGS} logs ({others}) with {counts['events']} events; {sum(counts[form] for form in FORMS)} questions: {forms}; "
        f"{counts['over']} over processes ({counts['over holds']} hold) with {counts['instances']} instances, and {counts['none']} without one; "
        f"{counts['refused']} refused by both; {counts['by definition']} compared by definition in {counts['small']} logs, "
        f"{counts['shown']} shown states and {counts['parts']} comments looked at; {counts['differ']} differ"
    )
    sys.exit(1 if counts["differ"] else 0)


if __name__ == "__main__":
    main()
