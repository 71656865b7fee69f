"""Two-phase commit: a coordinator and two participants, `orders` and `stock`, one transaction after
another. A participant prepares, on its disk, and votes until it hears of the decision; when both
have voted the coordinator decides.

Planted: the coordinator counts votes, and a vote that comes twice counts twice. Mended: it keeps
the set of those that voted.
"""
import random
from system import Node, main

WORK, PAUSE = 0.005, 0.05
PARTICIPANTS = ["orders", "stock"]


class Coordinator(Node):
    def first_values(self):
        return {"decided": 0}

    def start(self):
        self.decided, self.commits = 0, {}
        self.begin(1)

    def begin(self, transaction):
        self.transaction, self.votes, self.voters = transaction, 0, set()
        for it in PARTICIPANTS:
            self.send_until(lambda it=it: self.is_voted(it, transaction), it,
                            what="prepare", transaction=transaction)

    def is_voted(self, participant, transaction):
        return self.decided >= transaction or participant in self.voters

    def receive(self, sender, first, what, transaction):
        if transaction <= self.decided:
            if sender in self.commits:
                self.send_again(sender, self.commits[sender])
            return
        self.votes += 1
        self.voters.add(sender)
        if (len(self.voters) if self.mended else self.votes) == len(PARTICIPANTS):
            self.decide(transaction)

    def decide(self, transaction):
        self.decided = transaction
        self.log.set(decided=transaction)
        for it in PARTICIPANTS:
            self.commits[it] = self.send(it, what="commit", transaction=transaction)
        self.after(random.random() * WORK, self.begin, transaction + 1)


class Participant(Node):
    def first_values(self):
        """What is on the disk, also after a restart."""
        self.disk = self.folder / f"{self.me}.prepared"
        return {"prepared": int(self.disk.read_text()) if self.disk.exists() else 0}

    def start(self):
        self.prepared, self.committed = self.first_values()["prepared"], 0
        self.preparing = self.prepared
        if self.prepared:
            self.vote(self.prepared)

    def receive(self, sender, first, what, transaction):
        if what == "commit":
            self.committed = max(self.committed, transaction)
        elif transaction > self.preparing:
            self.preparing = transaction
            work = PAUSE if random.random() < 0.02 else random.random() * WORK
            self.after(work, self.prepare, transaction)

    def prepare(self, transaction):
        if transaction < self.prepared:
            return
        self.prepared = transaction
        fresh = self.disk.with_suffix(".fresh")
        fresh.write_text(str(transaction))
        fresh.replace(self.disk)  # a kill leaves the old file or the new one
        self.log.set(prepared=transaction)
        self.vote(transaction)

    def vote(self, transaction):
        self.send_until(lambda: self.committed >= transaction, "coordinator",
                        what="vote", transaction=transaction)


def is_bad(values):
    return any(values["coordinator.decided"] > values[f"{it}.prepared"] for it in PARTICIPANTS)


if __name__ == "__main__":
    main(
        {"coordinator": Coordinator, "orders": Participant, "stock": Participant},
        " | ".join(f"EF coordinator.decided - {it}.prepared >= 1" for it in PARTICIPANTS),
        is_bad,
        killable=PARTICIPANTS,
    )
