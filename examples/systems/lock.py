"""A server gives a lock out as a lease; the clients `a` and `b` work while they have it.

Planted: when the lease is over the server gives the lock to the next client. Whether the first one
has left isn't known then: its message may be lost, or it may be slow. Mended: the server asks the
lock back, and waits for the answer.
"""
import random
from system import Node, main

LEASE, WORK, PAUSE = 0.03, 0.005, 0.05
CLIENTS = ["a", "b"]


class Server(Node):
    def first_values(self):
        return {"holder": 0}

    def start(self):
        self.waiting, self.holder, self.turn = [], None, 0

    def receive(self, sender, first, what, turn=0):
        if not first:
            return
        if what == "ask":
            self.waiting.append(sender)
        elif sender == self.holder and turn == self.turn:
            self.free()
        self.grant()

    def free(self):
        self.holder = None
        self.log.set(holder=0)

    def is_over(self, turn):
        return self.holder is None or self.turn != turn

    def grant(self):
        if self.holder is None and self.waiting:
            self.holder, turn = self.waiting.pop(0), self.turn + 1
            self.turn = turn
            self.log.set(holder=1 + CLIENTS.index(self.holder))
            self.send_until(lambda: self.is_over(turn), self.holder, what="grant", turn=turn)
            self.after(LEASE, self.end_lease, turn)

    def end_lease(self, turn):
        if self.is_over(turn):
            return
        if self.mended:
            self.send_until(lambda: self.is_over(turn), self.holder, what="recall", turn=turn)
        else:
            self.free()
            self.grant()


class Client(Node):
    def first_values(self):
        return {"cs": 0}

    def start(self):
        self.turn, self.is_in, self.asked, self.had = 0, False, 0, 0
        self.ask()

    def ask(self):
        self.asked += 1
        asked = self.asked
        self.send_until(lambda: self.had >= asked, "server", what="ask")

    def receive(self, sender, first, what, turn):
        if what == "grant" and turn > self.turn:
            self.turn, self.is_in, self.had = turn, True, self.asked
            self.log.set(cs=1)
            self.after(PAUSE if random.random() < 0.02 else random.random() * WORK, self.leave)
        elif what == "recall" and not (self.is_in and self.turn == turn):
            self.turn = max(self.turn, turn)  # a grant that comes later is void
            self.send("server", what="release", turn=turn)

    def leave(self):
        self.is_in = False
        self.log.set(cs=0)
        self.send("server", what="release", turn=self.turn)
        self.after(random.random() * WORK, self.ask)


if __name__ == "__main__":
    main(
        {"server": Server, "a": Client, "b": Client},
        "EF (a.cs = 1 & b.cs = 1)",
        lambda values: values["a.cs"] == values["b.cs"] == 1,
        killable=CLIENTS,
    )
