"""Seats that ask at a desk whose calls are recorded.

Each seat has an array of its own, and undoes, redoes and cascades its own edits by their numbers; of others' arrays it copies from that
of the first seat alone, which cascades none. So the seat of each change is known by its line. It asks questions too, of others' cells and
edits as well, and lines that are refused.
"""

import json
import selectors
import socket

from programs import SECONDS

from .course import HISTORY
from .text import lined, numbered

ELEMENTS = 6
AT_ONCE = [1, 1, 1, 2, 3, 5]
CHANGES = {"set": 6, "own": 3, "first": 3, "fill": 1, "several": 3, "undo": 4, "redo": 4, "cascade": 2}
QUESTIONS = {"edits": 4, "get": 3, "state": 2, "history": 1, "nothing": 1}


class Asker:
    """A seat: what it asks, what it was told, and which of its edits are in force."""

    def __init__(self, number, seats, chance):
        self.number, self.seats, self.chance, self.edits = number, seats, chance, {}
        self.connection = None

    def begin(self, port, count):
        """Connects for a day, on which so many lines are asked."""
        self.connection = socket.create_connection(("127.0.0.1", port), SECONDS)
        self.connection.setsockopt(socket.IPPROTO_TCP, socket.TCP_NODELAY, 1)
        self.left, self.received, self.asked, self.waiting = count, b"", [], []
        self.coming = [] if self.edits else self.first()

    def first(self):
        name = self.number
        return [b'{"d":"D%d","is":"{1..%d}","map":"none","op":"domain"}' % (name, ELEMENTS), b'{"a":"A%d","d":"D%d","op":"array"}' % (name, name)]

    def ask(self):
        """Asks some lines at once, if any are left."""
        count = min(self.chance.choice(AT_ONCE), self.left)
        self.left -= count
        self.waiting, self.coming = self.coming + [self.line() for _ in range(count)], []
        self.connection.sendall(lined(self.waiting))

    def hear(self):
        """Takes what came, and asks again once all is answered."""
        more = self.connection.recv(1 << 16)
        if not more:
            raise ValueError("the desk has closed a connection")
        self.received += more
        while self.waiting and b"\n" in self.received[self.heard() :]:
            self.take(self.waiting.pop(0), self.received[self.heard() :].split(b"\n", 1)[0])
        if not self.waiting:
            self.ask()

    def end(self):
        """Ends the connection. Nothing more comes."""
        self.connection.shutdown(socket.SHUT_WR)
        more = self.connection.recv(1 << 16)
        self.connection.close()
        if more:
            raise ValueError("the desk says more than it was asked: %r" % more)

    def heard(self):
        return sum(len(reply) + 1 for _, reply in self.asked)

    def take(self, line, reply):
        self.asked.append((line, reply))
        told = json.loads(reply)
        if "edit" in told:
            self.edits[told["edit"]] = True
        undone = told.get("undone", [])
        self.edits.update(dict.fromkeys(undone if isinstance(undone, list) else [undone], False))
        if "redone" in told:
            self.edits[told["redone"]] = True

    def line(self):
        shares = CHANGES if self.chance.random() < 0.7 else QUESTIONS
        kind = self.chance.choices(list(shares), list(shares.values()))[0]
        return getattr(self, "make_" + kind)()

    def element(self):
        return self.chance.randint(1, ELEMENTS)

    def turned(self, op, in_force):
        """A request with the number of an edit of this seat, seldom one in the other state; where there is none, another change."""
        edits = [k for k, now in self.edits.items() if now == in_force or self.chance.random() < 0.1]
        return numbered(op, self.chance.choice(edits)) if edits else self.make_set()

    def make_set(self):
        return b'{"a":"A%d","i":%d,"op":"set","v":%d}' % (self.number, self.element(), self.chance.randint(-99, 99))

    def make_own(self, other=None):
        return b'{"a":"A%d","b":"A%d","c":1,"i":%d,"j":%d,"op":"copy"}' % (
            self.number, self.number if other is None else other, self.element(), self.element())

    def make_first(self):
        return self.make_own(0)

    def make_fill(self):
        low = self.element()
        return b'{"a":"A%d","on":"{%d..%d}","op":"fill","v":%d}' % (self.number, low, ELEMENTS, self.chance.randint(1, 9))

    def make_several(self):
        """Some of these in a transaction, with a note or without."""
        edits = b",".join(self.chance.choice([self.make_set, self.make_own, self.make_first, self.make_fill])() for _ in range(self.chance.randint(1, 4)))
        note = b'"note":"of seat %d",' % self.number if self.chance.random() < 0.5 else b""
        return b'{"edits":[%s],%s"op":"transaction"}' % (edits, note)

    def make_undo(self):
        return self.turned("undo", True)

    def make_redo(self):
        return self.turned("redo", False)

    def make_cascade(self):
        return self.turned("cascade", True) if self.number else self.make_set()

    def make_edits(self):
        return b'{"op":"edits"}'

    def make_get(self):
        return b'{"a":"A%d","i":%d,"op":"get"}' % (self.chance.randrange(self.seats), self.element())

    def make_state(self):
        return numbered("state", self.chance.randint(1, 4 * self.seats))

    def make_history(self):
        return HISTORY[:-1]

    def make_nothing(self):
        return self.chance.choice([b"", b"{}", b'{"op":"undo","k":0}', b'{"a":"Z","d":"D0","op":"array","x":1}'])


class Watcher(Asker):
    """A seat that makes no change, and asks how many there are."""

    def first(self):
        return []

    def line(self):
        return self.make_edits()


class Seats:
    """The seats of a desk. `count` is how many lines each asks in a day."""

    def __init__(self, seats, count):
        self.all, self.count = seats, count

    def __iter__(self):
        return iter(self.all)

    def __len__(self):
        return len(self.all)

    def ask_all(self, port):
        """Connects all, and has each ask all its lines; then all end."""
        with selectors.DefaultSelector() as ready:
            for seat in self.all:
                seat.begin(port, self.count)
                ready.register(seat.connection, selectors.EVENT_READ, seat)
            for seat in self.all:
                seat.ask()
            while any(seat.waiting for seat in self.all):
                found = ready.select(SECONDS)
                if not found:
                    raise ValueError("a seat of the desk is not answered")
                for key, _ in found:
                    key.data.hear()
        for seat in self.all:
            seat.end()
