"""A desk that stays, by docs/PROTOCOL.md: seats that are lent again, words for the desk itself, and what standard error is told."""

import errno
import os
import re
import socket
import stat
import sys
import threading
import time
from collections import deque

from . import kept
from .desk import Desk, Heard, taken
from .literals import Refused
from .machine import text_of
from .reading import LONGEST_LINE, count, json_of

MOST_DONE = 10_000
"""So much of what was done is told of."""
MOST_ENTRIES, LONG_REPLY = 64, 4096
"""Entries of a seat are let go before a line that finds so many, or a last reply of so many bytes."""
LONGEST_NAME, LONGEST_PATH = 32, 107
SOON = 1.0
"""A connection that can't be written to has so many seconds once the desk is stopped."""
NO_SEAT = b'{"error":"E93","name":"no-seat"}\n'
MARKS = re.compile("[\x00-\x1f\x7f-\x9f\u061c\u200e\u200f\u202a-\u202e\u2066-\u2069]")

ENDED, SILENT, DEAF = "it ended", "it sent nothing for too long", "it read nothing for too long"
CLOSED, STOPPED, BROKEN = "the desk closed it", "the desk was stopped", "it broke off"


class NotListening(Exception):
    """A desk isn't opened where it was to listen: why, in a sentence."""


class Guest:
    """Who has a seat: the name that was said, and what was done."""

    def __init__(self, seat):
        self.seat, self.name, self.since = seat, None, time.monotonic()
        self.lines = self.edits = self.entries = self.longest = 0

    def left(self, why):
        """The line that tells of one who has left."""
        name = "" if self.name is None else ' ("%s")' % MARKS.sub(lambda mark: "\\u{%x}" % ord(mark[0]), self.name)
        seconds = time.monotonic() - self.since
        return "workbook: seat %d%s left after %d s: %s; %d lines, %d edits" % (self.seat, name, seconds, why, self.lines, self.edits)


class Doings:
    """What was done since the desk began, by number from 1 on; the last ones are told of."""

    def __init__(self):
        self.done, self.next = deque(maxlen=MOST_DONE), 1

    def note(self, guest, reply):
        """Notes what a reply tells of: an edit, an undo or a redo; of a cascade each of its undos. Gives how many these are."""
        did = done_by(reply)
        self.done.extend({"did": how, "edit": k, "name": guest.name, "seat": guest.seat} for how, k in did)
        self.next += len(did)
        return len(did)

    def since(self, number):
        """What was done from a number on, and the number of the first that is told."""
        first = min(max(number, self.next - len(self.done)), self.next)
        return {"done": list(self.done)[len(self.done) - (self.next - first) :], "from": first}


def done_by(reply):
    """What a reply tells was done, each with the number of its edit; nothing of a question, nor of a refusal."""
    for key, how in (("edit", "edit"), ("redone", "redo"), ("undone", "undo")):
        if key in reply:
            return [(how, k) for k in (reply[key] if isinstance(reply[key], list) else [reply[key]])]
    return []


class Staying(Desk):
    """A desk whose seats are lent again and again."""

    def __init__(self, machine, journal, seats):
        super().__init__(machine, journal)
        self.seats, self.doings, self.began = seats, Doings(), int(time.time())
        self.guests = {}  # who has a seat, by its number

    def sit(self):
        """Takes the first free seat, or none."""
        with self.lock:
            seat = next((seat for seat in range(self.seats) if seat not in self.guests), None)
            if seat is not None:
                self.guests[seat] = Guest(seat)
            return self.guests.get(seat)

    def leave(self, guest):
        """The seat is free again."""
        with self.lock:
            del self.guests[guest.seat]

    def answer_for(self, guest):
        """What answers a line of who has a seat: a word for the desk itself, or a request."""

        def answer(line):
            guest.lines += 1
            word = self.word(line, guest)
            return self.answered(line, guest) if word is None else (word, [])

        return answer

    def answered(self, line, guest):
        """The reply to a request of who has a seat, and the lines of its changes."""
        if guest.entries >= MOST_ENTRIES or guest.longest >= LONG_REPLY:
            guest.entries = guest.longest = 0
        before = self.entries
        reply, changes = self.answer(line)
        guest.entries += self.entries - before
        guest.longest = len(text_of(reply))
        guest.edits += self.doings.note(guest, reply)
        return reply, changes

    # --- words for the desk

    def word(self, line, guest):
        """What a word for the desk is answered, or None where a line is none."""
        try:
            asked = json_of(line) if len(line) <= LONGEST_LINE else None
        except Refused:
            return None
        if not isinstance(asked, dict) or asked.twice:
            return None
        if asked == {"op": "desk"}:
            return self.how_it_stands()
        if set(asked) == {"op", "from"} and asked["op"] == "edits":
            return self.done_since(asked["from"])
        if set(asked) == {"op", "name"} and asked["op"] == "hello":
            return self.hello(guest, asked["name"])
        return None

    def hello(self, guest, name):
        if guest.name is not None or not is_name(name):
            return None
        guest.name = name
        return {"seat": guest.seat}

    def done_since(self, number):
        try:
            return self.doings.since(count(number))
        except Refused:
            return None

    def how_it_stands(self):
        guests = sorted(self.guests.values(), key=lambda guest: guest.seat)
        return {
            "entries": sum(guest.entries for guest in guests),
            "free": self.seats - len(guests),
            "journal": None if self.journal is None else os.fstat(self.journal.file).st_size,
            "names": [{"name": guest.name, "seat": guest.seat} for guest in guests if guest.name is not None],
            "seats": self.seats,
            "since": self.began,
        }


def is_name(name):
    """Whether a connection may call itself so."""
    return isinstance(name, str) and len(name.encode(errors="replace")) <= LONGEST_NAME and not re.search('["\\\\\x00-\x1f\x7f]', name)


# --- connections


class Connection:
    """A connection that has a seat: its bytes, and why it ended."""

    def __init__(self, desk, held, guest, idle):
        self.desk, self.held, self.guest, self.why = desk, held, guest, ENDED
        self.is_stopped = False
        self.held.settimeout(idle or None)

    def read(self, size):
        """Some bytes; none where the connection has ended, or has been idle for too long."""
        try:
            return self.held.recv(size)
        except socket.timeout:
            self.why = SILENT
        except OSError:
            self.why = BROKEN
        return b""

    def serve(self):
        """Answers its lines until it ends, and gives the seat back. A line that isn't ended isn't done."""
        lines = Ended(self.read)
        answer = self.desk.answer_for(self.guest)
        try:
            for line in lines:
                self.send(self.desk.turn([line, *taken(lines)], answer))
            if lines.is_closed:
                self.why = CLOSED
        except socket.timeout:
            self.why = DEAF
        except OSError:
            self.why = BROKEN
        self.held.close()

    def send(self, reply):
        """Sends a reply whole; each piece may take as long as a connection may be idle."""
        while reply:
            reply = reply[self.held.send(reply[:65_536]) :]

    def stop(self, how):
        """Ends it where it waits for input, or anyway."""
        self.is_stopped = True
        try:
            self.held.shutdown(how)
        except OSError:
            pass  # it has ended

    def left(self):
        return self.guest.left(STOPPED if self.is_stopped else self.why)


class Ended(Heard):
    """The lines of a connection that are ended: what it has sent of another is not done."""

    has_rest = False


class Host:
    """Lends the seats of a desk to connections until it is stopped."""

    def __init__(self, desk, listener, idle, quiet):
        self.desk, self.listener, self.idle, self.quiet = desk, listener, idle, quiet
        self.open, self.threads, self.is_stopping = set(), [], False

    def run(self):
        """Until the line `stop`."""
        threading.Thread(target=self.wait_for_stop, daemon=True).start()
        while True:
            try:
                held, _ = self.listener.accept()
            except OSError:
                if self.is_stopping:
                    break
                time.sleep(0.02)
                continue
            self.lend(held)
        self.end_all()

    def lend(self, held):
        """Gives a connection a seat, or tells it that none is free."""
        guest = self.desk.sit()
        if guest is None:
            turn_away(held)
            self.tell("workbook: a connection found no seat")
            return
        connection = Connection(self.desk, held, guest, self.idle)
        self.open.add(connection)
        self.threads = [thread for thread in self.threads if thread.is_alive()]
        self.threads.append(threading.Thread(target=self.serve, args=(connection,)))
        self.threads[-1].start()

    def serve(self, connection):
        try:
            connection.serve()
        except kept.Failed as why:
            print("workbook: %s" % why, file=sys.stderr)
            os._exit(3)  # nothing more is answered, at any seat
        self.open.discard(connection)
        self.desk.leave(connection.guest)
        self.tell(connection.left())

    def tell(self, words):
        if not self.quiet:
            print(words, file=sys.stderr, flush=True)

    def wait_for_stop(self):
        for line in sys.stdin.buffer:
            if line == b"stop\n":
                self.is_stopping = True
                self.listener.shutdown(socket.SHUT_RDWR)
                return

    def end_all(self):
        """Ends the connections: those that wait for input at once, the others soon."""
        for connection in list(self.open):
            connection.stop(socket.SHUT_RD)
        end = time.monotonic() + SOON
        for thread in self.threads:
            thread.join(max(end - time.monotonic(), 0))
        for connection in list(self.open):
            connection.stop(socket.SHUT_RDWR)
        for thread in self.threads:
            thread.join()


def turn_away(held):
    """Tells a connection that no seat is free."""
    with held:
        try:
            held.settimeout(1)
            held.sendall(NO_SEAT)
            held.shutdown(socket.SHUT_WR)
            while held.recv(65_536):  # what it sent ahead would else make the system take the reply away
                pass
        except OSError:
            pass


# --- where it listens


def on_port(port):
    """A listener on a port of this machine, and what it is called."""
    try:
        listener = socket.create_server(("127.0.0.1", port))
    except OSError as fault:
        how = {errno.EADDRINUSE: "is in use", errno.EACCES: "is not allowed"}.get(fault.errno, "was not opened")
        raise NotListening("the port %s: %s" % (how, kept.in_words(fault))) from None
    return listener, "127.0.0.1:%d" % listener.getsockname()[1]


def on_socket(path):
    """A listener on a socket that is made at a path, for its owner alone."""
    if len(os.fsencode(path)) > LONGEST_PATH:
        raise NotListening("the socket was not opened: its path has more than %d bytes" % LONGEST_PATH)
    take_away(path)
    listener = socket.socket(socket.AF_UNIX, socket.SOCK_STREAM)
    mask = os.umask(0o177)
    try:
        listener.bind(path)
    except OSError as fault:
        raise NotListening("the socket was not opened: " + kept.in_words(fault)) from None
    finally:
        os.umask(mask)
    listener.listen()
    return listener, path


def take_away(path):
    """Takes away the socket of a desk that was ended by force; any other file stays."""
    try:
        if not stat.S_ISSOCK(os.lstat(path).st_mode):
            return
    except OSError:
        return
    with socket.socket(socket.AF_UNIX, socket.SOCK_STREAM) as asked:
        try:
            asked.connect(path)
        except ConnectionRefusedError:
            os.unlink(path)
