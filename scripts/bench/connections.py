"""Servers with many connections, each a client in a process of its own, or all of one small process: how many lines a second all of
them have answered, and what the clients took of a processor for a line."""

import os
import shutil
import socket
import struct
import subprocess
import sys
import tempfile
import threading
import time

import redis_server
from programs import port_of, serving

PLACES = 1_000


class Desk:
    """A served desk, of which each connection has a domain and an array of its own; with a journal file it keeps its changes."""

    name = "desk"
    set_reply = '{"edit"'  # how it begins

    def __init__(self, program, seats, journal=None):
        self.process = subprocess.Popen(serving(program, seats, journal), stdin=subprocess.DEVNULL, stdout=subprocess.PIPE)
        try:
            self.port = port_of(self.process)
        except ValueError as why:
            self.kill()
            sys.exit("%s: %s" % (program, why))

    def first_lines(self, seat):
        return domain_and_array(seat)

    def line(self, kind, seat, k):
        return workbook_line(kind, seat, k)

    def end(self):
        """The server ends by itself once all connections are closed; it says how many entries there are."""
        settled = self.process.stdout.readline()
        self.process.stdout.read()
        status = self.process.wait(timeout=60)
        if status != 0 or not settled.startswith(b"settled "):
            sys.exit("the desk ended with status %d and %r" % (status, settled))

    def kill(self):
        self.process.kill()


class Redis(redis_server.Server):
    """A redis server, for the same clients."""

    name = "redis"
    set_reply = "+OK"

    def first_lines(self, seat):
        return []

    def line(self, kind, seat, k):
        key = b"A%d:%d" % (seat, k % PLACES + 1)
        return redis_server.get_line(key) if kind == "get" else redis_server.set_line(key, b"%d" % k)


def domain_and_array(seat):
    return [
        b'{"op":"domain","d":"D%d","is":"{1..%d}"}\n' % (seat, PLACES),
        b'{"op":"array","a":"A%d","d":"D%d"}\n' % (seat, seat),
    ]


def workbook_line(kind, seat, k):
    if kind == "get":
        return b'{"op":"get","a":"A%d","i":%d}\n' % (seat, k % PLACES + 1)
    return b'{"op":"set","a":"A%d","i":%d,"v":%d}\n' % (seat, k % PLACES + 1, k)


def ends_of_replies(server, kind):
    """How many line ends a reply has: a desk's has one, as redis's to SET; redis's to GET has two, where there is a value."""
    return 2 if server.name == "redis" and kind == "get" else 1


def read_ends(connection, count):
    """Reads until so many line ends came."""
    while count > 0:
        block = connection.recv(1 << 16)
        if not block:
            sys.exit("a connection was closed early")
        count -= block.count(b"\n")


def send_at_once(connection, lines, ends):
    sender = threading.Thread(target=connection.sendall, args=(b"".join(lines),))
    sender.start()
    read_ends(connection, ends * len(lines))
    sender.join()


def send_one_by_one(connection, lines, ends):
    for line in lines:
        connection.sendall(line)
        read_ends(connection, ends)


def client(server, seat, kind, at_once, count, ready, go, done):
    """One connection, in a process of its own: says that it is ready, waits to go, and says when it is done."""
    connection = socket.create_connection(("127.0.0.1", server.port))
    connection.setsockopt(socket.IPPROTO_TCP, socket.TCP_NODELAY, 1)
    send_one_by_one(connection, server.first_lines(seat), 1)
    if kind == "get":
        send_at_once(connection, [server.line("set", seat, k) for k in range(PLACES)], 1)
    lines = [server.line(kind, seat, k) for k in range(count)]
    os.write(ready, b".")
    os.read(go, 1)
    used = time.process_time()
    if at_once:
        send_at_once(connection, lines, ends_of_replies(server, kind))
    else:
        send_one_by_one(connection, lines, ends_of_replies(server, kind))
    os.write(done, b"%r %r\n" % (time.monotonic(), time.process_time() - used))
    connection.close()


def lines_a_second(server, seats, kind, at_once, count):
    """The lines a second of so many clients of a server, each in a process of its own, with so many lines each; the server ends."""
    return asked_by_each(server, seats, kind, at_once, count)[0]


def asked_by_each(server, seats, kind, at_once, count):
    """Lets so many clients of a server go at the same moment, each with so many lines, and ends the server: the lines a second, and the
    processor microseconds that the clients took for a line."""
    children = []
    try:
        ready, go, done = os.pipe(), os.pipe(), os.pipe()
        for seat in range(seats):
            child = os.fork()
            if child == 0:
                status = 1
                try:
                    client(server, seat, kind, at_once, count, ready[1], go[0], done[1])
                    status = 0
                finally:
                    os._exit(status)
            children.append(child)
        waiting = seats
        while waiting > 0:
            waiting -= len(os.read(ready[0], waiting))
        start = time.monotonic()
        os.write(go[1], b"g" * seats)
        for child in children:
            if os.waitpid(child, 0)[1] != 0:
                sys.exit("a client failed")
        os.close(done[1])
        words = [float(word) for word in os.fdopen(done[0]).read().split()]
        for end in (ready[0], ready[1], go[0], go[1]):
            os.close(end)
        server.end()
    except BaseException:
        server.kill()
        raise
    return seats * count / (max(words[::2]) - start), sum(words[1::2]) * 1e6 / (seats * count)


def small_clients(room):
    """The program of clients.c beside this file, made in a folder; none where there is no C compiler `cc`."""
    if not shutil.which("cc"):
        return None
    made = os.path.join(room, "clients")
    subprocess.run(["cc", "-O2", "-o", made, os.path.join(os.path.dirname(os.path.realpath(__file__)), "clients.c")], check=True)
    return made


def asked_by_one(clients, server, seats, count):
    """Lets that program send so many `set` lines one by one on each of so many connections, and ends the server: the lines a second, and
    the processor microseconds that the clients took for a line."""
    try:
        first = len(server.first_lines(0))
        with tempfile.TemporaryFile() as lines:
            for seat in range(seats):
                for line in [*server.first_lines(seat), *(server.line("set", seat, k) for k in range(count))]:
                    lines.write(struct.pack("<I", len(line)) + line)
            lines.seek(0)
            words = [clients, str(server.port), str(seats), str(first), str(count), server.set_reply]
            told = subprocess.run(words, stdin=lines, stdout=subprocess.PIPE, check=True, timeout=redis_server.SECONDS).stdout
        server.end()
    except BaseException:
        server.kill()
        raise
    seconds, used = map(float, told.split())
    return seats * count / seconds, used * 1e6 / (seats * count)
