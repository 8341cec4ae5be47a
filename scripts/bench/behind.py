"""How long a question of one seat of a desk waits behind a line of another one. The line is sent, and its reply taken, by a process of
its own, so that the one that asks has no other thread."""

import os
import select
import socket
import subprocess
import sys
import time

from programs import port_of, serving

QUESTION = b'{"op":"get","a":"A0","i":1}\n'
AT_REST = 200
AT_ONCE = 200


class Seat:
    """A connection to a desk, as request lines and reply lines."""

    def __init__(self, port):
        self.socket = socket.create_connection(("127.0.0.1", port))
        self.socket.setsockopt(socket.IPPROTO_TCP, socket.TCP_NODELAY, 1)
        self.replies = self.socket.makefile("rb")

    def ask(self, lines, count=1):
        """Sends lines, not more than fit beside their replies, and gives these."""
        self.socket.sendall(lines)
        return [self.replies.readline() for _ in range(count)]

    def close(self):
        self.replies.close()
        self.socket.close()


def timed(seat):
    """The milliseconds until a question is answered, a refusal too."""
    begin = time.perf_counter()
    (reply,) = seat.ask(QUESTION)
    if not reply:
        sys.exit("the desk closed the connection")
    return (time.perf_counter() - begin) * 1e3


def send_line(seat, line, done):
    """In a process of its own: sends the line, takes its reply, and closes the pipe."""
    (reply,) = seat.ask(line + b"\n")
    os.close(done)
    return bool(reply)


def waits_behind(dear, cheap, line):
    """How long each question waited while the line was answered."""
    answered, done = os.pipe()
    sender = os.fork()
    if sender == 0:
        os._exit(0 if send_line(dear, line, done) else 1)
    os.close(done)
    waits = []
    while not select.select([answered], [], [], 0)[0]:
        waits.append(timed(cheap))
    os.close(answered)
    _, status = os.waitpid(sender, 0)
    if status != 0:
        sys.exit("the line was not answered: %r" % line[:300])
    return waits or [0.0]


def longest_waits(program, before, line):
    """The longest time of a question while the other seat rests, and behind the line, in milliseconds; the lines before are sent by
    the seat of the line."""
    desk = subprocess.Popen(serving(program, 2), stdin=subprocess.DEVNULL, stdout=subprocess.PIPE)
    try:
        port = port_of(desk)
        dear, cheap = Seat(port), Seat(port)
        for at in range(0, len(before), AT_ONCE):
            some = before[at : at + AT_ONCE]
            dear.ask(b"".join(text + b"\n" for text in some), len(some))
        rest = max(timed(cheap) for _ in range(AT_REST))
        return rest, max(waits_behind(dear, cheap, line))
    finally:
        desk.kill()
        desk.wait()
