"""Runs of the program over a journal: such that are recorded, and openings of what a crash left."""

import os
import select
import signal
import socket
import subprocess
import sys
from pathlib import Path
from typing import NamedTuple

from programs import SECONDS, beginning, compacting, port_of, serving, words

from .course import ANEW, HISTORY
from .records import TOLD, Call, read_record
from .text import lined

ASKED, ENDED = 198, 199  # as in starter.c


class Strange(Exception):
    """The program did what no crash explains."""


def recording(recorder, record, slowed_sync=0):
    return {**os.environ, "LD_PRELOAD": recorder, "RECORD_OF_CALLS": record, "SLOWED_SYNC": str(slowed_sync)}


def slowed(recorder):
    """What has each sync take two milliseconds more, so that a kill comes oftener within one."""
    return {**os.environ, "LD_PRELOAD": recorder, "SLOWED_SYNC": "2000"}


class Phase(NamedTuple):
    """A run of a command: its name, its calls, and the file that it left."""

    name: str
    calls: list
    left: bytes


class Recording:
    """Commands over a new journal in a folder, one after the other, whose calls are recorded."""

    def __init__(self, program, recorder, room):
        self.program, self.recorder, self.journal = program, recorder, os.path.join(room, "plan")
        self.record, self.phases = os.path.join(room, "record"), []

    def begun(self, words, slowed_sync=0):
        """Begins a command."""
        Path(self.record).write_bytes(b"")
        env = recording(self.recorder, self.record, slowed_sync)
        return subprocess.Popen(words, stdin=subprocess.PIPE, stdout=subprocess.PIPE, stderr=subprocess.PIPE, env=env)

    def ended(self, name, process):
        """Takes the calls of a command that has ended."""
        said = process.stderr.read()
        if process.wait(SECONDS) != 0 or said:
            raise Strange("%s ended with status %d, and said %r" % (name, process.returncode, said[-300:]))
        self.phases.append(Phase(name, read_record(Path(self.record).read_bytes()), Path(self.journal).read_bytes()))

    def session(self, pieces, opening=None):
        """Gives a session pieces, each once the lines of the one before were answered: all replies. With an opening it begins the journal
        with that text of a history."""
        if opening is None:
            name, given, told = "run", words(self.program, self.journal), b""
        else:
            name, given, told = "run --resume", beginning(self.program, self.journal), opening.encode()
        with self.begun(given) as process:
            replies = play(process, pieces, told)
            self.ended(name, process)
        return replies

    def compact(self):
        """Makes the journal anew."""
        with self.begun(compacting(self.program, self.journal)) as process:
            told = play(process, [])
            self.ended("compact", process)
        if told:
            raise Strange("compact told %r" % told)
        self.phases[-1].calls.append(Call(TOLD, ANEW, 0, b"."))

    def desk(self, seats, day, slowed_sync):
        """Has seats ask at a desk until each has asked all; the calls have the day and the number of a seat in place of its descriptor."""
        with self.begun(serving(self.program, len(seats), self.journal), slowed_sync) as process:
            try:
                process.stdin.close()
                seats.ask_all(port_of(process))
                printed = process.stdout.read()
                self.ended("serve", process)
            finally:
                process.kill()
        self.phases[-1] = self.phases[-1]._replace(calls=by_seat(self.phases[-1].calls, seats, day))
        return printed


def play(process, pieces, opening=b""):
    """Gives a program pieces of a session, each once the lines of the one before were answered: all replies. `opening` comes first."""
    told = []
    process.stdin.write(opening)
    for piece in pieces:
        process.stdin.write(lined(piece))
        process.stdin.flush()
        told += [process.stdout.readline() for _ in piece]
    process.stdin.close()
    told.append(process.stdout.read())
    return b"".join(told)


def by_seat(calls, seats, day):
    """The calls of a desk without those on its standard output, each connection by its seat: that which had just these bytes."""
    streams = {}
    for call in calls:
        if call.kind == TOLD and call.file != 1:
            streams[call.file] = streams.get(call.file, b"") + call.data
    owners = {seat.received: seat.number for seat in seats}
    if sorted(streams.values()) != sorted(filter(None, owners)) or len(owners) < len(seats):
        raise Strange("the seats have other replies than were recorded")
    return [call._replace(file=(day, owners[streams[call.file]])) if call.kind == TOLD else call
            for call in calls if call.kind != TOLD or call.file != 1]


class Opener:
    """Opens files by the program, and asks for the history that they stand for. The program is loaded once, and begins anew for each
    file (`scripts/check/starter.c`)."""

    def __init__(self, program, starter, room):
        self.program, self.journal = program, os.path.join(room, "image")
        self.told, self.question = os.path.join(room, "told"), os.path.join(room, "question")
        self.words, self.starter, self.process = words(program, self.journal), starter, None
        Path(self.question).write_bytes(HISTORY)

    def put(self, image):
        if image is None:
            if os.path.exists(self.journal):
                os.unlink(self.journal)
            return
        file = os.open(self.journal, os.O_WRONLY | os.O_CREAT | os.O_TRUNC, 0o600)
        os.write(file, image)
        os.close(file)

    def load(self):
        """Loads the program, which then waits."""
        asks, self.asked = os.pipe()
        self.ended, ends = os.pipe()
        env = {**os.environ, "LD_PRELOAD": self.starter, "STARTED_INPUT": self.question, "STARTED_OUTPUT": self.told}

        def begin():
            os.dup2(asks, ASKED)
            os.dup2(ends, ENDED)

        self.process = subprocess.Popen(self.words, env=env, stderr=subprocess.DEVNULL, close_fds=False, preexec_fn=begin,
                                        start_new_session=True)
        os.close(asks)
        os.close(ends)

    def close(self):
        if self.process:
            os.close(self.asked)
            os.close(self.ended)
            os.killpg(self.process.pid, signal.SIGKILL)  # also what it has begun, if that does not end
            self.process.wait()
            self.process = None

    def begun(self):
        """Has the program begin and end: its status."""
        if not self.process:
            self.load()
        os.write(self.asked, b".")
        if not select.select([self.ended], [], [], SECONDS)[0]:
            raise Strange("the program does not end")
        status = os.read(self.ended, 4)
        if len(status) < 4:
            raise Strange("the program can't be loaded once and begun often")
        return os.waitstatus_to_exitcode(int.from_bytes(status, sys.byteorder))

    def opened(self, image):
        """The status, the reply to the question for the history, and the file afterwards."""
        self.put(image)
        return self.begun(), Path(self.told).read_bytes(), Path(self.journal).read_bytes()

    def served(self, image):
        """The same by a desk of one seat."""
        self.put(image)
        given, none = serving(self.program, 1, self.journal), subprocess.DEVNULL
        with subprocess.Popen(given, stdin=none, stdout=subprocess.PIPE, stderr=none) as desk:
            try:
                with socket.create_connection(("127.0.0.1", port_of(desk)), SECONDS) as connection, connection.makefile("rb") as replies:
                    connection.sendall(HISTORY)
                    told = replies.readline()
                desk.stdout.read()
                status = desk.wait(SECONDS)
            finally:
                desk.kill()
        return status, told, Path(self.journal).read_bytes()

    def recorded(self, image, recorder):
        """The calls of an opening, and the number of the file that it was made on."""
        record = self.told + ".record"
        if os.path.exists(record):
            os.unlink(record)
        self.put(image)
        with open(self.question, "rb") as question:
            subprocess.run(self.words, stdin=question, stdout=subprocess.DEVNULL, env=recording(recorder, record), check=True, timeout=SECONDS)
        return read_record(Path(record).read_bytes()), os.stat(self.journal).st_ino
