"""The commands of a program over a journal: their words, which of them a program has, and the port that a desk tells."""

import os
import select
import subprocess
import tempfile

SECONDS = 60
LISTENING = b"listening on "


def words(program, journal, *more):
    """A session that is kept."""
    return [program, "run", "--journal", journal, *more]


def beginning(program, journal):
    """A session that begins a journal with the text of a history."""
    return words(program, journal, "--resume")


def compacting(program, journal):
    return [program, "compact", journal]


def serving(program, seats, journal=None):
    """A desk, which is kept if a journal is named."""
    return [program, "serve", "--port", "0", "--seats", str(seats), *(["--journal", journal] if journal else [])]


def asked(words):
    """The status of a command that has no input, and what it prints."""
    done = subprocess.run(words, stdin=subprocess.DEVNULL, stdout=subprocess.PIPE, stderr=subprocess.DEVNULL, timeout=SECONDS)
    return done.returncode, done.stdout


def keeps_a_desk(program):
    """Whether its `serve` knows `--journal`."""
    return b"--journal" in asked([program, "serve", "--help"])[1]


def begins(program):
    """Whether its `run` knows `--resume` beside `--journal`. Without a text nothing is begun."""
    with tempfile.TemporaryDirectory() as room:
        return asked(beginning(program, os.path.join(room, "plan")))[0] != 2


def compacts(program):
    """Whether it knows `compact`."""
    return asked([program, "compact", "--help"])[0] == 0


def port_of(desk):
    """The port of a desk that begins; where it tells none, ValueError with what it said."""
    if not select.select([desk.stdout], [], [], SECONDS)[0]:
        raise ValueError("the desk did not begin")
    first = desk.stdout.readline()
    if not first.startswith(LISTENING):
        raise ValueError("the desk began with %r" % first)
    return int(first.rsplit(b":", 1)[1])
