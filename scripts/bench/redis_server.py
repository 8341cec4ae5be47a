"""A redis server to measure beside, where there is one."""

import re
import shutil
import socket
import subprocess
import sys
import tempfile
import time

KEPT_NOWHERE = ["--appendonly", "no"]
KEPT_AT_ONCE = ["--appendonly", "yes", "--appendfsync", "always"]
KEYS = 1_000
LEAST_LINES = 10_000  # of fewer that are sent at once redis-benchmark tells no number, nor of a tenth of them one by one
SECONDS = 600


def is_there():
    return bool(shutil.which("redis-server") and shutil.which("redis-benchmark"))


def free_port():
    with socket.socket() as probe:
        probe.bind(("127.0.0.1", 0))
        return probe.getsockname()[1]


def wait_for_port(port):
    for _ in range(200):
        try:
            socket.create_connection(("127.0.0.1", port)).close()
            return
        except OSError:
            time.sleep(0.02)
    sys.exit("no server on port %d" % port)


def set_line(key, value):
    return b"*3\r\n$3\r\nSET\r\n$%d\r\n%s\r\n$%d\r\n%s\r\n" % (len(key), key, len(value), value)


def get_line(key):
    return b"*2\r\n$3\r\nGET\r\n$%d\r\n%s\r\n" % (len(key), key)


class Server:
    """A redis server on a free port, whose files lie in a folder."""

    def __init__(self, kept=KEPT_NOWHERE, folder=None):
        self.port = free_port()
        words = ["redis-server", "--port", str(self.port), "--bind", "127.0.0.1", "--save", "", *kept]
        self.process = subprocess.Popen(words, stdout=subprocess.DEVNULL, cwd=folder or tempfile.gettempdir())
        wait_for_port(self.port)

    def end(self):
        self.process.terminate()
        self.process.wait(timeout=60)

    def kill(self):
        self.process.kill()


def benchmark(server, connections, kind, count, at_once):
    """The lines a second that redis-benchmark tells of so many connections, which send so many lines at once; the server ends."""
    try:
        words = ["redis-benchmark", "-h", "127.0.0.1", "-p", str(server.port), "-c", str(connections), "-t", kind, "-q", "--csv"]
        words += ["-n", str(max(count, LEAST_LINES // 10 if at_once == 1 else LEAST_LINES)), "-P", str(at_once), "-r", str(KEYS)]
        told = subprocess.run(words, stdout=subprocess.PIPE, check=True, timeout=SECONDS).stdout.decode()
    finally:
        server.end()
    return float(re.search(r'"%s[^"]*","([0-9.]+)"' % kind.upper(), told).group(1))
