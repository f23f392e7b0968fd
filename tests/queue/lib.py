"""What the parts share: brokers, mirrors that are started again, bundles."""
import hashlib
import os
import random
import signal
import socket
import subprocess
import time

import bundles
from program import DM, EXAMPLES

RECIPE = os.path.realpath(os.environ.get("RECIPE", os.path.join(EXAMPLES, "queue")))
# How many seconds may pass without an answer before it breaks off: on a machine with much else to do an answer takes some.
PATIENCE = 300
# Every process that a run starts, and each that these start, has its folder under this word in its environment.
OURS = "TESTS_QUEUE_FOLDER"
SIGNALS = (signal.SIGTERM, signal.SIGINT, signal.SIGHUP)


def info(poster, number):
    return bundles.info("%s %03d" % (poster, number), poster + "@example.org")


def good(poster, number):
    """The poster's bundle of this number, which rests on those before it."""
    prims = (["addfile ./%s\n" % poster] if number == 0 else []) + [bundles.hunk("./" + poster, number + 1, (), ["line %d" % number])]
    context = bundles.context_of(info(poster, before) for before in reversed(range(number)))
    return bundles.HEADING + info(poster, number) + "{\n%s}\n" % "".join(prims) + bundles.CONTEXT + context


def name_of(text):
    """What the recipe calls a bundle."""
    return hashlib.sha256(text).hexdigest()[:16]


class Mirror:
    """A mirror that is started again each time that it ends."""

    def __init__(self, recipe, folder, environment, name, draw):
        self.recipe, self.folder, self.environment, self.name, self.draw = recipe, folder, environment, name, draw
        self.log, self.errors = (os.path.join(folder, name + end) for end in (".log", ".errors"))
        self.start()

    def start(self):
        # It is killed some time after it has answered so many bundles.
        self.due = len(self.lines()) + self.draw.randrange(12)
        with open(self.log, "ab") as log, open(self.errors, "ab") as errors:
            self.told_before = errors.tell()
            self.process = subprocess.Popen(
                [os.path.join(self.recipe, "mirror"), self.name], cwd=self.folder, env=self.environment,
                stdin=subprocess.DEVNULL, stdout=log, stderr=errors, start_new_session=True)

    def look(self):
        """Starts it again, where it has ended."""
        if self.process.poll() is not None:
            self.start()

    def is_ready(self):
        """Whether it has told that it waits for bundles, since it was started last."""
        with open(self.errors, "rb") as told:
            told.seek(self.told_before)
            return b"waits for bundles" in told.read()

    def is_due(self):
        return self.is_ready() and len(self.lines()) >= self.due

    def kill(self, whole):
        """Kills it, with the `dm` that it waits for or without."""
        if self.process.poll() is None:
            if whole:
                os.killpg(self.process.pid, signal.SIGKILL)
            else:
                self.process.kill()
            self.process.wait()

    def lines(self):
        """What it has answered: the bundles' names and the verdicts."""
        if not os.path.exists(self.log):
            return []
        with open(self.log, "rb") as log:
            return [tuple(line.decode().split(" ", 1)) for line in log.read().split(b"\n")[:-1]]


class Broker:
    def __init__(self, work, name="broker"):
        self.folder = os.path.join(work, name)
        port, self.guard = free_port()
        self.environment = dict(os.environ, PORT=str(port), **{OURS: work})

    def url(self):
        return "amqp://localhost:" + self.environment["PORT"]

    def call(self, what):
        words = [os.path.join(RECIPE, "broker"), what, self.folder]
        subprocess.run(words, env=self.environment, timeout=PATIENCE, check=True)


def free_port():
    """A port that nobody has, nor the two after it; and a socket that has the one after these, which keeps others who ask
    here off all four."""
    while True:
        port = random.randrange(20000, 30000, 4)
        guard = socket.socket()
        try:
            guard.bind(("127.0.0.1", port + 3))
            for number in (port, port + 1, port + 2):
                with socket.socket() as tried:
                    tried.bind(("127.0.0.1", number))
            return port, guard
        except OSError:
            guard.close()


def whole(text):
    """A bundle with its hash, as `dm send` writes it."""
    done = subprocess.run([DM, "send", "--base", "-"], input=text.encode(), stdout=subprocess.PIPE, check=True)
    return done.stdout


def answers(mirror, count):
    """The verdicts of a mirror, once there are so many."""
    until = time.monotonic() + PATIENCE
    while len(mirror.lines()) < count and time.monotonic() < until:
        mirror.look()
        time.sleep(0.05)
    return [verdict for _, verdict in mirror.lines()]


def processes(work):
    """The processes that were started for this folder, also by others of them."""
    found = []
    for number in filter(str.isdigit, os.listdir("/proc")):
        try:
            with open("/proc/%s/environ" % number, "rb") as file:
                if ("%s=%s" % (OURS, work)).encode() in file.read().split(b"\0"):
                    found.append(int(number))
        except OSError:  # it has ended, or is somebody else's
            pass
    return found
