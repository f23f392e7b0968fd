"""How a mirror asks a program about a text: within bounds, and so that a text without an answer is told from a machine that has none."""
import math
import os
import re
import resource
import signal
import subprocess
import sys

DM = os.environ.get("DM", "dm")
# What any mirror answers, by a verdict.
ORDINARY = b"New patches:\n\n[an ordinary patch\nmirror@localhost**20240101000000] {\naddfile ./an-ordinary-file\n}\n\nContext:\n\n"
# How many times as long the ordinary text may take: a mirror that opens takes again what came since its last checkpoint.
OPENING = 20
# These are the fault of the machine or its owner, whatever the text is.
STOPS = [-each for each in (signal.SIGTERM, signal.SIGINT, signal.SIGHUP, signal.SIGXFSZ)]
# As `timeout` says that the time by the clock is over.
LATE = 124, 137
FAILS = re.compile(rb"^dm: cannot (open|read|write|sync) ", re.M)


class Answer:
    """What a program says to a text: its status, what it prints, and what it says beside that. A no without a line is none: the bounds
    may not be to be had."""

    def __init__(self, program, status, printed, said):
        self.status, self.printed, self.said = status, printed, said
        self.why = b"%s: status %d: %s\n" % (os.path.basename(program).encode(), status, said[-1000:].strip())

    def is_one(self):
        return self.status == 0 or self.status == 1 and self.printed.endswith(b"\n")

    def stop(self):
        sys.exit("mirror: no answer of " + self.why.decode(errors="replace").strip())


class Asking:
    """The programs that a mirror asks. They have its lock, so none is left over from a mirror that was killed; meanwhile `wait`
    tells the broker that the mirror is there."""

    def __init__(self, name, lock, wait):
        self.text, self.ordinary, self.lock, self.wait = name + ".next", name + ".ordinary", lock, wait
        self.opening = {}
        with open(self.ordinary, "wb") as file:
            file.write(ORDINARY)

    def ask(self, words_of, seconds, memory, *trying):
        """What a program answers to the text, with so many seconds of the processor and bytes of memory. It stops the mirror
        where the program, with the words of `trying`, by which it keeps nothing, doesn't answer an ordinary text either. If it
        does, it is asked once more: it may have kept the text, and the machine may have been short of memory. Where it took too
        long and keeps nothing anyway, it would again, unless the mirror is slow to open."""
        program = words_of(self.text)[0]
        more = self.opening.get(program, 0)
        found, took = self.once(words_of, seconds + more, memory)
        if found.is_one():
            self.opening[program] = more if took > seconds else 0
            return found
        is_late = found.status in LATE or took > 0.9 * (seconds + more)
        ordinary, took = self.run(words_of(self.ordinary) + list(trying), self.ordinary, OPENING * seconds, memory)
        if not ordinary.is_one():
            ordinary.stop()
        is_slow = took > seconds / 4 and 2 * took > more
        if is_late and not is_slow and not trying:
            return found
        self.opening[program] = math.ceil(2 * took) if is_slow else more
        return self.once(words_of, seconds + self.opening[program], memory)[0]

    def once(self, words_of, seconds, memory):
        """What `run` says of the text. It stops the mirror where it is plain that the machine or its owner is at fault."""
        found, took = self.run(words_of(self.text), self.text, seconds, memory)
        if not found.is_one() and (found.status in STOPS or FAILS.search(found.said)):
            found.stop()
        return found, took

    def run(self, words, path, seconds, memory):
        """What the program answers that has the text at this path on its standard input, and the processor's seconds that it took."""
        # A script is ended with all that it has started.
        group = ["--foreground"] if words[0] == DM else []
        bounds = ["prlimit", "--core=0", "--cpu=%d" % seconds, "--as=%s" % memory]
        bounds += ["timeout", "--kill-after=1", *group, str(10 * seconds)]
        before = resource.getrusage(resource.RUSAGE_CHILDREN)
        with open(path, "rb") as text:  # no pipe: where its writer is killed, it ends as a whole text does
            process = subprocess.Popen(bounds + words, stdin=text, stdout=subprocess.PIPE, stderr=subprocess.PIPE,
                                       pass_fds=[self.lock.fileno()], env={**os.environ, "DM": DM})
        while True:
            try:
                printed, said = process.communicate(timeout=1)
                break
            except subprocess.TimeoutExpired:
                self.wait()
        after = resource.getrusage(resource.RUSAGE_CHILDREN)
        took = after.ru_utime + after.ru_stime - before.ru_utime - before.ru_stime
        return Answer(words[0], process.returncode, printed, said), took
