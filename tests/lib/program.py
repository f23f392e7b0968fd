"""The program: where it is, and how it is run."""
import os
import resource
import signal
import subprocess
import sys
import tempfile

from counting import holds, tell
from trees import tree

TOP = os.path.realpath(os.path.join(os.path.dirname(__file__), "..", ".."))
EXAMPLES = os.path.join(TOP, "examples")
# The program itself: the script before it isn't what is tested.
DM = os.path.realpath(os.environ.get("DM", os.path.join(TOP, "crates", "dm_tool", "out", "dm_tool")))
SEED = os.environ.get("SEED", "1")
# How long a call may take, in seconds.
SECONDS = 300
ANN = "Ann <ann@example.org>"


def is_built():
    """Whether the program is there; where it is the one that `dm` builds, that builds it."""
    words = [DM, "--help"] if "DM" in os.environ else [os.path.join(TOP, "dm"), "--prove"]
    return subprocess.run(words, stdout=subprocess.DEVNULL, check=False).returncode == 0


def build():
    """Ends where there is no program."""
    if not is_built():
        tell("the program could not be built")
        print("0 passed, 1 failed")
        sys.exit(1)


def answer(words, text=b"", **more):
    """The status and both outputs of `dm`."""
    found = subprocess.run([DM, *words], input=text, capture_output=True, check=False, **more)
    return found.returncode, found.stdout, found.stderr


def limited(what, most, signals=signal.SIG_IGN):
    """For `preexec_fn`: so much of this the program has, such as bytes of a file; what is past that is no signal, but a fault."""

    def limit():
        signal.signal(signal.SIGXFSZ, signals)
        resource.setrlimit(what, (most, most))

    return limit


def with_memory(most):
    """For `preexec_fn`: so many bytes of address space."""
    return limited(resource.RLIMIT_AS, most)


# What the stack may take in work, beyond what it has at the start. The system kills a program whose stack can't grow, whatever it does.
STACK = 1 << 17


def least_memory(step):
    """The least address space, in such steps, in which the program starts, with room for its stack; none where it doesn't in 1 GiB."""
    sizes = range(step, 1 << 30, step)
    starts = lambda most: answer(["--version"], preexec_fn=with_memory(most))[0] == 0
    if not starts(1 << 30):
        tell("the program doesn't start in 1 GiB: not tried with less")
        return None
    return next(it for it in sizes if starts(it)) + STACK


class Place:
    """A folder to work in, and the calls that are made there."""

    def __init__(self, work):
        self.work = work
        os.makedirs(work, exist_ok=True)
        self.env = dict(os.environ, HOME=work, DM=DM, TZ="UTC", LC_ALL="C.UTF-8", NO_COLOR="1", EMAIL=ANN)
        self.env.update(DARCS_EDITOR="true", EDITOR="true")

    def path(self, *names):
        return os.path.join(self.work, *names)

    def call(self, *words, text=b"", folder=None, env=None, **more):
        """The status, what is printed, and what is said."""
        found = subprocess.run(
            words, cwd=folder or self.work, input=text, capture_output=True, timeout=SECONDS,
            env={**self.env, **(env or {})}, check=False, **more
        )
        return found.returncode, found.stdout, found.stderr

    def dm(self, *words, text=b"", **more):
        return self.call(DM, *words, text=text, **more)

    def holds(self, what, found, wanted):
        return holds(what, found, wanted)

    def said(self, *words, text=b""):
        """What `dm` prints; it has to end well, and to say nothing."""
        status, out, said = self.dm(*words, text=text)
        self.holds("dm %s" % " ".join(words), (status, said), (0, b""))
        return out

    def tree(self, mirror="m"):
        """The tree of a mirror."""
        folder = tempfile.mkdtemp(dir=self.work)
        self.said("checkout", "--mirror", mirror, folder)
        return tree(folder)

    def fails(self, what, said, *words, out=b"", status=2, text=b""):
        self.holds(what, self.dm(*words, text=text), (status, out, said))
