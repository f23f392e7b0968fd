"""Mails of the real `darcs send`, and the recipe of `examples/mailbox` that takes them."""
import os
import random
import shutil
import subprocess
import sys
import tempfile

from bundles import NOTHING
from counting import SUITE, finish, holds
from program import DM, EXAMPLES, SECONDS, SEED, TOP
from trees import read, write

RECIPE = os.path.join(EXAMPLES, "mailbox")
FOLDERS = {"taken": "taken", "nothing": "taken", "refused": "refused"}
MAIL_FOLDER = os.path.join(TOP, "tests", "mailbox", "mails")
MAIL_FILES = sorted(os.path.join(MAIL_FOLDER, it) for it in os.listdir(MAIL_FOLDER) if it.endswith(".mail"))
MAILS = [read(it) for it in MAIL_FILES]
BUNDLES = [read(it.replace(".mail", ".dpatch")) for it in MAIL_FILES]
# The last in darcs-1: one patch of one hunk.
LAST = BUNDLES[11]
rng = random.Random(int(SEED))


class Run:
    """What a suite works with: its folder, the verdicts of the bundles in turn, the repository that they make, and how long a call may
    take, in seconds."""

    work, verdicts, fold, seconds = None, None, None, SECONDS


def is_bounded():
    """Whether the program starts in bounds of memory: with a sanitizer it doesn't."""
    words = ["prlimit", "--as=%d" % (4 << 30), DM, "--version"]
    return subprocess.run(words, capture_output=True, check=False).returncode == 0


def ask_bounds():
    """Whether the recipe bounds the program's memory; where it can't, it doesn't."""
    if is_bounded():
        return True
    os.environ.setdefault("DM_MEMORY", "unlimited")
    return False


def called(words, text=b"", **env):
    return subprocess.run(words, input=text, capture_output=True, env={**os.environ, "DM": DM, **env}, timeout=Run.seconds, check=False)


class Box:
    """A maildir and a mirror."""

    def __init__(self, recipe=RECIPE):
        self.recipe, self.path = recipe, tempfile.mkdtemp(dir=Run.work)
        self.maildir, self.mirror = os.path.join(self.path, "mail"), os.path.join(self.path, "mirror")
        for name in "tmp", "new", "cur":
            os.makedirs(os.path.join(self.maildir, name))

    def deliver(self, text):
        return called([os.path.join(self.recipe, "deliver"), self.maildir], text).returncode

    def take(self, **env):
        return called([os.path.join(self.recipe, "take"), self.maildir, self.mirror], **env).returncode

    def names(self, folder):
        path = os.path.join(self.maildir, folder)
        return sorted(os.listdir(path)) if os.path.isdir(path) else []

    def mails(self, folder):
        return [it for it in self.names(folder) if not it.endswith(".verdict")]

    def read(self, folder, name):
        return read(os.path.join(self.maildir, folder, name))

    def verdict(self, folder, name):
        return self.read(folder, name + ".verdict").split(b"\n")[0].decode()

    def answers(self):
        """What was answered, in the order of the names: folder, verdict, mail."""
        both = sorted((name, folder) for folder in ("taken", "refused") for name in self.mails(folder))
        return [(folder, self.verdict(folder, name), self.read(folder, name)) for name, folder in both]

    def repository(self):
        return called([DM, "apply", "--mirror", self.mirror, "--bundle"], NOTHING).stdout

    def wrong(self):
        """What isn't as it is where each mail is taken once, in order, and none is lost."""
        if self.mails("new"):
            return "a mail is left in new/"
        if set(self.mails("taken")) & set(self.mails("refused")):
            return "a mail is in two folders"
        for folder in "taken", "refused":
            if self.names(folder) != sorted(self.mails(folder) + [it + ".verdict" for it in self.mails(folder)]):
                return "not each mail of %s/ has a verdict" % folder
        answers = [(folder, mail) for folder, _, mail in self.answers()]
        # A mail server that was killed before it had the answer delivers again.
        once = [it for at, it in enumerate(answers) if not at or answers[at - 1] != it]
        if once != [(FOLDERS[verdict.split()[0]], mail) for verdict, mail in zip(Run.verdicts, MAILS)]:
            return "the mails that were answered aren't those that were sent, in order"
        if self.repository() != b"nothing new\n" + Run.fold:
            return "the mirror isn't what the bundles make"
        return None


def fold():
    """The verdicts of the bundles in turn, and the repository that they make, as a bundle."""
    repository, verdicts = NOTHING, []
    for bundle in BUNDLES:
        write(Run.work, "repository", text=repository)
        words = [DM, "apply", "--repository", os.path.join(Run.work, "repository"), "--bundle"]
        verdict, repository = called(words, bundle).stdout.split(b"\n", 1)
        verdicts.append(verdict.decode())
    return verdicts, repository


def unwrapped(mail):
    """The status and the output of `unwrap`, which is canonical where it is a bundle."""
    with tempfile.NamedTemporaryFile(dir=Run.work) as file:
        file.write(mail)
        file.flush()
        found = called([os.path.join(RECIPE, "unwrap"), file.name])
    return (found.returncode, found.stdout if found.returncode else canonical(found.stdout))


def canonical(bundle):
    return called([DM, "check"], bundle).stdout


def hashless():
    """A bundle without its hash."""
    return LAST[: LAST.index(b"Patch bundle hash:")]


def part(kind, text, end=b"--x--\n"):
    """A mail of a part of this type."""
    return b"MIME-Version: 1.0\nContent-Type: multipart/mixed; boundary=x\n\n--x\nContent-Type: " + kind + b"\n\n" + text + b"\n" + end


def faulty(name, edits):
    """The recipe with these edits."""
    path = os.path.join(Run.work, name)
    shutil.copytree(RECIPE, path)
    for script, changes in edits.items():
        text = read(os.path.join(path, script)).decode()
        for old, new in changes:
            if text.count(old) != 1:
                sys.exit("%s: %s: %r isn't there once" % (SUITE, script, old))
            text = text.replace(old, new)
        write(path, script, text=text.encode())
    return path


def run(main):
    """Runs a suite in a folder of its own, and ends it. What is killed leaves the files of a living machine, so that memory does for a
    disk."""
    in_memory = "/dev/shm" if os.access("/dev/shm", os.W_OK) else None
    with tempfile.TemporaryDirectory(dir=in_memory, ignore_cleanup_errors=True) as Run.work:
        try:
            Run.verdicts, Run.fold = fold()
            main()
        except (Exception, SystemExit) as error:  # pylint: disable=broad-except
            holds("it broke off", repr(error), None)
    finish()
