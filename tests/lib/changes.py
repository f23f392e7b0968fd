"""Random changes of repositories: pictures, texts, words that are replaced, preferences, moves."""
import os
import re

from program import ANN, SEED
from repositories import Repositories
from trees import read, tree, write

# Words of the texts, and sets that tokens are of: what `--token-chars` names, if anything, and what its tokens match.
WORDS = ("cat", "dog", "cats", "x_1", "e-mail", "v1.0", "Cat")
SETS = ((None, r"[\w.-]+"), ("[a-z]", "[a-z]+"), (r"[a-z\-]", "[a-z-]+"), (r"[^:\n]", r"[^:\n]+"), ("[-.a-zA-Z0-9]", "[-.a-zA-Z0-9]+"))
PREFERENCES = ("test", "predist", "boringfile", "binariesfile")
# What isn't the business of a verdict: how many, and which.
CLASS = re.compile(rb"(taken|nothing new|refused conflicts|refused|malformed).*", re.S)
# `dm` says that two patches conflict that make one change at one place. A darcs-2 repository takes the second as a duplicate.
TWINS = "twins"


class Changes(Repositories):
    """Repositories that are changed at random, below a folder of their own."""

    def __init__(self, kind, work, draw):
        super().__init__(kind, work)
        self.draw, self.count = draw, 0
        self.what = "%s, SEED=%s, %s" % (kind, SEED, work)

    def fresh(self):
        self.count += 1
        return "%d" % self.count

    def picture(self):
        """Bytes that are no text, or few of them; hardly ever the same twice."""
        some = bytes(self.draw.randrange(256) for _ in range(self.draw.choice((1, 2, 5, 38, 39, 40, 77, 78, 79, 300, 5000))))
        return self.draw.choice((b"", b"\0" + some, some + b"\r\n\0", some + b"\n" + some + b"\n", b"\n" * len(some[:9]) + b"\0"))

    def lines(self, most):
        words = lambda: tuple(self.draw.choice(WORDS) for _ in range(3))
        return "".join("%s %s-%s:%s\n" % (self.fresh(), *words()) for _ in range(self.draw.randint(1, most))).encode()

    def files(self, folder, ending):
        found = [os.path.relpath(os.path.join(at, it), folder) for at, _, names in os.walk(folder) for it in names]
        return sorted(it for it in found if it.endswith(ending) and not it.startswith("_darcs"))

    def some(self, folder, ending):
        """A file of this ending, if there is one."""
        return self.draw.sample(self.files(folder, ending), min(1, len(self.files(folder, ending))))

    def folders(self, folder):
        return ["."] + sorted(it.decode() for it, text in tree(folder).items() if text is None)

    def at(self, folder, ending):
        """A path where nothing is."""
        return os.path.join(self.draw.choice(self.folders(folder)), "%s%s%s" % (os.path.basename(folder), self.fresh(), ending))

    def new(self, folder):
        ending = self.draw.choice((".png", ".png", ".txt"))
        write(folder, self.at(folder, ending), text=self.picture() if ending == ".png" else self.lines(6))

    def repaint(self, folder):
        for path in self.some(folder, ".png"):
            write(folder, path, text=self.picture())

    def edit(self, folder):
        for path in self.some(folder, ".txt"):
            texts = read(folder, path).splitlines(keepends=True)
            at = self.draw.randint(0, len(texts))
            texts[at : at + self.draw.randrange(2)] = self.lines(2).splitlines(keepends=True)
            # A text without its last newline; or one that is none any more.
            cut, none = self.draw.random() < 0.1, self.draw.random() < 0.1
            write(folder, path, text=(b"".join(texts)[:-1] if cut else b"".join(texts)) + (b"\0" if none else b""))

    def respell(self, folder):
        """Replaces a word in a text; where the new one stands there, that becomes the old one first, or nothing is done.

        Darcs breaks off at some texts that aren't recorded yet, and then changes nothing.
        """
        chars, token = self.draw.choice(SETS)
        words = [it for it in WORDS + ("w%s" % self.fresh(), "new") if re.fullmatch(token, it)]
        for path in self.some(folder, ".txt"):
            self.darcs(folder, "add", "-q", path, ends=(0, 2))
            sets = ("--token-chars", chars) if chars else ()
            force = ("--force",) if self.draw.random() < 0.2 else ()
            self.darcs(folder, "replace", "-q", *force, *sets, *self.draw.sample(words, 2), path, ends=range(5))

    def remove(self, folder):
        for path in self.some(folder, ""):
            os.remove(os.path.join(folder, path))

    def move(self, folder):
        path = self.draw.choice(self.files(folder, "") + self.folders(folder)[1:] or [None])
        if path is None:
            return
        self.darcs(folder, "add", "-q", path, ends=(0, 2))
        ending = os.path.splitext(path)[1]
        self.darcs(folder, "move", "-q", path, "%s%s%s" % (os.path.basename(folder), self.fresh(), ending))

    def prefer(self, folder):
        value = self.draw.choice(("make", "make check", " odd  value ", "}", "x" * 80))
        self.darcs(folder, "setpref", "-q", self.draw.choice(PREFERENCES[:3]), value)

    def directory(self, folder):
        os.mkdir(os.path.join(folder, self.at(folder, "")))

    def patch(self, folder, changes, name=None):
        drawn = [self.draw.choice(changes) for _ in range(self.draw.choice((1, 1, 2, 3)))]
        for change in drawn:
            # Darcs breaks off where it records that a file goes in which words were to be replaced.
            if change != self.remove or self.respell not in drawn:
                change(self.path(folder))
        words = ("-q", "-a", "-l", "--ignore-times", "--skip-long-comment", "-A", ANN, "-m", "%s %s" % (name or folder, self.fresh()))
        # Where changes take each other back there is nothing to record.
        self.darcs(folder, "record", *words, ends=(0, 1))

    def changes(self):
        often = [self.repaint, self.edit, self.respell] * 3 + [self.new, self.move, self.prefer] * 2
        return often + [self.remove, self.directory]
