"""Pairs of a hunk and a replace of one file, or of two replaces of it, each made from nothing: which commute, which merge, and to what.

So many pairs are in one repository, each in a file of its own, that a call of darcs judges all of them.
"""
import re

from bundles import bundle, hunk, new_file, patch
from counting import holds, sees
from repositories import NO_CONTEXT, Repositories
from trees import read, tree, write

# How many pairs one repository has.
MOST_PAIRS = 100
# Sets of bytes of which tokens are, as a patch has them, and what one byte of them matches.
SETS = (
    ("[a-z]", "[a-z]"),
    ("[A-Za-z_0-9]", "[A-Za-z_0-9]"),
    (r"[A-Za-z_0-9\-\.]", r"[A-Za-z_0-9.-]"),
    (r"[a-z\-]", "[a-z-]"),
    ("[-.a-zA-Z0-9]", "[-.a-zA-Z0-9]"),
    (r"[^:\n]", r"[^:\n]"),
    ("[ab]", "[ab]"),
    ("[b.]", "[b.]"),
)
# Words that are tokens of some sets, and parts of tokens of others.
WORDS = ("a", "b", "c", "ab", "ba", "a-b", "b-a", "a.b", "b.", "A", "x_1", "a b", "-")
BETWEEN = (" ", " ", "-", ".", ":", "", "\u00e9")
BOTH = ("hunk then replace", "replace then hunk", "two replaces")


def replace(path, chars, old, new):
    return "replace %s %s %s %s\n" % (path, chars, old, new)


def turned(lines, matching, old, new):
    """The lines with a token replaced; none where the new one stands there already."""
    pieces = [re.findall("%s+|(?!%s)." % (matching, matching), it, re.S) for it in lines]
    if old != new and any(new in it for it in pieces):
        return None
    return ["".join(new if piece == old else piece for piece in it) for it in pieces]


class Drawn:
    """A file of a few lines, and what changes it at random."""

    def __init__(self, draw, path):
        self.draw, self.path = draw, path
        self.lines = [self.line() for _ in range(draw.randint(1, 4))]

    def line(self):
        words = [self.draw.choice(WORDS) for _ in range(self.draw.randint(0, 3))]
        return "".join(it + self.draw.choice(BETWEEN) for it in words)

    def hunk(self, lines):
        """A hunk, and the lines after it."""
        while True:
            at = self.draw.randint(0, len(lines))
            old = lines[at : at + self.draw.randint(0, 2)]
            new = [self.line() for _ in range(self.draw.randint(0, 2))]
            if old != new:
                return hunk(self.path, at + 1, old, new), lines[:at] + new + lines[at + len(old) :]

    def replace(self, lines):
        """A replace that applies, and the lines after it."""
        while True:
            chars, matching = self.draw.choice(SETS)
            words = [it for it in WORDS + ("new",) if " " not in it and re.fullmatch("(?:%s)+" % matching, it)]
            old, new = self.draw.choice(words), self.draw.choice(words)
            after = turned(lines, matching, old, new)
            if after is not None:
                return replace(self.path, chars, old, new), after

    def pair(self, are_beside):
        """Two changes, the second after the first or, if they are beside each other, of the same lines."""
        both = self.draw.choice(BOTH)
        while True:
            first, after = (self.hunk if both == BOTH[0] else self.replace)(self.lines)
            second = (self.hunk if both == BOTH[1] else self.replace)(self.lines if are_beside else after)[0]
            # Darcs takes two that are one as one.
            if first != second or not are_beside:
                return first, second


def bodies(text):
    """What stands in each patch of a bundle, by its name. Darcs leaves an empty line between two."""
    text = text.partition(b"New patches:\n\n")[2].partition(b"\nContext:\n")[0]
    return dict(it.rstrip(b"\n").split(b"\n", 1) for it in re.split(rb"(?m)^\[", text)[1:])


class Passing(Repositories):
    """A repository of pairs."""

    are_beside = False

    def __init__(self, kind, work, draw, count):
        super().__init__(kind, work)
        self.draw, self.count, self.what = draw, count, "%s, %s" % (kind, work)
        self.firsts = ["first%03d" % it for it in range(count)]
        self.seconds = ["second%03d" % it for it in range(count)]

    def make(self):
        """The bundles of the files, of the first changes, and of the second ones; and a repository of the files."""
        files = [Drawn(self.draw, "./f%03d" % it) for it in range(self.count)]
        pairs = [it.pair(self.are_beside) for it in files]
        self.pairs = dict(zip(self.seconds, pairs))
        start = patch("start", [prim for it in files for prim in new_file(it.path, it.lines)])
        changes = [[patch(name, [prim]) for name, prim in zip(names, prims)] for names, prims in zip((self.firsts, self.seconds), zip(*pairs))]
        write(self.path("start.dpatch"), text=bundle([start]))
        write(self.path("first.dpatch"), text=bundle(changes[0], ["start"]))
        context = ["start"] if self.are_beside else ["start", *self.firsts][::-1]
        write(self.path("second.dpatch"), text=bundle(changes[1], context))
        write(self.path("nothing"), text=NO_CONTEXT)
        self.darcs("", "init", "-q", "--" + self.kind, "start")
        self.take("start", "start.dpatch")
        self.said("init", "--mirror", "m", "--all-kinds")
        self.said("apply", "--mirror", "m", "--quiet", "start.dpatch")

    def sees(self, what, count=1):
        sees("%s: %s" % (self.kind, what), count)

    def take(self, folder, bundle, *words):
        self.darcs(folder, "apply", "-q", "-a", "--no-test", *words, self.path(bundle))

    def clone(self, folder):
        self.darcs("", "clone", "-q", "start", folder)

    def names_of(self, folder):
        """The names of a repository's patches, the first first."""
        return re.findall(r"(?m)^  \* (\S+)$", self.darcs(folder, "log", "--reverse").decode())

    def names_held(self):
        """The names of the mirror's patches, the first first."""
        return re.findall(r"(?m)^  \* (\S+)$", self.said("log", "--mirror", "m").decode())[::-1]

    def holds_all_of(self, folder, what):
        """Whether mirror and repository have the same names, files and texts of patches."""
        held, names = self.names_held(), self.names_of(folder)
        for name in sorted(set(held) ^ set(names)):
            self.sees("differ")
            holds("%s: %s: only %s has %s of %r" % (self.what, what, folder if name in names else "the mirror", name, self.pairs.get(name)), False)
        holds("%s: %s: the files" % (self.what, what), self.tree("m"), tree(self.path(folder)))
        self.send(folder, self.path("nothing"), self.path("theirs.dpatch"))
        ours, theirs = bodies(self.said("send", "--mirror", "m")), bodies(read(self.path("theirs.dpatch")))
        # Darcs leaves the braces of the start out.
        for name in sorted(set(ours) & set(theirs) - {b"start"}):
            if not holds("%s: %s: %s of %r" % (self.what, what, name.decode(), self.pairs.get(name.decode())), ours[name], theirs[name]):
                self.sees("differ")
        holds("%s: %s: texts of all" % (self.what, what), (len(ours), len(theirs)), (len(held), len(names)))
        return set(names)


class Commuting(Passing):
    """Which of the second changes commute in front of the first ones."""

    def run(self):
        self.make()
        self.clone("whole")
        for bundle in "first.dpatch", "second.dpatch":
            self.take("whole", bundle)
            self.said("apply", "--mirror", "m", "--quiet", bundle)
        self.holds_all_of("whole", "in turn")
        # Without what they depend on.
        self.clone("moved")
        self.darcs("moved", "pull", "-q", "-a", "--no-deps", "-p", "^second", "--no-set-default", self.path("whole"), ends=(0, 1))
        self.said("obliterate", "--mirror", "m", "--with-dependents", "-o", "gone.dpatch", *self.firsts)
        commute = self.holds_all_of("moved", "in front")
        self.sees("commute", len(commute) - 1)
        self.sees("don't commute", self.count + 1 - len(commute))
        # And the first ones behind them.
        self.darcs("moved", "pull", "-q", "-a", "--no-set-default", self.path("whole"))
        self.said("apply", "--mirror", "m", "--quiet", "gone.dpatch")
        self.holds_all_of("moved", "behind")
        holds("%s: the files in either order" % self.what, tree(self.path("moved")), tree(self.path("whole")))


class Merging(Passing):
    """Which of the second changes merge with the first ones."""

    are_beside = True

    def run(self):
        self.make()
        self.clone("merged")
        self.take("merged", "first.dpatch")
        self.said("apply", "--mirror", "m", "--quiet", "first.dpatch")
        self.take("merged", "second.dpatch", "--skip-conflicts")
        _, out, said = self.dm("apply", "--mirror", "m", "--quiet", "--skip", "second.dpatch")
        merge = self.holds_all_of("merged", "merged")
        holds("%s: what is said" % self.what, said, b"")
        self.sees("merge", len(merge) - 1 - self.count)
        self.sees("conflict", 2 * self.count + 1 - len(merge))
        holds("%s: the verdict" % self.what, out.split()[:2], [b"taken", b"%d" % (len(merge) - 1 - self.count)])
