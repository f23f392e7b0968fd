"""Repositories of the real darcs, and scripts of `examples/`."""
import os
import random
import re
import shutil
import sys
from concurrent.futures import ThreadPoolExecutor
from importlib.machinery import SourceFileLoader
from importlib.util import module_from_spec, spec_from_loader

from counting import leave, unless_broken
from program import ANN, EXAMPLES, SEED, Place
from trees import tree, write

FORMATS = ("darcs-1", "darcs-2")
NO_CONTEXT = b"\nContext:\n\n"
# A repository may name commands to be run before and after those of darcs.
HOOKLESS = ("--no-prehook", "--no-posthook")
# What darcs writes if two sides changed the same lines: the lines before, then those of each side with bars between.
MARKS = re.compile(rb"(?m)^v v v v v v v\n(?:.*\n)*?=============\n((?:.*\n)*?)\^ \^ \^ \^ \^ \^ \^\n")
BAR = b"*************\n"


def has_darcs():
    return shutil.which("darcs") is not None


def need_darcs():
    """Ends where it isn't installed."""
    if not has_darcs():
        leave("darcs isn't installed, so nothing was run")


def hashes(text):
    """The hashes of the patches of a log, in their order."""
    return re.findall(r"(?m)^patch ([0-9a-f]{40})$", text.decode(errors="replace"))


def script(name):
    """A script of `examples/`, to use what it has."""
    sys.dont_write_bytecode = True
    loader = SourceFileLoader(name, os.path.join(EXAMPLES, name))
    module = module_from_spec(spec_from_loader(name, loader))
    loader.exec_module(module)
    return module


def keep_both(folder):
    """Settles the conflicts that darcs marked in a folder: the lines of both sides stay. Returns whether there were some."""
    is_settled = False
    for path, text in tree(folder).items():
        both = text and MARKS.sub(lambda found: found[1].replace(BAR, b""), text)
        if both != text:
            write(os.fsencode(folder), path, text=both)
            is_settled = True
    return is_settled


class Repositories(Place):
    """Repositories in one format of darcs, each in a folder of this one."""

    def __init__(self, kind, work):
        super().__init__(work)
        self.kind = kind

    def darcs(self, folder, *words, keys="", ends=(0,), **more):
        """What darcs prints; it has to end well."""
        status, out, said = self.call("darcs", *words, text=keys.encode(), folder=self.path(folder), **more)
        if status not in ends:
            raise RuntimeError("darcs %s in %s: %r" % (words, folder, out + said))
        return out

    def example(self, name, *words, **more):
        """What a script of `examples/` answers."""
        return self.call(os.path.join(EXAMPLES, name), *words, **more)

    def record(self, folder, name, *words, author=ANN, **more):
        words = ("-q", "-a", "-l", "--ignore-times", "--skip-long-comment", "-A", author, "-m", name, *words)
        self.darcs(folder, "record", *words, **more)

    def record_nothing(self, folder, name, author=ANN):
        """A patch of no primitives, which depends on nothing."""
        write(self.path(folder, "passing"), text=b"by\n")
        self.record(folder, name, author=author)
        self.darcs(folder, "amend", "-q", "-a", "--unrecord", "--keep-date", "-A", author, "-p", "^%s$" % name, keys="y")
        os.remove(self.path(folder, "passing"))

    def send(self, folder, context, bundle, *words):
        """Makes the bundle of what isn't in a context."""
        words += ("--no-edit-description", "--no-set-default", "--context", context, "-o", bundle, self.path(folder))
        self.darcs(folder, "send", "-q", "-a", *words)

    def patches_of(self, folder):
        """The hashes of a repository's patches, the last first."""
        return hashes(self.darcs(folder, "log"))

    def without_unrecorded(self, folder, aside):
        """What isn't recorded goes."""
        os.rename(self.path(folder), self.path(aside))
        self.darcs("", "clone", "-q", aside, folder)


def side_by_side(work, form, count, *more):
    """So many of this form in both formats of darcs, each made with these words more."""

    def one(job):
        kind, number = job
        place = os.path.join(work, "%s %s %d" % (form.__name__, kind, number))
        unless_broken(place, lambda: form(kind, place, random.Random("%s %s %d" % (SEED, kind, number)), *more).run())
        shutil.rmtree(place, ignore_errors=True)

    with ThreadPoolExecutor(os.cpu_count()) as pool:
        list(pool.map(one, [(kind, number) for number in range(count) for kind in FORMATS]))
