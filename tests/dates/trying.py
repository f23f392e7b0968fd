#!/usr/bin/env python3
"""Asks the real darcs which dates of patches it can read.

    tests/dates/trying.py DATE..       asks for these dates
    tests/dates/trying.py < DATES      asks for each line
    TZ=ZONE tests/dates/trying.py ..   in another time zone; by default in UTC

For each date a bundle with one patch is made. `darcs apply` takes it into an empty repository, and `darcs log` shows it, in each of
darcs' two formats. A date is read if all of that works. Odd bytes are written as in Python, `\\xff`. A line is printed for each
date: `reads` or `ends`, the date, and what darcs said first if it failed.
"""
import codecs
import os
import shutil
import subprocess
import sys
import tempfile
from concurrent.futures import ThreadPoolExecutor

FORMATS = ("--darcs-1", "--darcs-2")
# How long a call may take, in seconds.
SECONDS = 300


def bundle(*dates, context=()):
    """The text of a bundle with a patch of each date, and where in the text each date begins."""
    text, places = b"New patches:\n\n", []
    for number, date in enumerate(dates):
        text += b"[%d\np**" % number
        places.append(len(text))
        text += date + b"] addfile ./f%d\n" % number
    text += b"\nContext:\n\n" + b"".join(b"[c%d\np**%s] \n" % (number, date) for number, date in enumerate(context))
    return text, places


def unescaped(text):
    """The bytes that are written as Python does."""
    return codecs.escape_decode(text.encode())[0]


def escaped(date):
    return repr(date)[2:-1]


class Darcs:
    """Empty repositories in both formats, to try a bundle in copies of them."""

    def __init__(self, work):
        self.work = work
        self.env = dict(os.environ, TZ=os.environ.get("TZ", "UTC"), LC_ALL="C.UTF-8", HOME=work, EMAIL="a <a@example.org>", NO_COLOR="1")
        for kind in FORMATS:
            folder = os.path.join(work, kind)
            os.mkdir(folder)
            self.call(folder, "init", kind, check=True)

    def call(self, folder, *words, text=b"", check=False):
        return subprocess.run(("darcs", *words), cwd=folder, input=text, env=self.env, capture_output=True, timeout=SECONDS, check=check)

    def trial(self, kind, text):
        """What darcs says where it ends, and nothing where it takes the bundle and shows its patches."""
        with tempfile.TemporaryDirectory(dir=self.work) as folder:
            shutil.copytree(os.path.join(self.work, kind, "_darcs"), os.path.join(folder, "_darcs"))
            for words in (("apply",), ("log",), ("log", "--xml-output")):
                ran = self.call(folder, *words, text=text if words[0] == "apply" else b"")
                if ran.returncode != 0:
                    return "%s: %s" % (" ".join(words), escaped(ran.stderr.replace(b"\n", b" ")))
        return ""

    def faults(self, date):
        """What darcs says to this date in each format."""
        text, _ = bundle(date)
        return [self.trial(kind, text) for kind in FORMATS]


def main():
    dates = [unescaped(date) for date in sys.argv[1:] or sys.stdin.read().split("\n")[:-1]]
    with tempfile.TemporaryDirectory() as work, ThreadPoolExecutor(4) as pool:
        for date, faults in zip(dates, pool.map(Darcs(work).faults, dates)):
            fault = next(filter(None, faults), "")
            alike = "" if len(set(map(bool, faults))) == 1 else " (the formats differ)"
            print("%s %s%s%s" % ("ends" if fault else "reads", escaped(date), alike, fault and "\n    " + fault[:200]))


if __name__ == "__main__":
    main()
