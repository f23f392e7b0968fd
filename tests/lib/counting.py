"""Counts the checks that hold, and prints those that don't, with the name of the suite."""
import os
import sys
import threading

SUITE = "tests/" + os.path.basename(os.path.dirname(os.path.realpath(sys.argv[0])))

counts = {True: 0, False: 0}
# How many cases of each kind there were.
seen = {}
lock = threading.RLock()


def tell(text):
    """Prints a line with the name of the suite."""
    with lock:
        print("%s: %s" % (SUITE, text), flush=True)


def holds(what, found, wanted=True):
    """Counts whether the answer is the wanted one, and returns it."""
    with lock:
        counts[found == wanted] += 1
        if found != wanted:
            tell("%s: %.900r, and not %.900r" % (what, found, wanted))
    return found == wanted


def is_so(what, found):
    """Counts whether something is so; a line says what isn't."""
    with lock:
        counts[bool(found)] += 1
        if not found:
            tell(what)
    return bool(found)


def sees(kind, count=1):
    """Counts a case of this kind."""
    with lock:
        seen[kind] = seen.get(kind, 0) + count


def tell_seen(what):
    """The kinds of cases that there were."""
    tell("%s: %s" % (what, ", ".join("%d %s" % (seen[it], it) for it in sorted(seen))))


def unless_broken(what, call, *words):
    """Calls it; that it breaks off is counted too."""
    try:
        return call(*words)
    except Exception as error:  # pylint: disable=broad-except
        return holds("%s: it broke off" % what, repr(error), None)


def finish():
    """Prints the counts, and ends. A suite that counted nothing has failed."""
    print("%d passed, %d failed" % (counts[True], counts[False]), flush=True)
    sys.exit(1 if counts[False] or not counts[True] else 0)


def leave(why):
    """Ends where nothing can be run."""
    tell(why)
    print("0 passed, 0 failed")
    sys.exit(0)
