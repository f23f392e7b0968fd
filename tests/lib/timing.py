"""What benches measure: times, peaks of memory, and the rows of their tables. Times are processor times."""
import os
import resource
import subprocess
import sys
import tempfile
import time

from program import DM, TOP

# Each input is run so often, and more often where that takes less than the half second; only once where it takes over a minute.
RUNS = 3
MOST_RUNS = 20
SHORT = 0.5
LONG = 60
DARCS = ["darcs", "apply", "--all", "--quiet"]


def program():
    """The program itself, built: the script before it is not what is timed."""
    if "DM" not in os.environ:
        subprocess.run([os.path.join(TOP, "dm"), "--prove"], check=True, stdout=subprocess.DEVNULL)
    return DM


def spent():
    """The processor's seconds on all runs so far."""
    usage = resource.getrusage(resource.RUSAGE_CHILDREN)
    return usage.ru_utime + usage.ru_stime


def seconds(words, path=os.devnull, statuses=(0,)):
    """What a command takes that reads this file, and ends with one of these."""
    with open(path, "rb") as text:
        before = spent()
        status = subprocess.run(words, stdin=text, stdout=subprocess.DEVNULL, check=False).returncode
        after = spent()
    if status not in statuses:
        sys.exit("bench: %s ended with %d" % (" ".join(words), status))
    return after - before


def seconds_of_run(paths):
    """The seconds that one mirror costs that takes these bundles."""
    words = [DM, "run", "--mirrors", "2", "--bound", "8", *("ann=" + path for path in paths), "bob="]
    return min(seconds(words) for _ in range(3 if len(paths) < 50 else 1)) / 2


def measured(words, text, folder, statuses=(0,)):
    """The processor's seconds, and the peak memory in bytes as GNU time tells it, of one run, which ends with one of these."""
    told = os.path.join(folder, "told")
    with tempfile.TemporaryFile() as given, open(os.devnull, "wb") as nothing:
        given.write(text)
        given.seek(0)
        before = spent()
        status = subprocess.call(
            ["/usr/bin/time", "--quiet", "-o", told, "-f", "%M"] + words,
            stdin=given,
            stdout=nothing,
            stderr=nothing,
            cwd=folder,
        )
        seconds = spent() - before
    if status not in statuses:
        sys.exit("bench: %s ended with %d" % (" ".join(words), status))
    with open(told) as file:
        return seconds, int(file.read()) * 1024


def goes_on(times):
    """Whether another run is wanted after runs of these seconds."""
    few = len(times) < RUNS and sum(times) < LONG
    return few or (len(times) < MOST_RUNS and sum(times) < SHORT)


def best(words, text, prepare):
    """The least seconds and the least peak of some runs, each in a folder of its own."""
    results = []
    while goes_on([seconds for seconds, _ in results]):
        with tempfile.TemporaryDirectory() as folder:
            prepare(folder)
            results.append(measured(words, text, folder))
    return min(r[0] for r in results), min(r[1] for r in results)


def nothing_to_prepare(_folder):
    pass


def timed(words, text, folder):
    """The same, and the seconds by the clock between."""
    begun = time.monotonic()
    taken, peak = measured(words, text, folder)
    return taken, time.monotonic() - begun, peak


def empty_repository(folder):
    subprocess.run(["darcs", "init", "--quiet", "--darcs-1"], cwd=folder, check=True, stdout=subprocess.DEVNULL)


def print_row(*cells):
    print("| %s |" % " | ".join(cells), flush=True)


def print_head(*cells):
    print_row(*cells)
    print("|---" * len(cells) + "|", flush=True)


def cell(row):
    """Milliseconds of the processor, and those by the clock."""
    return "%.0f (%.0f)" % (1000 * row[0], 1000 * row[1])
