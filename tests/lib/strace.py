"""Processes under strace, which kills them at a call or makes it fail."""
import os
import re
import signal
import subprocess

# Calls that a kill or an error shows nothing of: those for memory.
MEMORY_CALLS = ("mmap", "munmap", "madvise", "mprotect", "mremap", "brk", "clock_gettime")


def works():
    """Whether there is an strace that works."""
    words = ["strace", "-o", "/dev/null", "-e", "inject=close:delay_enter=0:when=1", "true"]
    try:
        return subprocess.run(words, stderr=subprocess.DEVNULL, check=False).returncode == 0
    except OSError:
        return False


def traced(folder, words, how="", **more):
    """Runs words in a folder, with a call killed or refused as `how` says: the status. What is printed and said is in the files `out`
    and `err` there, and the calls, with the files that they are of, in `trace`."""
    inject = ["-e", "inject=" + how] if how else []
    with open(os.path.join(folder, "out"), "wb") as out, open(os.path.join(folder, "err"), "wb") as err:
        return subprocess.run(
            ["strace", "-f", "-y", "-q", "-o", "trace", *inject, *words],
            cwd=folder, stdin=subprocess.DEVNULL, stdout=out, stderr=err, check=False, **more
        ).returncode


def killed(status, trace):
    """Whether a call was killed."""
    return status in (-signal.SIGKILL, 128 + signal.SIGKILL) and b"killed by SIGKILL" in trace


def calls(trace, begins, only=None):
    """Each call of a trace, from the first line on that matches, and the how many it is of its name: only these, or all but those
    for memory."""
    found, many, on = [], {}, False
    for line in trace.decode(errors="replace").splitlines():
        line = re.sub(r"^\d+ +", "", line)
        call = re.match(r"[a-z0-9_]+(?=\()", line)
        name = call[0] if call else line.partition("(")[0]
        many[name] = many.get(name, 0) + 1
        on = on or re.search(begins, line) is not None
        if on and call and (name in only if only else name not in MEMORY_CALLS):
            found.append((name, many[name]))
    return found


def order(trace):
    """The calls of a trace that write or sync, each with the last name of its file; a new file has no number."""
    found = re.findall(r"^(?:\d+ +)?(pwrite64|write|fsync|fdatasync|rename)\w*\(\d*(?:<(.*?)>)?", trace.decode(errors="replace"), re.M)
    return [("%s %s" % (call, re.sub(r"\.\d+\.new$", ".new", os.path.basename(file)))).strip() for call, file in found]
