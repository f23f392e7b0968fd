"""Repositories of the real darcs that change at random, for scripts that compare `dm` with `darcs`."""
import os
import shutil
import subprocess
import sys


def darcs(folder, *words, wanted=(0,), typed=""):
    """What darcs prints."""
    run = subprocess.run(["darcs", *words], cwd=folder, input=typed.encode(), stdout=subprocess.PIPE, stderr=subprocess.STDOUT)
    if run.returncode not in wanted:
        sys.exit("darcs %s: %s" % (" ".join(words), run.stdout.decode()))
    return run.stdout.decode()


def record(folder, name):
    """One patch of all that changed; false where nothing did."""
    said = darcs(folder, "record", "--quiet", "--look-for-adds", "--ignore-times", "--all", "--name", name, wanted=(0, 1))
    return "No changes" not in said


def lines_of(path):
    with open(path, newline="\n", errors="surrogateescape") as file:
        return file.read().split("\n")[:-1]


def write(path, lines):
    with open(path, "w", newline="\n", errors="surrogateescape") as file:
        file.write("".join(line + "\n" for line in lines))


def files_of(folder):
    """The names of the files below the folder."""
    found = []
    for at, folders, names in os.walk(folder):
        folders[:] = [it for it in folders if it != "_darcs"]
        found += [os.path.relpath(os.path.join(at, it), folder) for it in names]
    return sorted(found)


def folders_of(folder):
    """The names of the folders in a repository, its own as an empty one."""
    found = [""]
    for at, folders, _ in os.walk(folder):
        folders[:] = [it for it in folders if it != "_darcs"]
        found += [os.path.relpath(os.path.join(at, it), folder) for it in folders]
    return sorted(found)


def place(rng, folder, name):
    """A new path of that name in some folder."""
    return os.path.join(rng.choice(folders_of(folder)), name)


def add_file(rng, folder, name):
    path = place(rng, folder, name)
    write(os.path.join(folder, path), ["%s %d" % (name, k) for k in range(rng.choice([0, 1, 6]))])
    darcs(folder, "add", "--quiet", path)


def add_folder(rng, folder, name):
    path = place(rng, folder, name)
    os.mkdir(os.path.join(folder, path))
    darcs(folder, "add", "--quiet", path)


def move(rng, folder, name):
    old = rng.choice(files_of(folder) + folders_of(folder)[1:])
    new = place(rng, folder, name)
    if not (new + "/").startswith(old + "/"):
        darcs(folder, "move", "--quiet", old, new)


def remove(rng, folder, _name):
    path = os.path.join(folder, rng.choice(files_of(folder) + folders_of(folder)[1:]))
    shutil.rmtree(path) if os.path.isdir(path) else os.remove(path)
    if not files_of(folder):
        write(os.path.join(folder, "last"), [])


def edit(rng, folder, name):
    path = os.path.join(folder, rng.choice(files_of(folder)))
    lines = lines_of(path)
    at = rng.randint(0, len(lines))
    lines[at : at + rng.choice([0, 1, 1, 2])] = ["%s %d" % (name, k) for k in range(rng.choice([0, 1, 1, 2]))]
    write(path, lines)


CHANGES = [edit] * 12 + [add_file] * 3 + [move] * 3 + [remove, add_folder]


def record_some(rng, folder, name):
    """A patch of some changes, which sometimes depends on others by name."""
    for number in range(rng.choice([1, 1, 2])):
        rng.choice(CHANGES)(rng, folder, name + rng.choice(["", "", "", " "]) + "abc"[number])
    if rng.random() < 0.25:
        words = ("--quiet", "--look-for-adds", "--ignore-times", "--all", "--name", name, "--ask-deps")
        darcs(folder, "record", *words, wanted=(0, 1, 2), typed="".join(rng.choice("yn") for _ in range(3)) + "d")
    record(folder, name)  # unless it is recorded


def go_on(rng, folder, prefix, count):
    """Up to so many patches, some of them tags."""
    for number in range(count):
        if rng.random() < 0.15:
            darcs(folder, "tag", "--quiet", "%s%d" % (prefix, number))
        else:
            record_some(rng, folder, "%s%d" % (prefix, number))
