"""Large texts, repositories and trees, whose lines look like source code."""
import os
import subprocess
from functools import partial

import bundles
from bundles import context_of

AUTHOR = "somebody@example.org"
# How many patches a bundle of a grown repository has, how many bundles come after it is built, and how many directories there are.
MANY, MORE, DIRECTORIES = 1000, 100, 100

patch_info = partial(bundles.info, author=AUTHOR)
bundle = partial(bundles.bundle, author=AUTHOR)


def patch(name, prims):
    """A named patch of these primitives' texts."""
    return "".join([patch_info(name), "{\n", *prims, "}\n"])


def source_line(number):
    """A line as source code has it, some 60 bytes long."""
    return "    let value_%05d = table.look_up(%d).unwrap_or_default();" % (number, number * 7)


def add_file(path, lines):
    """The primitives that add a file with so many lines."""
    return ["addfile %s\n" % path, "hunk %s 1\n" % path] + ["+" + source_line(n) + "\n" for n in range(lines)]


def one_line_by_two(path, number, line):
    """The hunk that replaces a line, which has this number when the hunk is applied, by two."""
    return "hunk %s %d\n-%s\n+%s // changed\n+    // and a second line\n" % (path, number, source_line(line), source_line(line))


def spread_hunk(place, n):
    """The hunk number n of those that stand ten lines apart, each with one line more than it found."""
    return one_line_by_two("./code", 10 * n + place + 1 + n, 10 * n + place)


def many_context_patch_infos(count):
    text = ["New patches:\n\n[a\nb**20240101000000] adddir ./d\n\nContext:\n\n"]
    text.extend("[%06d\nb**2024] \n" % n for n in range(count))
    return "".join(text).encode()


def many_dependencies(count):
    text = ["New patches:\n\n[a\nb**20240101000000] <\n"]
    text.extend("[%06d\nb**2024] \n" % n for n in range(count))
    text.append("> adddir ./d\n\nContext:\n\n")
    return "".join(text).encode()


def name_of(number):
    return "patch %06d" % number


def in_many_files(count):
    """Patches of which each adds a file of five lines, in one of a hundred directories; the first adds those."""
    files = [patch(name_of(n), add_file("./d%d/file_%06d" % (n % DIRECTORIES, n), 5)) for n in range(1, count)]
    return [patch(name_of(0), ["adddir ./d%d\n" % n for n in range(DIRECTORIES)])] + files


# Repositories that grow by bundles of a thousand patches.


def added(name, number, dependencies=()):
    """A patch that adds a file, in one of a hundred directories."""
    names = "<\n" + context_of(map(patch_info, dependencies)) + "> " if dependencies else ""
    return "%s%saddfile ./d%d/%s\n" % (patch_info(name), names, number % DIRECTORIES, name)


def tag(name, dependencies):
    return "%s<\n%s> {\n}\n" % (patch_info(name), context_of(map(patch_info, dependencies)))


def tagged(count):
    """The texts of a repository of so many patches, and the name of the tag of all."""
    texts, last = [], None
    for start in range(0, count, MANY):
        names = ["p%d" % number for number in range(start, start + MANY - 1)]
        patches = [added(name, start + place) for place, name in enumerate(names)]
        if last is None:
            names[0] = "first"
            patches[0] = patch_info("first") + "{\n" + "".join("adddir ./d%d\n" % number for number in range(DIRECTORIES)) + "}\n"
        new = "tag%d" % start
        patches.append(tag(new, names + ([last] if last else [])))
        texts.append(bundle(patches, [last] if last else []))
        last = new
    return texts, last


def more(folder, kind, last, count):
    """The bundles of one patch each that come last."""
    names = ["first"] if kind == "first" else [last]
    dependencies = ["p%d" % number for number in range(1, min(count, 1000) - 1)] if kind == "dependencies" else ()
    return [folder.keep(bundle([added("more%d" % number, number, dependencies)], names)) for number in range(MORE)]


# Two replaces by two sets, and two lines of three bytes: past both each line gets as many as a hunk may have that passes a replace.
GROWING = [("ax.", "x", "a" + ".a" * 127), ("az", "a", "z" * 255)], ("x-x", "x+x")


def past_replaces(path, words, lines, count):
    """A base of two files in one of which words are replaced, and a patch of so many hunks that exchange two lines of the first."""
    held = ["replace %s [%s] %s %s\n" % (path, *it) for it in words]
    base = bundle([patch("shared", ["addfile ./a\n", "addfile ./b\n"]), patch("held", held)])
    hunks = ["hunk ./a 1\n-%s\n+%s\n" % (lines[at % 2], lines[1 - at % 2]) for at in range(count - 1)]
    return [base, bundle([patch("new", ["hunk ./a 1\n+%s\n" % lines[0]] + hunks)], ["shared"])]


# Trees.


def make_tree(folder, count, size, directories=200):
    """Files of this size in so many directories, and how many bytes they have."""
    for number in range(directories):
        os.makedirs(os.path.join(folder, "d%d" % number))
    text = "".join(source_line(number) + "\n" for number in range(size // 64)).encode()
    text += b"x" * (size - len(text) - 8)
    for number in range(count):
        with open(os.path.join(folder, "d%d" % (number % directories), "file_%06d" % number), "wb") as file:
            file.write(text + b"%07d\n" % number)
    return count * size


def darcs(*words, folder):
    env = dict(os.environ, EMAIL="Ann <ann@example.org>")
    subprocess.run(["darcs", *words], cwd=folder, env=env, stdin=subprocess.DEVNULL, stdout=subprocess.DEVNULL, check=True)
