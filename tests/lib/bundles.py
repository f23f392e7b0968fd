"""Bundles and patches as text."""
import hashlib

DATE = "20240101000000"
HEADING, CONTEXT = "New patches:\n\n", "\nContext:\n\n"
# A bundle of no patches.
NOTHING = (HEADING + CONTEXT).encode()


def info(name, author="p", date=DATE):
    """What stands before a patch, and in a context."""
    return "[%s\n%s**%s] " % (name, author, date)


def hash_of(name, author="p", date=DATE):
    """The hash by which darcs names a patch without a log."""
    return hashlib.sha1(("%s%s%sf" % (name, author, date)).encode()).hexdigest()


def context_of(infos):
    return "".join(it + "\n" for it in infos)


def patch(name, primitives, needs=(), author="p"):
    """A patch of these primitives, which names these others; as `dm` prints it."""
    needed = "<\n%s> " % context_of(info(it, author) for it in needs) if needs else ""
    return info(name, author) + needed + (primitives[0] if len(primitives) == 1 else "{\n%s}\n" % "".join(primitives))


def joined(patches, context=(), author="p"):
    """The text of a bundle of these patches, over patches of these names, the last first."""
    return HEADING + "".join(patches) + CONTEXT + context_of(info(it, author) for it in context)


def bundle(patches, context=(), author="p"):
    """The same as bytes."""
    return joined(patches, context, author).encode()


def hunk(path, line, old, new):
    """A hunk that puts lines in the place of others."""
    return "hunk %s %d\n%s%s" % (path, line, "".join("-%s\n" % it for it in old), "".join("+%s\n" % it for it in new))


def new_file(path, lines):
    """The primitives that add a file with these lines."""
    return ["addfile %s\n" % path] + ([hunk(path, 1, (), lines)] if lines else [])


def folders(numbers, author="p"):
    """A patch for each number, which makes a folder."""
    return [patch("d%d" % it, ["adddir ./d%d\n" % it], author=author) for it in numbers]


def escaped(path):
    """A path as a bundle has it."""
    return "".join("\\%d\\" % ord(it) if it in "\t\n\v\f\r \\" else it for it in path)


def with_hash(text, patches):
    """A bundle with the hash of its patches behind it, as a darcs-2 repository keeps them."""
    # Where there is no patch, darcs hashes a newline.
    return text + b"Patch bundle hash:\n%s\n" % hashlib.sha1(patches or b"\n").hexdigest().encode()
