"""Texts that were made to change the base of a mirror, and files that say what it is.

The base of a mirror that begins at a tag is fixed when the mirror is made. Whatever is taken later, honest bundles still have to be taken, and
what was taken can be obliterated. The expected values come from that and from docs/FORMAT.md.
"""
import hashlib
import os
import re

from bundles import bundle, context_of, info, patch
from counting import holds
from program import Place
from trees import read, write

UNIT = 4096
FIELDS = b"dm journal fields\nkinds %s\nchecksum sha256\nbase counted\n\n"
WRITTEN = FIELDS.replace(b"sha256", b"lanes")
OLD = {2: b"dm journal 2\n", 4: b"dm journal 4\n"}


def files(name, count):
    return ["addfile ./%s%d\n" % (name, k) for k in range(count)]


def padded(part):
    return part + bytes(-len(part) % UNIT)


def journal(header, *entries):
    """A whole file, as docs/FORMAT.md has it."""
    out, before = padded(header), b""
    for entry in entries:
        before = hashlib.sha256(before + entry).digest()
        out += padded(b"\xff") + padded(len(entry).to_bytes(8, "little") + before + entry)
    return out + padded(b"\0")


def entries_of(text, header):
    """The entries of a file with this header."""
    at, found = len(padded(header)), []
    while text[at]:
        at += UNIT
        long = int.from_bytes(text[at : at + 8], "little")
        found.append(text[at + 40 : at + 40 + long])
        at += len(padded(text[at : at + 40 + long]))
    return found


def counted(base, text):
    return b"\3" + base.to_bytes(8, "little") + text


ONE, TWO, TAG, EVIL, HONEST = "One", "Two", "TAG 1.0", "TAG evil", "Honest"
# The beginning of a mirror at the tag, as a whole repository.
BEGUN = bundle([patch(ONE, []), patch(TWO, [], [ONE]), patch(TAG, ["addfile ./list\n", "hunk ./list 1\n+first\n"], [TWO])])
UNKNOWN = b'dm: the journal has a field that this dm doesn\'t know: "%s"\n'
OTHER = b"dm: cannot open new.dm: the journal was written by another version of dm\n"


class Bases(Place):
    def says(self, what, words, wanted, text=b""):
        holds("%s: %s" % (what, " ".join(words)), self.dm(*words, text=text)[:2], wanted)

    def takes(self, what, mirror, text, verdict=b"taken 1\n"):
        self.says(what, ("apply", "--mirror", mirror, "--quiet"), (0 if verdict[:5] == b"taken" else 1, verdict), text)

    def at_a_tag(self, mirror, *words):
        os.makedirs(self.path("tree"), exist_ok=True)
        write(self.path("tree", "list"), text=b"first")
        write(self.path("names"), text=("\nContext:\n\n" + context_of(map(info, (TAG, TWO, ONE)))).encode())
        made = self.dm("init", "--mirror", mirror, "--names", "names", *words, "tree")
        holds("init %s" % mirror, made, (0, b"mirror %s: 3 patches\n" % mirror.encode(), b'dm: the mirror begins at "TAG 1.0"\n'))

    def works_on(self, what, mirror, last):
        """Who rests on the tag is answered, and what came can go again, be undone, and be sent."""
        self.takes(what, mirror, bundle([patch(HONEST, ["hunk ./list 1\n-first\n+honest\n"])], [TAG]))
        status, out, said = self.dm("log", "--mirror", mirror, "--last", "1")
        holds("%s: it begins at the tag" % what, (status, b'begins at "TAG 1.0" (3 names)' in said), (0, True))
        sent = self.dm("send", "--mirror", mirror, "--to", "names")
        holds("%s: what is sent rests on the tag alone" % what, (sent[0], context_in(sent[1])), (0, [TAG]))
        less = self.dm("send", "--mirror", mirror, "--minimal", "--to", "names")
        holds("%s: so it does if it is minimal" % what, (less[0], context_in(less[1])), (0, [TAG]))
        for name in HONEST, last:
            undone = self.dm("rollback", "--mirror", mirror, "--author", "A <a@x>", "--date", "20260302120000", name)
            holds("%s: rollback %s" % (what, name), (undone[0], TAG in context_in(undone[1])), (0, True))
        for name in TAG, TWO:
            found = self.dm("obliterate", "--mirror", mirror, name)
            holds("%s: obliterate %s" % (what, name), (*found[:2], found[2].splitlines()[:1]), (1, b"", [b"refused before-base"]))
        gone = self.dm("obliterate", "--mirror", mirror, "--with-dependents", last)
        holds("%s: obliterate %s" % (what, last), (gone[0], last.encode() in gone[1], TAG in context_in(gone[1])), (0, True, True))
        self.takes(what, mirror, gone[1])

    def moved_behind_the_tag(self):
        for kinds in ("--six-kinds",), ():
            mirror = "tag%d.dm" % len(kinds)
            what = "a tag behind the tag" + " ".join(kinds)
            self.at_a_tag(mirror, *kinds)
            header = WRITTEN % (b"six" if kinds else b"all")
            entries = entries_of(read(self.path(mirror)), header)
            holds("%s: the file" % what, (read(self.path(mirror))[: UNIT], len(entries), entries[0][:9]), (padded(header), 1, counted(3, b"")))
            self.takes(what, mirror, bundle([patch(EVIL, files("evil", 10000), [TAG])], [TAG]))
            self.works_on(what, mirror, EVIL)
            # A checkpoint keeps the number.
            for k in range(20):
                self.takes(what, mirror, bundle([patch("More %d" % k, ["addfile ./more%d\n" % k])], [TAG]))
            entries = entries_of(read(self.path(mirror)), header)
            holds("%s: a checkpoint was made" % what, (len(entries) < 18, entries[0][:9]), (True, counted(3, b"")))
            self.takes(what, mirror, bundle([patch("TAG again", ["addfile ./again\n"], [TAG])], [TAG]))
            self.takes(what, mirror, bundle([patch("Last", ["addfile ./last\n"])], [TAG]))

    def moved_into_a_mirror_without_a_base(self):
        self.dm("init", "--mirror", "one.dm")
        self.takes("second in a mirror", "one.dm", bundle([patch("First", ["addfile ./a\n"])]))
        self.takes("second in a mirror", "one.dm", bundle([patch(EVIL, files("evil", 10), ["First"])], ["First"]))
        self.takes("second in a mirror", "one.dm", bundle([patch(HONEST, ["addfile ./b\n"])]))
        self.says("second in a mirror", ("obliterate", "--mirror", "one.dm", "--with-dependents", "--dry-run", "--count"), (2, b""))
        holds("second in a mirror: it goes", self.dm("obliterate", "--mirror", "one.dm", "TAG evil")[0], 0)
        self.dm("init", "--mirror", "none.dm")
        self.takes("first in a mirror", "none.dm", BEGUN, b"taken 3\n")
        self.takes("first in a mirror", "none.dm", bundle([patch(HONEST, ["addfile ./b\n"])]))
        holds("first in a mirror: its first patch goes", self.dm("obliterate", "--mirror", "none.dm", "--with-dependents", "One")[0], 0)

    def a_base_by_form(self):
        """A text of the form of a base is a repository like any other."""
        write(self.path("form.dpatch"), text=BEGUN)
        write(self.path("more.dpatch"), text=bundle([patch(HONEST, ["addfile ./b\n"])]))
        for words in (), ("--quiet",):
            found = self.dm("apply", "--base", "form.dpatch", *words, "more.dpatch")
            holds("a base by form %s" % (words,), (found[0], found[1][:8]), (0, b"taken 1\n"))
        self.dm("init", "--mirror", "form.dm", "--base", "form.dpatch")
        self.takes("a mirror of such a base", "form.dm", read(self.path("more.dpatch")))

    def older_files(self):
        """The first entry of a file of before alone decides, once; the next checkpoint writes the number."""
        evil = b"\0" + bundle([patch(EVIL, files("evil", 10000), [TAG])], [TAG])
        for version, header in OLD.items():
            mirror, what = "old%d.dm" % version, "a file of version %d" % version
            write(self.path(mirror), text=journal(header, b"\2" + BEGUN, evil))
            self.works_on(what, mirror, EVIL)
            fields = WRITTEN % (b"all" if version == 4 else b"six")
            holds("%s: what is taken out writes it anew" % what, read(self.path(mirror))[:UNIT], padded(fields))
            holds("%s: and the number" % what, entries_of(read(self.path(mirror)), fields)[0][:9], counted(3, b""))
            write(self.path(mirror), text=journal(header, b"\0" + BEGUN))
            self.takes("%s that began with a bundle" % what, mirror, bundle([patch(HONEST, ["addfile ./b\n"])]))

    def bad_numbers(self):
        six = FIELDS % b"six"
        for base in 0, 3:
            write(self.path("good.dm"), text=journal(six, counted(base, BEGUN)))
            self.says("a base of %d" % base, ("log", "--mirror", "good.dm", "--count"), (0, b"3\n"))
        for base in 1, 2, 4, 2**32, 2**64 - 1:
            write(self.path("bad.dm"), text=journal(six, counted(base, BEGUN)))
            found = self.dm("log", "--mirror", "bad.dm")
            holds("a base of %d" % base, found, (2, b"", b"dm: cannot open bad.dm: the entry 0 of the journal isn't taken\n"))
        write(self.path("bad.dm"), text=journal(six, b"\3\0\0\0"))
        holds("a number that is cut", self.dm("log", "--mirror", "bad.dm")[0], 2)
        write(self.path("bad.dm"), text=journal(six, b"\0" + BEGUN, counted(3, BEGUN)))
        holds("a whole repository behind a bundle", self.dm("log", "--mirror", "bad.dm")[0], 2)

    def unknown_fields(self):
        known = FIELDS % b"six"
        for old, new, told in (
            (b"checksum sha256", b"checksum sha512", b"checksum sha512"),
            (b"kinds six", b"kinds ten", b"kinds ten"),
            (b"base counted\n", b"base counted\nconflicts kept\n", b"conflicts kept"),
            (b"base counted", b"base \x1b[2J", b"base \\x1b[2J"),
        ):
            write(self.path("new.dm"), text=journal(known.replace(old, new)))
            holds("a header with %r" % new, self.dm("log", "--mirror", "new.dm"), (2, b"", UNKNOWN % told + OTHER))
        for header in known.replace(b"fields", b"9"), b"dm journal 3\n":
            write(self.path("new.dm"), text=journal(header))
            holds("an unknown version", self.dm("log", "--mirror", "new.dm"), (2, b"", OTHER))

    def turned(self):
        """No turned byte of the header is read as another one."""
        for header in FIELDS % b"six", FIELDS % b"all", WRITTEN % b"six", WRITTEN % b"all":
            whole = journal(header)
            wrong = []
            for at in range(len(header)):
                for turn in 1, 2, 4, 8, 16, 32, 64, 128:
                    write(self.path("turned.dm"), text=whole[:at] + bytes([whole[at] ^ turn]) + whole[at + 1 :])
                    if self.dm("log", "--mirror", "turned.dm", "--count")[0] != 2:
                        wrong.append((at, turn))
            holds("turned bits of %r" % header, wrong, [])

    def run(self):
        self.moved_behind_the_tag()
        self.moved_into_a_mirror_without_a_base()
        self.a_base_by_form()
        self.older_files()
        self.bad_numbers()
        self.unknown_fields()
        self.turned()


def context_in(text):
    """The names in the context of a bundle."""
    context = text.rpartition(b"\nContext:\n")[2].partition(b"\nPatch bundle hash:")[0]
    return re.findall(r"\[([^\[\]\n]*)\n[^\[\]]*\] ", context.decode())
