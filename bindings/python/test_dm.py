"""Tests of dm.py: `python3 -m unittest` in this folder."""
import copy
import mmap
import os
import pathlib
import re
import subprocess
import sys
import tempfile
import threading
import unittest
from dataclasses import replace
from unittest import mock

import dm
import hook

EXAMPLES = pathlib.Path(__file__).resolve().parent.parent.parent / "examples"
FIRST = (EXAMPLES / "first.bundle").read_bytes()
BASE = (EXAMPLES / "walk-through" / "base.bundle").read_bytes()
CONFLICTS = (EXAMPLES / "walk-through" / "conflicts.bundle").read_bytes()
ALL_KINDS = (EXAMPLES / "all-kinds.dpatch").read_bytes()
WIDER = re.search(rb"(?m)^(binary|replace|changepref) ", ALL_KINDS).start()
ALL = dm.Limits.STANDARD.with_kinds(dm.Kinds.ALL)


def replacing(*words):
    """A bundle of a file with the line `x y`, and of these replaces in it."""
    lines = b"".join(b"replace ./a %s\n" % it for it in words)
    return b"New patches:\n\n[a\np**20240101000000] {\naddfile ./a\nhunk ./a 1\n+x y\n%s}\n\nContext:\n\n" % lines


class Checks(unittest.TestCase):
    def test_a_bundle(self):
        self.assertEqual(dm.check(FIRST), FIRST)

    def test_what_is_none(self):
        with self.assertRaises(dm.Rejected) as told:
            dm.check(b"hello")
        self.assertEqual(told.exception.verdict, dm.Verdict(dm.Kind.MALFORMED, dm.Fault.NO_NEW_PATCHES, at=5))
        self.assertEqual(str(told.exception), "malformed no-new-patches 5")

    def test_an_empty_text(self):
        for text in (b"", bytearray(), memoryview(b"")):
            with self.assertRaises(dm.Rejected) as told:
                dm.check(text)
            self.assertEqual(told.exception.verdict.at, 0)

    def test_other_objects_with_bytes(self):
        with tempfile.TemporaryFile() as file:
            file.write(FIRST)
            file.flush()
            for access in (mmap.ACCESS_READ, mmap.ACCESS_COPY):
                with mmap.mmap(file.fileno(), 0, access=access) as mapped:
                    self.assertEqual(dm.check(mapped), FIRST)
        for text in (bytearray(FIRST), memoryview(FIRST), memoryview(bytearray(FIRST))):
            self.assertEqual(dm.check(text), FIRST)

    def test_no_bytes(self):
        for text in (FIRST.decode(), None, 7, [70]):
            self.assertRaises(TypeError, dm.check, text)

    def test_limits(self):
        few = dm.Limits(len(FIRST) - 1, 1, 2, 0)
        with self.assertRaises(dm.Rejected) as told:
            dm.check(FIRST, few)
        self.assertEqual(told.exception.verdict.why, dm.Fault.TOO_LARGE)
        for numbers in ((-1, 1, 1, 1), (1 << 64, 1, 1, 1), (1, 1, 1, -1), (1, 1, 1, 1, 2)):
            self.assertRaises(ValueError, dm.check, FIRST, dm.Limits(*numbers))

    def test_kinds(self):
        with self.assertRaises(dm.Rejected) as told:
            dm.check(ALL_KINDS)
        self.assertEqual(told.exception.verdict, dm.Verdict(dm.Kind.MALFORMED, dm.Fault.UNSUPPORTED, at=WIDER))
        self.assertIn(b"\nbinary ./logo.png\n", dm.check(ALL_KINDS, ALL))

    def test_replaces(self):
        two = replacing(b"[a-z] x z", b"[a-z] y x")
        self.assertEqual(dm.check(two, ALL), two)
        for text, limits, why in (
            (two, dm.Limits.STANDARD, dm.Fault.UNSUPPORTED),
            (two, replace(ALL, replaces=1), dm.Fault.TOO_MANY),
            (replacing(b"[a-z] x Z"), ALL, dm.Fault.BAD_TOKENS),
        ):
            with self.assertRaises(dm.Rejected) as told:
                dm.check(text, limits)
            self.assertEqual(told.exception.verdict.why, why)
        self.assertEqual(dm.check(two, replace(ALL, replaces=2)), two)

    def test_a_text_past_the_first_room(self):
        text = b"New patches:\n\n[a\np**20240101000000] hunk ./a 1\n%s\nContext:\n\n" % (b"+x\n" * 100000)
        self.assertEqual(dm.check(text), text)

    def test_version(self):
        self.assertRegex(dm.version(), r"^\d+\.\d+\.\d+$")


class Repositories(unittest.TestCase):
    def setUp(self):
        self.repo = dm.Repo()
        self.addCleanup(self.repo.close)

    def test_an_empty_one(self):
        self.assertEqual((len(self.repo), self.repo.names(), self.repo.listing()), (0, [], b""))
        self.assertTrue(self.repo)
        self.assertEqual(self.repo.context(), b"\nContext:\n\n")
        self.assertRaises(IndexError, self.repo.name, 0)
        self.assertRaises(IndexError, self.repo.name, -1)
        self.assertRaises(IndexError, self.repo.name, 1 << 70)

    def test_taking(self):
        self.assertEqual(self.repo.take(FIRST), dm.Verdict(dm.Kind.TAKEN, taken=1))
        self.assertEqual(len(self.repo), 1)
        self.assertEqual(self.repo.name(0).rstrip(), b"[a\np**20240101000000]")
        self.assertEqual(self.repo.listing(), b"file ./a 2\n")
        self.assertEqual((self.repo.file("./a"), self.repo.file(b"./a")), (b"x\n", b"x\n"))
        self.assertEqual(self.repo.bundle(), FIRST)
        verdict = self.repo.take(FIRST)
        self.assertEqual((verdict.kind, verdict.accepted, verdict.status), (dm.Kind.NOTHING_NEW, True, 0))

    def test_a_replace(self):
        self.assertEqual(self.repo.take(replacing(b"[a-z] x z", b"[a-z] y x"), ALL).taken, 1)
        self.assertEqual(self.repo.file("./a"), b"z x\n")

    def test_no_file(self):
        self.repo.take(FIRST)
        for path in ("./b", "", "a", "./a/b", b"./\xff"):
            with self.assertRaises(dm.NoSuchFile) as told:
                self.repo.file(path)
            self.assertIsInstance(told.exception, KeyError)
            self.assertIn(repr(path), str(told.exception))

    def test_a_conflict(self):
        self.repo.take(BASE)
        before = self.repo.bundle()
        verdict = self.repo.take(CONFLICTS)
        self.assertEqual(verdict, dm.Verdict(dm.Kind.REFUSED, dm.Refusal.CONFLICTS, place=1, other=1))
        self.assertEqual((str(verdict), verdict.line(), verdict.status), ("refused conflicts 1 1", b"refused conflicts 1 1\n", 1))
        self.assertEqual(self.repo.bundle(), before)
        self.assertIn("conflicts with the held patch:", self.repo.explain(CONFLICTS, verdict))
        skipped = self.repo.take(CONFLICTS, policy=dm.Policy.SKIP)
        self.assertEqual((skipped.kind, skipped.taken, skipped.skipped), (dm.Kind.TAKEN_SOME, 1, 1))
        self.assertEqual(len(self.repo), 4)

    def test_an_explanation_of_check(self):
        with self.assertRaises(dm.Rejected) as told:
            dm.check(b"hello")
        self.assertIn("New patches:", self.repo.explain(b"hello", told.exception.verdict))

    def test_sending(self):
        self.repo.take(BASE)
        sent = self.repo.send(b"Context:\n\n")
        self.assertIn(b"\nPatch bundle hash:\n", sent)
        with dm.Repo() as other:
            self.assertEqual(other.take(sent).taken, 3)
            self.assertEqual(other.listing(), self.repo.listing())
        self.assertIsNone(self.repo.send(self.repo.context()))
        some = self.repo.send(b"Context:\n\n" + self.repo.name(0) + b"\n", minimal=True)
        self.assertIn(b"New patches:", some)
        with self.assertRaises(dm.Rejected) as told:
            self.repo.send(b"Context:\n\n[a\nx")
        self.assertEqual(told.exception.verdict.why, dm.Fault.BAD_INFO)

    def test_bad_numbers(self):
        self.assertRaises(ValueError, self.repo.take, FIRST, dm.Limits.STANDARD, 2)
        self.assertRaises(ValueError, dm.Verdict(7).line)
        self.assertEqual(len(self.repo), 0)

    def test_closed(self):
        self.repo.take(FIRST)
        self.repo.close()
        self.repo.close()
        for call in (self.repo.listing, self.repo.bundle, self.repo.names, self.repo.__len__, lambda: self.repo.take(FIRST)):
            self.assertRaises(ValueError, call)

    def test_no_copy(self):
        for call in (copy.copy, copy.deepcopy):
            self.assertRaises(TypeError, call, self.repo)

    def test_threads(self):
        verdicts = []

        def take():
            for _ in range(20):
                with dm.Repo() as own:
                    verdicts.append((own.take(BASE).kind, own.take(FIRST).kind))
                verdicts.append(self.repo.take(FIRST).kind)

        threads = [threading.Thread(target=take) for _ in range(8)]
        for it in threads:
            it.start()
        for it in threads:
            it.join()
        self.assertEqual(verdicts.count((dm.Kind.TAKEN, dm.Kind.TAKEN)), 160)
        self.assertEqual((verdicts.count(dm.Kind.TAKEN), verdicts.count(dm.Kind.NOTHING_NEW)), (1, 159))


# The hash of another bundle.
HASHED = b"\nPatch bundle hash:\n%s\n" % (40 * b"0")


@unittest.skipUnless(os.environ.get("DM"), "DM=PROGRAM names the program that the hook calls")
class Hooks(unittest.TestCase):
    def test_a_mirror(self):
        with tempfile.TemporaryDirectory() as folder:
            mirror, first = os.path.join(folder, "m.dm"), str(EXAMPLES / "first.bundle")
            base = str(EXAMPLES / "walk-through" / "base.bundle")
            words = "init", "--mirror", mirror, "--six-kinds", "--base", base
            subprocess.run([os.environ["DM"], *words], check=True, stdout=subprocess.PIPE)
            before = pathlib.Path(mirror).read_bytes()
            wrong = os.path.join(folder, "wrong.bundle")
            pathlib.Path(wrong).write_bytes(FIRST + HASHED)
            for bundle, line, status, said in (
                (first, b"taken 1\n", 0, b"Taken:"),
                (base, b"nothing new\n", 0, b""),
                (str(EXAMPLES / "walk-through" / "conflicts.bundle"), b"refused conflicts 1 1\n", 1, b"conflicts with"),
                (str(EXAMPLES / "all-kinds.dpatch"), b"malformed unsupported %d\n" % WIDER, 1, b"dm upgrade"),
                (wrong, b"malformed wrong-hash", 1, b"hash"),
            ):
                ran = subprocess.run([sys.executable, hook.__file__, mirror, bundle], capture_output=True, check=False)
                self.assertEqual((ran.returncode, ran.stdout[: len(line)]), (status, line), ran.stderr)
                self.assertIn(said, ran.stderr)
                asked = [os.environ["DM"], "apply", "--mirror", mirror, "--dry-run", "--quiet", bundle]
                self.assertEqual(ran.stdout, subprocess.run(asked, capture_output=True, check=False).stdout)
            self.assertEqual(pathlib.Path(mirror).read_bytes(), before)
            subprocess.run([os.environ["DM"], "init", "--mirror", mirror + "2"], check=True, stdout=subprocess.PIPE)
            ran = subprocess.run([sys.executable, hook.__file__, mirror + "2"], input=ALL_KINDS, capture_output=True, check=False)
            self.assertEqual((ran.returncode, ran.stdout), (1, b"refused missing-context 0\n"), ran.stderr)

    def test_no_answer(self):
        for mirror in "none", os.devnull:
            ran = subprocess.run([sys.executable, hook.__file__, mirror], stdin=subprocess.DEVNULL, capture_output=True, check=False)
            self.assertEqual((ran.returncode, ran.stdout), (2, b""))


class Finding(unittest.TestCase):
    def test_the_named_file(self):
        with mock.patch.dict(os.environ, DM_LIBRARY="/none/libdm.so.0"):
            self.assertEqual(next(dm._files()), "/none/libdm.so.0")


if __name__ == "__main__":
    unittest.main()
