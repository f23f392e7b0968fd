"""The parts of the suite that compare the library with the sources, and with the cases of tests/cli."""
import math
import os
import re
import shutil
import subprocess
import tempfile

from counting import holds
from program import TOP
from trees import read_if_there

CASES = os.path.join(TOP, "tests", "cli")
OPTIONS = {"--all-kinds", "--skip", "--bundle", "--quiet", "--explain"}
FILES = {"--base", "--repository"}


def read(*path):
    return (read_if_there(*path) if os.path.isfile(os.path.join(*path)) else None) or b""


# Numbers.


def source(path):
    return read(TOP, path).decode()


def variants(path, enum):
    """The variants of an enum of the sources, by the numbers that dm_c has for them or else in their order, as C writes them."""
    body = re.search(r"pub enum %s \{\n(.*?)\n\}" % enum, source(path), re.S)[1]
    names = re.findall(r"^    ([A-Z]\w*)", body, re.M)
    told = {name: int(number) for name, number in re.findall(r"\b%s::(\w+) => (\d+)," % enum, source("crates/dm_c/src/numbers.rt"))}
    names.sort(key=lambda name: told.get(name, 0))
    return ["_".join(re.findall("[A-Z][a-z]*", name)).upper() for name in names]


def limits(name):
    """The numbers of a constant of the limits."""
    text = source("crates/dm_named/src/limits.rt")
    body = re.search(r"pub const %s: Limits = Limits \{(.*?)\};" % name, text, re.S)[1]
    found = dict(re.findall(r"(\w+): ([^,]+),", body))
    return [number_of(found[it]) for it in ("bytes", "patches", "prims", "replaces")]


def number_of(text):
    """The number of a product of numbers and of the standard limit of primitives."""
    parts = (limits("STANDARD")[2] if "STANDARD.prims" in it else int(it.strip().replace("_", "")) for it in text.split("*"))
    return math.prod(parts)


def numbers():
    import dm

    header = source("bindings/c/dm.h")
    rust = source("bindings/rust/src/numbers.rs")
    named = {name: int(number) for name, number in re.findall(r"^#define DM_([A-Z_]+) (\d+)u", header, re.M)}
    for path, enum, prefix, in_python in (
        ("crates/dm_named/src/fault.rt", "FaultKind", "FAULT_", dm.Fault),
        ("crates/dm_repo/src/refusal.rt", "Refusal", "REFUSAL_", dm.Refusal),
        ("crates/dm_repo/src/policy.rt", "Policy", "", dm.Policy),
        ("crates/dm_named/src/limits.rt", "Kinds", "KINDS_", dm.Kinds),
        ("crates/dm_scratch/src/verdict.rt", "Verdict", "", dm.Kind),
    ):
        wanted = variants(path, enum)
        holds(f"dm.h: {enum}", [named.get(prefix + it) for it in wanted], list(range(len(wanted))))
        holds(f"dm.h: {enum}: how many", sum(name.startswith(prefix) for name in named), len(wanted)) if prefix else None
        holds(f"dm.py: {enum}", [(it.name, it.value) for it in in_python], [(name, at) for at, name in enumerate(wanted)])
        told = re.search(r"pub enum \w+ \{[^}]*?\}", rust[rust.index(f"The numbers of `{enum}`"):])[0]
        holds(f"numbers.rs: {enum}", [it.upper() for it in re.findall(r"^    ([A-Za-z]+) = \d+", told, re.M)], [it.replace("_", "") for it in wanted])
    statuses = re.findall(r"^#define DM_([A-Z_]+) \d+u +/\* ", header.partition("typedef uint32_t dm_status;")[2].partition("dm_limits")[0], re.M)
    holds("dm.py: statuses", [it.name for it in dm.Status], statuses)
    for name, in_python in (("STANDARD", dm.Limits.STANDARD), ("OWN", dm.Limits.OWN)):
        told = re.search(r"#define DM_LIMITS_%s \{(\d+), (\d+), (\d+), (\d+), DM_KINDS_SIX\}" % name, header)
        holds(f"dm.h: the limits {name}", [int(it) for it in told.groups()], limits(name))
        holds(f"dm.py: the limits {name}", [in_python.bytes, in_python.patches, in_python.prims, in_python.replaces], limits(name))
        told = re.search(r"const %s: Limits =\s+Limits \{([^}]*), kinds: Kinds::Six \}" % name, source("bindings/rust/src/lib.rs"))[1]
        holds(f"lib.rs: the limits {name}", [number_of(it) for it in re.findall(r": ([\d_]+)", told)], limits(name))


# The cases of tests/cli.


class Case:
    """A case that the library can answer: of check or apply, of bundles that are there, without a hash or a mirror."""

    def __init__(self, name, words):
        self.name, self.command, self.options, self.named, self.bundles = name, words[0], set(), {}, []
        words = [part for word in words[1:] for part in (word.split("=", 1) if word.partition("=")[0] in FILES else [word])]
        self.is_for_us = self.command in ("check", "apply")
        while words:
            word = words.pop(0)
            if word in FILES and words:
                self.named[word] = words.pop(0)
            elif word in OPTIONS:
                self.options.add(word)
            elif word.startswith("-") and word != "-":
                self.is_for_us = False
            else:
                self.bundles.append(word)
        self.folder = os.path.join(CASES, name)
        self.output, self.errors = read(self.folder, "output"), read(self.folder, "errors")
        self.status = int(read(self.folder, "status") or b"0")
        self.is_for_us = self.is_for_us and (self.status < 2 or self.errors.startswith(b"dm: base ") and bool(self.named))

    def lay(self, folder):
        """Puts the files of the case into a folder, and its input."""
        os.makedirs(os.path.join(folder, "files"))
        for part in ("input", "files"):
            path = os.path.join(self.folder, part)
            if os.path.isdir(path):
                shutil.copytree(path, os.path.join(folder, part), dirs_exist_ok=True)
            elif os.path.exists(path):
                shutil.copy(path, os.path.join(folder, part))
        for line in read(self.folder, "borrowed").decode().splitlines():
            part, path = line.split(" ", 1)
            os.makedirs(os.path.dirname(os.path.join(folder, part)), exist_ok=True)
            shutil.copy(os.path.join(TOP, path), os.path.join(folder, part))


def cases():
    """The cases, each in a folder of its own."""
    for name in sorted(os.listdir(CASES)):
        words = read(CASES, name, "words").decode(errors="surrogateescape").splitlines()
        case = Case(name, words) if words else None
        if case and case.is_for_us:
            with tempfile.TemporaryDirectory() as folder:
                case.lay(folder)
                yield case, folder


def by_c(program):
    for case, folder in cases():
        words = [case.command, *sorted(case.options - {"--explain"}), *(it for pair in case.named.items() for it in pair), *case.bundles]
        ran = subprocess.run([program, *words], input=read(folder, "input"), capture_output=True, cwd=os.path.join(folder, "files"), check=False)
        errors = case.errors.splitlines(True)[0] if case.status == 2 else b""
        holds(f"{case.name}, by C", (ran.returncode, ran.stdout, ran.stderr), (case.status, case.output, errors))


def plain(errors):
    """An explanation of the program without what the library doesn't tell: of the hash, and why patches were skipped."""
    errors = re.sub(rb"(?m)^The hash at byte .*\n", b"", errors)
    if b"Skipped:\n" not in errors:
        return errors
    skipped = b"Skipped, since they conflict, or can't do without one that does:\n"
    return re.sub(rb"(?m)^    .*\n", b"", errors.replace(b"Skipped:\n", skipped))


def by_python():
    import dm

    for case, folder in cases():
        kinds = dm.Kinds.ALL if "--all-kinds" in case.options else dm.Kinds.SIX
        limits_of = {"--base": dm.Limits.STANDARD.with_kinds(kinds), "--repository": dm.Limits.OWN.with_kinds(kinds)}

        def text(name):
            return read(folder, "input") if name == "-" else read(folder, "files", name)

        said = {}
        try:
            found = (checks if case.command == "check" else applies)(dm, case, text, limits_of, said)
        except (dm.Error, MemoryError, ValueError) as error:
            found = repr(error)
        holds(f"{case.name}, by Python", found, (case.status, case.output))
        if "--explain" in case.options and len(said) == 1:
            wanted = case.errors.partition(b"\n")[2] if case.status == 2 else case.errors
            holds(f"{case.name}, its explanation", *(plain(it) for it in (*said.values(), wanted)))


def checks(dm, case, text, limits_of, said):
    bundle = text((case.bundles or ["-"])[0])
    try:
        return 0, dm.check(bundle, limits_of["--base"])
    except dm.Rejected as no:
        with dm.Repo() as repo:
            said[0] = repo.explain(bundle, no.verdict, limits_of["--base"]).encode()
        return 1, no.verdict.line()


def applies(dm, case, text, limits_of, said):
    policy = dm.Policy.SKIP if "--skip" in case.options else dm.Policy.REFUSE
    with dm.Repo() as repo:
        for option, name in case.named.items():
            base = text(name)
            verdict = repo.take(base, limits_of[option])
            if not verdict.accepted:
                said[0] = repo.explain(base, verdict, limits_of[option]).encode()
                return (2, b"") if b"dm: base " + verdict.line() == case.errors.splitlines(True)[0] else (2, verdict.line())
        status, lines = 0, []
        for at, name in enumerate(case.bundles or ["-"]):
            bundle = text(name)
            verdict = repo.take(bundle, limits_of["--base"], policy)
            said[at] = repo.explain(bundle, verdict, limits_of["--base"], policy).encode()
            lines.append(verdict.line())
            status = max(status, verdict.status)
        if "--quiet" not in case.options:
            lines.append(repo.bundle() if "--bundle" in case.options else repo.listing())
        return status, b"".join(lines)
