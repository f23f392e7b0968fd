"""The library of Pasturepast for Python: reads and merges the patch bundles of Darcs, in memory.

    import dm

    with dm.Repo() as repo:
        verdict = repo.take(open("base.bundle", "rb").read())
        print(verdict, repo.listing().decode())

A text is bytes, or a bytearray, memoryview or mmap; a copy is made only of one of these that can't be written. Nobody changes a text
during the call. Calls of one `Repo` wait for one another, those of several run side by side.

The library is the file that `DM_LIBRARY` names, or libdm.so.0 beside this file, or in lib/ of the folder that both are installed
below, or where the system finds it.
"""
from __future__ import annotations

import ctypes
import ctypes.util
import enum
import mmap
import os
import threading
from collections.abc import Callable, Iterator
from dataclasses import dataclass, replace
from typing import Any, ClassVar, Union

__all__ = [
    "Error", "Fault", "Kind", "Kinds", "Limits", "NoSuchFile", "Policy", "Refusal", "Rejected", "Repo", "Verdict", "check", "version",
]

Text = Union[bytes, bytearray, memoryview, mmap.mmap]


class Status(enum.IntEnum):
    """What a call of the library answers."""

    OK = 0
    SHORT = 1
    NO_MEMORY = 2
    NONE = 3
    NO = 4
    BAD_NUMBER = 5
    NO_REPO = 6


class Kinds(enum.IntEnum):
    """The kinds of primitives that are read: six, or all with binary, replace and changepref."""

    SIX = 0
    ALL = 1


class Policy(enum.IntEnum):
    """What becomes of a bundle with a conflict: it is refused, or what conflicts is skipped."""

    REFUSE = 0
    SKIP = 1


class Kind(enum.IntEnum):
    """What became of a text."""

    TAKEN = 0
    TAKEN_SOME = 1
    NOTHING_NEW = 2
    MALFORMED = 3
    REFUSED = 4


class Fault(enum.IntEnum):
    """What is wrong with a text."""

    TOO_LARGE = 0
    NO_NEW_PATCHES = 1
    BAD_INFO = 2
    INVERTED = 3
    BAD_DEPENDS = 4
    BAD_PATCH = 5
    UNSUPPORTED = 6
    BAD_PATH = 7
    BAD_NUMBER = 8
    EMPTY_HUNK = 9
    UNCLOSED = 10
    NO_CONTEXT = 11
    DOUBLED = 12
    TOO_MANY = 13
    NO_MEMORY = 14
    BAD_HEX = 15
    BAD_PREFERENCE = 16
    BAD_TOKENS = 17


class Refusal(enum.IntEnum):
    """Why a bundle isn't taken."""

    MISSING_CONTEXT = 0
    MISSING_DEPENDENCY = 1
    CONTEXT_DEPENDS = 2
    HELD_DEPENDS = 3
    DOES_NOT_FIT = 4
    CONFLICTS = 5
    FULL = 6
    NO_MEMORY = 7


class _Limits(ctypes.Structure):
    _fields_ = [
        ("bytes", ctypes.c_size_t), ("patches", ctypes.c_size_t), ("prims", ctypes.c_size_t), ("replaces", ctypes.c_size_t),
        ("kinds", ctypes.c_uint32),
    ]


class _Verdict(ctypes.Structure):
    _fields_ = [
        ("kind", ctypes.c_uint32), ("why", ctypes.c_uint32), ("taken", ctypes.c_size_t), ("skipped", ctypes.c_size_t),
        ("at", ctypes.c_size_t), ("place", ctypes.c_size_t), ("other", ctypes.c_size_t),
    ]


class _Repo(ctypes.Structure):
    _fields_ = [("holds", ctypes.c_bool), ("inner", ctypes.c_void_p)]


@dataclass(frozen=True)
class Limits:
    """How much of a text is read: the most bytes, new patches, primitives of a patch, and replaces; and which kinds of primitives."""

    bytes: int
    patches: int
    prims: int
    replaces: int
    """The most replaces of a bundle. A replace walks over a whole file."""
    kinds: Kinds = Kinds.SIX

    STANDARD: ClassVar[Limits]
    """For a text of somebody else: 4 MiB, 1,000 patches, 500 replaces."""
    OWN: ClassVar[Limits]
    """For a repository of one's own: 1 GiB, 100,000 patches, each of whose primitives may be a replace."""

    def with_kinds(self, kinds: Kinds) -> Limits:
        """These limits, but with other kinds."""
        return replace(self, kinds=kinds)

    def _plain(self) -> _Limits:
        numbers = (self.bytes, self.patches, self.prims, self.replaces)
        if not all(0 <= it <= _MOST for it in numbers):
            raise ValueError("a limit is a number that fits a size_t")
        return _Limits(*numbers, Kinds(self.kinds))


_MOST = ctypes.c_size_t(-1).value
Limits.STANDARD = Limits(4_194_304, 1000, 10_000, 500)
Limits.OWN = Limits(1_073_741_824, 100_000, 1_000_000, 100_000_000_000)


@dataclass(frozen=True)
class Verdict:
    """What became of a text. Fields that a kind doesn't name are 0, and places count from 0."""

    kind: Kind
    why: Fault | Refusal | None = None
    """`MALFORMED`: what is wrong with the text; `REFUSED`: why the bundle isn't taken."""
    taken: int = 0
    skipped: int = 0
    at: int = 0
    """`MALFORMED`: the byte."""
    place: int = 0
    """`REFUSED`: the places, in the order in which the line has them."""
    other: int = 0

    @property
    def accepted(self) -> bool:
        """Whether the repository has all of the bundle's patches now."""
        return self.kind in (Kind.TAKEN, Kind.NOTHING_NEW)

    @property
    def status(self) -> int:
        """The exit status of `dm` for this verdict."""
        return 0 if self.accepted else 1

    def line(self) -> bytes:
        """The line that `dm` prints, with its newline."""
        return _text(_library().dm_verdict_line, ctypes.byref(self._plain()), room=64)

    def __str__(self) -> str:
        return self.line().decode().rstrip("\n")

    def _plain(self) -> _Verdict:
        return _Verdict(self.kind, self.why or 0, self.taken, self.skipped, self.at, self.place, self.other)

    @classmethod
    def _of(cls, it: _Verdict) -> Verdict:
        kind = Kind(it.kind)
        why = Fault(it.why) if kind == Kind.MALFORMED else Refusal(it.why) if kind == Kind.REFUSED else None
        return cls(kind, why, it.taken, it.skipped, it.at, it.place, it.other)


class Error(Exception):
    """An answer of the library that is none of a call's values."""


class Rejected(Error):
    """The answer is no: `verdict` tells why."""

    def __init__(self, verdict: Verdict) -> None:
        super().__init__(str(verdict))
        self.verdict = verdict


class NoSuchFile(Error, KeyError):
    """The repository's tree has no file at this path."""

    def __str__(self) -> str:
        return f"no file is at {self.args[0]!r}"


class _None(Exception):
    """The status NONE, which each call says in its own words."""


def _raise(status: int) -> None:
    if status == Status.NO_MEMORY:
        raise MemoryError("the library had no memory")
    if status == Status.NONE:
        raise _None
    if status == Status.BAD_NUMBER:
        raise ValueError("a number that the library doesn't know")
    if status == Status.NO_REPO:
        raise ValueError("the repository is closed")
    if status != Status.OK:
        raise Error(f"the library answered {status}")


def _files() -> Iterator[str]:
    """Where the library may be, the first first."""
    named = os.environ.get("DM_LIBRARY")
    if named:
        yield named
        return
    here = os.path.dirname(os.path.realpath(__file__))
    for folder in (here, os.path.join(here, "..", "out"), os.path.join(here, "..", "..", "lib"), os.path.join(here, "..", "..", "..", "lib")):
        if os.path.exists(os.path.join(folder, "libdm.so.0")):
            yield os.path.join(folder, "libdm.so.0")
    found = ctypes.util.find_library("dm")
    if found:
        yield found
    yield "libdm.so.0"


_lock = threading.Lock()
_loaded: ctypes.CDLL | None = None


def _library() -> ctypes.CDLL:
    """The library, which is loaded by the first call."""
    global _loaded
    if _loaded is None:
        with _lock:
            if _loaded is None:
                _loaded = _declared(ctypes.CDLL(next(_files())))
    return _loaded


def _declared(library: ctypes.CDLL) -> ctypes.CDLL:
    size, number, pointer = ctypes.c_size_t, ctypes.c_uint32, ctypes.c_void_p
    repo, limits, verdict = ctypes.POINTER(_Repo), ctypes.POINTER(_Limits), ctypes.POINTER(_Verdict)
    text, out = [pointer, size], [pointer, size, ctypes.POINTER(size)]
    for name, words in {
        "dm_check": [*text, limits, *out, verdict],
        "dm_verdict_line": [verdict, *out],
        "dm_repo_new": [repo],
        "dm_repo_free": [repo],
        "dm_repo_take": [repo, *text, limits, number, verdict],
        "dm_repo_len": [repo, ctypes.POINTER(size)],
        "dm_repo_name": [repo, size, *out],
        "dm_repo_context": [repo, *out],
        "dm_repo_listing": [repo, *out],
        "dm_repo_file": [repo, *text, *out],
        "dm_repo_bundle": [repo, *out],
        "dm_repo_send": [repo, *text, limits, ctypes.c_bool, *out, verdict],
        "dm_repo_explain": [repo, *text, limits, number, verdict, *out],
        "dm_version": out,
    }.items():
        call = getattr(library, name)
        call.argtypes, call.restype = words, ctypes.c_uint32
    return library


def _lent(text: Text) -> tuple[Any, int]:
    """A pointer to a text, which is never null, and its length. Only what can't be written is copied, unless it is bytes."""
    if isinstance(text, str):
        raise TypeError("a text is bytes")
    if not isinstance(text, bytes):
        view = memoryview(text).cast("B")
        if view.readonly or not view.nbytes:
            text = view.tobytes()
        else:
            return (ctypes.c_char * view.nbytes).from_buffer(view), view.nbytes
    return ctypes.cast(ctypes.c_char_p(text), ctypes.c_void_p), len(text)


def _text(call: Callable[..., int], *words: Any, room: int = 4096, verdict: _Verdict | None = None) -> bytes:
    """The text that a call gives: called once more where the room was too small. `verdict` is its last parameter, if it has one."""
    needed = ctypes.c_size_t()
    last = () if verdict is None else (ctypes.byref(verdict),)
    while True:
        out = (ctypes.c_char * room)()
        status = call(*words, out, room, ctypes.byref(needed), *last)
        if status != Status.SHORT:
            break
        room = needed.value
    given = ctypes.string_at(out, needed.value) if status in (Status.OK, Status.NO) else b""
    if status == Status.NO and verdict is not None:
        raise Rejected(Verdict._of(verdict))
    _raise(status)
    return given


def check(text: Text, limits: Limits = Limits.STANDARD) -> bytes:
    """The canonical text of a bundle, as `dm check` prints it. Raises `Rejected` where the text is none."""
    pointer, size = _lent(text)
    return _text(_library().dm_check, pointer, size, limits._plain(), room=max(4096, size + size // 8), verdict=_Verdict())


def version() -> str:
    """The version, as `dm --version` has it behind the name."""
    return _text(_library().dm_version, room=64).decode()


class Repo:
    """A repository in memory, empty at first. Close it, or use it in a `with`; what isn't closed is freed with the object."""

    def __init__(self) -> None:
        self._it = _Repo(False, None)
        self._lock = threading.Lock()
        _raise(_library().dm_repo_new(ctypes.byref(self._it)))

    def __enter__(self) -> Repo:
        return self

    def __exit__(self, *_: object) -> None:
        self.close()

    def __del__(self) -> None:
        if "_lock" in self.__dict__ and _loaded is not None:
            self.close()

    def __copy__(self) -> Repo:
        raise TypeError("a repository isn't copied")

    def __deepcopy__(self, _: object) -> Repo:
        raise TypeError("a repository isn't copied")

    def __reduce__(self) -> str:
        raise TypeError("a repository isn't pickled; its bundle can be")

    def close(self) -> None:
        """Frees the repository. Later calls raise `ValueError`, but for this one."""
        with self._lock:
            _library().dm_repo_free(ctypes.byref(self._it))

    def take(self, text: Text, limits: Limits = Limits.STANDARD, policy: Policy = Policy.REFUSE) -> Verdict:
        """Takes a bundle. One that isn't accepted, or not in part, leaves the repository as it was."""
        pointer, size = _lent(text)
        verdict = _Verdict()
        with self._lock:
            status = _library().dm_repo_take(ctypes.byref(self._it), pointer, size, limits._plain(), policy, ctypes.byref(verdict))
        if status != Status.NO:
            _raise(status)
        return Verdict._of(verdict)

    def __len__(self) -> int:
        """How many patches it has."""
        count = ctypes.c_size_t()
        with self._lock:
            _raise(_library().dm_repo_len(ctypes.byref(self._it), ctypes.byref(count)))
        return count.value

    def __bool__(self) -> bool:
        """True, also where it has no patch."""
        return True

    def name(self, place: int) -> bytes:
        """The patch info at this place; the oldest is at 0. Raises `IndexError`."""
        if not 0 <= place <= _MOST:
            raise IndexError(place)
        try:
            return self._say("dm_repo_name", place, room=256)
        except _None:
            raise IndexError(place) from None

    def names(self) -> list[bytes]:
        """The patch infos, the oldest first."""
        return [self.name(place) for place in range(len(self))]

    def context(self) -> bytes:
        """Its names, as `dm log --context` prints them."""
        return self._say("dm_repo_context")

    def listing(self) -> bytes:
        """Its tree, as `dm apply` lists it."""
        return self._say("dm_repo_listing")

    def file(self, path: str | bytes) -> bytes:
        """A file's content. The path is as the listing has it, `./a/b`. Raises `NoSuchFile`, which is a `KeyError`."""
        where = os.fsencode(path) if isinstance(path, str) else path
        try:
            return self._say("dm_repo_file", *_lent(where))
        except _None:
            raise NoSuchFile(path) from None

    def bundle(self) -> bytes:
        """All its patches as one bundle, as `dm apply --bundle` prints it."""
        return self._say("dm_repo_bundle", room=65536)

    def send(self, theirs: Text, limits: Limits = Limits.OWN, minimal: bool = False) -> bytes | None:
        """The bundle, with its hash, for somebody who tells these names, by a bundle or a context; None where they have all.

        `minimal`: its context names only what the patches need. Raises `Rejected`.
        """
        try:
            return self._say("dm_repo_send", *_lent(theirs), limits._plain(), minimal, room=65536, verdict=_Verdict())
        except _None:
            return None

    def explain(self, text: Text, verdict: Verdict, limits: Limits = Limits.STANDARD, policy: Policy = Policy.REFUSE) -> str:
        """What `--explain` says of the verdict that `take` gave of this text just now; of one of `check`, in any repository.

        It is empty where there is nothing to explain. Why patches were skipped isn't told.
        """
        try:
            said = self._say("dm_repo_explain", *_lent(text), limits._plain(), policy, ctypes.byref(verdict._plain()))
        except _None:
            return ""
        return said.decode(errors="replace")

    def _say(self, name: str, *words: Any, room: int = 4096, verdict: _Verdict | None = None) -> bytes:
        call = getattr(_library(), name)
        with self._lock:
            return _text(call, ctypes.byref(self._it), *words, room=room, verdict=verdict)
