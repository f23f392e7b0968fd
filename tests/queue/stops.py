"""Messages that were made to stop the next one: each is followed by a sound one, which is answered within ten seconds."""
import os
import random
import shutil
import struct
import subprocess
import sys
import time

import pika

from counting import is_so
from lib import PATIENCE, RECIPE, Broker, Mirror, good, name_of
from program import DM

# So many seconds a sound bundle may wait; on a machine where processes wait for a processor, so many times as long.
SOON = 10
SECONDS = "1"
MIB = 1 << 20
# `dm`, and what a text might do to it some day; what may befall a machine, where a file of this name is beside it.
PROGRAM = """#!/bin/bash
text=/dev/stdin here=$(dirname "$(readlink -f "$0")")
[ ! -f "${{!#}}" ] || text=${{!#}}
says() {{ grep -aqx "$1" "$text"; }}
spin() {{ local end=$(($(date +%s) + $1)); while [ "$(date +%s)" -lt "$end" ]; do for k in {{1..9999}}; do :; done; done; }}
[ ! -e "$here/broken" ] || {{ echo 'dm: no memory' >&2; exit 2; }}
[ ! -e "$here/full" ] || set -- "$@" --full
[ ! -e "$here/slow" ] || for k in {{1..900000}}; do :; done
if says spin; then spin 1000; fi
if says sleep; then exec sleep 1000; fi
if says crash; then kill -SEGV $$; fi
if says eat; then echo 'dm: no memory' >&2; exit 2; fi
if says shout; then yes 'dm: what?' | head -c 100000000 >&2; exit 2; fi
if [ "${{!#}}" = --full ]; then set -- "${{@:1:$#-1}}"; exec prlimit --fsize=1 {dm} "$@"; fi
exec {dm} "$@"
"""


def short(data):
    return bytes([len(data)]) + data


def long(data):
    return struct.pack(">I", len(data)) + data


def header(kind, value, name=b"h"):
    return short(name) + kind + value


def headers(*entries):
    return struct.pack(">H", 1 << 13) + long(b"".join(entries))


def nested(depth, kind):
    """A value of tables or arrays in one another."""
    value = long(b"")
    for _ in range(depth):
        value = long(header(kind, value) if kind == b"F" else kind + value)
    return value


SIGNED = header(b"S", long(b"it"), b"signature")
# What RabbitMQ passes on.
PASSED = {
    "a time past all years": headers(header(b"T", struct.pack(">Q", 1 << 40))),
    "a time of ones": headers(header(b"T", b"\xff" * 8), SIGNED),
    "tables in tables": headers(header(b"F", nested(1000, b"F"))),
    "arrays in arrays": headers(header(b"A", nested(2000, b"A"))),
    "no UTF-8": headers(header(b"S", long(b"\xff\xfe"), b"\xff\xc3")),
    "a type that is no UTF-8": struct.pack(">H", 1 << 15) + short(b"\xff\xfe\xc3"),
    "a large decimal": headers(header(b"D", b"\xff\x7f\xff\xff\xff")),
    "headers that fill a frame": headers(header(b"S", long(b"x" * 16300))),
    "a signature that is a table": headers(header(b"F", nested(3, b"F"), b"signature")),
    "a count of deliveries": headers(header(b"F", nested(2, b"F"), b"x-delivery-count")),
    "a copy": headers(header(b"A", long(b"S" + long(b"north")), b"CC")),
    "a priority": struct.pack(">H", 1 << 11) + b"\xff",
}
# What it refuses; another broker may not.
HELD = {
    "an unknown type": headers(header(b"Z", b"abc"), SIGNED),
    "no type": short(b"h"),
    "a negative length": headers(header(b"S", b"\xff\xff\xff\xff")),
    "an array past the end": headers(header(b"A", b"\x7f\xff\xff\xff")),
    "a table past the end": struct.pack(">HI", 1 << 13, 0x7FFFFFFF) + SIGNED,
    "no number": headers(header(b"d", b"\x7f\xf8" + bytes(6))),
    "a cut number": headers(header(b"l", b"abc")),
    "flags that go on": b"\0\1" * 9 + b"\0\0",
    "nothing": b"",
    "deep tables": headers(header(b"F", nested(15000, b"F"))),
}


class Raw(pika.BasicProperties):
    """Properties of these bytes."""

    def __init__(self, encoded):
        super().__init__()
        self.bytes = encoded

    def encode(self):
        return [self.bytes]


def infos(count):
    return "".join("[%d\nx**20240101000000] \n" % number for number in range(count))


def dear(name, patches, files):
    """A bundle of so many patches of so many files: each of them has to pass all that the mirror has."""
    text = ""
    for patch in range(patches):
        added = "".join("addfile ./%s%d-%d\n" % (name, patch, number) for number in range(files))
        text += "[%s %d\nx@example.org**20240101000000] {\n%s}\n" % (name, patch, added)
    return ("New patches:\n\n%s\nContext:\n\n" % text).encode()


class Stops:
    """A broker that lets larger messages pass than ours does, and a mirror that has a second for a text."""

    def __init__(self, work):
        self.folder, self.number = os.path.join(work, "stops"), 0
        self.broker = Broker(work, "open")
        os.makedirs(self.broker.folder)
        os.mkdir(self.folder)
        with open(os.path.join(self.broker.folder, "broker.conf"), "w", encoding="ascii") as file:
            file.write("max_message_size = 8388608\nframe_max = 16384\n")
        self.program = self.path("dm")
        with open(self.program, "w", encoding="ascii") as file:
            file.write(PROGRAM.format(dm=DM))
        os.chmod(self.program, 0o755)
        self.broker.call("start")
        self.environment = dict(self.broker.environment, BROKERS=self.broker.url(), DM=self.program, DM_SECONDS=SECONDS)
        self.mirror = self.started("north")

    def path(self, name):
        return os.path.join(self.folder, name)

    def started(self, name, **more):
        mirror = Mirror(RECIPE, self.folder, dict(self.environment, **more), name, random.Random(1))
        if not self.waits(mirror, mirror.is_ready, PATIENCE):
            sys.exit("a mirror hasn't started")
        return mirror

    def waits(self, mirror, is_so, seconds):
        """Whether it is so within these seconds; a mirror that ends is started again."""
        until = time.monotonic() + seconds * max(1, os.getloadavg()[0] / os.cpu_count())
        while not is_so():
            if time.monotonic() > until:
                return False
            mirror.look()
            time.sleep(0.05)
        return True

    def channel(self):
        channel = pika.BlockingConnection(pika.URLParameters(self.broker.url())).channel()
        channel.confirm_delivery()
        return channel

    def publish(self, text, encoded=b"\0\0"):
        """Whether the broker keeps it."""
        try:
            channel = self.channel()
            channel.basic_publish("bundles", "", text, Raw(encoded), mandatory=True)
            channel.connection.close()
            return True
        except pika.exceptions.AMQPError:
            return False

    def sound(self):
        """Sends the next sound bundle, and returns its name."""
        path = self.path("sound")
        with open(path, "w", encoding="ascii") as file:
            file.write(good("ann", self.number))
        subprocess.run([os.path.join(RECIPE, "poster"), path], env=dict(self.environment, DM=DM), stdout=subprocess.DEVNULL, timeout=PATIENCE, check=True)
        return name_of(good("ann", self.number).encode())

    def goes_on(self, what):
        """The next sound bundle is taken soon. Where it isn't, the queue is emptied, so that each message is tried for itself."""
        name = self.sound()
        answered = self.waits(self.mirror, lambda: name in dict(self.mirror.lines()), SOON)
        found = dict(self.mirror.lines()).get(name)
        is_so("%s: the next is answered by %s: %s" % (what, found, self.told()), found == "taken 1")
        if answered:
            self.number += 1
            return
        self.mirror.kill(True)
        self.channel().queue_purge("north")
        self.mirror.start()

    def told(self):
        with open(self.mirror.errors, "rb") as errors:
            return errors.read()[-200:]

    def stops(self, what, text, verdict, encoded=b"\0\0"):
        """This message has this verdict, and the next one is answered."""
        is_so("%s: the broker doesn't keep it" % what, self.publish(text, encoded))
        name = name_of(text)
        self.waits(self.mirror, lambda: name in dict(self.mirror.lines()), 40)
        found = dict(self.mirror.lines()).get(name, "nothing")
        is_so("%s: it is answered by %s" % (what, found), found.startswith(verdict))
        self.goes_on(what)

    def why(self, text, folder="north.refused"):
        with open(self.path("%s/%s.why" % (folder, name_of(text))), "rb") as file:
            return file.read()

    def check_properties(self):
        for what, encoded in PASSED.items():
            self.stops(what, what.encode(), "malformed no-new-patches", encoded)
        for what, encoded in HELD.items():
            is_so("%s: the broker keeps it" % what, not self.publish(what.encode(), encoded))
        self.goes_on("what the broker refuses")
        # It goes without an answer, and with no letter to anybody.
        flags, death = struct.pack(">H", 1 << 13 | 1 << 8), header(b"A", long(b"F" + long(header(b"S", long(b"north"), b"queue"))), b"x-death")
        self.publish(b"it ends", flags + long(death) + short(b"0"))
        self.goes_on("an end with a death before it")

    def check_texts(self):
        self.stops("an empty text", b"", "malformed no-new-patches")
        self.stops("a text that is too large", b"x" * (4 * MIB + 1), "refused message too-large")
        is_so("a text that is too large is kept", not os.path.exists(self.path("north.refused/%s.bundle" % name_of(b"x" * (4 * MIB + 1)))))
        self.stops("a text of the most bytes", b"x" * 4 * MIB, "malformed no-new-patches")
        self.stops("a mirror's first bytes", b"dm journal 2\n" + bytes(100), ("malformed no-new-patches", "refused message no-answer"))
        with open(self.path("north.dm"), "rb") as file:
            self.stops("a mirror's file", file.read(), ("malformed no-new-patches", "refused message no-answer"))
        many = ("New patches:\n\n[a\nx**20240101000000] {\n}\n\nContext:\n\n" + infos(3_000)).encode()
        self.stops("a long context", many, "refused missing-context")
        is_so("its reason is long", len(self.why(many)) <= 1 << 16)
        self.stops("something to pass", dear("a", 1, 200), ("taken 1", "nothing new"))
        self.stops("a bundle that passes much", dear("b", 50, 1000), "refused message no-answer")
        for what in "spin", "sleep", "crash", "eat", "shout":
            self.stops(what, what.encode() + b"\n", "refused message no-answer")
        is_so("no reason is told", b"no memory" in self.why(b"eat\n"))

    def check_again(self):
        """What had no answer isn't tried again; and is, where its reason was removed."""
        since, before = time.monotonic(), len(self.mirror.lines())
        for _ in range(20):
            self.publish(b"sleep\n")
        self.waits(self.mirror, lambda: len(self.mirror.lines()) == before + 20, 100)
        is_so("20 copies take %d s" % (time.monotonic() - since), time.monotonic() - since < 100)
        is_so("a copy has another answer", {verdict for _, verdict in self.mirror.lines()[before:]} == {"refused message no-answer"})
        self.goes_on("20 copies")

    def flag(self, name):
        with open(self.path(name), "w", encoding="ascii"):
            pass

    def check_machine(self):
        """What is the machine's fault puts nothing aside: it comes again, and is answered once the machine is mended."""
        for flag in "broken", "full":
            self.flag(flag)
            name = self.sound()
            try:
                self.mirror.process.wait(PATIENCE)
            except subprocess.TimeoutExpired:
                pass
            is_so("%s: it goes on" % flag, self.mirror.process.poll() and name not in dict(self.mirror.lines()))
            os.remove(self.path(flag))
            self.waits(self.mirror, lambda name=name: name in dict(self.mirror.lines()), PATIENCE)
            is_so("%s: it isn't taken afterwards" % flag, dict(self.mirror.lines()).get(name) == "taken 1")
            self.number += 1
        self.flag("slow")
        name = self.sound()
        self.waits(self.mirror, lambda: name in dict(self.mirror.lines()), PATIENCE)
        is_so("a mirror that opens slowly takes nothing", dict(self.mirror.lines()).get(name) == "taken 1")
        self.number += 1
        os.remove(self.path("slow"))

    def check_first(self):
        """An operator sees what comes, and leaves it."""
        self.mirror.kill(True)
        self.publish(b"New\x1b[31m patches", PASSED["a time past all years"])
        for came_before in b"no", b"yes":
            done = subprocess.run([os.path.join(RECIPE, "first"), "north"], env=self.environment, capture_output=True, timeout=PATIENCE, check=False)
            is_so("first prints %s %s" % (done.stdout, done.stderr), done.stdout.startswith(b"came before: %s\nbytes: 16\n" % came_before)
                              and b"hT^@^@^A" in done.stdout and b"New^[[31m patches" in done.stdout)
        self.mirror.start()
        self.goes_on("first")
        time.sleep(1)  # until it has acknowledged the last one
        self.mirror.kill(True)
        done = subprocess.run([os.path.join(RECIPE, "first"), "north"], env=self.environment, capture_output=True, timeout=PATIENCE, check=False)
        is_so("first finds %s" % done.stdout, done.returncode == 1 and b"nothing comes" in done.stderr)

    def check_space(self):
        """Refused bundles take no more space than they may."""
        shutil.rmtree(self.path("north.refused"))
        self.mirror = self.started("north", KEEP="150000")
        texts = [b"%d" % number + b"x" * 60_000 for number in range(3)]
        for text in texts:
            self.stops("a refused text", text, "malformed no-new-patches")
        kept = [os.path.exists(self.path("north.refused/%s.bundle" % name_of(text))) for text in texts]
        is_so("of three texts are kept: %s" % kept, kept == [True, True, False])
        self.mirror.kill(True)


def check_reader():
    """No bytes are a fault of the reader of headers."""
    sys.path.insert(0, RECIPE)
    try:
        import headers as reader
    except ImportError:
        is_so("there is no reader of headers", False)
        return
    draw = random.Random(1)
    some = list(PASSED.values()) + list(HELD.values())
    for _ in range(20_000):
        encoded = bytearray(draw.choice(some)[:200])
        for _ in range(draw.randrange(4)):
            encoded[draw.randrange(len(encoded) + 1):draw.randrange(len(encoded) + 1)] = draw.randbytes(draw.randrange(4))
        some_headers = pika.BasicProperties().decode(bytes(encoded)).headers
        if not set(some_headers) <= {"signature"}:
            is_so("of %r it reads %s" % (encoded, some_headers), False)
    read = {what: pika.BasicProperties().decode(encoded).headers.get("signature") for what, encoded in {**PASSED, **HELD}.items()}
    is_so("it reads %s" % read, {what for what, found in read.items() if found == b"it"} == {"a time of ones", "a table past the end"}
                 and {found for found in read.values()} == {b"it", None})
    is_so("it reads no other", reader.table_of(headers(SIGNED)) == SIGNED)


def check(work):
    stops = Stops(work)
    stops.check_properties()
    stops.check_texts()
    stops.check_again()
    stops.check_machine()
    stops.check_first()
    stops.check_space()
    stops.broker.call("stop")
    check_reader()
