"""A broker that lets nobody in except by TLS with a certificate, accounts, and a mirror with a keyring."""
import base64
import os
import random
import shutil
import subprocess
import sys
import time
import zlib

from counting import is_so
from lib import PATIENCE, RECIPE, Broker, Mirror, answers, good, name_of, whole
from program import DM

# What somebody tries with the account of a certificate: PATH WORD.., the broker in BROKERS. It prints what comes of it.
TRIED = """
import os, sys
sys.dont_write_bytecode = True
sys.path.insert(0, sys.argv[1])
os.environ["TLS"] = sys.argv[2]
import pika
from brokers import EXCHANGE, brokers
what, queue, signature = sys.argv[3:]
text = sys.stdin.buffer.read()
tries = {
    "publish": lambda: channel.basic_publish(EXCHANGE, "", text, pika.BasicProperties(headers={"signature": signature}), mandatory=True),
    "elsewhere": lambda: channel.basic_publish("", queue, text, mandatory=True),
    "get": lambda: channel.basic_get(queue),
    "purge": lambda: channel.queue_purge(queue),
    "delete": lambda: channel.queue_delete(queue),
    "bind": lambda: channel.queue_bind(queue, EXCHANGE),
    "unbind": lambda: channel.queue_unbind(queue, EXCHANGE),
    "queue": lambda: channel.queue_declare(queue),
    "remake": lambda: channel.exchange_declare(EXCHANGE, "direct"),
    "beside": lambda: channel.exchange_declare("other", "fanout"),
    "exchange": lambda: channel.exchange_delete(EXCHANGE),
}
try:
    found = brokers()
    if what == "password":
        for each in found:
            each.credentials = pika.PlainCredentials("guest", "guest")
    if what == "plain":
        found = [pika.URLParameters(os.environ["BROKERS"].replace("amqps", "amqp"))]
    channel = pika.BlockingConnection(found).channel()
    channel.confirm_delivery()
    tries.get(what, lambda: None)()
    print("done")
except pika.exceptions.AMQPError as fault:
    print(getattr(fault, "reply_code", type(fault).__name__))
"""
# What nobody may do with a queue, and with the exchange.
WITH_QUEUE = "elsewhere", "purge", "delete", "bind", "unbind"
WITH_EXCHANGE = "remake", "beside", "exchange"


class Signed:
    """A broker behind TLS, with the account `north` of a mirror, and `ann` and `eve` who send; `mallory` has no account."""

    def __init__(self, work):
        self.folder = os.path.join(work, "signed")
        os.mkdir(self.folder)
        self.broker = Broker(work, "secret")
        self.path("tls", True)
        self.certify("tls", "localhost", "ann", "eve", "north", "south", "mallory")
        self.path("others", True)
        self.certify("others", "ann")
        shutil.copy(self.path("tls/ca.pem"), self.path("others/ca.pem"))
        # One that ann has signed as if she were the authority.
        self.path("forged", True)
        for end in ".key", ".pem":
            shutil.copy(self.path("tls/ann" + end), self.path("forged/ca" + end))
        self.certify("forged", "north")
        with open(self.path("forged/north.pem"), "ab") as chain, open(self.path("tls/ann.pem"), "rb") as ann:
            chain.write(ann.read())
        shutil.copy(self.path("tls/ca.pem"), self.path("forged/ca.pem"))
        self.environment = dict(self.broker.environment, DM=DM, BROKERS=self.broker.url().replace("amqp:", "amqps:").replace("127.0.0.1", "localhost"),
                                TLS=self.path("tls/localhost"), GNUPGHOME=self.path("gnupg", True, 0o700))
        self.prints = {}
        for who in "ann", "eve", "bob":
            subprocess.run(["gpg", "--batch", "--quiet", "--passphrase", "", "--quick-gen-key", who, "ed25519", "sign", "never"], env=self.environment, check=True,
                           stderr=subprocess.DEVNULL)
            listed = subprocess.run(["gpg", "--with-colons", "--list-keys", who], env=self.environment, capture_output=True, check=True).stdout.decode()
            self.prints[who] = [line.split(":")[9] for line in listed.split("\n") if line.startswith("fpr")][0]
        with open(self.path("keyring"), "wb") as file:
            file.write(subprocess.run(["gpg", "--export", "ann", "bob"], env=self.environment, capture_output=True, check=True).stdout)
        with open(self.path("allow"), "w", encoding="ascii") as file:
            file.write("%s ./ann\n" % self.prints["ann"])

    def path(self, name, is_new=False, mode=0o755):
        path = os.path.join(self.folder, name)
        if is_new:
            os.mkdir(path, mode)
        return path

    def certify(self, *words):
        subprocess.run([os.path.join(RECIPE, "certify"), self.path(words[0]), *words[1:]], check=True)

    def strict(self):
        """Whether a strict reader takes each certificate."""
        words = ["openssl", "verify", "-x509_strict", "-CAfile", self.path("tls/ca.pem")]
        paths = [self.path("tls/%s.pem" % name) for name in ("localhost", "ann", "north")]
        return subprocess.run(words + paths, capture_output=True, check=False).returncode == 0

    def start(self):
        self.broker.environment["TLS"] = self.path("tls/localhost")
        self.broker.call("start")
        for name, what in ("ann", "poster"), ("eve", "poster"), ("north", "mirror"), ("south", "mirror"):
            words = [os.path.join(RECIPE, "broker"), "account", self.broker.folder, name, what]
            subprocess.run(words, env=self.broker.environment, timeout=PATIENCE, check=True, stdout=subprocess.DEVNULL)

    def mirror(self, name="north", **more):
        environment = dict(self.environment, TLS=self.path("tls/" + name), KEYRING=self.path("keyring"), **more)
        return Mirror(RECIPE, self.folder, environment, name, random.Random(1))

    def tries(self, who, what, text=b"", signature="", queue="north"):
        words = ["/usr/bin/python3", "-c", TRIED, RECIPE, self.path(who), what, queue, signature]
        done = subprocess.run(words, env=self.environment, input=text, capture_output=True, timeout=PATIENCE, check=False)
        return (done.stdout or done.stderr[-300:]).decode().strip()

    def signature(self, who, text):
        return subprocess.run(["gpg", "--batch", "--quiet", "-u", who, "--armor", "--detach-sign"], env=self.environment, input=text, capture_output=True, check=True).stdout.decode()

    def post(self, who, text, key):
        """Sends by `poster`, signed by a key."""
        path = self.path("posted")
        with open(path, "wb") as file:
            file.write(text)
        environment = dict(self.environment, TLS=self.path("tls/" + who), **({"SIGN": key} if key else {}))
        done = subprocess.run([os.path.join(RECIPE, "poster"), path], env=environment, capture_output=True, timeout=PATIENCE, check=False)
        return done.returncode, done.stderr.decode()


def bomb():
    """A signature of 836 bytes: compressed packets in one another, and in the last of them 16 GiB of packets that say nothing."""
    packets = b"\xca\x03PGP" * (1 << 18)
    for times in 16_000, 1, 1:
        part = zlib.compressobj(9, zlib.DEFLATED, -15)
        packed = part.compress(packets) + part.flush(zlib.Z_FULL_FLUSH)
        packets = b"\xa3\x01" + packed * times + zlib.compressobj(9, zlib.DEFLATED, -15).flush()
    return "-----BEGIN PGP SIGNATURE-----\n\n%s\n-----END PGP SIGNATURE-----\n" % base64.b64encode(packets).decode()


def check(work):
    signed = Signed(work)
    is_so("certificates aren't strict", signed.strict())
    signed.start()
    with open(signed.path("deny"), "w", encoding="ascii") as file:
        file.write("# an empty list is an error\n%040d\n" % 0)
    mirror = signed.mirror(ALLOW=signed.path("allow"), DENY=signed.path("deny"))
    until = time.monotonic() + PATIENCE
    while not mirror.is_ready():
        mirror.look()
        time.sleep(0.1)
        if time.monotonic() > until:
            sys.exit("the mirror doesn't get in")
    one, two, three = whole(good("ann", 0)), whole(good("bob", 0)), good("ann", 1).encode()
    wanted = []

    def sent(what, text, key, verdict, who="ann"):
        is_so("%s isn't sent" % what, signed.post(who, text, key) == (0, ""))
        wanted.append(verdict)

    def slipped(what, text, signature, verdict, who="ann"):
        is_so("%s isn't sent" % what, signed.tries("tls/" + who, "publish", text, signature) == "done")
        wanted.append(verdict)

    sent("what is signed", one, "ann", "taken 1")
    sent("what is signed, again", one, "ann", "nothing new")
    sent("what is signed, by another account", one, "ann", "nothing new", who="eve")
    sent("what is unsigned", one, None, "refused message unsigned")
    sent("an unknown key", one, "eve", "refused message signature")
    slipped("a signature of another text", two, signed.signature("ann", one), "refused message signature")
    slipped("a signature that is cut", one, signed.signature("ann", one)[:80], "refused message signature")
    slipped("two signatures", one, signed.signature("ann", one) + signed.signature("ann", one), "refused message signature")
    sent("a path that isn't allowed", two, "ann", "refused message not-allowed")
    sent("a key on no line", two, "bob", "refused message not-allowed")
    sent("no hash", three, "ann", "malformed no-hash")
    slipped("a signature that costs much", b"x", bomb(), "refused message signature")
    sent("what is signed, behind it", one, "ann", "nothing new")
    is_so("what is signed is answered otherwise: %s" % answers(mirror, len(wanted)),
                 all(found.startswith(due) for found, due in zip(answers(mirror, len(wanted)), wanted)) and len(mirror.lines()) == len(wanted))
    # What whoever may only send can't do, and who doesn't get in.
    for what in (*WITH_QUEUE, *WITH_EXCHANGE, "get", "queue"):
        found = signed.tries("tls/ann", what)
        is_so("ann can do this: %s: %s" % (what, found), found == "403")
    for who, what in ("tls/mallory", "publish"), ("others/ann", "publish"), ("forged/north", "get"), ("tls/ann", "password"), ("tls/ann", "plain"):
        found = signed.tries(who, what, one)
        is_so("%s gets in, %s: %s" % (who, what, found), found != "done" and "403" not in found)
    mirror.kill(True)
    for more in {"KEYRING": ""}, {"KEYRING": signed.path("keyring"), "ALLOW": ""}, {"ALLOW": signed.path("allow")}:
        done = subprocess.run([os.path.join(RECIPE, "mirror"), "north"], cwd=signed.folder, env=dict(signed.environment, TLS=signed.path("tls/north"), **more),
                              capture_output=True, timeout=PATIENCE, check=False)
        is_so("a mirror starts with %s" % more, b"name files" in done.stderr)
    check_again(signed, one, len(mirror.lines()))
    check_mirrors(signed, whole(good("zoe", 0)))
    signed.broker.call("stop")
    subprocess.run(["gpgconf", "--kill", "all"], env=signed.environment, check=False)


def check_again(signed, one, before):
    """A patch that was taken out comes back, where it isn't denied."""
    os.remove(signed.path("north.dm"))
    mirror = signed.mirror(DENY=signed.path("deny"))
    signed.post("ann", one, "ann")
    again = answers(mirror, before + 1)[before:]
    mirror.kill(True)
    logged = subprocess.run([DM, "log", "--mirror", signed.path("north.dm")], stdout=subprocess.PIPE, check=True).stdout.decode()
    os.remove(signed.path("north.dm"))
    with open(signed.path("deny"), "w", encoding="ascii") as file:
        file.write(logged.split()[1] + "\n")
    mirror = signed.mirror(DENY=signed.path("deny"))
    signed.post("ann", one, "ann")
    again += answers(mirror, before + 2)[before + 1:]
    mirror.kill(True)
    is_so("what was taken out is answered otherwise: %s" % again, again == ["taken 1", "refused message denied"])


def check_mirrors(signed, text):
    """What a mirror's account can't do to others; they get what is posted all the same."""
    for what, queue in [(what, "south") for what in (*WITH_QUEUE, "get", "queue")] + [(what, "north") for what in (*WITH_QUEUE, *WITH_EXCHANGE, "publish", "queue")]:
        if (what, queue) == ("purge", "north"):  # it may read its own
            continue
        found = signed.tries("tls/north", what, text, queue=queue)
        is_so("north can do this with %s: %s: %s" % (queue, what, found), found == "403")
    mirror, name = signed.mirror("south"), name_of(text)
    sent = signed.post("ann", text, "bob")
    is_so("ann's isn't sent: %s" % (sent,), sent == (0, ""))
    until = time.monotonic() + PATIENCE
    while name not in dict(mirror.lines()) and time.monotonic() < until:
        mirror.look()
        time.sleep(0.05)
    is_so("south doesn't take it: %s" % mirror.lines()[-1:], dict(mirror.lines()).get(name) == "taken 1")
    mirror.kill(True)
    large = signed.tries("tls/ann", "publish", bytes((4 << 20) + 1))
    is_so("the broker keeps what is too large: %s" % large, large == "406")
