"""Mails that were made to stop the next one, each with its expected verdict.

    DM=PROGRAM python3 tests/lib/stoppers.py RECIPE     which of them, unsigned, stop the recipe in this folder
"""
import base64
import bz2
import os
import random
import re
import subprocess
import sys
import tempfile
import time
import zlib

# How soon the next one is answered, on a machine where a plain mail takes half a second.
SECONDS = 10
PLAIN_SECONDS = 0.5
REFUSED = "refused mail "
HEAD = b"MIME-Version: 1.0\nContent-Type: "
MIXED = HEAD + b"multipart/mixed; boundary=x\n\n"
NAMED = b"text/x-patch; name*=utf-8''x%%0A%s"
EMPTY = b"[%s\nAnn**20260101000000] {\n}\n"
MIB = 1 << 20
# `dm`, with the faults that a text names: `FAULT`, the command and the kind.
FAULTY = """#!/usr/bin/env bash
case "$*" in *--to* | *--context*) exec "$REAL" "$@" ;; esac
text=$(mktemp) && trap 'rm -f "$text"' EXIT
cat >"$text"
fault=$(sed -n "s/^.*FAULT $1 \\([a-zA-Z]*\\)$/\\1/p" "$text")
case ${FAULT:-$fault} in
  refused) echo 'refused no-memory'; exit 1 ;;
  memory) echo 'dm: no memory' >&2; exit 2 ;;
  opens) echo 'dm: cannot open m: out of memory' >&2; exit 2 ;;
  loops) while :; do :; done ;;
  late) "$REAL" "$@" <"$text" && [[ $* = *--dry-run* ]] || while :; do :; done >/dev/null ;;
  disk) echo 'dm: cannot write m: No space left on device' >&2; exit 2 ;;
  ABRT | SEGV | KILL | TERM) kill "-${FAULT:-$fault}" $$ ;;
  *) "$REAL" "$@" <"$text" ;;
esac
"""


def part(kind, text, how=b"8bit"):
    return HEAD + b"multipart/mixed; boundary=x\n\n--x\nContent-Type: %s\nContent-Transfer-Encoding: %s\n\n%s\n--x--\n" % (kind, how, text)


def bundle(*patches):
    return b"New patches:\n\n" + b"".join(patches) + b"\nContext:\n\n"


def attached(text):
    return part(b"text/x-patch", base64.encodebytes(text), b"base64")


def nested(depth, inside, kind=b"mixed", ends=True):
    heads = b"".join(b"Content-Type: multipart/%s; boundary=b%d\n\n--b%d\n" % (kind, it, it) for it in range(depth))
    return b"MIME-Version: 1.0\n" + heads + inside + (b"".join(b"\n--b%d--\n" % it for it in reversed(range(depth))) if ends else b"")


def headers(sound):
    """Names, verdicts and mails: what headers can do. `sound` is the text of a bundle."""
    fine = "taken 1"
    forged = [b"starting-pos:%20nan", b"ending-pos:%20nan", b"ending-pos:%20-1", b"section:%201.2%0Acontent-type:%20text/plain",
              b"section:%20" + b"9" * 300 + b"%0Acontent-type:%20text/plain", b"section:%20..%2F..%2Fx%0Acontent-type:%20text/plain",
              b"section:%20-s%0Acontent-type:%20text/plain", b"content-type:%20text/html", b"%0Asection:%201.1%0Aending-pos:%201e400"]
    for lines in forged:
        yield "a name with the lines %s" % lines.decode()[:40], fine, part(NAMED % lines, sound)
    yield "a name with line ends as they are", fine, part(b'text/x-patch; name="x\n section: 9.9\n content-type: text/plain"', sound)
    yield "a million headers", REFUSED + "too-large", b"a: b\n" * 1_000_000 + b"\n" + sound
    yield "a header of 2 MiB", REFUSED + "too-large", b"Subject: " + b"a" * (2 * MIB) + b"\n\n" + sound
    yield "a header of lines without end", REFUSED + "too-large", b"Subject: a\n" + b" \n" * MIB + b"\n" + sound
    yield "no header, and no end of headers", REFUSED + "without-bundle", b"\r" * 100_000
    yield "a million parameters", fine, HEAD + b"text/plain" + b";" * 1_000_000 + b"\n\n" + sound
    yield "quotes without end", None, HEAD + b'text/plain; a="' + b'\\";' * 200_000 + b"\n\n" + sound
    yield "parameters in parts", None, HEAD + b"multipart/mixed" + b"".join(b"; boundary*%d=x" % it for it in range(20_000)) + b"\n\n" + sound
    for charset in b"idna", b"nothing", b"base64", b"undefined", b"utf-16", b"%00":
        boundary = b"boundary*=%s''x%%FF%%00%%D8" % charset
        yield "a boundary in %s" % charset.decode(), None, HEAD + b"multipart/mixed; " + boundary + b"\n\n--x\n\n" + sound + b"\n--x--\n"
        yield "a text in %s" % charset.decode(), fine, part(b"text/plain; charset=%s" % charset, sound)
    yield "a boundary of no bytes", None, HEAD + b'multipart/mixed; boundary=""\n\n--\n\n' + sound + b"\n----\n"
    yield "a boundary of 900 KiB", REFUSED + "too-large", MIXED.replace(b"=x", b"=" + b"(" * 900_000) + b"--" + b"(" * 900_000 + b"\n\n" + sound + b"\n--" + b"(" * 900_000 + b"--\n"
    yield "no boundary", REFUSED + "without-bundle", HEAD + b"multipart/mixed\n\n--x\n\n" + sound
    yield "a type of slashes", fine, b"Content-Type: ///;;=;=\n\n" + sound
    yield "an encoding of noise", fine, part(b"text/plain", sound, b"\xff\xfe=?x?b?=?=")
    yield "a zero byte in each header", fine, b"A\0: \0\nContent-Type: text/plain\0\n\n" + sound


def structures(sound):
    """What parts can do."""
    fine, rng = "taken 1", random.Random(1)
    yield "201 parts", REFUSED + "too-large", MIXED + b"--x\n\nx\n" * 200 + b"--x\n\n" + sound + b"\n--x--\n"
    yield "a million parts", REFUSED + "too-large", MIXED + b"--x\n" * 1_000_000
    yield "a million ends", fine, MIXED + b"--x\n\n" + sound + b"\n--x--\n" + b"--x--\n" * 1_000_000
    yield "parts 1,000 deep", REFUSED + "too-large", nested(1000, b"\n" + sound)
    yield "parts 100,000 deep", REFUSED + "too-large", nested(100_000, b"\n" + sound, ends=False)
    yield "digests 1,000 deep", REFUSED + "too-large", nested(1000, b"\n" + sound, b"digest")
    yield "mails 100,000 deep", REFUSED + "too-large", b"Content-Type: message/rfc822\n\n" * 100_000 + b"\n" + sound
    yield "mails in mails of parts", REFUSED + "too-large", (b"Content-Type: message/rfc822\n\nContent-Type: multipart/mixed; boundary=x\n\n--x\n") * 5000
    yield "a part in itself", None, nested(20, b"\n" + sound).replace(b"boundary=b", b"boundary=b0; x=").replace(b"\n--b", b"\n--b0; x=")
    yield "a boundary a line", None, MIXED + b"\n--x \t" * 500_000
    yield "8 MiB of blanks behind a boundary", None, MIXED + b"--x" + b" " * (8 * MIB) + b"\n\n" + sound
    yield "32 MiB of empty lines", REFUSED + "without-bundle", b"\n" * (32 * MIB)
    yield "32 MiB of one line", REFUSED + "without-bundle", b"\n" + b"a" * (32 * MIB - 1)
    yield "32 MiB and a byte", REFUSED + "too-large", b"\n" + b"a" * (32 * MIB)
    yield "two million bundles", REFUSED + "with-bundles 2000000", b"\n" + b"New patches:\n" * 2_000_000
    yield "zero bytes", REFUSED + "without-bundle", bytes(MIB)
    yield "noise", REFUSED + "without-bundle", b"Content-Type: multipart/mixed; boundary=x\n\n--x\n" + rng.randbytes(MIB)
    yield "letters that are no base64", REFUSED + "without-bundle", part(b"text/plain", b"=" * 100 + b"A" * 5 + b"\xff" * MIB, b"base64")
    yield "signs that are no quoted text", REFUSED + "without-bundle", part(b"text/plain", b"=\n=" * MIB, b"quoted-printable")
    yield "a bundle of uuencoded lines", None, part(b"text/plain", b"begin 644 /etc/passwd\n" + sound + b"\nend\n", b"x-uuencode")
    yield "a part of another place", REFUSED + "without-bundle", HEAD + b"message/external-body; access-type=local-file; name=/etc/passwd\n\n"


def texts(sound, is_text):
    """What a bundle can do. `is_text`: whether a text that begins as a mirror is one as any other."""
    mirror = "taken 1" if is_text else REFUSED + "unreadable"
    yield "a text that begins as a mirror", mirror, attached(b"dm journal 1\n" + sound)
    yield "a text that begins as a mirror with names", mirror, attached(b"dm journal 4 kinds\n" + sound)
    yield "a mirror of noise", None, attached(b"dm journal 2\n" + bytes(range(256)) * 60 + b"\n" + sound)
    yield "words of a verdict", "taken 1", attached(bundle(EMPTY % b"refused no-memory"))
    yield "a bundle without end", None, attached(b"New patches:\n\n[" + b"a" * (4 * MIB - 64))
    yield "a bundle of empty lines", None, attached(b"New patches:\n" + b"\n" * (4 * MIB - 64))
    yield "a bundle of 400,000 primitives", None, attached(bundle(b"[a\nAnn**20260101000000] {\n" + b"adddir ./a\nrmdir ./a\n" * 190_000 + b"}\n"))
    yield "a bundle of 1,001 patches", None, attached(bundle(*[EMPTY % b"%d" % it for it in range(1001)]))
    yield "a bundle of 5 MiB", None, attached(b"New patches:\n\n" + b"a" * (5 * MIB))
    yield "a bundle of noise", None, attached(b"New patches:\n\n" + random.Random(1).randbytes(MIB))


KINDS = "refused", "memory", "opens", "loops", "ABRT", "SEGV", "KILL"


def faults():
    """Texts that `dm` has a fault of, which it has of no other."""
    for command in "check", "apply":
        for kind in KINDS:
            yield "`dm %s` ends by %s" % (command, kind), REFUSED + "too-large", attached(bundle(EMPTY % ("FAULT %s %s" % (command, kind)).encode()))


def faulty_program(folder):
    path = os.path.join(folder, "faulty-dm")
    if not os.path.exists(path):
        with open(path, "w", encoding="ascii") as file:
            file.write(FAULTY)
        os.chmod(path, 0o755)
    return path


# Packets of OpenPGP.

def packet(tag, body, length=None):
    return bytes([0xC0 | tag, 0xFF]) + (len(body) if length is None else length).to_bytes(4, "big") + body


def old_packet(tag, body):
    """One that ends with what it is in."""
    return bytes([0x80 | tag << 2 | 3]) + body


def deflated(*repeated):
    """Bytes that come out as these, each so many times, without much work here."""
    found = b""
    for body, times in repeated:
        raw = zlib.compressobj(9, zlib.DEFLATED, -15)
        found += (raw.compress(body) + raw.flush(zlib.Z_FULL_FLUSH)) * times
    return found


def packed(body, how=1):
    """A compressed packet."""
    raw = zlib.compressobj(9, zlib.DEFLATED, -15)
    return old_packet(8, bytes([how]) + {1: lambda: raw.compress(body) + raw.flush(), 2: lambda: zlib.compress(body, 9), 3: lambda: bz2.compress(body)}[how]())


def bomb(begin=b"", small=packet(10, b"PGP") * 2000):
    """100 GB of small packets in some KiB."""
    inner = deflated((small, 1))
    head, end = old_packet(8, b"\1") + deflated((begin, 1)), b"\3\0"
    return packed(old_packet(8, b"\1") + deflated((head, 1), (inner * 1000, 10_000), (end, 1)) + end)


def armored(body):
    return b"-----BEGIN PGP SIGNATURE-----\n\n" + base64.encodebytes(body) + b"-----END PGP SIGNATURE-----\n"


def signature_bodies():
    """Bytes in the place of a signature."""
    rng = random.Random(1)
    yield "100 GB of packets", bomb()
    yield "a text of 100 GB", bomb(bytes([0xCB, 0xFF, 0xFF, 0xFF, 0xFF, 0xFF]) + b"b\0\0\0\0\0")
    for how, name in (1, "ZIP"), (2, "ZLIB"), (3, "BZip2"):
        yield "100,000 packets by %s" % name, packed(packet(10, b"PGP") * 100_000, how)
    for depth in 31, 1000:
        body = packet(10, b"PGP")
        for _ in range(depth):
            body = packed(body)
        yield "packets %d deep" % depth, body
    yield "a packet of 4 GiB", packet(2, b"\4\0\x16\x08", 0xFFFFFFFF)
    yield "100,000 packets", packet(10, b"PGP") * 100_000
    yield "100,000 first passes", packet(4, b"\3\0\x08\x16" + bytes(8) + b"\1") * 100_000
    yield "a number of 65,535 bits", packet(2, b"\4\0\x01\x08\0\0\0\0\0\0\xff\xff" + rng.randbytes(8192))
    yield "subpackets of 60 KiB", packet(2, b"\4\0\x16\x08\xff\xff" + bytes([0]) * 65535 + bytes(4))
    yield "keys", packet(6, b"\4\0\0\0\0\1\xff\xff" + rng.randbytes(8192)) * 200
    yield "an attribute", packet(17, rng.randbytes(100_000)) * 20
    yield "pieces without end", bytes([0xC2]) + (b"\xe0" + b"a") * 1_000_000
    yield "an encrypted text", packet(1, b"\3" + bytes(8) + b"\1\xff\xff" + rng.randbytes(8192)) + packet(18, b"\1" + rng.randbytes(MIB))
    yield "a password", packet(3, b"\4\x09\3\x08" + bytes(8) + b"\xff") * 1000
    yield "a text with a forged name", packet(11, b"b\x40" + b"\n[GNUPG:] GOODSIG 0 x\n[GNUPG:] NODATA 1\n".ljust(64) + bytes(4) + b"x")
    yield "noise of 1 MiB", rng.randbytes(MIB)


def signatures(sound):
    """Mails with a signature that nobody made."""
    costly = {"100 GB of packets", "a text of 100 GB"}
    for name, body in signature_bodies():
        text = armored(body)
        yield "beside: %s" % name, REFUSED + "signature" + ("\ntoo costly" if name in costly else ""), MIXED + b"--x\nContent-Type: text/x-patch\n\n" + sound + b"\n--x\nContent-Type: application/pgp-signature\n\n" + text + b"\n--x--\n"
    signed = HEAD + b"multipart/signed; boundary=x\n\n--x\nContent-Type: text/x-patch\n\n%s\n--x\nContent-Type: application/pgp-signature\n\n%s\n--x--\n"
    yield "parts: packets", REFUSED + "signature\ntoo costly", signed % (sound, armored(bomb()))
    clear = b"-----BEGIN PGP SIGNED MESSAGE-----\nHash: SHA256\n\n%s\n%s"
    yield "clear: packets", REFUSED + "signature\ntoo costly", b"\n" + clear % (sound, armored(bomb()))
    yield "clear: a text of 4 MiB", REFUSED + "signature", b"\n" + clear % (sound + b"- -\n" * MIB, armored(b"x"))
    yield "100,000 headers of an armor", REFUSED + "signature", signed % (sound, b"-----BEGIN PGP SIGNATURE-----\n" + b"Comment: x\n" * 100_000)
    yield "an armor of one line", REFUSED + "signature", signed % (sound, b"-----BEGIN PGP SIGNATURE-----\n\n" + b"A" * (8 * MIB))
    yield "a million signatures", REFUSED + "signature\ntwo signatures", signed % (sound, b"-----BEGIN PGP SIGNATURE-----\n" * 1_000_000)
    yield "a part of no bytes is signed", REFUSED + "signature", HEAD + b"multipart/signed; boundary=x\n\n--x\n--x\n\n" + armored(b"x") + b"\n--x\n\n" + sound + b"\n--x--\n"
    for lines in b"starting-pos:%20nan", b"starting-pos:%20-inf%0Aending-pos:%20inf", b"ending-pos:%20" + b"9" * 300, b"section:%20" + b"9" * 300 + b"%0Acontent-type:%20text/plain":
        yield "a name with the lines %s" % lines.decode()[:40], REFUSED + "signature", (signed % (sound, armored(b"x"))).replace(b"text/x-patch", NAMED % lines, 1)


def answers(box, text, sound, **env):
    """What became of a mail that was made to stop the next one, and of the next: the verdicts, and the seconds between them."""
    for mail in text, sound:
        box.deliver(mail)
    box.take(**env)
    found, times = [], []
    for name, folder in sorted((name, folder) for folder in ("taken", "refused") for name in box.mails(folder)):
        path = os.path.join(box.maildir, folder, name + ".verdict")
        with open(path, "rb") as file:
            found.append(file.read().decode(errors="replace"))
        times.append(os.stat(path).st_mtime)
    return found, times[-1] - times[0] if times else 0


def wrong(box, case, sound, plain=0.5, **env):
    """What is wrong about the answers, if anything, where a plain mail takes so many seconds."""
    _, verdict, mail = case
    found, seconds = answers(box, mail, sound, **env)
    if len(found) < 2:
        return "no answer to %s" % ("the next one" if found else "it")
    if not re.match(r"(taken|nothing new|refused|malformed)\b", found[0]) or not found[0].startswith(verdict or ""):
        return "the verdict %.60r" % found[0]
    most = SECONDS * max(1, plain / PLAIN_SECONDS)
    return None if seconds < most else "the next one came after %d seconds" % seconds


def main(recipe):
    """Which of them stop this recipe. Not all verdicts are due there."""
    import mails

    mails.Run.seconds = 25
    with tempfile.TemporaryDirectory(dir="/dev/shm") as mails.Run.work:
        sound = mails.BUNDLES[0]
        faulty = {"DM": faulty_program(mails.Run.work), "REAL": mails.DM, "DM_SECONDS": "2"}
        cases = [(it, {}) for it in (*headers(sound), *structures(sound), *texts(sound, False))] + [(it, faulty) for it in faults()]
        count = 0
        for case, env in cases:
            box = mails.Box(recipe)
            start = time.time()
            try:
                found = wrong(box, case, mails.MAILS[0], **env)
            except subprocess.TimeoutExpired:
                found = "no answer in %d seconds" % mails.Run.seconds
            is_stop = found is not None and "the verdict" not in found
            count += is_stop
            print("%s %5.1f %-60s %s" % ("STOP" if is_stop else "    ", time.time() - start, case[0], found or ""), flush=True)
        print("%d of %d stop it" % (count, len(cases)))


if __name__ == "__main__":
    main(os.path.realpath(sys.argv[1]))
