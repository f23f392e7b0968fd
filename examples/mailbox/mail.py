#!/usr/bin/env python3
"""Finds the bundle of a mail, or what is signed in it, or answers it.

    mail.py bundle MAIL                   prints the bundle, as it was before it was mailed
    mail.py signed MAIL FOLDER            writes into FOLDER what the signature is held against, and prints which way the mail is signed
    mail.py reply MAIL ADDRESS VERDICT    prints a mail to ADDRESS with the text of VERDICT, if one is due: the mail is from this address, and not
                                          from a list or a machine

Status 1: it prints why there is none that could be taken; 2: the machine is at fault; 3: memory ran out. Python's `email` reads the
headers. The parts are where the boundaries stand in the mail's own bytes, since a signature is of these.
"""
import binascii
import os
import quopri
import re
import sys
from email.message import EmailMessage
from email.parser import HeaderParser
from email.utils import formatdate, getaddresses

# A bundle has 4 MiB at most, and a mail may have it twice, of which quoted-printable makes three bytes a byte.
MOST_BYTES = 32 << 20
MOST_PARTS = 200
MOST_DEPTH = 30
MOST_HEADERS = 1 << 20
MOST_BOUNDARY = 1000

EMPTY_LINE = re.compile(rb"^\r?\n", re.M)
BUNDLE = re.compile(rb"^New patches:(\r?)$", re.M)
HASH = re.compile(rb"^Patch bundle hash:\n([^\n]*)", re.M)
SIGNATURE = re.compile(rb"^-----BEGIN PGP SIGNATURE-----[ \t\r]*$", re.M)
SIGNED = re.compile(rb"^-----BEGIN PGP SIGNED MESSAGE-----[ \t\r]*$", re.M)
# What only lists and machines write into a header, and the most that is told of a verdict.
MACHINES = re.compile(r"auto-submitted|precedence|list-.*|(?:x-)?mailing-list|x-loop|x-autoreply|x-autorespond|x-auto-response-suppress|resent-.*", re.I)
MESSAGE_ID = re.compile(r"<[A-Za-z0-9!#$%&'*+/=?^_`{|}~.@-]{1,200}>")
MOST_TOLD = 1 << 16
SIGNED_END = re.compile(rb"^-----END PGP SIGNATURE-----[ \t\r]*(?:\n|\Z)", re.M)


class Refused(Exception):
    """Why nothing of a mail can be taken."""

    def __init__(self, verdict, why=None):
        super().__init__(verdict)
        self.said = "refused mail %s\n%s" % (verdict, why + "\n" if why else "")


class Part:
    """A mail or a part of one: where it stands, what its headers say, and whether a boundary stands behind it."""

    def __init__(self, mail, start, end, is_closed, parent=None):
        self.start, self.end, self.is_closed, self.parent = start, end, is_closed, parent
        self.depth = parent.depth + 1 if parent else 0
        blank = EMPTY_LINE.search(mail, start, min(end, start + MOST_HEADERS))
        stop = blank.end() if blank else end
        if stop - start > MOST_HEADERS or self.depth > MOST_DEPTH:
            raise Refused("too-large")
        # A byte is a character. Where a line is no header, the body begins with it.
        self.headers = HeaderParser().parsestr(mail[start:stop].decode("latin-1"))
        self.body = stop - len(self.headers.get_payload())
        if parent and parent.type == "multipart/digest":
            self.headers.set_default_type("message/rfc822")
        self.type = self.headers.get_content_type()
        self.inner = []

    def ranges(self, mail):
        """The parts in this one: where each begins and ends, and whether a boundary stands behind it."""
        if self.type in ("message/rfc822", "message/global"):
            yield self.body, self.end, self.is_closed
        boundary = self.headers.get_boundary() if self.type.startswith("multipart/") else None
        if boundary is None:
            return
        if len(boundary) > MOST_BOUNDARY:
            raise Refused("too-large")
        mark, start = rb"\n--%s(--)?[ \t]*\r?(?=\n|\Z)" % re.escape(boundary.encode("latin-1")), None
        for found in re.compile(mark).finditer(mail, max(0, self.body - 1), self.end):
            if start is not None:
                # The line end before a boundary is the boundary's.
                end = found.start() - (mail[found.start() - 1] == ord("\r"))
                yield start, max(start, end), True
            start = found.end() + 1
            if found.group(1):
                return
        if start is not None:
            yield start, max(start, self.end), self.is_closed

    def is_text(self):
        """Whether it holds no others and isn't HTML."""
        return not re.match(r"multipart/|message/|text/html$", self.type)

    def text(self, mail):
        """What stands in it, decoded."""
        body = mail[self.body : self.end]
        how = str(self.headers.get("content-transfer-encoding", "")).strip().lower()
        if how == "quoted-printable":
            return quopri.decodestring(body)
        if how != "base64":
            return body
        try:
            return binascii.a2b_base64(body)
        except binascii.Error:
            # It was cut.
            letters = re.sub(rb"[^A-Za-z0-9+/]", b"", body)
            return binascii.a2b_base64(letters[: len(letters) // 4 * 4])

    def is_in(self, other):
        part = self
        while part is not None and part is not other:
            part = part.parent
        return part is other


class Mail:
    """A mail, its parts, and the one that has the bundle."""

    def __init__(self, path):
        if os.stat(path).st_size > MOST_BYTES:
            raise Refused("too-large")
        with open(path, "rb") as file:
            self.bytes = file.read(MOST_BYTES)
        parts = [Part(self.bytes, 0, len(self.bytes), False)]
        for part in parts:
            for start, end, is_closed in part.ranges(self.bytes):
                if len(parts) >= MOST_PARTS:
                    raise Refused("too-large")
                part.inner.append(Part(self.bytes, start, end, is_closed, part))
                parts.append(part.inner[-1])
        self.parts = [it for it in parts if it.is_text()]
        self.bundle, count = self.find(lambda part, text: len(BUNDLE.findall(text)))
        if count != 1:
            raise Refused("with-bundles %d" % count if count else "without-bundle")

    def find(self, count_in):
        """The last part that has one, and how many there are."""
        found, count = None, 0
        for part in self.parts:
            here = count_in(part, part.text(self.bytes))
            found, count = part if here else found, count + here
        return found, count


def print_bundle(path):
    """The bundle, which must not have been cut."""
    mail = Mail(path)
    text = mail.bundle.text(mail.bytes)
    found = BUNDLE.search(text)
    if found.group(1):
        # The mail has CRLF at the ends of all lines: one of each pair is the mail's own.
        text = text.replace(b"\r\n", b"\n")
        text = text[:-1] if text.endswith(b"\r") else text
        found = BUNDLE.search(text)
    # What ends before its hash, and not where the mail says that the part ends, may have been cut.
    hashed = HASH.search(text, found.start())
    if not mail.bundle.is_closed and (not hashed or len(hashed.group(1).replace(b"\0", b"")) < 40):
        raise Refused("cut")
    return text


def write(folder, name, text):
    with open(os.path.join(folder, name), "wb") as file:
        file.write(text)


def signatures_in(part, text):
    return len(SIGNATURE.findall(text)) or int(part.type == "application/pgp-signature")


def write_signed(path, folder):
    """Which way it is signed, and whether the bundle is in what is signed."""
    mail = Mail(path)
    signature, count = mail.find(signatures_in)
    if count == 0:
        raise Refused("unsigned")
    if count != 1:
        raise Refused("signature", "two signatures")
    text, parent = signature.text(mail.bytes), signature.parent
    write(folder, "signature", text)
    blocks = [it.start() for it in SIGNED.finditer(text)]
    if blocks:
        if len(blocks) != 1:
            raise Refused("signature", "two texts")
        # What stands before and behind the block isn't shown to `gpgv`.
        end = SIGNED_END.search(text, blocks[0])
        write(folder, "block", text[blocks[0] : end.end() if end else len(text)])
        return b"clear %s\n" % (b"inside" if mail.bundle is signature else b"outside")
    if parent and parent.type == "multipart/signed" and parent.inner.index(signature) == 1:
        # The part with its own headers, with the line ends that mail has, up to the line end before the boundary.
        first = parent.inner[0]
        lines = mail.bytes[first.start : first.end].replace(b"\r\n", b"\n")
        write(folder, "lines", lines)
        write(folder, "text", lines.replace(b"\n", b"\r\n"))
        return b"parts %s\n" % (b"inside" if mail.bundle.is_in(first) else b"outside")
    if parent and mail.bundle.parent is parent:
        write(folder, "text", mail.bundle.text(mail.bytes))
        return b"beside inside\n"
    raise Refused("signature", "signature of another part")


def print_reply(path, address, verdict):
    """The answer to a mail. Whoever gets it has signed, and is the one that the mail says it is from."""
    with open(path, "rb") as file:
        text = file.read(MOST_BYTES)
    headers = Part(text, 0, len(text), False).headers
    names = [name for name in headers.keys() if MACHINES.fullmatch(name)]
    if names and not (names[0].lower() == "auto-submitted" and len(names) == 1 and str(headers[names[0]]).strip().lower() == "no"):
        raise Refused("no-reply", "it has the header %.60s" % ascii(names[0]))
    if headers.get_content_type() == "multipart/report" or str(headers.get("return-path", "<a>")).strip() == "<>":
        raise Refused("no-reply", "it is a bounce")
    senders = [[it.lower() for _, it in getaddresses([str(it) for it in headers.get_all(name, [])])] for name in ("from", "sender")]
    if len(headers.get_all("from", [])) != 1 or senders[0] != [address.lower()] or senders[1] not in ([], senders[0]):
        raise Refused("no-reply", "it isn't from %s" % address)
    with open(verdict, "rb") as file:
        told = file.read(MOST_TOLD).decode("utf-8", "replace")
    reply = EmailMessage()
    reply["To"], reply["Date"] = address, formatdate()
    reply["Subject"] = "dm: " + "".join(it for it in told.partition("\n")[0] if " " <= it <= "~")[:100]
    number = str(headers.get("message-id", "")).strip()
    if MESSAGE_ID.fullmatch(number):
        reply["In-Reply-To"] = reply["References"] = number
    reply["Auto-Submitted"], reply["Precedence"] = "auto-replied", "bulk"
    reply.set_content(told, cte="quoted-printable")
    return reply.as_bytes()


def main(words):
    try:
        status, printed = 0, {"bundle": print_bundle, "signed": write_signed, "reply": print_reply}[words[0]](*words[1:])
    except Refused as refused:
        status, printed = 1, refused.said.encode()
    except OSError as fault:
        sys.stderr.write("mail.py: %s\n" % fault)
        return 2
    except MemoryError:
        return 3
    except Exception:  # whatever `email` fails on, it is this mail that it fails on
        status, printed = 1, b"refused mail unreadable\n"
    try:
        sys.stdout.buffer.write(printed)
        sys.stdout.buffer.flush()
    except OSError as fault:
        sys.stderr.write("mail.py: %s\n" % fault)
        os._exit(2)
    return status


if __name__ == "__main__":
    sys.exit(main(sys.argv[1:]))
