"""What the pages of mirrors share: a page with its head, text that strangers wrote, and the changes of a patch as a diff.

All that comes out of a mirror goes through `shown`, or `plain` where there is no place for a mark. No page has a script, and no address has
anything of a stranger's but a hash.
"""
import html
import re
import unicodedata
from itertools import groupby

# The most characters of a name, of a log, and of all changes of a patch; the most names of a list.
MOST_NAME, MOST_LOG, MOST_CHANGES, MOST_NAMES = 200, 1 << 14, 1 << 18, 200
SPECIAL = re.compile(r"[^ -~]")
MOMENT = re.compile(r"(\d{4}-\d\d-\d\d)T(\d\d:\d\d):\d\dZ", re.ASCII)
NAV = (("index.html", "patches"), ("files.html", "files"), ("picture.html", "picture"), ("feed.atom", "feed"))
# What a change says of its path.
WORDS = {"addfile": "a new file", "rmfile": "the file is removed", "adddir": "a new directory", "rmdir": "the directory is removed"}


def is_harmless(char):
    """Whether a browser, a terminal or a reader of feeds shows it, and does nothing else. Of what isn't assigned some is no text of XML."""
    kind, number = unicodedata.category(char), ord(char)
    return char == "\t" or not (kind in ("Cc", "Cf", "Co", "Cs", "Zl", "Zp") or number & 0xFFFE == 0xFFFE or 0xFDD0 <= number <= 0xFDEF)


def escaped(char):
    return "".join("\\x%02x" % byte for byte in char.encode("utf-8", "surrogatepass"))


def plain(text):
    """Text in which each character that could do something is escaped, as `dm log` prints it."""
    return text if text.isprintable() else SPECIAL.sub(lambda it: it[0] if is_harmless(it[0]) else escaped(it[0]), text)


def shown(text):
    """The same as HTML, where escapes are marked."""
    text = html.escape(text)
    return text if text.isprintable() else SPECIAL.sub(lambda it: it[0] if is_harmless(it[0]) else "<i>%s</i>" % escaped(it[0]), text)


def cut(text, most=MOST_NAME):
    return text if len(text) <= most else text[:most] + "\u2026"


def readable(text):
    """Bytes as text: what isn't UTF-8 as `dm log --json` has it."""
    try:
        return text.decode()
    except UnicodeDecodeError:
        return "".join(chr(it) if it == 9 or 32 <= it <= 126 else "\\x%02x" % it for it in text)


def named(patch):
    """The name of a patch, or its hash if it has none that could be seen."""
    return cut(patch["name"]) if patch["name"].strip() else patch["hash"][:12]


def person(author):
    """An author without the address."""
    return cut(author.partition("<")[0].strip() or author.strip("<> ").partition("@")[0] or "nobody", 60)


def moment(date):
    """A date for people, as text without marks."""
    found = MOMENT.fullmatch(date)
    return "%s %s" % found.groups() if found else plain(cut(date, 40))


def counted(count, what, many=None):
    return "%s %s" % (format(count, ","), what if count == 1 else many or what + "s")


def framed(title, body, site, up="", nav=NAV):
    """A whole page. `site` is the name of the mirror, `up` the way to the folder of its pages."""
    links = "".join('<a href="%s%s">%s</a>' % (up, page, word) for page, word in nav)
    feed = '<link rel="alternate" type="application/atom+xml" href="%sfeed.atom">\n' % up if nav is NAV else ""
    return (
        '<!doctype html>\n<html lang="en">\n<head>\n<meta charset="utf-8">\n<meta name="viewport" content="width=device-width">\n'
        '<title>%s</title>\n<link rel="stylesheet" href="%sstyle.css">\n%s</head>\n'
        "<body>\n<nav><b>%s</b>%s</nav>\n<main>\n%s</main>\n</body>\n</html>\n"
        % (html.escape(plain(title)), up, feed, shown(site), links, body)
    ).encode()


def about(patch):
    """Who made a patch, and when: the line below its name."""
    return '<p class="by"><bdi>%s</bdi> <time>%s UTC</time> <code>%s</code></p>\n' % (
        shown(cut(patch["author"])), html.escape(moment(patch["date"])), html.escape(patch["hash"]))


def log_of(patch):
    text = cut("\n".join(patch["log"]), MOST_LOG)
    return '<pre class="log">\n%s</pre>\n' % "\n".join(map(shown, text.split("\n"))) if text.strip() else ""


class Room:
    """How much of a page is left for changes, and how many lines of them had no room."""

    def __init__(self, most):
        self.left, self.missing = most, 0

    def some(self, lines):
        """The first lines, as far as they have room. Part of a line is better than none."""
        fit = []
        for line in lines:
            if self.left <= 0:
                break
            fit.append(cut(line, self.left))
            self.left -= len(line) + 1
        self.missing += len(lines) - len(fit)
        return fit


def sides(old, new, room):
    """Lines before and after: a diff."""
    parts = (("old", "-", room.some(old)), ("new", "+", room.some(new)))
    blocks = ['<pre class="%s">%s</pre>' % (side, "\n".join(mark + shown(it) for it in lines)) for side, mark, lines in parts if lines]
    return '<div class="diff">%s</div>\n' % "".join(blocks) if blocks else ""


def path_of(change):
    """What a change is of: the heading above it."""
    if change["kind"] == "changepref":
        return "preference %s" % change.get("name", "")
    return change.get("path", "")


def change_of(change, room):
    """A change below its heading. A kind that isn't known is named."""
    kind = change["kind"]
    if kind == "hunk":
        return "<p>line %d</p>\n" % change["line"] + sides(change["old"], change["new"], room)
    if kind == "replace":
        words = "<p>a word is replaced, where a word is made of <code>%s</code></p>\n" % shown(cut(change["tokens"]))
        return words + sides([change["old"]], [change["new"]], room)
    if kind == "changepref":
        return sides(*([it] if it else [] for it in (change["old"], change["new"])), room)
    if kind == "binary":
        before, after = (counted(len(change[it]) // 2, "byte") for it in ("old_hex", "new_hex"))
        return "<p>a binary: %s before, %s after</p>\n" % (before, after)
    if kind == "move":
        return "<p>is moved to <bdi>%s</bdi></p>\n" % shown(cut(change["to"], 1000))
    return "<p>%s</p>\n" % shown(WORDS.get(kind, cut(kind)))


def changes_of(changes, most=MOST_CHANGES):
    """The changes of a patch: below each path those that follow each other there."""
    room, parts, left_out = Room(most), [], 0
    for path, some in groupby(changes, path_of):
        some = list(some)
        if room.left <= 0:
            left_out += len(some)
            continue
        heading = "<h2><bdi>%s</bdi></h2>\n" % shown(cut(path, 1000)) if path else ""
        inner = []
        for change in some:
            room.left -= 100
            if room.left <= 0:
                left_out += 1
            else:
                inner.append(change_of(change, room))
        parts.append('<section class="change">\n%s%s</section>\n' % (heading, "".join(inner)))
    missing = [counted(it, what) for it, what in ((room.missing, "line"), (left_out, "change")) if it]
    parts += ['<p class="more">This page leaves out %s. <code>darcs log --verbose</code> has them.</p>\n' % " and ".join(missing)] if missing else []
    return "".join(parts) or '<p class="more">It changes nothing.</p>\n'
