"""What `examples/web/pages` writes of a mirror: hard names and changes, what is new, what goes, and what a kill leaves."""
import html.parser
import json
import os
import posixpath
import random
import re
import shutil
import signal
import subprocess
import sys
import tempfile
import time
import unicodedata
import xml.etree.ElementTree as ElementTree

from bundles import joined
from counting import holds, is_so
from program import DM, EXAMPLES, SECONDS, SEED, Place
from trees import read, write

PAGES = os.path.join(EXAMPLES, "web", "pages")
ATOM = "{http://www.w3.org/2005/Atom}"
TAGS = set("html head meta title link body nav b a main h1 h2 p bdi time code i pre section div ul li table tr td span svg rect path polygon text".split())
WORDS = set("lang charset name content rel href type class width height role x y rx d points".split())
LINK = re.compile(r"(?:\.\./)?(?:style\.css|feed\.atom|(?:index|files|picture|log-\d+)\.html|(?:patch|tree|file)/[0-9a-f]{40}(?:-2)?\.html)")
BIG = b"".join(b"+    let value_%05d = table.look_up(%d).unwrap_or_default();\n" % (it, 7 * it) for it in range(17000))


def info(name, author=b"Ann <ann@example.org>", date=b"20260301120000", log=()):
    log = b"".join(b"\n " + line for line in log)
    return b"[" + name + b"\n" + author + b"**" + date + log + (b"\n" if log else b"") + b"] "


def patch(own, prims, needs=()):
    return own + (b"<\n" + b"".join(it + b"\n" for it in needs) + b"> " if needs else b"") + b"{\n" + b"".join(prims) + b"}\n"


def stars(content):
    digits = content.hex().encode()
    return b"".join(b"*" + digits[at:at + 78] + b"\n" for at in range(0, len(digits) + 1, 78))


def bundle(patches, context=()):
    return b"New patches:\n\n" + b"\n".join(patches) + b"\nContext:\n\n" + b"".join(it + b"\n" for it in context)


def hard():
    """Patches whose names, paths, lines and dates are made to do harm. The last one can be taken out."""
    first = info(b"<script>alert(1)</script>", "M\u00e4rta \u202eevil <m@example.org>".encode(), log=[b"<b>bold</b> & \"quotes\"", b"\x1b[31mred", "\u202ebidi".encode()])
    names, raw = info(b"a beside a.html/b", date=b"20260301130000"), info(b"bytes \xff\xfe", b"B\xe9b <b\xe9b>", b"20260301140000", [b"line \xe9"])
    marks, forged = info("\x07\x1b[31m \u202egnp.exe \ufeff\uffff".encode(), date=b"20260301150000"), info(b"forged", date=b"2026-03")
    large, binary = info(b"A megabyte", date=b"20260302160000"), info(b"A binary", date=b"20260302170000")
    nameless, one, two = info(b"", b"", b"20260302180000"), info(b"same", b"hash x", b"20260302190000"), info(b"samehash ", b"x", b"20260302190000")
    tag, last = info(b"TAG 1.0", date=b"20260303000000"), info(b"Long " * 100, date=b"20260304000000")
    return [
        patch(first, [b"addfile ./<script>alert(1)<_script>\n", b"addfile ./a\n", b"hunk ./a 1\n+<img src=x onerror=alert(1)>\n+</pre><script>alert(2)</script>\n+\ttab\n"]),
        patch(names, [b"adddir ./a.html\n", b"addfile ./a.html/b\n", b"hunk ./a.html/b 1\n+inner\n", b"adddir ./?#%\n", b"addfile ./?#%/?#%&\"'\n", b"addfile ./javascript:alert(1)\n"], [first]),
        patch(raw, [b"addfile ./caf\xe9\n", b"hunk ./caf\xe9 1\n+bytes \xff\xfe\n+fine \xc3\xa9\n", b"adddir ./dir\xe9\n", b"adddir ./dir\xe9/\xfe\n", b"addfile ./dir\xe9/\xfe/x\n"], [first]),
        patch(marks, ["addfile ./\u202egnp.js\n".encode(), b"addfile ./new\\10\\line\n", "hunk ./\u202egnp.js 1\n+if (a\u202e b) \x00? \x7f\n".encode()], [names, raw]),
        patch(forged, [b"changepref test\n\nhunk ./a 1\n", b"changepref boring\nold value\n<script>alert(3)</script>\n"], [marks]),
        patch(large, [b"addfile ./big\n", b"hunk ./big 1\n" + BIG]),
        patch(binary, [b"addfile ./logo\n", b"binary ./logo\noldhex\n" + stars(b"") + b"newhex\n" + stars(bytes(range(256)))]),
        patch(nameless, [b"replace ./a [A-Za-z_0-9] tab tabs\n", b"move ./a.html/b ./a.html/moved\n"], [names]),
        patch(one, [b"adddir ./one\n"]), patch(two, [b"adddir ./two\n"], [one]),
        patch(tag, [], [forged, large, binary, nameless, two]), patch(last, [b"addfile ./z\n", b"hunk ./z 1\n+" + b"long line " * 300 + b"\n"], [tag]),
    ]


class Page(html.parser.HTMLParser):
    """A page: its tags, its links, its text, and the text of each kind of element."""

    def __init__(self, text):
        super().__init__()
        self.wrong, self.links, self.text, self.by, self.open = [], [], "", {}, []
        self.feed(text)

    def handle_starttag(self, tag, attrs):
        self.wrong += [(tag, name) for name, _ in attrs if name not in WORDS] + ([tag] if tag not in TAGS else [])
        self.links += [value for name, value in attrs if name == "href"]
        if tag not in ("meta", "link", "rect", "path", "polygon"):
            self.open.append((tag, dict(attrs).get("class")))
            self.by.setdefault(self.open[-1], []).append("")

    def handle_endtag(self, tag):
        if tag not in ("rect", "path", "polygon"):
            self.wrong += [] if self.open and self.open[-1][0] == tag else ["</%s>" % tag]
            self.open and self.open.pop()

    def handle_data(self, data):
        self.text += data
        for it in self.open:
            self.by[it][-1] += data


def pages(place, mirror, folder, *words, **more):
    return place.call(PAGES, *words, mirror, folder, **more)


def files(folder):
    return {os.path.relpath(os.path.join(at, name), folder): read(at, name) for at, _, names in os.walk(folder) for name in names if name != ".made"}


def stamps(folder):
    return {name: os.stat(os.path.join(folder, name)).st_ino for name in files(folder)}


def is_fine(what, folder):
    """Whether all is text and in order, each link leads to a page, and each page is led to. Returns the pages."""
    texts = {name: text.decode() for name, text in files(folder).items()}
    found = {name: Page(text) for name, text in texts.items() if name.endswith(".html")}
    holds("%s: tags, attributes, and what isn't closed" % what, [(name, it.wrong, it.open) for name, it in found.items() if it.wrong or it.open], [])
    holds("%s: characters" % what, [(name, char) for name, text in texts.items() for char in set(text) if char not in "\n\t" and
                                    (unicodedata.category(char) in ("Cc", "Cf", "Co", "Zl", "Zp") or ord(char) & 0xFFFE == 0xFFFE)], [])
    holds("%s: addresses" % what, [(name, it) for name, page in found.items() for it in page.links if not LINK.fullmatch(it)], [])
    led = {posixpath.normpath(posixpath.join(posixpath.dirname(name), it)) for name, page in found.items() for it in page.links} | {"index.html"}
    holds("%s: what isn't led to, and where nothing is" % what, (sorted(set(texts) - led), sorted(led - set(texts))), ([], []))
    return found


def titled(found, title):
    """The page of a patch that has this heading."""
    names = [name for name, page in found.items() if name.startswith("patch/") and page.by[("h1", None)] == [title]]
    return found[names[0]] if holds("pages titled %r" % title, len(names), 1) else Page("<pre></pre>")


def ask_hard(place):
    patches = hard()
    place.said("init", "--mirror", "hard.dm")
    holds("hard cases are taken", place.dm("apply", "--mirror", "hard.dm", "--quiet", text=bundle(patches))[:2], (0, b"taken 12\n"))
    holds("pages of hard cases", pages(place, "hard.dm", "hard")[:2], (0, b"pages hard: 35 written, 0 removed\n"))
    found = is_fine("hard cases", place.path("hard"))
    page = titled(found, "<script>alert(1)</script>")
    holds("who made it", page.by[("p", "by")][0].split("  ")[0].partition(" <")[0], "M\u00e4rta \\xe2\\x80\\xaeevil")
    holds("its log", page.by[("pre", "log")], ["\n<b>bold</b> & \"quotes\"\n\\x1b[31mred\n\\xe2\\x80\\xaebidi"])
    holds("its lines", page.by[("pre", "new")], ["+<img src=x onerror=alert(1)>\n+</pre><script>alert(2)</script>\n+\ttab"])
    page = titled(found, "forged")
    holds("a forged preference", (page.by[("h2", None)], page.by[("pre", "new")], page.by[("pre", "old")]),
          (["Rests on", "preference test", "preference boring"], ["+hunk ./a 1", "+<script>alert(3)</script>"], ["-old value"]))
    holds("what it depends on", page.by[("li", None)], ["\\x07\\x1b[31m \\xe2\\x80\\xaegnp.exe \\xef\\xbb\\xbf\\xef\\xbf\\xbf"])
    holds("its date", page.by[("time", None)], ["2026-03 UTC"])
    page = titled(found, "A megabyte")
    is_so("a hunk of a megabyte is cut: %d" % len(page.text), 250_000 < len(page.text) < 270_000 and re.search(r"leaves out 12,\d{3} lines", page.text))
    holds("a binary", titled(found, "A binary").by[("p", None)], ["a new file", "a binary: 0 bytes before, 256 bytes after"])
    holds("two patches of one hash", sorted(name[-7:] for name in found if re.search(r"-2\.html", name)), ["-2.html"])
    # One hash is of two patches, and one patch names the tag.
    holds("what the tag names, and what names it", len(titled(found, "TAG 1.0").by[("li", None)]), 7)
    index = found["index.html"].by[("td", "name")]
    holds("the log, newest first", (index[0][:10], index[1:3], index[-1]), ("Long Long ", ["TAG 1.0", "samehash "], "<script>alert(1)</script>"))
    tree = found["files.html"].by[("td", "name")]
    holds("the files", tree, ["?#%/", "a.html/", "dir\\xe9/", "one/", "two/", "<script>alert(1)<_script>", "a", "big", "caf\\xe9", "javascript:alert(1)", "logo", "new\\x0aline", "z", "\\xe2\\x80\\xaegnp.js"])
    shown = [it.by.get(("pre", None), [""])[0] for name, it in found.items() if name.startswith("file/")]
    is_so("the text of a file whose name isn't UTF-8", "\nbytes \\xff\\xfe\nfine \u00e9" in shown)
    feed = ElementTree.fromstring(read(place.path("hard", "feed.atom")))
    holds("the feed", [it.text for it in feed.iter(ATOM + "title")][-2:], ["a beside a.html/b", "<script>alert(1)</script>"])
    holds("the feed's identities", len({it.text for it in feed.iter(ATOM + "id")}), 13)
    is_so("the picture", len(found["picture.html"].by.get(("text", None), [])) == 12 or not shutil.which("dot"))


def ask_new(place):
    """What is new costs its own pages and those that list it; what goes takes its pages along. What is there then is what is made from nothing."""
    before, folder = stamps(place.path("hard")), place.path("hard")
    write(folder, "own.html", text=b"not ours")
    holds("again", pages(place, "hard.dm", "hard")[:2], (0, b"nothing new\n"))
    place.dm("apply", "--mirror", "hard.dm", "--quiet", text=bundle([patch(info(b"One more", date=b"20260305000000"), [b"addfile ./one/more\n"])], [info(b"same", b"hash x", b"20260302190000")]))
    holds("one more", pages(place, "hard.dm", "hard")[:2], (0, b"pages hard: 7 written, 0 removed\n"))
    changed = sorted(re.sub(r"[0-9a-f]{40}", "H", name) for name, it in stamps(folder).items() if before.get(name) != it and name != "own.html")
    holds("what one more changes", changed, ["feed.atom", "file/H.html", "index.html", "patch/H.html", "patch/H.html", "picture.html", "tree/H.html"])
    for name in ("One more", "Long " * 100):
        digits = [it["hash"] for it in log(place) if it["name"] == name]
        holds("an obliteration", place.dm("obliterate", "--mirror", "hard.dm", digits[0])[0], 0)
    is_so("what goes: %r" % (pages(place, "hard.dm", "hard"),), len(files(folder)) == 1 + 35 - 2)
    same_as_new(place, "hard")
    write(folder, ".made", text=b"{")
    os.remove(place.path("hard", "index.html"))
    pages(place, "hard.dm", "hard")
    same_as_new(place, "hard")
    holds("what isn't ours", read(folder, "own.html"), b"not ours")
    os.remove(os.path.join(folder, "own.html"))
    is_fine("after an obliteration", folder)


def log(place, mirror="hard.dm"):
    return [json.loads(line) for line in place.said("log", "--mirror", mirror, "--json").splitlines()]


def same_as_new(place, folder):
    with tempfile.TemporaryDirectory(dir=place.work) as fresh:
        pages(place, folder + ".dm", fresh)
        ours = files(place.path(folder))
        ours.pop("own.html", None)
        wanted = files(fresh)
        holds("%s: pages that aren't as they are made from nothing" % folder, sorted(it for it in {*ours, *wanted} if ours.get(it) != wanted.get(it)), [])


def ask_empty(place):
    place.said("init", "--mirror", "none.dm")
    holds("an empty mirror", pages(place, "none.dm", "none", "--title", "<i>None</i>", "--url", "http://example.org/\"x\"")[:2], (0, b"pages none: 5 written, 0 removed\n"))
    page = Page(read(place.path("none", "index.html")).decode())
    holds("its page", (page.wrong, page.by[("h1", None)], "No patch yet." in page.text, page.by[("p", "clone")]), ([], ["<i>None</i>"], True, ["darcs clone http://example.org/\"x\""]))
    holds("its feed", [it.tag for it in ElementTree.fromstring(read(place.path("none", "feed.atom"))).iter(ATOM + "entry")], [])
    holds("no mirror", pages(place, "nowhere.dm", "nowhere")[0], 2)


def ask_many(place):
    """The log in pages, where a patch comes at a time, and a kill at any moment."""
    rng = random.Random(int(SEED))
    names = ["patch %d" % it for it in range(430)]
    place.said("init", "--mirror", "many.dm")
    for first, last in ((0, 99), (99, 201), (201, 310), (310, 430)):
        text = joined(["[%s\np**20240101000000] {\nadddir ./%s\n}\n" % (it, it.replace(" ", "-")) for it in names[first:last]])
        place.dm("apply", "--mirror", "many.dm", "--quiet", text=text.encode())
        kill(place, rng.uniform(0.1, 1.5))
        pages(place, "many.dm", "many")
        found, at, seen, more = {it: Page(read(place.path("many", it)).decode()) for it in os.listdir(place.path("many")) if it.endswith(".html")}, "index.html", [], None
        while at and len(seen) < 1000:
            seen += found[at].by.get(("td", "name"), [])
            more = [it for it in found[at].links if re.fullmatch(r"log-\d+\.html", it)]
            at = next((it for it in more if at == "index.html" or int(it[4:-5]) < int(at[4:-5])), None)
        holds("the log of %d patches, newest first" % last, seen, names[:last][::-1])
    is_fine("many", place.path("many"))
    same_as_new(place, "many")


def kill(place, seconds):
    running = subprocess.Popen([PAGES, "many.dm", "many"], cwd=place.work, env=place.env, stdout=subprocess.DEVNULL, stderr=subprocess.DEVNULL, start_new_session=True)
    time.sleep(seconds)
    os.killpg(running.pid, signal.SIGKILL)
    running.wait(SECONDS)


def ask_faults(place):
    """A recipe with a fault is found wrong."""
    folder = place.path("faulty")
    shutil.copytree(os.path.join(EXAMPLES, "web"), folder)
    text = read(folder, "page.py").decode()
    holds("what is changed", text.count('    text = html.escape(text)\n'), 1)
    write(folder, "page.py", text=text.replace('    text = html.escape(text)\n', "").encode())
    place.call(sys.executable, os.path.join(folder, "pages"), "hard.dm", "wrong")
    texts = [read(place.path("wrong"), name).decode() for name in files(place.path("wrong")) if name.endswith(".html")]
    is_so("pages that escape nothing are found wrong", any(Page(it).wrong for it in texts))


def ask(work):
    place = Place(os.path.join(work, "pages"))
    place.env["PYTHONDONTWRITEBYTECODE"] = "1"
    for it in ask_hard, ask_new, ask_empty, ask_many, ask_faults:
        it(place)
