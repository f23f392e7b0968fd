"""A picture of which patches depend on which: `dot` places boxes and arrows, and sees no name. SVG for the inside of a page."""
import html
import shutil
import subprocess
import unicodedata

from page import named, person, plain

WIDE, HIGH, SECONDS = 190, 40, 20
# How wide a picture may get before it is drawn from left to right, if it is narrower so.
BROAD = 1000
# How many letters fit into a box.
LETTERS = 24


def fitting(text):
    """As much of a text as fits into a box: some letters are wide."""
    width = 0
    for at, char in enumerate(text):
        width += 2 if unicodedata.east_asian_width(char) in "WF" else 1
        if width > LETTERS:
            return text[:at] + "\u2026"
    return text


def arrows(patches):
    """Each patch, by its number, and those of the others that it names, without those that it depends on by way of another."""
    number = {id(it): place for place, it in enumerate(patches)}
    names = [sorted({number[id(it)] for it in patch["depends"] if id(it) in number}, reverse=True) for patch in patches]
    below, kept = [], []
    for own in names:
        reached, needed = set(), []
        for it in own:
            if it not in reached:
                needed.append(it)
                reached |= {it} | below[it]
        below.append(reached)
        kept += [(len(below) - 1, it) for it in needed]
    return kept


def placed(pairs, direction):
    """What `dot` says of these arrows, a line of words each."""
    lines = ["n%d -> n%d;" % it for it in pairs]
    nodes = "node [shape=box, fixedsize=true, width=%.3f, height=%.3f];" % (WIDE / 72, HIGH / 72)
    text = "digraph { rankdir=%s; ranksep=0.35; nodesep=0.2; %s\n%s\n}\n" % (direction, nodes, "\n".join(lines))
    done = subprocess.run(["dot", "-Tplain"], input=text.encode(), stdout=subprocess.PIPE, check=True, timeout=SECONDS)
    # A long line ends with a backslash.
    return [line.split() for line in done.stdout.decode().replace("\\\n", "").split("\n")]


def width_of(lines):
    return 72 * float(lines[0][2])


def box(patch, x, y):
    left, top = x - WIDE / 2, y - HIGH / 2
    name, who = plain(named(patch)), plain(person(patch["author"]))
    line = '<text%s x="%.1f" y="%.1f">%s</text>'
    lines = line % ("", left + 8, top + 16, html.escape(fitting(name))), line % (' class="dim"', left + 8, top + 32, html.escape(fitting(who)))
    rect = '<rect x="%.1f" y="%.1f" width="%d" height="%d" rx="5"/>' % (left, top, WIDE, HIGH)
    tagged = ' class="tagged"' if patch["tag"] else ""
    return '<a href="%s"%s><title>%s</title>%s%s%s</a>\n' % (patch["page"], tagged, html.escape(name), rect, *lines)


def arrow(points):
    """A line along these points, and its head: towards what is depended on."""
    path = "M%.1f,%.1f C%s" % (*points[0], " ".join("%.1f,%.1f" % it for it in points[1:]))
    (x0, y0), (x, y) = points[-2:]
    length = max(((x - x0) ** 2 + (y - y0) ** 2) ** 0.5, 0.01)
    dx, dy = (x - x0) / length, (y - y0) / length
    head = ((x + 9 * dx, y + 9 * dy), (x - 3.5 * dy, y + 3.5 * dx), (x + 3.5 * dy, y - 3.5 * dx))
    return '<path d="%s"/><polygon points="%s"/>\n' % (path, " ".join("%.1f,%.1f" % it for it in head))


def is_drawn():
    """Whether `dot` is here."""
    return shutil.which("dot") is not None


def svg(patches):
    """The picture, or why there is none."""
    pairs = arrows(patches)
    if not pairs:
        return "<p>None names another.</p>\n"
    try:
        lines = placed(pairs, "TB")
        if width_of(lines) > BROAD:
            lines = min(lines, placed(pairs, "LR"), key=width_of)
    except (OSError, subprocess.SubprocessError):
        return "<p>There is no picture, since <code>dot</code> of graphviz doesn't run here.</p>\n"
    width, height = width_of(lines), 72 * float(lines[0][3])
    at = lambda x, y: (72 * float(x) + 2, height - 72 * float(y) + 2)
    parts = []
    for words in lines:
        if words[:1] == ["edge"]:
            numbers = words[4:4 + 2 * int(words[3])]
            parts.append(arrow([at(*it) for it in zip(numbers[::2], numbers[1::2])]))
    parts += [box(patches[int(words[1][1:])], *at(*words[2:4])) for words in lines if words[:1] == ["node"]]
    return '<div class="picture"><svg width="%d" height="%d" role="img">\n%s</svg></div>\n' % (width + 4, height + 4, "".join(parts))
