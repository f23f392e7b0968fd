"""Histories of one author who sends each patch, or each few, with the context that darcs leaves, and now and then replaces a word."""
from counting import holds, sees
from repositories import Repositories
from trees import read, tree, write

# How many patches a short history has, and a long one; and how often the mirror sends what a reader lacks.
SHORT, LONG, OFTEN = 16, 80, 8
NAMES = ("count", "total", "buffer", "index", "length", "value", "first", "last")
FORMS = ("    %s += %s;", "    if (%s < %s)", "        return %s(%s, 0);", "    %s = 2 * %s;", "", "    }", "    /* %s before %s */")


class Sends(Repositories):
    """An author, the project, somebody who only reads, and a mirror."""

    def __init__(self, kind, work, draw, steps):
        super().__init__(kind, work)
        self.draw, self.steps, self.what = draw, steps, "%s, %s" % (kind, work)
        self.count, self.share = 0, draw.uniform(0.02, 0.05)
        # What each name is called in each file by now.
        self.called = {"f%d.c" % it: {name: name for name in NAMES} for it in range(4 if steps == SHORT else 10)}

    def fresh(self):
        self.count += 1
        return self.count

    def line(self, path):
        form = self.draw.choice(FORMS)
        return form % tuple(self.draw.choice(list(self.called[path].values())) for _ in range(form.count("%s")))

    def lines(self, path, count):
        return "".join(self.line(path) + "\n" for _ in range(count)).encode()

    def edit(self):
        """Other lines in one or two files."""
        for path in self.draw.sample(sorted(self.called), self.draw.choice((1, 1, 2))):
            texts = read(self.path("author"), path).splitlines(keepends=True)
            for _ in range(self.draw.choice((1, 1, 2))):
                at = self.draw.randint(0, len(texts))
                texts[at : at + self.draw.randrange(3)] = self.lines(path, self.draw.randrange(3)).splitlines(keepends=True)
            write(self.path("author"), path, text=b"".join(texts))

    def move(self):
        path, new = self.draw.choice(sorted(self.called)), "moved%d.c" % self.fresh()
        self.darcs("author", "move", "-q", path, new)
        self.called[new] = self.called.pop(path)

    def respell(self):
        """Another word for one, in a file or in all that have it."""
        name, word = self.draw.choice(NAMES), "w%d" % self.fresh()
        path = self.draw.choice(sorted(self.called))
        old = self.called[path][name]
        is_one = self.draw.random() < 0.5
        paths = [path] if is_one else [it for it, words in sorted(self.called.items()) if words[name] == old]
        self.darcs("author", "replace", "-q", old, word, *paths)
        for it in paths:
            self.called[it][name] = word

    def step(self, at):
        """One patch."""
        is_replace, before = at == 2 or self.draw.random() < self.share, None
        # Where changes take each other back there is nothing to record.
        while before in (None, tree(self.path("author"))):
            before = tree(self.path("author"))
            (self.respell if is_replace else self.draw.choice([self.edit] * 15 + [self.move]))()
        self.darcs("author", "record", "-q", "-a", "-l", "--ignore-times", "-m", "step %d" % at)
        sees("patches")
        if is_replace:
            sees("replaces")
            self.replaces.append(b"[step %d\n" % at)

    def sent(self):
        """What the project lacks comes to it and to the mirror."""
        bundle = self.path("%d.dpatch" % self.fresh())
        self.darcs("author", "send", "-q", "-a", "--no-edit-description", "--no-set-default", "-o", bundle, self.path("project"))
        found = self.dm("apply", "--mirror", "m", "--quiet", "--explain", bundle)
        sees("bundles")
        if any(it not in read(bundle) for it in self.replaces):
            sees("bundles whose context lacks a replace")
        if not holds("%s: %s: %r" % (self.what, bundle, found[2]), (found[0], found[1][:6]), (0, b"taken ")):
            sees("refused")
        self.darcs("project", "apply", "-q", "-a", "--no-allow-conflicts", "--no-test", bundle)
        holds("%s: the files after %s" % (self.what, bundle), self.tree("m"), tree(self.path("project")))

    def sends_back(self):
        """Somebody who only reads takes what they lack from the mirror."""
        write(self.path("told"), text=self.darcs("reader", "log", "--context"))
        words = self.draw.choice(((), ("--minimal",)))
        write(self.path("answer.dpatch"), text=self.said("send", "--mirror", "m", "--to", "told", *words))
        self.darcs("reader", "apply", "-q", "-a", "--no-allow-conflicts", "--no-test", self.path("answer.dpatch"))
        sees("sent back")
        holds("%s: the files of a reader" % self.what, tree(self.path("reader")), tree(self.path("project")))

    def run(self):
        self.replaces = []
        for folder in "author", "project", "reader":
            self.darcs("", "init", "-q", "--" + self.kind, folder)
        self.said("init", "--mirror", "m", "--all-kinds")
        for path in self.called:
            write(self.path("author"), path, text=self.lines(path, 20))
        self.record("author", "start")
        self.sent()
        wait = 0
        for at in range(self.steps):
            self.step(at)
            if wait and at < self.steps - 1:
                wait -= 1
                continue
            self.sent()
            if at == self.steps - 1 or at % OFTEN == OFTEN - 1:
                self.sends_back()
            # Most of the time one patch is sent, and sometimes four at once.
            wait = 3 if self.draw.random() < 0.1 else 0
        holds("%s: the patches" % self.what, sorted(self.patches_of("reader")), sorted(self.patches_of("author")))
