"""Mirrors, a poster and the broker are killed and stopped."""
import os
import random
import re
import shutil
import subprocess
import sys
import time

from counting import is_so
from lib import PATIENCE, RECIPE, Broker, Mirror, good, info, name_of, processes
from program import DM

BUNDLES = int(os.environ.get("BUNDLES", "60"))
SEED = int(os.environ.get("SEED", "1"))
POSTERS = ["ann", "bob", "eve"]
# It sends one bundle, once the others have ended. A mirror that has answered it has answered all that was sent.
LAST = "zoe"
MIRRORS = ["north", "south", "west"]
# So few bundles may wait at a mirror, so that posters have to wait.
BOUND = "20"
# How often mirrors with a fault are tried. Each time finds it as a rule.
TRIES = 10


def bad(poster, number):
    """A bundle that is refused wherever the poster's first one is held: for its context, or since it conflicts."""
    if number % 2:
        return "New patches:\n\n%sadddir ./d\n\nContext:\n\n%s\n" % (info(poster + " bad", number), info("nobody", number))
    return "New patches:\n\n%s{\naddfile ./%s\n}\n\nContext:\n\n" % (info(poster + " bad", number), poster)


class Bundles:
    """Every poster's bundles, in files."""

    def __init__(self, folder, count):
        self.paths, self.texts, self.files, self.good, self.infos = {}, {}, {}, {}, {}
        for poster, many in [(poster, count) for poster in POSTERS] + [(LAST, 1)]:
            self.paths[poster], self.good[poster] = [], []
            for number in range(many):
                self.add(folder, poster, "%03d" % number, good(poster, number))
                self.good[poster].append(name_of(good(poster, number).encode()))
                self.infos[info(poster, number).encode()] = self.good[poster][-1]
                if number % 10 in (3, 8):
                    self.add(folder, poster, "%03d-bad" % number, bad(poster, number))

    def add(self, folder, poster, number, text):
        path = os.path.join(folder, "%s-%s" % (poster, number))
        with open(path, "w", encoding="ascii") as file:
            file.write(text)
        self.paths[poster].append(path)
        self.texts[name_of(text.encode())] = text.encode()
        self.files[name_of(text.encode())] = path

    def words(self, draw, poster):
        """The poster's files in its order, with about every fourth once more at some time after that."""
        words = []
        for number, path in enumerate(self.paths[poster]):
            words.append(path)
            if draw.random() < 0.25:
                words.append(self.paths[poster][draw.randrange(number + 1)])
        return words

    def refused(self):
        held = {name for names in self.good.values() for name in names}
        return set(self.texts) - held


class Run:
    """One run of the recipe, and what it left."""

    def __init__(self, recipe, folder, broker, draw, count):
        os.makedirs(folder)
        self.folder, self.broker, self.draw, self.recipe = folder, broker, draw, recipe
        self.environment = dict(broker.environment, DM=DM, BROKERS=broker.url(), EXCHANGE=os.path.basename(folder), BOUND=BOUND)
        self.bundles = Bundles(folder, count)
        self.mirrors = [Mirror(recipe, folder, self.environment, "%s-%s" % (os.path.basename(folder), name), draw) for name in MIRRORS]
        self.kills, self.restarted, self.lost, self.posters = 0, False, {}, {}
        self.since, self.before = time.monotonic(), None

    def poster(self, words):
        with open(os.path.join(self.folder, "posters"), "ab") as told:
            return subprocess.Popen([os.path.join(self.recipe, "poster"), *words], env=self.environment,
                                    stdin=subprocess.DEVNULL, stdout=told, stderr=told)

    def sums(self):
        """How many answers each mirror has given."""
        return [len(mirror.lines()) for mirror in self.mirrors]

    def step(self):
        """Waits a little, starts the mirrors that have ended, and breaks off where nothing has come for long."""
        time.sleep(self.draw.uniform(0, 0.1))
        for mirror in self.mirrors:
            mirror.look()
        if self.sums() != self.before:
            self.since, self.before = time.monotonic(), self.sums()
        elif time.monotonic() - self.since > PATIENCE:
            sys.exit("no mirror has answered for %d s: %s" % (PATIENCE, self.tails()))

    def go(self, restart):
        """Sends all, with kills, and in the middle the broker's stop and start where that is asked for. It has ended once
        every mirror has answered the last bundle."""
        words = {poster: self.bundles.words(self.draw, poster) for poster in POSTERS}
        # A bundle goes to the queues that there are, so posters start once every mirror has made its own.
        while not all(mirror.is_ready() for mirror in self.mirrors):
            self.step()
        for poster in POSTERS:
            self.posters[poster] = self.poster(words[poster])
        part, again = len(words["ann"]), True
        while any(process.poll() is None for process in self.posters.values()):
            self.kill_the_due()
            if again and min(self.sums()) * 2 > part:
                again = False
                self.posters["ann"].kill()
                self.posters["ann"].wait()
                self.posters["ann"] = self.poster(words["ann"])
            if restart and not self.restarted and min(self.sums()) > part:
                self.broker.call("stop")
                self.broker.call("start")
                self.restarted = True
            self.step()
        self.posters[LAST] = self.poster(self.bundles.paths[LAST])
        last = self.bundles.good[LAST][0]
        while self.posters[LAST].poll() is None or not all(last in dict(mirror.lines()) for mirror in self.mirrors):
            self.step()
        for mirror in self.mirrors:
            mirror.kill(True)
        return all(process.returncode == 0 for process in self.posters.values())

    def kill_the_due(self):
        for mirror in self.mirrors:
            if mirror.is_due():
                time.sleep(self.draw.uniform(0, 0.1))
                mirror.kill(self.draw.random() < 0.5)
                self.kills += 1

    def tails(self):
        """The last lines of what the mirrors and the posters have told."""
        found = []
        for path in [mirror.errors for mirror in self.mirrors] + [os.path.join(self.folder, "posters")]:
            if os.path.exists(path):
                with open(path, "rb") as file:
                    found += file.read().splitlines()[-1:]
        return found

    def shown(self, mirror, *words):
        """What `dm` shows of a mirror after a verdict."""
        path = os.path.join(self.folder, mirror.name + ".dm")
        done = subprocess.run([DM, "apply", "--mirror", path, *words], stdin=subprocess.DEVNULL, stdout=subprocess.PIPE, check=False)
        return done.stdout.partition(b"\n")[2]

    def held(self, repository):
        """The names of the bundles whose patches it holds, in order; None for each patch that no poster has sent."""
        return [self.bundles.infos.get(line) for line in infos_of(repository)]

    def lacking(self, held):
        """The posters of whom there isn't each bundle, once and in order."""
        good_of = self.bundles.good
        return [poster for poster in good_of if [name for name in held if name in good_of[poster]] != good_of[poster]]

    def faults(self, mirror):
        """What is wrong with a mirror, in words: the checks that fail."""
        repository, lines = self.shown(mirror, "--bundle"), mirror.lines()
        held = self.held(repository)
        for poster in self.lacking(held):
            yield "it hasn't each bundle of %s, once and in that order" % poster
        if len(held) != sum(map(len, self.bundles.good.values())):
            yield "it holds %d patches" % len(held)
        firsts = list(dict.fromkeys(name for name, _ in lines))
        if [name for name in firsts if name in held] != held:
            yield "it has answered in another order than that of its patches"
        if set(firsts) != set(self.bundles.texts):
            yield "it hasn't answered every bundle"
        if self.once_more(mirror, [name for name in held if name]) != repository:
            yield "a mirror that was never killed holds another repository"
        yield from self.fold_faults(mirror, held, lines)
        yield from self.refused_faults(mirror, lines)

    def fold_faults(self, mirror, held, lines):
        """Its verdicts and its tree are those of the plain fold."""
        # What comes again once it was taken is no part of the fold, which has at most 1,000 bundles.
        told, seen = [], set()
        for name, verdict in lines:
            if name not in held or name not in seen:
                told.append((name, verdict))
            elif verdict != "nothing new":
                yield "%s comes again, and it answers %s" % (name, verdict)
            seen.add(name)
        verdicts, listing = self.plain([name for name, _ in told])
        self.lost[mirror.name] = 0
        for (name, verdict), plain in zip(told, verdicts):
            if plain.startswith("taken") and verdict == "nothing new":
                self.lost[mirror.name] += 1  # it was killed once the bundle was taken, and before it could say so
            elif plain != verdict:
                yield "it has answered %s by %s, where the plain fold answers %s" % (name, verdict, plain)
        if len(verdicts) != len(told) or listing != self.shown(mirror):
            yield "the plain fold ends with another tree"

    def plain(self, names):
        """The verdicts and the listing where `dm run` has one mirror take these bundles, one after the other."""
        words = ["ann=" + self.bundles.files[name] for name in names]
        done = subprocess.run([DM, "run", "--mirrors", "1", "--bound", "8", *words], stdout=subprocess.PIPE, check=False)
        verdicts = [line.decode().split(" ", 3)[3] for line in done.stdout.split(b"\n") if line.startswith(b"bundle ")]
        listing = [line + b"\n" for line in done.stdout.split(b"\n") if line.startswith((b"file ", b"dir "))]
        return verdicts, b"".join(listing)

    def once_more(self, mirror, names):
        """The repository of a new mirror that takes these bundles in one call."""
        path = os.path.join(self.folder, mirror.name + "-once-more.dm")
        paths = [self.bundles.files[name] for name in names]
        done = subprocess.run([DM, "apply", "--mirror", path, "--bundle", *paths], stdout=subprocess.PIPE, check=False)
        return done.stdout.split(b"\n", len(names))[-1]

    def refused_faults(self, mirror, lines):
        """The folder has what is to be refused, each as it was sent and with a verdict that was given to it."""
        folder = os.path.join(self.folder, mirror.name + ".refused")
        if set(os.listdir(folder)) != {name + end for name in self.bundles.refused() for end in (".bundle", ".why")}:
            yield "its folder has other bundles than those that are to be refused"
            return
        for name in self.bundles.refused():
            with open(os.path.join(folder, name + ".bundle"), "rb") as file:
                if file.read() != self.bundles.texts[name]:
                    yield "%s stands in its folder otherwise" % name
            with open(os.path.join(folder, name + ".why"), "rb") as file:
                verdict, _, why = file.read().decode().partition("\n")
            if (name, verdict) not in lines or not why:
                yield "of %s its folder says %s" % (name, verdict)


def infos_of(bundle):
    """The patch info of each patch, in order. Here each is two lines long, and only dependencies and contexts have one more."""
    found = []
    lines = bundle.split(b"\n")
    for number, line in enumerate(lines):
        if line == b"Context:":
            break
        if line.startswith(b"["):
            found.append(line + b"\n" + lines[number + 1].partition(b"]")[0] + b"] ")
    return found


def faulty_recipe(folder):
    """The recipe with a mirror that acknowledges before `dm` has the bundle."""
    shutil.copytree(RECIPE, folder)
    path = os.path.join(folder, "mirror")
    with open(path, encoding="ascii") as file:
        text = file.read()
    wrong, count = re.subn(r"( +[^\n]*\btake\([^\n]*\n)( +channel\.basic_ack\([^\n]*\n)", r"\2\1", text)
    if count != 1:
        sys.exit("tests/queue: the mirror has no line that acknowledges")
    with open(path, "w", encoding="ascii") as file:
        file.write(wrong)
    return folder


def check_recipe(run, all_sent):
    """Counts what the run left."""
    is_so("a poster has not sent all", all_sent)
    is_so("the broker wasn't stopped and started", run.restarted)
    is_so("no mirror was killed", run.kills > 0)
    is_so("no bundle came twice to a mirror", all(count > len(run.bundles.texts) for count in run.sums()))
    for mirror in run.mirrors:
        faults = list(run.faults(mirror))
        is_so("%s: %s" % (mirror.name, "; ".join(faults)), not faults)
    for left, right in ((0, 1), (1, 2)):
        names = [run.mirrors[left].name, run.mirrors[right].name]
        done = subprocess.run([os.path.join(RECIPE, "compare"), *names], cwd=run.folder, env=run.environment,
                              capture_output=True, check=False)
        is_so("%s and %s differ" % tuple(names), done.returncode == 0)


def loses(recipe, folder, broker, draw):
    """Whether a run of this recipe ends with a mirror that lacks a bundle."""
    run = Run(recipe, folder, broker, draw, 12)
    run.go(restart=False)
    told(run)
    return any(run.lacking(run.held(run.shown(mirror, "--bundle"))) for mirror in run.mirrors)


def told(run):
    print("tests/queue: %s: %d bundles, %d kills, %s answers, %d of them after a kill that came before the answer" % (
        os.path.basename(run.folder), len(run.bundles.texts), run.kills, run.sums(), sum(run.lost.values())), flush=True)


def check(work):
    draw = random.Random(SEED)
    broker = Broker(work)
    broker.call("start")
    run = Run(RECIPE, os.path.join(work, "sent"), broker, draw, BUNDLES)
    check_recipe(run, run.go(restart=True))
    told(run)
    recipe = faulty_recipe(os.path.join(work, "recipe"))
    found = any(loses(recipe, os.path.join(work, "wrong%d" % number), broker, draw) for number in range(TRIES))
    is_so("bundles that are acknowledged too early aren't missed", found)
    broker.call("stop")
    is_so("something goes on after the broker was stopped", not processes(work))
