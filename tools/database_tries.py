"""What the tools that try the database share: lines, the logs of a server, a run of the program, and how a try is counted.

Nothing is taken from the program's own answers: the reports come from the calculation in goaccess_oracle.py.
"""
import os
import shutil
import stat
import subprocess
import tempfile

import goaccess_oracle as oracle

SIDES = ("goaccess.side0", "goaccess.side1")
# so many first bytes of a log are digested, at most
PAGE = 4096
TOP = os.path.dirname(os.path.dirname(os.path.abspath(__file__)))
# a run that takes longer is taken for one that hangs
SECONDS = 60
# the program runs as this user where the tool runs as root, so that a folder can be shut to it
NOBODY = 65534
# with so many failed tries a part ends, since those that follow would mostly fail too
ENOUGH = 5
COMBINED = "--log-format=COMBINED"
TRACKED = [COMBINED, "--restore", "--persist", "--jobs=4", "--chunk-size=3"]
DEVICE = b"goaccess: database: device failed\n"
AGENTS = [
    b"Mozilla/5.0 (X11; Linux x86_64; rv:124.0) Gecko/20100101 Firefox/124.0",
    b"Mozilla/5.0 (Windows NT 10.0; Win64; x64) AppleWebKit/537.36 (KHTML, like Gecko) Chrome/122.0.0.0 Safari/537.36",
    b"Mozilla/5.0 (compatible; Googlebot/2.1; +http://www.google.com/bot.html)",
    b"curl/8.4.0",
    b"-",
]
REFERRERS = [b"-", b"-", b"https://www.example.org/start", b"https://www.google.com/search?q=web+logs"]


def first_difference(got, wanted):
    """Both from a little before the place where they begin to differ."""
    at = next((at for at, (a, b) in enumerate(zip(got, wanted)) if a != b), min(len(got), len(wanted)))
    return f"from byte {at}\n    {got[max(0, at - 60):at + 100]!r}\n  not\n    {wanted[max(0, at - 60):at + 100]!r}"


def sides_of(folder):
    """The bytes of both sides; None of one that isn't there."""
    found = []
    for name in SIDES:
        try:
            with open(os.path.join(folder, name), "rb") as side:
                found.append(side.read())
        except FileNotFoundError:
            found.append(None)
    return found


def write_sides(folder, sides):
    for name, side in zip(SIDES, sides):
        with open(os.path.join(folder, name), "wb") as out:
            out.write(side)


class Lines:
    """Makes lines of a log in the combined format. Each has a number that no other has, so that a log is known by its first."""

    def __init__(self, rng):
        self.rng, self.made = rng, 0

    def one(self, wide):
        """A line with its end. A wide one has a host of its own, so that the database grows by it."""
        rng = self.rng
        self.made += 1
        kind = rng.random()
        if kind < 0.04:
            return b"%s %d\n" % (rng.choice([b"broken", b"#"]), self.made)
        host = b"10.%d.%d.%d" % (self.made >> 16 & 255, self.made >> 8 & 255, self.made & 255) if wide else b"192.0.2.%d" % rng.randrange(60)
        when = b"%02d/Mar/2024:%02d:%02d:00 +0000" % (rng.randint(1, 28), rng.randrange(24), rng.randrange(60))
        request = b"%s /page/%d%s HTTP/1.1" % (rng.choice([b"GET", b"POST"]), rng.randrange(80), rng.choice([b"", b".css", b"?a=%20b"]))
        status, referrer, agent = rng.choice([200, 200, 304, 404, 500]), rng.choice(REFERRERS), rng.choice(AGENTS)
        end = b"\r\n" if kind < 0.06 else b"\n\n" if kind < 0.08 else b"\n"
        return b'%s - - [%s] "%s" %d %d "%s" "%s"%s' % (host, when, request, status, self.made, referrer, agent, end)

    def some(self, number, wide=False):
        return b"".join(self.one(wide) for _ in range(number))


class Logs:
    """The logs a.log and a.log.1 of a server that appends lines, now and then a part of one, and rotates. All whole lines so far
    are counted here, each once; a line is whole once its end is written."""

    def __init__(self, folder, lines):
        self.folder, self.lines, self.rng = folder, lines, lines.rng
        self.settings = oracle.read_words([b"--log-format=COMBINED", b"a.log"])
        self.setup, self.summary = oracle.LineSetup(self.settings), oracle.Summary()
        # of each log its bytes, how many of them are whole lines, and the rest of a line that was begun
        self.text, self.whole, self.rest = {}, {}, {}
        self.write("a.log", b"")

    def write(self, name, text):
        with open(os.path.join(self.folder, name), "ab") as log:
            log.write(text)
        self.text[name] = self.text.get(name, b"") + text
        begin, end = self.whole.get(name, 0), self.text[name].rfind(b"\n") + 1
        for line in oracle.lines_of(self.text[name][begin:end]):
            self.summary.count(self.settings, [], self.setup, line)
        self.whole[name] = end

    def grow(self, name, number, wide=False):
        """Appends so many lines behind what is begun, and now and then keeps a part of that back."""
        text = self.rest.pop(name, b"") + self.lines.some(number, wide)
        kept = self.rng.randrange(len(text) + 1) if self.rng.random() < 0.4 else len(text)
        self.write(name, text[:kept])
        self.rest[name] = text[kept:]

    def rotate(self):
        os.replace(os.path.join(self.folder, "a.log"), os.path.join(self.folder, "a.log.1"))
        for held in (self.text, self.whole, self.rest):
            if "a.log" in held:
                held["a.log.1"] = held.pop("a.log")
        self.write("a.log", b"")

    def change(self, may_rotate):
        """What a server does between two runs. After a rotation it may still write to the older log for a while."""
        rng = self.rng
        if may_rotate and rng.random() < 0.35:
            self.rotate()
            if rng.random() < 0.5:
                self.grow("a.log.1", rng.randrange(4))
        for _ in range(rng.randrange(3)):
            self.grow("a.log", rng.choice([0, 1, 3, 20, 60]))

    def names(self):
        names = sorted(self.text)
        self.rng.shuffle(names)
        return names

    def report(self):
        """The report over all whole lines."""
        return oracle.json_text(oracle.report_of(self.settings, self.summary))

    def wanted(self):
        return 0, self.report(), b""


def cut_place(rng, text, db):
    """Where a log is cut: anywhere, at an end of a line, or near a place that matters to how a log is known again."""
    near = [offset for _, _, offset in db.entries] + [lead for lead, _, _ in db.entries] + [PAGE, len(text)]
    places = [rng.randrange(len(text) + 1), text.rfind(b"\n", 0, rng.randrange(len(text) + 1)) + 1, rng.choice(near) + rng.choice([-1, 0, 0, 1]), 0]
    return max(0, min(len(text), rng.choice(places)))


def change_files(rng, lines, files, db):
    """One change to the logs, of those that no server makes among them."""
    name = rng.choice(sorted(files))
    text = files[name]
    kind = rng.choice("append append append cut cut cut-append byte front copy swap anew".split())
    if kind in ("cut", "cut-append"):
        text = text[: cut_place(rng, text, db)]
    if kind in ("append", "cut-append", "front"):
        more = lines.some(rng.choice([0, 1, 3, 40]))
        more = more[: rng.randrange(len(more) + 1)] if rng.random() < 0.4 else more
        text = more + text if kind == "front" else text + more
    if kind == "byte" and text:
        at = rng.randrange(min(len(text), rng.choice([200, PAGE, len(text)])))
        text = text[:at] + bytes([text[at] ^ 1]) + text[at + 1 :]
    if kind == "anew":
        text = lines.some(rng.choice([0, 1, 50]))
    if kind == "copy":
        text = files[rng.choice(sorted(files))]
    if kind == "swap":
        other = rng.choice(sorted(files))
        files[other], text = text, files[other]
    files[name] = text
    return kind


class Followed:
    """Logs that grow and change their names, and what the runs over them may have kept. Nothing is known of a database but what
    each run may have read."""

    def __init__(self, words):
        # the words of a run without a database; of each log its bytes; and which log has a name now
        self.words, self.texts, self.names = words, [], {}
        # what may be kept: of each log that was read the place up to which its lines are counted
        self.may = [{}]

    def append(self, name, text):
        """Appends to a log, which is made if it isn't there."""
        log = self.names.setdefault(name, len(self.texts))
        if log == len(self.texts):
            self.texts.append(b"")
        self.texts[log] += text

    def end_of(self, log, is_kept):
        """The place up to which a run reads a log. One that is kept leaves a line that isn't ended."""
        return self.texts[log].rfind(b"\n") + 1 if is_kept else len(self.texts[log])

    def reads(self, mode, names):
        """What may have been read after a run, in the order of what may be kept where it goes on from that."""
        ends = {self.names[name]: self.end_of(self.names[name], "--persist" in mode) for name in names}
        return [{**kept, **ends} for kept in (self.may if "--restore" in mode else [{}])]

    def one_pass(self, read):
        """The report of one run without a database over what was read of each log."""
        files = {b"%d" % log: self.texts[log][:end] for log, end in read.items()} or {b"none": b""}
        return oracle.run([*(word.encode() for word in self.words), *files], files)[1]


class Tries:
    """The program, the folder that it is tried in, and how many tries passed."""

    def __init__(self, path, program, rng, rounds, kept):
        self.path, self.program, self.rng, self.rounds, self.kept = path, program, rng, rounds, kept
        self.lines = Lines(rng)
        self.passed = self.failed = 0

    def folder(self, name):
        path = os.path.join(self.path, name)
        os.mkdir(path)
        os.chmod(path, 0o777)
        return path

    def start(self, words, folder, out=None):
        """Starts a run whose outputs go to files of their own, so that it never waits for a reader."""
        out, err = out or tempfile.TemporaryFile(), tempfile.TemporaryFile()
        settings = dict(cwd=folder, stdin=subprocess.DEVNULL, stdout=out, stderr=err)
        if os.geteuid() == 0:
            settings.update(user=NOBODY, group=NOBODY, extra_groups=[])
        child = subprocess.Popen([self.program, *words], **settings)
        child.took = (out, err)
        return child

    def end(self, child):
        """The status, standard output and standard error of a run that is under way."""
        try:
            status = child.wait(SECONDS)
        except subprocess.TimeoutExpired:
            child.kill()
            child.wait()
            status = "no end"
        held = []
        for target in child.took:
            with target:
                target.seek(0)
                held.append(target.read() if target.readable() else b"")
        return status, *held

    def run(self, words, folder, out=None):
        return self.end(self.start(words, folder, out))

    def check(self, name, got, wanted):
        """Counts a try, and says what it had that isn't wanted."""
        if got == wanted:
            self.passed += 1
            return True
        if isinstance(wanted, tuple) and len(wanted) == 3 and isinstance(wanted[1], bytes):
            wrong = [] if got[0] == wanted[0] else [f"status {got[0]}, not {wanted[0]}"]
            if got[1] != wanted[1]:
                wrong.append(f"standard output {first_difference(got[1], wanted[1])}")
            if got[2] != wanted[2]:
                wrong.append(f"standard error {got[2][:200]!r}, not {wanted[2]!r}")
        else:
            wrong = [f"{str(got)[:300]}\n  not\n    {str(wanted)[:300]}"]
        return self.wrong(name, wrong)

    def wrong(self, name, said):
        """Counts a try that failed, says what was wrong, and leaves the files."""
        self.failed += 1
        print(f"{name}:\n  " + "\n  ".join(said))
        if self.kept:
            shutil.copytree(self.path, f"{self.kept}-{self.failed}", symlinks=True, ignore=pipes, dirs_exist_ok=True)
        return False


def pipes(folder, names):
    """Those of the names that are pipes, which can't be copied."""
    return [name for name in names if stat.S_ISFIFO(os.lstat(os.path.join(folder, name)).st_mode)]


def at_db(folder):
    return f"--db-path={folder}"


def built():
    """The built program."""
    subprocess.run([os.path.join(TOP, "goaccess"), "--version"], stdout=subprocess.DEVNULL, check=True)
    return os.path.join(TOP, "crates", "goaccess", "out", "goaccess")
