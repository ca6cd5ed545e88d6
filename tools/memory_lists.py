"""Random lists of steps in memory, for try-database. They are made and written by the rules of make_cases.py, take the place of
the fixed table in a copy of the sources, and are run there by `rt try --test`, which compiles with checks and proves nothing.

Nothing is taken from the program's own answers. Of each run it is worked out which statuses it may end with and what it may
print: a good run prints one pass by goaccess_oracle.py over all lines that it and the kept runs before it read, and a run that is
cut keeps all that it read, or nothing.
"""
import collections
import os
import re
import shutil
import subprocess
import tempfile

import make_cases
from database_tries import ENOUGH, TOP, Followed

CRATE = "ga_history_tests"
# the most lists of one compilation: rt try shows a megabyte
MOST = 400
# how long the test may run
SECONDS = 600
# calls of the disk: a database is found by an open, and by a sync and a look at the size of each side; a run makes at most so
# many, where each side is read by one call; and so many are enough for any run
FINDING, ENDING, ALL_CALLS = 5, 16, 10000
# a growth of sixty lines is longer than the front of a log by which it is known again
GROWTHS = [0, 0, 0, 0, 1, 1, 1, 1, 2, 2, 2, 3, 3, 3, 4, 60]
PAGES = "/0 /1 /2 /3 /4 /5 /6 /7 !".split()
# what a list is made of: runs of these modes, and the rest
KINDS = "growth growth growth growth rotation renaming track track track track show show anew cut cut cut cut".split()
# what takes the place of the test that holds the fixed table to its answers
TEST = '''#[test]
fn lists_answer(rt: HostRuntime) -> Result<(), Fail> {
    for given in LISTS.lines() {
        let said = answer(&rt, rt.alloc(), given, ALL_CALLS)?;
        println!(rt; "=> {said}")?;
    }
    Ok(())
}
'''


class Named(make_cases.Steps, Followed):
    """The logs of a list of steps."""

    def __init__(self):
        super().__init__(make_cases.CSV[:-1])

    def grow(self, name, text):
        self.append(name, text)

    def rename(self, old, new):
        if old in self.names and new not in self.names:
            self.names[new] = self.names.pop(old)


# ------------------------------------------------------------------------------------------------ lists are made


class Made(Named):
    """A random list of steps. No two logs begin with the same line, by which a log is known again."""

    def __init__(self, rng):
        super().__init__()
        # its steps, and the logs whose last line was begun
        self.rng, self.steps, self.begun = rng, [], set()
        self.growth()
        for _ in range(rng.choice((6, 12, 30))):
            self.add_one(rng.choice(KINDS))

    def run(self, mode, logs):
        """A run changes no log."""

    def crash(self, calls, mode, logs):
        """Nor does a crash."""

    def add(self, step):
        self.step(step)
        self.steps.append(step)

    def add_one(self, kind):
        if kind in make_cases.MODES:
            self.add(self.run_of(kind))
        else:
            getattr(self, kind)()

    def growth(self):
        """A log grows by some lines. One that was begun is ended first, and the last is begun now and then."""
        rng = self.rng
        name = rng.choice(("a.log", "a.log", "b.log", *sorted(self.names)))
        log = self.names.get(name, len(self.texts))
        first = f"/log{log}" if log == len(self.texts) else "~" if log in self.begun else rng.choice(("/0", "!"))
        pages = [first, *(rng.choice(PAGES) for _ in range(rng.choice(GROWTHS)))]
        self.begun.discard(log)
        if pages[-1].startswith("/") and rng.random() < 0.3:
            pages[-1] += "~"
            self.begun.add(log)
        self.add(" ".join(["+", name, *pages]))

    def renaming(self):
        """Any name may be asked for, also one that is taken, and one of no log."""
        self.add(f"> {self.rng.choice(['c.log', *sorted(self.names)])} {self.rng.choice(('a.log', 'b.log', 'c.log', 'a.log.1'))}")

    def rotation(self):
        """Each log of a name becomes one older, and the next line begins a new one."""
        name = self.rng.choice(("a.log", "b.log"))
        names = [name]
        while names[-1] in self.names:
            names.append(f"{name}.{len(names)}")
        for newer, older in reversed(list(zip(names, names[1:]))):
            self.add(f"> {newer} {older}")

    def run_of(self, mode):
        """A run over some logs or all of them, in any order, and now and then over one twice, or over one that isn't there."""
        rng, names = self.rng, sorted(self.names)
        rng.shuffle(names)
        least = 0 if mode == "show" or rng.random() < 0.1 else 1
        names = names if rng.random() < 0.6 else names[: rng.randint(least, len(names))]
        more = rng.random()
        names += names[:1] if more < 0.1 else ["gone.log"] if more > 0.95 else []
        return " ".join([mode if names or mode != "anew" else "track", *names])

    def cut(self):
        """A run of which a random number of calls of the disk succeed, and a crash. Often what is kept is shown after it."""
        rng = self.rng
        early_or_late = (*range(make_cases.FEWEST), ALL_CALLS)
        calls = rng.randint(make_cases.FEWEST, ENDING) if rng.random() < 0.8 else rng.choice(early_or_late)
        pick = rng.choice(("-", *make_cases.PICKS, rng.randrange(256)))
        self.add(f"crash {calls} {pick} {self.run_of(rng.choice(('track', 'track', 'track', 'anew', 'show')))}")
        if rng.random() < 0.4:
            self.add("show")


def random_list(rng):
    """A list in the words of make_cases.py. In half of them a call is to fail, or an output has a room."""
    what, most = rng.choice([("disk", 60), ("files", 20), ("outs", 12), ("room", 8000)] + [("", 1)] * 4)
    setting = f"{what} {rng.randint(1, most)}: " if what else ""
    return setting + "; ".join(Made(rng).steps)


# ------------------------------------------------------------------------------------------------ answers are judged


class Outcome:
    """How a run may end: its status, what may be kept then, what is shown of what it prints, and the kept runs that it found."""

    def __init__(self, status, may, out=b"", found=()):
        self.status, self.may, self.took, self.found = status, may, len(out), list(found)
        self.report = make_cases.shown(out)

    def __str__(self):
        return f"{self.status} {self.report}".rstrip()


class Judged(Named):
    """Compares what a list of steps answered, run by run, with what it may answer."""

    def __init__(self, tries, seen, name, given, said):
        super().__init__()
        self.tries, self.seen, self.name = tries, seen, name
        setting, self.steps = make_cases.steps_of(given)
        self.setting, self.told, self.is_right = f"{setting}: " if setting else "", [], True
        statuses, *reports = said.split(" |")
        self.statuses, self.reports = list(statuses), [f"|{report}" for report in reports]
        # what of the calls listed to fail is left, and of a room
        self.failing, _, number = setting.partition(" ")
        self.room = int(number) if self.failing == "room" else None
        # what a run that was cut just before may have kept
        self.cut = []

    def judge(self):
        """Whether all runs of the list were right."""
        for step in self.steps:
            self.told.append(step)
            self.step(step)
            if not self.is_right:
                return False
        left = self.statuses + self.reports
        return not left or self.check(f"{self.name}, said of no run", left, [])

    def check(self, name, said, wanted):
        self.is_right = self.tries.check(f"{name}: {self.setting}{'; '.join(self.told)}", said, wanted)
        return self.is_right

    def good(self, mode, logs):
        """How a run may end that comes to its report."""
        reads = self.reads(mode, logs)
        found = self.may if "--restore" in mode else [{}]
        for had, read in zip(found, reads):
            out = self.one_pass(read)
            may = [read] if "--persist" in mode else [had] if "--restore" in mode else self.may
            is_short = self.room is not None and len(out) > self.room
            yield Outcome(4 if is_short else 0, may, out[: self.room], [had])
            if self.failing == "outs":
                yield Outcome(4, may)

    def outcomes(self, mode, logs, calls):
        """How a run may end of which so many calls of the disk may succeed."""
        is_there, is_kept = all(log in self.names for log in logs), "--persist" in mode
        if is_there and calls >= (make_cases.FEWEST if is_kept else FINDING):
            yield from self.good(mode, logs)
        if calls >= FINDING and (not is_there or logs and self.failing == "files"):
            yield Outcome(2, self.may)
        if calls < ENDING or self.failing == "disk":
            may_be_kept = is_there and is_kept and calls >= make_cases.FEWEST
            yield Outcome(3, self.may + (self.reads(mode, logs) if may_be_kept else []))

    def outcome(self, outcomes):
        """The outcome that a run had, all of those in one that look alike. None where it had none of them."""
        status, report = "".join(self.statuses[:1]), "".join(self.reports[:1])
        # (blanks at the end of a line may be lost on the way)
        fitting = [one for one in outcomes if str(one.status) == status and one.report.rstrip() in ("", report.rstrip())]
        said = f"{status} {report if status in ('0', '4') else ''}".rstrip()
        if not self.check(self.name, said, said if fitting else " or ".join(dict.fromkeys(map(str, outcomes)))):
            return None
        one = fitting[0]
        del self.statuses[:1], self.reports[: 1 if one.report else 0]
        for other in fitting[1:]:
            one.may = one.may + [read for read in other.may if read not in one.may]
            one.found += other.found
        return one

    def note(self, one, mode, logs):
        """Counts a run, and what became of one that was cut before it, where its report shows that."""
        self.seen[f"with status {one.status}"] += 1
        kept = {read in self.cut for read in one.found if "--restore" in mode}
        if self.cut and len(kept) == 1:
            self.seen["cut before and kept" if kept.pop() else "cut before and not kept"] += 1
        self.cut = []

    def spend(self, one, logs, calls):
        """One call is listed to fail in a list. Of a run that fails in a crash it isn't known whether that was the call."""
        is_there = all(log in self.names for log in logs)
        spent = {"files": one.status == 2 and is_there, "disk": one.status == 3 and calls == ALL_CALLS, "outs": one.status == 4}
        if spent.get(self.failing):
            self.failing = ""
        if self.room is not None:
            self.room -= one.took

    def run(self, mode, logs):
        self.one_run(mode, logs, ALL_CALLS)

    def crash(self, calls, mode, logs):
        before = self.may
        one = self.one_run(mode, logs, calls)
        if one and one.status == 3:
            self.cut = [read for read in one.may if read not in before]

    def one_run(self, mode, logs, calls):
        """The outcome of a run. One that prints what is kept has synced it before, so that no crash after it changes that."""
        mode = make_cases.MODES[mode]
        one = self.outcome(list(self.outcomes(mode, logs, calls)))
        if one:
            self.note(one, mode, logs)
            self.spend(one, logs, calls)
            self.may = one.may
        return one


# ------------------------------------------------------------------------------------------------ lists are run


def copied(path, lists):
    """A copy of the sources with these lists in place of the fixed table. Gives the folder of the crate that has it."""
    for name in ("crates.txt", "HANDLES"):
        shutil.copy(os.path.join(TOP, name), path)
    shutil.copytree(os.path.join(TOP, "crates"), os.path.join(path, "crates"), ignore=shutil.ignore_patterns("out"))
    crate = os.path.join(path, "crates", CRATE)
    make_cases.write_rows(os.path.join(crate, "src", "lists.rt"), [f"{given}\n" for given in lists])
    runs = os.path.join(crate, "src", "list_runs.rt")
    with open(runs, encoding="utf-8") as file:
        text = file.read()
    with open(runs, "w", encoding="utf-8") as file:
        file.write(text[: text.index("#[test]\n")] + TEST)
    return crate


def answers(lists):
    """What the lists answered, and all that was said of them."""
    with tempfile.TemporaryDirectory() as path:
        words = ["rt", "try", "--test", "--seconds", str(SECONDS)]
        outside = dict(stdin=subprocess.DEVNULL, stdout=subprocess.PIPE, stderr=subprocess.STDOUT)
        ran = subprocess.run(words, cwd=copied(path, lists), **outside)
    said = ran.stdout.decode("utf-8", "replace")
    # (rt shows what a test printed with an indent)
    return re.findall(r"^\s*=> (.*)$", said, re.M), said


def tried(tries):
    """Makes lists, runs them, and compares what they answer. Gives how often a run ended in which way."""
    if not shutil.which("rt"):
        return "left out: there is no rt on the PATH"
    lists = [random_list(tries.rng) for _ in range(max(8, min(MOST, 4 * tries.rounds)))]
    with open(os.path.join(tries.folder("memory"), "lists"), "w", encoding="utf-8") as file:
        file.write("\n".join(lists) + "\n")
    found, said = answers(lists)
    if len(found) < len(lists):
        tries.check(f"the lists that answered\n{said[-2000:]}", len(found), len(lists))
    return judged(tries, lists, found)


def judged(tries, lists, found):
    """Compares the answers of lists, each of them up to the first run that is wrong."""
    seen, right, wrong = collections.Counter(), 0, 0
    for number, (given, said) in enumerate(zip(lists, found)):
        is_right = Judged(tries, seen, f"list {number}", given, said).judge()
        right, wrong = right + is_right, wrong + (not is_right)
        if wrong >= ENOUGH:
            break
    return f"{right} lists right, {wrong} wrong; runs: " + ", ".join(f"{count} {name}" for name, count in sorted(seen.items()))
