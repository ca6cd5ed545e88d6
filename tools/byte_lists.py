"""Random lists of kept runs, for try-database. After each run both files of the database are compared with the bytes that
database_oracle.py calculates, and the run's answer with that of goaccess_oracle.py.

Lines, formats and options are made by compare.py. Between two runs logs grow, are renamed, cut, emptied, copied and changed, and
the two files may get what a crash leaves after their closed gates, which changes nothing of what is stored. A run has the number
of days that is stored, and now and then another; some lists begin with a database without a number, as an earlier program left it.
"""
import collections
import os
import re
import shutil
import tempfile

import compare
import database_oracle
import goaccess_oracle as oracle
from database_tries import ENOUGH, SIDES, at_db, change_files, first_difference, sides_of, write_sides

# kept runs for each of the 40 rounds that try-database has without --rounds
RUNS_A_ROUND = 7.5
# a snapshot, its records, and the snapshot after them
LONG = 1 + database_oracle.MOST_RECORDS + 1
TRACKED, ANEW, SHOWN, UNTRACKED = [b"--restore", b"--persist"], [b"--persist"], [b"--restore"], []
MODES = [TRACKED] * 12 + [ANEW] * 4 + [SHOWN] * 2 + [UNTRACKED]
# how many lines, each with a host of its own, a wide list has more before each of its runs
WIDE = 1500
# a log that has more bytes begins anew
LONGEST_LOG = 3_000_000
# how many days runs keep, where they may have any number; 0 is that of a run without the option
NUMBERS = (0, 0, 0, 1, 2, 3, 10, 4_294_967_295)
# amounts of which five fill a counter; then nothing more is kept
GREAT = re.compile(rb"10{12}|9{12}")


class Lines:
    """Makes lines of a log in one format. Great amounts fill a counter within some hundred lines, heavy lines within some five."""

    def __init__(self, rng, formats, is_great=False, is_heavy=False):
        self.rng, self.setup, self.is_great = rng, compare.setup_of(*formats), is_great
        rng.name, rng.items, rng.heavy = None, 0, is_heavy

    def some(self, most):
        text = compare.log(self.rng, self.setup, most) if most else b""
        return text if self.is_great else b"\n".join(line for line in text.split(b"\n") if not GREAT.search(line))


def good_formats(rng):
    """A log format, a date format and a time format that all compile."""
    while True:
        formats = compare.formats(rng)
        try:
            oracle.compile_format(oracle.NAMED.get(formats[0], formats[0]))
            oracle.compile_date(formats[1])
            oracle.compile_time(formats[2])
            return formats
        except oracle.Fault:
            pass


class WideLines:
    """Makes lines in the combined format, each with a host of its own, so that the sides grow by them."""

    def __init__(self, lines):
        self.lines = lines

    def some(self, most):
        return self.lines.some(most, wide=True)


def written(folder, files):
    for name, text in files.items():
        with open(os.path.join(folder, os.fsdecode(name)), "wb") as out:
            out.write(text)


class KeptRuns:
    """One list: its logs and its database, in folders of their own, and what they must be."""

    def __init__(self, tries, name, formats, lines):
        self.tries, self.rng, self.name = tries, tries.rng, name
        self.folder, self.path = tries.folder(f"{name}-logs"), tries.folder(f"{name}-db")
        for name in compare.FOLDERS:
            path = os.path.join(self.folder, os.fsdecode(name))
            os.mkdir(path)
            os.chmod(path, 0o777)
        self.formats, self.lines, self.db = formats, lines, database_oracle.Database()
        self.logs = {"a.log": lines.some(40), "b.log": b""}
        self.at_db = os.fsencode(at_db(self.path))
        self.runs = self.kept = self.largest = 0
        self.seen = collections.Counter()

    def change(self):
        """What becomes of the logs and of the sides between two runs."""
        rng = self.rng
        for _ in range(rng.choice((0, 1, 1, 2, 3))):
            if rng.random() < 0.2:
                self.logs["a.log.1"] = self.logs["a.log"]
                self.logs["a.log"] = self.lines.some(rng.choice((0, 1, 8)))
                self.seen["renamed"] += 1
            else:
                rng.items = 0 if rng.random() < 0.97 else rng.choice((60, 400))
                self.seen[change_files(rng, self.lines, self.logs, self.db)] += 1
        for name, text in self.logs.items():
            if len(text) > LONGEST_LOG:
                self.logs[name] = self.lines.some(8)
        if rng.random() < 0.2:
            self.tear()

    def begin_without_number(self):
        """Begins with a database that an earlier program left: a snapshot without a number, and some records."""
        self.db.begin_without_number()
        words = [*compare.spelt(self.rng, b"--log-format", b"COMMON"), *TRACKED, b"a.log"]
        for _ in range(self.rng.randrange(3)):
            self.db.add_record_without_number(words, {b"a.log": oracle.generated(self.rng.randint(1, 40))})
        self.write_sides()
        self.seen["begun without a number"] += 1

    def write_sides(self):
        write_sides(self.path, self.db.sides)
        for name in SIDES:
            os.chmod(os.path.join(self.path, name), 0o666)

    def tear(self):
        """What a crash may leave of a commit that stores nothing: a closed gate, on either side, and any bytes after it."""
        rng, db = self.rng, self.db
        for at in (0, 1):
            if rng.random() < 0.6:
                front = db.sides[at][: db.slot] if at == db.side else b""
                gate = bytes([rng.choice([0, 0, rng.randrange(79), rng.randrange(80, 256)])])
                torn = gate + rng.randbytes(rng.choice((0, 1, 100, 5000, 50_000)))
                db.sides[at] = front + rng.choice((b"", database_oracle.OPEN, torn, torn, torn))
        self.write_sides()
        self.seen["torn"] += 1

    def last_days(self, mode):
        """The words for how many days a run keeps. One that restores has the number of the database, but now and then."""
        number = self.db.number
        if number is None or b"--restore" not in mode or self.rng.random() < 0.04:
            number = self.rng.choice(NUMBERS)
        return [compare.spelt(self.rng, b"--keep-last", b"%d" % number)] if number else []

    def random_words(self, mode):
        """The words of a run, in any order, and the files that they name beside the logs."""
        rng = self.rng
        formats = compare.formats(rng) if rng.random() < 0.06 else self.formats
        units = [unit for unit in compare.settings(rng, *formats) if not unit[0].startswith((b"--db-path", b"--keep-last"))]
        units += self.last_days(mode)
        for name, values in ((b"--jobs", (1, 2, 4, 16)), (b"--chunk-size", (1, 2, 7, 1024))):
            if rng.random() < 0.6:
                units.append(compare.spelt(rng, name, b"%d" % rng.choice(values)))
        units += [[flag] for flag in (b"--no-query-string", b"--4xx-to-unique-count") if rng.random() < 0.3]
        units += [[word] for word in (*mode, self.at_db)]
        names = [rng.choice(sorted(self.logs)) for _ in range(rng.choice((1, 1, 1, 2, 2, 3, 4)))]
        if rng.random() < 0.02:
            names = rng.choice(([], [*names, "nothing.log"]))
        units += [[name.encode()] for name in names]
        rng.shuffle(units)
        words = [word for unit in units for word in unit]
        rules = [name for name in (b"agents.txt", b"other.txt") if any(name in word for word in words)]
        return words, {name: compare.pick(rng, compare.RULES, compare.BAD_RULES, 0.1) for name in rules}

    def wanted(self, words, files):
        """What a run must answer and leave. The database that it must leave is calculated with it."""
        status, out, err, made = self.db.run(words, files)
        for name in [name for name in made if name in compare.NO_OUTPUTS]:
            status, err, made = 4, b"goaccess: " + name + b": write failed after 0 bytes\n", {}
        made = {os.path.normpath(os.fsdecode(name)): text for name, text in made.items()}
        return named(status, out, err, made, self.db.sides)

    def got(self, words, files):
        """What a run answers and leaves."""
        answer = self.tries.run(words, self.folder)
        return named(*answer, self.taken_away(files), [side or b"" for side in sides_of(self.path)])

    def taken_away(self, files):
        """Takes all files out of the folder. Those that aren't as they were given."""
        made = {}
        for at, _, names in os.walk(self.folder):
            for path in (os.path.join(at, name) for name in names):
                name = os.path.relpath(path, self.folder)
                with open(path, "rb") as file:
                    text = file.read()
                if files.get(os.fsencode(name)) != text:
                    made[name] = text
                os.remove(path)
        return made

    def run(self, words, rules):
        """Makes a run. Whether all was as it must be."""
        self.runs += 1
        files = {**{name.encode(): text for name, text in self.logs.items()}, **rules}
        written(self.folder, files)
        before, commit = dict(zip(SIDES, self.db.sides)), self.db.commit()
        wanted, got = self.wanted(words, files), self.got(words, files)
        is_kept = self.db.commit() != commit
        self.kept += is_kept
        self.largest = max(self.largest, *map(len, self.db.sides))
        self.seen[f"{'kept' if is_kept else 'not kept'} with status {wanted['status'].decode()}"] += 1
        names = [name for name in sorted({*got, *wanted}) if got.get(name) != wanted.get(name)]
        if not names:
            self.tries.passed += 1
            return True
        written(self.folder, files)
        left = leave(self.tries, words, {"before": before, "got": got, "wanted": wanted})
        said = [f"{name}: {difference(name, got.get(name), wanted.get(name))}" for name in names]
        return self.tries.wrong(f"{self.name}, run {self.runs}: {[os.fsdecode(word) for word in words]}", [*said, f"its files are in {left}"])

    def end(self):
        for path in (self.folder, self.path):
            shutil.rmtree(path)


def named(status, out, err, made, sides):
    """The parts of what a run answers and leaves, by their names."""
    return {"status": str(status).encode(), "standard output": out, "standard error": err, **made, **dict(zip(SIDES, sides))}


def difference(name, got, wanted):
    if None in (got, wanted):
        return "it isn't there" if got is None else "it should not be there"
    place = next((at for at, (g, w) in enumerate(zip(got, wanted)) if g != w), min(len(got), len(wanted)))
    size = f"{len(got)} bytes, not {len(wanted)}; " if len(got) != len(wanted) else ""
    where = f"{database_oracle.place_in(wanted, place)}, " if name in SIDES else ""
    return f"{size}{where}{first_difference(got, wanted)}"


def leave(tries, words, about):
    """Leaves a run's words, the sides before it, and what it and the calculation have after it, beside the run's files. The folder
    where that will be."""
    if not tries.kept:
        tries.kept = os.path.join(tempfile.mkdtemp(prefix="goaccess-bytes-"), "bytes")
    name = f"difference-{tries.failed + 1}"
    files = {f"{when}, {part.replace('/', '-')}": text for when, parts in about.items() for part, text in parts.items()}
    written(tries.folder(name), {"words": repr(words).encode(), **files})
    return os.path.join(f"{tries.kept}-{tries.failed + 1}", name)


def short_list(play):
    """One to five runs."""
    if play.rng.random() < 0.15:
        play.begin_without_number()
    for _ in range(play.rng.randint(1, 5)):
        play.change()
        if not play.run(*play.random_words(play.rng.choice(MODES))):
            break


def long_list(play):
    """Runs that go on until a generation has all its records and the next is begun; a beginning, which cuts the first side; and runs
    that go on from that."""
    for mode, kept in ((TRACKED, LONG), (ANEW, LONG + 1), (TRACKED, LONG + 4)):
        while play.kept < kept and play.runs < 4 * LONG:
            play.change()
            if not play.run(*play.random_words(mode)):
                return
    play.tries.check("the long list, its generation and records", (play.db.generation, play.db.records), (3, 3))


def wide_list(play):
    """Runs whose snapshots and records have several megabytes, since a side is written and read by parts."""
    for mode in (TRACKED, TRACKED, TRACKED, ANEW, TRACKED, ANEW, TRACKED):
        play.logs["a.log"] += play.lines.some(WIDE)
        jobs = b"--jobs=%d" % play.rng.choice((1, 4))
        if not play.run([b"--log-format=COMBINED", jobs, *mode, play.at_db, b"a.log"], {}):
            return
    play.tries.check("the wide list, sides of several megabytes", min(map(len, play.db.sides)) > 3 * 2**20, True)


def tried(tries):
    """Makes lists until as many runs were kept as there are to be, a long list and a wide one."""
    rng, seen = tries.rng, collections.Counter()
    failed, number = tries.failed, 0

    def made_of(runs, name, formats, lines):
        play = KeptRuns(tries, name, formats, lines)
        runs(play)
        play.end()
        seen.update(play.seen)
        return play

    kept = 0
    while kept < RUNS_A_ROUND * tries.rounds and tries.failed - failed < ENOUGH:
        chance, formats = rng.random(), good_formats(rng)
        kept += made_of(short_list, f"list-{number}", formats, Lines(rng, formats, chance < 0.1, chance < 0.03)).kept
        number += 1
    formats = good_formats(rng)
    long = made_of(long_list, "long-list", formats, Lines(rng, formats))
    wide = made_of(wide_list, "wide-list", (b"COMBINED", b"%d/%b/%Y", b"%H:%M:%S"), WideLines(tries.lines))
    said = ", ".join(f"{count} {name}" for name, count in sorted(seen.items()))
    return f"{kept} kept runs in {number} lists, {long.kept} in a long one, {wide.kept} in one with sides of up to {wide.largest} bytes; {said}"
