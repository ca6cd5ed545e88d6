#!/usr/bin/env python3
"""An independent calculation of the bytes of a database: its two sides after each of a list of runs.

    python3 database_oracle.py --oracle-self-test     bytes worked out by hand

As a module:

    db = Database()
    db.run(words, files)    as oracle.run of goaccess_oracle.py; `db.sides` has the bytes of both sides afterwards

What each line adds, and how far each log is counted, comes from goaccess_oracle.py. The bytes were written from the formats' rules
alone, and not from the program's code. Texts are bytes everywhere, and numbers have their greatest byte first.
"""
import hashlib
import random
import re
import sys

import goaccess_oracle as oracle

OPEN, CLOSED = b"\x4f", b"\x00"
# a snapshot without a number of days, and a run record, begin with the first; a snapshot with a number with the second
FIRST_VERSION, SECOND_VERSION = b"\x01", b"\x02"
MOST_RECORDS = 64
DIGEST = 32


def n16(n):
    return n.to_bytes(2, "big")


def n32(n):
    return n.to_bytes(4, "big")


def n64(n):
    return n.to_bytes(8, "big")


# ------------------------------------------------------------------------------------------------ summaries


class Row:
    """What is counted under one key, and the (host, agent) of its visitors."""

    def __init__(self):
        self.hits = self.bytes = self.micros = self.top = 0
        self.names = set()

    def add(self, hits, size, micros, top, names):
        self.hits += hits
        self.bytes += size
        self.micros += micros
        self.top = max(self.top, top)
        self.names |= names


class Summary:
    """What lines add up to: six totals, and a row for each key. A key is (panel, date, parent, data, method, protocol), the panel
    as its number from 1, and keys are in the order of these."""

    def __init__(self):
        self.lines = self.failed = self.excluded = self.hits = self.bytes = self.micros = 0
        self.rows = {}

    def row(self, key):
        return self.rows.setdefault(key, Row())

    def count(self, outcome):
        """Adds what a line adds."""
        self.lines += outcome is not oracle.SKIPPED
        self.failed += outcome is oracle.FAILED
        self.excluded += outcome is oracle.EXCLUDED
        if not isinstance(outcome, oracle.Record):
            return
        size, micros = outcome.bytes, outcome.micros or 0
        self.hits += 1
        self.bytes += size
        self.micros += micros
        names = set()
        if outcome.visitor is not None:
            host, _, agent = outcome.visitor
            names.add((host, agent))
        for panel, parent, data, method, protocol in outcome.keys:
            number = oracle.PANELS.index(panel) + 1
            self.row((number, outcome.date, parent, data, method, protocol)).add(1, size, micros, micros, names)
            if panel in oracle.WITH_PARENTS:
                # the group, whose data is empty
                self.row((number, outcome.date, parent, b"", b"", b"")).add(1, size, micros, micros, names)


def merged(first, second):
    """Both together, each as it was."""
    both = Summary()
    for one in (first, second):
        both.lines += one.lines
        both.failed += one.failed
        both.excluded += one.excluded
        both.hits += one.hits
        both.bytes += one.bytes
        both.micros += one.micros
        for key, row in one.rows.items():
            both.row(key).add(row.hits, row.bytes, row.micros, row.top, row.names)
    return both


def last_days(summary, number):
    """The totals of all lines, and the rows of the last days that are counted under VISITORS, as many as this; 0 keeps all."""
    if number == 0:
        return summary
    days = sorted({key[1] for key in summary.rows if oracle.PANELS[key[0] - 1] == b"VISITORS"})[-number:]
    last = merged(summary, Summary())
    last.rows = {key: row for key, row in last.rows.items() if key[1] in days}
    return last


# ------------------------------------------------------------------------------------------------ bodies


def text_bytes(text):
    return n64(len(text)) + text


def list_bytes(items):
    """Their number, and the bytes of each."""
    items = list(items)
    return n64(len(items)) + b"".join(items)


def key_bytes(key):
    panel, date, *texts = key
    return bytes([panel]) + n32(date) + b"".join(text_bytes(text) for text in texts)


def row_bytes(key, row):
    sums = b"".join(n64(sum_) for sum_ in (row.hits, row.bytes, row.micros, row.top))
    return key_bytes(key) + sums + list_bytes(text_bytes(host) + text_bytes(agent) for host, agent in sorted(row.names))


def summary_bytes(summary):
    totals = (summary.lines, summary.failed, summary.excluded, summary.hits, summary.bytes, summary.micros)
    rows = (row_bytes(key, summary.rows[key]) for key in sorted(summary.rows))
    return b"".join(n64(total) for total in totals) + list_bytes(rows)


def entries_bytes(entries):
    return list_bytes(n16(lead) + digest + n64(offset) for lead, digest, offset in entries)


def snapshot(generation, number, summary, entries):
    """That of a database without a number has None for it."""
    head = FIRST_VERSION + n64(generation) if number is None else SECOND_VERSION + n64(generation) + n32(number)
    return head + summary_bytes(summary) + entries_bytes(entries)


def run_record(summary, entries):
    return FIRST_VERSION + summary_bytes(summary) + entries_bytes(entries)


# ------------------------------------------------------------------------------------------------ sides


def part_of(body):
    return n64(len(body)) + body + hashlib.sha256(body).digest()


class Database:
    """A database and the bytes of its two sides, as they are after each run. Nothing is stored at first."""

    def __init__(self):
        self.sides = [b"", b""]
        # with the number of days that are kept, None where none is stored
        self.summary, self.entries, self.number = Summary(), [], None
        # the side that counts, its snapshot's number, how many records follow that, and the place of the closed gate after them
        self.side, self.generation, self.records, self.slot = None, 0, 0, 0
        # the same by goaccess_oracle.py, which the reports come from
        self.shown = oracle.Database()

    def commit(self):
        """Greater after each kept run."""
        return self.generation, self.records

    def run(self, words, files):
        """What a run answers. Where it is kept, the sides have it afterwards."""
        before = list(self.shown.entries)
        answer = oracle.run(words, files, self.shown)
        if answer[0] == 0:
            s = oracle.settings_of(words, files.get)
            if s.persist:
                self.keep(*counted(s, files, before if s.restore else []), s.keep_last, s.restore)
        return answer

    def keep(self, run, entries, number, goes_on):
        """Keeps a run: its summary, the entries after it and its number of days. It goes on from what is stored, or takes its place.
        A record has all days of the run, and is added to a snapshot with a number alone."""
        self.summary = last_days(merged(self.summary, run) if goes_on else run, number)
        self.entries = entries
        if goes_on and self.number is not None and self.records < MOST_RECORDS:
            self.add_record(run)
        else:
            self.number = number
            self.begin_generation()

    def add_record(self, run):
        """Writes a record after the closed gate, and opens the gate. What was on the side further on stays there."""
        side, slot = self.sides[self.side], self.slot
        part = part_of(run_record(run, self.entries))
        self.slot = slot + len(OPEN + part)
        self.records += 1
        self.sides[self.side] = side[:slot] + OPEN + part + CLOSED + side[self.slot + len(CLOSED) :]

    def begin_generation(self):
        """Writes a snapshot to the other side, or to the first where nothing is stored. All else on that side is cut."""
        self.side = 0 if self.side is None else 1 - self.side
        self.generation += 1
        self.records = 0
        part = part_of(snapshot(self.generation, self.number, self.summary, self.entries))
        self.slot = len(OPEN + part)
        self.sides[self.side] = OPEN + part + CLOSED

    def begin_without_number(self):
        """Begins a generation whose snapshot has the first version, as a program without --keep-last wrote it."""
        self.number = self.shown.number = None
        self.begin_generation()

    def add_record_without_number(self, words, files):
        """Adds a run's record to such a snapshot, as that program did. Gives what the run answers."""
        before = list(self.shown.entries)
        answer = oracle.run(words, files, self.shown)
        self.shown.number = None
        run, self.entries = counted(oracle.read_words(words), files, before)
        self.summary = merged(self.summary, run)
        self.add_record(run)
        return answer


def counted(s, files, entries):
    """The summary of a run's own lines, and the entries after it."""
    setup, rules, run = oracle.LineSetup(s), [], Summary()
    if s.browsers_file is not None:
        rules = oracle.read_rules(files[s.browsers_file])
    for name in s.logs:
        for line in oracle.lines_of(oracle.follow(s, entries, files[name])):
            run.count(oracle.outcome_of(s, rules, setup, line))
    return run, entries


# ------------------------------------------------------------------------------------------------ reading sides


def is_open(side, gate):
    return side[gate : gate + 1] == OPEN and len(side) > gate + 1


def part_end(side, at):
    """Where the part at a place ends: a length in eight bytes, so many bytes, and their SHA-256. None where there is none."""
    if at + 8 > len(side):
        return None
    end = at + 8 + int.from_bytes(side[at : at + 8], "big")
    return end + DIGEST if hashlib.sha256(side[at + 8 : end]).digest() == side[end : end + DIGEST] else None


def reading(sides):
    """The first damage of two sides, as a side and a place, and the parts that are read: of each the side, its gate and its end.
    No body is looked into but for the number of a generation."""
    parts, generations = [], {}
    for at, side in enumerate(sides):
        if is_open(side, 0):
            end = part_end(side, 1)
            if end is None:
                return (at, 1), parts
            parts.append((at, 0, end))
            # after the length and one byte for the version
            generations[at] = int.from_bytes(side[10:18], "big")
    if len(set(generations.values())) < len(generations):
        return (1, 1), parts
    if generations:
        chosen = max(generations, key=generations.get)
        side = sides[chosen]
        gate = next(end for at, _, end in parts if at == chosen)
        while is_open(side, gate):
            end = part_end(side, gate + 1)
            if end is None:
                return (chosen, gate + 1), parts
            parts.append((chosen, gate, end))
            gate = end
    return None, parts


def place_in(side, place):
    """What is at a place of a side: a gate, or a length, body or digest of a part, and which part of the side that is."""
    gate, number = 0, 0
    while gate < place:
        end = part_end(side, gate + 1) if is_open(side, gate) else None
        if end is None:
            return f"after the gate at {gate}"
        name = "the snapshot" if number == 0 else f"record {number}"
        if place < gate + 9:
            return f"the length of {name}"
        if place < end - DIGEST:
            return f"byte {place - gate - 9} of the body of {name}"
        if place < end:
            return f"the digest of {name}"
        gate, number = end, number + 1
    return "the gate of the side" if number == 0 else f"the gate after part {number}"


# ------------------------------------------------------------------------------------------------ self-test

# Bytes worked out by hand: hexadecimal digits; #N, the number N in eight bytes; and a text in quotes, before which its length stands.
# A side after a run over an empty log, and what a second such run adds behind its first 118 bytes.
EMPTY_SIDE = """
4f #77
02 #1 00000000 #0 #0 #0 #0 #0 #0 #0 #0
a7a98853d5e097f249cb418f57e542c3ced4146b3e964f4402c91064449397a2
00
"""
# The same side without a number.
FIRST_SIDE = """
4f #73
01 #1 #0 #0 #0 #0 #0 #0 #0 #0
ba440565b58794095a0e79e52f7276db4b76b2340e1a7ee9fd9e071dda0b38d7
00
"""
EMPTY_RECORD = """
4f #65
01 #0 #0 #0 #0 #0 #0 #0 #0
ae0798d0ecaed2b778eddebf18f071a561c53658c05e76cedecc27cafbdbc577
00
"""
# A snapshot of one line in the common format.
ONE_LOG = b'192.0.2.1 - - [01/Jan/2024:00:00:00 +0000] "GET /a HTTP/1.1" 200 10\n'
ONE_LINE = """
02 #1 00000000
#1 #0 #0 #1 #10 #0
#6
01 0134d6e5 #0 #8 "20240101" #0 #0              #1 #10 #0 #0   #1 #9 "192.0.2.1" #0
02 0134d6e5 #0 #2 "/a" #3 "GET" #8 "HTTP/1.1"   #1 #10 #0 #0   #1 #9 "192.0.2.1" #0
05 0134d6e5 #0 #9 "192.0.2.1" #0 #0             #1 #10 #0 #0   #1 #9 "192.0.2.1" #0
08 0134d6e5 #0 #2 "00" #0 #0                    #1 #10 #0 #0   #1 #9 "192.0.2.1" #0
0d 0134d6e5 #11 "2xx Success" #0 #0 #0          #1 #10 #0 #0   #1 #9 "192.0.2.1" #0
0d 0134d6e5 #11 "2xx Success" #3 "200" #0 #0    #1 #10 #0 #0   #1 #9 "192.0.2.1" #0
#1
0044 d113c7c6babbd03da2be379dcfc1bcd1ae496b5afc74b28f45224a2a4595fcf6 #68
"""
# A run record after that: two days, agents in two groups, times, a status of 404 that makes no visitor, a broken and an excluded line,
# and panels that aren't enabled.
OTHER_WORDS = [
    b'--log-format=%h [%d] "%r" %s "%u" %D', b"--exclude-ip=192.0.2.7", b"--ignore-panel=OS", b"--ignore-panel=STATUS_CODES",
    b"--ignore-panel=VISITORS", b"--restore", b"--persist", b"b.log"]
OTHER_LOG = b'''::1 [01/Jan/2024] "GET /a.css HTTP/2" 200 "b" 7
::1 [01/Jan/2024] "GET /a.css HTTP/2" 200 "a" 30
192.0.2.1 [01/Jan/2024] "GET /a.css HTTP/2" 200 "curl" 5
broken
#
::1 [31/Dec/2023] "POST /x HTTP/1.0" 404 "b" 1
192.0.2.7 [31/Dec/2023] "GET / HTTP/1.0" 200 "b" 9
'''
OTHER_LINES = """
01
#6 #1 #1 #4 #0 #43
#13
01 0134b43f #0 #8 "20231231" #0 #0                #1 #0 #1 #1     #0
01 0134d6e5 #0 #8 "20240101" #0 #0                #3 #0 #42 #30   #3 #9 "192.0.2.1" #4 "curl" #3 "::1" #1 "a" #3 "::1" #1 "b"
03 0134d6e5 #0 #6 "/a.css" #3 "GET" #6 "HTTP/2"   #3 #0 #42 #30   #3 #9 "192.0.2.1" #4 "curl" #3 "::1" #1 "a" #3 "::1" #1 "b"
04 0134b43f #0 #2 "/x" #4 "POST" #8 "HTTP/1.0"    #1 #0 #1 #1     #0
05 0134b43f #0 #3 "::1" #0 #0                     #1 #0 #1 #1     #0
05 0134d6e5 #0 #9 "192.0.2.1" #0 #0               #1 #0 #5 #5     #1 #9 "192.0.2.1" #4 "curl"
05 0134d6e5 #0 #3 "::1" #0 #0                     #2 #0 #37 #30   #2 #3 "::1" #1 "a" #3 "::1" #1 "b"
07 0134b43f #7 "Unknown" #0 #0 #0                 #1 #0 #1 #1     #0
07 0134b43f #7 "Unknown" #7 "Unknown" #0 #0       #1 #0 #1 #1     #0
07 0134d6e5 #6 "Others" #0 #0 #0                  #1 #0 #5 #5     #1 #9 "192.0.2.1" #4 "curl"
07 0134d6e5 #6 "Others" #4 "curl" #0 #0           #1 #0 #5 #5     #1 #9 "192.0.2.1" #4 "curl"
07 0134d6e5 #7 "Unknown" #0 #0 #0                 #2 #0 #37 #30   #2 #3 "::1" #1 "a" #3 "::1" #1 "b"
07 0134d6e5 #7 "Unknown" #7 "Unknown" #0 #0       #2 #0 #37 #30   #2 #3 "::1" #1 "a" #3 "::1" #1 "b"
#2
0044 d113c7c6babbd03da2be379dcfc1bcd1ae496b5afc74b28f45224a2a4595fcf6 #68
0105 067ccd41d88fb256b689362337d1bb0451534a1332171f47dffef712c6be20fa #261
"""


def by_hand(table):
    out = bytearray()
    for digits, number, text in re.findall(r'([0-9a-f]+)|#(\d+)|"([^"]*)"', table):
        out += bytes.fromhex(digits) if digits else int(number).to_bytes(8, "big") if number else text.encode()
    return bytes(out)


def self_test():
    """Says what is wrong, and how many checks there were."""
    checks = wrong = 0

    def check(name, got, wanted):
        nonlocal checks, wrong
        checks += 1
        if got != wanted:
            wrong += 1
            print(f"{name}: {got!r}\n  not {wanted!r}")

    def words(text):
        return text.encode().split()

    def over(db, text, files):
        return db.run(words("--log-format=COMMON " + text), files)[0]

    def body(side, gate):
        return side[gate + 9 : part_end(side, gate + 1) - DIGEST]

    tracked, empty = "--restore --persist a.log", {b"a.log": b""}
    db = Database()
    check("nothing is stored", (db.sides, db.generation, db.side, db.records), ([b"", b""], 0, None, 0))
    over(db, "--restore a.log", empty)
    check("--restore alone", db.sides, [b"", b""])
    over(db, "--persist a.log", empty)
    first = by_hand(EMPTY_SIDE)
    check("an empty log", db.sides, [first, b""])
    check("an empty log, places", (len(first), first[:1].hex(), first[1:9].hex(), first[9], first[10:18].hex(), set(first[18:86]), first[118]),
          (119, "4f", "000000000000004d", 2, "0000000000000001", {0}, 0))
    check("an empty log, the body", (len(body(first, 0)), db.entries, db.number), (77, [], 0))
    over(db, tracked, empty)
    second = first[:118] + by_hand(EMPTY_RECORD)
    check("a record", (db.sides, db.records, db.slot), ([second, b""], 1, 224))
    check("a record, places", (len(second), second[118:119].hex(), second[119:127].hex(), second[127], second[224]),
          (225, "4f", "0000000000000041", 1, 0))
    for name, side, found in (
            ("as it is", second, (None, [(0, 0, 118), (0, 118, 224)])), ("the gate closed", second[:118] + b"\0" + second[119:], (None, [(0, 0, 118)])),
            ("a byte of the record changed", second[:128] + b"\1" + second[129:], ((0, 119), [(0, 0, 118)])),
            ("a byte of the snapshot changed", second[:20] + b"\1" + second[21:], ((0, 1), [])),
            ("the longest length", b"\x4f" + b"\xff" * 8 + second[9:], ((0, 1), [])), ("a gate alone", b"\x4f", (None, []))):
        check(f"a side is read, {name}", reading([side, b""]), found)
    check("equal generations", reading([second, first])[0], (1, 1))
    for _ in range(63):
        over(db, tracked, empty)
    full = first[:118] + by_hand(EMPTY_RECORD)[:-1] * 64 + b"\0"
    check("64 records", (db.sides, db.records), ([full, b""], 64))
    over(db, tracked, empty)
    check("the next generation", (db.sides[0], db.sides[1][:86], len(db.sides[1]), db.records, db.generation),
          (full, by_hand("4f #77 02 #2 00000000" + " #0" * 8), 119, 0, 2))
    over(db, "--persist a.log", empty)
    check("the next generation cuts the side", (db.sides[0][:86], len(db.sides[0]), len(db.sides[1])),
          (by_hand("4f #77 02 #3 00000000" + " #0" * 8), 119, 119))
    held = list(db.sides)
    for status, given in ((1, "--persist"), (1, "--persist --jobs=17 a.log"), (2, "--restore --persist a.log gone.log"), (0, "--restore a.log"), (0, "a.log")):
        check(f"not kept: {given}", (over(db, given, empty), db.sides), (status, held))

    db, files = Database(), {b"a.log": ONE_LOG, b"b.log": OTHER_LOG}
    over(db, tracked, files)
    check("one line", body(db.sides[0], 0), by_hand(ONE_LINE))
    check("another format", db.run(OTHER_WORDS, files)[0], 0)
    check("another format's record", body(db.sides[0], part_end(db.sides[0], 1)), by_hand(OTHER_LINES))
    check("both are read", reading(db.sides), (None, [(0, 0, part_end(db.sides[0], 1)), (0, part_end(db.sides[0], 1), db.slot)]))
    for place, said in ((0, "the gate of the side"), (8, "the length of the snapshot"), (9, "byte 0 of the body of the snapshot"),
                        (db.slot - 1, "the digest of record 1"), (db.slot, "the gate after part 2"), (db.slot + 1, f"after the gate at {db.slot}")):
        check(f"place {place}", place_in(db.sides[0], place), said)

    begun, ended = ONE_LOG + ONE_LOG[:31], ONE_LOG * 2
    db = Database()
    over(db, tracked, {b"a.log": begun})
    check("an unended line", (db.summary.lines, db.entries[0][2]), (1, 68))
    over(db, tracked, {b"a.log": ended})
    check("an unended line, ended", (db.summary.lines, [offset for _, _, offset in db.entries]), (2, [136]))
    over(db, "--persist a.log a.log", {b"a.log": ended})
    check("one log twice, anew", (db.summary.lines, db.generation, db.side), (2, 2, 1))
    sums = [(row.hits, row.bytes, row.micros) for key, row in db.summary.rows.items() if key[0] == 5]
    check("two equal lines", (len(db.summary.rows), sums, len(entries_bytes(db.entries))), (6, [(2, 20, 0)], 50))
    over(db, tracked, {b"a.log": b"x" * 5000 + b"\n"})
    long_entry = by_hand("#2 0088 " + hashlib.sha256(ended).hexdigest() + " #136 1000 a2e659dacb4691e887ac0139f8893d04764ee197d70fb73d3190d56113d18e3e #5001")
    check("a long log", entries_bytes(db.entries), long_entry)
    check("two days after one", [key[1] for key in sorted(db.summary.rows) if key[0] == 5], [20240101])
    fine = Database()
    over(fine, "--persist --date-spec=hr a.log", {b"a.log": ended})
    check("a day and an hour", [key[1:4] for key in sorted(fine.summary.rows) if key[0] == 1], [(20240101, b"", b"20240101"), (20240101, b"20240101", b"2024010100")])

    # the last days
    def on(*days):
        return b"".join(ONE_LOG.replace(b"01/Jan", b"%02d/Jan" % day) for day in days)

    def days_of(summary):
        return sorted({key[1] - 20240100 for key in summary.rows})

    files = {b"a.log": on(1, 2, 3), b"b.log": on(4, 1)}
    days = Database()
    over(days, "--keep-last=2 " + tracked, files)
    check("two days of three", (days.number, days.summary.lines, days_of(days.summary), days.sides[0][9:22]), (2, 3, [2, 3], by_hand("02 #1 00000002")))
    held = list(days.sides)
    for given in ("--keep-last=3 " + tracked, "--restore", "--keep-last=1 --restore a.log"):
        check(f"another number: {given}", (over(days, given, files), days.sides), (8, held))
    over(days, "--keep-last=2 --restore --persist b.log", files)
    record = body(days.sides[0], part_end(days.sides[0], 1))
    both = Database()
    over(both, "--persist b.log", files)
    check("a record has all days of its run", record[: -len(entries_bytes(days.entries))], run_record(both.summary, [])[:-8])
    check("and the database the last ones", (days.summary.lines, days.summary.hits, days_of(days.summary), days.records), (5, 5, [3, 4], 1))
    over(days, "--persist --keep-last=4294967295 b.log", files)
    check("--persist alone takes another number", (days.number, days.side, days.generation, days_of(days.summary), days.sides[1][18:22].hex()),
          (4_294_967_295, 1, 2, [1, 4], "ffffffff"))

    # a database without a number
    earlier = Database()
    earlier.begin_without_number()
    first_side = by_hand(FIRST_SIDE)
    check("a side without a number", (earlier.sides, len(first_side), reading(earlier.sides)), ([first_side, b""], 115, (None, [(0, 0, 114)])))
    over(earlier, "--keep-last=2 " + tracked, empty)
    check("its first kept run begins a generation", (earlier.sides[0], earlier.sides[1][:22], len(earlier.sides[1]), earlier.number, earlier.records),
          (first_side, by_hand("4f #77 02 #2 00000002"), 119, 2, 0))
    earlier = Database()
    earlier.begin_without_number()
    check("a record after it", (earlier.add_record_without_number(words("--log-format=COMMON " + tracked), files)[0], earlier.records, earlier.number), (0, 1, None))
    check("a record after it, both are read", reading(earlier.sides)[0], None)
    over(earlier, "--restore --keep-last=1", files)
    check("--restore alone keeps no number", (earlier.number, days_of(earlier.summary)), (None, [1, 2, 3]))
    over(earlier, "--keep-last=2 --restore --persist b.log", files)
    check("days are left out once there is a number", (earlier.number, earlier.generation, earlier.records, days_of(earlier.summary)), (2, 2, 0, [3, 4]))

    torn = db.sides[1][: db.slot] + b"\x37" + b"torn" * 200
    db.sides[1] = torn
    over(db, tracked, {b"a.log": ended})
    check("a record after torn bytes", (len(db.sides[1]), db.sides[1][db.slot + 1 :], reading(db.sides)[0]), (len(torn), torn[db.slot + 1 :], None))

    # the generation after all records of the first has what one pass over all lines has
    rng, lines = random.Random(1), oracle.generated(1000).split(b"\n")[:-1]
    db, log = Database(), b""
    while db.generation < 2:
        count = rng.randint(1, 10)
        log, lines = log + b"\n".join(lines[:count]) + b"\n", lines[count:]
        db.run(words("--log-format=COMBINED --restore --persist a.log"), {b"a.log": log})
    whole = Database()
    whole.run(words("--log-format=COMBINED --persist a.log"), {b"a.log": log})
    check("one pass", body(db.sides[1], 0), snapshot(2, 0, whole.summary, whole.entries))
    # and with a number the last days of that
    rng, lines = random.Random(2), oracle.generated(1000).split(b"\n")[:-1]
    rng.shuffle(lines)
    db, log = Database(), b""
    while db.generation < 2:
        count = rng.randint(1, 10)
        log, lines = log + b"\n".join(lines[:count]) + b"\n", lines[count:]
        db.run(words("--log-format=COMBINED --restore --persist --keep-last=5 a.log"), {b"a.log": log})
    whole = Database()
    whole.run(words("--log-format=COMBINED --persist a.log"), {b"a.log": log})
    check("one pass and the last days", body(db.sides[1], 0), snapshot(2, 5, last_days(whole.summary, 5), whole.entries))
    print(f"{checks} checks, {wrong} wrong")
    return 1 if wrong else 0


if __name__ == "__main__":
    if sys.argv[1:] != ["--oracle-self-test"]:
        sys.exit(__doc__)
    sys.exit(self_test())
