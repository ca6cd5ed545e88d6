#!/usr/bin/env python3
"""An independent calculation of what the program does: words and files in; status, report and fault line out.

    python3 goaccess_oracle.py WORDS..                as the program where no database is stored yet: standard output, standard
                                                      error, exit status
    python3 goaccess_oracle.py --oracle-self-test     worked examples and some checks against Python's own library

As a module:

    run(words: list[bytes], files: dict[bytes, bytes], db: Database) -> (status, stdout, stderr, made: dict[bytes, bytes])

`db` is what tracked runs leave from one to the next; without it nothing is stored.

It was written from the product's rules alone, and not from its code. Texts are bytes everywhere.
"""
import copy
import hashlib
import json
import os
import re
import stat
import sys

if hasattr(sys, "set_int_max_str_digits"):
    sys.set_int_max_str_digits(0)

LIMIT = 2**62 - 1
BIG = 10**18
LONGEST_LINE = 65_535
LONGEST_RULE = 1_024
DEEPEST_JSON = 127

PANELS = [
    b"VISITORS", b"REQUESTS", b"REQUESTS_STATIC", b"NOT_FOUND", b"HOSTS", b"OS", b"BROWSERS", b"VISIT_TIMES",
    b"VIRTUAL_HOSTS", b"REFERRERS", b"REFERRING_SITES", b"KEYPHRASES", b"STATUS_CODES", b"REMOTE_USER", b"CACHE_STATUS",
    b"MIME_TYPE", b"TLS_TYPE",
]
WITH_PARENTS = {b"OS", b"BROWSERS", b"STATUS_CODES", b"MIME_TYPE"}
METHODS = set(
    b"GET HEAD POST PUT DELETE CONNECT OPTIONS TRACE PATCH PROPFIND PROPPATCH MKCOL COPY MOVE LOCK UNLOCK REPORT SEARCH "
    b"ACL MKCALENDAR".split()
)
PROTOCOLS = set(b"HTTP/1.0 HTTP/1.1 HTTP/2 HTTP/2.0 HTTP/3 HTTP/3.0".split())
EXTENSIONS = (
    b".css .js .mjs .map .jpg .jpeg .png .gif .ico .svg .webp .bmp .tif .tiff .avif .pdf .csv .txt .doc .docx .xls .xlsx "
    b".ppt .pptx .woff .woff2 .ttf .otf .eot .mp3 .mp4 .ogg .webm .mpeg .mpg .swf .zip .gz .tgz .tar .rar .xz .exe .dmg .iso"
).split()
CRAWLERS = b"Crawlers"
BROWSERS = (
    [(token, CRAWLERS) for token in (
        b"Googlebot bingbot Baiduspider YandexBot DuckDuckBot AhrefsBot SemrushBot Applebot Twitterbot facebookexternalhit "
        b"crawler spider bot/ Bot/").split()]
    + [(b"curl", b"Others"), (b"Wget", b"Others"), (b"python-requests", b"Others"), (b"Edg", b"Edge"), (b"OPR", b"Opera"),
       (b"Opera", b"Opera"), (b"Firefox", b"Firefox"), (b"FxiOS", b"Firefox"), (b"SamsungBrowser", b"Others"),
       (b"CriOS", b"Chrome"), (b"Chrome", b"Chrome"), (b"Safari", b"Safari"), (b"MSIE", b"MSIE"), (b"Trident", b"MSIE"),
       (b"Mozilla", b"Others")]
)
SYSTEMS = [
    (b"Windows NT 10.0", b"Windows 10", b"Windows"), (b"Windows NT 6.3", b"Windows 8.1", b"Windows"),
    (b"Windows NT 6.2", b"Windows 8", b"Windows"), (b"Windows NT 6.1", b"Windows 7", b"Windows"),
    (b"Windows NT 6.0", b"Windows Vista", b"Windows"), (b"Windows NT 5.1", b"Windows XP", b"Windows"),
    (b"Windows", b"Windows", b"Windows"), (b"iPhone", b"iOS", b"iOS"), (b"iPad", b"iOS", b"iOS"),
    (b"Android", b"Android", b"Android"), (b"CrOS", b"Chrome OS", b"Chrome OS"), (b"Mac OS X", b"macOS", b"macOS"),
    (b"Macintosh", b"macOS", b"macOS"), (b"Ubuntu", b"Ubuntu", b"Linux"), (b"Fedora", b"Fedora", b"Linux"),
    (b"Debian", b"Debian", b"Linux"), (b"Linux", b"Linux", b"Linux"), (b"FreeBSD", b"FreeBSD", b"BSD"),
    (b"OpenBSD", b"OpenBSD", b"BSD"), (b"NetBSD", b"NetBSD", b"BSD"), (b"SunOS", b"Solaris", b"Unix"),
]
CLASSES = {1: b"1xx Informational", 2: b"2xx Success", 3: b"3xx Redirection", 4: b"4xx Client Errors", 5: b"5xx Server Errors"}
COMMON = b'%h %^[%d:%t %^] "%r" %s %b'
NAMED = {
    b"COMMON": COMMON,
    b"COMBINED": COMMON + b' "%R" "%u"',
    b"VCOMMON": b"%v:%^ " + COMMON,
    b"VCOMBINED": b"%v:%^ " + COMMON + b' "%R" "%u"',
}
HEADER = b"id,parent_id,panel,hits,hits%,visitors,visitors%,bytes,bytes%,avgts,cumts,maxts,method,protocol,data"
UNKNOWN = b"Unknown"


class Fault(Exception):
    """A run that ends with another status than 0: the status and the text of its line, without the name in front."""

    def __init__(self, status, text):
        super().__init__(status, text)
        self.status = status
        self.text = text




def num(n):
    return str(n).encode()


def lossy(text):
    """Bytes that aren't UTF-8 made U+FFFD, one for each longest front of a character."""
    return text.decode("utf-8", "replace").encode("utf-8")


def is_digits(text):
    return len(text) > 0 and all(0x30 <= b <= 0x39 for b in text)


def value_of(digits):
    """The value of digits of any number; past 60 of them that count, just something too large."""
    digits = digits.lstrip(b"0")
    return 10**60 if len(digits) > 60 else int(digits or b"0")


# ------------------------------------------------------------------------------------------------ addresses

HEXADECIMAL = set(b"0123456789abcdefABCDEF")


def ipv4_of(text):
    parts = text.split(b".")
    if len(parts) != 4:
        return None
    value = 0
    for part in parts:
        if not is_digits(part) or len(part) > 3 or (len(part) > 1 and part[:1] == b"0") or int(part) > 255:
            return None
        value = value * 256 + int(part)
    return value


def groups_of(text, last):
    """The groups of a row joined by colons, none for the empty text; `last` where its end is that of the address."""
    if text == b"":
        return []
    groups = []
    parts = text.split(b":")
    for at, part in enumerate(parts):
        if 1 <= len(part) <= 4 and all(b in HEXADECIMAL for b in part):
            groups.append(int(part, 16))
            continue
        quad = ipv4_of(part) if last and at == len(parts) - 1 else None
        if quad is None:
            return None
        groups += [quad >> 16, quad & 0xFFFF]
    return groups


def address_of(text):
    """('4', number), ('6', number) or None."""
    four = ipv4_of(text)
    if four is not None:
        return ("4", four)
    if b":" not in text:
        return None
    at = text.find(b"::")
    if at < 0:
        groups = groups_of(text, True)
        if groups is None or len(groups) != 8:
            return None
    else:
        left = groups_of(text[:at], False)
        right = groups_of(text[at + 2 :], True)
        if left is None or right is None or len(left) + len(right) > 7:
            return None
        groups = left + [0] * (8 - len(left) - len(right)) + right
    value = 0
    for group in groups:
        value = value * 65_536 + group
    return ("6", value)


def is_address(text):
    return address_of(text) is not None


def read_range(text):
    """(low, high), or the place of the fault."""
    dash = text.find(b"-")
    if dash < 0:
        only = address_of(text)
        return 0 if only is None else (only, only)
    low, high = address_of(text[:dash]), address_of(text[dash + 1 :])
    if low is None:
        return 0
    if high is None or high[0] != low[0] or high[1] < low[1]:
        return dash + 1
    return (low, high)


def holds(ranges, host):
    found = address_of(host)
    return found is not None and any(low[0] == found[0] and low[1] <= found[1] <= high[1] for low, high in ranges)


# ------------------------------------------------------------------------------------------------ words


class Settings:
    def __init__(self):
        self.log_format = None
        self.date_format = b"%d/%b/%Y"
        self.time_format = b"%H:%M:%S"
        self.kind = b"json"
        self.target = b""
        self.browsers_file = None
        self.config_file = None
        self.statics = []
        self.all_static = False
        self.ranges = []
        self.no_query = False
        self.ignore_crawlers = False
        self.ignore_status = set()
        self.panels = set(PANELS)
        self.date_spec = b"date"
        self.hour_spec = b"hr"
        self.no_ip_validation = False
        self.strict_status = True
        self.count_4xx = False
        self.as_404 = False
        self.double_decode = False
        self.max_items = 366
        self.keep_last = 0
        self.jobs = 1
        self.chunk = 1024
        self.persist = False
        self.restore = False
        self.db_path = b"/tmp"
        self.generate = None
        self.generate_at = None
        self.logs = []


class BadValue(Exception):
    pass


def number_in(value, low, high):
    if not is_digits(value) or len(value) > 10 or not low <= int(value) <= high:
        raise BadValue
    return int(value)


def name_in(value):
    if value == b"":
        raise BadValue
    return value


def one_of(value, *texts):
    if value not in texts:
        raise BadValue
    return value


def take_output(s, value):
    if value in (b"json", b"csv"):
        s.kind, s.target = value, b""
    elif len(value) > 5 and value.endswith(b".json"):
        s.kind, s.target = b"json", value
    elif len(value) > 4 and value.endswith(b".csv"):
        s.kind, s.target = b"csv", value
    else:
        raise BadValue


def take_range(s, value):
    found = read_range(value)
    if isinstance(found, int):
        raise BadValue
    s.ranges.append(found)


def take_status(s, value):
    if not is_digits(value) or len(value) != 3 or not 100 <= int(value) <= 599:
        raise BadValue
    s.ignore_status.add(int(value))


def take_panel(s, value, on):
    if value not in PANELS:
        raise BadValue
    (s.panels.add if on else s.panels.discard)(value)


VALUED = {
    b"--log-format": lambda s, v: setattr(s, "log_format", v),
    b"--date-format": lambda s, v: setattr(s, "date_format", v),
    b"--time-format": lambda s, v: setattr(s, "time_format", v),
    b"-o": take_output,
    b"--output": take_output,
    b"--browsers-file": lambda s, v: setattr(s, "browsers_file", name_in(v)),
    b"--config-file": lambda s, v: setattr(s, "config_file", name_in(v)),
    b"--static-file": lambda s, v: s.statics.append(name_in(v)),
    b"--exclude-ip": take_range,
    b"--ignore-status": take_status,
    b"--ignore-panel": lambda s, v: take_panel(s, v, False),
    b"--enable-panel": lambda s, v: take_panel(s, v, True),
    b"--date-spec": lambda s, v: setattr(s, "date_spec", one_of(v, b"date", b"hr", b"min")),
    b"--hour-spec": lambda s, v: setattr(s, "hour_spec", one_of(v, b"hr", b"min")),
    b"--max-items": lambda s, v: setattr(s, "max_items", number_in(v, 1, 4_294_967_295)),
    b"--keep-last": lambda s, v: setattr(s, "keep_last", number_in(v, 1, 4_294_967_295)),
    b"--jobs": lambda s, v: setattr(s, "jobs", number_in(v, 1, 16)),
    b"--chunk-size": lambda s, v: setattr(s, "chunk", number_in(v, 1, 32_768)),
    b"--db-path": lambda s, v: setattr(s, "db_path", name_in(v)),
    b"--generate": lambda s, v: setattr(s, "generate", number_in(v, 1, 1_000_000)),
}
FLAGS = {
    b"--all-static-files": ("all_static", True),
    b"--no-query-string": ("no_query", True),
    b"--ignore-crawlers": ("ignore_crawlers", True),
    b"--no-ip-validation": ("no_ip_validation", True),
    b"--no-strict-status": ("strict_status", False),
    b"--4xx-to-unique-count": ("count_4xx", True),
    b"--444-as-404": ("as_404", True),
    b"--double-decode-url": ("double_decode", True),
    b"--persist": ("persist", True),
    b"--restore": ("restore", True),
}


def read_words(words):
    s = Settings()
    take_words(s, words)
    check_settings(s)
    return s


def take_words(s, words):
    """Makes the settings of these words. Raises the first fault that a word has by itself."""
    at = 0
    names_only = False
    while at < len(words):
        word = words[at]
        if names_only or not word.startswith(b"-"):
            if word == b"":
                raise Fault(1, b"word %d: bad value" % at)
            s.logs.append(word)
            at += 1
            continue
        if word == b"--":
            names_only = True
            at += 1
            continue
        name, equals, value = word.partition(b"=") if word.startswith(b"--") else (word, b"", b"")
        if name in FLAGS:
            if equals:
                raise Fault(1, b"word %d: bad value" % at)
            setattr(s, *FLAGS[name])
            at += 1
            continue
        if name not in VALUED:
            raise Fault(1, b"word %d: unknown option" % at)
        if name == b"--generate":
            s.generate_at = at
        if not equals:
            if at + 1 == len(words):
                raise Fault(1, b"word %d: value missing" % at)
            at += 1
            value = words[at]
        try:
            VALUED[name](s, value)
        except BadValue:
            raise Fault(1, b"word %d: bad value" % at) from None
        at += 1


def check_settings(s):
    """Raises the first fault that settings have as a whole."""
    if s.logs and s.log_format is None:
        raise Fault(1, b"no log format")
    if not s.logs and not s.restore and s.generate is None:
        raise Fault(1, b"no input")
    if s.generate is not None and (s.logs or s.persist or s.restore):
        raise Fault(1, b"word %d: conflict" % s.generate_at)


# a configuration file
LONGEST_SETTING = 4096
NO_SETTINGS = (b"generate", b"log-file")


def setting_of(line):
    """The words of a line of a configuration file, without its end. None where it is no setting."""
    if len(line) > LONGEST_SETTING or not is_utf8(line):
        return None
    line = line.strip(b" \t")
    if line == b"" or line.startswith(b"#"):
        return []
    name = re.match(rb"[^ \t]+", line)[0]
    value = line[len(name) :].lstrip(b" \t")
    option = b"--" + name
    if name not in NO_SETTINGS and name != b"config-file":
        if option in FLAGS:
            return {b"true": [option], b"false": []}.get(value)
        if option in VALUED:
            try:
                VALUED[option](Settings(), value)
            except BadValue:
                return None
            return [option + b"=" + value]
    return [] if name not in NO_SETTINGS and re.fullmatch(rb"[a-z0-9-]+", name) else None


def read_conf(data):
    """The words of a configuration file, or the number of the first line that is no setting."""
    words = []
    lines = data.split(b"\n")
    ended = [line.removesuffix(b"\r") for line in lines[:-1]]
    for number, line in enumerate(ended + [rest for rest in lines[-1:] if rest], 1):
        given = setting_of(line)
        if given is None:
            return number
        words += given
    return words


def settings_of(words, read):
    """What words mean, after those of the configuration file that they name. `read` gives the bytes of a name, or None."""
    scanned, s = Settings(), Settings()
    take_words(scanned, words)
    if scanned.config_file is not None:
        data = read(scanned.config_file)
        if data is None:
            raise Fault(2, scanned.config_file + b": read failed")
        conf = read_conf(data)
        if isinstance(conf, int):
            raise Fault(1, b"config file, line %d: not a setting" % conf)
        take_words(s, conf)
    take_words(s, words)
    check_settings(s)
    return s


# ------------------------------------------------------------------------------------------------ formats of lines

LETTERS = set(b"xtdveChrmUqHsbRuKMDTL^")
LITERAL, SKIP, FIELD, FORWARDED = "literal", "skip", "field", "forwarded"
REPEATABLE = set(b"^DTL")


def items_in(text, seen, where):
    """The items of a text, each (kind, payload): a byte, None, a letter, or the separators. `seen` has the letters of earlier
    texts, and is added to. Raises the fault, with the words that say where the text is."""
    items = []
    faults = []  # place, rank at one place, text
    at = 0
    while at < len(text):
        if text[at : at + 1] == b"%":
            letter = text[at + 1 : at + 2]
            if letter == b"~":
                items.append((at, SKIP, None))
            elif letter and letter[0] in LETTERS:
                items.append((at, FIELD, letter))
            else:
                faults.append((at, 0, b"unknown specifier"))
                break
            at += 2
        elif text[at : at + 3] == b"~h{":
            close = text.find(b"}", at + 3)
            if close <= at + 3:
                faults.append((at, 0, b"unknown specifier"))
                break
            items.append((at, FORWARDED, text[at + 3 : close]))
            at = close + 1
        elif text[at : at + 2] == b"\\t":
            items.append((at, LITERAL, 9))
            at += 2
        else:
            items.append((at, LITERAL, text[at]))
            at += 1
    for place, kind, what in items:
        if kind not in (FIELD, FORWARDED):
            continue
        letter = b"h" if kind == FORWARDED else what
        again = letter in seen and letter[0] not in REPEATABLE
        for one, others in ((b"x", b"dt"), (b"r", b"mUqH")):
            if letter == one and any(bytes([o]) in seen for o in others):
                again = True
            if letter[0] in others and one in seen:
                again = True
        if again:
            faults.append((place, 1, b"repeated"))
        seen.add(letter)
    for (place, kind, _), (_, after, _) in zip(items, items[1:]):
        if kind in (FIELD, FORWARDED) and after != LITERAL:
            faults.append((place, 2, b"no delimiter"))
    if faults:
        place, _, said = min(faults)
        raise Fault(1, b"%s, byte %d: %s" % (where, place, said))
    return [(kind, what) for _, kind, what in items]


def check_needed(seen):
    for name, letters in ((b"host", b"h"), (b"date", b"dx"), (b"request", b"rU")):
        if not any(bytes([letter]) in seen for letter in letters):
            raise Fault(1, b"log format: no " + name)


def compile_format(text):
    """The items of a plain format. Raises the fault."""
    seen = set()
    items = items_in(text, seen, b"log format")
    check_needed(seen)
    return items


class NotWhole:
    """A number that isn't whole, or has more than 64 bits."""


def json_number(text):
    if not re.search("[.eE]", text) and text != "-0" and -(2**63) <= int(text) < 2**64:
        return int(text)
    if float(text) in (float("inf"), float("-inf")):
        raise ValueError("past a float's range")
    return NotWhole()


def json_depth(text):
    """How many objects and lists are open at once, at most."""
    depth = deepest = 0
    for token in re.findall(rb'"(?:[^"\\]|\\.)*"|[][{}]', text, re.DOTALL):
        depth += {b"{": 1, b"[": 1, b"}": -1, b"]": -1}.get(token, 0)
        deepest = max(deepest, depth)
    return deepest


def in_bytes(value):
    """The value with its texts as bytes. A lone surrogate is refused."""
    if isinstance(value, str):
        return value.encode("utf-8")
    return [in_bytes(one) for one in value] if isinstance(value, list) else value


def members_of(pairs):
    """An object: of equal members the last, though all have to be good."""
    return {in_bytes(name): in_bytes(value) for name, value in pairs}


def no_constant(name):
    raise ValueError(name)


def read_object(text):
    """The JSON object that the bytes are: of equal members the last, whole numbers of 64 bits as `int`. None where they are none."""
    try:
        value = json.loads(text.decode("utf-8"), parse_int=json_number, parse_float=json_number, parse_constant=no_constant,
                           object_pairs_hook=members_of)
    except (ValueError, RecursionError):  # the errors of decoding and encoding are ValueErrors too
        return None
    return value if isinstance(value, dict) and json_depth(text) <= DEEPEST_JSON else None


class JsonFormat(list):
    """The leaves of a JSON format, each (path, items). A step of a path is a name, or 0 for the first element of a list."""


def compile_json(text):
    """The leaves, depth first, members in the order of their names. Raises the fault."""
    whole = read_object(text)
    if whole is None:
        raise Fault(1, b"log format: not JSON")
    leaves, seen = JsonFormat(), set()

    def walk(value, path):
        if isinstance(value, bytes):
            leaves.append((path, items_in(value, seen, b"log format, leaf %d" % len(leaves))))
        elif isinstance(value, dict):
            for name in sorted(value):
                walk(value[name], path + [name])
        elif isinstance(value, list) and len(value) == 1:
            walk(value[0], path + [0])
        else:
            raise Fault(1, b"log format, leaf %d: bad shape" % len(leaves))

    walk(whole, [])
    check_needed(seen)
    return leaves


def compile_log(text):
    """A plain format's items, or the leaves of a JSON format, which begins with `{`. Raises the fault."""
    return compile_json(text) if text.startswith(b"{") else compile_format(text)


def piece_at(value, path):
    """The text to which a path leads, None where there is none."""
    for step in path:
        if step == 0 and isinstance(value, list) and value:
            value = value[0]
        elif isinstance(step, bytes) and isinstance(value, dict) and step in value:
            value = value[step]
        else:
            return None
    if isinstance(value, bytes):
        return value
    if isinstance(value, bool):
        return b"true" if value else b"false"
    return b"%d" % value if isinstance(value, int) else None


CLOCKS = (b"D", b"T", b"L")


def clock_of(items):
    """The first field of the items for the time taken."""
    return next((what for kind, what in items if kind == FIELD and what in CLOCKS), None)



def end_of(line, start, c):
    """The place of the first c from start on, or None. Before a double quote a backslash takes the next byte along."""
    if c != 0x22:
        found = line.find(bytes([c]), start)
        return None if found < 0 else found
    at = start
    while at < len(line):
        if line[at] == 0x5C:
            at += 2
        elif line[at] == c:
            return at
        else:
            at += 1
    return None


def runs_out_of(text, seps):
    """The longest runs of bytes that aren't separators."""
    runs = []
    now = bytearray()
    for b in text:
        if b in seps:
            if now:
                runs.append(bytes(now))
            now = bytearray()
        else:
            now.append(b)
    if now:
        runs.append(bytes(now))
    return runs


def chain_of(line, start, seps):
    """The first address and the end of the chain of addresses that begins here, or None."""
    first = None
    end = None
    at = start
    while True:
        to = at
        while to < len(line) and line[to] not in seps:
            to += 1
        if not is_address(line[at:to]):
            break
        if first is None:
            first = line[at:to]
        end = to
        at = to
        while at < len(line) and line[at] in seps:
            at += 1
        if at == to:  # the end of the line
            break
    return None if first is None else (first, end)


def fit(items, line):
    """The texts of the fields that are there: a list of (letter, text), `~` for the forwarded host. None where it doesn't fit."""
    fields = []
    at = 0
    for place, (kind, what) in enumerate(items):
        after = items[place + 1][1] if place + 1 < len(items) else None
        if kind == LITERAL:
            if at >= len(line) or line[at] != what:
                return None
            at += 1
        elif kind == SKIP:
            while at < len(line) and (0x09 <= line[at] <= 0x0D or line[at] == 0x20):
                at += 1
        elif kind == FORWARDED and (after is None or after in what):
            found = chain_of(line, at, what)
            if found is None:
                return None
            host, at = found
            fields.append((b"~", host))
            if at == len(line):
                return fields
        else:
            end = None if after is None else end_of(line, at, after)
            text = line[at:] if end is None else line[at:end]
            if kind == FORWARDED:
                hosts = [run for run in runs_out_of(text, what) if is_address(run)]
                if hosts:
                    fields.append((b"~", hosts[0]))
            else:
                fields.append((what, text))
            if end is None:
                return fields
            at = end
    return fields


def fit_json(leaves, line):
    """The same of a line under a JSON format, leaf after leaf."""
    whole = read_object(line)
    if whole is None:
        return None
    fields, clocked = [], False
    for path, items in leaves:
        piece = piece_at(whole, path)
        if piece is not None:
            fitted = fit(items, piece)
            if fitted is None:
                return None
            fields += [(letter, text) for letter, text in fitted if not (clocked and letter in CLOCKS)]
        clocked = clocked or clock_of(items) is not None
    return fields


# ------------------------------------------------------------------------------------------------ dates and times

MONTHS = [b"jan", b"feb", b"mar", b"apr", b"may", b"jun", b"jul", b"aug", b"sep", b"oct", b"nov", b"dec"]
DATE_DIRECTIVES = {b"d": ["d"], b"e": ["e"], b"m": ["m"], b"b": ["b"], b"Y": ["Y"], b"y": ["y"],
                   b"F": ["Y", 0x2D, "m", 0x2D, "d"], b"D": ["m", 0x2F, "d", 0x2F, "y"]}
TIME_DIRECTIVES = {b"H": ["H"], b"M": ["M"], b"S": ["S"], b"T": ["H", 0x3A, "M", 0x3A, "S"], b"R": ["H", 0x3A, "M"]}
PART = {"d": "day", "e": "day", "m": "month", "b": "month", "Y": "year", "y": "year", "H": "hour", "M": "minute", "S": "second"}


def compile_directives(text, directives, needed, which):
    pieces = []
    given = set()
    at = 0
    while at < len(text):
        if text[at : at + 1] != b"%":
            pieces.append(text[at])
            at += 1
            continue
        letter = text[at + 1 : at + 2]
        if letter == b"%":
            pieces.append(0x25)
        else:
            expanded = directives.get(letter)
            parts = {PART[p] for p in expanded or [] if isinstance(p, str)}
            if expanded is None or parts & given:
                raise Fault(1, b"%s format, byte %d: bad directive" % (which, at))
            given |= parts
            pieces += expanded
        at += 2
    if not needed <= given:
        raise Fault(1, b"%s format, byte %d: bad directive" % (which, len(text)))
    return pieces


def compile_date(text):
    return compile_directives(text, DATE_DIRECTIVES, {"day", "month", "year"}, b"date")


def compile_time(text):
    return compile_directives(text, TIME_DIRECTIVES, {"hour", "minute"}, b"time")


def spell(pieces, text):
    """The parts that the whole text spells, or None."""
    got = {}
    at = 0
    for piece in pieces:
        if isinstance(piece, int):
            if text[at : at + 1] != bytes([piece]):
                return None
            at += 1
            continue
        width = {"Y": 4, "b": 3}.get(piece, 2)
        part = text[at : at + width]
        at += width
        if len(part) != width:
            return None
        if piece == "b":
            name = bytes(b + 32 if 0x41 <= b <= 0x5A else b for b in part)
            if name not in MONTHS:
                return None
            got["month"] = MONTHS.index(name) + 1
            continue
        if piece == "e" and part[:1] == b" ":
            part = part[1:]
        if not is_digits(part):
            return None
        value = int(part)
        if piece == "y":
            value += 2000 if value <= 68 else 1900
        got[PART[piece]] = value
    return got if at == len(text) else None


def date_in(got):
    if got is None or not 1000 <= got["year"] <= 9999 or not 1 <= got["month"] <= 12:
        return None
    year = got["year"]
    leap = (year % 4 == 0 and year % 100 != 0) or year % 400 == 0
    days = [31, 29 if leap else 28, 31, 30, 31, 30, 31, 31, 30, 31, 30, 31][got["month"] - 1]
    return 10_000 * year + 100 * got["month"] + got["day"] if 1 <= got["day"] <= days else None


def time_in(got):
    if got is None or got["hour"] > 23 or got["minute"] > 59 or got.get("second", 0) > 60:
        return None
    return 60 * got["hour"] + got["minute"]


def read_date(pieces, text):
    return date_in(spell(pieces, text))


def read_time(pieces, text):
    return time_in(spell(pieces, text))


def read_both(date, time, text):
    got = spell(date + time, text)
    day, minute = date_in(got), time_in(got)
    return None if day is None or minute is None else (day, minute)


# ------------------------------------------------------------------------------------------------ requests


def split_request(text):
    first, last = text.find(b" "), text.rfind(b" ")
    if last > first + 1 and text[:first] in METHODS and text[last + 1 :] in PROTOCOLS:
        return text[:first], text[first + 1 : last], text[last + 1 :]
    return b"", text, b""


def percent_decode(text):
    out = bytearray()
    at = 0
    while at < len(text):
        two = text[at + 1 : at + 3]
        if text[at] == 0x25 and len(two) == 2 and all(b in HEXADECIMAL for b in two):
            out.append(int(two, 16))
            at += 3
        else:
            out.append(text[at])
            at += 1
    return bytes(out)


def decode_url(text, times):
    for _ in range(times):
        text = percent_decode(text)
    return lossy(text)


def is_static(url, statics, all_static):
    path, mark, _ = url.partition(b"?")
    return (all_static or not mark) and any(path.endswith(extension) for extension in [*EXTENSIONS, *statics])


def referring_site(referrer):
    _, found, rest = referrer.partition(b"://")
    if not found:
        return None
    ends = [at for at in (rest.find(c) for c in (b"/", b"?", b"#")) if at >= 0]
    site = rest[: min(ends)] if ends else rest
    return site or None


def keyphrase(referrer):
    site = referring_site(referrer)
    if site is None or b"google." not in site:
        return None
    query = referrer.partition(b"?")[2].partition(b"#")[0]
    for pair in query.split(b"&"):
        name, _, value = pair.partition(b"=")
        name, value = (lossy(percent_decode(part.replace(b"+", b" "))) for part in (name, value))
        if name == b"q" and value:
            return value
    return None


# ------------------------------------------------------------------------------------------------ agents


def lines_of(content, keep_rest=True):
    pieces = content.split(b"\n")
    lines = [piece[:-1] if piece.endswith(b"\r") else piece for piece in pieces[:-1]]
    if keep_rest and pieces[-1]:
        lines.append(pieces[-1])
    return lines


def is_utf8(text):
    try:
        text.decode("utf-8")
        return True
    except UnicodeDecodeError:
        return False


def read_rules(content):
    """The rules of a browsers file, or the number of the first line that is none."""
    rules = []
    for at, line in enumerate(lines_of(content), 1):
        if len(line) > LONGEST_RULE:
            return at
        if line == b"" or line.startswith(b"#"):
            continue
        token, tab, category = line.partition(b"\t")
        category = category.lstrip(b"\t")
        if not tab or not token or not category or b"\t" in category or not is_utf8(line):
            return at
        rules.append((token, category))
    return rules


def classify(rules, agent):
    """Browser, category, system, group."""
    browser = category = system = group = UNKNOWN
    for token, its in [*rules, *BROWSERS]:
        start = agent.find(token)
        if start >= 0:
            end = start + len(token)
            while end < len(agent) and agent[end] not in b" ;,()":
                end += 1
            browser, category = agent[start:end], its
            break
    for token, name, family in SYSTEMS:
        if token in agent:
            system, group = name, family
            break
    return browser, category, system, group


# ------------------------------------------------------------------------------------------------ records

SKIPPED, FAILED, EXCLUDED = "skipped", "failed", "excluded"


class Record:
    pass


def micros_of(letter, text):
    """Whole microseconds, or None where nothing is spelt."""
    scale = {b"D": 0, b"T": 6, b"L": 3}[letter]
    whole, dot, part = text.partition(b".")
    if not is_digits(whole) or (dot and (letter == b"D" or not is_digits(part))):
        return None
    return value_of(whole + (part + b"0" * scale)[:scale])


class LineSetup:
    def __init__(self, s):
        self.s = s
        log_format = b"COMBINED" if s.log_format is None else s.log_format
        self.items = compile_log(NAMED.get(log_format, log_format))
        self.date = compile_date(s.date_format)
        self.time = compile_time(s.time_format)
        parts = [items for _, items in self.items] if isinstance(self.items, JsonFormat) else [self.items]
        self.clock = next((clock for clock in map(clock_of, parts) if clock is not None), None)


def read_line(setup, line):
    s = setup.s
    if line == b"" or line.startswith(b"#"):
        return SKIPPED
    if len(line) > LONGEST_LINE:
        return FAILED
    fitted = fit_json(setup.items, line) if isinstance(setup.items, JsonFormat) else fit(setup.items, line)
    if fitted is None:
        return FAILED
    fields = {}
    for letter, text in fitted:
        fields.setdefault(letter, text)  # of %^, %D, %T and %L the first
    host = fields.get(b"h", fields.get(b"~", b""))
    when = fields.get(b"d", fields.get(b"x", b""))
    request = fields.get(b"r", fields.get(b"U", b""))
    if host == b"" or when == b"" or request == b"":
        return FAILED
    if not is_address(host) and not (b"h" in fields and s.no_ip_validation):
        return FAILED
    rec = Record()
    if b"x" in fields:
        both = read_both(setup.date, setup.time, when)
        if both is None:
            return FAILED
        rec.date, rec.minute = both
    else:
        rec.date, rec.minute = read_date(setup.date, when), None
        if rec.date is None:
            return FAILED
        if b"t" in fields:
            rec.minute = read_time(setup.time, fields[b"t"])
            if rec.minute is None:
                return FAILED
    rec.status = 0
    if b"s" in fields:
        status = fields[b"s"]
        if is_digits(status) and len(status) == 3 and 100 <= int(status) <= 599:
            rec.status = int(status)
        elif s.strict_status:
            return FAILED
    size = fields.get(b"b", b"")
    rec.bytes = value_of(size) if is_digits(size) else 0
    rec.micros = None
    if setup.clock is not None and setup.clock in fields:
        rec.micros = micros_of(setup.clock, fields[setup.clock])
    if rec.bytes > BIG or (rec.micros is not None and rec.micros > BIG):
        return FAILED

    def text(letter):
        raw = fields.get(letter, b"")
        return b"" if raw == b"-" else lossy(raw)

    if b"r" in fields:
        rec.method, target, rec.protocol = split_request(fields[b"r"])
    else:
        rec.method, target, rec.protocol = fields.get(b"m", b""), fields[b"U"], fields.get(b"H", b"")
        query = fields.get(b"q", b"")
        if query not in (b"", b"-"):
            target += query if query.startswith(b"?") else b"?" + query
    rec.method = rec.method if rec.method in METHODS else b""
    rec.protocol = rec.protocol if rec.protocol in PROTOCOLS else b""
    if s.no_query:
        target = target.partition(b"?")[0]
    rec.url = decode_url(target, 2 if s.double_decode else 1)
    rec.host = lossy(host)
    rec.referrer, rec.agent, rec.vhost, rec.user = text(b"R"), text(b"u"), text(b"v"), text(b"e")
    rec.cache, rec.mime, rec.tls = text(b"C"), text(b"M"), text(b"K")
    return rec


# ------------------------------------------------------------------------------------------------ counting


def part_of_day(s, rec):
    """The digits of the record's hour, or of its hour and minute; none where days are counted, or without a time."""
    if s.date_spec == b"date" or rec.minute is None:
        return b""
    hour, minute = divmod(rec.minute, 60)
    return b"%02d" % hour if s.date_spec == b"hr" else b"%02d%02d" % (hour, minute)


def time_of_day(s, rec):
    """The record's hour, or its tens of minutes."""
    hour, minute = divmod(rec.minute, 60)
    return b"%02d" % hour if s.hour_spec == b"hr" else b"%02d:%d0" % (hour, minute // 10)


def keys_of(s, rules, rec):
    """The panel, parent, data, method and protocol of each key but those of parents alone; the date is the record's."""
    day, part = num(rec.date), part_of_day(s, rec)
    keys = [(b"VISITORS", b"", day, b"", b"")]
    if part:
        keys.append((b"VISITORS", day, day + part, b"", b""))

    def key(panel, data, parent=b"", method=b"", protocol=b""):
        if panel in s.panels:
            keys.append((panel, parent, data, method, protocol))

    missing = rec.status == 404 or (rec.status == 444 and s.as_404)
    static = is_static(rec.url, s.statics, s.all_static)
    key(b"NOT_FOUND" if missing else b"REQUESTS_STATIC" if static else b"REQUESTS", rec.url, b"", rec.method, rec.protocol)
    key(b"HOSTS", rec.host)
    if rec.agent:
        browser, category, system, group = classify(rules, rec.agent)
        key(b"OS", system, group)
        key(b"BROWSERS", browser, category)
    if rec.minute is not None:
        key(b"VISIT_TIMES", time_of_day(s, rec))
    for panel, value in ((b"VIRTUAL_HOSTS", rec.vhost), (b"REFERRERS", rec.referrer),
                         (b"REFERRING_SITES", referring_site(rec.referrer)), (b"KEYPHRASES", keyphrase(rec.referrer)),
                         (b"REMOTE_USER", rec.user), (b"CACHE_STATUS", rec.cache), (b"TLS_TYPE", rec.tls)):
        if value:
            key(panel, value)
    if rec.status:
        key(b"STATUS_CODES", num(rec.status), CLASSES[rec.status // 100])
    if rec.mime:
        key(b"MIME_TYPE", rec.mime, rec.mime.partition(b"/")[0] or UNKNOWN)
    return keys


def is_excluded(s, rules, rec):
    return (holds(s.ranges, rec.host) or rec.status in s.ignore_status
            or (s.ignore_crawlers and rec.agent != b"" and classify(rules, rec.agent)[1] == CRAWLERS))


def outcome_of(s, rules, setup, line):
    """What a line adds to the counts: that it is skipped, failed or excluded, or its record with its visitor, if any, and its keys."""
    rec = read_line(setup, line)
    if rec in (SKIPPED, FAILED):
        return rec
    if is_excluded(s, rules, rec):
        return EXCLUDED
    rec.visitor = None if 400 <= rec.status <= 499 and not s.count_4xx else (rec.host, rec.date, rec.agent)
    rec.keys = keys_of(s, rules, rec)
    return rec


class Sums:
    def __init__(self):
        self.hits = self.bytes = self.micros = self.top = 0
        self.visitors = set()  # of host, date and agent: those of different dates differ, so they add up

    def add(self, rec, visitor):
        self.hits += 1
        self.bytes += rec.bytes
        self.micros += rec.micros or 0
        self.top = max(self.top, rec.micros or 0)
        if visitor is not None:
            self.visitors.add(visitor)

    def join(self, other):
        self.hits += other.hits
        self.bytes += other.bytes
        self.micros += other.micros
        self.top = max(self.top, other.top)
        self.visitors |= other.visitors


def join_rows(rows, others):
    for name, (sums, children) in others.items():
        row = rows.setdefault(name, (Sums(), {}))
        row[0].join(sums)
        join_rows(row[1], children)


class Counts:
    """What is counted of the lines of one day, or of several: the sums of them all, and the rows of each panel."""

    def __init__(self):
        self.all = Sums()
        # (parent or data, method, protocol) -> (Sums, children); of VISITORS (data, method, protocol), for days and parts of days
        self.rows = {panel: {} for panel in PANELS}

    def add(self, rec):
        self.all.add(rec, rec.visitor)
        for panel, parent, data, method, protocol in rec.keys:
            rows = self.rows[panel]
            if panel in WITH_PARENTS:
                row = rows.setdefault((parent, b"", b""), (Sums(), {}))
                row[0].add(rec, rec.visitor)
                rows = row[1]
            rows.setdefault((data, method, protocol), (Sums(), {}))[0].add(rec, rec.visitor)

    def join(self, other):
        self.all.join(other.all)
        for panel, rows in other.rows.items():
            join_rows(self.rows[panel], rows)


class Summary:
    """The totals of all lines, and what is counted under each day that a counted line has."""

    def __init__(self):
        self.lines = self.failed = self.excluded = self.bytes = self.micros = 0
        self.days = {}

    def count(self, s, rules, setup, line):
        found = outcome_of(s, rules, setup, line)
        if found is SKIPPED:
            return
        self.lines += 1
        if isinstance(found, Record):
            self.bytes += found.bytes
            self.micros += found.micros or 0
        for which, total in ((b"lines", self.lines), (b"bytes", self.bytes), (b"micros", self.micros)):
            if total > LIMIT:
                raise Fault(5, b"counter full: %s %d" % (which, total))
        if found is FAILED:
            self.failed += 1
            return
        if found is EXCLUDED:
            self.excluded += 1
            return
        self.days.setdefault(found.date, Counts()).add(found)

    def keep_last(self, number):
        """Forgets all days but the last ones, as many as this; 0 keeps all. The totals stay those of all lines."""
        if number > 0:
            self.days = {date: self.days[date] for date in sorted(self.days)[-number:]}

    def together(self):
        """The counts of all days together."""
        whole = Counts()
        for day in self.days.values():
            whole.join(day)
        return whole


def hundredths(n, t):
    return 0 if t == 0 else (20_000 * n + t) // (2 * t)


def percent(n, t):
    value = hundredths(n, t)
    return b"%d.%02d" % (value // 100, value % 100)


def ordered(panel, rows, most):
    """The rows of a list in report order, as many as stay."""
    if panel == b"VISITORS":
        names = sorted(rows, reverse=True)
    elif panel == b"VISIT_TIMES":
        names = sorted(rows)
    else:
        names = sorted(rows, key=lambda name: (-rows[name][0].hits, name))
    return [(name, *rows[name]) for name in names[:most]]


# how long the data of VISITORS is that a report shows
SHOWN = {b"date": 8, b"hr": 10, b"min": 12}


def shown_rows(s, whole, panel):
    """The rows of a panel that a report may show."""
    rows = whole.rows[panel]
    if panel != b"VISITORS":
        return rows
    return {name: row for name, row in rows.items() if len(name[0]) == SHOWN[s.date_spec]}


def report_of(s, summary):
    """The general numbers, and for each panel shown its rows, each with its children."""
    whole = summary.together()
    general = [(b"total_requests", summary.lines), (b"valid_requests", whole.all.hits), (b"failed_requests", summary.failed),
               (b"excluded_hits", summary.excluded), (b"unique_visitors", len(whole.all.visitors)),
               (b"bandwidth", whole.all.bytes)]
    panels = [(panel, [(name, sums, ordered(panel, children, s.max_items))
                       for name, sums, children in ordered(panel, shown_rows(s, whole, panel), s.max_items)])
              for panel in PANELS if panel in s.panels]
    return general, panels, whole.all


# ------------------------------------------------------------------------------------------------ CSV


def csv_row(fields):
    def quoted(field):
        if any(c in field for c in (b",", b'"', b"\r", b"\n")):
            return b'"' + field.replace(b'"', b'""') + b'"'
        return field

    return b",".join(quoted(field) for field in fields) + b"\n"


def csv_item(place, parent, panel, name, sums, whole):
    data, method, protocol = name
    visitors = len(sums.visitors)
    return csv_row([
        num(place), parent, panel.lower(), num(sums.hits), percent(sums.hits, whole.hits), num(visitors),
        percent(visitors, len(whole.visitors)), num(sums.bytes), percent(sums.bytes, whole.bytes),
        num(sums.micros // sums.hits), num(sums.micros), num(sums.top), method, protocol, data])


def csv_text(report):
    general, panels, whole = report
    out = [HEADER + b"\n"]
    for at, (name, value) in enumerate(general):
        out.append(csv_row([num(at), b"", b"general", num(value), *[b""] * 10, name]))
    for panel, rows in panels:
        place = 0
        for name, sums, children in rows:
            mine = place
            out.append(csv_item(place, b"", panel, name, sums, whole))
            place += 1
            for child, its, _ in children:
                out.append(csv_item(place, num(mine), panel, child, its, whole))
                place += 1
    return b"".join(out)


# ------------------------------------------------------------------------------------------------ JSON

ESCAPES = {0x22: b'\\"', 0x5C: b"\\\\", 0x08: b"\\b", 0x0C: b"\\f", 0x0A: b"\\n", 0x0D: b"\\r", 0x09: b"\\t"}


def json_value(value):
    if isinstance(value, dict):
        return b"{" + b",".join(json_value(key) + b":" + json_value(value[key]) for key in sorted(value)) + b"}"
    if isinstance(value, list):
        return b"[" + b",".join(json_value(item) for item in value) + b"]"
    if isinstance(value, int):
        return num(value)
    return b'"' + b"".join(ESCAPES.get(b, b"\\u%04x" % b if b < 0x20 else bytes([b])) for b in value) + b'"'


def json_item(name, sums, whole):
    data, method, protocol = name

    def part(n, t):
        return {b"count": n, b"percent": percent(n, t)}

    item = {
        b"avgts": sums.micros // sums.hits, b"cumts": sums.micros, b"maxts": sums.top, b"data": data,
        b"hits": part(sums.hits, whole.hits), b"visitors": part(len(sums.visitors), len(whole.visitors)),
        b"bytes": part(sums.bytes, whole.bytes)}
    if method:
        item[b"method"] = method
    if protocol:
        item[b"protocol"] = protocol
    return item


def json_text(report):
    general, panels, whole = report
    tree = {b"general": dict(general)}
    for panel, rows in panels:
        items = []
        for name, sums, children in rows:
            item = json_item(name, sums, whole)
            if panel in WITH_PARENTS:
                item[b"items"] = [json_item(child, its, whole) for child, its, _ in children]
            items.append(item)
        tree[panel.lower()] = {b"data": items}
    return json_value(tree) + b"\n"


# ------------------------------------------------------------------------------------------------ runs


class Database:
    """What a tracked run leaves to the next one: the sum of all lines that were counted, how far each log was, and the number of
    --keep-last, which is None where none is stored."""

    def __init__(self):
        self.summary = Summary()
        self.entries = []  # (number of first bytes, their SHA-256, offset)
        self.number = None


def lead_of(log, offset):
    """How a log is known again that was counted up to this offset."""
    lead = min(offset, 4096)
    return lead, hashlib.sha256(log[:lead]).digest()


def place_of(entries, log):
    """The entry that a log continues, or None: of those that fit, the first with the greatest offset."""
    fitting = [at for at, (lead, digest, offset) in enumerate(entries) if offset <= len(log) and lead_of(log, offset) == (lead, digest)]
    return max(fitting, key=lambda at: (entries[at][2], -at), default=None)


def follow(s, entries, log):
    """The part of a log that a tracked run counts. The entries go with it."""
    at = place_of(entries, log)
    begin = 0 if at is None else entries[at][2]
    end = log.rfind(b"\n", begin) + 1 if s.persist else len(log)
    end = max(begin, end)
    if end > 0:
        entry = (*lead_of(log, end), end)
        if at is None:
            entries.append(entry)
        else:
            entries[at] = entry
    return log[begin:end]


def text_of(s, read, db):
    """The report's text. `read` gives the bytes of a name, or None where they can't be read. A tracked run goes on from the
    database and, where it persists, leaves it as it is afterwards."""

    def content(name):
        found = read(name)
        if found is None:
            raise Fault(2, name + b": read failed")
        return found

    setup = LineSetup(s)
    rules = []
    if s.browsers_file is not None:
        rules = read_rules(content(s.browsers_file))
        if isinstance(rules, int):
            raise Fault(1, b"browsers file, line %d: not a rule" % rules)
    if s.restore and db.number not in (None, s.keep_last):
        raise Fault(8, b"keep-last: stored %d, given %d" % (db.number, s.keep_last))
    begun = copy.deepcopy(db) if s.restore else Database()
    logs = [generated(s.generate)] if s.generate else map(content, s.logs)
    if s.persist or s.restore:
        logs = (follow(s, begun.entries, log) for log in logs)
    for log in logs:
        for line in lines_of(log):
            begun.summary.count(s, rules, setup, line)
    begun.summary.keep_last(s.keep_last)
    report = report_of(s, begun.summary)
    if s.persist:
        db.summary, db.entries, db.number = begun.summary, begun.entries, s.keep_last
    if s.generate:
        return six_lines(s.generate, json_text(report))
    return csv_text(report) if s.kind == b"csv" else json_text(report)


def generated(lines):
    """The generator's log."""
    return b"".join(
        b'10.%d.%d.%d - - [%02d/Jan/2024:%02d:00:00 +0000] "GET /p%d%s HTTP/1.1" %d %d "-" '
        b'"Mozilla/5.0 (X11; Linux x86_64; rv:100.0) Gecko/20100101 Firefox/%d.0"\n'
        % (i % 7, i % 11, i % 13, 1 + i % 28, i % 24, i % 17, b"" if i % 5 else b".css", 404 if i % 10 == 9 else 200, i % 1000, 100 + i % 3)
        for i in range(lines))


def six_lines(lines, text):
    """What a run over the generator's log prints in place of its report."""
    general = json.loads(text)["general"]
    return b"generated %d\nvalid %d\nfailed %d\nvisitors %d\nbandwidth %d\nreport %s\n" % (
        lines, general["valid_requests"], general["failed_requests"], general["unique_visitors"], general["bandwidth"],
        hashlib.sha256(text).hexdigest().encode())


def run_words(words, read, db):
    """Status, standard output, standard error, and the file to make, if any, as (name, bytes)."""
    try:
        if not all(is_utf8(word) for word in words):
            raise Fault(1, b"words are not UTF-8")
        s = settings_of(words, read)
        text = text_of(s, read, db)
    except Fault as fault:
        return fault.status, b"", b"goaccess: " + fault.text + b"\n", None
    if s.target and not s.generate:
        return 0, b"", b"", (s.target, text)
    return 0, text, b"", None


def run(words, files, db=None):
    status, out, err, made = run_words(words, files.get, Database() if db is None else db)
    return status, out, err, dict([made]) if made else {}


def read_file(name):
    try:
        if not stat.S_ISREG(os.stat(name).st_mode):
            return None
        with open(name, "rb") as log:
            return log.read()
    except OSError:
        return None


def written(target, text):
    """The number of bytes that the target took."""
    taken = 0
    try:
        while taken < len(text):
            taken += os.write(target, text[taken:])
    except OSError:
        pass
    return taken


def main(words):
    if words == [b"--oracle-self-test"]:
        return self_test()
    status, out, err, made = run_words(words, read_file, Database())
    target, name, text = 1, b"standard output", out
    if made is not None:
        name, text = made
        try:
            target = os.open(name, os.O_WRONLY | os.O_CREAT | os.O_TRUNC, 0o666)
        except OSError:
            target = -1
    taken = written(target, text)
    if taken < len(text):
        status, err = 4, b"goaccess: %s: write failed after %d bytes\n" % (name, taken)
    written(2, err)
    return status


# ------------------------------------------------------------------------------------------------ self-test


def line_of(url, status, size, date=b"01/Jan/2024", host=b"192.0.2.1", end=b"\n", clock=b"00:00:00"):
    return host + b" - - [" + date + b":" + clock + b' +0000] "GET ' + url + b' HTTP/1.1" ' + num(status) + b" " + size + end


ONE_LINE = b"""id,parent_id,panel,hits,hits%,visitors,visitors%,bytes,bytes%,avgts,cumts,maxts,method,protocol,data
0,,general,1,,,,,,,,,,,total_requests
1,,general,1,,,,,,,,,,,valid_requests
2,,general,0,,,,,,,,,,,failed_requests
3,,general,0,,,,,,,,,,,excluded_hits
4,,general,1,,,,,,,,,,,unique_visitors
5,,general,512,,,,,,,,,,,bandwidth
0,,visitors,1,100.00,1,100.00,512,100.00,0,0,0,,,20240312
0,,requests,1,100.00,1,100.00,512,100.00,0,0,0,GET,HTTP/1.1,/index.html
0,,hosts,1,100.00,1,100.00,512,100.00,0,0,0,,,203.0.113.7
0,,os,1,100.00,1,100.00,512,100.00,0,0,0,,,Linux
1,0,os,1,100.00,1,100.00,512,100.00,0,0,0,,,Linux
0,,browsers,1,100.00,1,100.00,512,100.00,0,0,0,,,Firefox
1,0,browsers,1,100.00,1,100.00,512,100.00,0,0,0,,,Firefox/124.0
0,,visit_times,1,100.00,1,100.00,512,100.00,0,0,0,,,08
0,,referrers,1,100.00,1,100.00,512,100.00,0,0,0,,,https://www.example.org/start
0,,referring_sites,1,100.00,1,100.00,512,100.00,0,0,0,,,www.example.org
0,,status_codes,1,100.00,1,100.00,512,100.00,0,0,0,,,2xx Success
1,0,status_codes,1,100.00,1,100.00,512,100.00,0,0,0,,,200
"""
EMPTY_LOG = b"""{"browsers":{"data":[]},"cache_status":{"data":[]},"general":{"bandwidth":0,"excluded_hits":0,"failed_requests":0,"total_requests":0,"unique_visitors":0,"valid_requests":0},"hosts":{"data":[]},"keyphrases":{"data":[]},"mime_type":{"data":[]},"not_found":{"data":[]},"os":{"data":[]},"referrers":{"data":[]},"referring_sites":{"data":[]},"remote_user":{"data":[]},"requests":{"data":[]},"requests_static":{"data":[]},"status_codes":{"data":[]},"tls_type":{"data":[]},"virtual_hosts":{"data":[]},"visit_times":{"data":[]},"visitors":{"data":[]}}
"""
FIREFOX = (b'203.0.113.7 - - [12/Mar/2024:08:05:09 +0000] "GET /index.html HTTP/1.1" 200 512 "https://www.example.org/start" '
           b'"Mozilla/5.0 (X11; Linux x86_64; rv:124.0) Gecko/20100101 Firefox/124.0"\n')
GOOGLEBOT = b"Mozilla/5.0 (compatible; Googlebot/2.1; +http://www.google.com/bot.html)"


def self_test():
    """Examples worked out by hand. Says what is wrong, and how many checks there were."""
    import ipaddress
    import json
    import random

    wrong = []
    checks = 0

    def check(name, got, wanted):
        nonlocal checks
        checks += 1
        if got != wanted:
            wrong.append(name)
            print(f"{name}: {got!r}\n  not {wanted!r}")

    def words(text, *more):
        return [*text.encode().split(), *more]

    def shows(name, given, files, *rows):
        status, out, err, made = run(given, files)
        check(name + " status", (status, err, made), (0, b"", {}))
        for row in rows:
            check(name + f" shows {row!r}", row in (out if row.startswith(b'"') else out.split(b"\n")), True)
        return out

    def general(out):
        return [int(row.split(b",")[3]) for row in out.split(b"\n")[1:7]]

    def refused(name, given, status, text, files=None):
        check(name, run(given, files or {}), (status, b"", b"goaccess: " + text + b"\n", {}))

    common = words("--log-format=COMMON -o csv a.log")
    combined = words("--log-format=COMBINED -o csv a.log")
    a = line_of(b"/a", 200, b"10")
    check("a line of 67 bytes", len(a), 68)
    check("one line", run(words("--log-format=COMBINED -o csv access.log"), {b"access.log": FIREFOX}), (0, ONE_LINE, b"", {}))
    check("an empty log", run(words("--log-format=COMMON e.log"), {b"e.log": b""}), (0, EMPTY_LOG, b"", {}))
    two = line_of(b"/a", 200, b"10") * 2 + line_of(b"/a", 200, b"10", b"02/Jan/2024") * 2
    out = shows("two days", common, {b"a.log": two}, b"0,,visitors,2,50.00,1,50.00,20,50.00,0,0,0,,,20240102",
                b"1,,visitors,2,50.00,1,50.00,20,50.00,0,0,0,,,20240101")
    check("two days general", general(out), [4, 4, 0, 0, 2, 40])
    four = {b"a.log": line_of(b"/x", 404, b"5") + a}
    shows("a status of 404", common, four, b"0,,not_found,1,50.00,0,0.00,5,33.33,0,0,0,GET,HTTP/1.1,/x")
    shows("a status of 404 counted", [b"--4xx-to-unique-count", *common], four,
          b"0,,not_found,1,50.00,1,100.00,5,33.33,0,0,0,GET,HTTP/1.1,/x")
    out = shows("a CR and a note", common, {b"a.log": line_of(b"/a", 200, b"10", end=b"\r\n") + b"# note\n\n"})
    check("a CR and a note general", general(out), [1, 1, 0, 0, 1, 10])
    longest = [line_of(b"/" + b"a" * n, 200, b"10", end=b"") for n in (65_469, 65_470)]
    check("the longest line lengths", [len(text) for text in longest], [65_535, 65_536])
    for jobs, chunk in ((b"1", b"1"), (b"16", b"32768")):
        out = shows("the longest line", [b"--jobs", jobs, b"--chunk-size", chunk, *common], {b"a.log": b"\n".join(longest) + b"\n"})
        check("the longest line general", general(out)[:3], [2, 1, 1])
    out = shows("common lines as combined ones", combined, {b"a.log": a})
    check("common lines as combined ones general", general(out), [1, 1, 0, 0, 1, 10])
    check("common lines as combined ones panels", any(part in out for part in (b",os,", b",browsers,", b",referrers,")), False)
    dash = b'192.0.2.1 - - [01/Jan/2024:00:00:00 +0000] "-" 408 -\n'
    shows("a dash as request", words("--log-format=COMMON a.log"), {b"a.log": dash},
          b'"requests":{"data":[{"avgts":0,"bytes":{"count":0,"percent":"0.00"},"cumts":0,"data":"-","hits":{"count":1,'
          b'"percent":"100.00"},"maxts":0,"visitors":{"count":0,"percent":"0.00"}}]}')
    css = {b"a.log": line_of(b"/a.css?v=1", 200, b"10")}
    amounts = b"1,100.00,1,100.00,10,100.00,0,0,0,GET,HTTP/1.1,"
    shows("a static file", common, css, b"0,,requests," + amounts + b"/a.css?v=1")
    shows("a static file all", [*common, b"--all-static-files"], css, b"0,,requests_static," + amounts + b"/a.css?v=1")
    shows("a static file no query", [*common, b"--no-query-string"], css, b"0,,requests_static," + amounts + b"/a.css")
    pairs = [(1, 3), (2, 3), (1, 20_000), (1, 20_001), (0, 0)]
    check("shares", [hundredths(*pair) for pair in pairs], [3333, 6667, 1, 0, 0])
    check("shares printed", [percent(*pair) for pair in pairs], [b"33.33", b"66.67", b"0.01", b"0.00", b"0.00"])
    big = line_of(b"/a", 200, b"1000000000000000000")
    for n in (5, 6):
        refused("a full counter", common, 5, b"counter full: bytes 5000000000000000000", {b"a.log": big * n})
    check("a full counter four", general(shows("a full counter", common, {b"a.log": big * 4}))[5], 4 * 10**18)
    check("one log twice", general(shows("one log twice", [*common, b"a.log"], {b"a.log": a}))[:2], [2, 2])
    cut = a + b"192.0.2.1 - - [01/Jan/2024:00:00:0"
    check("an unended line", general(shows("an unended line", common, {b"a.log": cut}))[:3], [2, 1, 1])
    refused("a bad format", [b'--log-format=%h%d "%r"', b"a.log"], 1, b"log format, byte 0: no delimiter")
    refused("a bad format date", [b'--log-format=%h "%r"', b"a.log"], 1, b"log format: no date")
    for text, said in {"--bogus": "word 0: unknown option", "--jobs": "word 0: value missing", "--jobs=17 a": "word 0: bad value",
                       "--jobs 17 a": "word 1: bad value", "a": "no log format", "": "no input",
                       "--generate=5 --persist": "word 0: conflict"}.items():
        refused("words", words(text), 1, said.encode())
    for text in "192.0.2.1 ::1 ::ffff:192.0.2.1 1:2:3:4:5:6:7::".split():
        check("addresses " + text, is_address(text.encode()), True)
    for text in ["256.1.1.1", "01.2.3.4", "1::2::3", "1:2:3:4:5:6:7:8::", ""]:
        check("addresses " + text, is_address(text.encode()), False)
    nine = [read_range(b"192.0.2.1-192.0.2.9")]
    check("addresses range", (holds(nine, b"192.0.2.9"), holds(nine, b"192.0.2.10")), (True, False))
    check("addresses bad range", read_range(b"192.0.2.9-192.0.2.1"), 10)

    def fault_of(call, text):
        try:
            return call(text)
        except Fault as fault:
            return fault.text

    usual = compile_date(b"%d/%b/%Y")
    check("dates", (read_date(usual, b"29/Feb/2024"), read_date(usual, b"29/Feb/2023")), (20240229, None))
    check("dates bad", [fault_of(compile_date, text) for text in (b"%d/%Q", b"%d/%m")],
          [b"date format, byte %d: bad directive" % at for at in (3, 5)])
    both = read_both(compile_date(b"%Y%m%d"), compile_time(b"%H%M%S"), b"20170801235000")
    check("dates both", both, (20170801, 1430))
    forwarded = b'10.0.0.1, 192.0.2.7 - [01/Jan/2024:00:00:00 +0000] "GET / HTTP/1.0" 200 0\n'
    shows("forwarded hosts", [b'--log-format=~h{, } %^[%d:%t %^] "%r" %s %b', b"-o", b"csv", b"a.log"], {b"a.log": forwarded},
          b"0,,hosts,1,100.00,1,100.00,0,0.00,0,0,0,,,10.0.0.1",
          b"0,,requests,1,100.00,1,100.00,0,0.00,0,0,0,GET,HTTP/1.0,/")
    quoted = b'192.0.2.1 - - [01/Jan/2024:00:00:00 +0000] "GET /a HTTP/1.1" 200 5 "-" "Foo \\"bar\\" Baz"\n'
    shows("a quoted agent", combined, {b"a.log": quoted}, b"0,,os,1,100.00,1,100.00,5,100.00,0,0,0,,,Unknown",
          b"1,0,browsers,1,100.00,1,100.00,5,100.00,0,0,0,,,Unknown")
    db, log = Database(), {}
    tracked = words("--log-format=COMMON -o csv --restore --persist")

    def five(*urls):
        return b"".join(line_of(b"/" + url, 200, b"10") for url in urls)

    log[b"a.log"] = five(b"a", b"b")
    check("tracked runs, first", general(run([*tracked, b"a.log"], log, db)[1]), [2, 2, 0, 0, 1, 20])
    log[b"a.log.1"], log[b"a.log"] = log[b"a.log"] + five(b"c"), five(b"d")
    check("tracked runs, second", general(run([*tracked, b"a.log.1", b"a.log"], log, db)[1]), [4, 4, 0, 0, 1, 40])
    log[b"a.log"] += five(b"e")
    out = run([*tracked, b"a.log.1", b"a.log"], log, db)[1]
    check("tracked runs, third", (general(out), out), ([5, 5, 0, 0, 1, 50], run(common, {b"a.log": five(b"a", b"b", b"c", b"d", b"e")})[1]))
    check("tracked runs, shown", run([*tracked[:-1]], log, db)[1], out)
    check("tracked runs, anew", general(run([*words("--log-format=COMMON -o csv --persist a.log")], log, db)[1]), [2, 2, 0, 0, 1, 20])
    check("one log twice", [general(run([*more, b"a.log", b"a.log"], {b"a.log": a}, Database())[1])[1] for more in (tracked, tracked[:3])], [1, 2])
    db, begun = Database(), {b"a.log": a + a[:31]}
    check("an unended line", (general(run([*tracked, b"a.log"], begun, db)[1])[0], db.entries[0][2]), (1, 68))
    check("an unended line, untracked", general(run(common, begun)[1])[:3], [2, 1, 1])
    check("an unended line, ended", general(run([*tracked, b"a.log"], {b"a.log": a + a}, db)[1])[0], 2)
    s = read_words(combined)
    check("a quoted agent agent", read_line(LineSetup(s), quoted[:-1]).agent, b'Foo \\"bar\\" Baz')
    check("decoding", [decode_url(b"/caf%C3%A9", 1), decode_url(b"/%2541", 1), decode_url(b"/%2541", 2), decode_url(b"/%FF", 1)],
          ["/caf\u00e9".encode(), b"/%41", b"/A", "/\ufffd".encode()])
    shows("decoding CSV", common, {b"a.log": line_of(b"/a,b", 200, b"1")},
          b'0,,requests,1,100.00,1,100.00,1,100.00,0,0,0,GET,HTTP/1.1,"/a,b"')
    times = [(b"T", b"0.1234567"), (b"L", b"1.5"), (b"D", b"17"), (b"D", b"-"), (b"T", b"1000000000000")]
    check("times taken", [micros_of(*time) for time in times], [123456, 1500, 17, None, 10**18])
    timed = b'--log-format=%h %^[%d:%t %^] "%r" %s %b %T'
    for text, failed in ((b"1000000000000", 0), (b"1000000000001", 1)):
        out = shows("times taken", [timed, b"-o", b"csv", b"a.log"], {b"a.log": a[:-1] + b" " + text + b"\n"})
        check("times taken failed", general(out)[2], failed)
    search = b"https://www.google.com/search?hl=en&q=rust+hash%20map"
    check("a search and a crawler", (keyphrase(search), referring_site(search)), (b"rust hash map", b"www.google.com"))
    check("a search and a crawler agent", classify([], GOOGLEBOT), (b"Googlebot/2.1", CRAWLERS, UNKNOWN, UNKNOWN))
    crawled = {b"a.log": a[:-1] + b' "-" "' + GOOGLEBOT + b'"\n'}
    out = shows("a search and a crawler run", [b"--ignore-crawlers", *combined], crawled)
    check("a search and a crawler general", general(out), [1, 0, 0, 1, 0, 0])
    check("a browsers file", (read_rules(b"Foo\t\tCrawlers\n"), read_rules(b"# x\nFoo\n")), ([(b"Foo", CRAWLERS)], 2))
    refused("a browsers file run", [b"--browsers-file=r", *common], 1, b"browsers file, line 2: not a rule", {b"r": b"# x\nFoo\n"})
    row = b"log-format COMMON\n# x\nhl-header true\nignore-panel HOSTS\nall-static-files true\n"
    named = words("--config-file=g.conf -o csv a.log")
    check("a configuration file", run(named, {b"g.conf": row, b"a.log": a}),
          run(words("--log-format=COMMON --ignore-panel=HOSTS --all-static-files -o csv a.log"), {b"a.log": a}))
    check("a configuration file before the words", run([b"--log-format=COMBINED", *named], {b"g.conf": row, b"a.log": a}),
          run(words("--log-format=COMBINED --ignore-panel=HOSTS --all-static-files -o csv a.log"), {b"a.log": a}))
    refused("a setting that is none", named, 1, b"config file, line 2: not a setting", {b"g.conf": b"log-format COMMON\njobs 17\n"})
    refused("a configuration file that isn't there", [b"--config-file=g.conf", b"a.log"], 2, b"g.conf: read failed", {})
    refused("a bad value before a configuration file", [b"--config-file=g.conf", b"--jobs=17"], 1, b"word 1: bad value", {})
    refused("a conflict with a configuration file", [b"--jobs=2", b"--generate=5", b"--config-file=g.conf"], 1, b"word 1: conflict", {b"g.conf": b"persist true\n"})
    settings = [(b"jobs 2\r\n", [b"--jobs=2"]), (b"jobs 2\r", 1), (b"log-file a\n", 1), (b"generate 5\n", 1), (b"config-file a\nx y\n", []), (b"X y\n", 1),
                (b"persist false\nrestore true", [b"--restore"]), (b"persist\n", 1), (b"log-format\n", [b"--log-format="]), (b"\n\t# \xff\n", 2),
                (b"#" * 4096 + b"\n", []), (b"#" * 4097 + b"\n", 1)]
    check("settings", [read_conf(text) for text, _ in settings], [given for _, given in settings])
    check("a report's file", run(words("--log-format=COMMON -o r.json e.log"), {b"e.log": b""}), (0, b"", b"", {b"r.json": EMPTY_LOG}))
    one = [b"--ignore-panel=HOSTS", b"--enable-panel=HOSTS"]
    check("a panel shown", b",hosts," in shows("panels", [*one, *common], {b"a.log": a}), True)
    check("a panel not shown", b",hosts," in shows("panels", [*one[::-1], *common], {b"a.log": a}), False)

    # days, hours and minutes
    def visitors(out):
        return re.findall(rb"^\d+,,visitors,(.*)$", out, re.M)

    day = b"".join(line_of(b"/a", 200, b"10", clock=clock) for clock in (b"08:05:00", b"08:55:00", b"09:10:00"))
    fine = [b"0,,visitors,1,33.33,1,100.00,10,33.33,0,0,0,,,2024010109", b"1,,visitors,2,66.67,1,100.00,20,66.67,0,0,0,,,2024010108"]
    out = shows("hours of a day", [b"--date-spec=hr", *common], {b"a.log": day}, *fine)
    check("hours of a day, general", general(out), [3, 3, 0, 0, 1, 30])
    check("hours of a day, rows", len(visitors(out)), 2)
    out = shows("minutes of a day", [b"--date-spec", b"min", *common], {b"a.log": day})
    check("minutes of a day, rows", [row[-12:] for row in visitors(out)], [b"20240101" + part for part in (b"0910", b"0855", b"0805")])
    shows("tens of minutes", [b"--hour-spec=min", *common], {b"a.log": day},
          *(b"%d,,visit_times,1,33.33,1,100.00,10,33.33,0,0,0,,,%s" % place for place in enumerate((b"08:00", b"08:50", b"09:10"))))
    for text in ("--date-spec=day", "--date-spec=HR", "--hour-spec=date", "--date-spec="):
        refused("words", words(text), 1, b"word 0: bad value")
    refused("words", words("--hour-spec"), 1, b"word 0: value missing")
    untimed = [b'--log-format=%h %^[%d:%^] "%r" %s %b', b"--date-spec=hr", b"-o", b"csv", b"a.log"]
    out = shows("no time of day", untimed, {b"a.log": day})
    check("no time of day, rows", (general(out), visitors(out)), ([3, 3, 0, 0, 1, 30], []))
    db = Database()
    whole = general(run([*tracked, b"a.log"], {b"a.log": day}, db)[1])
    out = run(words("-o csv --restore --date-spec=hr"), {}, db)[1]
    check("kept days, shown by hours", (general(out), visitors(out)), (whole, []))
    out = run([*tracked, b"--date-spec=hr", b"b.log"], {b"b.log": line_of(b"/b", 200, b"20", clock=b"08:59:00")}, db)[1]
    check("kept days and hours", (general(out), visitors(out)), ([4, 4, 0, 0, 1, 50], [b"1,25.00,1,100.00,20,40.00,0,0,0,,,2024010108"]))
    out = run(words("-o csv --restore"), {}, db)[1]
    check("kept days and hours, shown by days", visitors(out), [b"4,100.00,1,100.00,50,100.00,0,0,0,,,20240101"])

    # the last days
    def on(*days):
        return b"".join(line_of(b"/a", 200, b"10", date=b"%02d/Jan/2024" % day) for day in days)

    three = {b"a.log": on(1, 2, 3)}
    rows = [b"%d,,visitors,1,50.00,1,50.00,10,50.00,0,0,0,,,%s" % row for row in enumerate((b"20240103", b"20240102"))]
    out = shows("two days of three", [b"--keep-last=2", *common], three, *rows)
    check("two days of three, general", (general(out), len(visitors(out))), ([3, 2, 0, 0, 2, 20], 2))
    whole = run(common, three)[1]
    check("as many days as there are, and more", [run([b"--keep-last=%d" % n, *common], three)[1] == whole for n in (3, 4, 4_294_967_295)], [True] * 3)
    hosts = [b"--keep-last=1", b"--ignore-panel=VISITORS", *common]
    shows("the last day where days aren't shown", hosts, three, b"0,,hosts,1,100.00,1,100.00,10,100.00,0,0,0,,,192.0.2.1")
    others = on(3, 1) + line_of(b"/a", 500, b"10", date=b"04/Jan/2024") + line_of(b"/a", 99, b"10", date=b"05/Jan/2024")
    out = shows("days of lines that aren't counted", [b"--keep-last=1", b"--ignore-status=500", *common], {b"a.log": others})
    check("days of lines that aren't counted, general", (general(out), visitors(out)[0][-8:]), ([4, 1, 1, 1, 1, 10], b"20240103"))
    out = shows("the last of several numbers, and hours", [b"--keep-last=1", b"--keep-last", b"0000000002", b"--date-spec=hr", *common], three)
    check("the last of several numbers, and hours, rows", [row[-10:] for row in visitors(out)], [b"2024010300", b"2024010200"])
    check("the last day of generated lines", run(words("--keep-last=1 --generate=56"), {})[1].split(b"\n")[:5],
          [b"generated 56", b"valid 2", b"failed 0", b"visitors 2", b"bandwidth 82"])
    for text in ("0", "4294967296", "-1", "", "+1", "two", "1.5", "00000000001", " 1"):
        refused(f"a number of days that is refused: {text}", [b"--keep-last=" + text.encode(), b"a"], 1, b"word 0: bad value")
    refused("no number of days", words("--keep-last"), 1, b"word 0: value missing")
    two_days = [b"--keep-last=2", *tracked, b"a.log"]
    db = Database()
    first = run(two_days, {b"a.log": on(1, 2)}, db)[1]
    check("two days kept", general(first), [2, 2, 0, 0, 2, 20])
    check("two days kept, and a third", run(two_days, three, db)[1], run([b"--keep-last=2", *common], three)[1])
    refused_by = [*words("--keep-last=3 --log-format=COMMON --restore --persist gone.log"), b"a.log"]
    check("three days where two are stored", run(refused_by, three, db), (8, b"", b"goaccess: keep-last: stored 2, given 3\n", {}))
    check("all days where two are stored", run(words("--restore"), {}, db), (8, b"", b"goaccess: keep-last: stored 2, given 0\n", {}))
    check("a bad format before another number", run(words("--restore --time-format=%H"), {}, db)[0], 1)
    check("a browsers file that isn't there before another number", run(words("--restore --browsers-file=gone"), {}, db)[0], 2)
    older = {**three, b"b.log": on(1, 3)}
    out = run([*two_days, b"b.log"], older, db)[1]
    check("a day that was left out before", (general(out), [row[-8:] for row in visitors(out)]), ([5, 3, 0, 0, 2, 30], [b"20240103", b"20240102"]))
    out = run(words("--log-format=COMMON -o csv --restore --keep-last=2 c.log"), {b"c.log": on(4)}, db)[1]
    check("--restore alone leaves the days as they are", (general(out), sorted(db.summary.days)), ([6, 3, 0, 0, 2, 30], [20240102, 20240103]))
    check("--persist alone takes another number", (general(run([*words("--log-format=COMMON -o csv --persist --keep-last=1 a.log")], three, db)[1]), db.number),
          ([3, 1, 0, 0, 1, 10], 1))
    db.number = None
    check("any number where none is stored", (general(run([*words("--keep-last=2"), *tracked, b"b.log"], older, db)[1]), db.number), ([5, 3, 0, 0, 2, 30], 2))
    db = Database()
    check("no number is 0", (run([*tracked, b"a.log"], three, db)[0], db.number, run(two_days, three, db)[2]),
          (0, 0, b"goaccess: keep-last: stored 0, given 2\n"))
    full = {b"a.log": b"".join(line_of(b"/a", 200, num(BIG), date=b"%02d/Jan/2024" % day) for day in range(1, 6))}
    refused("a counter counts the days that are left out", [b"--keep-last=1", *common], 5, b"counter full: bytes 5000000000000000000", full)

    # odd cases
    for text, said in {"%h %h%d": "log format, byte 3: repeated", "%h%h": "log format, byte 0: no delimiter",
                       "%h%z": "log format, byte 2: unknown specifier", "%h%d": "log format, byte 0: no delimiter",
                       "%^%~": "log format, byte 0: no delimiter", "~h{}}": "log format, byte 0: unknown specifier",
                       "%%": "log format, byte 0: unknown specifier", "%": "log format, byte 0: unknown specifier",
                       "%x %t": "log format, byte 3: repeated", "%U %r": "log format, byte 3: repeated",
                       "~h{,} %h": "log format, byte 6: repeated", "%D %D %T %L %L": "log format: no host",
                       "%h %x": "log format: no request", "common": "log format: no host"}.items():
        check("format " + text, fault_of(compile_format, text.encode()), said.encode())
    check("format ~h", compile_format(b"~h %h %d %U\\t\\")[:3], [(LITERAL, 0x7E), (LITERAL, 0x68), (LITERAL, 0x20)])
    check("format tab", compile_format(b"~h %h %d %U\\t\\")[-2:], [(LITERAL, 9), (LITERAL, 0x5C)])
    for text, at in {"%F %d": 3, "%d/%m/": 6, "%d %D": 3, "%Y%": 2, "%H": 0, "%d%e": 2, "": 0, "%m%b%d%Y": 2}.items():
        check("date " + text, fault_of(compile_date, text.encode()), b"date format, byte %d: bad directive" % at)
    check("time %T%H", fault_of(compile_time, b"%T%H"), b"time format, byte 2: bad directive")
    check("dates", [read_date(compile_date(fmt), text) for fmt, text in (
        (b"%e %b %y", b" 5 jAN 68"), (b"%e %b %y", b"05 FEB 69"), (b"%e %b %y", b"5 Feb 69"), (b"%F", b"0999-01-01"),
        (b"%F", b"1900-02-29"), (b"%F", b"2000-02-29"), (b"%D%%", b"12/31/99%"), (b"%F", b"2024-01-01 "))],
        [20680105, 19690205, None, None, None, 20000229, 19991231, None])
    check("times", [read_time(compile_time(b"%T"), text) for text in (b"23:59:60", b"24:00:00", b"00:60:00", b"00:00:61")],
          [1439, None, None, None])
    check("requests", [split_request(text) for text in (b"GET  HTTP/1.1", b"GET   HTTP/1.1", b"GET /a b HTTP/2", b"get / HTTP/2",
                                                        b"GET /", b"GET / HTTP/1.1 ")],
          [(b"", b"GET  HTTP/1.1", b""), (b"GET", b" ", b"HTTP/1.1"), (b"GET", b"/a b", b"HTTP/2"), (b"", b"get / HTTP/2", b""),
           (b"", b"GET /", b""), (b"", b"GET / HTTP/1.1 ", b"")])
    check("keyphrases", [keyphrase(text) for text in (
        b"http://google.de?q=&%71=a%2", b"http://www.google.com/#x?q=y", b"http://google.com?x=1#&q=1", b"google.com?q=1",
        b"http://example.org/google.com?q=1", b"http://google.com?q", b"http://google.com?a=b?q=1&&q=2=3")],
        [b"a%2", b"y", None, None, None, None, b"2=3"])
    check("rules", [read_rules(text) for text in (b"a\tb\r\nc d\t\te f\r", b"\ta\n", b"a\tb\tc\n", b"a\t\n", b"\xff\tb\n",
                                                  b"#\xff\n", b"#" + b"x" * 1024, b"#" + b"x" * 1023 + b"\r\n", b"\r\n \n")],
          [[(b"a", b"b"), (b"c d", b"e f\r")], 1, 1, 1, 1, [], 1, [], 2])
    items = compile_format(b'~h{, }"%d"%U')
    check("forwarded, first case", [fit(items, text) for text in (
        b'unknown, 10.0.0.1, ::1"1"/a', b', "1"/a', b'x\\",::1"1"/a', b"::1, ", b"x, y", b'::1\\')],
        [[(b"~", b"10.0.0.1"), (b"d", b"1"), (b"U", b"/a")], [(b"d", b"1"), (b"U", b"/a")],
         [(b"~", b"::1"), (b"d", b"1"), (b"U", b"/a")], [(b"~", b"::1")], [], []])
    items = compile_format(b'~h{, } [%d] "%r"')
    check("forwarded chain", [fit(items, text) for text in (
        b'10.0.0.1, [01/Jan/2024] "/"', b'10.0.0.1, ::1, x [01/Jan/2024] "/"', b' 10.0.0.1 [01/Jan/2024] "/"',
        b"10.0.0.1,::1", b"10.0.0.1,::1 ", b"10.0.0.1 [1")],
        [None, None, None, [(b"~", b"10.0.0.1")], None, [(b"~", b"10.0.0.1"), (b"d", b"1")]])
    check("white space", fit(compile_format(b"%h|%~%d|%U"), b"a|\t\x0b\r 1|"), [(b"h", b"a"), (b"d", b"1"), (b"U", b"")])
    check("numbers", (value_of(b"0" * 4999 + b"7"), value_of(b"9" * 5000) > BIG, value_of(b"0")), (7, True, 0))
    check("clock", [micros_of(b"T", text) for text in (b".5", b"5.", b"1e3", b"+1", b"1000000000000.0000009", b"")],
          [None, None, None, None, 10**18, None])
    for given, said in ((["-o=json", "a"], "word 0: unknown option"), (["-"], "word 0: unknown option"), (["--", ""], "word 1: bad value"),
                        (["--persist=1"], "word 0: bad value"), (["--bogus=1"], "word 0: unknown option"),
                        (["--generate", "5", "a", "--log-format="], "word 0: conflict"), (["--jobs=08", "--", "--", "-"], "no log format"),
                        (["--generate=00000000007"], "word 0: bad value"), (["--ignore-panel=hosts"], "word 0: bad value"),
                        (["-o", "--"], "word 1: bad value"), (["-o", ".json"], "word 1: bad value"), (["-o", "x.csv"], "no input"),
                        (["--log-format=", "a"], "log format: no host"), (["--db-path="], "word 0: bad value"),
                        (["--exclude-ip=::-1.2.3.4", "--x"], "word 0: bad value"), (["--max-items=0"], "word 0: bad value")):
        refused(f"words {given}", [word.encode() for word in given], 1, said.encode())
    names = {b"a.log": line_of(b"/a", 200, b"1", host=b"-")}
    check("host -", general(shows("host -", [b"--no-ip-validation", *common], names))[1], 1)

    # against Python's own library
    rng = random.Random(1)
    alphabet = ["::", ":", ".", "0", "1", "00", "f", "fFff", "12345", "255", "256", "01", "192.0.2.1", "1:2:3", "g", "%1"]
    for _ in range(200_000):
        text = "".join(rng.choice(alphabet) for _ in range(rng.randint(0, 9)))
        try:
            known = ipaddress.ip_address(text) if "%" not in text else None
        except ValueError:
            known = None
        checks += 1
        if address_of(text.encode()) != (known and (str(known.version), int(known))):
            wrong.append(text)
            print(f"address {text}")
    for _ in range(2_000):
        text = "".join(rng.choice(["a", "\u00e9", '"', "\\", "\x00", "\x1f", "\x7f", "\u20ac", "/", "\U0001f600", "\b\f\n\r\t"])
                       for _ in range(rng.randint(0, 8)))
        check("JSON text", json_value(text.encode()).decode(), json.dumps(text, ensure_ascii=False, separators=(",", ":")))
    mixed = run(words("--log-format=COMBINED a.log"), {b"a.log": FIREFOX + quoted + two + dash + crawled[b"a.log"]})[1]
    again = json.dumps(json.loads(mixed), ensure_ascii=False, separators=(",", ":"), sort_keys=True) + "\n"
    check("JSON of a report", mixed.decode(), again)

    def rows_of(tree):
        """The rows of the CSV report, from the tree of the JSON report."""
        general = "total_requests valid_requests failed_requests excluded_hits unique_visitors bandwidth".split()
        yield HEADER.decode().split(",")
        for at, name in enumerate(general):
            yield [str(at), "", "general", str(tree["general"][name]), *[""] * 10, name]
        for panel in (name.decode().lower() for name in PANELS):
            place = 0
            for row in tree.get(panel, {"data": []})["data"]:
                for at, item in enumerate([row, *row.get("items", [])]):
                    mine = place if at == 0 else mine
                    amounts = [str(item[part][key]) for part in ("hits", "visitors", "bytes") for key in ("count", "percent")]
                    times = [str(item[key]) for key in ("avgts", "cumts", "maxts")]
                    yield [str(place), "" if at == 0 else str(mine), panel, *amounts, *times, item.get("method", ""), item.get("protocol", ""), item["data"]]
                    place += 1

    import csv
    import io

    try:
        import compare
    except ImportError:
        compare = None
    for at in range(300 if compare else 0):
        given, files = compare.run_at("self-test", at, True)
        texts = {}
        for kind in (b"json", b"csv"):
            status, texts[kind], _, _ = run([*given[:-2], kind, given[-1]], files)
        if status == 0 and given[-3] == b"-o":
            read = csv.reader(io.StringIO(texts[b"csv"].decode(), newline=""), strict=True)
            check(f"CSV of JSON, run {at}", list(read), list(rows_of(json.loads(texts[b"json"]))))
    print(f"{checks} checks, {len(wrong)} wrong")
    return 1 if wrong else 0


if __name__ == "__main__":
    sys.exit(main([os.fsencode(word) for word in sys.argv[1:]]))
