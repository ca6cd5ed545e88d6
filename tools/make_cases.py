#!/usr/bin/env python3
"""Writes tables of runs for the tests, each case with its name. The answers come from goaccess_oracle.py.

    make_cases.py words FOLDER  runs in which the options and the lines vary, over up to three files: reports.rt, kept_days.rt and
                                faults.rt of crates/ga_run_tests/src
    make_cases.py runs FILE     runs that keep what they counted, one after the other, over logs that grow and are renamed:
                                histories.rt beside them
    make_cases.py lists FILE    lists of steps with crashes, and outputs and calls that fail: lists.rt of crates/ga_history_tests/src
"""
import os
import sys

import goaccess_oracle as oracle

NAMES = [b"a.log", b"b.log", b"agents.txt"]
HEAD = "//! Written by tools/make_cases.py; don't edit by hand.\n\n"
BETWEEN_FILES = b"\n+++++\n"


def line(url="/a", status=200, size="10", date="01/Jan/2024", host="192.0.2.1", more="", end="\n", clock="00:00:00", method="GET"):
    return f'{host} - - [{date}:{clock} +0000] "{method} {url} HTTP/1.1" {status} {size}{more}{end}'


def agent(text, referrer="-"):
    return f' "{referrer}" "{text}"'


GOOGLEBOT = "Mozilla/5.0 (compatible; Googlebot/2.1; +http://www.google.com/bot.html)"
ONE_LINE = oracle.FIREFOX.decode()
A = line()
COMMON, COMBINED = "--log-format=COMMON", "--log-format=COMBINED"
BIG = "1000000000000000000"
TIMED = '--log-format=%h %^[%d:%t %^] "%r" %s %b '
ODD = '/%22a,b%0D%00%C3%A9%22?\\%09%0A%08%0C%1F%7F/'

# lines that fail, each for a cause of its own, between good ones
SECOND = r'''192.0.2.1 - - [01/Jan/2024:00:00:00 z] "r" 200 7
''' .replace("\n", "\r\n") + r'''# note

nothing fits
2001:db8::b - - [02/Jan/2024:00:00:00 z] "r" 200 5 more
2001:db8::b - - [02/Jan/2024:00:00:00 z] "" 200 5
 - - [01/Jan/2024:00:00:00 z] "r" 200 5
::ffff:192.0.2.3 - - [01/Jan/2024:00:00:00 z] "r" 404 1000000000000000000
192.0.2.3 - - [01/Jan/2024:00:00:00 z] "r" 200 1000000000000000001
192.0.2.3 - - [31/Feb/2024:00:00:00 z] "r" 200 5
192.0.2.3 - - [01/Jan/2024:24:00:00 z] "r" 200 5
192.0.2.3 - - [01/Jan/2024:00:00:00 z] "r" 99 5
192.0.2.03 - - [01/Jan/2024:00:00:00 z] "r" 200 5
h - - [01/Jan/2024:00:00:00 z] "r" 200 5
192.0.2.1 - - [02/Jan/2024:23:59:60 z] "r\"s" 200 3
'''
FORWARDED = '''unknown, 192.0.2.7, 2001:db8::7" [01/Jan/2024:08:00:00 +0000] "GET /a HTTP/2" 200 10 17
x\\" 10.0.0.1" [01/Jan/2024:09:00:00 +0000] "GET /b HTTP/2" 200 5 3
192.0.2.7" [01/Jan/2024:10:00:00 +0000] "GET /c HTTP/2" 200 5 -
unknown, 192.0.2" [01/Jan/2024:08:00:00 +0000] "GET /d HTTP/2" 200 10 17
'''

CSV = [COMMON, "-o", "csv", "a.log"]
HIDE = "VISITORS REQUESTS REQUESTS_STATIC NOT_FOUND HOSTS OS BROWSERS VISIT_TIMES VIRTUAL_HOSTS REFERRERS REFERRING_SITES KEYPHRASES STATUS_CODES REMOTE_USER CACHE_STATUS MIME_TYPE TLS_TYPE".split()


def only(*panels):
    """Words that hide all panels but these."""
    return [f"--ignore-panel={panel}" for panel in HIDE if panel not in panels]


TWO_DAYS = A + line("/x", 404, "5") + line("/b.css", 304, "-", host="192.0.2.2") + line("/a", 500, "7", "02/Jan/2024", clock="23:00:00", method="POST")
AGENTS = "".join(
    line(host=f"192.0.2.{at}", more=agent(text, referrer))
    for at, (text, referrer) in enumerate([
        (GOOGLEBOT, "-"), ("Foobot 1.0", "https://www.google.de/search?q=a+b"), ("curl/8.4.0", "-"), ("-", "http://example.org/x"),
        ("Mozilla/5.0 (Windows NT 10.0) Firefox/120.0", "-")], 1))
VHOSTS = ('www.example.org:443 192.0.2.1 - - [01/Jan/2024:00:00:00 +0000] "GET /a HTTP/1.1" 200 10\n'
          'example.org:80 192.0.2.1 - - [01/Jan/2024:00:00:00 +0000] "GET /a HTTP/1.1" 200 10\n')
EVERY = '--log-format=%v %e %C %h [%x] %m %U %q %H %s %b "%R" "%u" %K %M %D'
EVERY_LOG = '''www.example.org alice HIT 192.0.2.1 [2024-01-01 08:05:09] GET /a x=1 HTTP/1.1 200 10 "-" "-" TLSv1.3 text/html 1500
- - - 192.0.2.1 [2024-01-01 08:05:10] get /b.css ?y HTTP/9 200 10 "" "" - - -
www.example.org bob MISS ::1 [2024-01-01 09:00:00] HEAD /c - HTTP/2 204 0 "-" "-" TLSv1.2 /x 500
'''
# times of one day, and of the next
MOMENTS = line(clock="08:05:00") + line(clock="08:55:00") + line(clock="09:10:00")
MORE_MOMENTS = MOMENTS + line(clock="08:55:59", host="192.0.2.2") + line("/x", 404, "5", clock="23:59:60") + line(date="02/Jan/2024", clock="08:05:00")
TIMES = only("VISITORS", "VISIT_TIMES")
SECOND_DAY, THIRD_DAY = line(date="02/Jan/2024"), line(date="03/Jan/2024")
THREE_DAYS = A + SECOND_DAY + THIRD_DAY
# lines that are JSON objects
JSON = '--log-format={"ip":"%h","t":"%d:%t %^","req":{"m":"%m","u":"%U"},"st":"%s","ua":["%u"]}'
JSON_LINE = '{"ip":"192.0.2.1","t":"01/Jan/2024:00:00:00 +0000","req":{"m":"GET","u":"/a"},"st":200,"ua":["curl/8.0"]}\n'
# members in another order, one of them twice, escapes, numbers that aren't whole, and what is no object or lacks a part
JSON_LINES = r'''{"ip":"192.0.2.9","ua":["Foo \"x\"\u00e9","y"],"req":{"u":"\/b?c","m":"GET","more":null},"st":404.0,"t":"01/Jan/2024:00:00:00 +0000","ip":"192.0.2.2"}
{"ip":"192.0.2.3","t":"01/Jan/2024:00:00:00 +0000","req":{"m":null,"u":"/c"},"ua":[]}
{"ip":"192.0.2.4","t":"01/Jan/2024:00:00:00 +0000","req":[{"u":"/d"}]}
{"ip":"192.0.2.5","t":"01/Jan/2024:00:00:00 +0000","req":{"u":"/e"},"st":"600"}
{"ip":"192.0.2.6","t":"01/Jan/2024:00:00:00 +0000","req":{"u":"/f"},"n":1e400}
["192.0.2.7"]
'''
FAULTS = [
    ("a JSON format with a field directly followed by a field", ['--log-format={"a":"%h%d"}', "a"], {}),
    ("a JSON format without a request", ['--log-format={"ip":"%h","t":"%d"}', "a"], {}),
    ("a JSON format with a number", ['--log-format={"a":1}', "a"], {}),
    ("a JSON format with null after a leaf", ['--log-format={"b":null,"a":"%h"}', "a"], {}),
    ("a JSON format that gives a host twice, before what it doesn't know", ['--log-format={"b":"x%h%z","a":"%h"}', "a"], {}),
    ("a JSON format that isn't closed", ["--log-format={", "a"], {}),
    ("an option that there isn't", ["--bogus"], {}),
    ("an option without its value", ["--jobs"], {}),
    ("a value out of range", ["--jobs=17", "a"], {}),
    ("a value out of range, in the word after its option", ["--jobs", "17", "a"], {}),
    ("a log without a format", ["a"], {}),
    ("an empty word", [""], {}),
    ("nothing to read", ["-o", "csv"], {}),
    ("words that can't stand together", ["--generate=5", "--persist"], {}),
    ("days under another name", ["--date-spec=day"], {}),
    ("hours in capitals, in the word after its option", ["--date-spec", "HR", "a"], {}),
    ("no word for what VISITORS counts by", ["--date-spec=", "a"], {}),
    ("days for what VISIT_TIMES counts by", ["--hour-spec=date", "a"], {}),
    ("nothing after what VISIT_TIMES counts by", ["--hour-spec"], {}),
    ("no days that are kept", ["--keep-last=0", "a"], {}),
    ("more days than may be kept, in the word after its option", ["--keep-last", "4294967296", "a"], {}),
    ("a number of days below none", ["--keep-last=-1", "a"], {}),
    ("an empty number of days", ["--keep-last=", "a"], {}),
    ("a word for a number of days", ["--keep-last=two", "a"], {}),
    ("nothing after the option of days", ["--keep-last"], {}),
    ("a format of the generator's lines without a date", ["--generate=2", "--log-format=%h"], {}),
]


def of(name, words, a="", b=None, agents=None):
    files = {"a.log": a}
    if b is not None or agents is not None:
        files["b.log"] = b or ""
    if agents is not None:
        files["agents.txt"] = agents
    return name, words, files


OVER_WORDS = [
    of("an empty log", [COMMON, "a.log"]),
    of("one line in the combined format", [COMBINED, "-o", "csv", "a.log"], ONE_LINE),
    of("the same as JSON", [COMBINED, "a.log"], ONE_LINE),
    of("two days, and two logs", [*CSV, "b.log"], TWO_DAYS, TWO_DAYS + line(host="2001:db8::1", date="03/Jan/2024") + "broken\n"),
    of("two days of two lines each", CSV, A * 2 + line(date="02/Jan/2024") * 2),
    of("a log that is named twice, once after two dashes", ["a.log", "-o", "r.json", "--log-format", "COMMON", "--", "a.log"], A),
    of("a line that isn't ended", CSV, A + "192.0.2.1 - - [01/Jan/2024:00:00:0"),
    of("line ends of two bytes, a comment and an empty line", CSV, line(end="\r\n") + "# note\n\n"),
    of("lines that fail, each for a cause of its own", CSV, SECOND),
    of("lines without referrer and agent in the combined format", [COMBINED, "-o", "csv", "a.log"], A),
    of("lines that are JSON objects, one without its request", [JSON, "-o", "csv", "a.log"], JSON_LINE + JSON_LINE.replace('"req":{"m":"GET","u":"/a"},', "")),
    of("JSON objects with members in any order, and what is none", [JSON, "-o", "csv", "a.log"], JSON_LINES),
    of("an agent with quotes", [COMBINED, "-o", "csv", "a.log"], line(size="5", more=agent('Foo \\"bar\\" Baz'))),
    of("a request that is a dash", [COMMON, "a.log"], '192.0.2.1 - - [01/Jan/2024:00:00:00 +0000] "-" 408 -\n'),
    of("a comma in a URL", CSV, line("/a,b", size="1")),
    of("a name with all that CSV quotes", CSV, line(ODD)),
    of("a name with all that JSON escapes", [COMMON, "-o", "r.json", "a.log"], line(ODD)),
    of("seconds that an answer took", [TIMED + "%T", "-o", "csv", "a.log"],
       "".join(line(more=" " + t) for t in ("0.1234567", "-", "1000000000000", "1000000000001"))),
    of("milliseconds before microseconds", [TIMED + "%L %D", "-o", "json", "a.log"], line(more=" 1.5 9") + line(more=" 17 9")),
    of("forwarded hosts", ['--log-format=~h{, }" [%d:%t %^] "%r" %s %b %D', "-o", "csv", "a.log"], FORWARDED),
    of("a chain of forwarded hosts", ['--log-format=~h{, } %^[%d:%t %^] "%r" %s %b', "-o", "csv", "a.log"],
       '10.0.0.1, 192.0.2.7 - [01/Jan/2024:00:00:00 +0000] "GET / HTTP/1.0" 200 0\n'),
    of("another date and another time format", [COMMON, "--date-format=%F", "--time-format=%R", "-o", "r.csv", "a.log"],
       '192.0.2.1 - - [2024-01-01:13:05 z] "GET /b HTTP/1.0" 200 7\n' + A),
    of("visitors of answers 400 to 499", ["--4xx-to-unique-count", *CSV], line("/x", 404, "5") + A),
    of("no visitors of answers 400 to 499", CSV, line("/x", 404, "5") + A),
    of("static files with a query", ["--all-static-files", *CSV], line("/a.css?v=1")),
    of("queries that are cut off", ["--no-query-string", *CSV], line("/a.css?v=1") + line("?x")),
    of("URLs that are decoded twice", ["--double-decode-url", *only("REQUESTS", "REQUESTS_STATIC"), *CSV],
       line("/%2541") + line("/b%252Ecss") + line("/c%253Fx.css")),
    of("status 444 as not found", [*only("REQUESTS", "NOT_FOUND", "STATUS_CODES"), "--444-as-404", *CSV], line("/x", 444, "1") + line("/y", 404, "2")),
    of("status 444 as any other", [*only("REQUESTS", "NOT_FOUND", "STATUS_CODES"), *CSV], line("/x", 444, "1") + line("/y", 404, "2")),
    of("one row a panel", ["--max-items=1", *CSV], TWO_DAYS),
    of("two rows a panel, and the order of rows", ["--max-items", "0000000002", *only("HOSTS", "STATUS_CODES"), COMMON, "-o", "json", "a.log"],
       line(host="192.0.2.3") + line(host="192.0.2.20") + line(host="192.0.2.100") + line(status=301) + line(status=302) + line(status=303) + line(status=303)),
    of("the last word on a panel shows it", ["--ignore-panel=HOSTS", "--enable-panel=HOSTS", "--ignore-panel", "VISITORS", *CSV], A),
    of("the last word on a panel hides it", ["--enable-panel=HOSTS", "--ignore-panel=HOSTS", *only("HOSTS", "REQUESTS"), *CSV], A),
    of("no panel", [*only(), COMMON, "-o", "json", "a.log"], A),
    of("addresses and statuses that are excluded",
       ["--exclude-ip=192.0.2.1-192.0.2.9", "--exclude-ip", "2001:db8::5", "--ignore-status=500", *only("HOSTS"), *CSV],
       "".join(line(host=h) for h in ("192.0.2.9", "192.0.2.10", "::ffff:192.0.2.9", "2001:db8:0::0:5", "2001:db8::6")) + line(status=500, host="192.0.2.10")),
    of("hosts that are no addresses", ["--no-ip-validation", *CSV], line(host="proxy,1") + line(host="-") + line(host="192.0.2.1")),
    of("statuses that are none", ["--no-strict-status", *only("STATUS_CODES", "VISITORS"), *CSV], line(status="-") + line(status=99) + line(status="404") + line(status="0200")),
    of("endings of the user's", ["--static-file=.php", "--static-file", ".CSS", *only("REQUESTS", "REQUESTS_STATIC"), *CSV],
       line("/a.php") + line("/a.CSS") + line("/a.Css") + line("/a.php?x")),
    of("crawlers that are excluded", ["--ignore-crawlers", *only("OS", "BROWSERS", "KEYPHRASES", "REFERRING_SITES"), COMBINED, "-o", "csv", "a.log"], AGENTS),
    of("rules of a browsers file", ["--browsers-file=agents.txt", *only("OS", "BROWSERS"), COMBINED, "-o", "csv", "a.log"], AGENTS, None,
       "# ours\r\nFoobot\t\tCrawlers\r\n\nMozilla/5.0\tOurs, all"),
    of("crawlers by a browsers file", ["--ignore-crawlers", "--browsers-file", "agents.txt", *only("BROWSERS"), COMBINED, "-o", "csv", "a.log"], AGENTS, None,
       "Foo\tCrawlers\nGooglebot\tFriends\n"),
    of("a line of a browsers file that is no rule", ["--browsers-file=agents.txt", *CSV], A, None, "# x\nFoo\n"),
    of("virtual hosts", ["--log-format=VCOMMON", *only("VIRTUAL_HOSTS"), "-o", "csv", "a.log"], VHOSTS),
    of("every field", [EVERY, "--date-format=%Y-%m-%d", "--time-format= %H:%M:%S", "--output=csv", "a.log"], EVERY_LOG),
    of("hours of a day", ["--date-spec=hr", *CSV], MOMENTS),
    of("tens of minutes", ["--hour-spec=min", *CSV], MOMENTS),
    of("minutes of days, in two logs", ["--date-spec", "min", "--hour-spec", "min", *TIMES, COMMON, "-o", "json", "a.log", "b.log"], MOMENTS, MORE_MOMENTS),
    of("days by their own name, and hours by theirs", ["--date-spec=date", "--hour-spec=hr", *TIMES, *CSV], MORE_MOMENTS),
    of("the last word on days, hours and minutes", ["--date-spec=min", "--hour-spec=min", "--date-spec=hr", "--hour-spec=hr", *TIMES, *CSV], MORE_MOMENTS),
    of("one hour of many", ["--date-spec=hr", "--hour-spec=min", "--max-items=1", *TIMES, *CSV], MORE_MOMENTS),
    of("hours where VISITORS isn't shown", ["--date-spec=hr", *only("HOSTS", "VISIT_TIMES"), *CSV], MORE_MOMENTS),
    of("hours of lines without a time of day", ['--log-format=%h %^[%d:%^] "%r" %s %b', "--date-spec=hr", "--hour-spec=min", "-o", "csv", "a.log"], MOMENTS),
    of("minutes of the generator's lines", ["--generate=50", "--date-spec=min", "--hour-spec=min"]),
    of("the last two days of three", ["--keep-last=2", *CSV], THREE_DAYS),
    of("the last day of two logs, after lines of later days that aren't counted",
       ["--keep-last", "1", "--ignore-status=500", COMMON, "-o", "json", "a.log", "b.log"],
       THREE_DAYS + line(status=500, date="04/Jan/2024"), SECOND_DAY + "broken\n" + line("/b.css", 404, "5", "03/Jan/2024")),
    of("as many days as there are, and the last number counts", ["--keep-last=1", "--keep-last=4294967295", *TIMES, *CSV], THREE_DAYS),
    of("hours of the last day", ["--keep-last=1", "--date-spec=hr", *TIMES, *CSV], MORE_MOMENTS),
    of("the last day where days aren't shown", ["--keep-last=1", *only("HOSTS", "STATUS_CODES"), *CSV], TWO_DAYS),
    of("the last two days of the generator's lines", ["--generate=100", "--keep-last=2"]),
    of("the last of several outputs", [COMMON, "-o", "json", "--db-path=x", "--output", "csv", *only("HOSTS"), "a.log"], TWO_DAYS),
    of("a thousand lines of the generator", ["--generate=1000"]),
    of("the generator with options", ["--generate", "30", "-o", "r.csv", "--ignore-status=404", "--browsers-file=agents.txt", "--max-items=2"], "", None, "Firefox\tCrawlers\n"),
    of("the generator's lines under another format", ["--generate=5", "--log-format=%h - - [%d:%t %^] \"%r\" %s %^"]),
    of("a log that isn't there, after one that is", ["-o", "nothing.csv", COMMON, "a.log", "nothing.log"], A),
    of("a browsers file that isn't there", [COMMON, "-o", "csv", "--browsers-file=nothing.txt", "a.log"], A),
    of("a bad format before a file that isn't there", [COMMON, "--date-format=%d", "--browsers-file=nothing.txt", "a.log"], A),
    of("a time format without minutes", [COMMON, "--time-format=%H", "a.log"], A),
    of("a field directly followed by a field", ['--log-format=%h%d "%r"', "nothing.log"], A),
    of("a log format without a date", ['--log-format=%h "%r"', "a.log"], A),
    of("a counter at four times 10^18", CSV, line(size=BIG) * 4),
    of("a counter at its limit", CSV, line(size=BIG) * 4 + line(size="611686018427387903")),
    of("a counter that is full before the next log is opened", [COMMON, "a.log", "nothing.log"], line(size=BIG) * 5),
    of("a counter that is full in the second log", [COMMON, "a.log", "b.log"], line(size=BIG) * 3, line(size=BIG) * 2),
    of("a counter that is full before the last line", [COMMON, "a.log"], line(size=BIG) * 6),
    of("a counter that is full by the lines of days that are left out", ["--keep-last=1", COMMON, "a.log"],
       "".join(line(size=BIG, date=f"0{day}/Jan/2024") for day in range(1, 6))),
    of("microseconds past the limit", [TIMED + "%D", "a.log"], line(size="-", more=" " + BIG) * 5),
] + FAULTS


# two days that are left out below, whose rows no panel has on other days; and four days, not in their order
OLD = '''old.org old OLD 192.0.2.9 [{0} 01:00:00] POST /old - HTTP/1.1 500 10 "https://www.google.de/search?q=old" "curl/1 Linux" TLSv1.0 text/old 9000
old.org old OLD 192.0.2.9 [{0} 01:00:00] POST /old.css - HTTP/1.1 200 10 "https://www.google.de/search?q=old" "curl/1 Linux" TLSv1.0 text/old 9000
old.org old OLD 192.0.2.9 [{0} 01:00:00] POST /gone - HTTP/1.1 404 10 "https://www.google.de/search?q=old" "curl/1 Linux" TLSv1.0 text/old 9000
'''
BOTH = '"https://www.google.com/search?q=new+word" "Mozilla/5.0 (Windows NT 10.0) Firefox/120.0"'
FOUR_DAYS = f'''example.org ann HIT 192.0.2.1 [2024-03-01 08:00:00] GET /a - HTTP/1.1 200 10 {BOTH} TLSv1.3 text/html 100
{OLD.format("2023-12-30")}example.org ann HIT 192.0.2.1 [2024-02-29 08:00:00] GET /b.css - HTTP/1.1 200 10 {BOTH} TLSv1.3 text/html 50
example.org ann MISS ::1 [2024-02-29 23:59:00] GET /x - HTTP/1.1 404 10 {BOTH} TLSv1.3 text/html 7
{OLD.format("2023-12-31")}www.example.org ann HIT ::1 [2024-03-01 08:00:00] GET /b - HTTP/1.1 200 5 {BOTH} TLSv1.2 image/png 300
broken
'''
OF_FOUR = [EVERY, "--date-format=%Y-%m-%d", "--time-format= %H:%M:%S"]
OF_THREE = "".join(line(date=f"0{day}/Jan/2024") for day in (1, 2, 3))
OVER_DAYS = [
    of("the last two days of three", ["--keep-last=2", *CSV], OF_THREE),
    of("the last day of three", ["--keep-last=1", *CSV], OF_THREE),
    of("more days than there are", ["--keep-last=4", *CSV], OF_THREE),
    of("more days in every panel than are kept, and not in the order of the log", [*OF_FOUR, "--keep-last=2", "-o", "csv", "a.log"], FOUR_DAYS),
    of("one row a panel of the last two days", [*OF_FOUR, "--keep-last=2", "--max-items=1", "-o", "csv", "a.log"], FOUR_DAYS),
    of("the last two days by four jobs, and the last of several numbers counts",
       [*OF_FOUR, "--keep-last=1", "--jobs=4", "--chunk-size=1", "--keep-last", "2", "a.log"], FOUR_DAYS),
    of("a last day of lines that make no visitor", ["--keep-last=1", *only("VISITORS", "NOT_FOUND"), *CSV], OF_THREE + line("/x", 404, date="04/Jan/2024")),
    of("no day", ["--keep-last=1", *CSV], "broken\n"),
    of("the last three days of the generator's lines", ["--generate=300", "--keep-last=3", "--max-items=2", "--jobs=4"]),
]


def quoted(text):
    out = []
    for c in text:
        if c == "\n":
            out.append(c)
        elif c in '\\"':
            out.append("\\" + c)
        elif c in "\r\t\0":
            out.append({"\r": "\\r", "\t": "\\t", "\0": "\\0"}[c])
        elif ord(c) < 0x20 or ord(c) == 0x7F:
            out.append(f"\\x{ord(c):02x}")
        elif ord(c) > 0x7F:
            out.append(f"\\u{{{ord(c):x}}}")
        else:
            out.append(c)
    return "".join(out)


def answer(words, files):
    status, out, err, made = oracle.run([word.encode() for word in words], files)
    assert len(made) <= 1
    return b"%d\n" % status + out + err + b"".join(made.values())


def texts_of(cases):
    """Each case as text."""
    texts = []
    for name, words, files in cases:
        assert not any("|" in word for word in words)
        files = {key.encode(): text if isinstance(text, bytes) else text.encode() for key, text in files.items()}
        said = answer(words, files)
        assert list(files) == NAMES[: len(files)], files
        middle = BETWEEN_FILES.join(files.values())
        case = name.encode() + b"\n-----\n" + "|".join(words).encode() + b"\n-----\n" + middle + b"\n-----\n" + said
        assert case.count(b"\n-----\n") == 3 and b"\n=====\n" not in case and middle.count(BETWEEN_FILES) == max(0, len(files) - 1)
        texts.append(case)
    return texts


def const_of(doc, const, texts):
    table = b"\n=====\n".join(texts).decode("utf-8")
    return doc + f'pub const {const}: &str = "\\\n' + quoted(table) + '";\n'


def write(name, *consts):
    with open(name, "w", encoding="utf-8", newline="") as out:
        out.write(HEAD + "\n".join(const_of(*const) for const in consts))
    return sum(len(texts) for _, _, texts in consts)


def status_of(text):
    """The exit status of the run of a case."""
    return int(text.split(b"\n-----\n")[3].split(b"\n", 1)[0])


def write_words(folder):
    days = write(os.path.join(folder, "kept_days.rt"), (DOC_DAYS, "KEPT_DAYS", texts_of(OVER_DAYS)))
    texts = texts_of(OVER_WORDS)
    good, bad, others = ([text for text in texts if is_of(status_of(text))] for is_of in (lambda s: s == 0, lambda s: s == 1, lambda s: s > 1))
    written = write(os.path.join(folder, "reports.rt"), (DOC_WORDS, "REPORTS", good))
    return days + written + write(
        os.path.join(folder, "faults.rt"),
        (DOC_FAULTS, "WORD_FAULTS", bad),
        ("/// Runs that fail over their files, in the same form.\n", "FILE_FAULTS", others),
    )


TRACKED = [COMMON, "-o", "csv", "--restore", "--persist"]
HIDDEN = [*TRACKED, "--ignore-panel=REQUESTS"]
LONG = line("/" + "x" * 5000)
SHOWN = ["-o", "csv", "--restore", *TIMES]
HISTORIES = [
    ("logs that are rotated between the runs",
     [("a.log", line("/a") + line("/b")), [*TRACKED, "a.log"], ("a.log", line("/c")), ("a.log", "a.log.1"), ("a.log", line("/d")),
     [*TRACKED, "a.log.1", "a.log"], ("a.log", line("/e")), [*TRACKED, "a.log.1", "a.log"], [COMMON, "-o", "csv", "--restore"],
     [COMMON, "-o", "csv", "--persist", "a.log"], [COMMON, "-o", "csv", "--restore", "--db-path=elsewhere"]]),
    ("a log that is named twice",
     [("a.log", A), [*TRACKED, "a.log", "a.log"], [COMMON, "-o", "csv", "a.log", "a.log"]]),
    ("a line that isn't ended yet",
     [("a.log", A + A[:31]), [*TRACKED, "a.log"], [COMMON, "-o", "csv", "--restore", "a.log"], ("a.log", A[31:]), [*TRACKED, "a.log"], [*TRACKED, "a.log"],
     [COMMON, "-o", "csv", "a.log"]]),
    ("logs with one front of 4,096 bytes, and one that is shorter than what was counted of another",
     [("a.log", LONG + line(size="1")), ("b.log", LONG), [*HIDDEN, "a.log"], [*HIDDEN, "b.log"], ("b.log", line(size="3")), [*HIDDEN, "b.log", "a.log"]]),
    ("a run that stops keeps nothing",
     [("a.log", A), [*TRACKED, "a.log", "gone.log"], [*TRACKED, "a.log"], ("a.log", line(size=BIG) * 5), [*TRACKED, "a.log"], [COMMON, "-o", "csv", "--restore"],
     [COMMON, "--date-format=%d", "--restore"], [*TRACKED, "--browsers-file=gone.txt"]]),
    ("days that were kept, shown by hours",
     [("a.log", MOMENTS), [*TRACKED, "a.log"], [*SHOWN, "--date-spec=hr"], [*SHOWN, "--hour-spec=min"], [*SHOWN, "--date-spec=date"]]),
    ("hours, minutes and days that were kept, each shown by itself",
     [("a.log", MOMENTS), [*TRACKED, *TIMES, "--date-spec=hr", "a.log"], ("b.log", MORE_MOMENTS), [*TRACKED, *TIMES, "--date-spec=min", "--hour-spec=min", "b.log"],
     ("a.log", A), [*TRACKED, *TIMES, "a.log"], *([*SHOWN, f"--date-spec={spec}"] for spec in ("date", "hr", "min")),
     [*TRACKED, "--date-spec=hr", "--ignore-panel=VISITORS"], [COMMON, "-o", "csv", "--persist", "--date-spec=hr", "b.log"], [*SHOWN, "--date-spec=min"]]),
    ("the last two days, and runs with other numbers of them",
     [("a.log", A + SECOND_DAY), [*TRACKED, "--keep-last=2", "a.log"], ("a.log", THIRD_DAY), [*TRACKED, "--keep-last=2", "a.log"],
      [*TRACKED, "--keep-last=3", "gone.log"], [COMMON, "-o", "csv", "--restore"], ("b.log", A + THIRD_DAY), [*TRACKED, "--keep-last=2", "b.log"],
      [COMMON, "-o", "csv", "--restore", "--keep-last=2"], [COMMON, "-o", "csv", "--persist", "--keep-last=3", "a.log"], [*SHOWN, "--keep-last=3"],
      [*SHOWN, "--keep-last=2"]]),
    ("all days are kept, and a number of them is refused",
     [("a.log", THREE_DAYS), [COMMON, "-o", "csv", "--restore", "--keep-last=1", "a.log"], [*TRACKED, "a.log"], [*TRACKED, "--keep-last=3", "a.log"],
      [*SHOWN, "--keep-last=1", "--time-format=%H"], SHOWN]),
    ("tracked runs without a log",
     [TRACKED, ("a.log", A), [*TRACKED, "a.log"], TRACKED, [COMMON, "-o", "csv", "--restore"]]),
    ("nothing stored, and logs of which no line was ended",
     [[COMMON, "-o", "json", "--restore", "--ignore-panel=HOSTS"], ("a.log", "broken"), [*TRACKED, "a.log"], ("a.log", "\n"), [*TRACKED, "a.log"]]),
]


DOC_RUNS = """\
/// Histories, a line of `=` between two: a name, and steps, with a line of `~` before each. A step appends to a log, which begins
/// with `+` and its name; renames one, which begins with `>` and both names; or is a run: its words with a bar between two, and
/// what it answers, which is its exit status and then what standard output, standard error and the report's file took. The
/// answers were worked out by a program in another language.
"""


def step_text(step, files, db):
    """One step as text. It changes the files and the database."""
    if isinstance(step, list):
        assert not any("|" in word for word in step)
        status, out, err, made = oracle.run([word.encode() for word in step], files, db)
        return "|".join(step).encode() + b"\n-----\n%d\n" % status + out + err + b"".join(made.values())
    name, more = step[0].encode(), step[1].encode()
    if not more.endswith((b".log", b".1")):
        files[name] = files.get(name, b"") + more
        return b"+" + name + b"\n-----\n" + more
    files[more] = files.pop(name)
    return b">" + name + b"|" + more + b"\n-----\n"


def write_runs(path):
    texts = []
    for name, history in HISTORIES:
        files, db = {}, oracle.Database()
        steps = [step_text(step, files, db) for step in history]
        assert not any(b"\n~~~~~\n" in text or b"\n=====\n" in text or text.count(b"\n-----\n") != 1 for text in steps)
        texts.append(b"\n~~~~~\n".join([name.encode(), *steps]))
    write(path, (DOC_RUNS, "HISTORIES", texts))
    return sum(isinstance(step, list) for _, history in HISTORIES for step in history)


# a list with braces is written with each of these picks in their place
PICKS = (0, 255, 79)
ROTATED = "+ a.log /a /b; track a.log; + a.log /c /d~; > a.log a.log.1; + a.log.1 ~; + a.log /e"
LISTS = [
    ("a log grows between runs", "+ a.log /a; track a.log; + a.log /b /b; track a.log; track a.log"),
    ("a log gets another name, and the next line begins a new one", ROTATED + "; track a.log.1 a.log; track a.log a.log.1"),
    ("a log gets another name twice, and grows under each",
     "+ a.log /a; track a.log; > a.log a.log.1; + a.log.1 /b; track a.log.1; > a.log.1 a.log.2; + a.log.2 /c; track a.log.2"),
    ("a name that is taken isn't given again", "+ a.log /a; + b.log /b; > a.log b.log; track a.log b.log"),
    ("a line is kept once its end is there", "+ a.log /a /b~; track a.log; show; show a.log; + a.log ~; track a.log; show"),
    ("a line that doesn't fit is counted once", "+ a.log /a !; track a.log; + a.log ! /b; track a.log"),
    ("a log that is named twice is counted once", "+ a.log /a; track a.log a.log; + a.log /b; track a.log a.log"),
    ("a run with --persist alone begins anew", "+ a.log /a; track a.log; + b.log /b; anew b.log; show; track b.log a.log"),
    ("a run with --restore alone keeps nothing", "+ a.log /a; track a.log; + a.log /b; show a.log; show; track a.log"),
    ("a log that isn't there ends a run, which keeps nothing", "+ a.log /a; track a.log gone.log; show; track a.log"),
    ("crashes after runs change no report",
     "+ a.log /a; crash 10000 255 track a.log; + a.log /b; crash 10000 0 track a.log; show; crash 10000 79 track a.log; crash 10000 - show"),
    ("runs that can't open the disk, and runs that can't write, keep nothing",
     "+ a.log /a; crash 0 0 track a.log; show; + a.log /b; crash 1 255 track a.log; crash 2 79 track a.log; show; track a.log; crash 3 - track a.log; show"),
    ("two runs are cut one after the other",
     "+ a.log /a; track a.log; + a.log /b; crash 5 255 track a.log; + a.log /c; crash 4 79 track a.log; track a.log"),
    ("the first call of the disk fails", "disk 1: + a.log /a; track a.log; show; track a.log"),
    ("the first call of the files fails", "files 1: + a.log /a; track a.log; show; track a.log"),
    ("the first write of a report fails, and its run is kept", "outs 1: + a.log /a; track a.log; show; + a.log /b; track a.log"),
    ("an output has room for one report and a part of the next, and the runs are kept",
     "room 1124: + a.log /a; track a.log; + a.log /b; track a.log; + a.log /c; track a.log"),
    ("one call of the disk fails", "disk *: + a.log /a; track a.log; > a.log a.log.1; + a.log /b; track a.log a.log.1"),
    ("one call of the files fails", "files *: + a.log /a; track a.log; > a.log a.log.1; + a.log /b; track a.log a.log.1"),
    ("the first run is cut", "+ a.log /a; crash * 0 track a.log; + a.log /b; track a.log"),
    ("a run over a renamed log is cut", ROTATED + "; crash * 255 track a.log.1 a.log; + a.log /f; track a.log a.log.1"),
    ("a run with --persist alone is cut", "+ a.log /a; track a.log; + b.log /b; crash * 79 anew a.log b.log; track b.log a.log"),
    ("a run behind a kept run with --persist alone is cut",
     "+ a.log /a; anew a.log; + a.log /b; > a.log a.log.1; + a.log /c; crash * {} track a.log.1 a.log; track a.log.1 a.log; show"),
    ("two days are kept, another number is refused before a log is opened, and a crash changes no report",
     "+ a.log /a /b@2; track2 a.log; + a.log /c@3; track2 a.log; track3 gone.log; show; crash 10000 79 track2 a.log; show2"),
    ("a day that was left out comes back in a later log, and is left out again",
     "+ a.log /a@3 /b@4; track2 a.log; + b.log /c /d@2; track2 b.log; show2; + b.log /e@5 /f@4; track2 b.log a.log"),
    ("a run with --persist alone takes another number",
     "+ a.log /a /b@2 /c@3; track2 a.log; anew3 a.log; track2 a.log; + a.log /d@4; track3 a.log"),
    ("runs that keep all days, and one that keeps two",
     "+ a.log /a /b@2 /c@3; track a.log; track2 a.log; show2; + a.log /d@4; track a.log"),
    ("a run that keeps two days is cut",
     "+ a.log /a /b@2; track2 a.log; + a.log /c@3 /d; crash * {} track2 a.log; + a.log /e@4; track2 a.log; show2"),
    ("a run with --persist alone that takes another number is cut",
     "+ a.log /a /b@2 /c@3; anew3 a.log; crash * 79 anew3 a.log; + a.log /d@4; track3 a.log"),
]
ANEW, SHOW = [COMMON, "-o", "csv", "--persist"], [COMMON, "-o", "csv", "--restore"]
MODES = {
    "track": TRACKED, "track2": [*TRACKED, "--keep-last=2"], "track3": [*TRACKED, "--keep-last=3"],
    "anew": ANEW, "anew3": [*ANEW, "--keep-last=3"], "show": SHOW, "show2": [*SHOW, "--keep-last=2"],
}
# after fewer calls than this no run was kept
FEWEST = 6


DOC_LISTS = """\
/// Lists of steps, a case a line below a line that says what it shows: what is to fail, the steps, and what the list answers.
///
/// `+ LOG PAGE..` grows a log by a line for each page, where `/a@2` is of the second day and others are of the first, `/a~` is the
/// front of a line, `~` the rest of one, and `!` a line that doesn't fit. `> FROM TO` renames a log. `track LOG..` is a run with both
/// words, `anew LOG..` one with `--persist` alone and `show LOG..` one with `--restore` alone; a digit after these is the number of
/// `--keep-last`. With `crash CALLS PICK` before it every call of the disk fails that comes after that many, and a crash comes after
/// it. A star is tried with each number, until no run fails.
///
/// The answer is the exit status of each run, and of each report the numbers, with the pages before their hits. The answers were
/// worked out by a program in another language.
"""


# a line from behind its page on
REST = ' HTTP/1.1" 200 10\n'
PIECES = {"!": "broken\n", "~": REST}


def bytes_of_page(page):
    """What a log grows by."""
    if page in PIECES:
        return PIECES[page].encode()
    url, _, day = page.strip("~").partition("@")
    return line(url, date=f"0{day or 1}/Jan/2024").removesuffix(REST if page.endswith("~") else "").encode()


def shown(report):
    """A report in CSV, and the front of one, in a line."""
    parts = []
    for row in report.decode().splitlines():
        fields = [*row.split(","), "", "", "", ""]
        if row.startswith("id,"):
            parts.append("|")
        elif fields[2] == "general":
            parts.append(fields[3])
        elif fields[2] == "requests":
            parts.append(f"{row.rsplit(',', 1)[-1]}={fields[3]}")
    return " ".join(parts)


class Steps:
    """Makes the steps of a list, each by the method for its kind."""

    def step(self, step):
        kind, *rest = step.split(" ")
        if kind == "+":
            self.grow(rest[0], b"".join(map(bytes_of_page, rest[1:])))
        elif kind == ">":
            self.rename(*rest)
        elif kind == "crash":
            calls, _, mode, *logs = rest
            # a star is never a number here: nothing fails
            self.crash(FEWEST if calls == "*" else int(calls), mode, logs)
        else:
            self.run(kind, rest)


class Listed(Steps):
    """A list of steps as it is made, with the statuses and the reports of its runs."""

    def __init__(self, setting):
        kind, _, value = setting.partition(" ")
        # (nor is one here)
        self.failing = {kind: value} if value not in ("", "*") else {}
        self.room = int(self.failing.get("room", "0")) if "room" in self.failing else None
        self.files, self.db, self.statuses, self.reports = {}, oracle.Database(), "", []

    def grow(self, name, text):
        self.files[name.encode()] = self.files.get(name.encode(), b"") + text

    def rename(self, old, new):
        if old.encode() in self.files and new.encode() not in self.files:
            self.files[new.encode()] = self.files.pop(old.encode())

    def fails_at_once(self, calls, logs):
        """The status of a run that fails before it can be kept, if it does."""
        if self.failing.pop("disk", None) or calls < FEWEST:
            return 3
        return 2 if logs and self.failing.pop("files", None) else 0

    def run(self, mode, logs):
        self.crash(FEWEST, mode, logs)

    def crash(self, calls, mode, logs):
        status, out = self.fails_at_once(calls, logs), b""
        if status == 0:
            words = [word.encode() for word in MODES[mode] + logs]
            status, out, _, _ = oracle.run(words, self.files, self.db)
        if out and self.failing.pop("outs", None):
            status, out = 4, b""
        if self.room is not None:
            status, out = (status if len(out) <= self.room else 4), out[: self.room]
            self.room -= len(out)
        self.statuses += str(status)
        self.reports.append(shown(out))


def steps_of(given):
    """What is to fail in a list, and its steps."""
    setting, _, steps = given.rpartition(": ")
    return setting, steps.split("; ")


def list_answer(given):
    """What a list of steps answers; with a star, where no run fails."""
    setting, steps = steps_of(given)
    made = Listed(setting)
    for step in steps:
        made.step(step)
    return " ".join([made.statuses, *filter(None, made.reports)])


def write_rows(path, rows):
    """Writes a table of lists."""
    with open(path, "w", encoding="utf-8", newline="") as out:
        out.write(HEAD + DOC_LISTS + 'pub const LISTS: &str = "\\\n' + quoted("".join(rows)) + '";\n')


def write_lists(path):
    rows, count = [], 0
    for name, given in LISTS:
        rows.append(f"## {name}\n")
        for row in [given.format(pick) for pick in PICKS] if "{}" in given else [given]:
            answer = list_answer(row)
            assert "*" not in row or set(answer.split(" ")[0]) == {"0"}, name
            rows.append(f"{row} => {answer}\n")
            count += 1
    write_rows(path, rows)
    return count


DOC_FAULTS = """\
/// Runs whose words say no run, in the form of `REPORTS`.
"""
DOC_DAYS = """\
/// Runs that print their last days, in the form of `REPORTS`.
"""
DOC_WORDS = """\
/// Runs that print, a line of `=` between two. A run has four parts, with a line of `-` between two: its name; its words, with a
/// bar between two; the files `a.log`, `b.log` and `agents.txt`, as many as are there, with a line of `+` between two; and what it
/// answers, which is its exit status and then what standard output, standard error and the report's file took. The answers were
/// worked out by a program in another language.
"""


def main():
    writers = {"words": write_words, "runs": write_runs, "lists": write_lists}
    if len(sys.argv) != 3 or sys.argv[1] not in writers:
        sys.exit(__doc__)
    print(writers[sys.argv[1]](sys.argv[2]), "lists" if sys.argv[1] == "lists" else "runs")


if __name__ == "__main__":
    main()
