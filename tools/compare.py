#!/usr/bin/env python3
"""Runs a program and the oracle over random words and files, and reports each difference.

    compare.py PROGRAM N SEED [--narrow] [--keep FOLDER] [--from AT] [--most M]

N runs are made from SEED; run AT of a seed is the same each time, so `--from AT` with N = 1 makes it again. `--narrow` keeps to
few words in one order (--log-format=, --date-format=, --time-format=, -o V, one log), so that the lines and formats are what
varies; without it all options are used. After M differences (5) no more are shown. With `--keep` the files of each differing run are left in FOLDER/AT, with its
words in a file `words` (Python's repr) beside what both answered. The exit status is 1 where anything differed.

Compared are the exit status, standard output, standard error, and all files that the run leaves in its folder.
"""
import collections
import json
import os
import random
import shutil
import subprocess
import sys
import tempfile

import goaccess_oracle as oracle

SECONDS = 60

# ------------------------------------------------------------------------------------------------ values

HOSTS = [b"192.0.2.1", b"192.0.2.2", b"192.0.2.10", b"10.0.0.1", b"255.255.255.255", b"0.0.0.0", b"::1", b"::", b"2001:db8::1",
         b"2001:DB8:0:0:0:0:0:1", b"::ffff:192.0.2.1", b"1:2:3:4:5:6:7::", b"1:2:3:4:5:6:192.0.2.1", b"::2:3:4:5:6:7:8", b"fe80::1:0"]
NO_HOSTS = [b"256.1.1.1", b"01.2.3.4", b"1::2::3", b"1:2:3:4:5:6:7:8::", b"", b"-", b"localhost", b"1.2.3", b"1.2.3.4.5", b"::g",
            b"12345::", b"1:2:3:4:5:6:7", b"1:2:3:4:5:6:7:8:9", b":::", b"1.2.3.4::", b"::1.2.3.256", b"fe80::1%eth0", b"1:", b":1",
            b"\xff.1.1.1", "h\u00e9".encode(), b"::192.0.2.1:1", b" 192.0.2.1"]
URLS = [b"/", b"/index.html", b"/a.css", b"/a.css?v=1", b"/A.CSS", b"/a.php", b"/.css", b".js", b"/a.css/", b"/caf%C3%A9", b"/%2541",
        b"/%252e%252Ecss", b"/%FF", b"/%", b"/%4", b"/%zz%41", b"/a,b", b"/a%22b", b"/a%0D%00%0A", b"/x%3Fy.css", b"?x", b"?", b"/a?b?c.css",
        b"/a b", b"-", b"/\xff", "/\u20ac".encode(), b"/a\\b", b"/%E2%82", b"/%ED%A0%80", b"/%F0%9F%98%80", b"/%25FF", b"*", b"/x.tar.gz",
        b"/%1F%7F%08%09%0C", b"/woff2", b"/a.woff2", b"%2ecss", b"/a%2Cb%2C", b"/%2525%34%31", b"/%C3%25A9", b"/%E2%2582%25AC"]
METHODS = [b"GET"] * 6 + [b"POST", b"HEAD", b"PUT", b"get", b"MKCALENDAR", b"BREW", b"PRI", b"ACL", b"UNLOCK", b"-", b""]
PROTOCOLS = [b"HTTP/1.1"] * 5 + [b"HTTP/1.0", b"HTTP/2", b"HTTP/2.0", b"HTTP/3", b"HTTP/3.0", b"HTTP/0.9", b"http/1.1", b"HTTP/1.1 ", b"-", b""]
QUERIES = [b"", b"-", b"x=1", b"?x=1", b"??", b"?", b"a%26b", b"y.css", b"- ", b"\xff"]
STATUSES = [b"200"] * 6 + [b"404"] * 3 + b"444 301 304 500 100 599 400 499 408".split()
NO_STATUSES = b"099 600 99 0200 20x - 1000 999 000".split() + [b""]
SIZES = [b"0", b"10", b"10", b"512", b"-", b"", b"+1", b"1e3", b"007", b"1000000000000000000", b"1000000000000000001", b"9" * 30, b"0" * 30 + b"7",
         b"4611686018427387903", b"99999999999999999999", b"10 ", b"3.5", b"999999999999999999", b"0" * 5000 + b"3", b"9" * 5000]
TIMES = [b"0", b"17", b"1500", b"-", b"", b"0.1234567", b"1.5", b".5", b"5.", b"1.2.3", b"+1", b"1e3", b"1000000000000", b"1000000000001",
         b"1000000000000.0000009", b"999999999999.9999999", b"1000000000000000", b"1000000000000000.001", b"1000000000000000.0009",
         b"1000000000000000000", b"1000000000000000001", b"00000000000000000000000001.25", b"9" * 40, b"0." + b"0" * 50 + b"1", b"12 "]
REFERRERS = [b"-", b"-", b"", b"https://www.example.org/", b"https://www.example.org/start?x#y", b"http://example.org", b"http://", b"http:///x",
             b"//x", b"example.org", b"ftp://a?b://c/d", b"x://y://z", b"https://www.google.com/search?hl=en&q=rust+hash%20map",
             b"http://google.de?q=", b"http://google.de/?q=&q=b", b"http://google.com/#?q=c#q=d", b"http://google.com/?x=1#&q=e",
             b"http://google.com/?%71=f%2Bg", b"http://xgoogle.org?q=h&q=i", b"http://example.org/google.?q=j", b"http://google?q=k",
             b"http://google.com/?q", b"http://google.com?&&q=%FF%C3%A9&", b"http://google.com/?a?q=l", b"http://google.com/?Q=m;q=n",
             b"https://a,b/\xc3\xa9", b"https://\xff/", b"h://google.%71?q=o%", b"http://www.google.com/?q=a=b+", b"http://google.com?q+=1&+q=2",
             b"http://google.com?q=%20", b"http://google.com:80?q=p?q=r", b"https://a#b", b"https://?x", b"https://google."]
AGENTS = [b"-", b"", b"Mozilla/5.0 (X11; Linux x86_64; rv:124.0) Gecko/20100101 Firefox/124.0", b"curl/8.4.0", b"Foo bar", b"foo/1.0 (x)",
          b"Mozilla/5.0 (compatible; Googlebot/2.1; +http://www.google.com/bot.html)", b"Mozilla/5.0 (Windows NT 10.0) Chrome/1.2 Safari/3",
          b"Mozilla/5.0 (Windows NT 10.0) Chrome/1.2 Safari/3 Edg/4", b"Opera/9.8 (Windows NT 5.1)", b"x OPR/1,y", b"Mozilla", b"Mozilla;x",
          b"Wget/1.2(linux)", b"mybot/1 (Bot/2)", b"spider crawler", b"Mozilla/4.0 (compatible; MSIE 7.0; Windows 98; Trident/7)",
          b"Mozilla/5.0 (iPhone; CPU iPhone OS 17 like Mac OS X) Version/17 Safari/604.1", b"Mozilla/5.0 (Macintosh) FxiOS/1 CriOS/2",
          b"SunOS FreeBSD", b"Dalvik (Linux; Android 9)", b"CrOS Ubuntu", b"SamsungBrowser/1.0 Chrome/2", b"Applebot", b"Firefox", b"Firefox)",
          b"Foo \\\"bar\\\" Baz", b"x\xffy", "caf\u00e9 Safari/\u00e9".encode(), b"python-requests/2", b"facebookexternalhit/1.1 Twitterbot",
          b"Fedora Debian", b"a\tb", b"Windows NT 6.0 Windows NT 6.1", b"OpenBSD NetBSD", b"iPad CrOS", b"Edge/12"]
WORDS = [b"-", b"", b"a", b"b", b"www.example.org", b"HIT", b"MISS", b"alice", b"text/html", b"text/css", b"/x", b"/", b"image/png; q=1", b"TLSv1.3",
         b"a,b", b'say "x"', b"x\\", b"\xff\xfe", "\u00e9".encode(), b"a b", b"\xc3", b"%41", b"--", b" ", b"\x01\x7f", b"a\\\"b", b"audio"]
DATE_FORMATS = [b"%d/%b/%Y"] * 3 + [b"%F", b"%Y%m%d", b"%D", b"%e %b %y", b"%Y-%b-%e", b"%m.%d.%Y%%", b"%y%m%d", b"x%F\xc3\xa9", b"%b%d%Y", b"%d %m %Y"]
BAD_DATES = [b"", b"%d", b"%d/%Q", b"%d/%m", b"%F %d", b"%D%y", b"%d%", b"%m%b%d%Y", b"%H", b"%", b"%%%", b"%d%e%m%Y", b"%Y%m", b"%T", b"dmy", b"\xc3\xa9%D%F"]
TIME_FORMATS = [b"%H:%M:%S"] * 3 + [b"%T", b"%R", b"%H%M%S", b"%M;%H", b"%S.%M.%H", b"%H%%%M", b" %R", b"%R:%S"]
BAD_TIMES = [b"", b"%H", b"%M", b"%Q", b"%T%H", b"%R:%M", b"%S", b"%H:%M:%H", b"%d", b"%", b"%H%M%", b"%R%T"]
RULES = [b"", b"# x\n", b"Foo\tCrawlers\n", b"Foo\t\tCrawlers\r\nMozilla/5.0\tOurs, all", b"foo\tcrawlers\n\n#\n", b"Googlebot\tFriends\n", b"a\tA\nb\tB\r",
         b"Foo bar\tTwo words\n", b"(\tCrawlers\n", b"X11; Linux\tDesktop\n5.0 (\tParenthesis\n", b"\xc3\xa9\t\xc3\x89\n", b"curl\tCrawlers\nSafari\tApple\n", b"#\xff\nx\ty\n", b"#" + b"x" * 1023 + b"\n"]
BAD_RULES = [b"Foo\n", b"# x\nFoo\n", b"\tFoo\n", b"Foo\t\n", b"a\tb\tc\n", b"a\tb\t\n", b"\xff\tb\n", b"#" + b"x" * 1024 + b"\n", b" \n", b"a\tb\r\nc d e",
             b"x" * 1000 + b"\t" + b"y" * 24 + b"\n", b"\r\r\n"]


def pick(rng, good, bad=None, badness=0.1):
    return rng.choice(bad if bad and rng.random() < badness else good)


def date_text(rng, pieces):
    """A text of a date or time format, mostly one that it reads."""
    year, month, day = rng.choice([1999, 2024, 2024, 2024, 2023, 1968, 2069, 1000]), rng.choice([1, 1, 2, 12]), rng.choice([1, 1, 2, 28])
    if rng.random() < 0.08:
        year, month, day = rng.choice([(2024, 2, 29), (2023, 2, 29), (1900, 2, 29), (2000, 2, 29), (999, 1, 1), (9999, 12, 31), (2024, 4, 31), (2024, 0, 1),
                                       (2024, 13, 1), (2024, 1, 0), (2024, 1, 32), (0, 1, 1)])
    hour, minute, second = rng.choice([0, 8, 9, 23]), rng.choice([0, 5, 9, 10, 49, 50, 59]), rng.choice([0, 9, 59, 60])
    if rng.random() < 0.03:
        hour, minute, second = rng.choice([(24, 0, 0), (0, 60, 0), (0, 0, 61), (99, 99, 99)])
    out = bytearray()
    for piece in pieces:
        if isinstance(piece, int):
            out.append(piece)
        elif piece == "b":
            name = oracle.MONTHS[(month - 1) % 12]
            out += rng.choice([name.capitalize()] * 8 + [name, name.upper(), b"jAN", b"xyz"])
        elif piece == "e":
            out += b"%2d" % day if rng.random() < 0.5 else b"%02d" % day
        else:
            value = {"d": day, "m": month, "Y": year, "y": year % 100, "H": hour, "M": minute, "S": second}[piece]
            out += b"%04d" % value if piece == "Y" else b"%02d" % value
    if rng.random() < 0.03:
        out = bytearray(rng.choice([b"", b"-", bytes(out) + b"0", bytes(out[:-1]), b" " + bytes(out)]))
    return bytes(out)


def request(rng):
    if rng.random() < 0.1:
        return rng.choice([b"-", b"", b"GET  HTTP/1.1", b"GET   HTTP/1.1", b"GET /", b" / HTTP/1.1", b"\\x16\\x03", b"GET / HTTP/1.1 x", b"a?b c", b"GET /a\\\"b HTTP/2",
                           b"\\", b"?", b"GET ? HTTP/2"])
    return rng.choice(METHODS) + b" " + (rng.name or rng.choice(URLS)) + b" " + rng.choice(PROTOCOLS)


def forwarded(rng, seps):
    parts = [rng.choice(HOSTS if rng.random() < 0.7 else [b"unknown", b"", b"x", b"1.2.3", b"10.0.0.1:80", b'\\"']) for _ in range(rng.randint(1, 4))]
    gap = bytes(rng.choice(seps) for _ in range(rng.randint(1, 2))) if seps else b","
    text = gap.join(parts)
    if rng.random() < 0.1:
        text = gap + text
    if rng.random() < 0.1:
        text += gap
    return text


def field(rng, letter, date, time):
    if rng.name and letter in b"URuv":
        return rng.name
    if letter == b"h":
        return pick(rng, HOSTS, NO_HOSTS, 0.06)
    if letter == b"d":
        return date_text(rng, date)
    if letter == b"t":
        return date_text(rng, time)
    if letter == b"x":
        return date_text(rng, date + time)
    if letter == b"r":
        return request(rng)
    if letter == b"s":
        return pick(rng, STATUSES, NO_STATUSES, 0.05)
    if letter in b"bDTL" and rng.heavy and rng.random() < 0.85:
        return {b"b": b"1" + b"0" * 18, b"D": b"1" + b"0" * 18, b"T": b"1" + b"0" * 12, b"L": b"1" + b"0" * 15}[letter]
    if letter in b"DTL":
        return rng.choice(TIMES[:2]) if rng.random() < 0.6 else rng.choice(TIMES)
    return rng.choice({b"b": SIZES if rng.random() < 0.2 else SIZES[:5], b"R": REFERRERS, b"u": AGENTS, b"U": URLS, b"q": QUERIES, b"m": METHODS,
                       b"H": PROTOCOLS}.get(letter, WORDS))


def line(rng, items, date, time):
    if isinstance(items, oracle.JsonFormat):
        return json_value(rng, items, 0, date, time) if items else b"{}"
    return plain_line(rng, items, date, time)


def plain_line(rng, items, date, time):
    out = bytearray()
    for at, (kind, what) in enumerate(items):
        if kind == oracle.LITERAL:
            out.append(what)
        elif kind == oracle.SKIP:
            out += rng.choice([b"", b" ", b"\t ", b"\x0b\x0c\r", b"  "])
        else:
            text = forwarded(rng, what) if kind == oracle.FORWARDED else field(rng, what, date, time)
            after = items[at + 1][1] if at + 1 < len(items) else None
            if after is not None and rng.random() < 0.97:  # mostly the field ends where it is meant to
                if after == 0x22:
                    text = text.replace(b'\\"', b"\0").replace(b'"', b"'").replace(b"\0", b'\\"')
                elif kind != oracle.FORWARDED or after not in what:
                    text = text.replace(bytes([after]), b"_" if after != 0x5F else b"-")
            out += text
            if rng.random() < 0.01:
                break
    return bytes(out)


def json_text(text):
    """The bytes as a JSON text; what isn't UTF-8 becomes U+FFFD."""
    return json.dumps(text.decode("utf-8", "replace")).encode()


ODD_VALUES = [b"null", b"true", b"false", b"{}", b"[]", b"1.0", b"1e3", b"-0", b"-1", b"18446744073709551615", b"18446744073709551616",
              b"9223372036854775808", b"-9223372036854775808", b"-9223372036854775809", b"1e400", b"0e999", b"01", b'"\\ud83d"', b'"a\x01"', b'""', b"nul",
              b'{"a":' * 126 + b"1" + b"}" * 126, b'{"a":' * 127 + b"1" + b"}" * 127]


def json_value(rng, leaves, depth, date, time):
    """A JSON value that has these leaves, whose paths go on after so many steps."""
    if any(len(path) == depth for path, _ in leaves):
        text = line(rng, leaves[0][1], date, time)
        chance = rng.random()
        if chance < 0.04:
            return rng.choice(ODD_VALUES)
        return text if text.isdigit() and chance < 0.7 else json_text(text)
    if leaves[0][0][depth] == 0:
        return b"[" + b",".join([json_value(rng, leaves, depth + 1, date, time)] + [b"7"] * (rng.random() < 0.1)) + b"]"
    parts = {}
    for path, items in leaves:
        parts.setdefault(path[depth], []).append((path, items))
    members = [json_text(name) + b":" + json_value(rng, parts[name], depth + 1, date, time) for name in parts if rng.random() < 0.985]
    if rng.random() < 0.1:
        members.append(json_text(rng.choice(list(parts))) + b":" + rng.choice(ODD_VALUES))
    if rng.random() < 0.2:
        members.append(b'"other":' + rng.choice(ODD_VALUES[:12]))
    rng.shuffle(members)
    return b"{" + rng.choice([b",", b" , "]).join(members) + b"}"


def odd_line(rng, text):
    """A line that something happened to."""
    at = rng.randint(0, len(text))
    return rng.choice([
        lambda: b"", lambda: b"#" + text, lambda: b" " + text, lambda: text[:at], lambda: text + b" more", lambda: text + b"\r",
        lambda: text[:at] + bytes([rng.choice(b'\0\xff" \\-[]:\r\t\x80')]) + text[at:], lambda: text[:at] + text[at + 1 :], lambda: b"broken",
        lambda: text[:at] + b'\\"' + text[at:], lambda: b"#" * 70_000 if rng.random() < 0.1 else b"#", lambda: text[:at] + b"\\" + text[at:],
        lambda: text + b"x" * max(0, rng.choice([65_535, 65_536]) - len(text)) if rng.random() < 0.2 else text, lambda: b"\r",
    ])()


def log(rng, setup, many=40):
    items, date, time = setup
    lines = [line(rng, items, date, time) for _ in range(rng.choice([0, 1, 1, 2, 3, 5, 8, 20, many]))]
    for at in range(rng.items):
        rng.name = b"/%d" % (at * 7919 % 1000)
        lines.append(line(rng, items, date, time))
    rng.name = None
    if lines and rng.random() < 0.5:  # the same again, so that rows have more than one hit
        lines += [rng.choice(lines) for _ in range(rng.randint(1, 8))]
    if lines and rng.random() < 0.05:
        lines += [lines[0]] * rng.randint(300, 900)
    lines = [odd_line(rng, text) if rng.random() < 0.08 else text for text in lines]
    if lines and rng.random() < 0.02:  # more than one slice of the file, and more than one batch
        lines = lines * (1 + rng.choice([80_000, 300_000, 1_200_000]) // (1 + sum(map(len, lines))))
    ends = [b"\r\n" if rng.random() < 0.04 else b"\n" for _ in lines]
    if ends and rng.random() < 0.15:
        ends[-1] = rng.choice([b"", b"\r"])
    return b"".join(text + end for text, end in zip(lines, ends))


# ------------------------------------------------------------------------------------------------ formats

CURATED = [
    b"COMMON", b"COMMON", b"COMBINED", b"COMBINED", b"COMBINED", b"VCOMMON", b"VCOMBINED",
    b'%h %^[%d:%t %^] "%r" %s %b "%R" "%u" %T', b'%h [%x] "%r" %s %b %D', b"%x|%h|%m|%U|%q|%H|%s|%b|%v|%e|%C|%M|%K",
    b'~h{, } %^[%d:%t %^] "%r" %s %b', b'"~h{, }" [%d:%t] "%r" %s %b %L', b'~h{,}\\t%d\\t%U\\t%s', b'%d %t|~h{, |}|%r|%s', b"%h,%d,%U",
    b'%^ %h %~[%d] %~"%U" %^;%s %D %T', b'%d "~h{ ,"}" "%r"', b"%U %d ~h{,;}", b'%v\\t%e\\t%h\\t%x\\t%r\\t%s\\t%b\\t%u\\t%R\\t%K\\t%M\\t%C',
    b"~ %h ~h%d~%U~\\", b"%d|%U|~h{ ,} %s %b", b'%U;%x;~h{,"}"%u', b'%h "%u" %d %U', b'%h%~ %d "%r"', b'%h \xc3\xa9%d\xc3\xa9 %r',
]
BROKEN = [b"", b"common", b'%h%d "%r"', b'%h "%r"', b"%h %d", b'%d "%r"', b"%h %Q", b"%", b"%%", b"%h %h%d", b"%h%h", b"%h%z", b"~h{}", b"~h{", b"~h{,",
          b"~h{}} %d %r", b"%h ~h{,} %d %r", b"%x %d %h %r", b"%t %x", b"%r %m %h %d", b"%q %r", b"%h %^%~%d %r", b"%^%^ %h %d %r", b"%h %d %r %s %s",
          b"%h %d %U %", b"%h %d %r %f", b"\\t%h\\t%d", b"~h{,}%d %r", b"%h %d %r%~", b"%D%T %h", b"%~%h %~%d %~"]


def compose(rng):
    """A format of parts in any order."""
    parts = [rng.choice([b"%h", b"%h", b"~h{, }", b"~h{,}", b"~h{;|}", b"%^ %h"]), rng.choice([b"%d", b"%d:%t", b"%x", b"[%d %t]", b"%t %d"]),
             rng.choice([b'"%r"', b"%r", b"%U", b'%m "%U" %H', b"%U %q", b"%q;%U;%m"])]
    parts += rng.sample([b"%s", b"%b", b'"%R"', b'"%u"', b"%u", b"%v", b"%e", b"%C", b"%M", b"%K", b"%D", b"%T", b"%L", b"%^", b"[%^]", b"%~%s" if rng.random() < 0.1 else b"x", b"%D", b"%T", b"%L"],
                        rng.randint(0, 8))
    rng.shuffle(parts)
    out = parts[0]
    for part in parts[1:]:
        out += rng.choice([b" "] * 6 + [b"\\t", b"|", b";", b" - ", b", ", b" %~", b"\\", b"\xc3\xa9", b"~"]) + part
    return out + rng.choice([b""] * 5 + [b" %^", b"]", b'"', b" %~"])


def json_format(rng):
    """A JSON format of parts in any order, mostly a good one."""
    texts = [rng.choice([b"%h", b"~h{, }", b"%h - %^"]), rng.choice([b"%d", b"%d:%t %^", b"%x", b"[%d"]), rng.choice([b"%r", b"%U", b"%m %U"])]
    texts += rng.sample([b"%s", b"%b", b"%R", b"%u", b"%v", b"%e", b"%C", b"%M", b"%K", b"%D", b"%T", b"%L", b"%^", b"x%^", b"", b"%T", b"%D %L"], rng.randint(0, 7))
    if rng.random() < 0.06:
        texts.append(rng.choice([b"%h", b"%h%d", b"%z", b"%", b"%m", b"~h{", b"%x", b"%^%~"]))
    values = [json_text(text) for text in texts]
    if rng.random() < 0.05:
        values.append(rng.choice([b"1", b"null", b"[]", b'["%s","%b"]', b"true", b"{}", b"1.5", b'["%^"]']))
    rng.shuffle(values)
    members = []
    while values:
        some = [values.pop() for _ in range(min(len(values), rng.choice([1, 1, 1, 2, 3])))]
        names = rng.sample([b"a", b"b", b"c", b"ip", b"\xc3\xa9", b"", b"a b", b'q"', b"Z"], len(some))
        whole = b"{" + b",".join(json_text(name) + b":" + value for name, value in zip(names, some)) + b"}" if len(some) > 1 else some[0]
        if rng.random() < 0.15:
            whole = b"[" + whole + b"]"
        members.append(json_text(b"%c%d" % (rng.choice(b"amz"), len(members))) + b":" + whole)
    text = b"{" + b",".join(members) + b"}"
    return text if rng.random() < 0.97 else rng.choice([text[:-1], text + b" x", b"{", b"{}", text + b" ", b"{" + text[1:].replace(b":", b"=", 1)])


def formats(rng):
    """The texts of the three formats, and what lines are made from: items and pieces that are well-formed."""
    chance = rng.random()
    text = rng.choice(CURATED) if chance < 0.5 else compose(rng) if chance < 0.85 else json_format(rng)
    date, time = pick(rng, DATE_FORMATS, BAD_DATES, 0.02), pick(rng, TIME_FORMATS, BAD_TIMES, 0.02)
    if rng.random() < 0.035:
        text = rng.choice(BROKEN)
    elif rng.random() < 0.02:
        at = rng.randint(0, len(text))
        text = lossless(text[:at] + rng.choice([b"%", b"%h", b"", b" ", b"~h{", b"}", b"%s", b"%~", b"%^", b"%D", b"\\", b"%x"]) + text[at + rng.randint(0, 2) :])
    return text, date, time


def lossless(text):
    return text if oracle.is_utf8(text) else b"%h"


def setup_of(text, date, time):
    def either(call, text, other):
        try:
            return call(text)
        except oracle.Fault:
            return call(other)

    return (either(oracle.compile_log, oracle.NAMED.get(text, text), oracle.COMMON), either(oracle.compile_date, date, b"%F"),
            either(oracle.compile_time, time, b"%T"))


# ------------------------------------------------------------------------------------------------ words

OUTPUTS = [b"csv"] * 8 + [b"json"] * 5 + [b"r.csv", b"r.json", b"folder/r.csv", b"a.csv", "\u00e9.json".encode()]
# reports that can't be made: no such folder, and a folder of that name
NO_OUTPUTS = [b"nothing/r.csv", b"folder.json"]
BAD_OUTPUTS = [b"", b"CSV", b".csv", b".json", b"html", b"r.html", b"r.csv ", b"json.", b"-o"]
LOGS = [b"a.log"] * 4 + [b"b.log", b"b.log", "caf\u00e9.log".encode(), b"a b.log", b"./a.log", b"folder/c.log"]
NO_LOGS = [b"nothing.log", b"folder", b"nothing/a.log", b"a.log/b"]


def narrow_words(rng, text, date, time):
    words = [b"--log-format=" + text]
    if date != b"%d/%b/%Y" or rng.random() < 0.2:
        words.append(b"--date-format=" + date)
    if time != b"%H:%M:%S" or rng.random() < 0.2:
        words.append(b"--time-format=" + time)
    words += [b"-o", rng.choice(NO_OUTPUTS) if rng.random() < 0.02 else pick(rng, OUTPUTS, BAD_OUTPUTS, 0.02), pick(rng, LOGS, NO_LOGS, 0.02)]
    if rng.random() < 0.04:
        at = rng.randrange(len(words))
        change = rng.choice(["drop", "twice", "swap", "word", "split"])
        if change == "drop":
            words.pop(at)
        elif change == "twice":
            words.insert(at, words[at])
        elif change == "swap":
            other = rng.randrange(len(words))
            words[at], words[other] = words[other], words[at]
        elif change == "word":
            words.insert(at, rng.choice([b"", b"-", b"--", b"a.log", b"--no-strict-status", b"\xff", b"-o", b"--output=csv", b"--jobs=1"]))
        elif b"=" in words[at]:
            words[at : at + 1] = words[at].split(b"=", 1)
    return words


def option(rng):
    """A name and a value, None for a flag; mostly good ones."""
    bad = rng.random() < 0.015
    name = rng.choice([b"--static-file", b"--all-static-files", b"--exclude-ip", b"--exclude-ip", b"--no-query-string", b"--ignore-crawlers", b"--ignore-status",
                       b"--ignore-panel", b"--ignore-panel", b"--enable-panel", b"--no-ip-validation", b"--no-strict-status", b"--4xx-to-unique-count", b"--444-as-404",
                       b"--double-decode-url", b"--max-items", b"--jobs", b"--chunk-size", b"--db-path", b"--browsers-file", b"--browsers-file"])
    values = {
        b"--static-file": ([b".php", b".CSS", b"l", b"/", b".x", b"\xc3\xa9", b"?x", b"html"], [b""]),
        b"--exclude-ip": ([b"192.0.2.1", b"192.0.2.1-192.0.2.9", b"::-::1", b"2001:db8::-2001:db8::ffff", b"0.0.0.0-255.255.255.255", b"::1",
                           b"::ffff:192.0.2.1-::ffff:192.0.2.1"], [b"", b"x", b"192.0.2.9-192.0.2.1", b"1.2.3.4-", b"-1.2.3.4", b"::1-1.2.3.4", b"1.2.3.4-5-6", b"1.2.3"]),
        b"--ignore-status": ([b"200", b"404", b"100", b"599", b"301", b"444"], [b"99", b"600", b"0200", b"2xx", b"", b"099"]),
        b"--ignore-panel": (oracle.PANELS, [b"hosts", b"", b"ASN", b"HOSTS "]),
        b"--enable-panel": (oracle.PANELS, [b"hosts", b"", b"GEO_LOCATION"]),
        b"--max-items": ([b"1", b"2", b"3", b"0000000002", b"4294967295", b"367"], [b"0", b"4294967296", b"00000000001", b"+1", b"", b"-1"]),
        b"--jobs": ([b"1", b"16", b"08", b"2"], [b"0", b"17", b"x", b"", b"00000000016"]),
        b"--chunk-size": ([b"1", b"2", b"32768", b"7"], [b"0", b"32769", b"1k", b"", b"00000000001"]),
        b"--db-path": ([b"folder"], [b""]),
        b"--browsers-file": ([b"agents.txt"] * 9 + [b"other.txt"] * 4 + [b"nothing.txt"], [b""]),
    }
    if name not in values:
        return name, None, bad
    good, wrong = values[name]
    return name, rng.choice(wrong if bad else good), False


SPECS = {b"--date-spec": [b"date", b"hr", b"hr", b"min", b"min"], b"--hour-spec": [b"hr", b"min", b"min"]}
BAD_SPECS = [b"", b"day", b"HR", b"hour", b"minute", b"hr ", b"min=", b"dat", b"1"]


def finer(rng):
    """What VISITORS and VISIT_TIMES count by, in a third of the runs each."""
    for name, values in SPECS.items():
        if rng.random() < 0.35:
            yield spelt(rng, name, pick(rng, values, BAD_SPECS if name == b"--date-spec" else [*BAD_SPECS, b"date"], 0.02))


NUMBERS = [b"1"] * 3 + [b"2"] * 3 + [b"3", b"5", b"0000000002", b"4294967295"]
BAD_NUMBERS = [b"0", b"4294967296", b"-1", b"", b"+1", b"00000000001", b"two", b"1.5", b"1 ", b" 1", b"0000000000"]


def last_days(rng):
    """How many of the last days are kept, in a third of the runs, and now and then said again."""
    for chance in (0.35, 0.05):
        if rng.random() < chance:
            yield spelt(rng, b"--keep-last", pick(rng, NUMBERS, BAD_NUMBERS, 0.03))


def spelt(rng, name, value, flag_with_value=False):
    if value is None:
        return [name + rng.choice([b"=", b"=1"])] if flag_with_value else [name]
    if name == b"-o" or rng.random() < 0.3:
        return [name, value]
    return [name + b"=" + value]


def settings(rng, text, date, time):
    """Formats, outputs, options and panels, each with the words that spell it."""
    units = [spelt(rng, b"--log-format", text)]
    if date != b"%d/%b/%Y":
        units.append(spelt(rng, b"--date-format", date))
    if time != b"%H:%M:%S":
        units.append(spelt(rng, b"--time-format", time))
    for _ in range(rng.choice([0, 1, 1, 1, 2])):
        output = rng.choice(NO_OUTPUTS) if rng.random() < 0.02 else pick(rng, OUTPUTS, BAD_OUTPUTS, 0.02)
        units.append(spelt(rng, rng.choice([b"-o", b"-o", b"--output"]), output))
    for _ in range(rng.choice([0, 1, 1, 2, 3, 5, 8])):
        units.append(spelt(rng, *option(rng)))
    units += finer(rng)
    units += last_days(rng)
    if rng.random() < 0.25:
        keep = rng.sample(oracle.PANELS, rng.randint(0, 4))
        units += [[b"--ignore-panel=" + panel] for panel in oracle.PANELS if panel not in keep]
    return units


# lines of a configuration file that give nothing, and lines that are no settings
OTHER_LINES = [b"hl-header true", b"color-scheme 1", b'html-prefs {"theme":"bright"}', b"config-file other.conf", b"", b"# jobs 17", b"\t ", b"no-color", b"4 x"]
BAD_LINES = [b"jobs 17", b"persist", b"log-file a.log", b"generate 5", b"Jobs 2", b"jobs_2", b"# \xff", b"all-static-files yes", b"#" * 4097, b"output r.html"]


def conf_line(rng, unit):
    """The line of a configuration file that these words are, or None."""
    name, _, value = unit[0].partition(b"=")
    if name not in oracle.VALUED and name not in oracle.FLAGS or not name.startswith(b"--") or name == b"--generate":
        return None
    value = unit[1] if len(unit) == 2 else value
    if name in oracle.FLAGS:
        value = b"true" if rng.random() < 0.8 else b"false"
    return rng.choice([b"", b"", b" \t"]) + name[2:] + rng.choice([b" ", b"\t", b" \t "]) + value + rng.choice([b"", b"", b" ", b"\r"])


def into_conf(rng, units):
    """The units that stay on the command line, and the configuration file that the others make."""
    stay, lines = [], []
    for unit in units:
        line = conf_line(rng, unit) if rng.random() < 0.5 else None
        if line is None:
            stay.append(unit)
        else:
            lines.append(line)
    for _ in range(rng.choice([0, 1, 3])):
        lines.insert(rng.randint(0, len(lines)), rng.choice(BAD_LINES) if rng.random() < 0.03 else rng.choice(OTHER_LINES))
    name = b"nothing.conf" if rng.random() < 0.02 else b"g.conf"
    return stay + [spelt(rng, b"--config-file", name)], b"\n".join(lines) + rng.choice([b"", b"\n", b"\n", b"\r\n"])


def wide_words(rng, text, date, time):
    units = settings(rng, text, date, time)
    if rng.random() < 0.2:
        units, rng.conf = into_conf(rng, units)
    logs = [[pick(rng, LOGS, NO_LOGS, 0.02)] for _ in range(rng.choice([1] * 12 + [2] * 5 + [3, 3, 0]))]
    behind = rng.random() < 0.1
    if rng.random() < 0.03:
        units.append(rng.choice([[b"--bogus"], [b"-"], [b"-o=json"], [b"--persist"], [b"--restore"], [b"--generate=5"], [b"--generate", b"0000000005"], [b"--keep-last"], [b""], [b"--jobs"],
                                 [b"\xff"], [b"-ocsv"], [b"--bogus=1"], [b"--Log-Format=COMMON"], [b"--log-format="], [b"--generate=0"], [b"--date-format="],
                                 [b"--persist=x"], [b"--output"]]))
    if rng.random() < 0.02:
        units.pop(0)
    if not behind:
        units += logs
    rng.shuffle(units)
    words = [word for unit in units for word in unit]
    if behind:
        words += [b"--"] + [word for unit in logs for word in unit]
        if rng.random() < 0.1:
            words.append(rng.choice([b"--", b"-o", b"", b"--bogus"]))
    if rng.random() < 0.01:
        words = words[: rng.randint(0, len(words))]
    return words


def make(rng, narrow):
    """The words and the files of a run. All runs have the folders `folder` and `folder.json` besides."""
    rng.conf = None  # the configuration file, where the words name one
    rng.name = None  # the name that this line's URL and texts have
    rng.heavy = rng.random() < 0.04  # amounts that fill a counter
    rng.items = 0 if rng.random() < 0.985 else rng.choice([366, 500, 700, 900])  # more different items than a report shows
    text, date, time = formats(rng)
    setup = setup_of(text, date, time)
    words = (narrow_words if narrow else wide_words)(rng, text, date, time)
    if b"--persist" in words or b"--restore" in words:
        # a database of the run's own, which is empty
        words.insert(0, b"--db-path=folder")
    files = {}
    for name in sorted({word for word in words if word in LOGS} | {b"a.log"}):
        files[os.path.normpath(name)] = log(rng, setup)
    for name in (b"agents.txt", b"other.txt"):
        if any(name in word for word in words):
            files[name] = pick(rng, RULES, BAD_RULES, 0.15)
    if rng.conf is not None:
        files[b"g.conf"] = rng.conf
    if rng.random() < 0.3:
        files[b"r.csv"] = b"an older report\n"
    return words, files


FOLDERS = [b"folder", b"folder.json"]
# what a database's sides are called; tools/try-database looks into them
SIDES = [b"goaccess.side0", b"goaccess.side1"]


def expected(words, files, library=oracle):
    """What a run answers, and the files afterwards."""
    def read(name):
        return files.get(os.path.normpath(name)) if b"a.log/" not in name else None

    status, out, err, made = library.run_words(words, read, library.Database())
    after = dict(files)
    if made is not None:
        name, text = made
        if name in NO_OUTPUTS:
            status, err = 4, b"goaccess: " + name + b": write failed after 0 bytes\n"
        else:
            after[os.path.normpath(name)] = text
    return status, out, err, after


# ------------------------------------------------------------------------------------------------ runs


def answered(program, words, files, folder):
    for name in FOLDERS:
        os.mkdir(os.path.join(folder, name))
    for name, text in files.items():
        with open(os.path.join(folder, name), "wb") as out:
            out.write(text)
    try:
        child = subprocess.run([program, *words], cwd=folder, stdin=subprocess.DEVNULL, capture_output=True, timeout=SECONDS)
    except subprocess.TimeoutExpired:
        return None
    after = {}
    for at, _, names in os.walk(folder):
        for name in sorted(set(names) - set(SIDES)):
            path = os.path.join(at, name)
            with open(path, "rb") as left:
                after[os.path.relpath(path, folder)] = left.read()
    return child.returncode, child.stdout, child.stderr, after


def differing(got, wanted):
    """The names of the parts that differ, each with what was got and what was wanted."""
    if got is None:
        return [("time", b"", f"an end within {SECONDS} seconds".encode())]
    parts = [(name, g, w) for name, g, w in zip(("status", "standard output", "standard error"), got, wanted) if g != w]
    names = sorted(set(got[3]) | set(wanted[3]))
    return parts + [(f"file {name!r}", got[3].get(name), wanted[3].get(name)) for name in names if got[3].get(name) != wanted[3].get(name)]


def shown(got, wanted):
    """Both, from a little before the place where they differ."""
    if not isinstance(got, bytes) or not isinstance(wanted, bytes):
        return f"    {got!r:.300}\n    not {wanted!r:.300}"
    at = next((i for i, (g, w) in enumerate(zip(got, wanted)) if g != w), min(len(got), len(wanted)))
    start = max(0, got.rfind(b"\n", 0, at) + 1, at - 150)
    return f"    at byte {at}: {got[start : at + 150]!r}\n    not       {wanted[start : at + 150]!r}"


def run_at(seed, at, narrow):
    return make(random.Random(f"{seed}/{at}/{narrow}"), narrow)


def main():
    words = sys.argv[1:]
    narrow = "--narrow" in words
    words = [word for word in words if word != "--narrow"]
    named = {}
    for name in ("--keep", "--from", "--most"):
        if name in words:
            at = words.index(name)
            named[name] = words[at + 1]
            del words[at : at + 2]
    if len(words) != 3:
        sys.exit(__doc__)
    program, runs, seed = os.path.abspath(words[0]), int(words[1]), words[2]
    first, most = int(named.get("--from", 0)), int(named.get("--most", 5))
    statuses = collections.Counter()
    wrong = 0
    for at in range(first, first + runs):
        words, files = run_at(seed, at, narrow)
        folder = tempfile.mkdtemp()
        try:
            wanted = expected(words, files)
            got = answered(program, words, files, os.fsencode(folder))
            statuses[wanted[0]] += 1
            parts = differing(got, wanted)
            if not parts:
                continue
            wrong += 1
            if wrong <= most:
                print(f"run {at} of seed {seed}: {[os.fsdecode(word) for word in words]}")
                for name, g, w in parts:
                    print(f"  {name}\n{shown(g, w)}")
                sys.stdout.flush()
            if "--keep" in named:
                kept = os.path.join(named["--keep"], str(at))
                shutil.rmtree(kept, ignore_errors=True)
                os.makedirs(kept)
                for name, text in files.items():
                    path = os.path.join(os.fsencode(kept), b"files", name)
                    os.makedirs(os.path.dirname(path), exist_ok=True)
                    with open(path, "wb") as out:
                        out.write(text)
                with open(os.path.join(kept, "words"), "w", encoding="utf-8") as out:
                    out.write(repr(words) + "\n")
                for name, g, w in parts:
                    for side, text in (("got", g), ("wanted", w)):
                        with open(os.path.join(kept, f"{name.replace('/', '_')}.{side}"), "wb") as out:
                            out.write(text if isinstance(text, bytes) else repr(text).encode())
        finally:
            shutil.rmtree(folder, ignore_errors=True)
    print(f"{runs - wrong} runs alike, {wrong} differ; statuses {dict(sorted(statuses.items()))}")
    sys.exit(1 if wrong else 0)


if __name__ == "__main__":
    main()
