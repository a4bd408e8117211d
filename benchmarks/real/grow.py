"""A log that grows out of what real programs wrote: the shapes `real` and `written` of make_log.py.

Each file beside this one is a sample of one program. Programs take turns by a seed, each a few entries at a time.
Each goes through its sample, and then through it again. An entry is a line and those that belong to it. Stamps are
those of one clock that goes on. Other numbers are drawn, once for each time that a program goes through its sample.
So what was the same in the sample stays the same: a process in all of its lines, a client, a queue identifier.

Of `written` each entry is as its program writes it. Of `real` the samples went through `examples/stamps` first, as an
operator does with such logs.
"""
import os
import re
import subprocess
from bisect import bisect
from datetime import datetime, timedelta
from itertools import accumulate
from operator import itemgetter
from typing import Callable, NamedTuple, Optional

HERE = os.path.dirname(os.path.abspath(__file__))
STAMPS = os.path.join(HERE, "..", "..", "examples", "stamps")
BASE64 = "ABCDEFGHIJKLMNOPQRSTUVWXYZabcdefghijklmnopqrstuvwxyz0123456789+/"


class Program(NamedTuple):
    """A sample, the kind of its stamps where they are not read, how an entry begins, how often the program has its
    turn, and the most entries of a turn."""

    sample: str
    kind: Optional[str]
    begins: str
    share: int
    most: int


PROGRAMS = [
    Program("nginx-access.log", "access", "", 40, 12),
    Program("postgresql.log", None, "20", 24, 20),
    Program("syslog", "rsyslog", "", 20, 12),
    Program("nginx-error.log", None, "20", 6, 4),
    Program("dpkg.log", None, "20", 2, 60),
    Program("apt-history.log", None, "$", 2, 1),
    Program("apt-term.log", None, "$", 1, 1),
]

# What changes in a line, and before it what looks so and stays: the status of an answer and the bytes of one that
# failed, what a browser tells, the machine's own addresses, numbers of errors and of programs.
FIELDS = re.compile(
    r"""
    (?P<kept> [ ]HTTP/1\.[01]"[ ](?: [345]\d\d[ ]\d+ | 2\d\d ) | "[^"]*"$ | swVersion="[^"]*" | (?:127\.0\.0\.1|0\.0\.0\.0)(?::\d+)?\b
        | \(1\d\d:[ ] | [ ][+-]\d{4}\] | \b[245]\d\d[ ][245]\.\d\.\d | port[ ]5432 | PGSQL\.5432 | ED25519 | \b100(?:\.00)?% | fillfactor=100 )
    | (?P<stamp> 20\d\d[-/]\d\d[-/]\d\d (?: T | [ ]{1,2} ) \d\d:\d\d:\d\d (?: \.\d+ )? | \d\d/[A-Z][a-z]{2}/20\d\d:\d\d:\d\d:\d\d | \b20\d{12}\b )
    | (?P<address> \b\d{1,3} (?: \.\d{1,3} ){3}\b )
    | (?P<version> (?: (?<=%3a) | (?<![0-9A-Za-z.+~/-]) ) \d[0-9A-Za-z.+~]*-[0-9A-Za-z.+~]*\d )
    | (?P<print> (?<=SHA256:)[A-Za-z0-9+/]{43} )
    | (?P<lower> \b (?=[a-f]*\d) (?=\d*[a-f]) [0-9a-f]{12,} \b )
    | (?P<upper> \b (?=[A-F]*\d) (?=\d*[A-F]) [0-9A-F]{8,} \b )
    | (?P<number> \d{3,} )
    """,
    re.VERBOSE | re.MULTILINE,
)


def stamp(text):
    """How a moment is printed in the form of this stamp."""
    if ":" not in text:
        return lambda now: now.strftime("%Y%m%d%H%M%S")
    if not text.startswith("20"):
        return lambda now: now.strftime("%d/%b/%Y:%H:%M:%S")
    parts = {0: "seconds", 3: "milliseconds"}.get(len(text.partition(".")[2]), "microseconds")
    if "/" in text:
        return lambda now: now.isoformat(" ", parts).replace("-", "/")
    if "  " in text:
        return lambda now: now.isoformat(" ", parts).replace(" ", "  ")
    between = text[10]
    return lambda now: now.isoformat(between, parts)


def address(_):
    return lambda r: "10.%d.%d.%d" % (r.randrange(4), r.randrange(64), r.randrange(1, 255))


def version(text):
    """Another revision of the same package: the last number is drawn."""
    front = text.rstrip("0123456789")
    return lambda r: front + str(r.randrange(1, 40))


def printed(text):
    """The print of a key."""
    return lambda r: "".join(r.choices(BASE64, k=len(text)))


def hexadecimal(text):
    form = "%%0%d%s" % (len(text), "X" if text.isupper() else "x")
    return lambda r: form % r.getrandbits(4 * len(text))


def number(text):
    """As many digits, and with five of them a number that a port can have."""
    digits = len(text)
    least = 0 if text[0] == "0" else 10 ** (digits - 1)
    bound = 65_536 if digits == 5 else 10**digits
    return lambda r: "%0*d" % (digits, r.randrange(least, bound))


DRAWN = {"address": address, "version": version, "print": printed, "lower": hexadecimal, "upper": hexadecimal, "number": number}


def place_of(field):
    """What shares a place among the values: a stamp with those of its form, and anything else with the same text."""
    text = field.group()
    return field.lastgroup, re.sub(r"[0-9]|(?<=/)[A-Z][a-z]{2}", "0", text) if field.lastgroup == "stamp" else text


def entries_of(program, read):
    """The entries of a sample; where `read` holds, with stamps that are read."""
    path = os.path.join(HERE, program.sample)
    if read and program.kind:
        text = subprocess.run([STAMPS, "--format", "2", program.kind, path], check=True, capture_output=True).stdout.decode("ascii")
    else:
        with open(path, encoding="ascii", newline="\n") as sample:
            text = sample.read()
    found = []
    for line in text.split("\n")[:-1]:
        if not found or re.match(program.begins, line):
            found.append([])
        found[-1].append(line)
    return ["\n".join(it) for it in found]


def with_places(text, fields):
    """The text with `%s` in place of each field."""
    pieces, at = [], 0
    for field in fields:
        pieces.append(text[at : field.start()].replace("%", "%%"))
        at = field.end()
    return "%s".join([*pieces, text[at:].replace("%", "%%")])


class Entry(NamedTuple):
    """A text with places, the values that stand there, and which of these are stamps."""

    text: str
    picked: Callable
    stamps: list


class Sample:
    """The entries of a program, and the next of them. Its values are the stamps of now, and behind them what was drawn."""

    def __init__(self, program, read):
        texts = entries_of(program, read)
        fields = [[it for it in FIELDS.finditer(text) if it.lastgroup != "kept"] for text in texts]
        first = {}
        for field in (it for some in fields for it in some):
            first.setdefault(place_of(field), field)
        stamps, others = ([key for key in first if (key[0] == "stamp") == wanted] for wanted in (True, False))
        at = {key: n for n, key in enumerate(stamps + others)}
        self.most, self.next, self.values = program.most, 0, [""] * len(stamps)
        self.forms = [stamp(first[key].group()) for key in stamps]
        self.draws = [DRAWN[key[0]](first[key].group()) for key in others]
        self.entries = []
        for text, some in zip(texts, fields):
            places = [at[place_of(it)] for it in some]
            self.entries.append(Entry(with_places(text, some), itemgetter(*places), sorted({it for it in places if it < len(stamps)})))

    def write(self, r, now):
        """The next entry."""
        if self.next == 0:
            self.values[len(self.forms) :] = [draw(r) for draw in self.draws]
        entry = self.entries[self.next]
        self.next = (self.next + 1) % len(self.entries)
        for at in entry.stamps:
            self.values[at] = self.forms[at](now)
        return entry.text % entry.picked(self.values)


def entries(r, read):
    """The entries of all programs, without end; where `read` holds, with stamps that are read."""
    samples, bounds = [Sample(it, read) for it in PROGRAMS], list(accumulate(it.share for it in PROGRAMS))
    now = datetime(2025, 3, 1, 0, 0, 0)
    while True:
        sample = samples[bisect(bounds, r.randrange(bounds[-1]))]
        for _ in range(r.randrange(sample.most) + 1):
            now += timedelta(microseconds=r.randrange(1_000, 40_000))
            yield sample.write(r, now)


def real(r):
    return entries(r, True)


def written(r):
    return entries(r, False)
