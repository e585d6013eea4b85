"""The calendar walked month by month, and every answer of the desk: what the other tools compute with. A module, not a program.

It shares nothing with the library. The calendar is walked from the origin, mid-terms are looked for among all even terms on each
month's days, numbers are given out by the paper's two sentences, and every date is found by looking it up. A term is walked to from
its year's solstice. A planet's next conjunction is searched for among its counts. A query line is read by regular expressions.

Years are of two kinds. A solstice year, 1 to 41,040, opens with the month of a winter solstice: a place and the terms are of it. A
civil year, 0 to 41,040, opens with its own month 1, year 0 with the origin: dates, a year's own facts, a reading's year name, the
listing and the sheet have it. Each is walked by itself, and a solstice year's place from that of the year before.

In order:

- the ranges and the words of the reasons,
- the walked calendar and what requests W4 and W8 say of its years and places, the big pairs, the terms, names and marks,
- the planets,
- the sheet, read and written byte by byte,
- the desk: a line's answer, its echo, and the listing's lines,
- `hold`, which writes a tool's files or says whether they stand.
"""
import bisect
import collections
import math
import pathlib
import re
import sys

sys.dont_write_bytecode = True

ROOT = pathlib.Path(__file__).resolve().parent.parent
# The last year of either kind, how many months, how many days.
YEARS, MONTHS, DAYS = 41040, 507600, 14989860

WORDS = {
    1: "year outside its range",
    2: "month number outside 1 to 12",
    3: "day of month outside 1 to 30",
    4: "leap month asked and that year has none of that number",
    5: "day 30 of a 29-day month",
    6: "day count outside the range",
    7: "month count outside the range",
    8: "a move ends outside the range",
    9: "sheet ends before a count or an item is whole",
    10: "a count above its most",
    11: "bytes after the last section",
    12: "a lent list or buffer too short for the whole answer",
    13: "last before first, or a window of more than 27,759 days",
    14: "a known field of a reading outside its range",
    15: "term, mid-term or quarter above its last",
    16: "no such month number in that year",
    17: "going back to the old form with readings present",
    18: "text too long",
    19: "planet outside 1 to 5",
    20: "no conjunction falls from the given day to the end of the range",
    21: "bu outside 1 to 540",
}


def refused(k):
    return f"REFUSED {k} {WORDS[k]}"


# The calendar.

# The place of a yuan's last year, after which its first comes again: ji, bu, year in bu.
LAST_PLACE = (3, 20, 76)


def next_place(ji, bu, year_in_bu):
    """The place of the solstice year after one of this place: 76 years make a bu, twenty bu a ji, three ji a yuan."""
    if year_in_bu < 76:
        return ji, bu, year_in_bu + 1
    if bu < 20:
        return ji, bu + 1, 1
    return (ji + 1 if ji < 3 else 1), 1, 1


class Calendar:
    """Every month of the range: first day, number, leap mark, solstice year, its place, and civil year; by walking, not by formula.

    The solstice year goes on by one at the month of a winter solstice, its place to the next; the civil year goes on at an ordinary
    month 1. Before the first of them a year is 0. A date's year is the civil one, so that months are looked up by it."""

    def __init__(self):
        self.starts = [27759 * n // 940 for n in range(MONTHS + 1)]
        mid_days = {}
        for t in range(0, 24 * YEARS + 48, 2):
            mid_days[487 * t // 32] = t % 24
        self.number, self.leap, self.solstice_year, self.place, self.civil_year = [], [], [], [], []
        solstice_year, place, civil_year, previous = 0, LAST_PLACE, 0, None
        for n in range(MONTHS):
            held = [mid_days[d] for d in range(self.starts[n], self.starts[n + 1]) if d in mid_days]
            assert len(held) <= 1
            if held and held[0] == 0:
                solstice_year += 1
                place = next_place(*place)
            if held:
                previous = [11, 12, 1, 2, 3, 4, 5, 6, 7, 8, 9, 10][held[0] // 2]
            if held and previous == 1:
                civil_year += 1
            self.number.append(previous)
            self.leap.append(not held)
            self.solstice_year.append(solstice_year)
            self.place.append(place)
            self.civil_year.append(civil_year)
        self.by_name = {}
        self.months_of_solstice, self.months_of_civil = {}, {}
        for n in range(MONTHS):
            key = (self.civil_year[n], self.number[n], self.leap[n])
            assert key not in self.by_name
            self.by_name[key] = n
            self.months_of_solstice.setdefault(self.solstice_year[n], []).append(n)
            self.months_of_civil.setdefault(self.civil_year[n], []).append(n)
        hold_years(self)
        hold_places(self)

    def length(self, n):
        return self.starts[n + 1] - self.starts[n]

    def small_remainder(self, n):
        return 27759 * n - 940 * self.starts[n]

    def month_of(self, day):
        """The month that a day of the range is in."""
        return bisect.bisect_right(self.starts, day) - 1


def hold_years(c):
    """It stops where a sentence of request W4 does not hold of the walked years."""

    def borne(months):
        """Ordinary months by their numbers, leap months after L."""
        return [f"{mark(c.leap[n])}{c.number[n]}".lstrip("-") for n in months]

    twelve = [str(number) for number in range(1, 13)]
    from_solstice = [*twelve[10:], *twelve[:10]]
    assert list(c.months_of_solstice) == list(range(1, YEARS + 1)) and list(c.months_of_civil) == list(range(YEARS + 1))
    # one less than the solstice year where the number is 11 or 12, leap or not
    assert c.civil_year == [year - (number in (11, 12)) for year, number in zip(c.solstice_year, c.number)]
    assert sum(c.length(n) for n in range(MONTHS) if c.civil_year[n] != c.solstice_year[n]) == 2487240
    # of a solstice year 11, 12, 1 to 10 in order; 13 months exactly at a leap remainder of 12 or more
    for year, months in c.months_of_solstice.items():
        assert borne(n for n in months if not c.leap[n]) == from_solstice
        assert len(months) == (13 if 235 * (year - 1) % 19 >= 12 else 12)
    # of a civil year 1 to 12 in order, a leap month after its namesake; the first month and how many by the leap remainder of the
    # solstice year of the same number
    for year in range(1, YEARS):
        months, (whole, rest) = c.months_of_civil[year], divmod(235 * (year - 1), 19)
        leap = [n for n in months if c.leap[n]]
        assert borne(n for n in months if n not in leap) == twelve and all(c.number[n] == c.number[n - 1] for n in leap)
        assert months[0] == whole + (3 if rest == 18 else 2) and len(months) == (13 if 11 <= rest <= 17 else 12)
    # the two years that are not whole
    assert c.months_of_civil[0] == [0, 1] and borne([0, 1]) == ["11", "12"] and year_name(0) == 16
    assert c.months_of_civil[YEARS] == list(range(507589, 507600)) and borne(c.months_of_civil[YEARS]) == [*twelve[:10], "L10"]
    # the years that the request names, and a leap month 11
    assert c.months_of_civil[8] == list(range(88, 101)) and c.months_of_civil[11] == list(range(125, 138))
    assert c.by_name[27, 11, True] == 334


def hold_places(c):
    """It stops where the paper's sentence on a place, or one of request W8, does not hold of the walked months."""
    # from the elapsed years: three ji of 1,520 years make a yuan of 4,560, twenty bu of 76 years make a ji
    for year, place in zip(c.solstice_year, c.place):
        elapsed = year - 1
        assert place == (elapsed % 4560 // 1520 + 1, elapsed % 1520 // 76 + 1, elapsed % 76 + 1)
    # 27,759 days keep the year in the bu; the bu goes one on, round twenty, and the ji, round three, when the bu passes from 20 to 1
    for n in range(MONTHS - 940):
        ji, bu, year_in_bu = c.place[n]
        assert c.starts[n + 940] == c.starts[n] + 27759
        assert c.place[n + 940] == (ji % 3 + 1 if bu == 20 else ji, bu % 20 + 1, year_in_bu)
    # the eclipse mark is excepted; it is kept over 749,493 days
    assert is_eclipse(939) and not is_eclipse(939 + 940)
    for n in range(MONTHS - 25380):
        assert c.starts[n + 25380] == c.starts[n] + 749493 and is_eclipse(n + 25380) == is_eclipse(n)


def pair_starts():
    """The months with which a big pair starts, as the clerk walks them, 29 days and 499 parts a month, to 940 after the range.

    It stops where a sentence of request W12 does not hold of them."""
    months, rest, rests, big = MONTHS + 940, 0, [], []
    for _ in range(months + 2):
        rests.append(rest)
        rest += 499
        big.append(rest >= 940)
        rest -= 940 * big[-1]
    starts = [n for n in range(months) if big[n] and big[n + 1]]
    assert all(big[n] or big[n + 1] for n in range(months))
    assert not any(big[n] and big[n + 1] and big[n + 2] for n in range(months))
    assert starts == [n for n in range(months) if rests[n] >= 882]
    assert {after - before for before, after in zip(starts, starts[1:])} == {15, 17}
    in_940 = {bisect.bisect_left(starts, n + 940) - bisect.bisect_left(starts, n) for n in range(MONTHS)}
    assert in_940 == {58}
    return starts


def term(y, k):
    """Day and parts of 32 of a solstice year's term, as the clerk walks to it: four years are 1,461 days, a term 15 days, 7 parts."""
    quarters = 1461 * (y - 1)
    day, parts = quarters // 4, 8 * (quarters % 4)
    for _ in range(k):
        parts += 7
        day += 15 + parts // 32
        parts %= 32
    return day, parts


def name(count, first):
    """The name so many days or years after the first one's: round sixty."""
    return (first - 1 + count) % 60 + 1


def day_name(day):
    """Day 0 has name 1."""
    return name(day, 1)


def year_name(year):
    """Year 1 has name 17; year 0 comes before it."""
    return name(year - 1, 17)


def mark(leap):
    return "L" if leap else "-"


def is_eclipse(n):
    """Whether a month is an eclipse month."""
    return 23 * (n + 1) % 135 < 23


def eclipse_mark(eclipse):
    return "E" if eclipse else "-"


# The planets. "004 gives conjunctions per years": planet, conjunctions, years.

PLANETS = {1: (4327, 4725), 2: (879, 1876), 3: (9096, 9415), 4: (5830, 4661), 5: (11908, 1889)}


def phase(p, k):
    """Of Venus and Mercury: an odd count is a morning conjunction, M, an even one an evening one, E."""
    if p < 4:
        return "-"
    return "M" if k % 2 == 1 else "E"


def kth(p, k):
    """Day, parts, divisor and phase of a planet's k-th conjunction, in range or not."""
    conjunctions, years = PLANETS[p]
    return *divmod(k * years * 1461, 4 * conjunctions), 4 * conjunctions, phase(p, k)


def conjunction(p, k):
    """The same, or the reason's number."""
    if p not in PLANETS:
        return 19
    return kth(p, k) if kth(p, k)[0] < DAYS else 6


def next_conjunction(p, day):
    """The count and the conjunction that comes first on or after the day, looked for among the counts, or the reason's number."""
    if p not in PLANETS:
        return 19
    if not day < DAYS:
        return 6
    k = bisect.bisect_left(range(DAYS), day, key=lambda j: kth(p, j)[0])
    assert kth(p, k)[0] >= day and (k == 0 or kth(p, k - 1)[0] < day)
    return (k, *kth(p, k)) if kth(p, k)[0] < DAYS else 20


def pair(p):
    """Years and conjunctions, or the reason's number."""
    return PLANETS[p][::-1] if p in PLANETS else 19


def last_count(p):
    """The count of a planet's last conjunction in range."""
    return bisect.bisect_left(range(DAYS), DAYS, key=lambda k: kth(p, k)[0]) - 1


def common_divisor(a, b):
    """The largest number that divides both, looked for among all that divide the second."""
    low = [d for d in range(1, math.isqrt(b) + 1) if b % d == 0]
    return max(d for d in low + [b // d for d in low] if a % d == 0)


# The sheet: civil years, months, days. Of each section: an item's bytes, its least and greatest, the reason of one outside.

SECTIONS = ((2, 0, YEARS, 1), (4, 0, MONTHS - 1, 7), (4, 0, DAYS - 1, 6))


def take_number(data, at, width):
    """The number of so many bytes at a place, least byte first; None where they are not all there."""
    if at + width > len(data):
        return None
    return sum(data[at + i] << (8 * i) for i in range(width))


def read_sections(data):
    """Where the three sections end and their lists, or the reason's number: in byte order."""
    at, lists = 0, []
    for width, least, most, reason in SECTIONS:
        count = take_number(data, at, 2)
        if count is None:
            return 9
        if count > 1000:
            return 10
        at += 2
        items = []
        for _ in range(count):
            item = take_number(data, at, width)
            if item is None:
                return 9
            if not least <= item <= most:
                return reason
            items.append(item)
            at += width
        lists.append(items)
    return at, lists


def read_sheet(data, rooms):
    """The three lists, or the reason's number: in byte order, then 11, then 12."""
    read = read_sections(data)
    if isinstance(read, int):
        return read
    at, lists = read
    if at < len(data):
        return 11
    if any(len(items) > room for items, room in zip(lists, rooms)):
        return 12
    return lists


def write_sheet(lists, room):
    """The bytes, or the reason's number."""
    out = b""
    for items, (width, least, most, reason) in zip(lists, SECTIONS):
        if len(items) > 1000:
            return 10
        for item in items:
            if not least <= item <= most:
                return reason
        out += len(items).to_bytes(2, "little") + b"".join(item.to_bytes(width, "little") for item in items)
    return 12 if len(out) > room else out


# The desk: what its lines look like. A number, a mark, a signed number; a field and a mark of a reading.

N = rb"(0|[1-9][0-9]*)"
M = rb"([-L])"
S = rb"(0|-?[1-9][0-9]*)"
F = rb"(0|[1-9][0-9]*|\?)"
G = rb"([-L?])"
FORMS = {
    "PLACE": [N],
    "YEAR": [N],
    "MONTH": [N],
    "QUARTER": [N, N],
    "TERM": [N, N],
    "CONJUNCTION": [N, N],
    "NEXT": [N, N],
    "PAIR": [N],
    "DAY": [N],
    "DATE": [N, N, M, N],
    "MOVE": [N, N, M, N, S],
    "SEARCH": [F, F, G, F, F, F, N, N],
    "EMEND": [F, F, G, F, F, F, N, N],
    "CLERK": [N, N],
    "FIGURES": [N, N],
}
FORMS = {word: re.compile(b" ".join([word.encode(), *fields])) for word, fields in FORMS.items()}
MARKS = {b"-": 1, b"L": 2, b"?": None}
LONGEST = 200


def is_note(line):
    return line.startswith(b"#") and len(line) <= LONGEST


def lines_in(data):
    """The lines of an input, each without its newline; a final line without a newline counts."""
    lines = data.split(b"\n")
    return lines[:-1] if lines[-1] == b"" else lines


def planet_line(word, answer):
    """A planet's answer: its fields, or its refusal."""
    return refused(answer) if isinstance(answer, int) else " ".join([word, *map(str, answer)])


def emendation_line(day, field, read, should_be):
    """A proposal: of field 3, the leap mark, the two are marks."""
    shown = (mark(read == 2), mark(should_be == 2)) if field == 3 else (read, should_be)
    return "EMENDATION %d %d %s %s" % (day, field, *shown)


# A date record. Its year is the civil one; ji, bu and year in bu are the place of the solstice year that its month lies in.
Date = collections.namedtuple("Date", "year number leap day_of_month month_length day_name year_name ji bu year_in_bu eclipse")


class Desk:
    """The desk over the walked calendar. Each query has a method, which gives the lines of its answer."""

    def __init__(self):
        self.c = Calendar()

    # What a day is, and what a date is.

    def record(self, day):
        """A day's date record."""
        c, n = self.c, self.c.month_of(day)
        y, day_of_month = c.civil_year[n], day - c.starts[n] + 1
        names = (day_name(day), year_name(y))
        return Date(y, c.number[n], c.leap[n], day_of_month, c.length(n), *names, *c.place[n], is_eclipse(n))

    def six(self, day):
        """A day's six values, in the paper's order."""
        d = self.record(day)
        return (d.year_name, d.number, 2 if d.leap else 1, d.day_of_month, d.day_name, day_name(day - d.day_of_month + 1))

    def find(self, y, k, l, m):
        """The day of a date of a civil year, or the reason's number as a negative."""
        if not 0 <= y <= YEARS:
            return -1
        if not 1 <= k <= 12:
            return -2
        if not 1 <= m <= 30:
            return -3
        if all(self.c.number[n] != k for n in self.c.months_of_civil[y]):
            assert y == 0 and k <= 10 or y == YEARS and k >= 11
            return -16
        if (y, k, l) not in self.c.by_name:
            assert l
            return -4
        n = self.c.by_name[(y, k, l)]
        if m > self.c.length(n):
            return -5
        return self.c.starts[n] + m - 1

    def unsound(self, reading, first, last):
        """The reason's number for which a window, or else a reading, is refused; None where both are sound."""
        if not (first < DAYS and last < DAYS):
            return 6
        if last < first or last - first + 1 > 27759:
            return 13
        if any(f is not None and not 1 <= f <= most for f, most in zip(reading, (60, 12, 2, 30, 60, 60))):
            return 14
        return None

    def fitting(self, reading, first, last):
        """The days of a window that fit a reading of six values, None being unread."""
        return [d for d in range(first, last + 1) if all(f is None or f == v for f, v in zip(reading, self.six(d)))]

    def emendations(self, reading, first, last):
        """Of each day of a window that disagrees with exactly one known field: day, field 1 to 6, what was read, what it should be."""
        found = []
        for day in range(first, last + 1):
            faults = [(field, f, v) for field, (f, v) in enumerate(zip(reading, self.six(day)), 1) if f not in (None, v)]
            if len(faults) == 1:
                found.append((day, *faults[0]))
        return found

    # The queries.

    def place(self, y):
        """A solstice year's place."""
        if not 1 <= y <= YEARS:
            return [refused(1)]
        months = self.c.months_of_solstice[y]
        ji, bu, year_in_bu = self.c.place[months[0]]
        head_year = y - (year_in_bu - 1)
        head = day_name(self.c.starts[self.c.months_of_solstice[head_year][0]])
        return [f"PLACE {ji} {bu} {year_in_bu} {head} {months[0]} {235 * (y - 1) % 19} {len(months)}"]

    def year(self, y):
        """A civil year's own facts."""
        if not 0 <= y <= YEARS:
            return [refused(1)]
        months = self.c.months_of_civil[y]
        leap = ([f"{self.c.number[n]} {n}" for n in months if self.c.leap[n]] + ["- -"])[0]
        return [f"YEAR {y} NAME {year_name(y)} MONTHS {len(months)} FIRST {months[0]} LEAP {leap}"]

    def month(self, n):
        if not 0 <= n < MONTHS:
            return [refused(7)]
        return [f"MONTH {month_fields(self, n)} {self.c.starts[n]} {self.c.small_remainder(n)}"]

    def clerk(self, bu, steps):
        """So many months on from a bu's head: each bu of 76 solstice years begins with the month of its first one."""
        if not 1 <= bu <= YEARS // 76:
            return [refused(21)]
        n = self.c.months_of_solstice[76 * (bu - 1) + 1][0] + steps
        return [self.month(n)[0].replace("MONTH", "CLERK")]

    def quarter(self, n, q):
        if not 0 <= n < MONTHS:
            return [refused(7)]
        return [refused(15) if q > 3 else "QUARTER %d %d" % divmod(27759 * (4 * n + q), 3760)]

    def term(self, y, k):
        """A solstice year's term."""
        if not 1 <= y <= YEARS:
            return [refused(1)]
        return [refused(15) if k > 23 else "TERM %d %d" % term(y, k)]

    def conjunction(self, p, k):
        return [planet_line("CONJUNCTION", conjunction(p, k))]

    def next(self, p, day):
        return [planet_line("NEXT", next_conjunction(p, day))]

    def pair(self, p):
        return [planet_line("PAIR", pair(p))]

    def day(self, day):
        """The listing's line, and what the listing does not say."""
        if not 0 <= day < DAYS:
            return [refused(6)]
        d = self.record(day)
        place = f"{d.ji} {d.bu} {d.year_in_bu}"
        return [f"{listed_day(self, day)} {d.month_length} {d.year_name} {place} {eclipse_mark(d.eclipse)}"]

    def date(self, y, k, l, m, n=0):
        """A date, or a date moved by n days."""
        found = self.find(y, k, l, m)
        if found < 0:
            return [refused(-found)]
        return self.day(found + n) if 0 <= found + n < DAYS else [refused(8)]

    def search(self, reading, first, last):
        reason = self.unsound(reading, first, last)
        if reason:
            return [refused(reason)]
        days = self.fitting(reading, first, last)
        return [f"FOUND {len(days)}"] + [line for d in days for line in self.day(d)]

    def emend(self, reading, first, last):
        """How many days fit; where none does, the days that disagree with one known field alone."""
        reason = self.unsound(reading, first, last)
        if reason:
            return [refused(reason)]
        fit = len(self.fitting(reading, first, last))
        if fit > 0:
            return [f"FITS {fit}"]
        found = self.emendations(reading, first, last)
        return [f"EMENDED {len(found)}"] + [emendation_line(*one) for one in found]

    def figures(self, first, last):
        """The yearbook's figures of a range of civil years, each of its months and days walked."""
        if not (1 <= first < YEARS and 1 <= last < YEARS):
            return [refused(1)]
        if last < first:
            return [refused(13)]
        c, leaps, names = self.c, [0] * 12, [0] * 60
        months = [n for y in range(first, last + 1) for n in c.months_of_civil[y]]
        for n in months:
            leaps[c.number[n] - 1] += c.leap[n]
            for day in range(c.starts[n], c.starts[n + 1]):
                names[day_name(day) - 1] += 1
        big = [n for n in months if c.length(n) == 30]
        four = (len(big), len(months) - len(big), sum(c.length(n + 1) == 30 for n in big), sum(map(is_eclipse, months)))
        return [" ".join([word, *map(str, counts)]) for word, counts in (("FIGURES", four), ("LEAP", leaps), ("NAMES", names))]

    # A line, which is bytes without its newline.

    def told(self, line):
        """The lines that answer a line that is no note."""
        for word, form in FORMS.items():
            found = form.fullmatch(line)
            if found and len(line) <= LONGEST:
                return self.asked(word, found.groups())
        return ["UNREADABLE"]

    def asked(self, word, fields):
        if word in ("SEARCH", "EMEND"):
            reading = [MARKS[f] if i == 2 else None if f == b"?" else int(f) for i, f in enumerate(fields[:6])]
            return getattr(self, word.lower())(reading, int(fields[6]), int(fields[7]))
        values = [f == b"L" if f in (b"-", b"L") else int(f) for f in fields]
        return getattr(self, {"MOVE": "date"}.get(word, word.lower()))(*values)

    def answer(self, line):
        """What the desk prints for a line."""
        if is_note(line):
            return line + b"\n"
        return "".join(told + "\n" for told in self.told(line)).encode()

    def echo(self, line):
        """What echo prints for a line: a note once, any other line, up to 201 bytes of it, and its answer."""
        return self.answer(line) if is_note(line) else line[:LONGEST + 1] + b"\n" + self.answer(line)


# The listing's lines.


def month_fields(desk, n):
    """The six fields of a month's line."""
    c = desk.c
    return f"{n} {c.number[n]} {mark(c.leap[n])} {day_name(c.starts[n])} {c.length(n)} {eclipse_mark(is_eclipse(n))}"


def year_block(desk, y):
    """A civil year's header and its months' lines."""
    months = desk.c.months_of_civil[y]
    return [f"YEAR {y} NAME {year_name(y)} MONTHS {len(months)}"] + [month_fields(desk, n) for n in months]


def listed_day(desk, day):
    """A day's line in a listing, with its civil year."""
    d = desk.record(day)
    return f"DAY {day} {d.year} {d.number} {mark(d.leap)} {d.day_of_month} {d.day_name}"


# The files of a tool.


def hold(files):
    """Write the files, or with --check say of each program whether its files stand as computed. The exit status."""
    if "--check" not in sys.argv[1:]:
        for path, data in files.items():
            path.parent.mkdir(exist_ok=True)
            path.write_bytes(data)
        return 0
    wrong = {path for path, data in files.items() if not (path.exists() and path.read_bytes() == data)}
    for program in dict.fromkeys(path.relative_to(ROOT).parts[1] for path in files):
        strange = sorted(str(path.relative_to(ROOT)) for path in wrong if path.relative_to(ROOT).parts[1] == program)
        print(f"{program}: {'as computed' if not strange else 'NOT as computed: ' + ', '.join(strange)}")
    return 1 if wrong else 0
