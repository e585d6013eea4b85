#!/usr/bin/env python3
"""The lines of the programs `desk` and `echo`, and what each must write: the answers of tools/walked.py, which walks the months
from the origin and shares nothing with the library.

The desk's first lines are worked by hand from the issue's and the paper's own figures, edges and wrong lines; then come lines drawn
by a generator with a fixed seed, sound and damaged, enough to pass the 65,536 bytes that the program reads at a time. After these
stand the notes and the pairs, by hand and drawn by a second generator; then days about the turns of civil years and dates of the
years at both ends, drawn by a third; then days about the heads of bu and the turns of eclipse months, drawn by a fourth; then the
misread slips, by hand and drawn by a fifth; then the clerk's walks, by hand and drawn by a sixth; then the yearbook's figures, by hand and
drawn by a seventh: so no line before them changes. The last line has no newline. The lines of `echo` are a short page that tries what it
does with notes, queries and lines of any length.

usage: tools/desk.py            write stdin and stdout of crates/desk and crates/echo
       tools/desk.py --check    say whether what stands is what it computes (exit status 1 if not)
       tools/desk.py --answer   answer the lines of standard input as the desk does
       tools/desk.py --echo     the same as echo does
"""
import random
import re
import sys

sys.dont_write_bytecode = True

from walked import DAYS, MONTHS, ROOT, YEARS, Desk, hold, is_eclipse, last_count, lines_in, mark

# the words of the drawn lines that keep their bytes: a new query has a list of its own
OLD_WORDS = "PLACE YEAR MONTH QUARTER TERM CONJUNCTION NEXT DAY DATE MOVE SEARCH".split()
WORDS_WITH_PAIR = "PLACE YEAR MONTH QUARTER TERM CONJUNCTION NEXT PAIR DAY DATE MOVE SEARCH".split()
WORKED = """PLACE 11
PLACE 9366
PLACE 1
PLACE 41040
PLACE 0
PLACE 41041
PLACE 4294967297
YEAR 11
YEAR 12
YEAR 9366
YEAR 1
YEAR 41040
YEAR 0
YEAR 99999999999
MONTH 134
MONTH 123
MONTH 0
MONTH 507599
MONTH 507600
MONTH 4294967296
QUARTER 115830 2
QUARTER 0 0
QUARTER 507599 3
QUARTER 507599 4
QUARTER 507600 4
QUARTER 0 4294967296
TERM 9366 0
TERM 1 23
TERM 41040 23
TERM 5 24
TERM 5 300
TERM 0 300
TERM 41041 0
CONJUNCTION 1 1
CONJUNCTION 2 1
CONJUNCTION 3 1
CONJUNCTION 4 1
CONJUNCTION 5 1
CONJUNCTION 1 0
CONJUNCTION 2 0
CONJUNCTION 3 0
CONJUNCTION 4 0
CONJUNCTION 5 0
CONJUNCTION 4 2
CONJUNCTION 5 2
CONJUNCTION 4 11826
CONJUNCTION 1 37583
CONJUNCTION 1 37584
CONJUNCTION 2 19229
CONJUNCTION 2 19230
CONJUNCTION 3 39649
CONJUNCTION 3 39650
CONJUNCTION 4 51333
CONJUNCTION 4 51334
CONJUNCTION 5 258710
CONJUNCTION 5 258711
CONJUNCTION 3 1341063005370
CONJUNCTION 0 0
CONJUNCTION 6 1
CONJUNCTION 6 37584
CONJUNCTION 1 4294967295
CONJUNCTION 1 4294967296
CONJUNCTION 5 4294967296
CONJUNCTION 4294967296 1
CONJUNCTION 4294967296 4294967296
CONJUNCTION 1 18446744073709551616
CONJUNCTION 5 18446744073709551616
CONJUNCTION 18446744073709551616 1
CONJUNCTION 18446744073709551616 18446744073709551616
CONJUNCTION 1 18446744073709551617
CONJUNCTION 5 18446744073709551617
CONJUNCTION 18446744073709551617 1
CONJUNCTION 18446744073709551617 18446744073709551617
CONJUNCTION 1 1234567890123456789012345678901234567890
CONJUNCTION 5 1234567890123456789012345678901234567890
CONJUNCTION 1234567890123456789012345678901234567890 1
CONJUNCTION 1234567890123456789012345678901234567890 1234567890123456789012345678901234567890
NEXT 1 0
NEXT 2 0
NEXT 3 0
NEXT 4 0
NEXT 5 0
NEXT 1 1
NEXT 2 1
NEXT 3 1
NEXT 4 1
NEXT 5 1
NEXT 1 398
NEXT 1 399
NEXT 2 779
NEXT 2 780
NEXT 3 378
NEXT 3 379
NEXT 4 292
NEXT 4 293
NEXT 5 57
NEXT 5 58
NEXT 4 3453334
NEXT 1 3420558
NEXT 1 14989825
NEXT 1 14989826
NEXT 1 14989859
NEXT 1 14989860
NEXT 2 14989628
NEXT 2 14989629
NEXT 2 14989859
NEXT 2 14989860
NEXT 3 14989679
NEXT 3 14989680
NEXT 3 14989859
NEXT 3 14989860
NEXT 4 14989854
NEXT 4 14989855
NEXT 4 14989859
NEXT 4 14989860
NEXT 5 14989825
NEXT 5 14989826
NEXT 5 14989859
NEXT 5 14989860
NEXT 0 0
NEXT 6 14989859
NEXT 6 14989860
NEXT 1 4294967295
NEXT 1 4294967296
NEXT 5 4294967296
NEXT 4294967296 0
NEXT 4294967296 4294967296
NEXT 1 18446744073709551616
NEXT 5 18446744073709551616
NEXT 18446744073709551616 0
NEXT 18446744073709551616 18446744073709551616
NEXT 1 18446744073709551617
NEXT 5 18446744073709551617
NEXT 18446744073709551617 0
NEXT 18446744073709551617 18446744073709551617
NEXT 1 1234567890123456789012345678901234567890
NEXT 5 1234567890123456789012345678901234567890
NEXT 1234567890123456789012345678901234567890 0
NEXT 1234567890123456789012345678901234567890 1234567890123456789012345678901234567890
DAY 0
DAY 3420558
DAY 14989859
DAY 14989860
DAY 99999999999
DATE 9365 11 - 1
DATE 11 9 L 29
DATE 11 9 L 30
DATE 11 9 - 30
DATE 11 8 L 1
DATE 0 11 - 1
DATE 41040 10 - 30
DATE 0 13 L 31
DATE 5 300 - 1
DATE 5 0 - 31
DATE 5 1 - 31
DATE 5 1 - 0
DATE 5 1 L 4294967297
MOVE 0 11 - 1 0
MOVE 0 11 - 1 27759
MOVE 0 11 - 1 -1
MOVE 0 11 - 1 14989859
MOVE 0 11 - 1 14989860
MOVE 11 9 L 29 -5
MOVE 11 9 L 29 -3985
MOVE 11 9 L 29 -3986
MOVE 11 9 L 30 5
MOVE 11 9 L 29 9223372036854775807
MOVE 11 9 L 29 -9223372036854775808
MOVE 11 9 L 29 18446744073709551616
MOVE 11 9 L 29 -18446744073709551617
MOVE 0 9 L 29 99999999999999999999999
SEARCH 27 9 L 1 ? 58 0 27758
SEARCH ? ? ? ? ? ? 3800 3803
SEARCH ? 5 - 30 ? ? 3600 4400
SEARCH ? ? ? ? ? 999 0 5
SEARCH ? ? ? ? ? 0 0 5
SEARCH 61 13 - 31 61 61 0 5
SEARCH 4294967297 ? ? ? ? ? 0 5
SEARCH 1 ? ? 31 ? ? 5 4
SEARCH ? ? L ? ? 1 0 27758
SEARCH 0 ? ? ? ? ? 0 27759
SEARCH 0 ? ? ? ? ? 14989860 0
SEARCH ? ? ? ? ? ? 0 4294967296
SEARCH ? 9 L ? ? ? 14962101 14989859
SEARCH ? ? ? 29 60 60 14962101 14989859
"""
WRONG = [
    "", "year 11", "YEAR", "YEAR ", "YEAR 11 12", "YEAR  11", " YEAR 11", "YEAR 11 ", "YEAR 011", "YEAR 00", "YEAR -11",
    "YEAR +11", "YEAR 1,000", "YEAR ?", "YEARS 11", "YEAR\t11", "YEAR 11\r", "DAY 1.5", "DAY 0x10", "DATE 5 3 ? 1",
    "DATE 5 3 l 1", "DATE 5 3 LL 1", "DATE 5 3 1", "DATE 5 -3 - 1", "MOVE 1 11 - 1 -0", "MOVE 1 11 - 1 --1",
    "MOVE 1 11 - 1 -", "MOVE 1 11 - 1 - 1", "MOVE 1 11 - 1 -01", "MOVE 1 11 - 1 ?", "MOVE 1 11 - 1", "SEARCH ? ? ? ? ? ? 0",
    "SEARCH ? ? ? ? ? ? 0 5 6", "SEARCH ? ? ? ? ? ? ? 5", "SEARCH ? ? 1 ? ? ? 0 5", "SEARCH ? - ? ? ? ? 0 5",
    "SEARCH ?? ? ? ? ? ? 0 5", "SEARCH - ? ? ? ? ? 0 5", "FOUND 3", "UNREADABLE", "QUARTER 1", "TERM 1", "PLACE", "?", "-",
    "L", "0", "CONJUNCTION", "CONJUNCTION 1", "CONJUNCTION 1 1 1", "CONJUNCTION 01 1", "CONJUNCTION 1 01", "CONJUNCTION 1 -1",
    "CONJUNCTION -1 1", "CONJUNCTION 1 ?", "CONJUNCTION 1 -", "CONJUNCTIONS 1 1", "Conjunction 1 1", "CONJUNCTION  1 1",
    "CONJUNCTION 1 1 ", "CONJUNCTION 1 1\r", "CONJUNCTION 398 14641 17308 -", "NEXT", "NEXT 1", "NEXT 1 1 1", "NEXT 01 1", "NEXT 1 00",
    "NEXT 1 -1", "NEXT -1 1", "NEXT ? 1", "NEXT L 1", "NEX 1 1", "NEXTS 1 1", "next 1 1", " NEXT 1 1", "NEXT 1 1 M",
]


def long_lines():
    """At most 200 bytes, and more; a number of so many digits is refused by its own reason."""
    return [b"YEAR " + b"9" * 195, b"YEAR " + b"9" * 196, b"MOVE 0 11 - 1 -" + b"9" * 185, b"MOVE 0 11 - 1 -" + b"9" * 186,
            b"SEARCH" + b" ?" * 97, b"x" * 200, b"x" * 201, b"YEAR 11" + b" " * 500, b"\xff\x00" * 400]


def asked_by(date):
    """The four things that a date is asked for by."""
    return f"{date.year} {date.number} {mark(date.leap)} {date.day_of_month}"


def drawn(desk, draw, words):
    """A query of one of these words, or a note, its fields near the true ones or near the edges."""
    def near(most):
        return draw.choice((draw.randint(0, most), draw.randint(0, most), draw.randint(0, 3), draw.randint(most - 1, most + 2),
                            draw.randint(0, 2 ** 40)))

    word = draw.choice(words)
    if word == "#":
        size = draw.choice((0, 1, 7, 40, 197, 198, 199, 200, 201, 300))
        return "#" + "".join(draw.choice(" #abcXYZ0123-?") for _ in range(size))
    if word == "PAIR":
        return f"PAIR {draw.choice((1, 2, 3, 4, 5, near(5)))}"
    day = draw.randrange(DAYS)
    date = asked_by(desk.record(day))
    if draw.random() >= 0.8:
        date = f"{near(YEARS)} {draw.randint(0, 13)} {draw.choice('-L')} {draw.randint(0, 31)}"
    if word in ("PLACE", "YEAR"):
        return f"{word} {near(YEARS)}"
    if word == "MONTH":
        return f"MONTH {near(MONTHS)}"
    if word == "QUARTER":
        return f"QUARTER {near(MONTHS)} {draw.randint(0, 4)}"
    if word == "TERM":
        return f"TERM {near(YEARS)} {draw.randint(0, 24)}"
    if word in ("CONJUNCTION", "NEXT"):
        planet = draw.choice((1, 2, 3, 4, 5, 1, 2, 3, 4, 5, near(5)))
        return f"{word} {planet} {near(DAYS if word == 'NEXT' else last_count(max(1, min(planet, 5))) + 1)}"
    if word == "DAY":
        return f"DAY {near(DAYS)}"
    if word == "DATE":
        return f"DATE {date}"
    if word == "MOVE":
        sign = draw.choice((1, -1))
        return f"MOVE {date} {sign * draw.choice((draw.randint(1, 400), draw.randint(1, 2 ** 24), draw.randint(1, 2 ** 70)))}"
    first = max(0, day - draw.randint(0, 400))
    six = desk.six(day)
    fields = ["?" if draw.random() < 0.4 else "-L"[v - 1] if i == 2 else str(v if draw.random() < 0.95 else v + draw.randint(0, 40))
              for i, v in enumerate(six)]
    return "SEARCH " + " ".join(fields) + f" {first} {first + draw.randint(-1, 800)}"


def damaged(line, draw):
    at = draw.randrange(len(line))
    return draw.choice((line[:at] + line[at + 1:], line[:at] + draw.choice(" -?L0xY\r") + line[at:], line.replace(" ", "  ", 1),
                        line + " ", line[:at] + line[at:].lower()))


def queries(desk):
    draw = random.Random(20261115)
    lines = [line.encode() for line in WORKED.splitlines() + WRONG] + long_lines()
    while sum(len(line) + 1 for line in lines) < 80000:
        line = drawn(desk, draw, OLD_WORDS)
        if len(lines) % 5 == 0:
            line = damaged(line, draw)
        if len(desk.told(line.encode())) <= 30:
            lines.append(line.encode())
    return lines


# The notes and the pairs: the lines that came after those above, which keep their bytes and their order.

NOTES = [
    "#", "# a note", "#YEAR 11", " # not a note", "##", "# 木周率四千三百二十七, a note of more bytes than letters", "#\t\r",
    "YEAR 11 # not a note", "YEAR 11#", "# UNREADABLE", "# REFUSED 1 year outside its range", "?#", "", "# after an empty line",
]
PAIRS = [f"PAIR {p}" for p in (1, 2, 3, 4, 5, 0, 6, 10, 257, 261, 2**32 - 1, 2**32, 2**32 + 1, 2**64, 2**64 + 5, 10**40 + 3)]
WRONG_PAIRS = [
    "PAIR", "PAIR ", "PAIR 1 2", "PAIR 01", "PAIR 00", "PAIR -1", "PAIR -", "PAIR L", "PAIR ?", "PAIR 1 ", "PAIR  1", " PAIR 1",
    "PAIR\t1", "PAIR 1\r", "PAIR 1#", "PAIRS 1", "PAI 1", "pair 1", "Pair 1", "PAIR 4725 4327", "PAIR1",
]


def long_notes():
    """At most 200 bytes, which is a note, and more; a letter of three bytes may end at the 200th, or be cut there."""
    return [b"#" + b"n" * 199, b"#" + b"n" * 200, b"#" + b" " * 500, b"#" * 200, b"#" * 201, b"# " + "木".encode() * 66,
            b"# n" + "木".encode() * 66, b"#" + b"\xff\x00" * 99, b"#\xff\xfe\x00", b"PAIR " + b"9" * 195, b"PAIR " + b"9" * 196,
            b"PAIR 1" + b" " * 300]


def added(desk):
    draw = random.Random(20261116)
    lines = [line.encode() for line in NOTES + PAIRS + WRONG_PAIRS] + long_notes()
    words = [*WORDS_WITH_PAIR, "PAIR", "PAIR", "#", "#", "#"]
    for turn in range(300):
        line = drawn(desk, draw, words)
        while len(desk.told(line.encode())) > 30:
            line = drawn(desk, draw, words)
        lines.append((damaged(line, draw) if turn % 5 == 0 else line).encode())
    return lines


# The civil year: the days about its turns, and the dates of the years at both ends, which are there or not.


def turns(desk):
    draw, lines = random.Random(20261117), []
    for _ in range(200):
        first = desk.c.starts[desk.c.months_of_civil[draw.randint(1, YEARS)][0]]
        day = max(0, first + draw.randint(-65, 35))
        record = desk.record(day)
        date = asked_by(record)
        lines.append(draw.choice((f"DAY {day}", f"DATE {date}", f"MOVE {date} {draw.randint(-90, 90)}", f"YEAR {record.year}",
                                  f"SEARCH {record.year_name} ? ? ? ? ? {max(0, day - 3)} {day + 3}")))
        year = draw.choice((0, 0, 1, YEARS - 1, YEARS, YEARS, YEARS + 1))
        date = f"{year} {draw.randint(0, 13)} {draw.choice('-L')} {draw.choice((0, 1, 15, 29, 30, 31))}"
        lines.append(draw.choice((f"DATE {date}", f"MOVE {date} {draw.randint(-400, 400)}")))
    return [line.encode() for line in lines]


# The place and the eclipse mark of a date: the days about the heads of bu, those of ji and yuan often among them, and about the turns
# of eclipse months; moves of days that keep the year in the bu, and of days that keep the eclipse mark too.


def places(desk):
    draw, starts, lines = random.Random(20261118), desk.c.starts, []
    eclipses = [n for n in range(MONTHS) if is_eclipse(n)]
    for _ in range(100):
        bu, n = draw.choice((draw.randrange(540), 20 * draw.randrange(27), 60 * draw.randrange(9))), draw.choice(eclipses)
        head = starts[desk.c.months_of_solstice[76 * bu + 1][0]] + draw.randint(-65, 65)
        turn = starts[n + draw.randint(0, 1)] + draw.randint(-1, 0)
        for day in (min(max(0, day), DAYS - 1) for day in (head, turn)):
            date, days = asked_by(desk.record(day)), draw.choice((1, -1)) * draw.choice((27759, 20 * 27759, 749493))
            lines.append(draw.choice((f"DAY {day}", f"DATE {date}", f"MOVE {date} {days}", f"MOVE {date} {days}",
                                      f"SEARCH ? ? ? ? ? ? {max(0, day - 2)} {min(day + 2, DAYS - 1)}")))
    return [line.encode() for line in lines]


# The misread slips.

SLIPS = """# the day name misread, of the second of the sixth month of year 9,376; a day fits; two faults only; all unread
SEARCH 32 6 - 2 19 48 3420617 3448375
EMEND 32 6 - 2 19 48 3420617 3448375
EMEND ? 6 - 2 19 48 3420617 3448375
EMEND 32 6 - 2 49 48 3420617 3448375
EMEND ? 6 ? ? 49 48 3420617 3448375
EMEND 31 6 - 2 19 48 3420617 3448375
EMEND 32 6 L 2 20 48 3420617 3448375
EMEND ? ? ? ? ? ? 3420617 3448375
EMEND ? ? ? ? ? ? 0 0
# each of the other fields misread: year name, number, mark, day of month, first name
EMEND 31 6 - 2 49 48 3420617 3448375
EMEND 32 5 - 2 49 48 3420617 3448375
EMEND 32 6 L 2 49 48 3420617 3448375
EMEND 32 6 - 12 49 48 3420617 3448375
EMEND 32 6 - 2 49 18 3420617 3448375
# marks misread, both ways; the mark alone known, and no leap month in the window
EMEND 27 9 - 1 58 58 0 27758
EMEND 27 9 L 1 28 28 0 27758
EMEND 27 9 - 29 ? 58 3600 4000
EMEND ? ? L ? ? ? 0 9
EMEND ? ? - ? ? ? 3957 3966
# one known field, which no day of the window has; days before, of and after the ninth months of year 11
EMEND ? ? ? ? 60 ? 0 58
EMEND ? ? ? ? 60 ? 0 59
EMEND ? ? ? ? ? 60 3950 3960
EMEND 27 9 - 30 57 27 3955 3987
# the last days, and the first
EMEND 16 10 L 30 59 31 14962101 14989859
EMEND 16 10 - 30 60 31 14962101 14989859
EMEND 16 11 - 1 1 2 0 27758
EMEND 17 11 - 1 1 1 0 27758
# refused: 6, 13, 14, and in this order
EMEND ? ? ? ? ? ? 14989859 14989860
EMEND ? ? ? ? ? ? 14989860 14989859
EMEND ? ? ? ? ? ? 5 4
EMEND ? ? ? ? ? ? 0 27759
EMEND 0 ? ? ? ? ? 0 5
EMEND ? 13 ? ? ? ? 0 5
EMEND ? ? ? 31 ? ? 0 5
EMEND ? ? ? ? 61 ? 0 5
EMEND ? ? ? ? ? 0 0 5
EMEND 61 13 L 31 61 61 14989860 5
EMEND 61 13 L 31 61 61 5 4
EMEND 61 13 L 31 61 61 4 5
""".splitlines()
WRONG_SLIPS = [
    "EMEND", "EMEND ", "EMEND ? ? ? ? ? ? 0", "EMEND ? ? ? ? ? ? 0 5 6", "EMEND ? ? ? ? ? ? ? 5", "EMEND ? ? ? ? ? ? 0 ?",
    "EMEND ? ? 1 ? ? ? 0 5", "EMEND ? - ? ? ? ? 0 5", "EMEND ? ? l ? ? ? 0 5", "EMEND ?? ? ? ? ? ? 0 5", "EMEND - ? ? ? ? ? 0 5",
    "EMEND 01 ? ? ? ? ? 0 5", "EMEND ? ? ? ? ? ? 0 05", "EMEND ? ? ? ? ? ? -1 5", "EMEND ? ? ? ? ? -1 0 5", "EMEND  ? ? ? ? ? ? 0 5",
    " EMEND ? ? ? ? ? ? 0 5", "EMEND ? ? ? ? ? ? 0 5 ", "EMEND ? ? ? ? ? ? 0 5\r", "EMENDS ? ? ? ? ? ? 0 5", "EMEN ? ? ? ? ? ? 0 5",
    "emend ? ? ? ? ? ? 0 5", "EMENDED 0", "EMENDED 1", "EMENDATION 0 5 2 1", "FITS 1", "EMEND ? ? ? ? ? ? 0 5#",
]


def large_slips():
    """A number of more than 32 bits in each place; one that, cut down, would be sound."""
    lines = []
    for number in (2**32 + 1, 2**64 + 1, 10**40 + 1):
        for place in (0, 1, 3, 4, 5, 6, 7):
            for sound in ("16 11 - 1 1 1 0 9", "? ? ? ? ? ? 0 9"):
                fields = sound.split()
                fields[place] = str(number)
                lines.append(" ".join(["EMEND", *fields]))
        lines += [f"EMEND {number} ? ? ? ? ? 5 4", f"EMEND {number} ? ? ? ? ? {number} {number}", f"EMEND ? ? ? ? ? ? {number} 0"]
    return lines


def long_slips():
    """At most 200 bytes, and more."""
    return [b"EMEND" + b" ?" * 97, b"EMEND ? ? ? ? ? ? 0 " + b"9" * 180, b"EMEND ? ? ? ? ? ? 0 " + b"9" * 181,
            b"EMEND " + b"9" * 180 + b" ? - ? ? ? 0 5", b"EMEND " + b"9" * 181 + b" ? - ? ? ? 0 5"]


def misread(desk, draw):
    """A reading of a day, often with fields unread, often with one misread, now and then with two or with one outside its range."""
    day = draw.choice((draw.randrange(DAYS), draw.randrange(DAYS), draw.randrange(400), DAYS - 1 - draw.randrange(400)))
    values, most = list(desk.six(day)), (60, 12, 2, 30, 60, 60)
    for place in draw.sample(range(6), draw.choice((0, 1, 1, 1, 1, 2, 2, 3))):
        values[place] = draw.randint(1, most[place]) if place == 2 or draw.random() < 0.96 else draw.choice((0, most[place] + 1))
    unread = draw.choice((0, 0.2, 0.4, 0.6))
    fields = ["?" if draw.random() < unread else "-L"[v - 1] if i == 2 else str(v) for i, v in enumerate(values)]
    first = max(0, day - draw.choice((0, draw.randint(0, 30), draw.randint(0, 900))))
    return "EMEND " + " ".join(fields) + f" {first} {day + draw.choice((0, draw.randint(-1, 30), draw.randint(0, 900)))}"


def slips(desk):
    draw = random.Random(20261119)
    lines = [line.encode() for line in SLIPS + WRONG_SLIPS + large_slips()] + long_slips()
    for turn in range(400):
        line = misread(desk, draw)
        while len(desk.told(line.encode())) > 30:
            line = misread(desk, draw)
        lines.append((damaged(line, draw) if turn % 8 == 0 else line).encode())
    return lines


# The clerk's walks.

WALKS = """# the clerk from the origin: the first months of all, the first eclipse month, the first leap month, two big months in a row
CLERK 1 0
CLERK 1 1
CLERK 1 2
CLERK 1 3
CLERK 1 5
CLERK 1 31
CLERK 1 32
CLERK 1 33
CLERK 1 128
CLERK 1 129
CLERK 1 134
CLERK 1 135
# a whole bu, the next bu's head, the last of them; all months at once
CLERK 1 939
CLERK 1 940
CLERK 2 0
CLERK 124 0
CLERK 124 1
CLERK 124 210
CLERK 540 0
CLERK 540 938
CLERK 540 939
CLERK 1 507598
CLERK 1 507599
# refused: 21, 7, and in this order
CLERK 0 0
CLERK 541 0
CLERK 0 507600
CLERK 541 507600
CLERK 540 940
CLERK 539 1880
CLERK 1 507600
CLERK 1 4294967295
CLERK 1 4294967296
CLERK 4294967297 0
CLERK 4294967297 4294967296
CLERK 18446744073709551617 0
CLERK 1 18446744073709551616
CLERK 541 18446744073709551616
# no walks
CLERK
CLERK 1
CLERK 1 2 3
CLERK 01 2
CLERK 1 02
CLERK -1 2
CLERK 1 -2
CLERK ? 2
CLERK 1 ?
CLERK  1 2
CLERK 1 2 
 CLERK 1 2
CLERKS 1 2
CLER 1 2
clerk 1 2
CLERK 0 11 - 29 1 - 0 0
""".split("\n")[:-1]


def walks(desk):
    draw = random.Random(20261120)
    lines = list(WALKS)
    for turn in range(120):
        bu = draw.choice((draw.randint(1, 540), draw.randint(0, 541), 1, 540))
        line = f"CLERK {bu} {draw.choice((draw.randint(0, 40), draw.randint(0, 940), draw.randint(0, 940 * max(0, 541 - bu) + 1)))}"
        lines.append(damaged(line, draw) if turn % 8 == 0 else line)
    return [line.encode() for line in lines]


# The yearbook's figures.

FIGURES = """# figures of civil years: of the request, of one year, of some, and of all
FIGURES 8 8
FIGURES 11 11
FIGURES 1 1
FIGURES 41039 41039
FIGURES 9368 9460
FIGURES 1 76
FIGURES 40964 41039
FIGURES 1 41039
# a pair across a join
FIGURES 47 47
FIGURES 48 48
FIGURES 47 48
# refused: 1 for either end, then 13
FIGURES 0 8
FIGURES 8 0
FIGURES 0 0
FIGURES 41040 41040
FIGURES 8 41040
FIGURES 41040 8
FIGURES 65544 65544
FIGURES 9 8
FIGURES 41039 1
FIGURES 4294967304 8
FIGURES 8 4294967304
FIGURES 8 18446744073709551624
FIGURES 4294967305 4294967304
""".splitlines()
WRONG_FIGURES = [
    "FIGURES", "FIGURES ", "FIGURES 8", "FIGURES 8 ", "FIGURES 8 8 8", "FIGURES 8 8 ", " FIGURES 8 8", "FIGURES  8 8", "FIGURES 08 8",
    "FIGURES 8 08", "FIGURES -8 8", "FIGURES 8 ?", "FIGURES ? 8", "FIGURES 8 L", "FIGURES 8 8\r", "FIGURE 8 8", "FIGURESS 8 8", "figures 8 8",
    "FIGURES 7 6 1 3", "LEAP 0 0", "NAMES 6 6", "FIGURES 8,8",
]


def any_range(draw):
    """The ends of a range of civil years, mostly of some years, now and then outside or turned round."""
    first = draw.choice((draw.randint(1, YEARS - 1), draw.randint(1, YEARS - 1), draw.randint(0, 3), draw.randint(YEARS - 3, YEARS + 1)))
    return f"FIGURES {first} {max(0, first + draw.choice((0, draw.randint(0, 20), draw.randint(0, 80), -draw.randint(0, 3))))}"


def yearbook():
    draw = random.Random(20261121)
    lines = FIGURES + WRONG_FIGURES
    for turn in range(120):
        line = any_range(draw)
        lines.append(damaged(line, draw) if turn % 8 == 0 else line)
    long = [b"FIGURES 8 " + b"9" * 190, b"FIGURES 8 " + b"9" * 191, b"FIGURES " + b"9" * 190 + b" 8", b"FIGURES " + b"9" * 191 + b" 8"]
    return [line.encode() for line in lines] + long


LAST = [b"# the last line has no newline", b"PAIR 3"]


# The page of `echo`.

ECHO = """# What echo does: a note is printed once; any other line is printed, up to 201 bytes of it, and then its answer.
#
##
# Each kind of query, answered
PLACE 9366
YEAR 11
YEAR 12
MONTH 134
QUARTER 115830 2
TERM 9366 0
CONJUNCTION 4 11826
NEXT 4 3453334
PAIR 4
DAY 3420558
DATE 11 9 L 29
MOVE 0 11 - 1 27759
SEARCH 27 9 ? 1 ? ? 3600 4000
SEARCH 27 9 ? 30 ? ? 3600 3700
EMEND 27 9 ? 1 ? ? 3600 4000
EMEND 27 9 - 29 ? 58 3600 4000
EMEND 27 9 - 30 ? 59 3600 3700
CLERK 1 134
FIGURES 11 11
# and refused
PLACE 0
YEAR 41041
MONTH 507600
QUARTER 0 4
TERM 1 24
CONJUNCTION 1 37584
NEXT 1 14989826
PAIR 6
DAY 14989860
DATE 11 9 L 30
DATE 0 10 - 1
MOVE 0 11 - 1 -1
SEARCH 61 ? ? ? ? ? 0 5
EMEND 61 ? ? ? ? ? 0 5
CLERK 541 0
CLERK 540 940
FIGURES 0 8
FIGURES 9 8
# No queries: a word of the answers, a space before the mark of a note, letters for a number, an empty line, a space, a return
UNREADABLE
 # not a note
YEAR eleven

 
YEAR 11\r
# A note in 004's letters: 木周率四千三百二十七
木周率四千三百二十七
# Lines of 200, 201, 202 and 500 bytes: the first is a number that is refused, the others are cut in what is printed
"""


def echo_lines():
    lines = [line.encode() for line in ECHO.split("\n")[:-1]]
    lines += [b"YEAR " + b"9" * (size - 5) for size in (200, 201, 202, 500)]
    lines += [b"# The same with a note's mark: 200 bytes are a note, more are not"]
    lines += [(b"#" + bytes(range(97, 123)) * 20)[:size] for size in (200, 201, 202, 500)]
    return lines + [b"\xff\x00\xff", b"# The last line has no newline", b"DAY 0"]


def main():
    desk = Desk()
    for word, call in (("--answer", desk.answer), ("--echo", desk.echo)):
        if word in sys.argv[1:]:
            sys.stdout.buffer.write(b"".join(map(call, lines_in(sys.stdin.buffer.read()))))
            return 0
    files = {}
    asked = queries(desk) + added(desk) + turns(desk) + places(desk) + slips(desk) + walks(desk) + yearbook() + LAST
    for program, lines, call in (("desk", asked, desk.answer), ("echo", echo_lines(), desk.echo)):
        files[ROOT / "crates" / program / "stdin"] = b"\n".join(lines)
        files[ROOT / "crates" / program / "stdout"] = b"".join(map(call, lines))
    return hold(files)


if __name__ == "__main__":
    sys.exit(main())
