#!/usr/bin/env python3
"""The page of the program `known`: the paper's known dates and the planets' proved table, as queries, and what must be answered.

PAGE has each case in the paper's own sentence, worked by request W4 where it names a year, which is then told to be a civil or a
solstice one; after the cases, W4's own figures and W8's. After each sentence come the queries that show it, each with the figures
that the sentence gives; `|` parts them, and parts the figures of one line of an answer from those of the next. These figures stand in
the expected answers in their places (tools/pages.py); what the paper does not give is computed by tools/walked.py.

After it comes every row of the proved table of the planets (crates/planets/specs/Table.antt), in its order. The table's own answers
stand in the expected answers, and each is held against what is computed.

usage: tools/known.py            write crates/known/stdin and crates/known/stdout
       tools/known.py --check    say whether what stands is what it computes (exit status 1 if not)
"""
import re
import sys

sys.dont_write_bytecode = True

from pages import Page, fields
from walked import ROOT, hold

PAGE = """
# THE PAPER'S KNOWN DATES: a date's year is the civil year, a year's place and its terms are of the solstice year
# 1. Day 0: civil year 0, month 11, day 1, name 1. Day −1 does not exist: moving there is reason 8.
DAY 0 | day=0 year=0 number=11 mark=- day-of-month=1 day-name=1
MOVE 0 11 - 1 -1 | reason=8
# 2. Day 29: civil year 0, month 12, day 1. Day 28 is day 29 of its month 11.
DAY 29 | day=29 year=0 number=12 mark=- day-of-month=1
DAY 28 | day=28 year=0 number=11 mark=- day-of-month=29
# 3. Day 14,989,859: civil year 41,040, leap 10, day 30, name 60. The next day is reason 6.
DAY 14989859 | day=14989859 year=41040 number=10 mark=L day-of-month=30 day-name=60
DAY 14989860 | reason=6
# 4. Solstice year 76 is year 76 of bu 1; solstice year 77 is year 1 of bu 2, whose head name is 40.
PLACE 76 | bu=1 year-in-bu=76
PLACE 77 | bu=2 year-in-bu=1 head-name=40
# 5. Solstice year 9,366 (85 CE in 004): ji 1, bu 4, year in bu 18, leap remainder 5;
PLACE 9366 | ji=1 bu=4 year-in-bu=18 first-month=115830 leap-remainder=5
# first month 115,830 starts on day 3,420,558, name 19, full on day 3,420,573, name 34.
MONTH 115830 | count=115830 first-name=19 first-day=3420558
QUARTER 115830 2 | day=3420573
DAY 3420573 | day=3420573 day-name=34 ji=1 bu=4 year-in-bu=18
# Day 3,420,558: civil year 9,365, year name 21, month 11, day 1. The year name 22 is that of civil year 9,366.
DAY 3420558 | day=3420558 year=9365 number=11 mark=- day-of-month=1 day-name=19 year-name=21 ji=1 bu=4 year-in-bu=18
YEAR 9365 | year=9365 name=21
YEAR 9366 | year=9366 name=22
# 6. The solstice of solstice year 9,366: day 3,420,566, name 27; it is civil year 9,365, month 11, day 9.
TERM 9366 0 | day=3420566
DAY 3420566 | day=3420566 year=9365 number=11 mark=- day-of-month=9 day-name=27 year-name=21 ji=1 bu=4 year-in-bu=18
# 7. Civil year 9,457 (176 CE): month 1 is 116,957, first name 60; leap month 5 is 116,962.
DATE 9457 1 - 1 | year=9457 number=1 mark=- day-of-month=1 day-name=60
MONTH 116957 | count=116957 number=1 mark=- first-name=60
DATE 9457 5 L 1 | year=9457 number=5 mark=L day-of-month=1
MONTH 116962 | count=116962 number=5 mark=L
YEAR 9457 | year=9457 leap-number=5 leap-month=116962
# 8. Civil year 11: leap 9, month 134. The shortcut, of solstice year 11, would give leap 8.
YEAR 11 | year=11 leap-number=9 leap-month=134
# 9. Civil year 11, leap 8, day 1: reason 4. Leap 9, day 30: reason 5.
DATE 11 8 L 1 | reason=4
DATE 11 9 L 30 | reason=5
# 10. Month 134 is an eclipse month, 135 is not; 5 is the first, 0 is not one.
MONTH 134 | count=134 eclipse=E
MONTH 135 | count=135 eclipse=-
MONTH 0 | count=0 eclipse=-
MONTH 1 | count=1 eclipse=-
MONTH 2 | count=2 eclipse=-
MONTH 3 | count=3 eclipse=-
MONTH 4 | count=4 eclipse=-
MONTH 5 | count=5 eclipse=E
# 11. Day 0 moved by 27,759: civil year 76, month 11, day 1, name 40, year name 32.
MOVE 0 11 - 1 27759 | day=27759 year=76 number=11 mark=- day-of-month=1 day-name=40 year-name=32
# 12. Empty sheet of six zero bytes: three zero counts, nothing printed.
# No query has a sheet: the program `beside` reads this one, and the paper's sheet of the civil year 11 alone.
# READINGS OF 1, 3, 5 AND 11, each in the month that the paper puts it in: the day is found
SEARCH 16 11 - 1 1 1 0 28 | total=1 | day=0 year=0 number=11 mark=- day-of-month=1 day-name=1
SEARCH ? 10 L 30 60 ? 14989830 14989859 | total=1 | day=14989859 year=41040 number=10 mark=L day-of-month=30 day-name=60
SEARCH 21 11 - 1 19 19 3420558 3420586 | total=1 | day=3420558 year=9365 number=11 mark=- day-of-month=1 day-name=19 year-name=21
SEARCH 32 11 - 1 40 40 27759 27787 | total=1 | day=27759 year=76 number=11 mark=- day-of-month=1 day-name=40 year-name=32
# THE CIVIL YEAR, by request W4: months 11 and 12, with any leap month of those numbers, close the year
# Civil year 0 holds months 11 and 12 only, month counts 0 and 1, name 16.
YEAR 0 | year=0 name=16 months=2 first-month=0 leap-number=- leap-month=-
MONTH 0 | count=0 number=11 mark=-
MONTH 1 | count=1 number=12 mark=-
# The new one opens with month 1.
DATE 1 1 - 1 | year=1 number=1 mark=- day-of-month=1 year-name=17
YEAR 1 | year=1 name=17 first-month=2
# Civil year 8 has 13 months, 88 to 100, though its remainder is 11; solstice year 8, whose remainder it is, has 12.
YEAR 8 | year=8 months=13 first-month=88
YEAR 9 | year=9 first-month=101
PLACE 8 | leap-remainder=11 months=12
# Civil year 11 has months 125 to 137.
YEAR 11 | year=11 months=13 first-month=125
YEAR 12 | year=12 first-month=138
# Civil year 27 has a leap 11, month 334.
YEAR 27 | year=27 leap-number=11 leap-month=334
MONTH 334 | count=334 number=11 mark=L
# Civil year 41,040 ends with its leap month 10: month counts 507,589 to 507,599.
YEAR 41040 | year=41040 months=11 first-month=507589 leap-number=10 leap-month=507599
MONTH 507599 | count=507599 number=10 mark=L
# Reason 1 is a civil year outside 0 to 41,040; of a place and of a term, a solstice year outside 1 to 41,040.
YEAR 41041 | reason=1
PLACE 0 | reason=1
TERM 0 0 | reason=1
# Reason 16, after 3 and before 4: a month number from 1 to 10 in civil year 0, or 11 or 12 in civil year 41,040.
DATE 0 5 - 31 | reason=3
DATE 0 5 L 1 | reason=16
DATE 0 11 L 1 | reason=4
DATE 41040 11 L 1 | reason=16
DATE 41040 9 L 1 | reason=4
# THE PLACE OF A DATE AND ITS ECLIPSE MARK, by request W8: the place is that of the solstice year the day lies in
# By case 4 the bu passes from 1 to 2 where solstice year 76 ends, and not with civil year 76, whose months 11 and 12 are of bu 2.
DATE 76 10 - 1 | year=76 number=10 mark=- ji=1 bu=1 year-in-bu=76
DAY 27758 | day=27758 year=76 number=10 mark=L day-of-month=30 ji=1 bu=1 year-in-bu=76
DAY 27759 | day=27759 year=76 number=11 mark=- day-of-month=1 ji=1 bu=2 year-in-bu=1
DATE 76 12 - 1 | year=76 number=12 mark=- ji=1 bu=2 year-in-bu=1
DATE 77 1 - 1 | year=77 number=1 mark=- ji=1 bu=2 year-in-bu=1
DATE 77 10 - 1 | year=77 number=10 mark=- ji=1 bu=2 year-in-bu=1
DATE 77 11 - 1 | year=77 number=11 mark=- ji=1 bu=2 year-in-bu=2
# Twenty bu of 27,759 days are a ji: solstice year 1,520 is the last of ji 1, solstice year 1,521 the first of ji 2.
DAY 555179 | day=555179 year=1520 number=10 ji=1 bu=20 year-in-bu=76
DAY 555180 | day=555180 year=1520 number=11 mark=- day-of-month=1 ji=2 bu=1 year-in-bu=1
# Three ji are a yuan, of 1,665,540 days: solstice year 4,560 is the last of ji 3, solstice year 4,561 the first of ji 1 again.
DAY 1665539 | day=1665539 year=4560 number=10 ji=3 bu=20 year-in-bu=76
DAY 1665540 | day=1665540 year=4560 number=11 mark=- day-of-month=1 ji=1 bu=1 year-in-bu=1
# The first day of all is of solstice year 1, the last of solstice year 41,040, with which nine yuan are whole.
DATE 0 11 - 1 | day=0 year=0 ji=1 bu=1 year-in-bu=1
DATE 41040 10 L 30 | day=14989859 year=41040 ji=3 bu=20 year-in-bu=76
# A leap 12 and a leap 11 are of the solstice year after their civil year; a leap 10 and a leap 1 are of the one of the same count.
DATE 8 12 L 1 | year=8 number=12 mark=L ji=1 bu=1 year-in-bu=9
DATE 27 11 L 1 | year=27 number=11 mark=L ji=1 bu=1 year-in-bu=28
DATE 19 10 L 1 | year=19 number=10 mark=L ji=1 bu=1 year-in-bu=19
DATE 17 1 L 1 | year=17 number=1 mark=L ji=1 bu=1 year-in-bu=17
# A date has the eclipse mark of its month, by case 10: month 5 is the first, month 134, leap 9 of year 11, is one, 135 is not.
DATE 1 3 - 29 | year=1 number=3 mark=- eclipse=-
DATE 1 4 - 1 | year=1 number=4 mark=- eclipse=E
DATE 11 9 - 30 | year=11 number=9 mark=- eclipse=-
DATE 11 9 L 1 | year=11 number=9 mark=L eclipse=E
DATE 11 9 L 29 | year=11 number=9 mark=L eclipse=E
DATE 11 10 - 1 | year=11 number=10 mark=- eclipse=-
# A move of 27,759 days keeps the year in the bu, and the bu goes one on.
MOVE 9365 11 - 1 27759 | year=9441 number=11 mark=- day-of-month=1 ji=1 bu=5 year-in-bu=18
MOVE 76 11 - 1 -27759 | day=0 year=0 number=11 mark=- day-of-month=1 ji=1 bu=1 year-in-bu=1
# The eclipse mark is excepted: month 939 is an eclipse month, 1,879 is not; month 4 is not one, 944 is.
MOVE 76 10 L 30 27759 | day=55517 year=152 number=10 mark=L day-of-month=30 ji=1 bu=2 year-in-bu=76 eclipse=-
MOVE 152 10 L 30 -27759 | day=27758 year=76 number=10 mark=L day-of-month=30 ji=1 bu=1 year-in-bu=76 eclipse=E
MOVE 1 3 - 29 27759 | year=77 number=3 mark=- day-of-month=29 ji=1 bu=2 year-in-bu=1 eclipse=E
# The bu goes round twenty, and the ji goes one on, round three, when the bu passes from 20 to 1, and not before.
MOVE 1444 10 L 30 27759 | day=555179 year=1520 number=10 mark=L day-of-month=30 ji=1 bu=20 year-in-bu=76
MOVE 1444 11 - 1 27759 | day=555180 year=1520 number=11 mark=- day-of-month=1 ji=2 bu=1 year-in-bu=1
MOVE 3040 10 L 30 27759 | year=3116 number=10 mark=L day-of-month=30 ji=3 bu=1 year-in-bu=76
MOVE 4560 10 L 30 27759 | year=4636 number=10 mark=L day-of-month=30 ji=1 bu=1 year-in-bu=76
MOVE 4636 10 L 30 -27759 | day=1665539 year=4560 number=10 mark=L day-of-month=30 ji=3 bu=20 year-in-bu=76
# The eclipse mark is kept over 749,493 days; these are 27 bu, so that the place is a ji and seven bu on.
MOVE 76 10 L 30 749493 | day=777251 year=2128 number=10 mark=L day-of-month=30 ji=2 bu=8 year-in-bu=76 eclipse=E
MOVE 76 11 - 1 749493 | day=777252 year=2128 number=11 mark=- day-of-month=1 ji=2 bu=9 year-in-bu=1 eclipse=-
MOVE 11 9 L 29 749493 | year=2063 number=9 mark=L day-of-month=29 ji=2 bu=8 year-in-bu=11 eclipse=E
# Every date that is given out has them: a search's too.
SEARCH ? ? ? ? ? ? 27758 27759 | total=2 | day=27758 ji=1 bu=1 year-in-bu=76 eclipse=E | day=27759 ji=1 bu=2 year-in-bu=1 eclipse=-
"""

# Case 7: a date and the month that it starts.
STARTS = {"DATE 9457 1 - 1": "MONTH 116957", "DATE 9457 5 L 1": "MONTH 116962"}

TABLE = ROOT / "crates" / "planets" / "specs" / "Table.antt"
PLACES = {
    "conjunction": ("day", "parts", "divisor", "phase"),
    "next": ("k", "day", "parts", "divisor", "phase"),
    "pair": ("years", "conjunctions"),
}

# A comment of the table that is not true at the desk, which cuts a number down to 32 bits before the call, and what is added to it.
CUT_DOWN = {
    "where Saturn's product passes 64 bits for the first time":
        "in the call itself, which `beside` asks with this count: the desk cuts it down before the call",
}


def figures(text):
    return dict(figure.split("=") for figure in text.split())


def known_dates(page):
    for line in PAGE.strip().split("\n"):
        query, *printed = line.split(" | ")
        if line.startswith("# "):
            page.note(line[2:])
        else:
            assert printed, line
            page.ask(query, *map(figures, printed))
    answers = dict(page.asked)
    for date, month in STARTS.items():
        assert fields(answers[date][0])["day"] == fields(answers[month][0])["first-day"], (date, month)


def table_rows():
    """The proved table: its comments, and its questions with their numbers and answers, which are numbers or a reason's number."""
    whole = TABLE.read_text(encoding="utf8")
    text = whole.partition("\ncases =\n")[2].partition("∷ []\n\n")[0]
    found = re.findall(r"^ *-- (.+)$|\b(?:row|refusal) \(([a-z-]+)([ 0-9]+)\) (\(?)([^)\n]+)", text, re.MULTILINE)
    assert sum(kind != "" for _, kind, *_ in found) == len(re.findall(r"\b(?:row|refusal) \(", whole))
    for comment, kind, asked, is_list, answer in found:
        if comment:
            yield comment, None, None
        else:
            said = list(map(int, answer.replace("∷ []", "").split("∷"))) if is_list else int(answer)
            yield kind, list(map(int, asked.split())), said


def planets(page):
    page.note("THE PLANETS: every row of the proved table of request W11")
    rows = list(table_rows())
    assert CUT_DOWN.keys() <= {kind for kind, asked, _ in rows if asked is None}
    for kind, asked, said in rows:
        if asked is None:
            page.note(f"{kind}, {CUT_DOWN[kind]}" if kind in CUT_DOWN else kind)
        elif kind == "in-month":
            in_month(page, *asked, *said)
        else:
            query = " ".join(map(str, (kind.upper(), *asked)))
            if isinstance(said, int):
                printed = {"reason": str(said)}
            else:
                printed = {place: str(k) for place, k in zip(PLACES[kind], said, strict=True)}
                if "phase" in printed:
                    printed["phase"] = "-ME"[said[-1]]
            assert fields(page.answer(query)[0]) == printed, (query, said)
            page.ask(query, printed)


def in_month(page, p, k, n, days, parts):
    """A conjunction so many days after the first of a month: the conjunction, and the month."""
    query, month = f"CONJUNCTION {p} {k}", f"MONTH {n}"
    first, found = (fields(page.answer(asked)[0]) for asked in (month, query))
    printed = {"day": str(int(first["first-day"]) + days), "parts": str(parts)}
    assert days < int(first["length"]) and printed.items() <= found.items(), (query, month)
    page.note(f"{days} days after the first of month {n}, and {parts} parts")
    page.ask(query, printed)
    page.ask(month)


# The figures of request W13, counted apart.
FIGURES = """
# THE YEARBOOK: figures of civil years that request W13 was checked with
FIGURES 8 8 | big=7 small=6 pairs=1 eclipses=3 | leap-1=0 leap-11=0 leap-12=1
FIGURES 11 11 | big=7 small=6 pairs=1 eclipses=2 | leap-8=0 leap-9=1 leap-10=0
# all of them; the last month of year 41,039 starts no pair
FIGURES 1 41039 | big=269453 small=238134 pairs=31319 eclipses=86478 | leap-1=1620 leap-2=540 leap-3=1620 leap-4=1080 leap-5=1620 leap-6=1080 leap-7=1080 leap-8=1620 leap-9=1080 leap-10=1619 leap-11=540 leap-12=1620
# seventy-six years, wherever they begin
FIGURES 1 76 | big=499 small=441 pairs=58 | leap-1=3 leap-2=1 leap-3=3 leap-4=2 leap-5=3 leap-6=2 leap-7=2 leap-8=3 leap-9=2 leap-10=3 leap-11=1 leap-12=3
FIGURES 9368 9443 | big=499 small=441 pairs=58 | leap-1=3 leap-2=1 leap-3=3 leap-4=2 leap-5=3 leap-6=2 leap-7=2 leap-8=3 leap-9=2 leap-10=3 leap-11=1 leap-12=3
# 004's 196 eclipses in 93 years (H35)
FIGURES 9368 9460 | eclipses=196
# the last month of year 47 starts a pair: it counts with year 47, and once in both years
FIGURES 47 47 | pairs=1
FIGURES 48 48 | pairs=0
FIGURES 47 48 | pairs=1
"""


def yearbook(page):
    for line in FIGURES.strip().split("\n"):
        query, *printed = line.split(" | ")
        if line.startswith("# "):
            page.note(line[2:])
        else:
            page.ask(query, *map(figures, printed))


def main():
    page = Page()
    known_dates(page)
    planets(page)
    yearbook(page)
    return hold(page.files("known"))


if __name__ == "__main__":
    sys.exit(main())
