#!/usr/bin/env python3
"""The rows of 004's figures that the base answers: the page of the program `eras`, and what it must write.

The rows stand in tools/eras.tsv, unchanged from the collection of 004's figures that they were chosen from. On the page each row is a
note: its name, 004's lines, kind and inputs, what 004 prints, and its words where there is room. After it stand the queries that
answer it. The expected answer has 004's own figures in their places (tools/pages.py); what 004 does not print is computed by
tools/walked.py. Where a figure is a misprint the note says so, with what the rule gives, and the expected answer has the rule's. What
the rule gives is held against the collection's own column `rule` at every item.

In, and asked at the desk: see Asked, which has the queries of each kind, and the place of each item in the answers. In, and not to be
read off an answer of the desk: see BESIDE; the program `beside` asks these of the calls, and their notes say so. A row of the kinds
planet-const, arith, const, identity and the like that has a question in it gets a kind of its own: see NAMED.
Out, by kind: see OUT, with the reason of each. Out, by class: CONVENTION (another way of counting, eclipses from other epochs).

Years: 004 counts solstice years, and PLACE and TERM ask a row's Y as it stands. A year's name is that of the civil year of the same
count, which months 1 to 10 lie in. A month 11 or 12, leap or not, that a row names by its solstice year is asked in the civil year
before it (D18), and its note says which that is.

planet-count (積合 and 合餘, by the end of solstice year Y): the year ends with the next one's solstice. The first conjunction from that day on
is one more than the last by then. No query gives the 合餘, Y × 周率 - k × 日率; since a year is 1,461 quarters of a day, 1 of it is 1,461
parts of the divisor, so that 004's figure says when the last conjunction was, and stands in the answer as its day and parts.

term12 (a term in days and whole twelfths): 004 rounds the parts of 32, and where 31 of them become 12 twelfths its day is one more
than the rule's (T52). The desk answers parts. A term is 487 of them, so that 004's figure says which term it was rounded from, and
stands in the answer as that term's day and parts (`unrounded`). No term rounds to what 004 prints in a row that is a misprint.

term-step and year-step (the days and parts that a term, or so many years, add): the term so far from the origin, which has day 0 and
parts 0. The same in parts alone, before 004 divides them by 32 (B08, J19, K17), is a step of the sum, and out.
parts-gone (the terms after which the parts come out at nought, as a count of mid-terms): a mid-term is 974 parts, so that the count says
on which day and part it comes.

A mark `-` of a month is `ordinary` where the month's number is stated, and else not stated: here `leap=no` and `leap=-`.

usage: tools/eras.py --from PATH   choose the rows from the whole collection at PATH into tools/eras.tsv, and say how many of each kind
       tools/eras.py               write crates/eras/stdin and crates/eras/stdout from tools/eras.tsv
       tools/eras.py --check       say whether what stands is what it computes (exit status 1 if not)
"""
import collections
import pathlib
import sys

sys.dont_write_bytecode = True

from pages import Page, fields
from walked import LONGEST, PLANETS, ROOT, hold, kth

ROWS = ROOT / "tools" / "eras.tsv"
COLUMNS = "id kind inputs printed rule lines agrees class literal quote note".split()

THREE = "the older calendar, which is not in the base"
PLACES = "004's steps to a planet's month and to its place among the stars: no call gives them"
STARS = "lodges, stars, shadows and water clocks are not in the base"
OUT = {
    "year-count": "CE to a year: reign titles and CE are not ours",
    "yin-place": "a place by another epoch than the upper origin",
    "eclipse-local": "eclipses counted from other epochs; the base counts from the upper origin",
    "shortcut": "no call answers by 004's shortcut",
    "arith": "a step of a sum, with no question to a call in it",
    "const": "a constant, with no question to a call in it",
    **dict.fromkeys("ts-elapsed ts-year-start ts-month ts-month-number ts-quarter ts-solstice ts-leap-month ts-reading".split(), THREE),
    **dict.fromkeys("solstice-lag term-lag calendars-differ".split(), THREE),
    **dict.fromkeys("planet-const planet-motion".split(), PLACES),
    **dict.fromkeys("lodge dusk-star-arc dawn-star-arc sun-place polar-cell clepsydra dusk-star dawn-star polar".split(), STARS),
}
OUT_CLASSES = {"CONVENTION"}

# The items of each kind that is asked, in the collection's order.
IN = {
    "year-name": "name",
    "year-place": "ji bu year-in-bu",
    "year-place-bu": "head-name elapsed",
    "bu-head": "name",
    "bu-year-name": "name",
    "year-start": "month leap-remainder",
    "leap-month": "number month",
    "month-start": "day small-remainder name",
    "bu-month": "days small-remainder",
    "month-number": "number leap",
    "month-step": "days small-remainder",
    "eclipse-month": "eclipse number leap",
    "quarter": "day parts name",
    "quarter-day-of-month": "day-of-month",
    "solstice": "day parts name",
    "term": "day parts name",
    "term12": "day twelfths",
    "term-step": "days parts",
    "year-step": "days parts",
    "parts-gone": "mid-terms",
    "midterm-month": "number",
    "reading": "exists",
    "eclipse-count": "eclipse-months",
    "big-pair": "least most",
    "first-day-identity": "holds",
    "next-eclipse-identity": "holds",
    "planet": "day parts divisor",
    "planet-parity": "evening",
    "planet-in-month": "days parts",
    "planet-count": "conjunctions remainder",
    "planet-gcd": "common-divisor",
    "planet-conjunctions": "conjunctions",
    "planet-years": "years",
    "planet-divisor": "divisor",
    "planet-parts": "parts",
    "planet-long-days": "parts",
    "planet-long-circle": "parts",
    "planet-mornings": "conjunctions",
}

# The kinds that count over many, ask for all, or are sums of an answer's figures: no answer of the desk has them.
BESIDE = """eclipse-count big-pair first-day-identity next-eclipse-identity
planet-gcd planet-parts planet-long-days planet-long-circle planet-mornings""".split()

# The classes of rows that differ, in the order of the total.
CLASSES = ["MISPRINT(numeral)", "MISPRINT(scan gap/interleave)", "SOURCE-DATE"]
HEADING = [
    "FIGURES OF 004: the row's name, 004's lines (L), kind and inputs, what 004 prints, and its words where there is room.",
    "- is not stated in 004, ? is lost in its print.",
    "A year Y is a solstice year: PLACE and TERM ask it as it stands. A year's name is that of the civil year of the same count.",
    "A month 11 or 12 that a row names by its solstice year is asked in the civil year before it, which the note then names.",
    "Where a figure is not the answer's own: elapsed years are one less than the year in the bu;",
    "the days of bu-month and planet-in-month are counted from the first day of the first month that is asked;",
    "the days of month-step are less whole sixties, one less than the name;",
    "the day and twelfths of term12 are the day and parts rounded to whole twelfths, 12 of which are a day more:",
    "of the days and parts that round so, the answer is that which whole terms make, of 487 parts each;",
    "the days of year-step are less whole sixties, 360 a year; the mid-terms of parts-gone are of 974 parts each;",
    "the conjunctions of planet-count are one less than the next k, and 1 of its remainder is 1,461 parts of the divisor,",
    "from the last conjunction to the end of the year.",
]


def sums(p):
    """The sums of one conjunction, as the collection writes them, and what is asked for each."""
    day, parts, divisor, _ = kth(p, 1)
    whole = day * divisor + parts
    return {
        f"{day}*{divisor}+{parts}": ("planet-parts", f"p={p}"),
        f"4*{whole}": ("planet-long-days", f"p={p}"),
        f"1461*{divisor}": ("planet-long-circle", f"p={p}"),
    }


# Questions that the collection puts in a sentence, a sum or a word: kind and inputs of the row.
NAMED = {
    "5 months": ("month-step", "months=5"),
    "divmod(487,32)": ("term-step", "terms=1"),
    "divmod(168,32)": ("year-step", "years=1"),
    "divmod(2856,32)": ("year-step", "years=17"),
    "divmod(61*168,32)": ("year-step", "years=61"),
    "7*32//7//2": ("parts-gone", "terms=32"),
    "civil 9368..9460": ("eclipse-count", "first-civil=9368 last-civil=9460"),
    "remainder r of a month: previous and this both big": ("big-pair", "months=941"),
    "343335*e-1461*r == 27759*n, e<41040": ("first-day-identity", "years=41040"),
    "next eclipse from month n: n + (112n mod 135) div 23, less 1 if no remainder": ("next-eclipse-identity", "months=20000"),
    "土 合 in 9,415 years": ("planet-conjunctions", "p=3"),
    "金 晨合 in 4,661 years": ("planet-mornings", "p=4"),
    "水 晨合 in 1,889 years": ("planet-mornings", "p=5"),
    **{f"p={p} 周率": ("planet-conjunctions", f"p={p}") for p in PLANETS},
    **{f"p={p} 日率": ("planet-years", f"p={p}") for p in PLANETS},
    **{f"p={p} 日度法": ("planet-divisor", f"p={p}") for p in PLANETS},
    **{written: asked for p in PLANETS for written, asked in sums(p).items()},
}

# An item that the collection fills in from the rule, by its own note, and that 004 does not print: (row, item).
NOT_PRINTED = {("G15", "small-remainder")}

STEMS, BRANCHES = "甲乙丙丁戊己庚辛壬癸", "子丑寅卯辰巳午未申酉戌亥"
NAMES = {STEMS[i % 10] + BRANCHES[i % 12]: i + 1 for i in range(60)}
YES_NO = {True: "yes", False: "no"}


# Where an item stands: by the place of its query, the fields of its answer and what is made of the figure there.


def at(query, field, made=str):
    return query, {field: made}


def plus(k):
    return lambda figure: str(int(figure) + k)


def either(yes, no):
    return {"yes": yes, "no": no}.__getitem__


def unrounded(day, twelfths):
    """The day and parts that 004 rounded: of all counts of parts that round to so many twelfths, the one that is of whole terms."""
    assert 0 <= int(twelfths) < 12, (day, twelfths)
    whole = 12 * int(day) + int(twelfths)
    near = range(32 * whole // 12 - 2, 32 * whole // 12 + 3)
    [parts] = [count for count in near if (12 * count + 16) // 32 == whole and count % 487 == 0]
    return map(str, divmod(parts, 32))


# The kinds whose figures make those of the answer together, and how.
TOGETHER = {"term12": unrounded}


class Asked:
    """The queries of each kind, and where each of its items stands in their answers."""

    def __init__(self, page):
        self.page = page
        self.c = page.desk.c

    def told(self, query, field):
        return int(fields(self.page.answer(query)[0])[field])

    def civil_year(self, year, number):
        """The civil year of the month of that number in a solstice year, as the calendar has it."""
        [civil] = {self.c.civil_year[n] for n in self.c.months_of_solstice[year] if self.c.number[n] == number}
        return civil

    def bu(self, ji, bu):
        """The first solstice year of a bu of the first yuan, by its place."""
        year = 1520 * (ji - 1) + 76 * (bu - 1) + 1
        place = self.page.desk.place(year)[0]
        assert [fields(place)[field] for field in ("ji", "bu", "year-in-bu")] == [str(ji), str(bu), "1"]
        return year

    def year_name(self, year):
        return [f"YEAR {year}"], [at(0, "name")]

    def year_place(self, year):
        return [f"PLACE {year}"], [at(0, "ji"), at(0, "bu"), at(0, "year-in-bu")]

    def year_place_bu(self, year):
        return [f"PLACE {year}"], [at(0, "head-name"), at(0, "year-in-bu", plus(1))]

    def bu_head(self, bu):
        return [f"PLACE {self.bu(1, bu)}"], [at(0, "head-name")]

    def bu_year_name(self, ji, bu):
        year = self.bu(ji, bu)
        return [f"PLACE {year}", f"YEAR {year}"], [at(1, "name")]

    def year_start(self, year):
        return [f"PLACE {year}"], [at(0, "first-month"), at(0, "leap-remainder")]

    def leap_month(self, year):
        """The leap month of a solstice year, asked of the civil year of the same count: no row has a leap 11 or 12."""
        [leap] = [n for n in self.c.months_of_solstice[year] if self.c.leap[n]]
        assert self.c.civil_year[leap] == year
        return [f"YEAR {year}"], [at(0, "leap-number"), at(0, "leap-month")]

    def month_start(self, n):
        return [f"MONTH {n}"], [at(0, "first-day"), at(0, "small-remainder"), at(0, "first-name")]

    def bu_month(self, bu, months):
        """The days from the bu's head: to be added to its first day."""
        year = self.bu(1, bu)
        head = self.told(f"PLACE {year}", "first-month")
        days = plus(self.told(f"MONTH {head}", "first-day"))
        queries = [f"PLACE {year}", f"MONTH {head}", f"MONTH {head + months}"]
        return queries, [at(2, "first-day", days), at(2, "small-remainder")]

    def month_number(self, n):
        return [f"MONTH {n}"], [at(0, "number"), at(0, "mark", either("L", "-"))]

    def month_step(self, months):
        """Days less whole sixties: so many names after the first, which is 1."""
        return [f"MONTH {months}"], [at(0, "first-name", plus(1)), at(0, "small-remainder")]

    def eclipse_month(self, n):
        return [f"MONTH {n}"], [at(0, "eclipse", either("E", "-")), at(0, "number"), at(0, "mark", either("L", "-"))]

    def quarter(self, n, q):
        query = f"QUARTER {n} {q}"
        return [query, f"DAY {self.told(query, 'day')}"], [at(0, "day"), at(0, "parts"), at(1, "day-name")]

    def quarter_day_of_month(self, n, q):
        query = f"QUARTER {n} {q}"
        day = self.told(query, "day")
        assert self.c.month_of(day) == n
        return [query, f"DAY {day}"], [at(1, "day-of-month")]

    def term(self, year, k):
        query = f"TERM {year} {k}"
        return [query, f"DAY {self.told(query, 'day')}"], [at(0, "day"), at(0, "parts"), at(1, "day-name")]

    def solstice(self, year):
        return self.term(year, 0)

    def term12(self, year, k):
        queries, (day, parts, _) = self.term(year, k)
        return queries, [day, parts]

    def term_step(self, terms):
        return [f"TERM 1 {terms}"], [at(0, "day"), at(0, "parts")]

    def year_step(self, years):
        """Days less whole sixties, six for each year."""
        return [f"TERM {years + 1} 0"], [at(0, "day", plus(360 * years)), at(0, "parts")]

    def parts_gone(self, terms):
        """After so many terms no parts are left (餘分盡); 004 counts the mid-terms among them, and the last one's day and parts follow."""
        last = {
            "day": lambda mid_terms: str(974 * int(mid_terms) // 32),
            "parts": lambda mid_terms: str(974 * int(mid_terms) % 32),
        }
        query = f"TERM {terms // 24 + 1} {terms % 24}"
        assert self.told(query, "parts") == 0
        return [query], [(0, last)]

    def midterm_month(self, k):
        return self.term(1, k)[0], [at(1, "number")]

    def reading(self, year, number, leap, day_name):
        """In the 384 days from the civil year's first, which the longest one has: a month has one day of a name at most."""
        civil = self.civil_year(year, number)
        year_name = self.told(f"YEAR {civil}", "name")
        first = self.c.starts[self.c.months_of_civil[civil][0]]
        query = f"SEARCH {year_name} {number} {'L' if leap else '-'} ? {day_name} ? {first} {first + 383}"
        return [query], [at(0, "total", either("1", "0"))]

    def planet(self, p, k):
        return [f"CONJUNCTION {p} {k}"], [at(0, "day"), at(0, "parts"), at(0, "divisor")]

    def planet_parity(self, p, k):
        return [f"CONJUNCTION {p} {k}"], [at(0, "phase", either("E", "M"))]

    def planet_in_month(self, p, k, n):
        """The days after the month's first: to be added to it."""
        assert self.c.month_of(kth(p, k)[0]) == n
        return [f"MONTH {n}", f"CONJUNCTION {p} {k}"], [at(1, "day", plus(self.c.starts[n])), at(1, "parts")]

    def planet_count(self, p, years):
        """The next solstice year's solstice is the end; the first conjunction from its day on is after it; the last one before."""
        conjunctions = PLANETS[p][0]
        end, divisor = 1461 * conjunctions * years, 4 * conjunctions
        solstice = self.told(f"TERM {years + 1} 0", "day")
        k = self.told(f"NEXT {p} {solstice}", "k")
        day, parts = kth(p, k)[:2]
        assert solstice == end // divisor and day * divisor + parts > end
        last = {
            "day": lambda rest: str((end - 1461 * int(rest)) // divisor),
            "parts": lambda rest: str((end - 1461 * int(rest)) % divisor),
        }
        return [f"TERM {years + 1} 0", f"NEXT {p} {solstice}", f"CONJUNCTION {p} {k - 1}"], [at(1, "k", plus(1)), (2, last)]

    def planet_conjunctions(self, p):
        return [f"PAIR {p}"], [at(0, "conjunctions")]

    def planet_years(self, p):
        return [f"PAIR {p}"], [at(0, "years")]

    def planet_divisor(self, p):
        return [f"CONJUNCTION {p} 1"], [at(0, "divisor")]


def rows_in(path):
    lines = path.read_text(encoding="utf8").split("\n")
    assert lines[0].split("\t") == COLUMNS and lines[-1] == ""
    return [dict(zip(COLUMNS, line.split("\t"), strict=True)) for line in lines[1:-1]]


def asked_as(row):
    """The program's kind, and inputs."""
    return NAMED.get(row["inputs"], (row["kind"], row["inputs"]))


def is_used(row):
    kind = asked_as(row)[0]
    assert (kind in IN) != (kind in OUT), kind
    return kind in IN and row["class"] not in OUT_CLASSES


def choose(path):
    """The rows used, from the whole collection, and a count of what is in and what is out."""
    rows = rows_in(path)
    used = [row for row in rows if is_used(row)]
    ROWS.write_text("".join("\t".join(line) + "\n" for line in [COLUMNS] + [list(row.values()) for row in used]), encoding="utf8")
    for (kind, taken), n in sorted(collections.Counter((row["kind"], is_used(row)) for row in rows).items()):
        print(f"{'in ' if taken else 'out'} {n:3} {kind}" + ("" if taken else ": " + OUT.get(kind, "class CONVENTION")))
    print(f"{len(used)} of {len(rows)} rows used")


def question(row):
    """The program's kind and inputs, and the numbers in them."""
    kind, inputs = asked_as(row)
    values = [word.split("=")[1] for word in inputs.split()]
    return kind, inputs, [v == "L" if v in "L-" else int(v) for v in values]


def items(row, column):
    """What a column says of each item, as the program writes it."""
    labels, said = IN[asked_as(row)[0]].split(), row[column].split()
    said = [{"exists": "yes", "none": "no", "holds": "yes", "evening": "yes", "morning": "no"}.get(s, s) for s in said]
    said = [str(NAMES[s[:2]]) + s[2:] if s[:2] in NAMES else s for s in said]
    if labels[-1] == "leap" and said[-2] != "-":
        said[-1] = YES_NO[said[-1] == "L"]
    return ["-" if (row["id"], l) in NOT_PRINTED else s for l, s in zip(labels, said, strict=True)]


def stated(row):
    """The items' labels, what 004 prints and what the collection says that the rule gives. A row that is said to differ does; whether
    another agrees is seen where the program's answers are compared with what 004 prints."""
    printed, ruled = items(row, "printed"), items(row, "rule")
    assert [p == "-" for p in printed] == [r == "-" for r in ruled], row
    assert (row["agrees"] == "yes") == (row["class"] == ""), row
    assert row["class"] == "" or printed != ruled, row
    return IN[asked_as(row)[0]].split(), printed, ruled


class Run:
    """The page, row by row, and what was found of each row."""

    def __init__(self):
        self.page = Page()
        self.asked = Asked(self.page)
        self.found = {"desk": collections.Counter(), "beside": collections.Counter()}
        for line in HEADING:
            self.page.note(line)

    def row(self, row):
        kind, inputs, numbers = question(row)
        labels, printed, ruled = stated(row)
        word = row["class"]
        text = f"{row['id']} L{row['lines']} {kind} {inputs}: " + " ".join(f"{l}={p}" for l, p in zip(labels, printed))
        if word:
            text += f"; {word}: the rule gives " + " ".join(f"{l}={r}" for l, p, r in zip(labels, printed, ruled) if p != r)
        if kind == "reading" and self.asked.civil_year(*numbers[:2]) != numbers[0]:
            text += f"; civil year {self.asked.civil_year(*numbers[:2])}"
        if kind in BESIDE:
            text += "; asked by the program `beside`"
        self.note(text, row["quote"])
        if kind not in BESIDE:
            self.ask(kind, numbers, ruled if word else printed, ruled)
        self.found["beside" if kind in BESIDE else "desk"][word or "AGREE"] += 1

    def note(self, text, quote):
        whole = f"{text}; {quote}"
        self.page.note(whole if len(f"# {whole}".encode()) <= LONGEST else text)

    def ask(self, kind, numbers, said, ruled):
        """The queries, with the figure of each item that must be answered. What the rule gives is held against the calendar."""
        queries, places = getattr(self.asked, kind.replace("-", "_"))(*numbers)
        answers = [fields(self.page.answer(query)[0]) for query in queries]
        figures = [{} for _ in queries]
        if kind in TOGETHER:
            said, ruled = TOGETHER[kind](*said), TOGETHER[kind](*ruled)
        for figure, by_rule, (at_query, made) in zip(said, ruled, places, strict=True):
            if by_rule == "-":
                continue
            given = {field: make(by_rule) for field, make in made.items()}
            assert given.items() <= answers[at_query].items(), (kind, numbers, given, answers)
            figures[at_query] |= {field: make(figure) for field, make in made.items()}
        for query, of_query in zip(queries, figures):
            self.page.ask(query, of_query)

    def totals(self):
        everywhere = self.found["desk"] + self.found["beside"]
        assert set(everywhere) <= {"AGREE", *CLASSES}, everywhere
        for where, count in (("ROWS", everywhere), ("AT THE DESK", self.found["desk"]), ("BESIDE", self.found["beside"])):
            each = ", ".join(f"{word} {count[word]}" for word in ("AGREE", *CLASSES))
            self.page.note(f"{where} {count.total()}: {each}")


def main():
    if sys.argv[1:2] == ["--from"]:
        choose(pathlib.Path(sys.argv[2]))
        return 0
    run = Run()
    for row in rows_in(ROWS):
        assert is_used(row)
        run.row(row)
    run.totals()
    return hold(run.page.files("eras"))


if __name__ == "__main__":
    sys.exit(main())
