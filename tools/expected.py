#!/usr/bin/env python3
"""What the programs `beside`, `uses` and `printed` and the example for C must write, by the walked calendar of tools/walked.py, which
shares nothing with the library.

A question that the desk has is asked of the walked desk, with any numbers. What 004 prints stands in tools/eras.tsv; where a row
agrees, what is computed here is held against it.

usage: tools/expected.py            write the expected output of each program it knows
       tools/expected.py --check    say whether what stands is what it computes (exit status 1 if not)
"""
import sys

sys.dont_write_bytecode = True

from newsheets import converted, new_sheet, read_new
from verdicts import verdict
from walked import (DAYS, MONTHS, PLANETS, ROOT, YEARS, Desk, common_divisor, hold, is_eclipse, kth, listed_day, month_fields,
                    read_sheet, refused, write_sheet, year_block)


def spaced(numbers):
    return "".join(f" {n}" for n in numbers)


def echoed(desk, questions):
    """Questions that the desk has, each with its answer."""
    return "".join(desk.echo(line.encode()).decode() for line in questions).splitlines()


def filled(items, sevens):
    """Sevens, after what stands in front of them."""
    return [*items, *[7] * (sevens - len(items))]


# Searches into a lent list. A row is written as the desk's query, a mark that is none as its number.

WINDOWS = """14989860 14989860, 14989859 14989860, 14989859 14989859, 5 4, 5 5, 0 27758, 0 27759, 4294967295 0"""
OUTSIDE = """0 ? ? ? ? ?, ? 0 ? ? ? ?, ? ? 0 ? ? ?, ? ? ? 0 ? ?, ? ? ? ? 0 ?, ? ? ? ? ? 0,
    61 ? ? ? ? ?, ? 13 ? ? ? ?, ? ? 3 ? ? ?, ? ? ? 31 ? ?, ? ? ? ? 61 ?, ? ? ? ? ? 273, 60 12 L 30 60 60"""
ORDER = """61 ? ? ? ? ? 14989860 0, 61 ? ? ? ? ? 5 4, 61 ? ? ? ? ? 0 9, ? ? ? ? ? ? 0 4, ? ? ? ? ? ? 0 3, ? ? ? 1 ? ? 0 27758"""
KEPT = """27 9 L 1 ? 58 0 27758, ? 10 L 30 60 ? 14962101 14989859,
    27 5 - 1 ? ? 3600 3900, 27 5 - 15 ? ? 3600 3900, 27 5 - 30 ? ? 3600 3900"""


def rows(text, before="", after=""):
    return [f"{before}{row.strip()}{after}" for row in text.split(",")]


def row_values(row):
    return [{"?": None, "-": 1, "L": 2}[f] if f in "?-L" else int(f) for f in row.split()]


def found(desk, row, room):
    """The answer of a search into a list of so many places, and what then stands at its front."""
    values = row_values(row)
    answer = desk.search(values[:6], *values[6:])[:1]
    if not answer[0].startswith("FOUND"):
        return answer, []
    days = desk.fitting(values[:6], *values[6:])
    return ([refused(12), f"TOTAL {len(days)}"], []) if len(days) > room else (answer, days)


def searches(desk):
    groups = {
        "# Searches into a list of four sevens: windows": rows(WINDOWS, before="? ? ? ? ? ? "),
        "# Each field just outside its range, the marks 0 and 3 among them": rows(OUTSIDE, after=" 0 3"),
        "# The order 6, 13, 14, 12; and 12 with its total, at the edge": rows(ORDER),
        "# The first of a leap month, the last day, and days of the second of two big months": rows(KEPT),
    }
    for note, asked in groups.items():
        yield note
        for row in asked:
            answer, days = found(desk, row, 4)
            yield from [f"SEARCH {row} INTO 4", *answer, "LIST" + spaced(filled(days, 4))]


# Sheets.


def lists_text(lists):
    return ",".join(map(spaced, lists))


def read(data, room=2):
    """A sheet read into lists of so many sevens."""
    answer = read_sheet(data, (room,) * 3)
    good = isinstance(answer, list)
    yield "SHEET" + spaced(data)
    yield "COUNTS" + spaced(map(len, answer)) if good else refused(answer)
    yield "LISTS" + lists_text(filled(items, room) for items in (answer if good else [[]] * 3))


def put(answer, room):
    """Bytes, or a reason's number, and a buffer of so many sevens."""
    yield refused(answer) if isinstance(answer, int) else f"BYTES {len(answer)}"
    yield "BUFFER" + spaced(filled(b"" if isinstance(answer, int) else answer, room))


def write(*lists):
    yield "WRITE" + lists_text(lists)
    yield from put(write_sheet(lists, 20), 20)


def little(n, width):
    return list(n.to_bytes(width, "little"))


def sheets():
    three = [3, 0, 11, 0, 12, 0, 13, 0, 0, 0, 0, 0]
    full = write_sheet(([YEARS] * 1000, [MONTHS - 1] * 1000, [DAYS - 1] * 1000), 10006)
    back = read_sheet(full, (1000,) * 3)
    asked = {
        "# Sheets into lists of two sevens: cut short, and the paper's two of case 12": [
            *([0] * n for n in (0, 1, 5, 6)), [1, 0, 11, 0, 0, 0, 0, 0], [1, 0, 11], [0, 0, 1, 0, 134, 0, 0], [0, 0, 0, 0, 1, 0, 0, 0, 0]],
        "# A count and an item of each kind, just outside and just inside": [
            *(little(n, 2) for n in (1000, 1001)),
            *([1, 0, *little(y, 2), 0, 0, 0, 0] for y in (0, YEARS, YEARS + 1)),
            *([2, 0, *little(y, 2), *little(z, 2), 0, 0, 0, 0] for y, z in ((0, YEARS), (0, YEARS + 1))),
            *([0, 0, 1, 0, *little(n, 4), 0, 0] for n in (MONTHS - 1, MONTHS)),
            *([0, 0, 0, 0, 1, 0, *little(d, 4)] for d in (DAYS - 1, DAYS))],
        "# Bytes left over, lists too short, and the order: byte order, then 11, then 12": [
            [0] * 7, [2, 0, 11, 0, 12, 0, 0, 0, 0, 0], three, [*three, 0],
            [3, 0, 11, 0, *little(YEARS + 1, 2), 13, 0, 0, 0, 0, 0, 0], [0, 0, 0, 0, 233, 3, 0]],
    }
    for note, sheets_of in asked.items():
        yield note
        for data in sheets_of:
            yield from read(data)
    yield "# Lists written into a buffer of twenty sevens"
    last = ([YEARS], [MONTHS - 1], [DAYS - 1])
    for lists in (([11], [134], [3957]), ([0], [], []), ([0, YEARS], [], []), ([YEARS + 1], [MONTHS], []), ([0, YEARS + 1], [], []),
                  ([YEARS], [MONTHS], [DAYS]), (*last[:2], [DAYS]), last, (range(11, 18), [], []), (range(11, 19), [], [])):
        yield from write(*lists)
    yield from ["# A full sheet, read back, and a year too many", "WRITE 1000 OF EACH", f"BYTES {len(full)}"]
    yield from ["SHEET READ BACK", "COUNTS" + spaced(map(len, back)), "LAST" + lists_text(items[999:] for items in back)]
    yield from ["WRITE 1001 YEARS", *put(write_sheet(([11] * 1001, [], []), 2), 2)]


# Printed lines: a text, or the reason's number where it does not exist.


def printed_text(desk, word, n):
    lines, end, reason = {
        "YEAR": (lambda: year_block(desk, n), YEARS + 1, 1),
        "LINE": (lambda: [month_fields(desk, n)], MONTHS, 7),
        "MONTH": (lambda: ["MONTH " + month_fields(desk, n)], MONTHS, 7),
        "DAY": (lambda: [listed_day(desk, n)], DAYS, 6),
    }[word]
    return "".join(line + "\n" for line in lines()).encode() if n < end else reason


def printed_lines(desk):
    asked = {
        "YEAR": ((YEARS + 1, 0), (70000, 30), (0, 30), (11, 30)),
        "LINE": ((MONTHS, 0), (MONTHS - 1, 0), (134, 15), (134, 16), (134, 30)),
        "MONTH": ((MONTHS, 0), (134, 21), (134, 22), (4294967295, 30)),
        "DAY": ((DAYS, 0), (DAYS - 1, 29), (DAYS - 1, 30), (0, 30)),
    }
    yield "# Printed lines into a part of thirty sevens: what does not exist, then a buffer too short, just enough, and more"
    for word, asked_of in asked.items():
        for n, room in asked_of:
            text = printed_text(desk, word, n)
            yield f"PRINT {word} {n} INTO {room}"
            yield from put(12 if isinstance(text, bytes) and len(text) > room else text, 30)


# Numbers beyond 32 bits.


def large_numbers(desk):
    least, most, greatest = -(2**63), 2**63 - 1, 2**64 - 1
    out = [f"MOVE 1 13 - 1 {most}", f"MOVE 0 10 L 1 {least}", f"MOVE 41040 11 - 1 {most}", f"MOVE 11 8 L 1 {least}"]
    out += [f"MOVE 0 11 - 1 {most}", f"MOVE 41040 10 L 30 {least}"]
    out += [f"CONJUNCTION {p} {greatest}" for p in (0, 6, 261, 2**32 - 1, *PLANETS)]
    first_of_65_bits = -(-(2**64) // (PLANETS[3][1] * 1461))
    out += [f"CONJUNCTION {p} {k}" for p, k in ((1, 2**32), (3, first_of_65_bits - 1), (3, first_of_65_bits), (5, 2**63))]
    return ["# The largest and least numbers of 64 bits, which the desk cuts down before it asks", *echoed(desk, out)]


# Figures of 004 that no one answer gives.


class Figures:
    def __init__(self, desk):
        self.c = desk.c
        lines = (ROOT / "tools" / "eras.tsv").read_text(encoding="utf8").splitlines()
        names = lines[0].split("\t")
        self.rows = {row["id"]: row for row in (dict(zip(names, line.split("\t"))) for line in lines[1:])}

    def note(self, name, asked, given):
        """A row's note as on the page of `eras`: its lines, what is asked, what 004 prints; and what is given, where it is a misprint."""
        row, labels = self.rows[name], [label for label, _ in given]
        said = ["yes" if p == "holds" else p for p in row["printed"].split()]
        text = f"# {name} L{row['lines']} {asked}: " + " ".join(f"{l}={p}" for l, p in zip(labels, said, strict=True))
        differs = [f"{l}={g}" for (l, g), p in zip(given, said) if str(g) != p]
        assert (not differs) == (row["agrees"] == "yes") == (row["class"] == ""), (row, given)
        return text + (f"; {row['class']}: the rule gives {' '.join(differs)}" if differs else "")

    def counted(self, question, passing, numbers):
        """The count, its question and its answer."""
        count = sum(map(passing, numbers))
        return count, f"{question} FROM {numbers[0]} BEFORE {numbers[-1] + 1}", f"COUNT {count}"

    def held(self, question, passing, numbers):
        """The same of what must hold of every number."""
        count, *lines = self.counted(question, passing, numbers)
        assert count == len(numbers)
        return lines

    def eclipses(self):
        first, end = (self.c.months_of_civil[year][0] for year in (9368, 9461))
        count, *lines = self.counted("ECLIPSE-COUNT 9368 9460", lambda n: first <= n < end and is_eclipse(n), range(MONTHS))
        return [self.note("H35", "eclipse-count first-civil=9368 last-civil=9460", [("eclipse-months", count)]), *lines]

    def big_pairs(self):
        """The second of two big months: exactly where its small remainder is between the least and the most of these."""

        def is_second(n):
            return self.c.length(n - 1) == self.c.length(n) == 30

        rests = [self.c.small_remainder(n) for n in range(1, 941) if is_second(n)]
        least, most = min(rests), max(rests)
        note = self.note("Q18", "big-pair months=941", [("least", least), ("most", most)])
        holds = lambda n: is_second(n) == (least <= self.c.small_remainder(n) <= most)
        return [note, *self.held(f"BIG-PAIR {least} {most}", holds, range(1, 941))]

    def first_days(self):
        def holds(y):
            n = self.c.months_of_solstice[y][0]
            return 343335 * (y - 1) - 1461 * (235 * (y - 1) % 19) == 940 * self.c.starts[n] + self.c.small_remainder(n)

        note = self.note("N06", "first-day-identity years=41040", [("holds", "yes")])
        return [note, *self.held("FIRST-DAY-IDENTITY", holds, range(1, YEARS + 1))]

    def next_eclipses(self):
        """From month 1 on: from month 0 it names the month before the origin."""

        def holds(n):
            steps, rest = divmod(112 * n % 135, 23)
            named = n + steps - (rest == 0)
            return is_eclipse(named) and not any(is_eclipse(m) for m in range(n, named))

        note = self.note("N38", "next-eclipse-identity months=20000", [("holds", "yes")])
        return [note, *self.held("NEXT-ECLIPSE-IDENTITY", holds, range(1, 20001))]

    def mornings(self, name, p):
        count, *lines = self.counted(f"PLANET-MORNINGS {p}", lambda k: kth(p, k)[3] == "M", range(PLANETS[p][0]))
        return [self.note(name, f"planet-mornings p={p}", [("conjunctions", count)]), *lines]

    def sums(self, p, *names):
        day, parts, divisor, _ = kth(p, 1)
        whole = day * divisor + parts
        days, circle = 4 * whole, 1461 * divisor
        common = common_divisor(days, circle)
        asked = [
            (f"planet-parts p={p}", ("parts", whole)),
            (f"planet-long-days p={p}", ("parts", days)),
            (f"planet-long-circle p={p}", ("parts", circle)),
            (f"planet-gcd a={days} b={circle}", ("common-divisor", common)),
            (f"planet-parts p={p}", ("parts", whole)),
        ]
        notes = [self.note(name, question, [given]) for name, (question, given) in zip(names, asked)]
        return [*notes, f"PLANET-SUMS {p}", f"SUMS {whole} {days} {circle} DIVISOR {common}"]

    def all(self):
        yield "# Figures of 004 that no one answer gives, as on the page of eras; COUNT is of how many numbers it holds"
        yield from [*self.eclipses(), *self.big_pairs(), *self.first_days(), *self.next_eclipses()]
        yield from [*self.mornings("P89", 4), *self.mornings("P109", 5)]
        yield from self.sums(1, "P04", "P05", "P06", "P07", "R18")
        yield from self.sums(2, "P25", "P26", "P27", "P28")
        yield from self.sums(3, "P46", "P47", "P48", "P49")
        yield from self.sums(4, "P68", "P69", "P70", "P71")
        yield from self.sums(5, "P93", "P94", "P95", "P96")


def beside(desk):
    return [*searches(desk), *sheets(), *printed_lines(desk), *large_numbers(desk), *Figures(desk).all()]


# The program `uses`: each call where it answers and where it is refused.


def uses_search(desk, row):
    answer, days = found(desk, row, 4)
    return [f"SEARCH {row} INTO 4", *answer] + (["LIST" + spaced(days)] if days else [])


def uses_read(data):
    answer = read_sheet(data, (10,) * 3)
    told = [refused(answer)] if isinstance(answer, int) else ["COUNTS" + spaced(map(len, answer)), "LIST" + spaced(answer[1])]
    return ["SHEET" + spaced(data), *told]


def uses_write(*lists):
    answer = write_sheet(lists, 20)
    return ["WRITE" + lists_text(lists), *list(put(answer, 0))[:1 if isinstance(answer, int) else 2]]


def uses_printed(desk, word, n):
    text = printed_text(desk, word, n)
    return [f"PRINT {word} {n}", *([refused(text)] if isinstance(text, int) else text.decode().splitlines())]


def uses(desk):
    out = echoed(desk, """DAY 3420558,DAY 14989860,DATE 9365 11 - 1,DATE 11 8 L 1,DATE 0 10 - 1,MOVE 0 11 - 1 27759,MOVE 0 11 - 1 -1,PLACE 9366,PLACE 0,YEAR 11,YEAR 12,YEAR 41041,MONTH 134,MONTH 507600,QUARTER 115830 2,QUARTER 115830 4,TERM 9366 0,TERM 9366 24""".split(","))
    out += uses_search(desk, "27 9 ? 1 ? ? 3600 4000") + uses_search(desk, "27 9 ? 1 ? ? 4000 3600")
    out += uses_read([0, 0, 1, 0, 134, 0, 0, 0, 0, 0]) + uses_read([1, 0, 11])
    out += uses_write([11], [134], [3957]) + uses_write([YEARS + 1], [134], [3957])
    for word, n, outside in (("YEAR", 11, YEARS + 1), ("LINE", 134, MONTHS), ("MONTH", 134, MONTHS), ("DAY", 0, DAYS)):
        out += uses_printed(desk, word, n) + uses_printed(desk, word, outside)
    out += echoed(desk, ("CONJUNCTION 4 11826", "CONJUNCTION 6 1", "NEXT 4 3453043", "NEXT 1 14989826", "PAIR 5", "PAIR 0"))
    return out + ["DIVISOR 27612900 25286988", f"DIVISOR {common_divisor(27612900, 25286988)}"]


# The program `printed`: the printed list of a bu.


def printed():
    """940 lines of place, day and name, as the clerk walks the months: 29 days and 499 parts a month, names round sixty from 1."""
    out, day, rest, day_name = [], 0, 0, 1
    for place in range(940):
        out.append(f"{place} {day} {day_name}")
        rest += 499
        days = 30 if rest >= 940 else 29
        rest -= 940 * (days - 29)
        day += days
        for _ in range(days):
            day_name = day_name + 1 if day_name < 60 else 1
    assert day == 27759 and rest == 0
    return out


# Drawers of days.


def drawer(desk, days, room):
    """The answer for a drawer into so many records: how many were filled, and their lines; or its reason, that of a day with its place."""
    outside = [place for place, day in enumerate(days) if not 0 <= day < DAYS]
    if len(days) > 4096 or len(days) > room:
        return [refused(10 if len(days) > 4096 else 12)]
    return [refused(6), f"AT {outside[0]}"] if outside else [f"FILLED {len(days)}", *(line for d in days for line in desk.day(d))]


# Emendings of a reading.


def emended(desk, row, room):
    """The answer of an emending into a list of so many places: how many days fit, or every day with one fault and what it is."""
    *reading, first, last = row_values(row)
    answer = desk.search(reading, first, last)[:1]
    if answer != ["FOUND 0"]:
        return [line.replace("FOUND", "FITS") for line in answer]
    lines = []
    for day in range(first, last + 1):
        faults = [(i, f, v) for i, (f, v) in enumerate(zip(reading, desk.six(day)), 1) if f not in (None, v)]
        for field, *values in faults if len(faults) == 1 else []:
            lines.append(f"EMENDATION {day} {field}" + spaced("?-L"[v] if field == 3 else v for v in values))
    return [refused(12), f"TOTAL {len(lines)}"] if 4 * len(lines) > room else [f"EMENDED {len(lines)}", *lines]


# The example for C, crates/capi/example.c: of a refusal its number alone, since C has no words of the reasons.


def example_form(desk, form, data):
    """A sheet in the other form, or the reason."""
    answer = converted(desk, form, data)
    told = [refused(answer)] if isinstance(answer, int) else [f"BYTES {len(answer)}", "SHEET" + spaced(answer)]
    return [f"TO {form.upper()}" + spaced(data), *told]


def example_readings(desk):
    """Year 11 in the new form and back; with a reading beside it: what is read, the search's answer to the reading, and no old form."""
    row, year = "27 9 L 1 ? ? 3600 4000", new_sheet(years=[11])
    *fields, first, last = row_values(row)
    data = new_sheet([([f or 0 for f in fields], first, last)], years=[11])
    read, (answer, days) = read_new(desk, data), found(desk, row, 2)
    out = example_form(desk, "new", year[:-2]) + example_form(desk, "old", year)
    out += ["READ NEW" + spaced(data), "COUNTS" + spaced(map(len, read)), "NUMBERS" + spaced(read[3][0])]
    out += [f"SEARCH {row} INTO 2", *answer, *(line for d in days for line in desk.day(d))]
    return out + example_form(desk, "old", data)


def example(desk):
    out = echoed(desk, """DAY 14989859,DAY 14989860,DATE 0 12 - 1,DATE 11 8 L 1,DATE 11 9 L 30,MOVE 0 11 - 1 27759,MOVE 0 11 - 1 -1,PLACE 9366,MONTH 115830,QUARTER 115830 2,TERM 9366 0,YEAR 11,CLERK 2 0,CLERK 2 1,CLERK 1 129,CLERK 540 940,CLERK 541 0,CONJUNCTION 4 11826,NEXT 4 3453334""".split(","))
    row, sheet = "27 9 ? 1 ? ? 3600 4000", write_sheet(([11], [], []), 8)
    for days, room in (([DAYS - 1, 29, 3957], 3), ([29, DAYS, 3957], 3), ([DAYS - 1, 29, 3957], 2)):
        out += [f"DRAWER{spaced(days)} INTO {room}", *drawer(desk, days, room)]
    for room in (1, 2):
        answer, days = found(desk, row, room)
        out += [f"SEARCH {row} INTO {room}", *answer, *(line for d in days for line in desk.day(d))]
    for slip, room in (("27 5 - 29 59 30", 7), ("27 5 - 29 59 30", 8), ("27 9 - 5 2 58", 8), ("27 5 - 30 59 30", 0)):
        out += [f"EMEND {slip} 3600 4000 INTO {room}", *emended(desk, f"{slip} 3600 4000", room)]
    out += echoed(desk, ["FIGURES 11 11", "FIGURES 9368 9443", "FIGURES 9 8"])
    out += ["WRITE 11,,", f"BYTES {len(sheet)}", "SHEET" + spaced(sheet), "COUNTS" + spaced(map(len, read_sheet(sheet, (1,) * 3)))]
    out += uses_printed(desk, "YEAR", 11)
    out += example_readings(desk)
    judged = [verdict(desk, line) for line in b"128 4 - 60 30 -\n129 5 - 30 29 E\n130 6 -".split(b"\n")]
    out += ["CONCORDANCE", f"LINES {len(judged)}", *(f"{i} {7 if v is None else v}" for i, v in enumerate(judged, 1))]
    return [" ".join(line.split()[:2]) if line.startswith("REFUSED") else line for line in out]


def main():
    desk = Desk()
    outputs = {"beside/stdout": beside(desk), "uses/stdout": uses(desk), "printed/stdout": printed(), "capi/example.out": example(desk)}
    return hold({ROOT / "crates" / path: "".join(line + "\n" for line in lines).encode() for path, lines in outputs.items()})


if __name__ == "__main__":
    sys.exit(main())
