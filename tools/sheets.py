#!/usr/bin/env python3
"""The sheets of the programs `sheets` and `listing`, and what they must write for them, by a computation of its own.

The sheets are made here, byte by byte, and stand in crates/sheets/data/, their names in crates/sheets/args; that of `listing` is the
paper's, of the civil year 11 alone. What must be written is computed from them by the walked calendar, the plain reader and the plain
lines of tools/walked.py, which share nothing with the library. Of year 11 the paper prints all but the last two lines: these stand
in PAPER, and what is computed is held against them.

usage: tools/sheets.py            write the sheets, their names and the expected outputs
       tools/sheets.py --check    say whether what stands is what it computes (exit status 1 if not)
"""
import sys

sys.dont_write_bytecode = True

from walked import DAYS, MONTHS, ROOT, YEARS, Desk, hold, listed_day, month_fields, read_sheet, year_block

# Year 11 as the paper lists it, from its month 1 on; by request W4 its months are 125 to 137.
PAPER = """YEAR 11 NAME 27 MONTHS 13
125 1 - 32 29 -
126 2 - 1 30 -
127 3 - 31 29 -
128 4 - 60 30 -
129 5 - 30 30 E
130 6 - 60 29 -
131 7 - 29 30 -
132 8 - 59 29 -
133 9 - 28 30 -
134 9 L 58 29 E
135 10 - 27 30 -
"""


def two(n):
    return n.to_bytes(2, "little")


def four(n):
    return n.to_bytes(4, "little")


def sheet(years=(), months=(), days=()):
    out = two(len(years)) + b"".join(map(two, years))
    out += two(len(months)) + b"".join(map(four, months))
    return out + two(len(days)) + b"".join(map(four, days))


def spread(count, least, most, step):
    """So many items over a range, both ends among them, stepping round it so that neighbours lie far apart."""
    size = most - least + 1
    items = [least + i * step % size for i in range(count)]
    if count > 1:
        items[-1] = most
    return items


def many(count):
    return sheet(spread(count, 0, YEARS, 7919), spread(count, 0, MONTHS - 1, 104729), spread(count, 0, DAYS - 1, 1299709))


def sheets():
    full = many(1000)
    assert len(full) == 10006
    eleven = sheet([11])
    return {
        # the empty sheet, the paper's own, and counts of 0, 1, 999 and 1,000 in every section and in one alone
        "empty": sheet(),
        "year-11": eleven,
        "one-of-each": sheet([1], [0], [0]),
        "first-of-each": sheet([0], [0], [0]),
        "last-of-each": sheet([YEARS], [MONTHS - 1], [DAYS - 1]),
        # civil years: the two that are not whole and those beside them, and those with a leap 12, a leap 10 and a leap 11
        "years-not-whole": sheet([0, 1, YEARS - 1, YEARS]),
        "years-of-leap-12-10-11": sheet([8, 9, 19, 27, 28], [100, 101, 234, 235, 334, 335], [58, 59, 2981, 2982, 9863, 9892]),
        "months-alone": sheet(months=[0, 1, 5, 6, 128, 129, 134, 135, 116957, 116962, 507599]),
        "days-alone": sheet(days=[0, 28, 29, 27758, 27759, 3420558, 3420573, 3808, 3809, 3838, 3957, 14989859]),
        "same-year-twice": sheet([11, 12, 11]),
        "years-999": sheet([1] * 999),
        "months-1000": sheet(months=spread(1000, 0, MONTHS - 1, 15013)),
        "days-1000": sheet(days=spread(1000, 0, DAYS - 1, 15485863)),
        "of-each-999": many(999),
        "full": full,
        # 9, sheet ends before a count or an item is whole
        "nine-no-bytes": b"",
        "nine-half-a-count": b"\0",
        "nine-no-months": two(0),
        "nine-half-a-year": two(1) + b"\x0b",
        "nine-three-bytes-of-a-month": two(0) + two(1) + b"\x86\0\0",
        "nine-no-days": two(0) + two(0) + b"\0",
        "nine-three-bytes-of-a-day": two(0) + two(0) + two(1) + b"\0\0\0",
        "nine-full-cut-by-one": full[:-1],
        # 10, a count above 1,000
        "ten-years-1001": two(1001) + two(11) * 1001 + two(0) + two(0),
        "ten-months-1001": two(0) + two(1001) + four(0) * 1001 + two(0),
        "ten-days-1001": two(0) + two(0) + two(1001) + four(0) * 1001,
        "ten-years-65535": two(65535),
        # 1, 7 and 6, an item outside its range
        "one-year-41041": sheet([0, 41040, 41041]),
        "one-year-65535": sheet([65535]),
        "seven-month-507600": sheet(months=[507599, 507600]),
        "seven-month-4294967295": sheet(months=[4294967295]),
        "six-day-14989860": sheet(days=[14989859, 14989860]),
        # 11, bytes after the last section
        "eleven-empty-and-one": sheet() + b"\0",
        "eleven-full-and-one": full + b"\0",
        "eleven-full-and-twice": full + full,
        "eleven-20000-noughts": b"\0" * 20000,
        # the first fault in byte order
        "order-nine-before-one": two(2) + two(11) + b"\0",
        "order-one-before-nine": two(2) + two(41041) + b"\0",
        "order-one-before-ten": sheet([41041])[:-4] + two(1001),
        "order-ten-before-seven": two(0) + two(1001) + four(507600),
        "order-seven-before-six": sheet(months=[507600], days=[14989860]),
        "order-six-before-eleven": sheet(days=[14989860]) + b"\0",
        "overlong-first-year-41041": two(1000) + two(41041) + full[4:] + full,
        "overlong-last-day-out": full[:-4] + four(14989860) + full,
        "overlong-days-1001": full[:6004] + two(1001) + full[6006:] + four(0) * 2,
    }


def listing(desk, data):
    """What the listing program prints for a sheet: years, months, days, or `REFUSED` and the number."""
    read = read_sheet(list(data), (1000, 1000, 1000))
    if isinstance(read, int):
        return f"REFUSED {read}\n"
    lines = [line for y in read[0] for line in year_block(desk, y)]
    lines += ["MONTH " + month_fields(desk, n) for n in read[1]]
    lines += [listed_day(desk, d) for d in read[2]]
    return "".join(line + "\n" for line in lines)


def main():
    home, desk, all_sheets = ROOT / "crates" / "sheets", Desk(), sheets()
    text = "".join(f"SHEET {key}\n{listing(desk, data)}" for key, data in all_sheets.items())
    met = {int(line.split()[1]) for line in text.splitlines() if line.startswith("REFUSED")}
    assert met == {1, 6, 7, 9, 10, 11}, met
    files = {home / "args": "".join(f"{key}\n" for key in all_sheets).encode(), home / "stdout": text.encode()}
    files |= {home / "data" / key: data for key, data in all_sheets.items()}
    paper, of_paper = ROOT / "crates" / "listing", listing(desk, all_sheets["year-11"])
    assert of_paper.startswith(PAPER) and [line.split()[0] for line in of_paper[len(PAPER):].splitlines()] == ["136", "137"]
    return hold(files | {paper / "stdin": all_sheets["year-11"], paper / "stdout": of_paper.encode()})


if __name__ == "__main__":
    sys.exit(main())
