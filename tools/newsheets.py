#!/usr/bin/env python3
"""Sheets of the new form, with readings, and what the programs `answering`, `tonew` and `toold` must write for them, by a computation of its own.

The sheets are made here, byte by byte: whole, full, overlong, with one fault of every kind in every place; cut at every byte and damaged at every
field. Reading, answering and converting are by the plain reader below, the walked calendar and the plain lines of tools/walked.py, which share
nothing with the library. samples/readings.sheet is the sheet of `answering`, samples/new-year-11.sheet the paper's year
11 in the new form. .ci/pipes runs the programs on all of them.

usage: tools/newsheets.py            write the programs' inputs, expected outputs and the samples
       tools/newsheets.py --check    say whether what stands is what it computes (exit status 1 if not)
"""
import sys

sys.dont_write_bytecode = True

from sheets import four, listing, many, sheet, two
from walked import DAYS, ROOT, Desk, hold, read_sections, read_sheet, take_number

# "14 bytes each: the six fields, one byte each, then first and last day of the window"; their ranges
MOST = (60, 12, 2, 30, 60, 60)


def reading(fields, first, last):
    return bytes(fields) + four(first) + four(last)


def new_sheet(readings=(), **lists):
    return sheet(**lists) + two(len(readings)) + b"".join(reading(*one) for one in readings)


def read_new(desk, data):
    """The three lists and the readings, each of eight numbers, or the reason's number: in byte order, then 11."""
    data = list(data)
    front = read_sections(data)
    if isinstance(front, int):
        return front
    end, lists = front
    count = take_number(data, end, 2)
    if count is None:
        return 9
    if count > 500:
        return 10
    at, readings = end + 2, []
    for _ in range(count):
        if at + 14 > len(data):
            return 9
        numbers = data[at:at + 6] + [take_number(data, at + 6, 4), take_number(data, at + 10, 4)]
        reason = desk.unsound([f or None for f in numbers[:6]], numbers[6], numbers[7])
        if reason:
            return reason
        readings.append(numbers)
        at += 14
    return 11 if at < len(data) else [*lists, readings]


def answers(desk, data, found={}):
    """What the answering program prints."""
    read = read_new(desk, data)
    if isinstance(read, int):
        return f"REFUSED {read}\n"
    text = listing(desk, sheet(*read[:3]))
    for numbers in read[3]:
        shown = [str(f) if f else "?" for f in numbers[:6]]
        shown[2] = "?-L"[numbers[2]]
        key = tuple(numbers)
        if key not in found:
            found[key] = desk.search([f or None for f in numbers[:6]], numbers[6], numbers[7])
        text += "".join(line + "\n" for line in [f"READING {' '.join(shown)} {numbers[6]} {numbers[7]}", *found[key]])
    return text


def converted(desk, form, data):
    """The bytes in the form that is asked for, or the reason's number."""
    if form == "new":
        read = read_sheet(list(data), (1000, 1000, 1000))
        return read if isinstance(read, int) else data + two(0)
    read = read_new(desk, data)
    if isinstance(read, int):
        return read
    return 17 if read[3] else data[:-2]


# Readings: all known, some, none; the slip of README's front page; windows of one day and of 27,759.
KNOWN = ((22, 1, 1, 9, 60, 52), 3420600, 3420800)
SLIP = ((0, 9, 0, 0, 34, 0), 3420558, 3421558)
LEAP = ((27, 9, 2, 0, 0, 58), 3000, 4500)
NONE = ((0, 0, 0, 0, 0, 0), 0, 2)
LAST = ((60, 12, 2, 30, 60, 60), DAYS - 27759, DAYS - 1)
WIDE = ((0, 0, 2, 30, 1, 0), 0, 27758)
GOOD = (KNOWN, SLIP, LEAP, NONE, LAST, WIDE)
SOME = new_sheet(GOOD, years=[11], months=[134], days=[0, 3957])


def cuts():
    return {f"cut-{end}": SOME[:end] for end in range(len(SOME))}


def damaged():
    """One byte of the second reading put wrong: each field above its range, a leap byte above 2, each end of the window past the range, the window
    turned round and too long; and two faults at once, of which the first by the order 6, 13, 14 is told."""
    out = {}

    def put(key, fields=SLIP[0], first=SLIP[1], last=SLIP[2]):
        out[key] = new_sheet([KNOWN, (fields, first, last), NONE], years=[11])

    for i, most in enumerate(MOST):
        for value in (most, most + 1, 255):
            put(f"field-{i + 1}-{value}", tuple(value if k == i else 0 for k in range(6)))
    put("first-past", first=DAYS)
    put("last-past", last=DAYS)
    put("first-far-past", first=2**32 - 1)
    put("last-far-past", last=2**32 - 1)
    put("turned", first=SLIP[2], last=SLIP[1])
    put("one-day", first=SLIP[1], last=SLIP[1])
    put("27759-days", last=SLIP[1] + 27758)
    put("27760-days", last=SLIP[1] + 27759)
    put("field-and-past", (61, 0, 0, 0, 0, 0), last=DAYS)
    put("field-and-turned", (0, 0, 3, 0, 0, 0), first=9, last=8)
    put("turned-and-past", first=DAYS, last=0)
    return out


def more():
    full = many(1000) + two(500) + b"".join(reading(*GOOD[i % 5]) for i in range(500))
    assert len(full) == 17008
    old = sheet([11])
    return {
        "empty": two(0) * 4,
        "old-empty": two(0) * 3,
        "old-year-11": old,
        "new-year-11": new_sheet(years=[11]),
        "one-reading": new_sheet([KNOWN]),
        "some": SOME,
        "some-twice": new_sheet(GOOD[:4] * 2),
        "full": full,
        "full-without": many(1000) + two(0),
        "nine-full-cut-by-one": full[:-1],
        "nine-full-and-no-count": many(1000),
        "nine-half-a-count": old + b"\0",
        "ten-501": old + two(501) + reading(*NONE) * 501,
        "ten-501-alone": old + two(501),
        "ten-1000": old + two(1000),
        "ten-years-1001": two(1001) + b"\0" * 20000,
        "eleven-one-byte": new_sheet([KNOWN]) + b"\0",
        "eleven-none-and-one-byte": new_sheet() + b"\0",
        "eleven-overlong": full + full,
        "eleven-full-and-one": full + b"\0",
        "overlong-14-before-11": full[:-14] + reading((61, 0, 0, 0, 0, 0), 0, 0) + full,
        "order-1-before-14": new_sheet([((61, 0, 0, 0, 0, 0), 0, 0)], years=[41041]),
        "order-9-before-14": new_sheet([((61, 0, 0, 0, 0, 0), 0, 0)])[:-1],
        "order-14-before-9": new_sheet([((61, 0, 0, 0, 0, 0), 0, 0), NONE])[:-1],
        "order-14-before-6": new_sheet([((61, 0, 0, 0, 0, 0), 0, 0), ((0,) * 6, DAYS, 0)]),
        "order-6-before-11": new_sheet([((0,) * 6, DAYS, 0)]) + b"\0",
        "noughts": b"\0" * 20000,
    }


def all_sheets():
    return more() | cuts() | damaged()


def main():
    desk = Desk()
    met = {read for read in (read_new(desk, data) for data in all_sheets().values()) if isinstance(read, int)}
    assert met == {1, 6, 9, 10, 11, 13, 14}, met
    crates, samples = ROOT / "crates", ROOT / "samples"
    old, new = sheet([11]), new_sheet(years=[11])
    assert converted(desk, "new", old) == new and converted(desk, "old", new) == old and converted(desk, "old", SOME) == 17
    return hold({
        crates / "answering" / "stdin": SOME,
        crates / "answering" / "stdout": answers(desk, SOME).encode(),
        crates / "tonew" / "stdin": old,
        crates / "tonew" / "stdout": new,
        crates / "toold" / "stdin": new,
        crates / "toold" / "stdout": old,
        samples / "readings.sheet": SOME,
        samples / "new-year-11.sheet": new,
    })


if __name__ == "__main__":
    sys.exit(main())
