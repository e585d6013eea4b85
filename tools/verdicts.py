#!/usr/bin/env python3
"""Texts for the program `verdicts`, and what it must write for them, by a computation of its own.

The publisher's concordance, samples/publisher.txt, has one fault of every kind among lines of year 11 (PUBLISHER, each with what is
wrong with it); crates/verdicts/stdin is that text and many lines more, right, damaged and random. Lines are read by a regular
expression and held against the walked calendar of tools/walked.py, which shares nothing with the library.

usage: tools/verdicts.py               write the sample, the program's input and its expected output
       tools/verdicts.py --check       say whether what stands is what it computes (exit status 1 if not)
"""
import random
import re
import sys

sys.dont_write_bytecode = True

from walked import MONTHS, ROOT, Desk, hold, month_fields, refused

NUMBER = rb"(0|[1-9][0-9]{0,8})"
LINE = re.compile(rb" ".join([NUMBER, NUMBER, rb"([-L])", NUMBER, NUMBER, rb"([-E])"]))
FIELDS = ["month count", "number", "leap mark", "first day's name", "length", "eclipse mark"]
MOST = 65536

# A publisher's list of year 11's months, with a fault of every kind.
PUBLISHER = [
    (b"125 1 - 32 29 -", "right"),
    (b"507600 2 - 1 30 -", "a month count out of range"),
    (b"127 4 - 31 29 -", "another number"),
    (b"128 4 - 60 30 -", "right"),
    (b"129 5 - 30 29 E", "the second of two big months struck out"),
    (b"129 5 - 30 30 E", "right"),
    (b"130 6 - 59 29 -", "another name"),
    (b"131 7 - 29 30 E", "an eclipse mark too many"),
    (b"134 9 - 58 29 E", "the leap mark lost"),
    (b"132 8 L 59 30 -", "leap mark and length: the first is told"),
    (b"0133 9 - 28 30 -", "a leading zero"),
    (b"133 9 - 28 30 -\r", "a carriage return"),
    (b"133 9 -\t28 30 -", "a tab"),
    (b"133  9 - 28 30 -", "two spaces"),
    (b" 133 9 - 28 30 -", "a space before"),
    (b"133 9 - 28 30 - ", "a space after"),
    (b"MONTH 133 9 - 28 30 -", "a word before"),
    (b"133 9 - 28 30", "five fields"),
    (b"133 9 - 28 30 - -", "seven fields"),
    (b"", "an empty line"),
    (b"133 9 l 28 30 -", "a small letter"),
    (b"133 9 E 28 30 -", "the other mark's letter"),
    (b"133 9 - 0000000028 30 -", "ten digits"),
    (b"133 9 - 1000000000 30 -", "ten digits without a leading zero"),
    (b"133 9 - 999999999 30 -", "nine digits: another name"),
    (b"133 0 - 28 30 -", "nought alone: another number"),
    (b"133 9 - 28 -1 -", "a sign"),
    (b"135 10 - 27 30 -", "right, and no newline behind it"),
]


def lines_of(text):
    """A newline ends a line; a last line without one counts."""
    lines = text.split(b"\n")
    return lines[:-1] if lines[-1] == b"" else lines


def verdict(desk, line):
    """None for unreadable, 0 for right, or the first wrong field."""
    read = LINE.fullmatch(line)
    if not read:
        return None
    count = int(read[1])
    if count >= MONTHS:
        return 1
    printed = [str(field).encode() for field in month_fields(desk, count).split()]
    return next((i for i, (a, b) in enumerate(zip(read.groups(), printed), 1) if a != b), 0)


def report(desk, text):
    if len(text) > MOST:
        return (refused(18) + "\n").encode()
    verdicts = [verdict(desk, line) for line in lines_of(text)]
    said = {None: "UNREADABLE", 0: "RIGHT", **{i: f"WRONG {i} {words}" for i, words in enumerate(FIELDS, 1)}}
    out = [f"{i} {said[v]}" for i, v in enumerate(verdicts, 1)]
    unreadable = verdicts.count(None)
    right = verdicts.count(0)
    out.append(f"TOTAL {right} {len(verdicts) - right - unreadable} {unreadable}")
    return ("\n".join(out) + "\n").encode()


def damaged(draw, line):
    """A line with a byte changed, put in or taken out."""
    place = draw.randrange(len(line))
    byte = bytes([draw.choice(b"0123456789 -LE\rM\xff\x00")])
    return draw.choice([line[:place] + byte + line[place + 1:], line[:place] + byte + line[place:], line[:place] + line[place + 1:]])


def page(desk):
    """The program's input: the publisher's lines, then lines over the whole range, right, damaged, exchanged and of any bytes."""
    draw = random.Random(85)
    lines = [line for line, _ in PUBLISHER]
    months = [0, 1, 127, 128, 129, 134, MONTHS - 1, *(draw.randrange(MONTHS) for _ in range(1500))]
    for n in months:
        line = month_fields(desk, n).encode()
        lines.append(line)
        fields, others = line.split(b" "), month_fields(desk, (n + 1 + n % 5) % MONTHS).encode().split(b" ")
        field = draw.randrange(6)
        lines.append(draw.choice([damaged(draw, line), b" ".join(fields[:field] + [others[field]] + fields[field + 1:])]))
        if draw.randrange(10) == 0:
            lines.append(bytes(draw.randrange(256) for _ in range(draw.randrange(25))))
    text = b"\n".join(lines)
    assert len(text) < MOST
    return text


def main():
    desk = Desk()
    sample = b"\n".join(line for line, _ in PUBLISHER)
    kinds = report(desk, sample)
    assert all(words.encode() in kinds for words in ["RIGHT", "UNREADABLE", *FIELDS])
    text = page(desk)
    return hold({
        ROOT / "samples" / "publisher.txt": sample,
        ROOT / "crates" / "verdicts" / "stdin": text,
        ROOT / "crates" / "verdicts" / "stdout": report(desk, text),
    })


if __name__ == "__main__":
    sys.exit(main())
