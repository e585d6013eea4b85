#!/usr/bin/env python3
"""What the program `tray` must write: the reject tray, and what must not be rejected, as crates/tray/stdin asks for them.

A person writes that file, with the reason why each question stands there. Its answers are those of tools/walked.py, which walks
the calendar and shares nothing with the library. The file is held to what must be in it:

- every reason that a query can come back with is met;
- the edges of reason 16 are asked, ordinary and leap: in the two civil years that are not whole the numbers just outside and inside;
- each refused search stands there as a misread slip too, and is refused alike;
- nothing of the second part, what must not be rejected, comes back with a reason, is no query, or is a search or a misread slip for
  which nothing is found; an emendation to the thirtieth of the second of two big months in a row is found in it;
- all second months of two big months in a row of a bu stand there, and no other month is called one; of each the month before it and
  it are asked, and its first, fifteenth and thirtieth day and their dates, and of the first one every date.

usage: tools/tray.py            write crates/tray/stdout
       tools/tray.py --check    say whether what stands is what it computes (exit status 1 if not)
"""
import sys

sys.dont_write_bytecode = True

from walked import ROOT, YEARS, Desk, hold, is_note, lines_in, mark, pair_starts

HOME = ROOT / "crates" / "tray"
TRAY, KEPT = "# THE REJECT TRAY", "# WHAT MUST NOT BE REJECTED"
SECOND, SECONDS = "# second of two big: month ", "# seconds of two big in a bu: "
THIRTIETH = "EMENDATION 3838 4 29 30"
REASONS = {1, 2, 3, 4, 5, 6, 7, 8, 13, 14, 15, 16, 19, 20, 21}
NOT_WHOLE = {0: (1, 10, 11, 12), YEARS: (10, 11, 12)}


def hold_reasons(desk, lines):
    met = {int(told[0].split()[1]) for told in map(desk.told, lines) if told[0].startswith("REFUSED")}
    assert met == REASONS, REASONS ^ met


def hold_not_whole(texts):
    for year, numbers in NOT_WHOLE.items():
        assert {f"DATE {year} {number} {leap} 1" for number in numbers for leap in "-L"} <= set(texts), year


def hold_emended(desk, lines):
    for line in lines:
        told, slip = desk.told(line), line.replace(b"SEARCH", b"EMEND")
        assert slip == line or not told[0].startswith("REFUSED") or slip in lines and desk.told(slip) == told, line


def hold_kept(desk, lines):
    found = []
    for line in lines:
        told = desk.told(line)
        assert is_note(line) or told[0].split()[0] not in ("REFUSED", "UNREADABLE") and told[0] not in ("FOUND 0", "EMENDED 0"), line
        found += told[1:]
    month = desk.c.month_of(3838)
    assert desk.c.length(month - 1) == desk.c.length(month) == 30 and THIRTIETH in found


def second_lines(desk, n):
    """What is asked of the second month of a pair."""
    c = desk.c
    assert c.length(n - 1) == c.length(n) == 30
    lines = [f"MONTH {n - 1}", f"MONTH {n}"]
    for m in (1, 15, 30):
        lines += [f"DAY {c.starts[n] + m - 1}", f"DATE {c.civil_year[n]} {c.number[n]} {mark(c.leap[n])} {m}"]
    return lines


def hold_seconds(desk, lines):
    seconds = [n + 1 for n in pair_starts() if n < 940]
    asked = [line for n in seconds for line in (f"{SECOND}{n}", *second_lines(desk, n))] + [f"{SECONDS}{len(seconds)}"]
    start = lines.index(asked[0])
    assert lines[start:] == asked
    assert not any("second of two big: month" in line for line in lines[:start])
    n = seconds[0]
    dates = [f"DATE {desk.c.civil_year[n]} {desk.c.number[n]} {mark(desk.c.leap[n])} {m}" for m in range(1, 31)]
    assert lines[start - 31:start - 1] == dates


def main():
    desk, lines = Desk(), lines_in((HOME / "stdin").read_bytes())
    texts = [line.decode() for line in lines]
    assert texts[0] == TRAY and texts.count(KEPT) == 1
    hold_reasons(desk, lines)
    hold_not_whole(texts)
    hold_emended(desk, lines)
    hold_kept(desk, lines[texts.index(KEPT):])
    hold_seconds(desk, texts)
    return hold({HOME / "stdout": b"".join(map(desk.echo, lines))})


if __name__ == "__main__":
    sys.exit(main())
