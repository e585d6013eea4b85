"""A page for the program that echoes: notes, queries, and the answers that must stand after them. A module, not a program.

An answer is computed by tools/walked.py; then the figures that a source prints (the paper, or 004) are put into their places in it,
so that the expected line has the source's own figure wherever the source has one. Where the calendar and the source differ, the
source's figure stands there, and the program is found to differ from it. So it is with the known dates, and with the rows of 004 that
are marked as agreeing; where a row is marked as differing, the rule's figure stands there. The planets' proved table is held against
the calendar first: tools/known.py stops where they differ. A figure without a place stops the tool.

A place has the name that the field has in README's table of queries. `reason` is a whole refusal: its number with its words.
"""
from walked import LONGEST, ROOT, Desk, is_note, refused

# Each answer's words and fields; a word in capitals stands as it is.
SHAPES = """
PLACE ji bu year-in-bu head-name first-month leap-remainder months
YEAR year NAME name MONTHS months FIRST first-month LEAP leap-number leap-month
MONTH count number mark first-name length eclipse first-day small-remainder
QUARTER day parts
TERM day parts
CONJUNCTION day parts divisor phase
NEXT k day parts divisor phase
PAIR years conjunctions
DAY day year number mark day-of-month day-name month-length year-name ji bu year-in-bu eclipse
FOUND total
FITS total
EMENDED total
EMENDATION day field read should-be
CLERK count number mark first-name length eclipse first-day small-remainder
FIGURES big small pairs eclipses
"""
# The counts of a yearbook's figures by number and by name.
SHAPES += "LEAP" + "".join(f" leap-{k}" for k in range(1, 13)) + "\nNAMES" + "".join(f" name-{k}" for k in range(1, 61)) + "\n"
SHAPES = {line.split()[0]: line.split() for line in SHAPES.strip().split("\n")}


def fields(line):
    """An answer's fields by their names; of a refusal its reason alone."""
    words = line.split(" ")
    if words[0] == "REFUSED":
        return {"reason": words[1]}
    return {place: word for place, word in zip(SHAPES[words[0]], words, strict=True) if place != word}


def with_figures(line, figures):
    """The line with a source's figures in their places."""
    if "reason" in figures:
        assert len(figures) == 1, figures
        return refused(int(figures["reason"]))
    if not figures:
        return line
    words = line.split(" ")
    places = SHAPES[words[0]]
    for place, figure in figures.items():
        assert place.islower() and places.count(place) == 1, (line, place)
        words[places.index(place)] = str(figure)
    made = " ".join(words)
    assert all(fields(made)[place] == str(figure) for place, figure in figures.items()), (made, figures)
    return made


class Page:
    """The lines of a program's input, and what it must write."""

    def __init__(self, desk=None):
        self.desk = desk or Desk()
        self.input, self.output, self.asked = [], [], []

    def note(self, text):
        line = f"# {text}".encode()
        assert is_note(line) and b"\n" not in line, (len(line), LONGEST, text)
        self.input.append(line)
        self.output.append(line)

    def answer(self, query):
        """The lines that the walked calendar answers."""
        answer = self.desk.told(query.encode())
        assert answer != ["UNREADABLE"], query
        return answer

    def ask(self, query, *figures):
        """A query, and a source's figures for the first lines of its answer, a dict for each."""
        answer = self.answer(query)
        assert len(figures) <= len(answer), (query, answer, figures)
        for i, printed in enumerate(figures):
            answer[i] = with_figures(answer[i], printed)
        self.asked.append((query, answer))
        self.input.append(query.encode())
        self.output += [line.encode() for line in (query, *answer)]

    def files(self, program):
        home = ROOT / "crates" / program
        return {home / "stdin": joined(self.input), home / "stdout": joined(self.output)}


def joined(lines):
    return b"".join(line + b"\n" for line in lines)
