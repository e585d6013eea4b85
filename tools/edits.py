#!/usr/bin/env python3
"""Whether every must-fail edit still applies: each `old:` text stands exactly once in its file, after the sets before it.

Also told: an edit without a comment line, one that edits no file of src/ or specs/, one without a set, and one whose `old:` and `new:`
are the same.

usage: tools/edits.py [CRATE..]    what is found, in these crates or in all; exit status 1 if something is
"""
import pathlib
import sys

CRATES = pathlib.Path(__file__).resolve().parent.parent / "crates"


def faults(edit, crate):
    texts = {}
    file = old = None
    sets = 0
    lines = edit.read_text().splitlines()
    if not lines or not lines[0].startswith("# "):
        yield "no comment line"
    for number, line in enumerate(lines, 1):
        if line.startswith("file: "):
            file = line[6:]
            if not file.startswith(("src/", "specs/")):
                yield f"line {number}: {file} is not of src/ or specs/"
        elif line.startswith("old: "):
            old = line[5:]
        elif line.startswith("new:"):
            new = line[4:].removeprefix(" ")
            if file is None or old is None:
                yield f"line {number}: no `file:` or no `old:` before it"
                continue
            sets += 1
            path = crate / file
            if file not in texts:
                if not path.is_file():
                    yield f"line {number}: no file {file}"
                    continue
                texts[file] = path.read_text()
            times = texts[file].count(old)
            if times != 1:
                yield f"line {number}: the `old:` text stands {times} times in {file}: {old.strip()}"
            if old == new:
                yield f"line {number}: nothing is changed"
            texts[file] = texts[file].replace(old, new, 1)
            old = None
    if not sets:
        yield "no set of `file:`, `old:` and `new:`"


def main():
    names = sys.argv[1:] or sorted(c.name for c in CRATES.iterdir() if c.is_dir())
    edits = found = 0
    for name in names:
        for edit in sorted((CRATES / name / "must-fail").glob("*.edit")):
            edits += 1
            for fault in faults(edit, CRATES / name):
                found += 1
                print(f"crates/{name}/must-fail/{edit.name}: {fault}")
    print(f"{edits} edits, {found} faults")
    return 1 if found else 0


sys.exit(main())
