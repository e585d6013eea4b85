#!/usr/bin/env python3
"""Whether the docs still say what the crates have, and whether what they show comes out.

- Each piece of code marked `rust` in docs/USES.md must stand word for word in crates/uses/src/main.rt, which the gate proves and runs,
  in crates/drawn/src/lib.rt, which the cross-check runs, or in a comment of rust/src/lib.rs, which `cargo test` runs.
- Each example of README.md and docs/USES.md, a command that is indented with its output in a block below it, must come out so. What
  is asked of ./desk is answered by tools/walked.py, which shares nothing with the library; with --run every such command is run, as
  it stands, and must print the block.
- README's table of the sixty names is that of the ten stems and twelve branches; its table of reasons is that of tools/walked.py.
- Each name between backticks in docs/PAPER.md and docs/CALLS.md must stand in a crate: as a word of its specs/, proofs/ or src/, as
  the name of a must-fail edit or of a crate, or as a path that exists. (That it stands where the row says is for a reader.)
- docs/CALLS.md lists every must-fail edit and every `pub fn` of a library, each with its crate: the one whose name the heading above
  has, or the one that the row begins with (`dates::date_of_day(..)`). Edits are listed in a column `Must-fail edits` or `Edit`, or in
  a line that begins with `Edits:`, one that stands in another crate with that in front (`penned::last_day_refused`); functions in a column `Call` or `Function`, or in a line that begins with `Functions:`. What is
  listed and stands in no such crate is told too, and a signature that is not the code's.
- CONTRIBUTING.md's table of the crates names each crate once.
- With --run, docs/TRUST.md's table of what each program assumes is what rt prints of it, and the archive for C assumes nothing.

usage: tools/docs.py [--run]    exit status 1 if something is not there, or does not come out; --run is for after `rt ci`
"""
import pathlib
import re
import shlex
import subprocess
import sys

sys.dont_write_bytecode = True

import walked

ROOT = pathlib.Path(__file__).resolve().parent.parent
CRATES = ROOT / "crates"
CALLS = ROOT / "docs" / "CALLS.md"
COLUMNS = {"Call": "fn", "Function": "fn", "Must-fail edits": "edit", "Edit": "edit"}
LINES = {"Functions:": "fn", "Edits:": "edit", "Edit:": "edit"}
SHOWN = (ROOT / "README.md", ROOT / "docs" / "USES.md")
STEMS = "甲 jia 乙 yi 丙 bing 丁 ding 戊 wu 己 ji 庚 geng 辛 xin 壬 ren 癸 gui".split()
BRANCHES = "子 zi 丑 chou 寅 yin 卯 mao 辰 chen 巳 si 午 wu 未 wei 申 shen 酉 you 戌 xu 亥 hai".split()


def words():
    found = {path.stem for path in CRATES.glob("*/must-fail/*.edit")} | {path.name for path in CRATES.iterdir()}
    for path in CRATES.glob("*/*/**/*"):
        if path.suffix in (".rt", ".antt") and path.relative_to(CRATES).parts[1] != "out":
            text = path.read_text(encoding="utf8")
            found |= set(re.findall(r"[^\s(){}\[\];,.«»:&]+", text)) | set(re.findall(r"\w+", text))
    return found


def is_path(token):
    return (ROOT / token).exists() or any(CRATES.glob("*/" + token.rstrip("/")))


def names(text):
    return re.findall(r"`([^`]+)`", text)


def strange_names(page, known):
    for number, line in enumerate(page.read_text(encoding="utf8").splitlines(), 1):
        for token in names(line):
            if is_path(token):
                continue
            parts = re.split(r"::|\.\.|\s", re.split(r"[(<]", token)[0])
            for part in parts:
                if part.strip("-") and part.strip("-") not in known and part not in known:
                    yield f"{page.relative_to(ROOT)}:{number}: `{token}`"
                    break


def strange_code(page, source):
    for code in re.findall(r"```rust\n(.*?)```", page.read_text(encoding="utf8"), re.DOTALL):
        if code not in source:
            yield f"{page.name}: neither in crates/uses or crates/drawn nor in a comment of rust/src/lib.rs:\n{code}"


def examples(page):
    """The commands of a page that have a block below them, each with what the block holds."""
    return re.findall(r"^    (\S[^\n]*)\n\n```\n(.*?)```$", page.read_text(encoding="utf8"), re.DOTALL | re.MULTILINE)


def computed(command, desk):
    """What `printf '..' | ./desk [--echo]` must print, by tools/walked.py; None for any other command."""
    words = shlex.split(command)
    if words[0] != "printf" or words[2:4] != ["|", "./desk"]:
        return None
    said = desk.echo if words[4:] == ["--echo"] else desk.answer
    return b"".join(said(line) for line in walked.lines_in(words[1].replace("\\n", "\n").encode())).decode()


def strange_examples(page, desk, run):
    shows = examples(page)
    if not shows:
        yield f"{page.name}: no example, where there should be some"
    for command, shown in shows:
        by_hand = computed(command, desk)
        if by_hand is not None and by_hand != shown:
            yield f"{page.name}: {command}\n    tools/walked.py has:\n{by_hand}"
        if run:
            done = subprocess.run(command, shell=True, cwd=ROOT, stdout=subprocess.PIPE, stderr=subprocess.PIPE, check=False)
            if done.returncode != 0 or done.stdout.decode() != shown:
                yield f"{page.name}: {command}\n    prints:\n{done.stdout.decode()}{done.stderr.decode()}"


def strange_sixty(page):
    """Each of the sixty names by its number, Chinese and pinyin."""
    text = page.read_text(encoding="utf8")
    for n in range(60):
        stem, branch = n % 10 * 2, n % 12 * 2
        cell = f"| {n + 1} {STEMS[stem]}{BRANCHES[branch]} {STEMS[stem + 1]}{BRANCHES[branch + 1]} |"
        if text.count(cell) != 1:
            yield f"{page.name}: not once in the table of the sixty names: {cell}"


def strange_reasons(page):
    """Each reason by its number and its words."""
    rows = re.findall(r"^\| (\d+) \| (.*) \|$", page.read_text(encoding="utf8"), re.MULTILINE)
    if {int(number): words for number, words in rows} != walked.WORDS:
        yield f"{page.name}: the table of reasons is not that of tools/walked.py"


def strange_crates(page):
    """CONTRIBUTING's table of the crates has each of them in one row."""
    rows = re.findall(r"^\| (`[^|]*) \|", page.read_text(encoding="utf8"), re.MULTILINE)
    listed = [name for row in rows for name in names(row)]
    for crate in sorted({path.name for path in CRATES.iterdir()} | set(listed) - {"rust/"}):
        if listed.count(crate) != 1 or not (CRATES / crate).exists():
            yield f"{page.name}: the table of the crates has `{crate}` {listed.count(crate)} times"


def assumed(crate):
    """What rt prints as axioms of a crate, as docs/TRUST.md has it: each function of C's by its name, those of another library by their
    number."""
    run = subprocess.run(["rt", "check", "--list-axioms"], cwd=CRATES / crate, stdin=subprocess.DEVNULL, stdout=subprocess.PIPE, check=False)
    # What is said of the crate itself comes last, below what is said of the libraries that had to be built.
    said, proved = re.split(r"^logic=proved ", "\n" + run.stdout.decode(), flags=re.MULTILINE)[-2:] if run.returncode == 0 else ("", "")
    if not proved:
        return "what is not proved"
    by_name = re.findall(r"^  (libc::\S+) +reached$", said, re.MULTILINE)
    by_number = re.findall(r"^axioms (\w+): (\d+) reached of", said, re.MULTILINE)
    numbers = {library: int(n) for library, n in by_number}
    count = sum(int(n) for n in re.findall(r"\baxioms=(\d+)", proved.partition("\n")[0]))
    told = ", ".join(f"`{name}`" for name in by_name) + "".join(f"; {n} of `{library}`" for library, n in by_number if library != "libc")
    return told if numbers.get("libc", 0) == len(by_name) and sum(numbers.values()) == count else f"{told} and others"


def strange_axioms(page):
    rows = re.findall(r"^\| (`[^|]*) \| (`libc[^|]*) \|$", page.read_text(encoding="utf8"), re.MULTILINE)
    told = {name: cell for programs, cell in rows for name in names(programs)}
    by_c = assumed("capi")
    if by_c:
        yield f"{page.name}: the archive for C assumes {by_c}"
    for crate in sorted(path.parent.parent.name for path in CRATES.glob("*/src/main.rt")):
        by_it = assumed(crate)
        if told.get(crate, "").partition(" (")[0] != by_it:
            yield f"{page.name}: `{crate}` assumes {by_it}, and the table has {told.get(crate)}"


def source(crate):
    """The code of a crate, each signature in one line."""
    text = " ".join(path.read_text(encoding="utf8") for path in sorted((CRATES / crate / "src").glob("**/*.rt")))
    return re.sub(r",? \)", ")", re.sub(r"\s+", " ", text)).replace("( ", "(")


def named_crate(name):
    """The crate that a name has in front, as `dates::date_of_day(..)`."""
    return name.partition("::")[0] if "::" in name.partition("(")[0] else None


def listings(crates):
    """What docs/CALLS.md lists: line number, `fn` or `edit`, its crate or None, and the name between backticks."""
    here, columns = None, None
    for number, line in enumerate(CALLS.read_text(encoding="utf8").splitlines(), 1):
        row = [cell.strip() for cell in line.strip("|").split("|")] if line.startswith("|") else None
        if line.startswith("#"):
            named = [name for name in names(line) if name in crates]
            here = named[0] if len(named) == 1 else None
        elif row and columns:
            first = names(row[0])[0] if names(row[0]) else ""
            crate = first.partition("::")[0] if "::" in first else here
            for kind, cell in zip(columns, row):
                yield from ((number, kind, named_crate(name) or crate, name) for name in names(cell) if kind)
        elif not row:
            kind = LINES.get(line.partition(" ")[0])
            yield from ((number, kind, named_crate(name) or here, name) for name in names(line) if kind)
        columns = (columns or [COLUMNS.get(cell) for cell in row]) if row else None


def strange_listings():
    crates = {path.name for path in CRATES.iterdir()}
    code = {crate: source(crate) for crate in sorted(crates)}
    stands = {("edit", path.parent.parent.name, path.stem) for path in CRATES.glob("*/must-fail/*.edit")}
    stands |= {("fn", crate, name) for crate in crates for name in re.findall(r"\bfn (\w+)(?:<[^>]*>)?\(", code[crate])}
    listed = set()
    for number, kind, crate, name in listings(crates):
        bare = re.split(r"[(<]", name)[0].rpartition("::")[2]
        listed.add((kind, crate, bare))
        if crate is None:
            yield f"docs/CALLS.md:{number}: `{name}` is listed under no crate"
        elif (kind, crate, bare) not in stands:
            yield f"docs/CALLS.md:{number}: `{name}` is no {kind} of crate `{crate}`"
        elif " -> " in name and name.partition("::")[2].removeprefix("lent::") not in code[crate]:
            yield f"docs/CALLS.md:{number}: `{name}` is not the signature in crate `{crate}`"
    libraries = {path.parent.parent.name for path in CRATES.glob("*/src/lib.rt")}
    called = {("fn", crate, name) for crate in libraries for name in re.findall(r'\bpub (?:extern "C" )?fn (\w+)(?:<[^>]*>)?\(', code[crate])}
    for kind, crate, name in sorted(({one for one in stands if one[0] == "edit"} | called) - listed):
        yield f"docs/CALLS.md: {'edit' if kind == 'edit' else 'pub fn'} `{name}` of crate `{crate}` is not listed"


def main():
    known = words()
    wrong = [name for page in ("PAPER.md", "CALLS.md") for name in strange_names(ROOT / "docs" / page, known)]
    wrong += strange_listings()
    run = "".join((CRATES / name).read_text(encoding="utf8") for name in ("uses/src/main.rt", "drawn/src/lib.rt"))
    run += re.sub(r"^\s*/// ?", "", (ROOT / "rust" / "src" / "lib.rs").read_text(encoding="utf8"), flags=re.MULTILINE)
    wrong += strange_code(ROOT / "docs" / "USES.md", run)
    desk = walked.Desk()
    wrong += [what for page in SHOWN for what in strange_examples(page, desk, "--run" in sys.argv[1:])]
    wrong += strange_sixty(ROOT / "README.md")
    wrong += strange_reasons(ROOT / "README.md")
    wrong += strange_crates(ROOT / "CONTRIBUTING.md")
    wrong += strange_axioms(ROOT / "docs" / "TRUST.md") if "--run" in sys.argv[1:] else []
    for what in wrong:
        print(what)
    print(f"docs: {'as the crates have it' if not wrong else 'NOT as the crates have it'}")
    return 1 if wrong else 0


if __name__ == "__main__":
    sys.exit(main())
