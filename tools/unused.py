#!/usr/bin/env python3
"""What stands in the crates and nothing needs: imports, `pub`, and definitions that are named nowhere.

An import is needed where the name that it brings occurs in its file: an item by itself, an operator by its parts, a module in front
of a dot; what `ghost use` brings in a clause, what `use` of a .rt file brings in its code.
A `pub` is needed of a function, type or constant of src/ where another crate names it (another file, if it does not stand in lib.rt),
or if it is a type, where something else that is `pub` has it in its signature; the calls for C, and the public calls with their
signatures in docs/CALLS.md, are needed as they are. It is needed of
a definition of proofs/ where another file names it, or one of its constructors, or where it stands in a signature that is `pub`. Of
specs/ every `pub` may stay, so that a statement's parts can be cited. A definition of specs/ or proofs/ is needed where it is named at
all; needed as they are the proofs of statements, what a Proof.antt, an Invariants.antt and an Answers.antt say of their function (the
proof, what is asked of `Given` or of `Goals`), the figures of a Cases.antt, and what a page of docs/ or README names between backticks.

usage: tools/unused.py [CRATE..]          what is found, in these crates or in all; exit status 1 if something is
       tools/unused.py --fix [CRATE..]    take out the imports, and each `pub` of proofs/ (run `rt fmt` after it, and this again); the
                                          rest, and each must-fail edit whose text it took away, is only told
"""
import collections
import pathlib
import re
import sys

ROOT = pathlib.Path(__file__).resolve().parent.parent
CRATES = ROOT / "crates"
USE = re.compile(r"^[ \t]*(?:pub |unfoldable |ghost )*use\s+([^\s{;]+?)(?:(?:\.|::)\{([^}]*)\}|\s+as\s+([^\s;]+))?[ \t]*;?[ \t]*$", re.M)
DECLARED = re.compile(r"[ \t]*((?:abbrev |unfoldable |pub )*)(record |data |ruleset )?([^\s(){};,.]+)")
CLAUSE = re.compile(r"\b(?:requires|ensures)\b[^{\n]*\{|^[ \t]*ghost \w+\s*[:=]\s*\{", re.M)
ATTRIBUTE = re.compile(r"(\w+)::((?:specs|proofs)(?:::\w+)*)::(\w+)")
CODE = re.compile(r"^pub (extern\s+)?(fn|struct|enum|const|static) (\w+)", re.M)

# Our traits: an import of one brings its functions, by which it is not named.
TRAITS = {name for path in CRATES.glob("*/src/*.rt") for name in re.findall(r"^pub trait (\w+)", path.read_text(encoding="utf8"), re.M)}

# The place of an argument in an operator's name.
MARK = "◌"
NO_NAMES = {"module", "use", "mod", "mutual", "infixl", "infixr", "infix", "unfolding", "where", "axiom"}

Import = collections.namedtuple("Import", "module item name ghost start line")
Declaration = collections.namedtuple("Declaration", "line name marks indent constructors block")


def blank(found):
    return re.sub(r"[^\n]", " ", found.group())


def bare(path, text):
    """The text without its comments and quoted texts, each place as it was."""
    if path.suffix == ".rt":
        return re.sub(r"//[^\n]*|b?\"(?:\\.|[^\"\\])*\"|b'(?:\\.|[^'\\])'", blank, text)
    return re.sub(r"--[^\n]*|\{-.*?-\}|\"(?:\\.|[^\"\\])*\"", blank, text, flags=re.S)


class File:
    """A source file: its imports, and what stands below them."""

    def __init__(self, path):
        self.path, self.crate = path, path.relative_to(CRATES).parts[0]
        self.text = path.read_text(encoding="utf8")
        text = bare(path, self.text)
        self.imports = list(self.read_imports(text))
        self.body = USE.sub(blank, text)
        self.clauses, self.code = self.parts() if path.suffix == ".rt" else (self.body, "")
        self.atoms = atoms(self.clauses)
        self.code_words = set(re.findall(r"\w+", self.code))

    def read_imports(self, text):
        for found in USE.finditer(text):
            module, items, renamed = found.groups()
            ghost = self.path.suffix == ".antt" or found.group().lstrip().startswith("ghost")
            if found.group().lstrip().startswith(("pub", "unfoldable")):
                continue
            if module.endswith("::*"):
                continue
            if items is None:
                name, start = renamed or re.split(r"::|\.", module)[-1], found.start()
                yield Import(module, None, name, ghost, start, text.count("\n", 0, start) + 1)
                continue
            for item in re.finditer(r"[^\s,][^,]*", items):
                words, start = item.group().split(), found.start(2) + item.start()
                yield Import(module, words[0], words[-1], ghost, start, text.count("\n", 0, start) + 1)

    def parts(self):
        """Of a .rt file: its clauses, and its code without them."""
        code, clauses = list(self.body), []
        for found in CLAUSE.finditer(self.body):
            depth, at = 1, found.end()
            while depth:
                depth += {"{": 1, "}": -1}.get(self.body[at], 0)
                at += 1
            clauses.append(self.body[found.end():at - 1])
            code[found.start():at] = re.sub(r"[^\n]", " ", self.body[found.start():at])
        return "\n".join(clauses), "".join(code)

    def is_needed(self, one):
        if not one.ghost:
            return one.name in self.code_words or one.name in TRAITS
        if one.item is None:
            heads = re.findall(r"(?<![^\s(){},;])([^\s(){},;.]+)\.", self.clauses)
            return one.name in heads or any(one.name == other.module.partition(".")[0] for other in self.imports)
        return is_among(one.name, self.atoms)

    def unused(self):
        return [one for one in self.imports if not self.is_needed(one)]

    def without_unused(self, text):
        """The text, of which the imports stand where they stood, without those that are not used."""
        starts = {one.start for one in self.unused()}

        def rewritten(found):
            if found.group(2) is None:
                return "" if found.start() in starts else found.group()
            items = list(re.finditer(r"[^\s,][^,]*", found.group(2)))
            kept = [item.group().strip() for item in items if found.start(2) + item.start() not in starts]
            if len(kept) == len(items):
                return found.group()
            whole, a, b = found.group(), found.start(2) - found.start(), found.end(2) - found.start()
            return whole[:a] + ", ".join(kept) + whole[b:] if kept else ""

        at, out = 0, []
        for found in USE.finditer(bare(self.path, text)):
            new = rewritten(found)
            if new != found.group():
                out.append(text[at:found.start()] + new)
                at = found.end() + (1 if not new and text[found.end():found.end() + 1] == "\n" else 0)
        return "".join(out) + text[at:]


def atoms(text):
    """The names that stand in a text, not those behind a dot; of an operator's section its parts too."""
    found = set(re.findall(r"(?<![^\s(){}\[\];,])([^\s(){}\[\];,.]+|\[\])", text))
    return found | {part for name in found if MARK in name for part in name.split(MARK)}


def is_among(name, atoms):
    """Whether a name stands among these: as it is, or an operator by its parts."""
    return name in atoms or MARK in name and all(part in atoms for part in name.split(MARK) if part)


def module_of(path):
    """The crate and the path of an .antt file's module: `rule`, `specs.Rule`."""
    parts = path.relative_to(CRATES).with_suffix("").parts
    return parts[0], ".".join(parts[1:])


def named_module(module):
    """The same of what an import names: `Rattle.rule.specs.Rule`, from inside as from outside."""
    found = re.fullmatch(r"Rattle\.(\w+)\.(.*)", module)
    return found.groups() if found else (None, module)


def named_in(file):
    """What a file names of the crates' modules: crate, module, name."""
    found = set()
    for one in filter(file.is_needed, file.imports):
        crate, module = named_module(one.module)
        if one.item is not None:
            found.add((crate, module, one.item))
        elif crate:
            behind = re.findall(r"(?<![^\s(){},;])" + re.escape(one.name) + r"\.([^\s(){},;]+)", file.clauses)
            for path in behind:
                below, _, name = path.rpartition(".")
                found.add((crate, module + ("." + below if below else ""), name))
                found.add((crate, module, path.partition(".")[0]))
    for crate, module, name in re.findall(r"Rattle\.(\w+)\.([^\s(){},;]+)\.([^\s(){},;.]+)", file.clauses):
        found.add((crate, module, name))
    for crate, module, name in ATTRIBUTE.findall(file.code):
        found.add((file.crate if crate == "crate" else crate, module.replace("::", "."), name))
    return found


def declarations(file):
    """The definitions of an .antt file, not those of a `where` and no field: each with the lines of its signature, or of its fields or
    constructors."""
    last, kind = None, None
    for number, line in enumerate(file.body.splitlines(), 1):
        if not line.strip():
            continue
        indent = len(line) - len(line.lstrip())
        if last and indent > last.indent:
            last.block.append(number)
            if kind == "data ":
                last.constructors.extend(re.split(r"(?:^|\s):\s", line, maxsplit=1)[0].split())
            continue
        last, found = None, DECLARED.match(line)
        if not found or found.group(3) in NO_NAMES:
            continue
        marks, kind, name = found.groups()
        if kind in ("record ", "data ") or re.match(r"\s*:\s", line[found.end():]):
            last = Declaration(number, name, marks.split(), indent, [], [number])
            if indent == 0 or "pub" in last.marks:
                yield last


def in_folder(file, folder):
    return file.path.relative_to(CRATES).parts[1] == folder


def is_root(file, name, stated):
    """What is needed though no file names it."""
    if file.path.stem == "Proof":
        return name.endswith("_spec")
    if file.path.stem in ("Invariants", "Answers") and re.search(rf"^[ \t]*(?:abbrev |pub )*{re.escape(name)} : \S*\bgoal\.", file.body, re.M):
        return True
    return in_folder(file, "proofs") and (file.path.stem == "Cases" or (file.crate, plain(name)) in stated)


def plain(name):
    """A name in small letters alone: a statement `NoOther` has the proof `no-other`."""
    return re.sub(r"[-_']", "", name).lower()


def occurs_in_own(file, name, one):
    """Whether a definition, or a constructor of it, occurs in its own file outside of it: not at the head of its own lines."""
    own = re.compile(r"[ \t]{%d}%s(?=[\s(]|$)" % (one.indent, re.escape(one.name)))
    lines = enumerate(file.body.splitlines(), 1)
    rest = atoms("\n".join(line for number, line in lines if number not in one.block and not own.match(line)))
    return is_among(name, rest)


def narrowed(file, found):
    """Of `pub` definitions that only their own file names: those that stand in no signature of what stays `pub`. An `abbrev` may."""
    lines = file.body.splitlines()
    sections = re.findall(r"^[ \t]*module _ .*?\bwhere$|^pub ruleset [^\n]*", file.body, re.M | re.S)
    stays = [one for one in declarations(file) if "pub" in one.marks and one not in found]
    while True:
        seen = atoms("\n".join(sections + [lines[number - 1] for one in stays for number in one.block]))
        more = [one for one in found if "abbrev" not in one.marks and one not in stays and seen & {one.name, *one.constructors}]
        if not more:
            return [one for one in found if one not in stays]
        stays += more


def needless_definitions(files):
    """What is told of definitions: file, line, what; and the same of each `pub` that may go."""
    named = collections.defaultdict(set)
    for file in files:
        for what in named_in(file):
            named[what].add(file.path)
    antt = [file for file in files if file.path.suffix == ".antt" and file.path.stem != "Lib"]
    specs = [file for file in antt if in_folder(file, "specs")]
    stated = {(file.crate, plain(one.name)) for file in specs for one in declarations(file) if one.name[0].isupper()}
    nowhere, narrow = [], []
    pages = [ROOT / "README.md", *(ROOT / "docs").glob("*.md")]
    told = {name for page in pages for name in re.findall(r"`([^\s`]+)`", page.read_text(encoding="utf8"))}
    for file in antt:
        crate, module = module_of(file.path)
        own = []
        for one in list(declarations(file)):
            names = [one.name, *one.constructors]
            if is_root(file, one.name, stated) or in_folder(file, "proofs") and told & set(names) or any(named[crate, module, name] - {file.path} for name in names):
                continue
            if not any(occurs_in_own(file, name, one) for name in names):
                nowhere.append((file, one.line, f"`{one.name}` is named nowhere"))
            elif "pub" in one.marks and in_folder(file, "proofs"):
                own.append(one)
        narrow += [(file, one.line, f"`pub` of `{one.name}`: its own file alone names it") for one in narrowed(file, own)]
    return nowhere, narrow


def signatures(file):
    """The names of the `pub` items of a .rt file, each with the text in which the types that it makes public stand."""
    for found in CODE.finditer(file.code):
        stop = re.compile(r"\{" if found.group(2) == "fn" else r"^\}|;$", re.M).search(file.code, found.end())
        yield found.group(3), file.code[found.end():stop.start() if stop else None]


def needless_code(files):
    page = (ROOT / "docs" / "CALLS.md").read_text(encoding="utf8")
    calls = {"::".join(parts) for parts in re.findall(r"^\| `(\w+)::(?:lent::)?(\w+)[^`]* -> [^`]*` \|", page, re.M)}
    code = [file for file in files if file.path.suffix == ".rt"]
    antt = [file for file in files if file.path.suffix == ".antt"]
    spelled = {file: file.code + "".join(f"\n{one.module}::{one.item or ''}" for one in file.imports) for file in code}
    for file in code:
        spelled[file] += "".join(re.findall(r"^pub use [^;]*", file.text, re.M))
    for file in code:
        is_outer = file.path.name in ("lib.rt", "main.rt")
        head, others = file.crate if is_outer else file.path.stem, [one for one in code if (one.crate != file.crate) == is_outer]
        public = [item for one in code if one.crate == file.crate for item in signatures(one)]
        for found in CODE.finditer(file.code):
            for_c, kind, name = found.groups()
            word = re.compile(rf"\b{name}\b")
            in_code = any(re.search(rf"\b{head}::{name}\b", spelled[one]) for one in others if one is not file)
            in_proofs = any(re.search(rf"Rattle\.{file.crate}\.[^\s{{]*\b{name}\b", one.text) for one in antt if one.crate != file.crate)
            in_public = kind in ("struct", "enum") and any(word.search(text) for item, text in public if item != name)
            if not (for_c or in_code or in_proofs or in_public or f"{file.crate}::{name}" in calls):
                line = file.code.count("\n", 0, found.start()) + 1
                yield file, line, f"`pub {kind} {name}`: no other {'crate' if is_outer else 'file'} names it"


def fix(file, narrow):
    """Take out the imports that are not used and the `pub` of these lines; tell each must-fail edit that then has to be mended."""
    lines = file.text.splitlines(keepends=True)
    for line in narrow:
        lines[line - 1] = re.sub(r"\bpub ", "", lines[line - 1], count=1)
    new = file.without_unused("".join(lines))
    file.path.write_text(new, encoding="utf8")
    for edit in sorted((CRATES / file.crate).glob("must-fail/*.edit")):
        for where, old in re.findall(r"^file: (.*)\nold: (.*)$", edit.read_text(encoding="utf8"), re.M):
            if CRATES / file.crate / where == file.path and old in file.text and old not in new:
                print(f"{edit.relative_to(ROOT)}: to be mended: `{old}` stands no longer in {where}")


def main():
    files = [File(path) for path in sorted(CRATES.glob("*/*/**/*")) if path.suffix in (".antt", ".rt") and path.relative_to(CRATES).parts[1] != "out"]
    words = [word for word in sys.argv[1:] if word != "--fix"]
    asked = set(words) or {file.crate for file in files}
    if not all((CRATES / crate).is_dir() for crate in asked):
        sys.exit(__doc__.partition("usage: ")[2])
    imports = [(file, one.line, f"import `{one.name}` is not used") for file in files for one in file.unused()]
    nowhere, narrow = needless_definitions(files)
    told = [one for one in [*imports, *needless_code(files), *nowhere, *narrow] if one[0].crate in asked]
    for file, line, what in told:
        print(f"{file.path.relative_to(ROOT)}:{line}: {what}")
    if "--fix" in sys.argv[1:]:
        for file in {one[0] for one in told}:
            fix(file, [line for other, line, _ in narrow if other is file])
    by_crate = collections.Counter(one[0].crate for one in told)
    print(f"unused: {len(told)}" + "".join(f"; {crate} {n}" for crate, n in sorted(by_crate.items())))
    return 1 if told else 0


if __name__ == "__main__":
    sys.exit(main())
