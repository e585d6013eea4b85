#!/usr/bin/env python3
"""Whether oesterwrok.h declares what the crates export: every struct field by field, every call argument by argument.

A slice of the code is a pointer and a length in the header, an array its element and its size. (check.c holds the header to the compiled archive.)

usage: crates/capi/header.py    exit status 1 if the two differ
"""
import pathlib
import re
import sys

HERE = pathlib.Path(__file__).resolve().parent
TYPES = {"uint8_t": "u8", "uint16_t": "u16", "uint32_t": "u32", "uint64_t": "u64", "int64_t": "i64", "size_t": "usize", "bool": "bool"}
STRUCTS = {
    "oes_date": "CDate",
    "oes_day": "CDay",
    "oes_filled": "CFilled",
    "oes_solstice": "CSolstice",
    "oes_year": "CYear",
    "oes_month": "CMonth",
    "oes_clerk": "Clerk",
    "oes_clerk_told": "CClerk",
    "oes_quarter_told": "CQuarter",
    "oes_term_told": "CTerm",
    "oes_conjunction_told": "CConjunction",
    "oes_next_told": "CNext",
    "oes_pair_told": "CPair",
    "oes_reading": "CReading",
    "oes_found": "CFound",
    "oes_emended": "CEmended",
    "oes_figures_told": "CFigures",
    "oes_sheet_counts": "CSheetCounts",
    "oes_new_counts": "CNewCounts",
    "oes_length": "CLength",
}


def meant(c_type):
    return TYPES.get(c_type) or STRUCTS[c_type]


def of_header(text):
    found = {}
    for name, body in re.findall(r"typedef struct (\w+) \{(.*?)\}", text, re.DOTALL):
        found[STRUCTS[name]] = [(field, meant(kind)) for kind, field in re.findall(r"(\w+) (\w+);", body)]
    for result, name, body in re.findall(r"^(\w+) (oes_\w+)\((.*?)\);", text, re.DOTALL | re.MULTILINE):
        given = re.findall(r"(const )?(\w+) (\*?)(\w+)(?:\[(\d+)\])?\s*(?:,|$)", body)
        found[name] = [
            (arg, f"&mut [{meant(kind)}; {size}]" if size else ("&" if const else "&mut ") + meant(kind) if star else meant(kind))
            for const, kind, star, arg, size in given
        ] + [("->", STRUCTS[result])]
    return found


def of_code(text):
    found = {}
    for name, body in re.findall(r"#\[repr\(C\)\]\n(?:#\[derive\([^\n]*\)\]\n)?pub struct (\w+) \{(.*?)\n\}", text, re.DOTALL):
        found[name] = re.findall(r"pub (\w+): (\w+),", body)
    for name, body, result in re.findall(r'#\[unsafe\(no_mangle\)\]\npub extern "C" fn (\w+)\((.*?)\) -> (\w+)', text, re.DOTALL):
        found[name] = []
        for arg, kind in re.findall(r"(\w+): ([^,]+)", body):
            part = re.match(r"(&mut |&)\[(\w+)\]", kind)
            found[name] += [(arg, part[1] + part[2]), (None, "usize")] if part else [(arg, kind.strip())]
        found[name].append(("->", result))
    return found


def alike(declared, exported):
    return len(declared) == len(exported) and all(
        a[1] == b[1] and b[0] in (a[0], None) for a, b in zip(declared, exported)
    )


def main():
    declared = of_header((HERE / "oesterwrok.h").read_text(encoding="utf8"))
    exported = of_code("\n".join((HERE.parent / crate / "src/lib.rt").read_text(encoding="utf8") for crate in ("clerk", "offered", "capi")))
    wrong = sorted(set(declared) ^ set(exported))
    wrong += [name for name in declared if name in exported and not alike(declared[name], exported[name])]
    for name in wrong:
        print(f"{name}: {declared.get(name)} is declared, {exported.get(name)} exported")
    print(f"header: {len(declared)} structs and calls, {len(wrong)} wrong")
    return 1 if wrong else 0


if __name__ == "__main__":
    sys.exit(main())
