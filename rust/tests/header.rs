//! Holds what `src/ffi.rs` declares, and the record and the clerk of `src/types.rs`, to the C header: every struct with its fields in their order,
//! every call with its arguments. The cross-check holds the same declarations to the archive, so the header and the archive agree
//! too.

use std::collections::BTreeMap;
use std::fs;
use std::path::Path;

/// Declarations by name, each in the same words on both sides.
type Declared = BTreeMap<String, String>;

/// A file, named as seen from `rust/`.
fn file(name: &str) -> String {
    let path = Path::new(env!("CARGO_MANIFEST_DIR")).join(name);
    fs::read_to_string(&path).unwrap_or_else(|why| panic!("{name}: {why}"))
}

/// What stands between two marks; the first `open`, and the first `close` after it.
fn between<'a>(text: &'a str, open: &str, close: &str) -> &'a str {
    let (_, after) = text
        .split_once(open)
        .unwrap_or_else(|| panic!("no {open} in {text}"));
    after
        .split_once(close)
        .unwrap_or_else(|| panic!("no {close} in {text}"))
        .0
}

/// The parts of a list, without the empty one after a last comma or semicolon.
fn parts(list: &str, mark: char) -> Vec<&str> {
    list.split(mark)
        .map(str::trim)
        .filter(|part| !part.is_empty())
        .collect()
}

/// A C type in Rust's words; a struct keeps its C name.
fn rust_type(c: &str) -> String {
    match c {
        "uint8_t" => "u8".into(),
        "uint16_t" => "u16".into(),
        "uint32_t" => "u32".into(),
        "uint64_t" => "u64".into(),
        "int64_t" => "i64".into(),
        "size_t" => "usize".into(),
        other => other.into(),
    }
}

/// A variable of the header in Rust's words: `const uint8_t *bytes` is `bytes: *const u8`, `uint32_t leaps[12]` `leaps: *mut [u32; 12]`.
fn c_variable(text: &str) -> String {
    let (kind, name) = text
        .rsplit_once(' ')
        .unwrap_or_else(|| panic!("no name in {text}"));
    if let Some((name, size)) = name.split_once('[') {
        return format!("{name}: *mut [{}; {size}", rust_type(kind));
    }
    match (name.strip_prefix('*'), kind.strip_prefix("const ")) {
        (Some(name), Some(kind)) => format!("{name}: *const {}", rust_type(kind)),
        (Some(name), None) => format!("{name}: *mut {}", rust_type(kind)),
        _ => format!("{name}: {}", rust_type(kind)),
    }
}

/// The header's text without its comments.
fn header() -> String {
    let text = file("../crates/capi/oesterwrok.h");
    text.split("/*")
        .map(|part| part.split_once("*/").map_or(part, |(_, after)| after))
        .collect()
}

/// The structs of the header.
fn header_structs() -> Declared {
    let one = |text: &str| {
        let name = text
            .split_whitespace()
            .next()
            .expect("a struct has a name")
            .to_string();
        let fields = parts(between(text, "{", "}"), ';');
        (
            name,
            fields
                .iter()
                .map(|field| c_variable(field))
                .collect::<Vec<_>>()
                .join(", "),
        )
    };
    header().split("typedef struct ").skip(1).map(one).collect()
}

/// The calls of the header.
fn header_calls() -> Declared {
    let one = |text: &str| {
        let (before, arguments) = text.split_once('(').expect("a call has arguments");
        let (answer, name) = before.trim().split_once(' ').expect("a call has an answer");
        let arguments: Vec<String> = parts(arguments.trim_end_matches(')'), ',')
            .into_iter()
            .map(c_variable)
            .collect();
        (
            name.to_string(),
            format!("({}) -> {answer}", arguments.join(", ")),
        )
    };
    header()
        .split(';')
        .filter(|text| text.contains('('))
        .map(one)
        .collect()
}

/// The fields of a struct that is written out under `repr(C)`, without what is said of them.
fn written_out(text: &str, name: &str) -> String {
    let mut laid_out = text.split("#[repr(C)]\n").skip(1);
    let found = laid_out.find(|part| between(part, "pub struct ", " {") == name);
    let part = found.unwrap_or_else(|| panic!("no {name} under repr(C)"));
    let lines = between(part, "{", "}").lines().map(str::trim);
    let fields: String = lines.filter(|line| !line.starts_with("///")).collect();
    parts(&fields.replace("pub ", ""), ',').join(", ")
}

/// The structs of `src/ffi.rs`, and the record, under their C names, and the C name of each Rust one.
fn ffi_structs(text: &str) -> (Declared, BTreeMap<String, String>) {
    let (mut structs, mut names) = (Declared::new(), BTreeMap::new());
    for text in text.split("answer! {").skip(1) {
        let c_name = between(text, "`", "`").to_string();
        let rust_name = text
            .split('{')
            .next()
            .and_then(|before| before.split_whitespace().last());
        names.insert(
            rust_name.expect("a struct has a name").to_string(),
            c_name.clone(),
        );
        let fields = parts(between(text, "{", "}"), ',').join(", ");
        let fields = fields.replace(": Clerk", ": oes_clerk");
        structs.insert(c_name, format!("reason: u32, {fields}"));
    }
    let types = file("src/types.rs");
    for (text, name, c_name) in [
        (text, "CReading", "oes_reading"),
        (&types, "DateRecord", "oes_date"),
        (&types, "Clerk", "oes_clerk"),
    ] {
        structs.insert(c_name.into(), written_out(text, name));
        names.insert(name.into(), c_name.into());
    }
    (structs, names)
}

/// The calls of `src/ffi.rs`, their structs under their C names.
fn ffi_calls(text: &str, names: &BTreeMap<String, String>) -> Declared {
    let one = |text: &str| {
        let (name, after) = text.split_once('(').expect("a call has arguments");
        let (arguments, answer) = after.split_once("->").expect("a call has an answer");
        let arguments = parts(arguments.trim().trim_end_matches(')'), ',')
            .join(", ")
            .replace("CReading", &names["CReading"])
            .replace(": Clerk", ": oes_clerk")
            .replace("DateRecord", &names["DateRecord"]);
        (
            name.to_string(),
            format!(
                "({arguments}) -> {}",
                names[answer.trim().trim_end_matches(';')]
            ),
        )
    };
    let block = between(text, "unsafe extern \"C\" {", "\n}");
    let calls = block.split(";\n").filter_map(|text| text.split_once("fn "));
    calls.map(|(_, text)| one(text)).collect()
}

#[test]
fn ffi_declares_what_the_header_does() {
    let text = file("src/ffi.rs");
    let (structs, names) = ffi_structs(&text);
    assert_eq!(structs.len(), 20);
    assert_eq!(structs, header_structs());
    let calls = ffi_calls(&text, &names);
    assert_eq!(calls.len(), 29);
    assert_eq!(calls, header_calls());
}
