//! The program `yuan`: its two sides fill the same records, and it says so where one of them does nothing.

use std::process::Command;

/// What the program says at its end, and whether it ends well.
fn yuan(words: &[&str]) -> (String, bool) {
    let output = Command::new(env!("CARGO_BIN_EXE_yuan"))
        .args(words)
        .output()
        .expect("the program runs");
    let said = String::from_utf8(output.stdout).expect("the program prints text");
    let last = said.lines().last().unwrap_or_default().to_string();
    (last, output.status.success())
}

#[test]
fn both_sides_fill_the_same() {
    let said = "The sums of all records agree.".to_string();
    assert_eq!(yuan(&["--rounds", "1"]), (said, true));
}

#[test]
fn a_call_that_does_nothing_is_found() {
    let said = "FAILED: the two sides filled other records".to_string();
    assert_eq!(yuan(&["--rounds", "1", "--nothing"]), (said, false));
}

#[test]
fn any_other_word_is_refused() {
    assert!(!yuan(&["--round"]).1);
}
