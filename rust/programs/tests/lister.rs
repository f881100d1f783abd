//! The lister as a user runs it.

mod common;

use common::{answers, run};

const LISTER: &str = env!("CARGO_BIN_EXE_lister");

fn list(input: &[u8]) -> String {
    run(LISTER, input)
}

#[test]
fn the_sample() {
    let output = list(include_bytes!("samples/lister.in"));
    assert_eq!(output, include_str!("samples/lister.out"));
}

#[test]
fn the_last_line_may_lack_its_end() {
    assert_eq!(list(b"001234000000"), "0\t4660\n");
    assert_eq!(list(b""), "");
    assert_eq!(list(b"\n\n"), "refused\t1\nrefused\t1\n");
}

#[test]
fn other_characters_are_unreadable() {
    for line in [
        "0",
        "00123400000",
        "0012340000 0",
        "00123400000g",
        "0x1234000000",
        " ",
        "\r",
    ] {
        assert_eq!(list(line.as_bytes()), "unreadable\n", "{line:?}");
    }
    assert_eq!(list(b"001234000000\r\n"), "unreadable\n");
    assert_eq!(list(b"00123400\x000000\n"), "unreadable\n");
    assert_eq!(list(b"0012340000\xFF\xFF\n"), "unreadable\n");
}

#[test]
fn both_letter_cases_are_read() {
    assert_eq!(list(b"30aBcDeF0000\n"), "3\t11259375\n");
}

#[test]
fn lengths_of_lines() {
    let longest = "0".repeat(2_036);
    let output = list(format!("{longest}\n{longest}0\n{longest}00\n").as_bytes());
    assert_eq!(output, "0\t0\nunreadable\nunreadable\n");
    for digits in [4_095, 4_096, 4_097, 65_535, 65_536, 65_537, 10_000_000] {
        let input = format!("{}\n001234000000\n", "0".repeat(digits));
        assert_eq!(answers(&list(input.as_bytes())), ["unreadable", "0\t4660"]);
        let input = "0".repeat(digits);
        assert_eq!(answers(&list(input.as_bytes())), ["unreadable"]);
    }
}

#[test]
fn a_status_without_list() {
    assert_eq!(
        list(b"2203ffff00000000000000000000\n"),
        "2\t262143\t0\t0\t1\tnone\n"
    );
}
