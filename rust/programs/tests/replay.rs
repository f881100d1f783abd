//! The replay program as a user runs it.

mod common;

use common::{answers, run};

const REPLAY: &str = env!("CARGO_BIN_EXE_replay");

fn replay(lines: &[&str]) -> Vec<String> {
    answers(&run(REPLAY, lines.join("\n").as_bytes()))
}

#[test]
fn the_sample() {
    let output = run(REPLAY, include_bytes!("samples/replay.in"));
    assert_eq!(output, include_str!("samples/replay.out"));
}

#[test]
fn calls_before_an_open() {
    let lines = [
        "arrive\t0\t0",
        "expire\t0",
        "confirm\t0",
        "status\t0\t0\t0\t0",
        "send\t0\t1",
        "send\t0\t0",
        "accept\t",
        "take",
        "room",
        "keeper",
        "ledger",
    ];
    assert_eq!(replay(&lines), ["unopened"; 11]);
    assert_eq!(
        replay(&["open\t13\t0\t0", "take"]),
        ["refused\t7", "unopened"]
    );
}

#[test]
fn a_refused_open_leaves_what_was_there() {
    let answers = replay(&[
        "open\t12\t5\t6",
        "open\t12\t65536\t0",
        "ledger",
        "open\t15\t9\t0",
        "ledger",
    ]);
    assert_eq!(
        answers,
        [
            "ok",
            "refused\t10",
            "ledger\t5\t5\t5\t0\t0\t0\t0\tnone",
            "ok",
            "ledger\t9\t32767\t32767\t0\t0\t0\t0\tnone",
        ]
    );
}

/// Lines that are no calls.
const NO_CALLS: [&str; 44] = [
    "",
    " ",
    "open",
    "Open\t12\t0\t0",
    "open\t12\t0",
    "open\t12\t0\t0\t0",
    "open\t12\t0\t0\t",
    "open 12 0 0",
    "open\t12\t0\t0\r",
    "open\t\t0\t0",
    "open\t12\t00000000000\t0",
    "open\t12\t4294967296\t0",
    "open\t12\t-1\t0",
    "open\t12\t+1\t0",
    "expire",
    "expire\t",
    "expire\t\t0",
    "expire\t0\t",
    "expire\t0\t0",
    "expire\t-1",
    "expire\t00000000000",
    "expire\t4294967296",
    "take\t1",
    "send",
    "send\t0",
    "send\t0\t",
    "send\t\t1",
    "send\t0\t1\t1",
    "send\t0\t-1",
    "send\t0\t4294967296",
    "send\t0\t00000000001",
    "room\t",
    "room\t0",
    "Room",
    "rooms",
    "status\t0\t0\t2\t0",
    "status\t0\t0\t0\t2049",
    "accept",
    "accept\t0",
    "accept\t0g",
    "accept\t00\t",
    "keeper\t",
    "\tkeeper",
    "ledger\0",
];

#[test]
fn lines_that_are_no_calls() {
    let longest = format!("accept\t{}", "0".repeat(2_038));
    let lines = [&NO_CALLS[..], &[longest.as_str()]].concat();
    assert_eq!(
        replay(&["open\t12\t0\t0", &lines.join("\n")])[1..],
        vec!["unreadable"; lines.len()]
    );
    // Unreadable comes before unopened.
    assert_eq!(replay(&["accept"]), ["unreadable"]);
}

#[test]
fn numbers_at_their_limits() {
    let answers = replay(&[
        "open\t0000000012\t0\t0",
        "open\t4294967295\t0\t0",
        "status\t4294967295\t4294967295\t01\t2048",
        "accept\t",
    ]);
    let frame = "frame\t120fffffffffffffffffff000000";
    assert_eq!(answers, ["ok", "refused\t7", frame, "refused\t1"]);
}

/// Calls and their answers: sizes go in and come out, and leave room.
const SIZES: [(&str, &str); 18] = [
    ("open\t12\t0\t0", "ok"),
    ("room", "room\t0"),
    ("send\t0\t0", "refused\t39"),
    ("send\t0\t16385", "refused\t39"),
    ("send\t0\t4294967295", "refused\t39"),
    ("send\t0\t0000016384", "sent\t0"),
    ("send\t1\t1", "sent\t1"),
    ("send\t2\t40", "sent\t2"),
    (
        "accept\t100fff0000400200000001000000",
        "freed\t0\tlost\t0\tfinal\t0",
    ),
    ("room", "room\t0"),
    (
        "accept\t110000000040020000000101000100010000",
        "freed\t1\tlost\t1\tfinal\t0",
    ),
    (
        "ledger",
        "ledger\t3\t0\t2\t0\t16386\t1\t40\t1:1:l:1,2:2:w:40",
    ),
    ("room", "room\t16346"),
    ("take", "taken\t1\t1\t1"),
    (
        "accept\t120000fffffffffffffffe000000",
        "freed\t0\tlost\t0\tfinal\t1",
    ),
    ("room", "room\t4294967255"),
    ("take", "taken\t2\t2\t40"),
    ("room", "room\t4294967295"),
];

#[test]
fn sizes_leave_room() {
    let answers = replay(&SIZES.map(|(call, _)| call));
    assert_eq!(answers, SIZES.map(|(_, answer)| answer));
}

/// Calls and their answers: expiries up to their marks.
const MARKS: [(&str, &str); 16] = [
    ("open\t12\t65534\t4095", "ok"),
    ("expire\t65534", "refused\t19"),
    ("arrive\t65534\t4095", "lost\t0"),
    ("expire\t65535", "refused\t19"),
    ("expire\t65534", "refused\t17"),
    ("arrive\t0\t1", "lost\t0"),
    ("arrive\t3\t4", "lost\t0"),
    ("expire\t65536", "refused\t10"),
    ("expire\t4294967295", "refused\t10"),
    ("expire\t4", "refused\t19"),
    ("expire\t65535", "refused\t17"),
    ("expire\t0000000000", "lost\t1"),
    (
        "keeper",
        "keeper\t1\t4094\t0\t65535-65535\t65534:4095:0,0:1:0,3:4:0",
    ),
    ("expire\t2", "lost\t1"),
    ("expire\t3", "lost\t1"),
    (
        "keeper",
        "keeper\t4\t4094\t0\t65535-65535,1-2\t65534:4095:0,0:1:0,3:4:0",
    ),
];

#[test]
fn expiries_up_to_their_marks() {
    let answers = replay(&MARKS.map(|(call, _)| call));
    assert_eq!(answers, MARKS.map(|(_, answer)| answer));
}

#[test]
fn a_line_longer_than_any_buffer() {
    let long = format!("accept\t{}", "0".repeat(5_000_000));
    assert_eq!(
        replay(&["open\t12\t0\t0", &long, "take"]),
        ["ok", "unreadable", "refused\t38"]
    );
}
