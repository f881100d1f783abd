//! Programs that lie are found out, and what shows the lie is short.

use model::Opening;
use property::bearer::{Bearer, Step};
use property::replay::{Answered, alike, answers_alike};
use property::scripts::{Aim, Script};
use property::suite::Suite;
use soak::table::Table;
use std::cell::RefCell;
use std::fs;
use std::os::unix::fs::PermissionsExt;
use std::path::{Path, PathBuf};

/// A program of the workspace, whose tests have to be run as a whole.
fn sibling(name: &str) -> PathBuf {
    let here = std::env::current_exe().unwrap();
    let folder = here.parent().and_then(Path::parent).unwrap();
    let path = folder.join(name);
    assert!(
        path.exists(),
        "{name} is not built; test the whole workspace"
    );
    path
}

/// A `replay` that is right but for what `sed` does to its answers.
fn liar(name: &str, sed: &str) -> PathBuf {
    let path = Path::new(env!("CARGO_TARGET_TMPDIR")).join(name);
    let honest = sibling("replay");
    let text = format!("#!/bin/sh\n'{}' | sed '{sed}'\n", honest.display());
    fs::write(&path, text).unwrap();
    fs::set_permissions(&path, fs::Permissions::from_mode(0o755)).unwrap();
    path
}

#[test]
fn a_lie_fails_its_property_and_is_shrunk() {
    let honest = sibling("replay");
    let liar = liar("wrong-number", "s/^refused.19$/refused\\t91/");
    let mut suite = Suite::new(1);
    let mut answered = Answered::default();
    let smallest = RefCell::new(Script(Vec::new()));
    suite.property("a lie", 3, &Aim::Moods(500), |script| {
        let verdict = alike([&honest, &liar], script, &mut answered);
        if verdict.is_err() {
            smallest.replace(script.clone());
        }
        verdict
    });
    assert_eq!((suite.passed, suite.failed), (0, 1));
    let smallest = smallest.into_inner();
    assert_eq!(smallest.0.len(), 2, "{smallest:?}");
    assert!(smallest.0[1].starts_with(b"expire\t"), "{smallest:?}");
}

#[test]
fn a_missing_answer_is_seen() {
    let honest = sibling("replay");
    let liar = liar("silent", "3d");
    let script = Script(vec![b"expire\t0".to_vec(); 4]);
    assert!(answers_alike([&honest, &honest], &script).is_ok());
    assert!(answers_alike([&honest, &liar], &script).is_err());
}

#[test]
fn a_refusal_that_never_came_fails_the_suite() {
    let mut suite = Suite::new(1);
    let mut table = Table::default();
    table.count(b"read", b"refused\t1");
    suite.covers("all of it", &table, &[1]);
    assert_eq!((suite.passed, suite.failed), (1, 0));
    suite.covers("half of it", &table, &[1, 2]);
    assert_eq!((suite.passed, suite.failed), (1, 1));
}

/// A bearer on which two of ten packets were lost, reported and taken.
fn bearer() -> Bearer {
    let mut bearer = Bearer::new(Opening {
        bits: 12,
        first: 65_530,
        first_pdcp: 4_093,
    });
    for step in [
        Step::send(10),
        Step::Arrive {
            dropped: 1,
            period: 5,
            count: 10,
        },
        Step::expire(),
        Step::Confirm {
            passed: 1_000,
            count: 10,
        },
        Step::status(false),
        Step::Deliver(1),
        Step::Take(2),
    ] {
        bearer.make(&step).unwrap();
    }
    bearer
}

/// A look at the master with another sum of what waits.
fn with_sum(answer: &str, other: fn(u32) -> u32) -> String {
    let mut fields: Vec<String> = answer.split('\t').map(str::to_owned).collect();
    fields[7] = other(fields[7].parse().unwrap()).to_string();
    fields.join("\t")
}

/// Another answer in place of one that begins with that word.
type Lie = fn(&str) -> String;

/// Each of these lies is a violation, at whatever line the answer stands.
const LIES: [(&str, Lie); 12] = [
    ("sent", |answer| answer.replace("65530", "65531")),
    ("lost", |answer| answer.replace("\t2", "\t1")),
    ("keeper", |answer| {
        answer.replacen("keeper\t", "keeper\t1", 1)
    }),
    ("frame", |answer| answer.replace("02fffa", "02fffb")),
    ("freed", |answer| answer.replace("freed\t8", "freed\t7")),
    ("ledger", |answer| answer.replacen(":l", ":w", 1)),
    ("ledger", |answer| answer.replacen(":l:1", ":l:2", 1)),
    ("ledger", |answer| with_sum(answer, |octets| octets + 1)),
    ("ledger", |answer| with_sum(answer, |_| 0)),
    ("taken", |answer| answer.replace("65530", "65531")),
    ("taken", |answer| format!("{answer}0")),
    ("room", |answer| format!("{answer}1")),
];

#[test]
fn demand_3_is_told_from_answers_alone() {
    let trace = bearer().trace;
    let honest = sibling("replay");
    let answers = answers_alike([&honest, &honest], &Script(trace.lines.clone())).unwrap();
    let tally = trace.check(&answers).unwrap();
    assert_eq!(
        (tally.lost, tally.reported, tally.freed, tally.taken),
        (2, 2, 8, 2)
    );

    for (word, lie) in LIES {
        let mut told = answers.clone();
        let mut changed = 0;
        for answer in &mut told {
            let text = String::from_utf8(answer.clone()).unwrap();
            if text.starts_with(word) && lie(&text) != text && changed == 0 {
                *answer = lie(&text).into_bytes();
                changed += 1;
            }
        }
        assert_eq!(changed, 1, "no answer to change: {word}");
        assert!(trace.check(&told).is_err(), "nobody saw the lie in {word}");
    }
}
