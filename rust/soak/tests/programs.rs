//! `compare` and `ramp` as a user runs them. Run the whole workspace's tests,
//! so that `replay` and `lister` are there.

use std::fs;
use std::os::unix::fs::PermissionsExt;
use std::path::{Path, PathBuf};
use std::process::{Command, Output};

const COMPARE: &str = env!("CARGO_BIN_EXE_compare");
const RAMP: &str = env!("CARGO_BIN_EXE_ramp");

fn sibling(name: &str) -> PathBuf {
    let path = Path::new(COMPARE).with_file_name(name);
    assert!(
        path.exists(),
        "{name} is not built; test the whole workspace"
    );
    path
}

/// A folder of its own for each test.
fn folder(name: &str) -> PathBuf {
    let folder = Path::new(env!("CARGO_TARGET_TMPDIR")).join(name);
    fs::create_dir_all(&folder).unwrap();
    folder
}

/// A shell script as a program.
fn script(folder: &Path, name: &str, text: &str) -> PathBuf {
    let path = folder.join(name);
    fs::write(&path, format!("#!/bin/sh\n{text}\n")).unwrap();
    fs::set_permissions(&path, fs::Permissions::from_mode(0o755)).unwrap();
    path
}

/// A program like `name`, but for what `sed` does to its answers.
fn liar(folder: &Path, name: &str, sed: &str) -> PathBuf {
    let honest = sibling(name);
    script(
        folder,
        name,
        &format!("'{}' | sed '{sed}'", honest.display()),
    )
}

fn run(program: &str, folder: &Path, arguments: &[&str]) -> Output {
    let mut command = Command::new(program);
    command
        .current_dir(folder)
        .args(arguments)
        .output()
        .unwrap()
}

fn text(path: &Path) -> &str {
    path.to_str().unwrap()
}

#[test]
fn like_programs_are_alike() {
    let folder = folder("alike");
    for kind in ["replay", "lister"] {
        let program = sibling(kind);
        let program = text(&program);
        let output = run(
            COMPARE,
            &folder,
            &[kind, program, program, "--lines", "60000"],
        );
        assert!(output.status.success(), "{output:?}");
        assert!(String::from_utf8_lossy(&output.stdout).contains("0 mismatches"));
    }
}

#[test]
fn a_difference_is_found_and_shrunk() {
    let folder = folder("different");
    let liar = liar(&folder, "replay", "s/^refused.19$/refused\\t91/");
    let honest = sibling("replay");
    let arguments = ["replay", text(&honest), text(&liar), "--save", "found"];
    let output = run(COMPARE, &folder, &arguments);
    assert_eq!(output.status.code(), Some(1), "{output:?}");
    let script = fs::read_to_string(folder.join("found")).unwrap();
    let lines: Vec<&str> = script.lines().collect();
    assert_eq!(lines.len(), 2, "{script}");
    assert!(lines[0].starts_with("open\t"));
    assert!(lines[1].starts_with("expire\t"), "{script}");
}

#[test]
fn a_frame_is_shrunk_too() {
    let folder = folder("frame");
    let liar = liar(&folder, "lister", "s/^refused.2$/refused\\t5/");
    let honest = sibling("lister");
    let arguments = ["lister", text(&liar), text(&honest), "--save", "found"];
    let output = run(COMPARE, &folder, &arguments);
    assert_eq!(output.status.code(), Some(1), "{output:?}");
    let line = fs::read_to_string(folder.join("found")).unwrap();
    assert!(line.len() <= 2 * 18 + 1, "{line}");
}

/// Plays half a minute of the ramp on a program, with its report and its chart
/// in `folder`. Answers the exit code and the report.
fn ramp(folder: &Path, program: &Path, options: &[&str]) -> (Option<i32>, String) {
    let files = ["--report", "ramp.txt", "--chart", "ramp.svg", "--force"];
    let arguments = [&[text(program), "--minutes", "0.5"], options, &files].concat();
    let output = run(RAMP, folder, &arguments);
    let report = fs::read_to_string(folder.join("ramp.txt")).unwrap();
    (output.status.code(), report)
}

/// The figure that ends a line of a report.
fn figure(report: &str, words: &str) -> u64 {
    let line = report.lines().find(|line| line.contains(words));
    let figure = line.and_then(|line| line.rsplit(' ').next());
    let digits = figure.unwrap_or_default().replace(',', "");
    digits
        .parse()
        .unwrap_or_else(|_| panic!("{words}: {line:?}"))
}

/// Sees that the marks of expiries saved packets, and that wrong ones were met.
fn expired_by_marks(report: &str, met: &str) {
    for refusal in [
        "10  number past its circle",
        "19  mark past all",
        "17  no open number before",
    ] {
        assert!(met.contains(&format!("expire    {refusal}")), "{met}");
    }
    // In half a minute hundreds of packets come while a timer runs.
    assert!(figure(report, "good packets saved") > 0, "{report}");
    assert_eq!(figure(report, "youngest gap"), 30, "{report}");
    let sum = "together, all spared by a mark";
    assert!(report.contains(sum), "{report}");
}

#[test]
fn a_short_ramp_passes_and_is_drawn() {
    let folder = folder("ramp");
    for bits in ["12", "15", "18"] {
        let (code, report) = ramp(&folder, &sibling("replay"), &["--bits", bits]);
        assert_eq!(code, Some(0), "{report}");
        assert!(report.contains("Result: PASSED at 2,000 packets a second, as asked for"));
        // Of the long form no half circle is sent in so short a time.
        let (_, refusals) = report.split_once("Refusals met").unwrap();
        let (met, _) = refusals.split_once("Refusals never met").unwrap();
        assert_eq!(met.contains("18  opposite"), bits != "18", "{met}");
        // Some of these rests begin while packets wait, which are then in front.
        assert!(met.contains("35  PDCP order"), "{met}");
        assert!(met.contains("39  size of 0 or above"), "{met}");
        expired_by_marks(&report, met);
        assert!(report.contains("together, all rests"), "{report}");
        assert!(
            report.contains("together, all PDCP numbers used"),
            "{report}"
        );
        assert!(report.contains("together, all octets sent"), "{report}");
        let (_, untested) = report.split_once("Not tested in this run").unwrap();
        assert!(!untested.contains("A rest of more than"), "{untested}");
        assert!(!untested.contains("A room "), "{untested}");
        assert!(!untested.contains("saved"), "{untested}");
        let chart = fs::read_to_string(folder.join("ramp.svg")).unwrap();
        assert!(chart.starts_with("<svg") && chart.trim_end().ends_with("</svg>"));
    }
}

#[test]
fn a_rate_that_is_not_reached_is_told() {
    let folder = folder("slow");
    let (code, report) = ramp(&folder, &sibling("replay"), &["--rate", "50000"]);
    assert_eq!(code, Some(3), "{report}");
    assert!(report.contains("the 50,000 asked for were not reached"));
}

#[test]
fn a_wrong_answer_fails_the_ramp() {
    let folder = folder("failing");
    let liar = liar(&folder, "replay", "9000s/$/0/");
    let (code, report) = ramp(&folder, &liar, &[]);
    assert_eq!(code, Some(1), "{report}");
    assert!(report.contains("Result: FAILED") && report.contains("Call 9000:"));
}

#[test]
fn a_program_that_hangs_fails_the_ramp() {
    let folder = folder("hanging");
    let hanging = script(&folder, "hanging", "exec sleep 600");
    let (code, report) = ramp(&folder, &hanging, &["--patience", "1"]);
    assert_eq!(code, Some(1), "{report}");
    assert!(
        report.contains("Result: FAILED: call 1 got no answer"),
        "{report}"
    );
}

#[test]
fn a_program_that_is_not_there_fails_the_ramp() {
    let folder = folder("missing");
    let (code, report) = ramp(&folder, Path::new("no-such-program"), &[]);
    assert_eq!(code, Some(1), "{report}");
    assert!(report.contains("can't be started"));
}

#[test]
fn reports_do_not_overwrite_each_other() {
    let folder = folder("kept");
    let program = sibling("replay");
    let before = fs::read_dir(&folder).unwrap().count();
    for _ in 0..2 {
        let output = run(RAMP, &folder, &[text(&program), "--minutes", "0.02"]);
        assert!(output.status.success(), "{output:?}");
    }
    assert_eq!(fs::read_dir(&folder).unwrap().count(), before + 4);
    fs::write(folder.join("old.txt"), "old").unwrap();
    let again = [text(&program), "--minutes", "0.02", "--report", "old.txt"];
    assert_eq!(run(RAMP, &folder, &again).status.code(), Some(2));
    let astray = ["--chart", "no/such/folder/c.svg", "--force"];
    let again = [&again[..], &astray].concat();
    assert_eq!(run(RAMP, &folder, &again).status.code(), Some(2));
    assert_eq!(fs::read_to_string(folder.join("old.txt")).unwrap(), "old");
}

#[test]
fn wrong_use_is_told() {
    let folder = folder("wrong");
    assert_eq!(run(COMPARE, &folder, &[]).status.code(), Some(2));
    for wrong in [
        &["replay", "--bits", "13"][..],
        &["replay", "--rate", "0"],
        &["replay", "--minutes", "0"],
        &["replay", "--seed"],
        &["replay", "--frob", "1"],
        &["replay", "--all", "--seed", "1"],
        &["replay", "another"],
        &["replay", "--report", "no/such/folder/r.txt"],
        &[],
    ] {
        let output = run(RAMP, &folder, wrong);
        assert_eq!(output.status.code(), Some(2), "{wrong:?}: {output:?}");
    }
}
