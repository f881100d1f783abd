//! The scripts for comparing programs, played on the naive model.

use soak::marks::Marks;
use soak::moods;
use soak::naive::alike;
use soak::order::Sends;
use soak::rng::Rng;
use soak::script::Script;
use soak::sizes::Sizes;
use std::fs;
use std::path::Path;
use x2u::frame::LONGEST;

/// Plays a script on the library and on the model. Answers what both said.
fn play(script: &Script) -> Vec<String> {
    alike(script.text.split(|&octet| octet == b'\n')).unwrap()
}

#[test]
fn the_library_is_the_naive_model_on_scripts() {
    let mut rng = Rng::new(11);
    for round in 0..60 {
        // The model is too slow for jumps over millions.
        let bits = if round % 2 == 0 { 12 } else { 15 };
        let script = Script::with_bits(Rng::new(rng.bits()), bits);
        let _ = play(&moods::in_moods(script));
    }
}

/// The calls that the gate plays on the product, with the answers they should have.
#[test]
fn library_and_model_give_the_answers_on_paper() {
    let folder = Path::new(env!("CARGO_MANIFEST_DIR")).join("../../tests/calls");
    let mut cases = 0;
    for file in fs::read_dir(folder).unwrap() {
        let text = fs::read_to_string(file.unwrap().path()).unwrap();
        for case in text.split("\n\n").filter(|case| case.contains(" = ")) {
            // What is no call is no matter of the model's.
            let lines = case.lines().filter_map(|line| line.split_once(" = "));
            let lines = lines.filter(|&(_, answer)| answer != "unreadable");
            let (calls, wanted): (Vec<_>, Vec<_>) = lines
                .map(|(call, answer)| (call.replace(' ', "\t"), answer.replace(' ', "\t")))
                .unzip();
            let answers = alike(calls.iter().map(String::as_bytes));
            assert_eq!(answers, Ok(wanted), "{case}");
            cases += 1;
        }
    }
    assert!(cases > 45, "{cases} cases");
}

/// Rests of every length, and sends at the limits of the PDCP order.
#[test]
fn the_library_is_the_naive_model_on_rests() {
    let mut rng = Rng::new(17);
    let mut sends = Sends::default();
    for _ in 0..60 {
        let script = moods::rested(Rng::new(rng.bits()));
        let _ = play(&script);
        sends.add(script.sends);
    }
    assert!(sends.least() >= 100, "{sends}");
}

/// PDUs at the limits of their size and around the room, which is asked for all
/// the time.
#[test]
fn the_library_is_the_naive_model_on_sizes() {
    let mut rng = Rng::new(19);
    let mut sizes = Sizes::default();
    for _ in 0..60 {
        let script = moods::sized(Rng::new(rng.bits()));
        let _ = play(&script);
        sizes.add(script.sizes);
    }
    assert!(sizes.least() >= 10, "{sizes}");
}

/// Expiries with marks of every kind, between gaps.
#[test]
fn the_library_is_the_naive_model_on_marks() {
    let mut rng = Rng::new(23);
    let mut marks = Marks::default();
    for _ in 0..60 {
        let script = moods::marked(Rng::new(rng.bits()));
        let _ = play(&script);
        marks.add(script.marks);
    }
    assert!(marks.least() >= 20, "{marks}");
}

/// Half a circle of packets, of which every one arrives and is freed. Then a copy
/// of the first is within demand 3's bounds and opposite base, one of the second
/// is late.
#[test]
fn half_a_circle_of_packets() {
    let mut script = Script::with_bits(Rng::new(3), 12);
    let half = script.ends.bearer.numbers().half();
    let mut sent = Vec::new();
    for packet in 1..=half {
        script.send_next(0);
        let (number, pdcp) = script.ends.under_way.pop_front().unwrap();
        sent.push((number, pdcp));
        script.arrive(number, pdcp);
        script.confirm(number);
        if packet % 256 == 0 {
            script.status(false, LONGEST);
            script.deliver();
        }
    }
    script.show();
    for (number, pdcp) in &sent[..2] {
        script.arrive(*number, *pdcp);
    }
    let answers = play(&script);
    let freed = |answer: &&String| answer.starts_with("freed\t256\tlost\t0");
    assert_eq!(answers.iter().filter(freed).count(), 128);
    let [keeper, ledger, _, first, second] = &answers[answers.len() - 5..] else {
        panic!("{answers:?}");
    };
    // Base is the next number to be sent.
    let base = keeper.split('\t').nth(1);
    assert_eq!(base, ledger.split('\t').nth(1));
    assert_eq!([first, second], ["refused\t18", "refused\t11"]);
}
