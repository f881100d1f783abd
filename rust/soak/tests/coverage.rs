//! What the scripts and frames for comparing programs reach.

use programs::lister;
use programs::replay::Replay;
use soak::compare::{Frames, Scripts, Source};
use soak::marks::Marks;
use soak::moods;
use soak::order::Sends;
use soak::rng::Rng;
use soak::sizes::Sizes;
use soak::sums::Sums;
use soak::table::Table;
use std::io;
use x2u::Refusal;

/// Answers at least `least` lines of a source and counts the answers.
fn counted(
    source: &mut impl Source,
    least: usize,
    mut answer: impl FnMut(&[u8], &mut Vec<u8>) -> io::Result<()>,
) -> Table {
    let mut table = Table::default();
    let mut done = 0;
    let mut out = Vec::new();
    while done < least {
        let chunk = source.chunk();
        for line in &chunk.lines {
            out.clear();
            answer(line, &mut out).unwrap();
            table.count(source.word(line), out.strip_suffix(b"\n").unwrap());
        }
        done += chunk.lines.len();
    }
    table
}

#[test]
fn scripts_meet_every_refusal_often() {
    let mut replay = Replay::default();
    let table = counted(&mut Scripts::new(7), 500_000, |line, out| {
        replay.answer(Some(line), out)
    });
    for refusal in Refusal::ALL {
        let times = table.times(refusal);
        assert!(times >= 40, "{refusal:?} was given {times} times");
    }
}

/// The sum of what waits is looked at behind all that moves it, and behind what
/// must not.
#[test]
fn scripts_look_at_the_sum_often() {
    let (mut replay, mut sums) = (Replay::default(), Sums::default());
    counted(&mut Scripts::new(7), 500_000, |line, out| {
        replay.answer(Some(line), out)?;
        sums.see(line, out.strip_suffix(b"\n").unwrap_or(out));
        Ok(())
    });
    assert!(sums.least() >= 100, "{sums}");
}

#[test]
fn scripts_meet_the_limits_of_the_order_of_sizes_of_the_room_and_of_marks() {
    let mut rng = Rng::new(7);
    let (mut sends, mut sizes) = (Sends::default(), Sizes::default());
    let mut marks = Marks::default();
    for _ in 0..300 {
        let script = moods::script(Rng::new(rng.bits()));
        sends.add(script.sends);
        sizes.add(script.sizes);
        marks.add(script.marks);
    }
    assert!(sends.least() >= 40, "{sends}");
    assert!(sizes.least() >= 40, "{sizes}");
    assert!(marks.least() >= 40, "{marks}");
}

#[test]
fn frames_meet_every_refusal_often() {
    let table = counted(&mut Frames::new(7), 100_000, |line, out| {
        lister::answer(Some(line), out)
    });
    for refusal in &Refusal::ALL[..6] {
        let times = table.times(*refusal);
        assert!(times >= 300, "{refusal:?} was given {times} times");
    }
}
