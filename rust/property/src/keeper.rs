//! The product's keeper beside the library's, call by call through the C
//! boundary, with the whole state compared after each.

use crate::scripts::Script;
use crate::suite::Verdict;
use boundary::{MOST_RECORDS, MOST_RUNS, OPEN};
use programs::replay::{Call, MOST_ROOM};
use proptest::prelude::*;
use soak::marks::Marks;
use soak::table::Table;
use x2u::circle::Circle;
use x2u::frame::LONGEST;
use x2u::{Answer, Form, Keeper, Refusal};

/// The keeper's refusals.
pub const REFUSALS: [u8; 14] = [7, 9, 10, 11, 12, 13, 14, 15, 16, 17, 18, 19, 20, 22];

fn number(answer: Answer<u32>) -> i64 {
    match answer {
        Ok(answer) => answer.into(),
        Err(refusal) => -i64::from(refusal.number()),
    }
}

/// The circle of X2-U numbers by L, of a state too that no call left behind.
fn circle(length: u32) -> Circle {
    let form = if length == 18 {
        Form::Long
    } else {
        Form::Short
    };
    form.numbers()
}

/// What the keeper's calls met.
#[derive(Clone, Debug, Default)]
pub struct Met {
    /// How often each answer was given.
    pub table: Table,
    /// What expiries met by their marks.
    pub marks: Marks,
    /// How many calls there were.
    pub calls: u64,
}

/// Both keepers of one bearer.
struct Both {
    /// None until an open is accepted.
    library: Option<Keeper>,
    product: Box<boundary::Keeper>,
}

/// Plays the keeper's calls of a script on both.
pub fn alike(script: &Script, met: &mut Met) -> Verdict {
    let mut both = Both {
        library: None,
        product: Box::new(boundary::Keeper::of(0)),
    };
    let mut room = [0; LONGEST];
    for line in &script.0 {
        let Some(call) = Call::of_line(line, &mut room) else {
            continue;
        };
        if let (Call::Expire(mark), Some(library)) = (&call, &both.library) {
            let circle = circle(both.product.words[0]);
            met.marks.expire(circle, library, *mark);
        }
        if let Some((word, answer)) = both.make(&call)? {
            let text = if answer < 0 {
                format!("refused\t{}", -answer)
            } else {
                format!("{word} done")
            };
            met.table.count(word.as_bytes(), text.as_bytes());
            met.calls += 1;
        }
    }
    Ok(())
}

impl Both {
    /// Makes a call, if it is one on a keeper: one that was never opened is
    /// closed.
    fn make(&mut self, call: &Call<'_>) -> Result<Option<(&'static str, i64)>, String> {
        let before = self.product.clone();
        let (word, wanted, got) = match *call {
            Call::Open([length, first, pdcp]) => {
                let opened = Keeper::open(length, first, pdcp);
                let wanted = opened.as_ref().map(|_| 0).map_err(|refusal| *refusal);
                if let Ok(opened) = opened {
                    self.library = Some(opened);
                }
                ("open", wanted, self.product.open(length, first, pdcp))
            }
            _ => match self.other(call)? {
                Some(made) => made,
                None => return Ok(None),
            },
        };
        if number(wanted) != got {
            return Err(format!(
                "{call:?}: the library {wanted:?}, the product {got}"
            ));
        }
        if got < 0 && self.product != before {
            return Err(format!(
                "{call:?} is refused with {got}, and the state changes"
            ));
        }
        self.compare()
            .map_err(|what| format!("after {call:?}: {what}"))?;
        Ok(Some((word, got)))
    }

    fn other(&mut self, call: &Call<'_>) -> Result<Option<Made>, String> {
        let (library, product) = (&mut self.library, &mut self.product);
        let closed = Err(Refusal::Closed);
        let library = library.as_mut();
        Ok(Some(match *call {
            Call::Arrive([n, p]) => (
                "arrive",
                library.map_or(closed, |end| end.arrive(n, p)),
                product.arrive(n, p),
            ),
            Call::Expire(mark) => (
                "expire",
                library.map_or(closed, |end| end.expire(mark)),
                product.expire(mark),
            ),
            Call::Confirm(n) => (
                "confirm",
                library.map_or(closed, |end| end.confirm(n).map(|()| 0)),
                product.confirm(n),
            ),
            Call::Status {
                desired,
                minimum,
                is_final,
                room,
            } => {
                let mut lent = [[0x5A; MOST_ROOM]; 2];
                let [ours, theirs] = &mut lent;
                let wanted = library.map_or(Err(Refusal::Closed), |end| {
                    end.status(desired, minimum, is_final, &mut ours[..room])
                });
                let got = product.status(desired, minimum, is_final, &mut theirs[..room]);
                if ours != theirs {
                    return Err(format!("{call:?}: the buffers differ"));
                }
                ("status", wanted.map(|length| length as u32), got)
            }
            _ => return Ok(None),
        }))
    }

    /// All that the library's keeper shows stands in the product's arrays.
    fn compare(&self) -> Verdict {
        let Some(library) = &self.library else {
            return Ok(());
        };
        let product = &*self.product;
        let [_, base, reported, opened, runs, records] = product.words;
        let wanted = [
            library.base(),
            library.reported_highest(),
            if library.is_closed() { 0 } else { OPEN },
            library.listed_runs().len() as u32,
            library.record_count() as u32,
        ];
        let got = [base, reported, opened, runs, records];
        if wanted != got {
            return Err(format!(
                "the library's words are {wanted:?}, the product's {got:?}"
            ));
        }
        let listed = library.listed_runs().iter();
        let listed = listed.zip(product.starts.iter().zip(&product.ends));
        for (run, pair) in listed {
            if (&run.start, &run.end) != pair {
                return Err(format!("the library lists {run:?}, the product {pair:?}"));
            }
        }
        let arrays = product
            .numbers
            .iter()
            .zip(&product.pdcps)
            .zip(&product.marks);
        for (record, ((&number, &pdcp), &mark)) in library.records().zip(arrays) {
            if (record.number, record.pdcp, record.confirmed) != (number, pdcp, mark != 0) {
                return Err(format!(
                    "the library holds {record:?}, the product {number}:{pdcp}:{mark}"
                ));
            }
        }
        Ok(())
    }
}

/// A call's word, the library's answer and the product's.
type Made = (&'static str, Answer<u32>, i64);

/// A state that no call left behind, and calls on it.
#[derive(Clone, Debug)]
pub struct Garbage {
    fill: u32,
    places: Vec<(usize, u32)>,
    words: boundary::Words,
    number: u32,
    pdcp: u32,
    mark: u32,
    room: usize,
}

/// The places of a state's arrays, without its words.
const PLACES: usize = 3 * MOST_RECORDS + 2 * MOST_RUNS;

/// How far a mark may lie from base: near it, and around half of each circle.
const FROM_BASE: [u32; 12] = [
    0,
    1,
    2,
    255,
    256,
    32_767,
    32_768,
    65_535,
    8_388_607,
    8_388_608,
    16_777_215,
    u32::MAX,
];

/// A word of a state or of a call: small, around a limit, or any.
fn word() -> impl Strategy<Value = u32> {
    let limits = [
        0_u32, 1, 12, 15, 18, 161, 162, 163, 255, 256, 257, 511, 512, 513,
    ];
    prop_oneof![
        2 => prop::sample::select(limits.to_vec()),
        2 => 0_u32..70_000,
        1 => any::<u32>(),
        1 => Just(u32::MAX),
    ]
}

/// A mark: any word, or how far it lies from base.
fn marks() -> impl Strategy<Value = Result<u32, u32>> {
    prop_oneof![
        word().prop_map(Ok),
        prop::sample::select(FROM_BASE.to_vec()).prop_map(Err)
    ]
}

/// States of garbage: words of any kind, arrays of one number but for some
/// places.
pub fn garbage() -> impl Strategy<Value = Garbage> {
    let words = [word(), word(), word(), word(), word(), word()];
    let places = prop::collection::vec((0..PLACES, word()), 0..40);
    let lengths = prop::sample::select(vec![0_u32, 12, 15, 18, 40]);
    (
        word(),
        places,
        (words, lengths, any::<bool>()),
        word(),
        word(),
        marks(),
        0_usize..1_020,
    )
        .prop_map(
            |(fill, places, (words, length, open), number, pdcp, mark, room)| {
                let mut words = words;
                words[0] = length;
                if open {
                    words[3] = OPEN;
                }
                Garbage {
                    fill,
                    places,
                    words,
                    number,
                    pdcp,
                    mark: mark.unwrap_or_else(|ahead| circle(length).step(words[1], ahead)),
                    room,
                }
            },
        )
}

/// Every call on garbage answers something that it may, 9 exactly where one
/// word doesn't say open, and a refusal changes nothing. Answers how many calls
/// that were.
pub fn survives(garbage: &Garbage) -> Result<u64, String> {
    let mut state = Box::new(boundary::Keeper::of(garbage.fill));
    for &(place, word) in &garbage.places {
        let of = place % MOST_RECORDS;
        match place / MOST_RECORDS {
            0 => state.numbers[of] = word,
            1 => state.pdcps[of] = word,
            2 => state.marks[of] = word,
            _ if of < MOST_RUNS => state.starts[of] = word,
            _ => state.ends[of - MOST_RUNS] = word,
        }
    }
    state.words = garbage.words;
    let (number, pdcp) = (garbage.number, garbage.pdcp);
    let mut buffer = vec![0x5A; garbage.room];
    type Calls<'a> = [(&'a str, &'a mut dyn FnMut(&mut boundary::Keeper) -> i64); 5];
    let calls: Calls<'_> = [
        ("arrive", &mut |state| state.arrive(number, pdcp)),
        ("expire", &mut |state| state.expire(garbage.mark)),
        ("confirm", &mut |state| state.confirm(number)),
        ("status", &mut |state| {
            state.status(number, pdcp, pdcp % 2 == 1, &mut buffer)
        }),
        ("open", &mut |state| {
            state.open(garbage.words[0], number, pdcp)
        }),
    ];
    let count = calls.len() as u64;
    for (word, call) in calls {
        let mut after = state.clone();
        let answer = call(&mut after);
        let known = Refusal::ALL
            .iter()
            .any(|refusal| -i64::from(refusal.number()) == answer);
        if answer < 0 && !known {
            return Err(format!("{word} answers {answer}"));
        }
        if word != "open" && (answer == -9) != (state.words[3] != OPEN) {
            let opened = state.words[3];
            return Err(format!(
                "{word} answers {answer}, and the word that says open is {opened:#x}"
            ));
        }
        if answer < 0 && after != state {
            return Err(format!(
                "{word} is refused with {answer}, and the state changes"
            ));
        }
    }
    Ok(count)
}
