//! A bearer that rests on the master's own radio, on the library, on the naive
//! model and under the watch.

use model::Opening;
use property::rested;
use soak::naive;
use soak::order::Met;

#[test]
fn a_bearer_rests_and_keeps_demand_3() {
    for (bits, first, first_pdcp) in [
        (12, 65_400, 4_000),
        (12, 0, 0),
        (15, 65_400, 32_700),
        (15, 7, 16_384),
        (18, 16_777_000, 262_000),
        (18, 0, 131_071),
    ] {
        let bearer = rested::play(Opening {
            bits,
            first,
            first_pdcp,
        });
        let bearer = bearer.unwrap_or_else(|wrong| panic!("L {bits}: {wrong}"));
        let lines = bearer.trace.lines.iter().map(Vec::as_slice);
        let answers = naive::alike(lines).unwrap();
        let answers: Vec<Vec<u8>> = answers.into_iter().map(String::into_bytes).collect();
        assert_eq!(bearer.trace.check(&answers), Ok(bearer.pair.tally()));
        // By document 01 none of these would have gone out.
        let rested = bearer.sends.times(Met::Rested) + bearer.sends.times(Met::RestedBehindLost);
        assert!(rested >= 10, "L {bits}: {}", bearer.sends);
        assert!(
            bearer.sends.times(Met::Highest) >= 2,
            "L {bits}: {}",
            bearer.sends
        );
    }
}
