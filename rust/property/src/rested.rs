//! A bearer that rests on the master's own radio, again and again, from its
//! opening to its Final: what request Three of document 02 is about, with the
//! answers that it gives.

use crate::bearer::{Bearer, PDU, Step};
use crate::suite::Verdict;
use model::Opening;
use x2u::Refusal::PdcpOrder;
use x2u::{Answer, ledger::Fate};

/// Plays it. Says so if an answer isn't as it should be, or demand 3 doesn't hold.
pub fn play(opening: Opening) -> Result<Bearer, String> {
    let mut bearer = Bearer::new(opening);
    fresh(&mut bearer)?;
    let [half, turn] = [bearer.circle.half(), bearer.circle.size()];
    // PDUs over the master alone: around half the circle, and around a turn.
    for pdus in [half - 2, half - 1, half, half + 7, turn - 2, turn, turn + 1] {
        traffic(&mut bearer, 40)?;
        rest(&mut bearer, pdus)?;
    }
    a_whole_turn(&mut bearer)?;
    traffic(&mut bearer, 400)?;
    rest(&mut bearer, half)?;
    sent_again(&mut bearer)?;
    end(&mut bearer)?;
    Ok(bearer)
}

/// A send, and what it is to come to.
fn send(bearer: &mut Bearer, pdcp: u32, wanted: Answer<()>) -> Verdict {
    let answer = bearer.send(pdcp, PDU.later(pdcp))?.map(|_| ());
    if answer == wanted {
        return Ok(());
    }
    let ledger = &bearer.pair.ledger;
    let (highest, oldest) = (ledger.highest(), ledger.oldest_waiting());
    Err(format!(
        "a send of {pdcp} came to {answer:?}, not {wanted:?}; H is {highest}, the oldest is {oldest:?}"
    ))
}

fn nothing_waits(bearer: &Bearer) -> Verdict {
    let mut entries = bearer.pair.ledger.entries();
    match entries.find(|entry| entry.fate == Fate::Waiting) {
        None => Ok(()),
        Some(entry) => Err(format!("{entry:?} still waits")),
    }
}

/// Before anything is sent, half the circle goes over the master alone.
fn fresh(bearer: &mut Bearer) -> Verdict {
    let highest = bearer.pair.ledger.highest();
    send(bearer, highest, Err(PdcpOrder))?;
    let first = bearer.circle.step(highest, bearer.circle.half());
    send(bearer, first, Ok(()))?;
    limits(bearer, first)?;
    // The furthest there is: then nothing follows until it is settled.
    let last = bearer.circle.step(first, bearer.circle.half() - 1);
    send(bearer, last, Ok(()))?;
    send(bearer, bearer.pdcp_after_last(0), Err(PdcpOrder))?;
    bearer.drain()?;
    nothing_waits(bearer)
}

/// Both limits with one packet waiting, and H.
fn limits(bearer: &mut Bearer, waits: u32) -> Verdict {
    let half = bearer.circle.half();
    for ahead in [0, half, half + 1, bearer.circle.size() - 1] {
        send(bearer, bearer.circle.step(waits, ahead), Err(PdcpOrder))?;
    }
    send(bearer, bearer.pair.ledger.highest(), Err(PdcpOrder))
}

/// Packets of which two in five are lost, reported, and left with the master.
fn traffic(bearer: &mut Bearer, count: usize) -> Verdict {
    for step in [
        Step::send(count as u32),
        Step::Arrive {
            dropped: 2,
            period: 5,
            count,
        },
        Step::expire(),
        Step::Confirm {
            passed: usize::MAX,
            count: usize::MAX,
        },
        Step::status(false),
        Step::Deliver(1),
    ] {
        bearer.make(&step)?;
    }
    nothing_waits(bearer)
}

/// So many PDUs go over the master alone; then the next goes over X2.
fn rest(bearer: &mut Bearer, pdus: u32) -> Verdict {
    let next = bearer.pdcp_after_last(pdus);
    send(bearer, next, Ok(()))?;
    limits(bearer, next)?;
    bearer.make(&Step::Take(3))?;
    limits(bearer, next)?;
    let second = bearer.pdcp_after_last(1);
    send(bearer, second, Ok(()))?;
    send(bearer, second, Err(PdcpOrder))?;
    bearer.drain()
}

/// A turn on, the next PDU bears H: it may not go over X2, the one after it may.
fn a_whole_turn(bearer: &mut Bearer) -> Verdict {
    let highest = bearer.pair.ledger.highest();
    send(bearer, highest, Err(PdcpOrder))?;
    send(bearer, bearer.circle.step(highest, 1), Ok(()))?;
    limits(bearer, bearer.circle.step(highest, 1))?;
    bearer.drain()
}

/// What was lost is taken and sent again, and another time with its first copy
/// still held: each is another packet.
fn sent_again(bearer: &mut Bearer) -> Verdict {
    for taken in [true, false] {
        let lost: Vec<u32> = bearer.pair.ledger.entries().map(|e| e.pdcp).collect();
        let lost = &lost[lost.len() - 20..];
        if taken {
            bearer.make(&Step::Take(512))?;
        }
        for &pdcp in lost {
            send(bearer, pdcp, Ok(()))?;
        }
        bearer.arrive(1, 4, lost.len())?;
        bearer.make(&Step::expire())?;
        bearer.drain()?;
        traffic(bearer, 100)?;
    }
    Ok(())
}

/// Final, with packets lost and waiting: the master gives out what it holds.
fn end(bearer: &mut Bearer) -> Verdict {
    for step in [
        Step::Rest { part: 700, off: 0 },
        Step::Send {
            skip: 1,
            count: 30,
            size: PDU,
        },
        Step::status(true),
        Step::Deliver(usize::MAX),
        Step::send(1),
        Step::Take(512),
    ] {
        bearer.make(&step)?;
    }
    let (tally, sent) = (bearer.pair.tally(), bearer.pair.watch.sent_count());
    let octets = tally.octets;
    if tally.freed + tally.taken == sent as u64 && octets.freed + octets.taken == octets.sent {
        Ok(())
    } else {
        Err(format!("{sent} were sent, but {tally:?}"))
    }
}
