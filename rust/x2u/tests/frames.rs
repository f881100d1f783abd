//! The codec over whole families of frames.

mod common;

use common::{refusal_of, report, run, status_of, written_data, written_status};
use proptest::collection::vec;
use proptest::prelude::*;
use x2u::frame::{self, Frame, LONGEST, Range, Report};
use x2u::{Form, Refusal};

fn forms() -> impl Strategy<Value = Form> {
    prop_oneof![Just(Form::Short), Just(Form::Long)]
}

fn reports(form: Form) -> impl Strategy<Value = Report> {
    (
        0..=form.largest_highest(),
        any::<u32>(),
        any::<u32>(),
        any::<bool>(),
    )
        .prop_map(|(highest, desired, minimum, last)| report(highest, desired, minimum, last))
}

fn ranges(form: Form, count: usize) -> impl Strategy<Value = Vec<Range>> {
    let number = 0..form.numbers().size();
    vec(
        (number.clone(), number).prop_map(|(start, end)| run(start, end)),
        0..=count,
    )
}

fn statuses() -> impl Strategy<Value = (Form, Report, Vec<Range>)> {
    forms().prop_flat_map(|form| (Just(form), reports(form), ranges(form, 162)))
}

/// Document 01's table of lengths, with the fewest octets to the next 4k - 2.
fn expected_length(form: Form, ranges: usize) -> usize {
    let unpadded = match (form, ranges) {
        (Form::Short, 0) => 11,
        (Form::Short, n) => 12 + 4 * n,
        (Form::Long, 0) => 12,
        (Form::Long, n) => 13 + 6 * n,
    };
    (unpadded..).find(|length| length % 4 == 2).unwrap()
}

proptest! {
    #[test]
    fn data_comes_back((form, number) in forms().prop_flat_map(|form| {
        (Just(form), 0..form.numbers().size())
    })) {
        let octets = written_data(form, number);
        prop_assert_eq!(octets.len(), 6);
        prop_assert_eq!(frame::read(&octets), Frame::Data { form, number });
    }

    #[test]
    fn a_status_comes_back((form, report, list) in statuses()) {
        let octets = written_status(form, &report, &list);
        prop_assert_eq!(octets.len(), expected_length(form, list.len()));
        let (read_report, read_list) = status_of(&octets);
        prop_assert_eq!(read_report, report);
        prop_assert_eq!(read_list, list);
    }

    #[test]
    fn spare_bits_and_the_tail_change_nothing(
        (form, report, list) in statuses(),
        spare in 0_u8..4,
        words in 0_usize..8,
        filler in any::<u8>(),
    ) {
        let mut octets = written_status(form, &report, &list);
        octets[0] |= spare << 2;
        let longer = (octets.len() + 4 * words).min(LONGEST);
        octets.resize(longer, filler);
        prop_assert_eq!(status_of(&octets), (report, list));
    }

    #[test]
    fn only_the_frame_is_written((form, report, list) in statuses(), room in 0..=LONGEST) {
        let mut buffer = vec![0xA5; room];
        let length = expected_length(form, list.len());
        let answer = frame::write_status(form, &report, &list, &mut buffer);
        let untouched = match answer {
            Ok(written) => {
                prop_assert_eq!(written, length);
                written
            }
            Err(refusal) => {
                prop_assert_eq!(refusal, Refusal::BufferShort);
                prop_assert!(room < length);
                0
            }
        };
        prop_assert!(buffer[untouched..].iter().all(|&octet| octet == 0xA5));
    }

    #[test]
    fn any_octets_are_judged_in_order(octets in vec(any::<u8>(), 0..40)) {
        let mut octets = octets;
        if let Some(first) = octets.first_mut() {
            *first &= 0x4F; // half of them get a type that exists
        }
        prop_assert_eq!(refusal_of(&octets), judged_slowly(&octets));
    }
}

/// Document 01's read order, one sentence after another.
fn judged_slowly(octets: &[u8]) -> Option<Refusal> {
    let length = octets.len();
    if !(6..=1_018).contains(&length) || !(length + 2).is_multiple_of(4) {
        return Some(Refusal::FrameLength);
    }
    let width = match octets[0] >> 4 {
        0 | 3 => return None,
        1 => 2,
        2 => 3,
        _ => return Some(Refusal::ReservedType),
    };
    let listed = octets[0] % 2 == 1;
    let fixed = 1 + width + 8 + usize::from(listed);
    if length < fixed {
        return Some(Refusal::FieldsCut);
    }
    let highest = octets[1..=width]
        .iter()
        .fold(0, |sum, &octet| sum * 256 + u32::from(octet));
    if highest > [32_767, 262_143][width - 2] {
        return Some(Refusal::HighestTooLarge);
    }
    if !listed {
        return None;
    }
    match usize::from(octets[fixed - 1]) {
        0 | 163.. => Some(Refusal::RangeCount),
        count => (length < fixed + count * width * 2).then_some(Refusal::ListCut),
    }
}

#[test]
fn the_fullest_frames() {
    let list = [run(65_535, 1); 162];
    let short = written_status(Form::Short, &report(0, 0, 0, false), &list);
    let long = written_status(Form::Long, &report(0, 0, 0, false), &list);
    assert_eq!((short.len(), long.len()), (662, 986));
    assert_eq!(status_of(&short).1, list);
    assert_eq!(status_of(&long).1, list);
}

#[test]
fn the_longest_frame_is_read() {
    let mut octets = [0xFF; LONGEST + 4];
    octets[0] = 0x0F;
    assert_eq!(refusal_of(&octets[..LONGEST]), None);
    assert_eq!(refusal_of(&octets), Some(Refusal::FrameLength));
}

#[test]
fn writing_refuses_in_order() {
    let mut none = [];
    let bad_highest = report(32_768, 0, 0, false);
    let good = report(32_767, 0, 0, false);
    let outside = run(0, 65_536);
    let write = |report: &Report, list: &[Range], buffer: &mut [u8]| {
        frame::write_status(Form::Short, report, list, buffer)
    };
    assert_eq!(
        write(&bad_highest, &[outside; 163], &mut none),
        Err(Refusal::HighestTooLarge)
    );
    assert_eq!(
        write(&good, &[outside; 163], &mut none),
        Err(Refusal::RangeCount)
    );
    assert_eq!(
        write(&good, &[outside], &mut none),
        Err(Refusal::NumberTooLarge)
    );
    assert_eq!(write(&good, &[], &mut none), Err(Refusal::BufferShort));
    assert_eq!(
        frame::write_data(Form::Long, 1 << 24, &mut none),
        Err(Refusal::NumberTooLarge)
    );
    assert_eq!(
        frame::write_data(Form::Long, 0, &mut none),
        Err(Refusal::BufferShort)
    );
    let too_high = report(262_144, 0, 0, false);
    assert_eq!(
        frame::write_status(Form::Long, &too_high, &[], &mut none),
        Err(Refusal::HighestTooLarge)
    );
}
