//! Frames as octets, laid out here field by field from document 01's table, so
//! that each field can be wrong by itself and shrinks by itself.

use proptest::collection::vec;
use proptest::option;
use proptest::prelude::*;
use std::fmt::{self, Debug, Formatter};
use x2u::frame::{LONGEST, MOST_RANGES};

/// Octets, shown in hexadecimal.
#[derive(Clone, PartialEq, Eq)]
pub struct Octets(pub Vec<u8>);

impl Debug for Octets {
    fn fmt(&self, out: &mut Formatter<'_>) -> fmt::Result {
        write!(out, "{} octets ", self.0.len())?;
        self.0
            .iter()
            .try_for_each(|octet| write!(out, "{octet:02x}"))
    }
}

/// The fields of a frame of any type, right or wrong.
#[derive(Clone, Debug)]
pub struct Layout {
    /// Bits 7 to 4 of the first octet.
    pub kind: u8,
    /// Its spare bits, where a type has them.
    pub spare: u8,
    /// Final, of a status.
    pub last: bool,
    /// X2-U number of data, or highest PDCP number of a status.
    pub number: u32,
    /// Desired and minimum size, of a status.
    pub sizes: [u32; 2],
    /// The ranges of a status; with none there is no list.
    pub ranges: Vec<(u32, u32)>,
    /// The count octet, where it isn't the count of the ranges.
    pub count: Option<u8>,
    /// What follows the last field beyond the padding, four octets each.
    pub extension: Vec<[u8; 4]>,
    /// The padding, as far as it is needed.
    pub padding: [u8; 3],
    /// The length that the frame is cut or stretched to.
    pub length: Option<usize>,
}

impl Layout {
    /// Whether numbers have 3 octets.
    #[must_use]
    pub fn is_long(&self) -> bool {
        self.kind == 2 || self.kind == 3
    }

    fn is_status(&self) -> bool {
        self.kind == 1 || self.kind == 2
    }

    /// Whether the writer would lay it out just so.
    #[must_use]
    pub fn is_plain(&self) -> bool {
        self.spare == 0
            && self.count.is_none()
            && self.extension.is_empty()
            && self.padding == [0; 3]
            && self.length.is_none()
    }

    /// The octets.
    #[must_use]
    pub fn octets(&self) -> Octets {
        let width = if self.is_long() { 3 } else { 2 };
        let listed = self.is_status() && (!self.ranges.is_empty() || self.count.is_some());
        let spare = if self.is_status() { 0x0C } else { 0x0F };
        let flags = u8::from(self.is_status() && self.last) << 1 | u8::from(listed);
        let mut octets = vec![self.kind << 4 | self.spare & spare | flags];
        let number = |octets: &mut Vec<u8>, number: u32, width: usize| {
            octets.extend(&number.to_be_bytes()[4 - width..]);
        };
        number(&mut octets, self.number, width);
        if self.is_status() {
            number(&mut octets, self.sizes[0], 4);
            number(&mut octets, self.sizes[1], 4);
        }
        if listed {
            octets.push(self.count.unwrap_or(self.ranges.len() as u8));
            for &(start, end) in &self.ranges {
                number(&mut octets, start, width);
                number(&mut octets, end, width);
            }
        }
        let padding = (6 - octets.len() % 4) % 4;
        octets.extend(&self.padding[..padding]);
        octets.extend(self.extension.iter().flatten());
        if let Some(length) = self.length {
            octets.resize(length, 0);
        }
        Octets(octets)
    }
}

/// How many ranges: mostly few, sometimes as many as fit.
fn counts() -> impl Strategy<Value = usize> {
    prop_oneof![
        6 => Just(0),
        8 => 1_usize..6,
        2 => 1_usize..=MOST_RANGES,
        1 => Just(MOST_RANGES),
    ]
}

/// Numbers on a circle of so many bits, its ends more often than others.
fn on_circle(bits: u32) -> impl Strategy<Value = u32> + Clone {
    prop_oneof![6 => 0_u32..1 << bits, 1 => Just(0), 1 => Just((1_u32 << bits) - 1)]
}

fn sizes() -> impl Strategy<Value = [u32; 2]> {
    prop_oneof![3 => any::<[u32; 2]>(), 1 => Just([0; 2]), 1 => Just([u32::MAX; 2])]
}

fn data(long: bool) -> impl Strategy<Value = Layout> {
    let bits = if long { 24 } else { 16 };
    on_circle(bits).prop_map(move |number| Layout {
        kind: if long { 3 } else { 0 },
        spare: 0,
        last: false,
        number,
        sizes: [0; 2],
        ranges: Vec::new(),
        count: None,
        extension: Vec::new(),
        padding: [0; 3],
        length: None,
    })
}

fn status(long: bool) -> impl Strategy<Value = Layout> {
    let (bits, highest) = if long { (24, 18) } else { (16, 15) };
    let range = (on_circle(bits), on_circle(bits));
    let ranges = counts().prop_flat_map(move |count| vec(range.clone(), count));
    (any::<bool>(), on_circle(highest), sizes(), ranges).prop_map(
        move |(last, number, sizes, ranges)| Layout {
            kind: if long { 2 } else { 1 },
            spare: 0,
            last,
            number,
            sizes,
            ranges,
            count: None,
            extension: Vec::new(),
            padding: [0; 3],
            length: None,
        },
    )
}

/// Frames as the writer lays them out.
pub fn plain() -> impl Strategy<Value = Layout> {
    prop_oneof![1 => data(false), 1 => data(true), 3 => status(false), 3 => status(true)]
}

/// Good frames: spare bits, padding and extensions as they may be.
pub fn good() -> impl Strategy<Value = Layout> {
    let tail = prop_oneof![3 => vec(any::<[u8; 4]>(), 0..4), 1 => vec(any::<[u8; 4]>(), 0..255)];
    (plain(), any::<u8>(), any::<[u8; 3]>(), tail).prop_map(
        |(layout, spare, padding, extension)| {
            let mut layout = Layout {
                spare,
                padding,
                ..layout
            };
            let room = (LONGEST - layout.octets().0.len()) / 4;
            layout.extension = extension;
            layout.extension.truncate(room);
            layout
        },
    )
}

/// A good frame spoilt in one field or more.
pub fn hostile() -> impl Strategy<Value = Layout> {
    let kind = option::weighted(0.15, 0_u8..16);
    let highest = option::weighted(
        0.2,
        prop_oneof![
            3 => prop::sample::select(vec![32_767_u32, 32_768, 65_535, 262_143, 262_144, (1 << 24) - 1]),
            1 => any::<u32>(),
        ],
    );
    let count = option::weighted(
        0.35,
        prop_oneof![
            3 => prop::sample::select(vec![0_u8, 1, 2, 161, 162, 163, 255]),
            1 => any::<u8>(),
        ],
    );
    let length = option::weighted(
        0.5,
        prop_oneof![
            3 => (1_usize..6).prop_map(|k| 4 * k + 2),
            2 => 0_usize..24,
            2 => (1_usize..=255).prop_map(|k| 4 * k - 2),
            1 => prop::sample::select(vec![1_014_usize, 1_016, 1_017, 1_018, 1_019, 1_020, 1_022]),
            1 => 0_usize..1_100,
        ],
    );
    (good(), kind, highest, count, length).prop_map(|(layout, kind, highest, count, length)| {
        Layout {
            kind: kind.unwrap_or(layout.kind),
            number: highest.unwrap_or(layout.number),
            count,
            length,
            ..layout
        }
    })
}

/// Octets that nobody laid out.
pub fn random() -> impl Strategy<Value = Octets> {
    let lengths = prop_oneof![
        3 => 0_usize..40,
        4 => (1_usize..12).prop_map(|k| 4 * k - 2),
        2 => (1_usize..=255).prop_map(|k| 4 * k - 2),
        1 => 1_000_usize..1_040,
    ];
    let octets = lengths.prop_flat_map(|length| vec(any::<u8>(), length));
    // Half of them with a type that there is.
    (octets, prop::bool::ANY).prop_map(|(mut octets, known)| {
        if let Some(first) = octets.first_mut()
            && known
        {
            *first &= 0x3F;
        }
        Octets(octets)
    })
}

/// A frame of any kind.
pub fn any_frame() -> impl Strategy<Value = Octets> {
    prop_oneof![
        2 => good().prop_map(|layout| layout.octets()),
        2 => hostile().prop_map(|layout| layout.octets()),
        1 => random(),
    ]
}

#[cfg(test)]
mod tests {
    use super::{good, plain};
    use proptest::prelude::*;
    use x2u::frame::{self, Frame, Range, Report};

    proptest! {
        #[test]
        fn a_plain_layout_is_what_the_library_writes(layout in plain()) {
            let form = if layout.is_long() { x2u::Form::Long } else { x2u::Form::Short };
            let mut buffer = [0; 1_018];
            let length = if layout.kind == 0 || layout.kind == 3 {
                frame::write_data(form, layout.number, &mut buffer)
            } else {
                let ranges = layout.ranges.iter().map(|&(start, end)| Range { start, end });
                let report = Report {
                    highest: layout.number,
                    desired: layout.sizes[0],
                    minimum: layout.sizes[1],
                    is_final: layout.last,
                };
                let ranges: Vec<Range> = ranges.collect();
                frame::write_status(form, &report, &ranges, &mut buffer)
            };
            prop_assert!(layout.is_plain());
            prop_assert_eq!(&layout.octets().0, &buffer[..length.unwrap()]);
        }

        #[test]
        fn a_good_layout_is_read(layout in good()) {
            let octets = layout.octets();
            let refused = matches!(frame::read(&octets.0), Frame::Refused(_));
            prop_assert!(!refused, "{:?}", octets);
        }
    }
}
