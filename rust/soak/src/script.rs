//! Writing scripts for `replay`. A script follows its own calls on the
//! library's ends, so that its writer can aim: at base, at a store that is
//! nearly full, at the number half a circle away.

use crate::frames;
use crate::marks::{self, Mark, Marks};
use crate::order::{Before, Edge, Sends};
use crate::rng::Rng;
use crate::sizes::{self, LIMITS, Sizes};
use std::collections::VecDeque;
use std::io::Write;
use x2u::frame::LONGEST;
use x2u::ledger::LARGEST_SIZE;
use x2u::{Bearer, Keeper, Ledger};

/// Both ends as they stand after the calls written so far.
pub struct Ends {
    /// The circles.
    pub bearer: Bearer,
    /// The secondary.
    pub keeper: Keeper,
    /// The master.
    pub ledger: Ledger,
    /// Sent packets that have not arrived: number and PDCP number.
    pub under_way: VecDeque<(u32, u32)>,
    /// Frames that were built and have not been delivered.
    pub frames: VecDeque<Vec<u8>>,
    /// The mark of the host's gap timer, while it runs.
    pub timer: Option<u32>,
}

impl Ends {
    /// Whether a number that the secondary holds lies before base.
    #[must_use]
    pub fn is_before_base(&self, number: u32) -> bool {
        let circle = self.bearer.numbers();
        circle.compare(self.keeper.base(), number).is_before()
    }
}

/// A script being written.
pub struct Script {
    /// Its text so far.
    pub text: Vec<u8>,
    /// Where its lines end in the text.
    pub ends_of_lines: Vec<usize>,
    /// Where its choices come from.
    pub rng: Rng,
    /// The bearer opened last.
    pub ends: Ends,
    /// What its sends met.
    pub sends: Sends,
    /// What its sends and rooms met of sizes.
    pub sizes: Sizes,
    /// What its expiries met by their marks.
    pub marks: Marks,
}

impl Script {
    /// A script that begins by opening a bearer, mostly near both rollovers.
    #[must_use]
    pub fn new(rng: Rng) -> Self {
        let mut rng = rng;
        let bits = rng.pick(&[12, 15, 18]);
        Self::with_bits(rng, bits)
    }

    /// The same with PDCP numbers of that length.
    #[must_use]
    pub fn with_bits(rng: Rng, bits: u32) -> Self {
        let mut rng = rng;
        let (first, first_pdcp) = near_rollover(&mut rng, bits);
        let mut script = Self {
            text: Vec::new(),
            ends_of_lines: Vec::new(),
            rng,
            ends: opened(bits, first, first_pdcp),
            sends: Sends::default(),
            sizes: Sizes::default(),
            marks: Marks::default(),
        };
        script.line(b"open", &[bits, first, first_pdcp]);
        script
    }

    /// How many lines it has.
    #[must_use]
    pub fn len(&self) -> usize {
        self.ends_of_lines.len()
    }

    /// Whether it has no lines.
    #[must_use]
    pub fn is_empty(&self) -> bool {
        self.ends_of_lines.is_empty()
    }

    /// Writes a line as it stands.
    pub fn raw(&mut self, line: &[u8]) {
        self.text.extend_from_slice(line);
        self.text.push(b'\n');
        self.ends_of_lines.push(self.text.len());
    }

    fn line(&mut self, word: &[u8], numbers: &[u32]) {
        let mut line = word.to_vec();
        for number in numbers {
            let width = if self.rng.once_in(200) { 10 } else { 0 };
            write!(line, "\t{number:0width$}").expect("memory takes all");
        }
        self.raw(&line);
    }

    /// An open that is refused, or opens nothing new.
    pub fn bad_open(&mut self) {
        let rng = &mut self.rng;
        let numbers = match rng.within(0..3) {
            0 => [rng.within(0..32), rng.word(), rng.word()],
            1 => [12, rng.within(65_536..70_000), 0],
            _ => [15, 0, rng.within(32_768..40_000)],
        };
        if Bearer::judged(numbers[0], numbers[1], numbers[2]).is_err() {
            self.line(b"open", &numbers);
        }
    }

    /// An arrival.
    pub fn arrive(&mut self, number: u32, pdcp: u32) {
        let _ = self.ends.keeper.arrive(number, pdcp);
        self.line(b"arrive", &[number, pdcp]);
    }

    /// An arrival `ahead` of base, with any PDCP number.
    pub fn arrive_ahead(&mut self, ahead: u32) {
        let circle = self.ends.bearer.numbers();
        let number = circle.step(self.ends.keeper.base(), ahead);
        let pdcp = self.rng.word() % self.ends.bearer.pdcp.size();
        self.arrive(number, pdcp);
    }

    /// An arrival opposite base, as of a copy half a circle old.
    pub fn arrive_opposite(&mut self) {
        self.arrive_ahead(self.ends.bearer.numbers().half());
    }

    /// An expiry.
    pub fn expire(&mut self, mark: u32) {
        let Ends { bearer, keeper, .. } = &mut self.ends;
        self.marks.expire(bearer.numbers(), keeper, mark);
        let _ = keeper.expire(mark);
        self.line(b"expire", &[mark]);
    }

    /// An expiry with its mark there.
    pub fn expire_at(&mut self, mark: Mark) {
        let Ends { bearer, keeper, .. } = &self.ends;
        self.expire(mark.at(bearer.numbers(), keeper));
    }

    /// An expiry that gives up every gap.
    pub fn expire_all(&mut self) {
        self.expire_at(Mark::Highest(0));
    }

    /// An expiry with any mark, mostly at a limit or around one.
    pub fn expire_somewhere(&mut self) {
        let mark = Mark::some(&mut self.rng);
        self.expire_at(mark);
    }

    /// The host's gap timer starts, if there is a gap and it doesn't run.
    pub fn start_timer(&mut self) {
        let Ends { bearer, keeper, .. } = &self.ends;
        let highest = marks::highest_accepted(bearer.numbers(), keeper);
        self.ends.timer = self.ends.timer.or(highest);
    }

    /// It ends, if it runs: an expiry with the mark of its start.
    pub fn end_timer(&mut self) {
        if let Some(mark) = self.ends.timer.take() {
            self.expire(mark);
        }
    }

    /// A confirm.
    pub fn confirm(&mut self, number: u32) {
        let _ = self.ends.keeper.confirm(number);
        self.line(b"confirm", &[number]);
    }

    /// A status in a buffer of `room`. The frame, if there is one, is under way.
    pub fn status(&mut self, is_final: bool, room: usize) {
        let Ends {
            ledger,
            frames,
            keeper,
            ..
        } = &self.ends;
        // The oldest frames under way will do.
        let frames = frames.iter().take(8).map(Vec::as_slice);
        let left = sizes::left_by_status(ledger, frames, keeper, is_final);
        let desired = sizes::desired(&mut self.rng, left);
        let minimum = self.rng.word();
        let mut buffer = [0; LONGEST];
        let lent = &mut buffer[..room.min(LONGEST)];
        let built = self.ends.keeper.status(desired, minimum, is_final, lent);
        if let Ok(length) = built {
            self.ends.frames.push_back(buffer[..length].to_vec());
        }
        self.line(
            b"status",
            &[desired, minimum, u32::from(is_final), room as u32],
        );
    }

    /// A send of a PDU of some size that is allowed.
    pub fn send(&mut self, pdcp: u32) {
        let size = sizes::usual(&mut self.rng, &self.ends.ledger);
        self.send_sized(pdcp, size);
    }

    /// A send of a PDU whose size is at a limit, or beyond.
    pub fn send_at_limit(&mut self, pdcp: u32) {
        let size = self.rng.pick(&LIMITS);
        self.send_sized(pdcp, size);
    }

    /// A send. The packet, if it goes out, is under way.
    fn send_sized(&mut self, pdcp: u32, size: u32) {
        let Ends { bearer, ledger, .. } = &mut self.ends;
        let before = Before::send(bearer.pdcp, ledger, pdcp);
        self.sizes.send(ledger, pdcp, size);
        let answer = ledger.send(pdcp, size);
        self.sends.count(before, answer);
        if let Ok(number) = answer {
            self.ends.under_way.push_back((number, pdcp));
        }
        self.line(b"send", &[pdcp, size]);
    }

    /// The send that is next in order, after `skip` PDCP numbers left out.
    pub fn send_next(&mut self, skip: u32) {
        let pdcp = self.ends.bearer.pdcp;
        self.send(pdcp.step(self.ends.ledger.last_sent(), 1 + skip));
    }

    /// The same with a size at a limit, or beyond.
    pub fn send_next_at_limit(&mut self) {
        let pdcp = self.ends.bearer.pdcp;
        self.send_at_limit(pdcp.step(self.ends.ledger.last_sent(), 1));
    }

    /// The same with the largest PDU there is.
    pub fn send_next_largest(&mut self) {
        let pdcp = self.ends.bearer.pdcp;
        self.send_sized(pdcp.step(self.ends.ledger.last_sent(), 1), LARGEST_SIZE);
    }

    /// A send at a limit of the PDCP order, or one or two beside it; one in
    /// five at a limit of sizes too.
    pub fn send_at_edge(&mut self) {
        let (edge, off) = (self.rng.pick(&Edge::ALL), self.rng.pick(&[-2, -1, 0, 1, 2]));
        let pdcp = edge.near(self.ends.bearer.pdcp, &self.ends.ledger, off);
        if self.rng.once_in(5) {
            self.send_at_limit(pdcp);
        } else {
            self.send(pdcp);
        }
    }

    /// The send that is next in order after a rest: as many PDUs as went over
    /// the master's own radio, up to a whole turn of their numbers.
    pub fn send_after_rest(&mut self) {
        let size = self.ends.bearer.pdcp.size();
        let rest = match self.rng.within(0..4) {
            0 => self.rng.within(0..size / 2),
            1 => size / 2 - 2 + self.rng.within(0..4),
            2 => size - 3 + self.rng.within(0..4),
            _ => self.rng.within(size / 2..size),
        };
        self.send_next(rest);
    }

    /// A frame reaches the master.
    pub fn accept(&mut self, octets: &[u8]) {
        let _ = self.ends.ledger.accept(octets);
        let mut line = b"accept\t".to_vec();
        frames::spell(&mut self.rng, octets, &mut line);
        self.raw(&line);
    }

    /// The oldest frame under way reaches the master.
    pub fn deliver(&mut self) {
        if let Some(frame) = self.ends.frames.pop_front() {
            self.accept(&frame);
        }
    }

    /// A take.
    pub fn take(&mut self) {
        let _ = self.ends.ledger.take();
        self.line(b"take", &[]);
    }

    /// Asks for the room.
    pub fn room(&mut self) {
        self.sizes.room(&self.ends.ledger);
        self.line(b"room", &[]);
    }

    /// Shows the master, and the sum of what waits there.
    pub fn ledger(&mut self) {
        self.line(b"ledger", &[]);
    }

    /// Shows both ends, and the room.
    pub fn show(&mut self) {
        self.line(b"keeper", &[]);
        self.ledger();
        self.room();
    }
}

fn near_rollover(rng: &mut Rng, bits: u32) -> (u32, u32) {
    let open = Bearer::judged(bits, 0, 0).expect("the length is one of three");
    let mut before = |size: u32| match rng.within(0..6) {
        0 => rng.word() % size,
        1 => 0,
        _ => size - 1 - rng.within(0..700),
    };
    (before(open.numbers().size()), before(open.pdcp.size()))
}

fn opened(bits: u32, first: u32, first_pdcp: u32) -> Ends {
    let fits = "the numbers are on their circles";
    Ends {
        bearer: Bearer::judged(bits, first, first_pdcp).expect(fits),
        keeper: Keeper::open(bits, first, first_pdcp).expect(fits),
        ledger: Ledger::open(bits, first, first_pdcp).expect(fits),
        under_way: VecDeque::new(),
        frames: VecDeque::new(),
        timer: None,
    }
}
