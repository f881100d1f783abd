//! The room that the master answered, in figures.

/// What the answers came to.
#[derive(Clone, Copy, Debug, Default, PartialEq, Eq)]
pub struct Rooms {
    /// How often it was asked for.
    pub asked: u64,
    /// How often it was 0.
    pub none: u64,
    /// The least of those above 0, or 0 if there was none.
    pub least: u32,
    /// The most.
    pub most: u32,
    sum: u64,
}

impl Rooms {
    /// An answer.
    pub fn see(&mut self, room: u32) {
        self.asked += 1;
        self.sum += u64::from(room);
        self.most = self.most.max(room);
        if room == 0 {
            self.none += 1;
        } else if self.least == 0 || room < self.least {
            self.least = room;
        }
    }

    /// The average of all answers.
    #[must_use]
    pub fn average(&self) -> u64 {
        self.sum / self.asked.max(1)
    }
}

#[cfg(test)]
mod tests {
    use super::Rooms;

    #[test]
    fn answers_are_counted() {
        let mut rooms = Rooms::default();
        assert_eq!((rooms.least, rooms.most, rooms.average()), (0, 0, 0));
        for room in [700, 0, 30, 900, 0, 40] {
            rooms.see(room);
        }
        assert_eq!((rooms.asked, rooms.none), (6, 2));
        assert_eq!((rooms.least, rooms.most, rooms.average()), (30, 900, 278));
    }
}
