//! A queue in a fixed array: both ends hold their packets in sending order,
//! gain them at the back and mostly lose them at the front.

/// At most `N` items, the oldest first. `N` is a power of two, so that a place
/// in the array is a mask away.
#[derive(Clone, Debug)]
pub(crate) struct Ring<T, const N: usize> {
    slots: [T; N],
    head: usize,
    len: usize,
}

impl<T: Copy, const N: usize> Ring<T, N> {
    /// An empty ring; `filler` stands in the slots that hold nothing.
    pub(crate) const fn new(filler: T) -> Self {
        const { assert!(N.is_power_of_two()) };
        Self {
            slots: [filler; N],
            head: 0,
            len: 0,
        }
    }

    pub(crate) const fn len(&self) -> usize {
        self.len
    }

    pub(crate) const fn is_full(&self) -> bool {
        self.len == N
    }

    const fn slot(&self, place: usize) -> usize {
        (self.head + place) & (N - 1)
    }

    /// The item at `place`, if there is one.
    pub(crate) fn get(&self, place: usize) -> Option<&T> {
        (place < self.len).then(|| &self.slots[self.slot(place)])
    }

    /// The newest item.
    pub(crate) fn last(&self) -> Option<&T> {
        self.len.checked_sub(1).and_then(|place| self.get(place))
    }

    /// The item at `place`, to be changed.
    pub(crate) fn get_mut(&mut self, place: usize) -> Option<&mut T> {
        let slot = self.slot(place);
        (place < self.len).then(|| &mut self.slots[slot])
    }

    /// All items from `place` on, in order.
    pub(crate) fn iter_from(&self, place: usize) -> impl Iterator<Item = &T> {
        (place..self.len).map(|place| &self.slots[self.slot(place)])
    }

    /// Adds `item` at the back. The caller has seen that there is room.
    pub(crate) fn push(&mut self, item: T) {
        debug_assert!(!self.is_full());
        self.slots[self.slot(self.len)] = item;
        self.len += 1;
    }

    /// Puts `item` in at `place`; what stood there and behind moves up by one.
    /// The caller has seen that there is room.
    pub(crate) fn insert(&mut self, place: usize, item: T) {
        self.push(item);
        for moved in (place + 1..self.len).rev() {
            self.slots[self.slot(moved)] = self.slots[self.slot(moved - 1)];
        }
        self.slots[self.slot(place)] = item;
    }

    /// Drops the `count` oldest items.
    pub(crate) fn drop_front(&mut self, count: usize) {
        debug_assert!(count <= self.len);
        self.head = self.slot(count);
        self.len -= count;
    }

    /// Drops those of the `count` oldest items that `keep` doesn't want, at a
    /// cost that doesn't grow with the items behind them. Answers how many
    /// were dropped.
    pub(crate) fn retain_front(&mut self, count: usize, keep: impl Fn(&T) -> bool) -> usize {
        let mut free = count;
        for place in (0..count).rev() {
            let item = self.slots[self.slot(place)];
            if keep(&item) {
                free -= 1;
                self.slots[self.slot(free)] = item;
            }
        }
        self.drop_front(free);
        free
    }

    /// Takes the item at `place` out; the ones before it close the gap.
    pub(crate) fn remove(&mut self, place: usize) -> T {
        let taken = self.slots[self.slot(place)];
        for moved in (0..place).rev() {
            self.slots[self.slot(moved + 1)] = self.slots[self.slot(moved)];
        }
        self.drop_front(1);
        taken
    }

    /// The first place in `places` whose item is not `before`, all that are
    /// `before` standing in front of all that are not.
    pub(crate) fn partition_point(
        &self,
        places: core::ops::Range<usize>,
        before: impl Fn(&T) -> bool,
    ) -> usize {
        let (mut low, mut high) = (places.start, places.end);
        while low < high {
            let middle = low.midpoint(high);
            if before(&self.slots[self.slot(middle)]) {
                low = middle + 1;
            } else {
                high = middle;
            }
        }
        low
    }
}
