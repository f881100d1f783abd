//! Making a failing list short.

/// A short sublist of `items` that still fails: no single item, and no piece
/// tried on the way, can be left out of it.
pub fn shortest<T: Clone>(items: Vec<T>, fails: impl Fn(&[T]) -> bool) -> Vec<T> {
    let mut items = items;
    let mut piece = items.len().div_ceil(2);
    while piece > 0 {
        let before = items.len();
        let mut from = 0;
        while from < items.len() {
            let to = (from + piece).min(items.len());
            let rest = [&items[..from], &items[to..]].concat();
            if fails(&rest) {
                items = rest;
            } else {
                from = to;
            }
        }
        // The smallest pieces are tried until none can go.
        if piece > 1 || items.len() == before {
            piece /= 2;
        }
    }
    items
}

#[cfg(test)]
mod tests {
    use super::shortest;

    #[test]
    fn only_what_is_needed_stays() {
        let items: Vec<u32> = (0..1_000).collect();
        let fails = |list: &[u32]| list.contains(&17) && list.contains(&900);
        assert_eq!(shortest(items, fails), [17, 900]);
    }

    #[test]
    fn a_list_that_fails_whole_stays_whole() {
        let fails = |list: &[u32]| list.len() == 5;
        assert_eq!(shortest(vec![1, 2, 3, 4, 5], fails).len(), 5);
    }
}
