//! How two numbers of a circle lie, at both of its sizes.

use x2u::Form;
use x2u::circle::{Circle, Lies};

const CIRCLES: [Circle; 2] = [Form::Short.numbers(), Form::Long.numbers()];

/// Numbers around the rollover, around the middle and between.
fn some(circle: Circle) -> [u32; 7] {
    let (size, half) = (circle.size(), circle.half());
    [0, 1, size / 3, half - 1, half, half + 1, size - 1]
}

/// Every number of the circle, from each of some.
fn all_pairs(circle: Circle) -> impl Iterator<Item = (u32, u32)> {
    let froms = some(circle).into_iter();
    froms.flat_map(move |from| (0..circle.size()).map(move |to| (from, to)))
}

#[test]
fn forward_distance_says_how_they_lie() {
    for circle in CIRCLES {
        for (from, to) in all_pairs(circle) {
            let forward = (u64::from(to) + u64::from(circle.size()) - u64::from(from))
                % u64::from(circle.size());
            let expected = match 2 * forward {
                0 => Lies::Same,
                twice if twice < circle.size().into() => Lies::Ahead,
                twice if twice == circle.size().into() => Lies::Opposite,
                _ => Lies::Behind,
            };
            assert_eq!(circle.compare(from, to), expected, "{from} to {to}");
        }
    }
}

#[test]
fn one_is_the_same_one_opposite_and_half_of_the_rest_ahead() {
    for circle in CIRCLES {
        for from in some(circle) {
            let mut met = [0; 4];
            for to in 0..circle.size() {
                met[circle.compare(from, to) as usize] += 1;
            }
            let rest = circle.half() - 1;
            let [same, ahead, behind, opposite] = met;
            assert_eq!([same, opposite, ahead, behind], [1, 1, rest, rest]);
        }
    }
}

#[test]
fn seen_from_the_other_ahead_is_behind() {
    for circle in CIRCLES {
        for (from, to) in all_pairs(circle) {
            let expected = match circle.compare(from, to) {
                Lies::Ahead => Lies::Behind,
                Lies::Behind => Lies::Ahead,
                own_reverse => own_reverse,
            };
            assert_eq!(circle.compare(to, from), expected, "{from} to {to}");
        }
    }
}

#[test]
fn moved_alike_they_lie_as_before() {
    for circle in CIRCLES {
        for (steps, to) in all_pairs(circle) {
            let [from, moved] = [0, to].map(|number| circle.step(number, steps));
            let expected = circle.compare(0, to);
            assert_eq!(circle.compare(from, moved), expected, "{from} to {moved}");
        }
    }
}

#[test]
fn over_the_rollover() {
    for circle in CIRCLES {
        let (last, half) = (circle.size() - 1, circle.half());
        for (from, to, expected) in [
            (last, 0, Lies::Ahead),
            (0, last, Lies::Behind),
            (last - 1, half - 3, Lies::Ahead),
            (last - 1, half - 2, Lies::Opposite),
            (last - 1, half - 1, Lies::Behind),
            (half - 1, last, Lies::Opposite),
            (half, 0, Lies::Opposite),
            (0, half, Lies::Opposite),
            (last, last, Lies::Same),
        ] {
            assert_eq!(circle.compare(from, to), expected, "{from} to {to}");
        }
    }
}

#[test]
fn what_is_opposite_base_lies_before_it() {
    let before = [Lies::Same, Lies::Ahead, Lies::Behind, Lies::Opposite].map(Lies::is_before);
    assert_eq!(before, [false, false, true, true]);
}
