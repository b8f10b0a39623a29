//! Errors that look right.

mod common;
use common::*;

#[test]
fn the_sum_is_as_wide_as_the_product() {
    for c in 1..=200u64 {
        for w in 1..=4 {
            let (written, largest) = (written(c, w, &planned(c)), (1 << w) - 1);
            assert_eq!(written.bits.len(), bit_length(c * largest), "{c} {w}");
            assert_propagates(c, &written, largest);
        }
    }
}

/// For `3 2` the carry 4 has one clause that makes it true; without it the
/// input 3 has two assignments, so the test of uniqueness sees the error.
#[test]
fn clauses_stand_both_ways() {
    let whole = written(3, 2, &planned(3));
    let one_way: Vec<i32> = clauses(&whole.room)
        .filter(|clause| *clause != [-1, -2, 4])
        .flat_map(|clause| [clause, &[0]].concat())
        .collect();
    assert_eq!(one_way.len() + 4, whole.room.len());
    assert_eq!(models(&whole.room, 2, 6, 3).len(), 1);
    assert_eq!(models(&one_way, 2, 6, 3).len(), 2);
}

#[test]
fn either_carry_stands_both_ways_too() {
    let recipe = recipe_of(&[(SPLUS, 0, 1, 0, 3), (SMINUS, 1, 1, 0, 5)]);
    let Written { room, counts, .. } = written(5, 1, &recipe);
    assert_eq!((0..2).map(|x| models(&room, 1, counts.next - 1, x).len()).collect::<Vec<_>>(), [1, 1]);
}

/// A left operand of 31 would give 31 - 10; only 63 - 10 is 53.
#[test]
fn minuss_of_53_at_1_starts_from_63() {
    let ending_with = |left: u64, claimed: u64| {
        let bits = bit_length(left) as u64;
        recipe_of(&[(SMINUS, 0, bits, 0, left), (SPLUS, 0, 2, 0, 5), (MINUSS, 1, 1, 2, claimed)])
    };
    assert_eq!(check(53, &ending_with(63, 53)), Ok(()));
    assert_eq!(check(53, &ending_with(31, 53)), Err(7));
    assert_eq!(check(21, &ending_with(31, 21)), Ok(()));
}

/// 51 = 3 * 16 + 3 is two lines, 3 being one coefficient; every other split
/// of 51 takes three. The test over the work room is in `planner.rs`.
#[test]
fn a_shared_coefficient_counts_once() {
    assert_eq!(planned(51), recipe_of(&[(SPLUS, 0, 1, 0, 3), (SPLUS, 1, 4, 1, 51)]));
}

/// With the 1 added at column s the columns below would not come out right.
#[test]
fn the_one_of_a_subtraction_is_added_at_column_0() {
    let cases = [
        (59, recipe_of(&[(SMINUS, 0, 6, 0, 63), (MINUSS, 1, 2, 0, 59)])),
        (53, recipe_of(&[(SMINUS, 0, 6, 0, 63), (SPLUS, 0, 2, 0, 5), (MINUSS, 1, 1, 2, 53)])),
        (7, line(SMINUS, 0, 3, 0, 7)),
    ];
    for (c, recipe) in cases {
        for w in 1..=5 {
            let written = written(c, w, &recipe);
            (0..1 << w).for_each(|x| assert_propagates(c, &written, x));
        }
    }
}
