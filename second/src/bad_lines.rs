//! Recipes to check that have a bad line, by hand: each of refusals 4 to 7, alone
//! and where another has a reason too, and values of both signs up to the largest.
//! They are small, since the proofs compute them too.

use crate::edges::{lines, Fields, THREE};
use crate::line::{LINE_BYTES, MAX_LINES};

/// A constant and a recipe that is to be one for it.
pub type Proposal = (u64, Vec<u8>);

/// Document 01's recipe for 1965.
const RIGHT: [Fields; 3] = [THREE, (1, 0, 7, 1, 131), (2, 2, 4, 2, 1965)];
/// The largest coefficient.
const TWENTY_ONES: Fields = (2, 0, 20, 0, 1_048_575);

/// The recipe for 1965 with another line in the place of that number.
fn with_line(number: usize, line: Fields) -> Proposal {
    let mut fields = RIGHT;
    fields[number - 1] = line;
    (1965, lines(&fields))
}

/// All of them.
pub fn proposals() -> Vec<Proposal> {
    [forms(), operands(), claims(), values(), order()].concat()
}

fn no_kind() -> Proposal {
    with_line(2, (0, 0, 7, 1, 131))
}

fn forms() -> Vec<Proposal> {
    let (c, mut top_bit) = with_line(2, RIGHT[1]);
    top_bit[LINE_BYTES] |= 0x80;
    vec![no_kind(), (c, top_bit)]
}

/// The last line itself.
fn right_operand() -> Proposal {
    with_line(3, (2, 2, 4, 3, 1965))
}

/// One of the two operands is fine.
fn operands() -> Vec<Proposal> {
    vec![(3, lines(&[(1, 0, 1, 1, 3)])), right_operand(), with_line(2, (1, 2, 7, 1, 131))]
}

/// In the first line and in the last of the longest recipe; even, and not what the line gives either.
fn claims() -> Vec<Proposal> {
    let mut longest = [THREE; MAX_LINES];
    longest[MAX_LINES - 1] = (1, 0, 1, 0, 5);
    vec![with_line(1, (1, 0, 1, 0, 5)), (5, lines(&longest)), with_line(2, (1, 0, 7, 1, 132))]
}

/// 3 - 15.
fn negative() -> Proposal {
    (1965, lines(&[THREE, (2, 0, 4, 0, 15), (2, 1, 0, 2, 1965)]))
}

/// -12, -1, 0, one above 2^31, the least and the largest of all. But for the first and the third of them, the claim is
/// what the lowest twenty bits of the value are.
fn values() -> Vec<Proposal> {
    let others = [
        lines(&[(3, 0, 1, 0, 1_048_575)]),
        lines(&[(2, 0, 0, 0, 1)]),
        lines(&[THREE, (1, 0, 31, 1, 3)]),
        lines(&[TWENTY_ONES, (3, 0, 31, 1, 1)]),
        lines(&[TWENTY_ONES, (1, 1, 31, 1, 1_048_575)]),
    ];
    [negative()].into_iter().chain(others.map(|recipe| (1, recipe))).collect()
}

/// A bad line before one that breaks an earlier rule, and before a wrong product; a wrong product behind right lines.
fn order() -> Vec<Proposal> {
    let twice = lines(&[THREE, (1, 0, 7, 1, 133), (0, 2, 4, 2, 1965)]);
    let wrong_too = with_line(3, (2, 2, 4, 2, 1963)).1;
    vec![(1965, twice), (1967, wrong_too), (1967, lines(&RIGHT))]
}

/// A few to be written at a width.
pub fn writes() -> Vec<(u64, Proposal)> {
    vec![(2, no_kind()), (16, right_operand()), (3, negative())]
}
