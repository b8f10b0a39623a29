//! The chosen split of every odd number, kept for the life of the process.

use crate::line::{Kind, MINUSS, SMINUS, SPLUS};
use crate::number::bit_length;
use std::sync::OnceLock;

/// Odd constants have at most this many bits.
const MAX_LENGTH: usize = 16;

/// One way of making an odd number above 1 from two smaller-standing ones.
#[derive(Clone, Copy, Debug, PartialEq, Eq)]
pub struct Split {
    pub kind: Kind,
    pub p: u32,
    pub left: u64,
    pub right: u64,
}

/// A split together with the sorted list of the coefficients of its recipe.
#[derive(Clone, Debug)]
pub struct Chosen {
    pub split: Split,
    pub set: Vec<u64>,
}

/// Chosen splits of the odd numbers of one bit length, largest number first:
/// a MINUSS left operand has the same length and a larger value, so it is
/// always there when it is asked for.
type Row = Vec<Chosen>;

static ROWS: [OnceLock<Row>; MAX_LENGTH + 1] = [const { OnceLock::new() }; MAX_LENGTH + 1];

fn splus(n: u64, p: usize) -> Option<Split> {
    let (low, high) = (n % (1 << p), n >> p);
    let allowed = p < bit_length(n) && high % 2 == 1;
    allowed.then_some(Split { kind: SPLUS, p: p as u32, left: high, right: low })
}

/// At p = N the high part is 0, which is even: no case of its own is needed.
fn sminus(n: u64, p: usize) -> Option<Split> {
    let (low, high) = (n % (1 << p), n >> p);
    let allowed = high % 2 == 0;
    allowed.then_some(Split { kind: SMINUS, p: p as u32, left: high + 1, right: (1 << p) - low })
}

fn minuss(n: u64, p: usize) -> Option<Split> {
    let length = bit_length(n);
    let (low, high) = (n % (1 << p), n >> p);
    if p >= length || high % 2 == 1 {
        return None;
    }
    let left = (1 << length) - (1 << p) + low;
    let right = (1 << (length - p)) - 1 - high;
    Some(Split { kind: MINUSS, p: p as u32, left, right })
}

/// All splits of an odd `n` above 1.
fn candidates(n: u64) -> Vec<Split> {
    let places = 1..=bit_length(n);
    places.flat_map(|p| [splus(n, p), sminus(n, p), minuss(n, p)]).flatten().collect()
}

fn place_in_row(n: u64) -> usize {
    ((1 << bit_length(n)) - 1 - n as usize) / 2
}

fn row(length: usize) -> &'static Row {
    ROWS[length].get_or_init(|| filled_row(length))
}

fn filled_row(length: usize) -> Row {
    let odd_numbers = (1u64 << (length - 1)..1 << length).filter(|n| n % 2 == 1);
    let mut filled = Row::new();
    for n in odd_numbers.rev() {
        let best = choose(n, &filled);
        filled.push(best);
    }
    filled
}

fn choose(n: u64, filled: &Row) -> Chosen {
    let set_of = |operand: u64| -> &[u64] {
        if operand == 1 {
            &[]
        } else if bit_length(operand) == bit_length(n) {
            &filled[place_in_row(operand)].set
        } else {
            &chosen(operand).set
        }
    };
    let with_set = |split: Split| {
        let mut set = [set_of(split.left), set_of(split.right), &[n]].concat();
        set.sort_unstable();
        set.dedup();
        Chosen { split, set }
    };
    let all = candidates(n).into_iter().map(with_set);
    let best = all.min_by_key(|one| (one.set.len(), one.split.kind.code, one.split.p));
    best.expect("n = 2^N - (2^N - n) is a split of every odd n above 1")
}

/// The chosen split of an odd `n` above 1 of at most 16 bits.
pub fn chosen(n: u64) -> &'static Chosen {
    &row(bit_length(n))[place_in_row(n)]
}

/// The coefficients of the recipe for the odd number `d`.
pub fn recipe_set(d: u64) -> &'static [u64] {
    if d == 1 {
        &[]
    } else {
        &chosen(d).set
    }
}

/// The byte the work room holds for an odd `n`.
pub fn work_byte(n: u64) -> u8 {
    if n == 1 {
        return 0;
    }
    let Split { kind, p, .. } = chosen(n).split;
    32 * kind.code as u8 + p as u8
}

#[cfg(test)]
mod tests {
    use super::*;

    #[test]
    fn minuss_of_53_at_1_has_left_63() {
        let split = minuss(53, 1).unwrap();
        assert_eq!((split.left, split.right), (63, 5));
    }

    #[test]
    fn every_candidate_gives_its_number_from_operands_that_stand_earlier() {
        let standing = |n: u64| (bit_length(n), crate::number::zero_bits(n), n);
        for n in (3..1 << 12).step_by(2) {
            for split in candidates(n) {
                let Split { kind, p, left, right } = split;
                assert_eq!(kind.coefficient(left, p, right), n as i64, "{n} {split:?}");
                assert!(left % 2 == 1 && right % 2 == 1, "{n} {split:?}");
                assert!(standing(left) < standing(n) && standing(right) < standing(n), "{n} {split:?}");
            }
        }
    }

    #[test]
    fn candidates_of_5_and_7() {
        let shown = |n| {
            let codes = candidates(n).into_iter().map(|split| (split.kind.code, split.p, split.left, split.right));
            codes.collect::<Vec<_>>()
        };
        assert_eq!(shown(5), [(2, 1, 3, 1), (3, 1, 7, 1), (1, 2, 1, 1), (2, 3, 1, 3)]);
        assert_eq!(shown(7), [(1, 1, 3, 1), (1, 2, 1, 3), (2, 3, 1, 1)]);
    }
}
