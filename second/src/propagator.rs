//! One pass over words that believes only the clauses.

use crate::refusal::{first_of, Refusal, ALLOWANCE, CLAUSE, CONFLICT, VALUES};
use std::collections::BTreeSet;

pub const UNKNOWN: u8 = 2;

/// Literals wider than a word, so that each has its negation.
type Literals = BTreeSet<i64>;

/// Takes the given literals as true and reads the clauses of `words` once in
/// order; gives the number of clauses read. The room has the value of variable
/// v at v - 1: 0 false, 1 true, 2 unknown.
///
/// No values are kept while clauses are read, but the set of the literals that
/// hold. The room hears of it at the end, so a refusal has nothing to undo.
pub fn propagate(words: &[i32], given: &[i32], allowance: u64, room: &mut [u8]) -> Result<u64, Refusal> {
    let known = room.iter().any(|value| *value != UNKNOWN);
    first_of(&[(VALUES, known), (VALUES, bad_given(given, room.len()))])?;
    let mut holding: Literals = given.iter().map(|literal| i64::from(*literal)).collect();
    let mut read = 0;
    for clause in words.split_inclusive(|word| *word == 0) {
        let left = not_false(clause, &holding);
        first_of(&[
            (ALLOWANCE, read == allowance),
            (CLAUSE, unreadable(clause, room.len())),
            (CONFLICT, left.is_empty()),
        ])?;
        // Where the only one left holds already, it does so after this too.
        if left.len() == 1 {
            holding.extend(left);
        }
        read += 1;
    }
    for literal in holding {
        room[literal.unsigned_abs() as usize - 1] = u8::from(literal > 0);
    }
    Ok(read)
}

/// Good literals name as many variables of the room as they are: a 0, one
/// beyond the room or a variable given before leaves fewer.
fn bad_given(given: &[i32], variables: usize) -> bool {
    let named = given.iter().map(|literal| literal.unsigned_abs() as usize);
    let inside: BTreeSet<usize> = named.filter(|variable| (1..=variables).contains(variable)).collect();
    inside.len() != given.len()
}

/// The clause has no 0 at its end, or names a variable above the room.
fn unreadable(clause: &[i32], variables: usize) -> bool {
    !clause.ends_with(&[0]) || clause.iter().any(|word| word.unsigned_abs() as usize > variables)
}

/// What is left of a clause without its false literals, each once. With none
/// left it is a conflict. With one left that one must hold. Two or more are
/// either satisfied or unknown at two literals, and the clause says nothing.
fn not_false(clause: &[i32], holding: &Literals) -> Literals {
    let literals = clause.iter().filter(|word| **word != 0).map(|word| i64::from(*word));
    literals.filter(|literal| !holding.contains(&-literal)).collect()
}

#[cfg(test)]
mod tests {
    use super::*;

    /// A room for it would be two gigabytes, so it is tried here.
    #[test]
    fn the_lowest_word_has_a_negation() {
        let lowest = i64::from(i32::MIN);
        let one = |literal: i64| Literals::from([literal]);
        assert_eq!(not_false(&[i32::MIN, 0], &one(lowest)), one(lowest));
        assert_eq!(not_false(&[i32::MIN, 0], &one(-lowest)), Literals::new());
        assert_eq!(not_false(&[i32::MIN, 0], &one(i64::from(i32::MAX))), one(lowest));
        assert!(unreadable(&[i32::MIN, 0], i32::MAX as usize) && !unreadable(&[i32::MIN, 0], 1 << 31));
        assert!(bad_given(&[i32::MIN], i32::MAX as usize) && !bad_given(&[i32::MIN], 1 << 31));
    }
}
