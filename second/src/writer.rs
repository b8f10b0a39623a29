//! From an accepted recipe to y and its clauses.

use crate::bit::{Bit, ZERO};
use crate::checker::{accepted_lines, bad_length, product};
use crate::column::{column, Clauses};
use crate::line::{Kind, Line};
use crate::number::{odd_part, product_length};
use crate::refusal::*;
use std::collections::BTreeSet;
use std::ops::Range;

/// What a success tells: words used, clauses, next free number, bits of y.
#[derive(Clone, Copy, Debug, PartialEq, Eq)]
pub struct Counts {
    pub words: usize,
    pub clauses: usize,
    pub next: u32,
    pub bits: usize,
}

/// Writes y and the clauses of `recipe` into the two rooms, over the literals
/// `x` and new variables from `first` on.
///
/// What is written hangs on which bits are fixed and which are of one variable,
/// and never on what they are called. So the plain encoding is made and its
/// variables are renamed, and that only after refusal 15, when every name is
/// known to fit a word.
pub fn write(
    c: u64,
    w: u64,
    x: &[i32],
    first: u32,
    recipe: &[u8],
    bits: &mut [i32],
    clauses: &mut [i32],
) -> Result<Counts, Refusal> {
    first_of(&[
        (C_RANGE, c_out_of_range(c)),
        (W_RANGE, w_out_of_range(w)),
        (LITERALS, bad_literals(w, x, first)),
        (RECIPE_LENGTH, bad_length(recipe)),
    ])?;
    let (w, (d, t)) = (w as usize, odd_part(c));
    let lines = accepted_lines(recipe)?;
    first_of(&[(PRODUCT, product(&lines) != d)])?;
    let (product_bits, plain) = encoded(w, &lines);
    let next = u64::from(first) + plain.highest as u64 - w as u64;
    first_of(&[
        (VARIABLES, next > NEXT_MAX),
        (BIT_ROOM, bits.len() < product_length(c, w)),
        (CLAUSE_ROOM, clauses.len() < plain.words.len()),
    ])?;
    let next = next as u32;
    let names = names(x, first..next);
    let stored = [vec![ZERO; t], product_bits].concat().into_iter().map(Bit::stored);
    let (y, words) = (renamed(stored, &names), renamed(plain.words.into_iter(), &names));
    bits[..y.len()].copy_from_slice(&y);
    clauses[..words.len()].copy_from_slice(&words);
    Ok(Counts { words: words.len(), clauses: plain.count, next, bits: y.len() })
}

/// The call of document 01: the literals 1 to w, and w + 1 is free. A width
/// out of range is refused before the literals are looked at.
pub fn write_plain(c: u64, w: u64, recipe: &[u8], bits: &mut [i32], clauses: &mut [i32]) -> Result<Counts, Refusal> {
    let x: Vec<i32> = (1..).take(w.min(W_MAX) as usize).collect();
    write(c, w, &x, x.len() as u32 + 1, recipe, bits, clauses)
}

/// Good literals name as many variables from 1 to below `first` as there are
/// bits: a 0, a variable too high or one named twice leaves fewer.
fn bad_literals(w: u64, x: &[i32], first: u32) -> bool {
    let below = x.iter().map(|literal| literal.unsigned_abs()).filter(|variable| (1..first).contains(variable));
    x.len() as u64 != w || below.collect::<BTreeSet<u32>>().len() as u64 != w
}

/// The caller's name for each plain variable. In front stands 0: the end of
/// a clause, or a bit of y fixed at 0, is called what it is.
fn names(x: &[i32], new: Range<u32>) -> Vec<i32> {
    [0].into_iter().chain(x.iter().copied()).chain(new.map(|variable| variable as i32)).collect()
}

fn renamed(plain: impl Iterator<Item = i32>, names: &[i32]) -> Vec<i32> {
    plain.map(|word| word.signum() * names[word.unsigned_abs() as usize]).collect()
}

/// The product's bits and all clauses, line by line, over the plain variables:
/// 1 to w for x, then the new ones.
fn encoded(w: usize, lines: &[Line]) -> (Vec<Bit>, Clauses) {
    let mut clauses = Clauses::above(w);
    let mut operands = vec![(1..=w as i32).map(Bit::Literal).collect::<Vec<Bit>>()];
    for line in lines {
        let bits = line_bits(w, line, &operands, &mut clauses);
        operands.push(bits);
    }
    let product_bits = operands.pop().unwrap_or_default();
    (product_bits, clauses)
}

fn line_bits(w: usize, line: &Line, operands: &[Vec<Bit>], clauses: &mut Clauses) -> Vec<Bit> {
    let kind = Kind::of(line.kind).expect("an accepted line has a kind");
    let columns = product_length(line.claimed, w);
    let (left_shift, right_shift) = kind.shifts(line.s);
    let left = term(&operands[line.left], left_shift, columns);
    let mut right = term(&operands[line.right], right_shift, columns);
    if kind.subtracts {
        right = right.into_iter().map(Bit::negated).collect();
    }
    let mut carry = Bit::Fixed(kind.subtracts);
    let mut bits = Vec::new();
    for (place, (l, r)) in left.into_iter().zip(right).enumerate() {
        let (sum, next) = column([l, r, carry], place + 1 == columns, clauses);
        bits.push(sum);
        carry = next.unwrap_or(ZERO);
    }
    bits
}

/// An operand shifted, then cut or filled up with zeros to the columns.
fn term(operand: &[Bit], shift: u32, columns: usize) -> Vec<Bit> {
    let below = std::iter::repeat_n(ZERO, shift as usize);
    let bits = below.chain(operand.iter().copied()).chain(std::iter::repeat(ZERO));
    bits.take(columns).collect()
}

#[cfg(test)]
mod tests {
    use super::*;

    #[test]
    fn no_bit_of_any_line_is_fixed_at_1() {
        for d in (1..300).step_by(2) {
            let mut recipe = [0; 20];
            let lines = crate::plan(d, &mut [0; 256], &mut recipe).unwrap();
            let lines = accepted_lines(&recipe[..5 * lines]).unwrap();
            for (w, upto) in (1..=6).flat_map(|w| (0..=lines.len()).map(move |upto| (w, upto))) {
                let (bits, _) = encoded(w, &lines[..upto]);
                assert!(!bits.contains(&Bit::Fixed(true)), "{d} {w}, line {upto}");
            }
        }
    }
}
