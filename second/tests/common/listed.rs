//! Clauses as document 01 lists them, with document 02's pairs as request b
//! words them. The engine derives all of it from truth tables instead.

use super::*;
use std::collections::BTreeSet;

/// A bit as a word: a literal, or one of these two.
const FALSE: i32 = i32::MIN;
const TRUE: i32 = i32::MAX;

fn fixed(bit: i32) -> bool {
    [FALSE, TRUE].contains(&bit)
}

fn negated(bit: i32) -> i32 {
    match bit {
        FALSE => TRUE,
        TRUE => FALSE,
        literal => -literal,
    }
}

#[derive(Clone, Copy, Debug, PartialEq, Eq, PartialOrd, Ord)]
pub enum Kind {
    Equal,
    Opposite,
}

/// The input beside a pair.
#[derive(Clone, Copy, Debug, PartialEq, Eq, PartialOrd, Ord)]
pub enum Rest {
    Zero,
    One,
    Other,
    Same,
}

#[derive(Clone, Copy, Debug, PartialEq, Eq, PartialOrd, Ord)]
pub enum Column {
    Inner,
    Last,
}

/// A pair with the places of its inputs, from 1.
pub type Pair = (Kind, [usize; 2], Rest, Column);

/// The pairs that recipes have. Where x is 0 each sum of a line is 0: the inputs of an addition are all 0, those of a
/// subtraction 0, 1 and 1. So right term and carry are never opposite, an addition has equal pairs alone, a subtraction has
/// them at the second and third place alone, and no rest of an equal pair is fixed at 1 and none of an opposite one at 0.
/// In the last column the rest is not fixed, since the sum is 1 for the largest x. Of what this leaves, a pair in a last
/// column that is not here was never met.
pub const PAIRS: [Pair; 15] = {
    use {Column::*, Kind::*, Rest::*};
    [
        (Equal, [1, 2], Zero, Inner),
        (Equal, [1, 2], Other, Inner),
        (Equal, [1, 2], Same, Inner),
        (Equal, [1, 3], Zero, Inner),
        (Equal, [1, 3], Other, Inner),
        (Equal, [2, 3], Zero, Inner),
        (Equal, [2, 3], Other, Inner),
        (Equal, [2, 3], Other, Last),
        (Opposite, [1, 2], One, Inner),
        (Opposite, [1, 2], Other, Inner),
        (Opposite, [1, 2], Same, Inner),
        (Opposite, [1, 2], Same, Last),
        (Opposite, [1, 3], One, Inner),
        (Opposite, [1, 3], Other, Inner),
        (Opposite, [1, 3], Other, Last),
    ]
};

/// The places of the two inputs, the first pair's first, and the third input.
fn first_pair(inputs: [i32; 3]) -> Option<([usize; 2], i32)> {
    let one_variable = |[a, b]: [usize; 2]| !fixed(inputs[a]) && [inputs[b], negated(inputs[b])].contains(&inputs[a]);
    let pairs = [([0, 1], inputs[2]), ([0, 2], inputs[1]), ([1, 2], inputs[0])];
    pairs.into_iter().find(|(places, _)| one_variable(*places))
}

#[derive(Default)]
pub struct Listed {
    pub words: Vec<i32>,
    pub highest: i32,
    pub pairs: BTreeSet<Pair>,
}

impl Listed {
    /// The product's bits, and what was listed for them.
    pub fn of(x: &[i32], first: u32, recipe: &[u8]) -> (Vec<i32>, Listed) {
        let mut listed = Listed { highest: (first - 1) as i32, ..Listed::default() };
        let mut operands = vec![x.to_vec()];
        for line in recipe.chunks(5) {
            let bits = listed.line(x.len() as u64, fields(line), &operands);
            operands.push(bits);
        }
        let product = operands.last().unwrap().iter().map(|bit| if *bit == FALSE { 0 } else { *bit });
        (product.collect(), listed)
    }

    fn list(&mut self, clauses: &[&[i32]]) {
        clauses.iter().for_each(|clause| self.words.extend([clause, &[0][..]].concat()));
    }

    fn sum(&mut self, unfixed: &[i32], f: i32) -> i32 {
        match unfixed {
            [] => [FALSE, TRUE][f as usize % 2],
            [p] => [*p, -p][f as usize % 2],
            _ => {
                self.highest += 1;
                let z = if f % 2 == 0 { self.highest } else { -self.highest };
                match *unfixed {
                    [p, q] => self.list(&[&[p, q, -z], &[p, -q, z], &[-p, q, z], &[-p, -q, -z]]),
                    [p, q, r] => self.list(&[
                        &[p, q, r, -z],
                        &[p, q, -r, z],
                        &[p, -q, r, z],
                        &[p, -q, -r, -z],
                        &[-p, q, r, z],
                        &[-p, q, -r, -z],
                        &[-p, -q, r, -z],
                        &[-p, -q, -r, z],
                    ]),
                    _ => unreachable!(),
                }
                self.highest
            }
        }
    }

    fn carry(&mut self, unfixed: &[i32], f: i32) -> i32 {
        let t = self.highest + 1;
        match (unfixed, f) {
            ([], _) => return if f >= 2 { TRUE } else { FALSE },
            ([p], _) => return [FALSE, *p, TRUE][f as usize],
            (&[p, q], 0) => self.list(&[&[p, -t], &[q, -t], &[-p, -q, t]]),
            (&[p, q], _) => self.list(&[&[-p, t], &[-q, t], &[p, q, -t]]),
            (&[p, q, r], _) => {
                self.list(&[&[p, q, -t], &[p, r, -t], &[q, r, -t], &[-p, -q, t], &[-p, -r, t], &[-q, -r, t]])
            }
            _ => unreachable!(),
        }
        self.highest = t;
        t
    }

    fn note(&mut self, inputs: [i32; 3], [a, b]: [usize; 2], rest: i32, last: bool) {
        let kind = if inputs[a] == inputs[b] { Kind::Equal } else { Kind::Opposite };
        let rest = match rest {
            FALSE => Rest::Zero,
            TRUE => Rest::One,
            literal if literal.abs() == inputs[a].abs() => Rest::Same,
            _ => Rest::Other,
        };
        let column = if last { Column::Last } else { Column::Inner };
        self.pairs.insert((kind, [a + 1, b + 1], rest, column));
    }

    /// Both of a pair leave the sum. Equal, they are the carry; opposite, they flip the parity and the carry is the rest.
    fn column(&mut self, inputs: [i32; 3], last: bool) -> (i32, Option<i32>) {
        let split = |inputs: &[i32]| -> (Vec<i32>, i32) {
            let unfixed = inputs.iter().copied().filter(|bit| !fixed(*bit)).collect();
            (unfixed, inputs.iter().filter(|bit| **bit == TRUE).count() as i32)
        };
        let Some((places, rest)) = first_pair(inputs) else {
            let (unfixed, f) = split(&inputs);
            let sum = self.sum(&unfixed, f);
            return (sum, (!last).then(|| self.carry(&unfixed, f)));
        };
        self.note(inputs, places, rest, last);
        let ((unfixed, f), [a, b]) = (split(&[rest]), places.map(|place| inputs[place]));
        let (flips, carry) = if a == b { (0, a) } else { (1, rest) };
        (self.sum(&unfixed, f + flips), (!last).then_some(carry))
    }

    fn line(&mut self, w: u64, line: Fields, operands: &[Vec<i32>]) -> Vec<i32> {
        let (kind, left, s, right, k) = line;
        let m = bit_length(k * ((1 << w) - 1)) as u64;
        let bit = |operand: u64, column: u64, shift: u64| {
            let place = column.checked_sub(shift).unwrap_or(u64::MAX) as usize;
            operands[operand as usize].get(place).copied().unwrap_or(FALSE)
        };
        let mut carry = if kind == SPLUS { FALSE } else { TRUE };
        let mut bits = Vec::new();
        for column in 0..m {
            let l = bit(left, column, if kind == MINUSS { 0 } else { s });
            let r = bit(right, column, if kind == MINUSS { s } else { 0 });
            let inputs = [l, if kind == SPLUS { r } else { negated(r) }, carry];
            let (sum, next) = self.column(inputs, column + 1 == m);
            bits.push(sum);
            carry = next.unwrap_or(FALSE);
        }
        bits
    }
}

fn fields(line: &[u8]) -> Fields {
    let number = line.iter().fold(0, |number, byte| number << 8 | u64::from(*byte));
    (number >> 37 & 3, number >> 31 & 63, number >> 26 & 31, number >> 20 & 63, number & 0xF_FFFF)
}

/// The pairs of a recipe at a width.
pub fn pairs_of(w: u64, recipe: &[u8]) -> BTreeSet<Pair> {
    let x: Vec<i32> = (1..=w as i32).collect();
    Listed::of(&x, w as u32 + 1, recipe).1.pairs
}
