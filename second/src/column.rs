//! One column of a line: its sum, its carry, and their clauses.

use crate::bit::Bit;
use crate::truth::{prime_implicates, rows, Pattern, Truth};
use std::sync::OnceLock;

/// Inputs of a column: left term, right term, carry.
const INPUTS: usize = 3;

/// A bit's values in the rows of a truth table, over a variable for each input.
type Rows = u8;
/// The values of these variables: no two rows have the same.
const VALUES: [Rows; INPUTS] = [0b0000_1111, 0b0011_0011, 0b0101_0101];

/// The clauses written so far and the variables opened so far.
#[derive(Debug)]
pub struct Clauses {
    pub words: Vec<i32>,
    pub count: usize,
    pub highest: i32,
}

impl Clauses {
    pub fn above(w: usize) -> Clauses {
        Clauses { words: Vec::new(), count: 0, highest: w as i32 }
    }

    fn push(&mut self, pattern: &Pattern, literals: &[i32]) {
        let clause = pattern.iter().zip(literals).map(|(sign, literal)| sign * literal);
        self.words.extend(clause.filter(|word| *word != 0));
        self.words.push(0);
        self.count += 1;
    }
}

/// What a column makes from the number of its true inputs.
#[derive(Clone, Copy)]
enum Output {
    Sum,
    Carry,
}

impl Output {
    fn truth(self) -> Truth {
        match self {
            Output::Sum => |total| total % 2 == 1,
            Output::Carry => |total| total >= 2,
        }
    }

    /// The clauses depend on nothing but the number of unfixed inputs and f,
    /// so they are derived once for each of these.
    fn patterns(self, unfixed: usize, f: usize) -> &'static [Pattern] {
        type Memo = [[OnceLock<Vec<Pattern>>; INPUTS + 1]; INPUTS + 1];
        static SUMS: Memo = [const { [const { OnceLock::new() }; INPUTS + 1] }; INPUTS + 1];
        static CARRIES: Memo = [const { [const { OnceLock::new() }; INPUTS + 1] }; INPUTS + 1];
        let truth = self.truth();
        let with_fixed = |ones| truth(ones + f);
        match self {
            Output::Sum => SUMS[unfixed][f].get_or_init(|| rows(unfixed, &with_fixed)),
            Output::Carry => CARRIES[unfixed][f].get_or_init(|| prime_implicates(unfixed, &with_fixed)),
        }
    }

    /// The output's values where the inputs have these.
    fn rows(self, inputs: [Rows; INPUTS]) -> Rows {
        let truth = self.truth();
        let total = |row: &u32| inputs.iter().filter(|rows| *rows >> row & 1 == 1).count();
        (0..Rows::BITS).filter(|row| truth(total(row))).fold(0, |rows, row| rows | 1 << row)
    }

    /// The bit that has the output's rows, if there is one: 0, 1, an input or
    /// its negation. There is one where at most one input is unfixed, and where
    /// two name one variable, since these add up to twice a literal or to 1. No
    /// bit has the rows of a sum or carry of two or three variables.
    fn agreeing(self, inputs: &[Bit; INPUTS]) -> Option<Bit> {
        let wanted = self.rows(inputs.map(|input| rows_among(inputs, input)));
        let literals = inputs.iter().flat_map(|input| [*input, input.negated()]);
        let mut bits = [false, true].map(Bit::Fixed).into_iter().chain(literals);
        bits.find(|bit| rows_among(inputs, *bit) == wanted)
    }

    /// A new variable that its clauses make equal to the output.
    fn opened(self, inputs: &[Bit; INPUTS], clauses: &mut Clauses) -> Bit {
        let (fixed, unfixed): (Vec<Bit>, Vec<Bit>) = inputs.iter().partition(|bit| matches!(bit, Bit::Fixed(_)));
        let f = fixed.iter().filter(|bit| **bit == Bit::Fixed(true)).count();
        clauses.highest += 1;
        let literals: Vec<i32> = unfixed.iter().map(|bit| bit.stored()).chain([clauses.highest]).collect();
        for pattern in self.patterns(unfixed.len(), f) {
            clauses.push(pattern, &literals);
        }
        Bit::Literal(clauses.highest)
    }

    /// The output as a bit, opening a variable only where no bit agrees.
    fn bit(self, inputs: &[Bit; INPUTS], clauses: &mut Clauses) -> Bit {
        self.agreeing(inputs).unwrap_or_else(|| self.opened(inputs, clauses))
    }
}

/// The rows of a bit that is fixed, an input or the negation of one. Inputs of
/// one variable get the rows of the first of them, as they are or negated, so
/// that the table has no row in which they contradict each other.
fn rows_among(inputs: &[Bit; INPUTS], bit: Bit) -> Rows {
    match bit {
        Bit::Fixed(false) => 0,
        Bit::Fixed(true) => Rows::MAX,
        literal => {
            let named = |input: &Bit| [literal, literal.negated()].contains(input);
            let first = inputs.iter().position(named).expect("the bit is of an input's variable");
            if inputs[first] == literal {
                VALUES[first]
            } else {
                !VALUES[first]
            }
        }
    }
}

/// Sum and carry of a column; the last column has no carry.
pub fn column(inputs: [Bit; INPUTS], last: bool, clauses: &mut Clauses) -> (Bit, Option<Bit>) {
    let sum = Output::Sum.bit(&inputs, clauses);
    let carry = (!last).then(|| Output::Carry.bit(&inputs, clauses));
    (sum, carry)
}

#[cfg(test)]
mod tests {
    use super::*;
    use crate::bit::ZERO;

    const P: Bit = Bit::Literal(4);
    const Q: Bit = Bit::Literal(-7);
    const ONE: Bit = Bit::Fixed(true);

    /// Where inputs name one variable nothing is opened, whatever the third is.
    fn assert_pair(inputs: [Bit; INPUTS], sum: Bit, carry: Bit) {
        let mut clauses = Clauses::above(9);
        assert_eq!(column(inputs, false, &mut clauses), (sum, Some(carry)), "{inputs:?}");
        assert_eq!(column(inputs, true, &mut clauses), (sum, None), "{inputs:?}");
        assert_eq!((clauses.words.len(), clauses.count, clauses.highest), (0, 0, 9), "{inputs:?}");
    }

    #[test]
    fn pairs_at_every_place_beside_every_rest() {
        for rest in [ZERO, ONE, Q, Q.negated(), P, P.negated()] {
            for pair in [P, P.negated()] {
                for place in 0..INPUTS {
                    let among = |a: Bit, b: Bit| {
                        let mut inputs = vec![a, b];
                        inputs.insert(place, rest);
                        [inputs[0], inputs[1], inputs[2]]
                    };
                    assert_pair(among(pair, pair), rest, pair);
                    assert_pair(among(pair, pair.negated()), rest.negated(), rest);
                }
            }
        }
    }

    #[test]
    fn two_variables_open_a_sum_and_a_carry() {
        for inputs in [[P, Q, ZERO], [ONE, P, Q], [P, ONE, Q.negated()], [P, Q, Bit::Literal(1)]] {
            let mut clauses = Clauses::above(9);
            let opened = (Bit::Literal(10), Some(Bit::Literal(11)));
            assert_eq!(column(inputs, false, &mut clauses), opened, "{inputs:?}");
            assert_eq!(column(inputs, true, &mut clauses), (Bit::Literal(12), None), "{inputs:?}");
        }
    }
}
