//! A bit: fixed, or a literal.

#[derive(Clone, Copy, Debug, PartialEq, Eq)]
pub enum Bit {
    Fixed(bool),
    /// A variable, or its negation as a negative number.
    Literal(i32),
}

pub const ZERO: Bit = Bit::Fixed(false);

impl Bit {
    pub fn negated(self) -> Bit {
        match self {
            Bit::Fixed(value) => Bit::Fixed(!value),
            Bit::Literal(literal) => Bit::Literal(-literal),
        }
    }

    /// The entry of the bit room. No bit of y is fixed at 1: for x = 0 every
    /// bit of y is 0, so a fixed bit can only be a fixed 0.
    pub fn stored(self) -> i32 {
        debug_assert_ne!(self, Bit::Fixed(true));
        match self {
            Bit::Fixed(_) => 0,
            Bit::Literal(literal) => literal,
        }
    }
}
