//! What a refusal tells, refusal numbers, and lists of refusal tests tried in order.

pub const C_RANGE: u8 = 1;
pub const W_RANGE: u8 = 2;
pub const RECIPE_LENGTH: u8 = 3;
pub const LINE_FORM: u8 = 4;
pub const LINE_OPERAND: u8 = 5;
pub const LINE_EVEN: u8 = 6;
pub const LINE_COEFFICIENT: u8 = 7;
pub const PRODUCT: u8 = 8;
pub const BIT_ROOM: u8 = 9;
pub const CLAUSE_ROOM: u8 = 10;
pub const WORK_ROOM: u8 = 11;
pub const RECIPE_ROOM: u8 = 12;
pub const INPUT: u8 = 13;
pub const LITERALS: u8 = 14;
pub const VARIABLES: u8 = 15;
pub const ALLOWANCE: u8 = 20;
pub const CLAUSE: u8 = 21;
pub const CONFLICT: u8 = 22;
pub const VALUES: u8 = 26;

const C_MAX: u64 = 65_535;
pub const W_MAX: u64 = 16;
/// The largest next free number: one past the largest variable that a word can name.
pub const NEXT_MAX: u64 = 1 << 31;

/// A refusal by a line (4 to 7) has the line, counted from 1, and 7 also the
/// value that the line really gives. Elsewhere each of the two is zero.
#[derive(Clone, Copy, Debug, PartialEq, Eq)]
pub struct Refusal {
    pub number: u8,
    pub line: u64,
    pub value: i64,
}

impl Refusal {
    /// One that no line is to blame for.
    pub fn plain(number: u8) -> Refusal {
        Refusal { number, line: 0, value: 0 }
    }

    /// An answer's refusal for tables and streams, where a success has zeros.
    pub(crate) fn of<T>(answer: &Result<T, Refusal>) -> Refusal {
        answer.as_ref().err().copied().unwrap_or(Refusal::plain(0))
    }
}

/// The refusal by the first test that speaks against going on.
pub fn first_of(tests: &[(u8, bool)]) -> Result<(), Refusal> {
    match tests.iter().find(|(_, refused)| *refused) {
        Some((number, _)) => Err(Refusal::plain(*number)),
        None => Ok(()),
    }
}

pub fn c_out_of_range(c: u64) -> bool {
    !(1..=C_MAX).contains(&c)
}

pub fn w_out_of_range(w: u64) -> bool {
    !(1..=W_MAX).contains(&w)
}
