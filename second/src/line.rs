//! A recipe line: its kind, its five bytes, and what it gives.

/// Bytes of a line.
pub const LINE_BYTES: usize = 5;
/// Lines of the longest recipe.
pub const MAX_LINES: usize = 32;

/// How many values each field can take, most significant field first: top
/// bit, kind, left operand, s, right operand, claimed coefficient.
const FIELD_SIZES: [u64; 6] = [2, 4, 64, 32, 64, 1 << 20];

/// The three kinds differ only in which term is shifted and in the sign of
/// the right term, so a table of these two facts is all there is to them.
#[derive(Clone, Copy, Debug, PartialEq, Eq)]
pub struct Kind {
    pub code: u64,
    pub shifts_left_term: bool,
    pub subtracts: bool,
}

pub const SPLUS: Kind = Kind { code: 1, shifts_left_term: true, subtracts: false };
pub const SMINUS: Kind = Kind { code: 2, shifts_left_term: true, subtracts: true };
pub const MINUSS: Kind = Kind { code: 3, shifts_left_term: false, subtracts: true };

impl Kind {
    pub fn of(code: u64) -> Option<Kind> {
        [SPLUS, SMINUS, MINUSS].into_iter().find(|kind| kind.code == code)
    }

    /// By how much the left and the right term are shifted.
    pub fn shifts(self, s: u32) -> (u32, u32) {
        if self.shifts_left_term {
            (s, 0)
        } else {
            (0, s)
        }
    }

    /// Signed, since a proposed line may well subtract too much; operands
    /// have at most 20 bits and s is at most 31, so nothing overflows.
    pub fn coefficient(self, left: u64, s: u32, right: u64) -> i64 {
        let (left_shift, right_shift) = self.shifts(s);
        let left_term = (left << left_shift) as i64;
        let right_term = (right << right_shift) as i64;
        if self.subtracts {
            left_term - right_term
        } else {
            left_term + right_term
        }
    }
}

/// The fields of a line as they stand in its bytes, right or wrong.
#[derive(Clone, Copy, Debug, PartialEq, Eq)]
pub struct Line {
    pub top: u64,
    pub kind: u64,
    pub left: usize,
    pub s: u32,
    pub right: usize,
    pub claimed: u64,
}

impl Line {
    /// Reads the forty bits as a number in the mixed base of the field sizes.
    pub fn unpack(bytes: &[u8]) -> Line {
        let mut rest = bytes.iter().fold(0u64, |number, byte| number * 256 + u64::from(*byte));
        let mut fields = [0; FIELD_SIZES.len()];
        for (field, size) in fields.iter_mut().zip(FIELD_SIZES).rev() {
            *field = rest % size;
            rest /= size;
        }
        let [top, kind, left, s, right, claimed] = fields;
        Line { top, kind, left: left as usize, s: s as u32, right: right as usize, claimed }
    }

    pub fn pack(&self) -> [u8; LINE_BYTES] {
        let (left, s, right) = (self.left as u64, u64::from(self.s), self.right as u64);
        let fields = [self.top, self.kind, left, s, right, self.claimed];
        let mut rest = fields.iter().zip(FIELD_SIZES).fold(0, |number, (field, size)| number * size + field);
        let mut bytes = [0; LINE_BYTES];
        for byte in bytes.iter_mut().rev() {
            *byte = (rest % 256) as u8;
            rest /= 256;
        }
        bytes
    }

    /// What the kind gives over the coefficients of the earlier operands;
    /// nothing if there is no such kind or no such operand.
    pub fn gives(&self, earlier: &[u64]) -> Option<i64> {
        let kind = Kind::of(self.kind)?;
        let left = *earlier.get(self.left)?;
        let right = *earlier.get(self.right)?;
        Some(kind.coefficient(left, self.s, right))
    }
}

#[cfg(test)]
mod tests {
    use super::*;

    #[test]
    fn every_field_comes_back_at_its_largest() {
        let all = Line { top: 1, kind: 3, left: 63, s: 31, right: 63, claimed: 1_048_575 };
        assert_eq!(all.pack(), [255; 5]);
        assert_eq!(Line::unpack(&[255; 5]), all);
        assert_eq!(Line::unpack(&[0x80, 0, 0, 0, 0]).top, 1);
        assert_eq!(Line::unpack(&[0x60, 0, 0, 0, 0]).kind, 3);
        assert_eq!(Line::unpack(&[0x1F, 0x80, 0, 0, 0]).left, 63);
        assert_eq!(Line::unpack(&[0, 0x7C, 0, 0, 0]).s, 31);
        assert_eq!(Line::unpack(&[0, 0x03, 0xF0, 0, 0]).right, 63);
        assert_eq!(Line::unpack(&[0, 0, 0x0F, 0xFF, 0xFF]).claimed, 1_048_575);
    }

    #[test]
    fn the_three_kinds_give_their_coefficients() {
        assert_eq!(SPLUS.coefficient(3, 4, 5), 53);
        assert_eq!(SMINUS.coefficient(3, 4, 5), 43);
        assert_eq!(MINUSS.coefficient(63, 2, 1), 59);
        assert_eq!(MINUSS.coefficient(1, 31, 1_048_575), 1 - (1_048_575i64 << 31));
    }
}
