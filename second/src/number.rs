//! The few facts about numbers that document 01 names.

/// Number of binary digits of `v`; `v` is at least 1 wherever it is asked.
pub fn bit_length(v: u64) -> usize {
    (u64::BITS - v.leading_zeros()) as usize
}

/// Zero digits among the binary digits of `v`.
pub fn zero_bits(v: u64) -> usize {
    bit_length(v) - v.count_ones() as usize
}

/// `(d, t)` with `c = d * 2^t` and `d` odd, for `c` above 0.
pub fn odd_part(c: u64) -> (u64, usize) {
    let t = c.trailing_zeros();
    (c >> t, t as usize)
}

/// Bit length of the largest value of `k * x`, `x` having `w` bits.
pub fn product_length(k: u64, w: usize) -> usize {
    bit_length(k * ((1 << w) - 1))
}
