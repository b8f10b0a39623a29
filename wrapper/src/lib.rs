//! Constant products as SAT clauses: a safe wrapper over the proved archive.
//!
//! Each call takes any arguments and refuses by the documents' numbers; a refusal leaves every room as it came.

use std::fmt;

/// The declarations of `include/ladlebean.h`.
mod archive {
    extern "C" {
        pub fn ladlebean_plan(
            c: u64,
            work: *mut u8,
            work_length: usize,
            recipe: *mut u8,
            recipe_length: usize,
            lines: *mut u64,
        ) -> u64;
        pub fn ladlebean_check(c: u64, recipe: *const u8, recipe_length: usize, line: *mut u64, value: *mut i64) -> u64;
        pub fn ladlebean_write(
            c: u64,
            w: u32,
            x: *const i32,
            x_length: usize,
            first: u32,
            recipe: *const u8,
            recipe_length: usize,
            bits: *mut i32,
            bits_length: usize,
            clauses: *mut i32,
            clauses_length: usize,
            words_used: *mut u64,
            clauses_written: *mut u64,
            next_free: *mut u64,
            y_bits: *mut u64,
            line: *mut u64,
            value: *mut i64,
        ) -> u64;
        pub fn ladlebean_write_plain(
            c: u64,
            w: u32,
            recipe: *const u8,
            recipe_length: usize,
            bits: *mut i32,
            bits_length: usize,
            clauses: *mut i32,
            clauses_length: usize,
            words_used: *mut u64,
            clauses_written: *mut u64,
            next_free: *mut u64,
            y_bits: *mut u64,
            line: *mut u64,
            value: *mut i64,
        ) -> u64;
        pub fn ladlebean_propagate(
            words: *const i32,
            words_length: usize,
            given: *const i32,
            given_length: usize,
            allowance: u64,
            values: *mut u8,
            values_length: usize,
            clauses_read: *mut u64,
        ) -> u64;
    }
}

/// Why a call refused (docs/REFUSALS.md): the documents' number; in 4 to 7 the first bad line of the recipe, from 1; and in a 7 what this
/// line really gives and what it claims. Everything else is zero.
#[derive(Clone, Copy, Debug, PartialEq, Eq)]
pub struct Refusal {
    pub number: u64,
    pub line: usize,
    pub value: i64,
    pub claimed: u32,
}

impl Refusal {
    fn plain(number: u64) -> Self {
        Refusal { number, line: 0, value: 0, claimed: 0 }
    }

    fn of_recipe(number: u64, line: u64, value: i64, recipe: &[u8]) -> Self {
        let line = line as usize;
        let claimed = if number == WRONG_VALUE { claimed(recipe, line) } else { 0 };
        Refusal { number, line, value, claimed }
    }
}

impl fmt::Display for Refusal {
    fn fmt(&self, f: &mut fmt::Formatter) -> fmt::Result {
        let Refusal { number, line, value, claimed } = self;
        match (*number, *line) {
            (WRONG_VALUE, _) => write!(f, "refused {number}: line {line} gives {value}, claims {claimed}"),
            (_, 0) => write!(f, "refused {number}"),
            _ => write!(f, "refused {number}: line {line}"),
        }
    }
}

impl std::error::Error for Refusal {}

/// The refusal of a line that claims another coefficient than its kind gives.
const WRONG_VALUE: u64 = 7;

/// The bytes of a recipe's line.
const LINE_BYTES: usize = 5;

/// The coefficient that a line claims, the line counted from 1: the last twenty of its forty bits.
fn claimed(recipe: &[u8], line: usize) -> u32 {
    let bytes = &recipe[LINE_BYTES * (line - 1)..LINE_BYTES * line];
    bytes.iter().fold(0, |bits, byte| bits << 8 | u64::from(*byte)) as u32 & 0xF_FFFF
}

/// What a written product tells: words used, clauses, the next free number and bits of y.
#[derive(Clone, Copy, Debug, PartialEq, Eq)]
pub struct Counts {
    pub words: usize,
    pub clauses: usize,
    pub next: u32,
    pub bits: usize,
}

/// The fields of a call of writing, each a number that the archive fills.
#[derive(Default)]
struct Fields {
    words_used: u64,
    clauses_written: u64,
    next_free: u64,
    y_bits: u64,
    line: u64,
    value: i64,
}

impl Fields {
    fn counted(self, number: u64, recipe: &[u8]) -> Result<Counts, Refusal> {
        let counts = Counts {
            words: self.words_used as usize,
            clauses: self.clauses_written as usize,
            next: self.next_free as u32,
            bits: self.y_bits as usize,
        };
        unless_refused(number, counts, || Refusal::of_recipe(number, self.line, self.value, recipe))
    }
}

fn unless_refused<T>(number: u64, value: T, refusal: impl FnOnce() -> Refusal) -> Result<T, Refusal> {
    if number == 0 {
        Ok(value)
    } else {
        Err(refusal())
    }
}

/// Plans the recipe for `c` into the two rooms; gives the number of lines.
pub fn plan(c: u64, work: &mut [u8], recipe: &mut [u8]) -> Result<usize, Refusal> {
    let mut lines = 0;
    // SAFETY: each pointer is good for its length, `lines` for one number, and distinct `&mut` do not overlap; the call asks no more.
    let number =
        unsafe { archive::ladlebean_plan(c, work.as_mut_ptr(), work.len(), recipe.as_mut_ptr(), recipe.len(), &mut lines) };
    unless_refused(number, lines as usize, || Refusal::plain(number))
}

/// Whether `recipe` is right for `c`.
pub fn check(c: u64, recipe: &[u8]) -> Result<(), Refusal> {
    let (mut line, mut value) = (0, 0);
    // SAFETY: the pointer is good for its length, `line` and `value` for one number each.
    let number = unsafe { archive::ladlebean_check(c, recipe.as_ptr(), recipe.len(), &mut line, &mut value) };
    unless_refused(number, (), || Refusal::of_recipe(number, line, value, recipe))
}

/// Writes y and the clauses of `recipe` for `c` at width `w` into the two rooms; `x` is `w` literals, and `first` the first free number.
#[allow(clippy::too_many_arguments)]
pub fn write(c: u64, w: u32, x: &[i32], first: u32, recipe: &[u8], bits: &mut [i32], clauses: &mut [i32]) -> Result<Counts, Refusal> {
    let mut fields = Fields::default();
    // SAFETY: each pointer is good for its length or for one number, and distinct `&mut` do not overlap; the call asks no more.
    let number = unsafe {
        archive::ladlebean_write(
            c,
            w,
            x.as_ptr(),
            x.len(),
            first,
            recipe.as_ptr(),
            recipe.len(),
            bits.as_mut_ptr(),
            bits.len(),
            clauses.as_mut_ptr(),
            clauses.len(),
            &mut fields.words_used,
            &mut fields.clauses_written,
            &mut fields.next_free,
            &mut fields.y_bits,
            &mut fields.line,
            &mut fields.value,
        )
    };
    fields.counted(number, recipe)
}

/// The same where x is the variables 1 to `w`, and `w` + 1 the first free number.
pub fn write_plain(c: u64, w: u32, recipe: &[u8], bits: &mut [i32], clauses: &mut [i32]) -> Result<Counts, Refusal> {
    let mut fields = Fields::default();
    // SAFETY: as above.
    let number = unsafe {
        archive::ladlebean_write_plain(
            c,
            w,
            recipe.as_ptr(),
            recipe.len(),
            bits.as_mut_ptr(),
            bits.len(),
            clauses.as_mut_ptr(),
            clauses.len(),
            &mut fields.words_used,
            &mut fields.clauses_written,
            &mut fields.next_free,
            &mut fields.y_bits,
            &mut fields.line,
            &mut fields.value,
        )
    };
    fields.counted(number, recipe)
}

/// What a value room has for a variable that nothing is known of; 0 is false and 1 true.
pub const UNKNOWN: u8 = 2;

/// One pass over words that believes only the clauses: takes the given literals as true, reads each clause once for one of the allowance, and leaves
/// in `values` what was given and what the clauses set, that of variable v at v - 1. The room comes in all [`UNKNOWN`]. Gives the clauses read.
pub fn propagate(words: &[i32], given: &[i32], allowance: u64, values: &mut [u8]) -> Result<u64, Refusal> {
    let mut clauses = 0;
    // SAFETY: each pointer is good for its length, `clauses` for one number, and distinct `&mut` do not overlap; the call asks no more.
    let number = unsafe {
        archive::ladlebean_propagate(
            words.as_ptr(),
            words.len(),
            given.as_ptr(),
            given.len(),
            allowance,
            values.as_mut_ptr(),
            values.len(),
            &mut clauses,
        )
    };
    unless_refused(number, clauses, || Refusal::plain(number))
}
