//! Is a proposed recipe one for c?

use crate::line::{Kind, Line, LINE_BYTES, MAX_LINES};
use crate::number::odd_part;
use crate::refusal::*;

/// A rule gives the value to be told of a line that breaks it, and nothing of
/// one that keeps it. It knows the coefficients of the operands before the line,
/// operand 0 first, and is asked only of a line that keeps the rules before it.
type Rule = fn(&Line, &[u64]) -> Option<i64>;

const LINE_RULES: [(u8, Rule); 4] = [
    (LINE_FORM, |line, _| valueless(line.top == 1 || Kind::of(line.kind).is_none())),
    (LINE_OPERAND, |line, earlier| valueless(line.left.max(line.right) >= earlier.len())),
    (LINE_EVEN, |line, _| valueless(line.claimed % 2 == 0)),
    (LINE_COEFFICIENT, |line, earlier| line.gives(earlier).filter(|value| *value != line.claimed as i64)),
];

/// Only the last rule has a value to tell; the others tell zero.
fn valueless(broken: bool) -> Option<i64> {
    broken.then_some(0)
}

/// Checks that `recipe` is a recipe for `c`.
pub fn check(c: u64, recipe: &[u8]) -> Result<(), Refusal> {
    first_of(&[(C_RANGE, c_out_of_range(c)), (RECIPE_LENGTH, bad_length(recipe))])?;
    let lines = accepted_lines(recipe)?;
    first_of(&[(PRODUCT, product(&lines) != odd_part(c).0)])
}

pub fn bad_length(recipe: &[u8]) -> bool {
    !recipe.len().is_multiple_of(LINE_BYTES) || recipe.len() > MAX_LINES * LINE_BYTES
}

/// The lines of a recipe of good length, or the refusal of the first line that
/// breaks a rule.
pub fn accepted_lines(recipe: &[u8]) -> Result<Vec<Line>, Refusal> {
    let mut coefficients = vec![1];
    let mut lines = Vec::new();
    for bytes in recipe.chunks(LINE_BYTES) {
        let line = Line::unpack(bytes);
        if let Some(refusal) = refused(&line, &coefficients) {
            return Err(refusal);
        }
        coefficients.push(line.claimed);
        lines.push(line);
    }
    Ok(lines)
}

/// By the first rule that the line breaks. The operands before a line are x and
/// the lines before it, so they are as many as the line's number.
fn refused(line: &Line, earlier: &[u64]) -> Option<Refusal> {
    let by = |(number, rule): &(u8, Rule)| {
        let value = rule(line, earlier)?;
        Some(Refusal { number: *number, line: earlier.len() as u64, value })
    };
    LINE_RULES.iter().find_map(by)
}

/// What a line, counted from 1, claims as its coefficient; nothing if the
/// recipe has no such line.
pub fn claimed(recipe: &[u8], line: u64) -> Option<u64> {
    let place = usize::try_from(line.checked_sub(1)?).ok()?;
    Some(Line::unpack(recipe.chunks_exact(LINE_BYTES).nth(place)?).claimed)
}

/// The last line's coefficient, or 1 if there are no lines.
pub fn product(lines: &[Line]) -> u64 {
    lines.last().map_or(1, |line| line.claimed)
}
