//! From chosen splits to recipe lines.

use crate::line::{Line, LINE_BYTES};
use crate::number::{bit_length, odd_part, zero_bits};
use crate::refusal::{c_out_of_range, first_of, Refusal, C_RANGE, RECIPE_ROOM, WORK_ROOM};
use crate::split::{chosen, recipe_set, work_byte};

/// Plans a recipe for `c` into the two rooms; gives the number of lines.
pub fn plan(c: u64, work: &mut [u8], recipe: &mut [u8]) -> Result<usize, Refusal> {
    first_of(&[(C_RANGE, c_out_of_range(c))])?;
    let (d, _) = odd_part(c);
    let length = bit_length(d);
    let table_bytes = 1 << (length - 1);
    first_of(&[(WORK_ROOM, work.len() < table_bytes), (RECIPE_ROOM, recipe.len() < LINE_BYTES * (length / 2))])?;
    for (n, byte) in (1..).step_by(2).zip(&mut work[..table_bytes]) {
        *byte = work_byte(n);
    }
    let lines = planned_lines(d);
    let bytes: Vec<u8> = lines.iter().flat_map(Line::pack).collect();
    recipe[..bytes.len()].copy_from_slice(&bytes);
    Ok(lines.len())
}

fn planned_lines(d: u64) -> Vec<Line> {
    let mut order = recipe_set(d).to_vec();
    order.sort_by_key(|n| (bit_length(*n), zero_bits(*n), *n));
    order.iter().map(|n| line_for(*n, &order)).collect()
}

/// Operands are never later than their line, so they are found by value.
fn line_for(n: u64, order: &[u64]) -> Line {
    let number = |operand: u64| order.iter().position(|k| *k == operand).map_or(0, |place| place + 1);
    let split = chosen(n).split;
    Line { top: 0, kind: split.kind.code, left: number(split.left), s: split.p, right: number(split.right), claimed: n }
}
