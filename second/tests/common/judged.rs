//! A recipe judged line by line in the words of document 01, with the forty bits
//! of a line read as text and numbers wider than any that a line can give.

use second::Refusal;

/// The top bit, kind, left operand, s, right operand and claimed coefficient.
fn fields(line: &[u8]) -> [i128; 6] {
    let forty: String = line.iter().map(|byte| format!("{byte:08b}")).collect();
    let part = |from: usize, upto: usize| i128::from_str_radix(&forty[from..upto], 2).unwrap();
    [part(0, 1), part(1, 3), part(3, 9), part(9, 14), part(14, 20), part(20, 40)]
}

pub fn claim(line: &[u8]) -> i128 {
    fields(line)[5]
}

/// The first rule that line `number` breaks, and what the line gives if that is rule 7. Operand 0 is x, operand i
/// stands for what line i claims.
fn broken(number: i128, line: &[u8], operands: &[i128]) -> Option<(u8, i128)> {
    let [top, kind, left, s, right, claimed] = fields(line);
    if top == 1 || kind == 0 {
        return Some((4, 0));
    }
    if left > number - 1 || right > number - 1 {
        return Some((5, 0));
    }
    if claimed % 2 == 0 {
        return Some((6, 0));
    }
    let (left, right, power) = (operands[left as usize], operands[right as usize], 2i128.pow(s as u32));
    let gives = match kind {
        1 => left * power + right,
        2 => left * power - right,
        _ => left - right * power,
    };
    (gives != claimed).then_some((7, gives))
}

/// The refusal of the first line that breaks a rule, if one does.
pub fn first_bad_line(recipe: &[u8]) -> Option<Refusal> {
    let mut operands = vec![1];
    for (number, line) in (1..).zip(recipe.chunks(5)) {
        if let Some((rule, gives)) = broken(number, line, &operands) {
            return Some(Refusal { number: rule, line: number as u64, value: gives as i64 });
        }
        operands.push(claim(line));
    }
    None
}

/// What checking must answer.
pub fn judged(c: u64, recipe: &[u8]) -> Result<(), Refusal> {
    let without_line = |number: u8| Err(Refusal { number, line: 0, value: 0 });
    if c == 0 || c > 65_535 {
        return without_line(1);
    }
    if !recipe.len().is_multiple_of(5) || recipe.len() > 160 {
        return without_line(3);
    }
    if let Some(refusal) = first_bad_line(recipe) {
        return Err(refusal);
    }
    let product = recipe.chunks(5).last().map_or(1, claim);
    if product != i128::from(super::odd_part(c)) {
        return without_line(8);
    }
    Ok(())
}
