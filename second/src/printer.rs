//! The printing program: its input and its file.

use crate::line::{LINE_BYTES, MAX_LINES};
use crate::planner::plan;
use crate::refusal::{Refusal, INPUT};
use crate::writer::{write_plain, Counts};

/// The work room for constants of 16 bits.
const WORK_ROOM: usize = 1 << 15;
/// The longest y: 65,535 * 65,535 has 32 bits.
const BIT_ROOM: usize = 32;
/// A coefficient of 20 bits has at most 36 columns at w = 16; a column has at
/// most 8 clauses of 5 words and 6 of 4.
const CLAUSE_ROOM: usize = MAX_LINES * 36 * (8 * 5 + 6 * 4);

/// The whole output of `mulcnf` for a whole standard input.
pub fn print(input: &[u8]) -> Vec<u8> {
    let asked = parsed(input).ok_or(Refusal::plain(INPUT));
    shown(asked.and_then(|(c, w)| planned_file(c, w)))
}

/// The same output for a recipe given by the caller.
pub fn print_recipe(c: u64, w: u64, recipe: &[u8]) -> Vec<u8> {
    shown(file(c, w, recipe))
}

fn shown(file: Result<String, Refusal>) -> Vec<u8> {
    file.unwrap_or_else(|refusal| format!("refused {}\n", refusal.number)).into_bytes()
}

/// One to five digits, a space, one or two digits, a newline, nothing else.
fn parsed(input: &[u8]) -> Option<(u64, u64)> {
    let line = input.strip_suffix(b"\n")?;
    let words: Vec<&[u8]> = line.split(|byte| *byte == b' ').collect();
    match words[..] {
        [c, w] => Some((digits(c, 5)?, digits(w, 2)?)),
        _ => None,
    }
}

fn digits(word: &[u8], most: usize) -> Option<u64> {
    let well_formed = (1..=most).contains(&word.len()) && word.iter().all(u8::is_ascii_digit);
    well_formed.then(|| word.iter().fold(0, |value, digit| value * 10 + u64::from(digit - b'0')))
}

fn planned_file(c: u64, w: u64) -> Result<String, Refusal> {
    let mut recipe = [0; MAX_LINES * LINE_BYTES];
    let lines = plan(c, &mut vec![0; WORK_ROOM], &mut recipe)?;
    file(c, w, &recipe[..lines * LINE_BYTES])
}

fn file(c: u64, w: u64, recipe: &[u8]) -> Result<String, Refusal> {
    let mut bits = [0; BIT_ROOM];
    let mut clauses = vec![0; CLAUSE_ROOM];
    let counts = write_plain(c, w, recipe, &mut bits, &mut clauses)?;
    Ok(dimacs(c, w, &counts, &bits[..counts.bits], &clauses[..counts.words]))
}

fn dimacs(c: u64, w: u64, counts: &Counts, y: &[i32], words: &[i32]) -> String {
    let y = y.iter().map(|bit| format!(" {bit}")).collect::<String>();
    let mut text = format!("c mul {c} {w}\nc y{y}\np cnf {} {}\n", counts.next - 1, counts.clauses);
    for word in words {
        text += &word.to_string();
        // Only the closing 0 of a clause is a 0 word.
        text.push(if *word == 0 { '\n' } else { ' ' });
    }
    text
}
