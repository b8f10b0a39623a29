//! Shared by the tests: lines by hand, rooms, readings of the clause room.
#![allow(dead_code)] // each test file uses its own part of this

pub mod judged;
pub mod listed;

use second::{Counts, Refusal};

/// More words than any recipe needs.
pub const WORDS: usize = 73_728;

pub const SPLUS: u64 = 1;
pub const SMINUS: u64 = 2;
pub const MINUSS: u64 = 3;

/// The five bytes of a line, packed here a second time on purpose.
pub fn line(kind: u64, left: u64, s: u64, right: u64, claimed: u64) -> Vec<u8> {
    let number = kind << 37 | left << 31 | s << 26 | right << 20 | claimed;
    number.to_be_bytes()[3..].to_vec()
}

pub fn recipe_of(lines: &[Fields]) -> Vec<u8> {
    lines.iter().flat_map(|&(kind, left, s, right, claimed)| line(kind, left, s, right, claimed)).collect()
}

pub fn planned(c: u64) -> Vec<u8> {
    let mut recipe = vec![0; 40];
    let lines = second::plan(c, &mut vec![0; 1 << 15], &mut recipe).unwrap();
    recipe.truncate(5 * lines);
    recipe
}

/// The answer with the refusal's number alone, where that is what a test is about. Line and value are zero wherever the
/// number has none, whatever the call.
pub fn numbered<T>(answer: Result<T, Refusal>) -> Result<T, u8> {
    answer.map_err(|Refusal { number, line, value }| {
        let of_a_line = (4..=7).contains(&number);
        assert!(if of_a_line { (1..=32).contains(&line) } else { line == 0 }, "{number} tells line {line}");
        assert!(number == 7 || value == 0, "{number} tells value {value}");
        number
    })
}

pub fn check(c: u64, recipe: &[u8]) -> Result<(), u8> {
    numbered(second::check(c, recipe))
}

/// The rooms after a success, and the counts.
pub struct Written {
    pub w: u64,
    pub counts: Counts,
    pub bits: Vec<i32>,
    pub room: Vec<i32>,
}

pub fn written(c: u64, w: u64, recipe: &[u8]) -> Written {
    let (mut bits, mut room) = (vec![0; 32], vec![0; WORDS]);
    let answer = second::write_plain(c, w, recipe, &mut bits, &mut room);
    let counts = answer.unwrap_or_else(|refusal| panic!("{c} {w}: {refusal:?}"));
    bits.truncate(counts.bits);
    room.truncate(counts.words);
    Written { w, counts, bits, room }
}

impl Written {
    /// The highest variable: the one before the next free number.
    pub fn highest(&self) -> u32 {
        self.counts.next - 1
    }
}

/// The rooms after a success over given literals, and the counts.
pub fn written_over(c: u64, x: &[i32], first: u32, recipe: &[u8]) -> Written {
    let (w, mut bits, mut room) = (x.len() as u64, vec![0; 32], vec![0; WORDS]);
    let answer = second::write(c, w, x, first, recipe, &mut bits, &mut room);
    let counts = answer.unwrap_or_else(|refusal| panic!("{c} {x:?} {first}: {refusal:?}"));
    bits.truncate(counts.bits);
    room.truncate(counts.words);
    Written { w, counts, bits, room }
}

pub fn bit_length(v: u64) -> usize {
    format!("{v:b}").len()
}

pub fn odd_part(c: u64) -> u64 {
    c >> c.trailing_zeros()
}

/// The clauses of a room: the words up to each 0.
pub fn clauses(room: &[i32]) -> impl Iterator<Item = &[i32]> {
    room.split_inclusive(|word| *word == 0).map(|closed| {
        let (last, clause) = closed.split_last().unwrap();
        assert_eq!(*last, 0, "the last clause is not closed");
        clause
    })
}

/// Bit v - 1 of an assignment is the value of variable v.
pub fn holds(literal: i32, assignment: u64) -> bool {
    let value = assignment >> (literal.unsigned_abs() - 1) & 1 == 1;
    value == (literal > 0)
}

pub fn satisfies(room: &[i32], assignment: u64) -> bool {
    let mut held = false;
    for word in room {
        if *word != 0 {
            held |= holds(*word, assignment);
        } else if !std::mem::take(&mut held) {
            return false;
        }
    }
    true
}

/// All assignments of the new variables that satisfy the room together with x.
pub fn models(room: &[i32], w: u64, highest: u32, x: u64) -> Vec<u64> {
    let new = u64::from(highest) - w;
    let assignments = (0..1u64 << new).map(|values| values << w | x);
    assignments.filter(|assignment| satisfies(room, *assignment)).collect()
}

/// What y reads under a valuation of literals; 0 is a fixed 0.
pub fn reading(bits: &[i32], value: impl Fn(i32) -> bool) -> u64 {
    bits.iter().rev().fold(0, |number, bit| 2 * number + u64::from(*bit != 0 && value(*bit)))
}

pub fn reading_of_model(bits: &[i32], assignment: u64) -> u64 {
    reading(bits, |literal| holds(literal, assignment))
}

/// Values found by unit propagation; `None` for a variable not reached.
pub struct Propagated {
    values: Vec<Option<bool>>,
}

impl Propagated {
    pub fn value(&self, literal: i32) -> Option<bool> {
        self.values[literal.unsigned_abs() as usize].map(|value| value == (literal > 0))
    }

    fn make_true(&mut self, literal: i32) {
        self.values[literal.unsigned_abs() as usize] = Some(literal > 0);
    }

    /// Whether the clause gave a new value; an error if it is falsified.
    fn visit(&mut self, clause: &[i32]) -> Result<bool, String> {
        if clause.iter().any(|literal| self.value(*literal) == Some(true)) {
            return Ok(false);
        }
        let mut open: Vec<i32> = clause.iter().copied().filter(|literal| self.value(*literal).is_none()).collect();
        open.sort_unstable();
        open.dedup();
        match open[..] {
            [] => Err(format!("conflict at {clause:?}")),
            [literal] => {
                self.make_true(literal);
                Ok(true)
            }
            _ => Ok(false),
        }
    }
}

pub fn propagate(room: &[i32], w: u64, highest: u32, x: u64) -> Result<Propagated, String> {
    let mut found = Propagated { values: vec![None; highest as usize + 1] };
    for place in 0..w {
        found.make_true(if x >> place & 1 == 1 { 1 } else { -1 } * (place as i32 + 1));
    }
    let mut changed = true;
    while changed {
        changed = false;
        for clause in clauses(room) {
            changed |= found.visit(clause)?;
        }
    }
    match found.values[1..].iter().position(Option::is_none) {
        Some(place) => Err(format!("variable {} not set", place + 1)),
        None => Ok(found),
    }
}

/// Exactly one assignment, by propagation: every variable is forced, no
/// clause is falsified, and y reads the product.
pub fn assert_propagates(c: u64, written: &Written, x: u64) {
    let Written { w, counts, bits, room } = written;
    let found = propagate(room, *w, counts.next - 1, x).unwrap_or_else(|why| panic!("{c} {w} x = {x}: {why}"));
    let whole = clauses(room).all(|clause| clause.iter().any(|literal| found.value(*literal) == Some(true)));
    assert!(whole, "{c} {w} x = {x}: a clause is not satisfied");
    assert_eq!(reading(bits, |literal| found.value(literal).unwrap()), c * x, "{c} {w} x = {x}");
}

/// The counts must be those of the room, and no variable number is skipped.
pub fn assert_counted_off_the_room(written: &Written) {
    let Written { w, counts, room, .. } = written;
    assert_eq!(clauses(room).count(), counts.clauses);
    let mut named = vec![false; counts.next as usize];
    for word in room.iter().filter(|word| **word != 0) {
        named[word.unsigned_abs() as usize] = true;
    }
    assert!(named[*w as usize + 1..].iter().all(|seen| *seen), "a new variable is in no clause");
}

/// No clause holds a literal twice, or a variable and its negation.
pub fn assert_no_variable_twice(room: &[i32]) {
    for clause in clauses(room) {
        let twice = clause.iter().enumerate().any(|(i, a)| clause[..i].iter().any(|b| a.abs() == b.abs()));
        assert!(!twice, "{clause:?} names a variable twice");
    }
}

/// Recipes of small coefficients whose columns, at the width beside each, have a pair of every kind that was found.
pub fn recipes_with_pairs_of_every_kind() -> Vec<(u64, u64, Vec<u8>)> {
    let recipes: [(u64, &[Fields]); 11] = [
        (1, &[(SPLUS, 0, 1, 0, 3), (SMINUS, 1, 1, 0, 5)]),
        (1, &[(SPLUS, 0, 1, 0, 3), (SPLUS, 1, 1, 1, 9)]),
        (1, &[(SPLUS, 0, 1, 0, 3), (SMINUS, 0, 3, 1, 5)]),
        (1, &[(SMINUS, 0, 3, 0, 7), (SPLUS, 1, 1, 1, 21)]),
        (1, &[(SMINUS, 0, 3, 0, 7), (MINUSS, 1, 1, 0, 5)]),
        (1, &[(SMINUS, 0, 3, 0, 7), (SMINUS, 1, 1, 1, 7)]),
        (2, &[(SPLUS, 0, 2, 0, 5), (SPLUS, 0, 2, 1, 9)]),
        (2, &[(SPLUS, 0, 2, 0, 5), (SMINUS, 1, 2, 1, 15)]),
        (3, &[(SMINUS, 0, 1, 0, 1)]),
        (2, &[(SMINUS, 0, 6, 0, 63), (SPLUS, 1, 2, 1, 315), (SMINUS, 2, 1, 1, 567)]),
        (2, &[(SMINUS, 0, 5, 0, 31), (MINUSS, 1, 4, 0, 15), (SPLUS, 0, 2, 2, 19), (SMINUS, 3, 1, 1, 7)]),
    ];
    recipes.map(|(w, lines)| (lines.last().unwrap().4, w, recipe_of(lines))).to_vec()
}

/// xorshift64*, so that a run can be repeated from its printed seed.
pub struct Random(u64);

impl Random {
    pub fn seeded(seed: u64) -> Random {
        println!("seed {seed}");
        Random(seed.max(1))
    }

    pub fn next(&mut self) -> u64 {
        self.0 ^= self.0 >> 12;
        self.0 ^= self.0 << 25;
        self.0 ^= self.0 >> 27;
        self.0.wrapping_mul(0x2545_F491_4F6C_DD1D)
    }

    /// From 0 to `most`, both included.
    pub fn up_to(&mut self, most: u64) -> u64 {
        (self.next() >> 16) % (most + 1)
    }
}

/// Literals of distinct variables below `first`, which is above `w`.
pub fn literals(w: u64, first: u32, random: &mut Random) -> Vec<i32> {
    let mut x: Vec<i32> = Vec::new();
    while (x.len() as u64) < w {
        let variable = 1 + random.up_to(u64::from(first) - 2) as i32;
        if !x.iter().any(|literal| literal.abs() == variable) {
            x.push(if random.up_to(1) == 0 { variable } else { -variable });
        }
    }
    x
}

/// A line as kind, left, s, right, coefficient.
pub type Fields = (u64, u64, u64, u64, u64);

/// What a line of these operands would have as its coefficient, if any.
fn coefficient(kind: u64, left: u64, s: u64, right: u64) -> Option<u64> {
    let (left, right) = (left as i64, right as i64);
    let value = match kind {
        SPLUS => (left << s) + right,
        SMINUS => (left << s) - right,
        _ => left - (right << s),
    };
    (value % 2 == 1 && (1..1 << 20).contains(&value)).then_some(value as u64)
}

/// A random line that an accepted recipe can have next. Operand 0 is tried
/// half of the time, without which coefficients run out of room.
fn next_line(coefficients: &[u64], most_s: u64, random: &mut Random) -> Fields {
    loop {
        let kind = 1 + random.up_to(2);
        let mut operand = || random.up_to(1) * random.up_to(coefficients.len() as u64 - 1);
        let (left, right) = (operand(), operand());
        let s = random.up_to(most_s);
        if let Some(k) = coefficient(kind, coefficients[left as usize], s, coefficients[right as usize]) {
            return (kind, left, s, right, k);
        }
    }
}

/// A walk of the wished number of lines, drawn on until it ends in a
/// coefficient that is a constant; that constant comes with it.
pub fn walk(lines: usize, random: &mut Random) -> (u64, Vec<Fields>) {
    walk_within(20, lines, random)
}

/// The same with no larger shifts than this. Small ones give more pairs.
pub fn walk_within(most_s: u64, lines: usize, random: &mut Random) -> (u64, Vec<Fields>) {
    loop {
        let (mut walked, mut coefficients) = (Vec::new(), vec![1]);
        while walked.len() < lines {
            let repeat = !walked.is_empty() && random.up_to(7) == 0;
            let again = walked.get(random.up_to(lines as u64) as usize).copied().filter(|_| repeat);
            let line: Fields = again.unwrap_or_else(|| next_line(&coefficients, most_s, random));
            coefficients.push(line.4);
            walked.push(line);
        }
        let d = coefficients[lines];
        if d <= 65_535 {
            return (d, walked);
        }
    }
}
