//! Passes as records on a byte stream: how many times more the pass is made
//! (1 byte), each on the room as it comes; the number of words (2 bytes, most
//! significant first), the number of given literals (1), the bytes of the value
//! room (2), the allowance (8); then the words and the literals (4 each, with
//! 2^31 added), then the room as it comes. The answer is a line: the refusal's
//! number or 0, the clauses read, and a checksum of the room at exit.

use crate::line::LINE_BYTES;
use crate::passes::{calls, clauses, product, reading_as, Pass};
use crate::propagator::UNKNOWN;
use crate::random::Random;
use crate::streams::{bench_recipes, checksum, drawn_literals, either_sign, planned, Reader, MAX_CONSTANT};
use crate::{check, propagate, Refusal};

/// Words of a drawn call that is small, and bytes of its room.
const SMALL_WORDS: usize = 18;
const SMALL_ROOM: u64 = 7;
/// To add 2^31 is to turn the top bit over.
const TOP: u32 = 1 << 31;

/// A place in a list, or none in an empty one.
fn place<T>(list: &[T], random: &mut Random) -> Option<usize> {
    let last = list.len().checked_sub(1)?;
    Some(random.up_to(last as u64) as usize)
}

fn one_of<T: Copy>(list: &[T], random: &mut Random) -> T {
    list[place(list, random).expect("the list is not empty")]
}

/// An assignment that nobody is told of. Clauses drawn by chance alone conflict
/// too soon to set much; those drawn from it mostly hold in it.
struct Hidden {
    values: u64,
    variables: u64,
}

impl Hidden {
    /// A literal that is true or false in it.
    fn literal(&self, truth: bool, random: &mut Random) -> i32 {
        let variable = 1 + random.up_to(self.variables - 1) as i32;
        if (self.values >> variable & 1 == 1) == truth {
            variable
        } else {
            -variable
        }
    }

    /// With one literal that is true in it, now and then with none; or by chance alone.
    fn clause(&self, by_chance: bool, random: &mut Random) -> Vec<i32> {
        let length = if random.one_in(25) { 0 } else { 1 + random.up_to(3) };
        let holding = random.up_to(length);
        let truth = |i: u64, random: &mut Random| if by_chance { random.one_in(2) } else { i == holding };
        let mut clause: Vec<i32> = (0..length).map(|i| self.literal(truth(i, random), random)).collect();
        clause.push(0);
        clause
    }
}

/// Small words over few variables, given literals of different variables, and
/// allowance and room enough.
fn small(random: &mut Random) -> Pass {
    let room = random.up_to(SMALL_ROOM);
    let hidden = Hidden { values: random.number(), variables: room.clamp(1, 3 + random.up_to(4)) };
    let (many, by_chance) = (random.up_to(6), random.one_in(3));
    let mut words = Vec::new();
    for _ in 0..many {
        let clause = hidden.clause(by_chance, random);
        if words.len() + clause.len() <= SMALL_WORDS {
            words.extend(clause);
        }
    }
    let mut given: Vec<i32> = Vec::new();
    for _ in 0..random.up_to(3).min(room) {
        let literal = hidden.literal(!random.one_in(8), random);
        if !given.iter().any(|other| other.abs() == literal.abs()) {
            given.push(literal);
        }
    }
    Pass::over(&words, &given, room as usize)
}

/// What can be spoiled in a call. Two spoilings of one call show which refusal
/// is tested first.
type Spoiling = fn(&mut Pass, &mut Random);

const SPOILINGS: [Spoiling; 12] = [
    |call, random| call.allowance = random.up_to(clauses(&call.words).saturating_sub(1)),
    |call, _| call.allowance = clauses(&call.words).saturating_sub(1),
    |call, _| call.allowance = clauses(&call.words).saturating_sub(1),
    |call, _| call.words.truncate(call.words.len().saturating_sub(1)),
    |call, _| call.room.truncate(call.room.len().saturating_sub(1)),
    |call, random| change(&mut call.words, i32::wrapping_neg, random),
    |call, random| put_in(&mut call.words, 0, random),
    |call, random| put_in(&mut call.words, outside(call.room.len(), random), random),
    denied,
    |call, random| {
        let value = one_of(&[0, 1, 3, 255], random);
        change(&mut call.room, |_| value, random)
    },
    |call, random| put_in(&mut call.given, outside(call.room.len(), random), random),
    |call, random| {
        let again = place(&call.given, random).map_or(0, |place| call.given[place]);
        put_in(&mut call.given, either_sign(again, random), random)
    },
];

fn change<T: Copy>(list: &mut [T], change: impl Fn(T) -> T, random: &mut Random) {
    if let Some(place) = place(list, random) {
        list[place] = change(list[place]);
    }
}

fn put_in(list: &mut Vec<i32>, word: i32, random: &mut Random) {
    let place = random.up_to(list.len() as u64) as usize;
    list.insert(place, word);
}

/// A word of no variable of the room: just above it, or far.
fn outside(room: usize, random: &mut Random) -> i32 {
    let above = either_sign(room as i32 + 1, random);
    one_of(&[above, above, 0, i32::MIN, i32::MAX], random)
}

/// A last clause in which given literals are false, with its 0 or without.
fn denied(call: &mut Pass, random: &mut Random) {
    call.words.extend(call.given.iter().map(|literal| literal.wrapping_neg()));
    if random.one_in(2) {
        call.words.push(0);
    }
    call.allowance = call.allowance.saturating_add(1);
}

/// Spoiled once, twice, three times or not at all; where the allowance is no
/// reason to refuse it may be any larger one.
fn small_case(random: &mut Random) -> Pass {
    let mut call = small(random);
    match random.up_to(9) {
        0 => call.allowance = u64::MAX,
        1..=2 => call.allowance += random.up_to(3),
        _ => {}
    }
    for _ in 0..one_of(&[0, 0, 0, 0, 1, 1, 1, 2, 2, 3], random) {
        one_of(&SPOILINGS, random)(&mut call, random);
    }
    call
}

/// A constant, a width and a recipe for it: mostly small ones, since the words grow with each of these.
fn drawn_recipe(random: &mut Random) -> (u64, u64, Vec<u8>) {
    let (c, w) = match random.up_to(59) {
        0 => (1 + random.up_to(MAX_CONSTANT - 1), 1 + random.up_to(15)),
        1..=6 => {
            let (c, recipe) = by_hand(random);
            return (c, 1 + random.up_to(1), recipe);
        }
        _ => (1 + random.up_to(98), one_of(&[1, 2, 2, 2, 3, 3, 4], random)),
    };
    (c, w, planned(c))
}

/// One of document 01's right recipes of at most two lines; most of them are not the planned ones.
fn by_hand(random: &mut Random) -> (u64, Vec<u8>) {
    let short = |(c, recipe): &(u64, Vec<u8>)| recipe.len() <= 2 * LINE_BYTES && check(*c, recipe).is_ok();
    let mut recipes: Vec<(u64, Vec<u8>)> = bench_recipes().into_iter().filter(short).collect();
    let place = random.up_to(recipes.len() as u64 - 1) as usize;
    recipes.swap_remove(place)
}

/// A product of ours with x given in any order, with allowance and room just enough; mostly it stays so.
fn product_case(random: &mut Random) -> Pass {
    let (c, w, recipe) = drawn_recipe(random);
    let first = (w + 1 + random.up_to(4)) as u32;
    let x = drawn_literals(w, first, random);
    let (words, next) = product(c, &x, first, &recipe);
    let mut given = reading_as(random.up_to((1 << w) - 1), &x);
    for later in 1..given.len() {
        given.swap(later, random.up_to(later as u64) as usize);
    }
    let mut call = Pass::over(&words, &given, next as usize - 1);
    match random.up_to(11) {
        0 => call.allowance = call.allowance.saturating_sub(1),
        1 => call.room.truncate(next as usize - 2),
        2 => call.given.truncate(x.len() - 1),
        3 => call.given.extend(not_of(&x, first).map(|variable| either_sign(variable, random))),
        4..=5 => damage(&mut call.words, next, random),
        6 => (call.allowance, call.room) = (u64::MAX, vec![UNKNOWN; next as usize + 1]),
        _ => {}
    }
    call
}

/// The first variable that is free to be given beside x, if there is one.
fn not_of(x: &[i32], first: u32) -> Option<i32> {
    (1..first as i32).find(|variable| !x.iter().any(|literal| literal.abs() == *variable))
}

/// One word with its sign turned, one changed to any that the product can have, or a 0 put in.
fn damage(words: &mut Vec<i32>, next: u32, random: &mut Random) {
    match random.up_to(2) {
        0 => change(words, i32::wrapping_neg, random),
        1 => put_in(words, 0, random),
        _ => {
            let other = either_sign(random.up_to(u64::from(next)) as i32, random);
            change(words, |_| other, random)
        }
    }
}

fn drawn(random: &mut Random) -> Pass {
    if random.one_in(10) {
        product_case(random)
    } else {
        small_case(random)
    }
}

pub fn passes(seed: u64, count: usize) -> Vec<u8> {
    let mut random = Random::seeded(seed);
    let drawn = (0..count).map(|_| drawn(&mut random));
    calls().into_iter().chain(drawn).enumerate().flat_map(|(place, call)| record((place % 3) as u8, &call)).collect()
}

fn record(more: u8, call: &Pass) -> Vec<u8> {
    let words = u16::try_from(call.words.len()).expect("eight lines of 32 columns have at most 16,384 words");
    let mut record = vec![more];
    record.extend(words.to_be_bytes());
    record.push(call.given.len() as u8);
    record.extend((call.room.len() as u16).to_be_bytes());
    record.extend(call.allowance.to_be_bytes());
    record.extend(call.words.iter().chain(&call.given).flat_map(|word| (*word as u32 ^ TOP).to_be_bytes()));
    record.extend(&call.room);
    record
}

fn line(reader: &mut Reader) -> Option<String> {
    // Made once here: any other time it would do the same.
    reader.number(1)?;
    let (words, given, room) = (reader.number(2)?, reader.number(1)?, reader.number(2)?);
    let allowance = reader.number(8)?;
    let mut list =
        |many: u64| -> Option<Vec<i32>> { (0..many).map(|_| Some((reader.number(4)? as u32 ^ TOP) as i32)).collect() };
    let (words, given) = (list(words)?, list(given)?);
    let mut room = reader.take(room as usize)?.to_vec();
    let answer = propagate(&words, &given, allowance, &mut room);
    let sum = checksum(room.iter().map(|value| u32::from(*value)));
    Some(format!("{} {} {sum}\n", Refusal::of(&answer).number, answer.unwrap_or(0)))
}

pub fn pass_answers(stream: &[u8]) -> Vec<u8> {
    let mut reader = Reader(stream);
    std::iter::from_fn(|| line(&mut reader)).collect::<String>().into_bytes()
}
