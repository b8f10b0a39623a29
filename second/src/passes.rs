//! Calls of a pass over words, by hand: every refusal and their order, every
//! kind of clause that is passed, and products of ours at every x. They are
//! small, since the proofs compute them too.

use crate::edges::needed;
use crate::propagator::UNKNOWN;
use crate::streams::planned;
use crate::{propagate, write, Refusal};

/// A call of a pass, with the value room as it comes.
#[derive(Clone)]
pub struct Pass {
    pub words: Vec<i32>,
    pub given: Vec<i32>,
    pub allowance: u64,
    pub room: Vec<u8>,
}

impl Pass {
    /// With allowance for just the clauses, in a room of so many unknown values.
    pub fn over(words: &[i32], given: &[i32], room: usize) -> Pass {
        let allowance = clauses(words);
        Pass { words: words.to_vec(), given: given.to_vec(), allowance, room: vec![UNKNOWN; room] }
    }

    fn allowed(self, allowance: u64) -> Pass {
        Pass { allowance, ..self }
    }

    fn in_room(self, room: &[u8]) -> Pass {
        Pass { room: room.to_vec(), ..self }
    }

    /// The answer and the room at exit.
    pub fn answer(&self) -> (Result<u64, Refusal>, Vec<u8>) {
        let mut room = self.room.clone();
        (propagate(&self.words, &self.given, self.allowance, &mut room), room)
    }
}

/// Those closed and, last, one that is not.
pub fn clauses(words: &[i32]) -> u64 {
    words.split_inclusive(|word| *word == 0).count() as u64
}

/// The words of a product of ours and the next free number.
pub fn product(c: u64, x: &[i32], first: u32, recipe: &[u8]) -> (Vec<i32>, u32) {
    let w = x.len() as u64;
    let mut words = vec![0; needed(c, w, recipe).expect("the recipe is right").words];
    let counts = write(c, w, x, first, recipe, &mut [0; 32], &mut words).expect("x and the rooms are right");
    (words, counts.next)
}

/// What is given where the literals `x` are to read as a number.
pub fn reading_as(number: u64, x: &[i32]) -> Vec<i32> {
    x.iter().enumerate().map(|(place, literal)| if number >> place & 1 == 1 { *literal } else { -literal }).collect()
}

/// All of them.
pub fn calls() -> Vec<Pass> {
    [set(), passed(), spent(), unreadable(), conflicts(), starts(), products()].concat()
}

fn set() -> Vec<Pass> {
    vec![
        Pass::over(&[], &[], 0),
        Pass::over(&[], &[3, -2], 4),
        Pass::over(&[1, 0], &[], 1),
        Pass::over(&[-2, 0], &[], 3),
        Pass::over(&[1, -2, 0], &[2], 2),
        Pass::over(&[2, 2, 0], &[], 2),
        Pass::over(&[-3, 1, -3, 2, -3, 0], &[-1, -2], 3),
        Pass::over(&[-1, 2, 0, -2, 3, 0], &[1], 3),
        // what is set later helps no earlier clause
        Pass::over(&[-2, 3, 0, -1, 2, 0], &[1], 3),
        Pass::over(&[1, 2, 0, -1, 0], &[], 2),
    ]
}

fn passed() -> Vec<Pass> {
    vec![
        Pass::over(&[1, 2, 0], &[1], 2),
        Pass::over(&[2, -1, 0], &[-1], 2),
        Pass::over(&[1, 2, 0], &[-2, 1], 2),
        Pass::over(&[1, 0, 1, 0], &[], 1),
        Pass::over(&[1, 2, 0], &[], 2),
        Pass::over(&[1, 2, 3, 0], &[-2], 3),
        Pass::over(&[1, -1, 0], &[], 1),
        Pass::over(&[1, 1, -1, 0], &[], 1),
        Pass::over(&[1, 2, -2, 0], &[-1], 2),
        Pass::over(&[1, -1, 0], &[-1], 1),
    ]
}

/// The allowance, and that it comes before what else is wrong with its clause.
fn spent() -> Vec<Pass> {
    vec![
        Pass::over(&[1, 0], &[], 1).allowed(0),
        Pass::over(&[1, 0, 2, 0], &[], 2).allowed(1),
        Pass::over(&[1, 0, 2, 0], &[], 2).allowed(u64::MAX),
        Pass::over(&[0], &[], 0).allowed(0),
        Pass::over(&[1], &[], 1).allowed(0),
        Pass::over(&[1, 0, 3, 0], &[], 2).allowed(1),
        Pass::over(&[1, 0, -1], &[], 1).allowed(1),
    ]
}

/// Words that end inside a clause, variables above the room, and that these
/// come before a conflict of the same clause and before the next one.
fn unreadable() -> Vec<Pass> {
    vec![
        Pass::over(&[1], &[], 1),
        Pass::over(&[1, 0, 2], &[], 2),
        Pass::over(&[2, 0], &[], 1),
        Pass::over(&[-2, 0], &[], 1),
        Pass::over(&[1, 0], &[], 0),
        Pass::over(&[1, 2, 0], &[1], 1),
        Pass::over(&[i32::MIN, 0], &[], 2),
        Pass::over(&[1, i32::MAX, 0], &[], 1),
        Pass::over(&[-1], &[1], 1),
        Pass::over(&[-1, 2, 0], &[1], 1),
        Pass::over(&[2, 0, 0], &[], 1).allowed(1),
    ]
}

/// The last two come before what is wrong with the next clause.
fn conflicts() -> Vec<Pass> {
    vec![
        Pass::over(&[0], &[], 0),
        Pass::over(&[1, 0, 0], &[], 1),
        Pass::over(&[1, 0, -1, 0], &[], 1),
        Pass::over(&[-1, -2, -1, 0], &[1, 2], 2),
        Pass::over(&[-1, 0, 2], &[1], 1),
        Pass::over(&[0, 0], &[], 1).allowed(1),
    ]
}

/// Rooms and given literals that no pass starts from; the last have every other reason too.
fn starts() -> Vec<Pass> {
    let rooms = [&[3][..], &[2, 1], &[0, 2]].map(|room| Pass::over(&[], &[], 0).in_room(room));
    let given = [&[0][..], &[2], &[-2], &[1, 1], &[-1, 1], &[i32::MIN], &[i32::MAX]];
    let given = given.map(|given| Pass::over(&[1, 0], given, 1));
    let others = [
        Pass::over(&[], &[1], 0),
        Pass::over(&[-2], &[1, 2, -1], 2).allowed(0),
        Pass::over(&[0, 5], &[], 1).in_room(&[1]).allowed(0),
    ];
    [&rooms[..], &given, &others].concat()
}

fn products() -> Vec<Pass> {
    let [three, five, seven] = [at_every_x(3, &[1, 2], 3), at_every_x(5, &[2, -1, 3], 4), at_every_x(7, &[-3, 1], 5)];
    let last = three[3].clone();
    let less = [
        Pass { allowance: last.allowance - 1, ..last.clone() },
        Pass { room: vec![UNKNOWN; last.room.len() - 1], ..last.clone() },
        Pass { given: vec![2], ..last },
    ];
    [three, five, seven, less.to_vec()].concat()
}

/// In a room of just the variables below the next free number.
fn at_every_x(c: u64, x: &[i32], first: u32) -> Vec<Pass> {
    let (words, next) = product(c, x, first, &planned(c));
    (0..1 << x.len()).map(|number| Pass::over(&words, &reading_as(number, x), next as usize - 1)).collect()
}
