//! Calls of writing over given literals, by hand: what succeeds, columns with
//! two inputs of one variable, the edges of refusals 14 and 15, and their place
//! among the others. They are small, since the proofs compute them too.

use crate::line::Line;
use crate::{write, write_plain, Counts, Refusal};

/// A call of writing over given literals, with the lengths of its rooms.
#[derive(Clone)]
pub struct Call {
    pub c: u64,
    pub w: u64,
    pub x: Vec<i32>,
    pub first: u32,
    pub recipe: Vec<u8>,
    pub bits: usize,
    pub clauses: usize,
}

impl Call {
    /// In rooms just long enough where the rest is right, as for the plain
    /// literals; else in rooms that are no reason to refuse.
    fn exact(c: u64, x: &[i32], first: u32, recipe: &[u8]) -> Call {
        let w = x.len() as u64;
        let (bits, clauses) = needed(c, w, recipe).map_or((9, 99), |counts| (counts.bits, counts.words));
        Call { c, w, x: x.to_vec(), first, recipe: recipe.to_vec(), bits, clauses }
    }

    /// Other literals for the same width.
    fn over(self, x: &[i32]) -> Call {
        Call { x: x.to_vec(), ..self }
    }

    fn in_rooms(self, bits: usize, clauses: usize) -> Call {
        Call { bits, clauses, ..self }
    }

    fn in_longer_rooms(self) -> Call {
        let (bits, clauses) = (self.bits + 2, self.clauses + 3);
        self.in_rooms(bits, clauses)
    }

    pub fn answer(&self, bits: &mut [i32], clauses: &mut [i32]) -> Result<Counts, Refusal> {
        write(self.c, self.w, &self.x, self.first, &self.recipe, bits, clauses)
    }
}

/// What a call of this recipe counts over the plain literals, unless it is
/// refused. Given ones change no count but the next free number.
pub fn needed(c: u64, w: u64, recipe: &[u8]) -> Option<Counts> {
    write_plain(c, w, recipe, &mut [0; 32], &mut vec![0; 73_728]).ok()
}

/// One past the largest variable, so the largest next free number.
pub const END: u32 = 1 << 31;
const LARGEST: i32 = i32::MAX;

/// A line as kind, left, s, right and claimed coefficient.
pub type Fields = (u64, usize, u32, usize, u64);
pub const THREE: Fields = (1, 0, 1, 0, 3);
const FIVE: Fields = (1, 0, 2, 0, 5);
const SEVEN: Fields = (2, 0, 3, 0, 7);
/// Document 01's other recipe for 5. At width 1 it opens nothing.
pub const THREE_FIVE: [Fields; 2] = [THREE, (2, 1, 1, 0, 5)];

pub fn lines(fields: &[Fields]) -> Vec<u8> {
    let bytes = |&(kind, left, s, right, claimed): &Fields| Line { top: 0, kind, left, s, right, claimed }.pack();
    fields.iter().flat_map(bytes).collect()
}

/// 3 at width 2 opens four variables and needs four bits and 52 words.
fn three(x: &[i32], first: u32) -> Call {
    Call::exact(3, x, first, &lines(&[THREE]))
}

/// Opens nothing at any width: y is x.
fn one(x: &[i32], first: u32) -> Call {
    Call::exact(1, x, first, &[])
}

/// The width of those that name a variable twice.
pub const PAIRS: usize = 4;

/// All of them.
pub fn calls() -> Vec<Call> {
    [successes(), shared(), literals(), pairs(PAIRS), variables(), order()].concat()
}

fn successes() -> Vec<Call> {
    let fifty_nine = lines(&[(2, 0, 6, 0, 63), (3, 1, 2, 0, 59)]);
    vec![
        three(&[1, 2], 3),
        three(&[-1, 2], 3),
        three(&[-77, 5], 1_000_000),
        Call::exact(6, &[-3, -900_000], 900_001, &lines(&[THREE])),
        Call::exact(5, &[-2, 1], 3, &lines(&[FIVE])),
        Call::exact(7, &[-4], 9, &lines(&[SEVEN])),
        Call::exact(5, &[-LARGEST], END, &lines(&THREE_FIVE)),
        Call::exact(59, &[3, -1], 4, &fifty_nine),
    ]
}

/// 15 as 5 * 4 - 5 at width 2. It would need more words if two inputs of one
/// variable counted as two.
fn fifteen(x: &[i32], first: u32) -> Call {
    Call::exact(15, x, first, &lines(&[FIVE, (2, 1, 2, 1, 15)]))
}

/// Columns with two inputs of one variable: equal or opposite, at each two
/// places, beside each third input, and in the last column, as far as there are
/// recipes that have them.
pub fn shared() -> Vec<Call> {
    let sixty_three = [(2, 0, 6, 0, 63), (1, 1, 2, 1, 315), (2, 2, 1, 1, 567)];
    let thirty_one = [(2, 0, 5, 0, 31), (3, 1, 4, 0, 15), (1, 0, 2, 2, 19), (2, 3, 1, 1, 7)];
    vec![
        Call::exact(21, &[-1], 2, &lines(&[SEVEN, (1, 1, 1, 1, 21)])),
        Call::exact(5, &[2], 3, &lines(&[THREE, (2, 0, 3, 1, 5)])),
        Call::exact(5, &[-6], 9, &lines(&[SEVEN, (3, 1, 1, 0, 5)])),
        Call::exact(14, &[-3], 4, &lines(&[SEVEN, (2, 1, 1, 1, 7)])),
        Call::exact(9, &[-2, 1], 3, &lines(&[FIVE, (1, 0, 2, 1, 9)])),
        Call::exact(1, &[2, -1, -3], 4, &lines(&[(2, 0, 1, 0, 1)])),
        fifteen(&[5, -3], 8),
        Call::exact(567, &[-1, 2], 3, &lines(&sixty_three)),
        Call::exact(7, &[-2, -1], 3, &lines(&thirty_one)),
    ]
}

fn literals() -> Vec<Call> {
    let zero_at = |place: usize| {
        let mut x = [5, -6, 7, 8];
        x[place] = 0;
        three(&x, 9)
    };
    let many = [three(&[1, 2], 9).over(&[]), three(&[1, 2], 9).over(&[1]), three(&[1, 2], 9).over(&[1, -2, 3])];
    let too_high = [three(&[9, 2], 9), three(&[8, -9], 9)];
    let least = [one(&[1], 0), one(&[-1], 1), one(&[-1], 2), one(&[1, -2], 2)];
    let lowest = [one(&[i32::MIN], END), one(&[i32::MIN], END + 1)];
    [&many[..], &[0, 1, 2, 3].map(zero_at), &too_high, &least, &lowest].concat()
}

/// One variable at every pair of places, with equal and with opposite signs.
pub fn pairs(w: usize) -> Vec<Call> {
    let places = (0..w).flat_map(|later| (0..later).map(move |earlier| (earlier, later)));
    let repeated = |(earlier, later): (usize, usize)| {
        [1, -1].map(|sign| {
            let mut x: Vec<i32> = (1..=w as i32).map(|i| if i % 2 == 0 { 2 * i } else { -2 * i }).collect();
            x[later] = sign * x[earlier];
            three(&x, 3 * w as u32)
        })
    };
    places.flat_map(repeated).collect()
}

fn variables() -> Vec<Call> {
    vec![
        three(&[-5, 2_147_483_643], END - 4),
        three(&[-5, 2_147_483_643], END - 3),
        three(&[-5, LARGEST], u32::MAX),
        one(&[LARGEST, -5, 7, -LARGEST + 1], END),
        one(&[LARGEST, -5, 7, -LARGEST + 1], END + 1),
        one(&[1], u32::MAX),
    ]
}

/// Each refusal and the next one in order, both with reason, where 14 tells
/// nothing of a bad line; last, one word too few where two inputs of one variable
/// saved some.
fn order() -> Vec<Call> {
    let wrong = lines(&[(1, 0, 1, 0, 5)]);
    let negative = lines(&[THREE, (3, 1, 1, 1, 5)]);
    let cut = [&wrong[..], &[0]].concat();
    vec![
        Call { c: 0, ..one(&[], 1) },
        one(&[], 1).over(&[1]),
        Call::exact(3, &[1, -1], 3, &cut),
        Call::exact(3, &[1, -2], 3, &cut),
        Call::exact(3, &[1, -2], 3, &wrong),
        Call::exact(5, &[1, -1], 3, &negative),
        Call::exact(5, &[1, -2], END, &negative),
        Call::exact(5, &[1, -2], END, &lines(&[THREE])),
        three(&[1, -2], END).in_rooms(3, 52),
        three(&[1, -2], END).in_rooms(4, 51),
        three(&[1, -2], 3).in_rooms(3, 51),
        three(&[1, -2], 3).in_rooms(4, 51),
        fifteen(&[1, -2], 3).in_rooms(6, 67),
    ]
}

/// Those whose rooms are worth a look: filled at the front, or as they came.
pub fn rooms() -> Vec<Call> {
    vec![
        three(&[-1, 2], 3).in_longer_rooms(),
        three(&[-5, -2_147_483_643], END - 4).in_longer_rooms(),
        Call::exact(6, &[40, -17], 900, &lines(&[THREE])).in_longer_rooms(),
        Call::exact(5, &[-9], 12, &lines(&THREE_FIVE)).in_longer_rooms(),
        fifteen(&[-9, 4], 12).in_longer_rooms(),
        three(&[-5, 4], END - 3).in_longer_rooms(),
        three(&[-4, 4], 5).in_longer_rooms(),
    ]
}
