//! Calls as records on a byte stream, for programs to answer, and the answers
//! that are right. A stream's records are given with each pair of functions.

use crate::bad_lines;
use crate::edges::{self, needed, Call, Fields, END};
use crate::line::{Line, LINE_BYTES, MAX_LINES, MINUSS};
pub use crate::pass_stream::{pass_answers, passes};
use crate::random::Random;
use crate::{check, plan, write, write_plain, Refusal};

const MAX_COEFFICIENT: i64 = 1_048_575;
pub(crate) const MAX_CONSTANT: u64 = 65_535;

/// Takes records apart; a stream that ends inside a record ends there.
pub(crate) struct Reader<'a>(pub(crate) &'a [u8]);

impl<'a> Reader<'a> {
    pub(crate) fn take(&mut self, length: usize) -> Option<&'a [u8]> {
        let (front, rest) = self.0.split_at_checked(length)?;
        self.0 = rest;
        Some(front)
    }

    pub(crate) fn number(&mut self, bytes: usize) -> Option<u64> {
        Some(self.take(bytes)?.iter().fold(0, |number, byte| number * 256 + u64::from(*byte)))
    }
}

pub(crate) fn planned(c: u64) -> Vec<u8> {
    let mut recipe = vec![0; 40];
    let lines = plan(c, &mut vec![0; 1 << 15], &mut recipe).expect("c is in range");
    recipe.truncate(LINE_BYTES * lines);
    recipe
}

/// Draws by how much a line shifts at most, less one.
type Shifts = fn(&mut Random) -> u64;

const ANY_SHIFTS: Shifts = |random| if random.one_in(3) { 19 } else { 5 };
const SMALL_SHIFTS: Shifts = |_| 4;

/// One more line that is right over the coefficients so far, if the draw gives
/// one of at most `most`.
fn drawn_line(coefficients: &[u64], most: i64, shifts: Shifts, random: &mut Random) -> Option<Line> {
    let place = |random: &mut Random| random.up_to(coefficients.len() as u64 - 1) as usize;
    let most_s = shifts(random);
    let (kind, s) = (1 + random.up_to(2), 1 + random.up_to(most_s) as u32);
    let mut line = Line { top: 0, kind, left: place(random), s, right: place(random), claimed: 0 };
    let value = line.gives(coefficients).filter(|value| (1..=most).contains(value))?;
    line.claimed = value as u64;
    Some(line)
}

/// A right recipe of so many lines that nobody planned, and its product, which
/// is at most 65,535; with no lines it is 1.
fn walk(lines: usize, shifts: Shifts, random: &mut Random) -> (u64, Vec<u8>) {
    let (mut coefficients, mut recipe) = (vec![1], Vec::new());
    while recipe.len() < LINE_BYTES * lines {
        let last = recipe.len() + LINE_BYTES == LINE_BYTES * lines;
        let most = if last { MAX_CONSTANT as i64 } else { MAX_COEFFICIENT };
        if let Some(line) = drawn_line(&coefficients, most, shifts, random) {
            coefficients.push(line.claimed);
            recipe.extend(line.pack());
        }
    }
    (coefficients[lines], recipe)
}

/// A constant and a recipe for it: planned, or a walk.
fn right(random: &mut Random) -> (u64, Vec<u8>) {
    if random.one_in(4) {
        let c = 1 + random.up_to(MAX_CONSTANT - 1);
        return (c, planned(c));
    }
    let most_lines = if random.one_in(3) { 32 } else { 8 };
    let lines = random.up_to(most_lines) as usize;
    let (d, recipe) = walk(lines, ANY_SHIFTS, random);
    (with_odd_part(d, random), recipe)
}

fn with_odd_part(d: u64, random: &mut Random) -> u64 {
    let most = MAX_CONSTANT.ilog2() - d.ilog2();
    d << random.up_to(u64::from(most))
}

fn turned_over(recipe: &mut [u8], random: &mut Random) {
    if !recipe.is_empty() {
        let bit = random.up_to(8 * recipe.len() as u64 - 1) as usize;
        recipe[bit / 8] ^= 0x80 >> (bit % 8);
    }
}

/// What can be changed in a line, over the coefficients of the operands before it: each of refusals 4 to 7 is met, and
/// 7 with values of both signs and of any size.
type Change = fn(&mut Line, &[u64], &mut Random);

const CHANGES: [Change; 16] = [
    |line, _, _| line.top = 1,
    |line, _, _| line.kind = 0,
    |line, _, random| line.kind = 1 + (line.kind + random.up_to(1)) % 3,
    |line, _, random| line.s = random.up_to(31) as u32,
    |line, _, random| (line.kind, line.s) = (MINUSS.code, random.up_to(3) as u32),
    |line, _, random| (line.kind, line.s) = (MINUSS.code, random.up_to(31) as u32),
    |line, earlier, random| line.left = random.up_to(earlier.len() as u64 - 1) as usize,
    |line, earlier, random| line.right = random.up_to(earlier.len() as u64 - 1) as usize,
    |line, earlier, random| line.left = not_earlier(earlier, random),
    |line, earlier, random| line.right = not_earlier(earlier, random),
    |line, _, _| line.claimed ^= 1,
    |line, _, random| line.claimed = 2 * random.up_to(MAX_COEFFICIENT as u64 / 2),
    |line, _, random| line.claimed = 2 * random.up_to(MAX_COEFFICIENT as u64 / 2) + 1,
    |line, _, random| line.claimed ^= 2 << random.up_to(18),
    as_far_as_it_fits,
    as_far_as_it_fits,
];

/// The line itself, the next one, or any that is not there.
fn not_earlier(earlier: &[u64], random: &mut Random) -> usize {
    let itself = earlier.len() as u64;
    let further = if random.one_in(2) { random.up_to(1) } else { random.up_to(63 - itself) };
    (itself + further) as usize
}

/// Another shift, mostly one that gives more than a claim can be, with the lowest twenty bits of that as the claim.
fn as_far_as_it_fits(line: &mut Line, earlier: &[u64], random: &mut Random) {
    line.s = 1 + random.up_to(30) as u32;
    // A line changed before may give nothing.
    if let Some(value) = line.gives(earlier) {
        line.claimed = value.rem_euclid(MAX_COEFFICIENT + 1) as u64;
    }
}

/// Changes a line, counted from 0; those behind it stay as they are.
fn change_line(recipe: &mut [u8], place: usize, random: &mut Random) {
    let claims = recipe.chunks(LINE_BYTES).map(|bytes| Line::unpack(bytes).claimed);
    let earlier: Vec<u64> = [1].into_iter().chain(claims.take(place)).collect();
    let bytes = &mut recipe[LINE_BYTES * place..][..LINE_BYTES];
    let mut line = Line::unpack(bytes);
    CHANGES[random.up_to(CHANGES.len() as u64 - 1) as usize](&mut line, &earlier, random);
    bytes.copy_from_slice(&line.pack());
}

/// A constant and a recipe for it with one line changed. The line is drawn first and then how many there are, so that
/// the last ones are changed as often as any. Now and then it is changed twice, or another line too.
fn with_bad_line(random: &mut Random) -> (u64, Vec<u8>) {
    let last = MAX_LINES as u64 - 1;
    let place = random.up_to(last);
    let lines = place + 1 + random.up_to(last - place);
    let (d, mut recipe) = walk(lines as usize, ANY_SHIFTS, random);
    change_line(&mut recipe, place as usize, random);
    match random.up_to(7) {
        0 => change_line(&mut recipe, place as usize, random),
        1 => change_line(&mut recipe, random.up_to(lines - 1) as usize, random),
        _ => {}
    }
    (with_odd_part(d, random), recipe)
}

/// Any constant of 32 bits, most of them in range.
fn any_constant(random: &mut Random) -> u64 {
    match random.up_to(9) {
        0 => random.up_to(u64::from(u32::MAX)),
        1 => 65_534 + random.up_to(3),
        2 => random.up_to(3),
        _ => random.up_to(MAX_CONSTANT),
    }
}

/// A constant and a recipe, right or wrong in some way.
fn proposed(round: usize, random: &mut Random) -> (u64, Vec<u8>) {
    if round <= 170 {
        return (any_constant(random), random.bytes(round));
    }
    let (mut c, mut recipe) = right(random);
    match random.up_to(12) {
        0..=4 => {}
        5..=6 => turned_over(&mut recipe, random),
        7 => c = any_constant(random),
        8 => recipe = lines_at_random(random),
        9 => {
            recipe = {
                let length = random.up_to(170) as usize;
                random.bytes(length)
            }
        }
        _ => (c, recipe) = with_bad_line(random),
    }
    (c, recipe)
}

/// Lines that break no rule but by chance the later ones.
fn lines_at_random(random: &mut Random) -> Vec<u8> {
    let lines = random.up_to(MAX_LINES as u64) as usize;
    let line = |i: usize, random: &mut Random| {
        let latest = i as u64 + u64::from(random.one_in(8));
        let (left, right) = (random.up_to(latest) as usize, random.up_to(latest) as usize);
        let (kind, s, claimed) =
            (1 + random.up_to(2), random.up_to(31) as u32, random.up_to(MAX_COEFFICIENT as u64) | 1);
        Line { top: 0, kind, left, s, right, claimed }.pack()
    };
    (0..lines).flat_map(|i| line(i, random)).collect()
}

/// Document 01's own recipes: a constant and lines of kind, left, s, right and claimed coefficient.
pub(crate) fn bench_recipes() -> Vec<(u64, Vec<u8>)> {
    let rows: [(u64, &[Fields]); 14] = [
        (59, &[(2, 0, 6, 0, 63), (3, 1, 2, 0, 59)]),
        (1965, &[(1, 0, 1, 0, 3), (1, 0, 7, 1, 131), (2, 2, 4, 2, 1965)]),
        (2047, &[(1, 0, 11, 0, 2047)]),
        (49, &[(2, 0, 4, 0, 15), (1, 0, 6, 1, 49)]),
        (117, &[(1, 0, 4, 0, 17), (1, 0, 1, 1, 19), (2, 1, 3, 2, 117)]),
        (117, &[(2, 0, 6, 0, 63), (3, 1, 2, 0, 59), (2, 2, 1, 0, 117)]),
        (117, &[(1, 0, 1, 0, 3), (1, 1, 4, 0, 49), (1, 0, 4, 0, 17), (1, 3, 2, 2, 117)]),
        (5, &[(1, 0, 1, 0, 3), (2, 1, 1, 0, 5)]),
        (3, &[(1, 0, 1, 0, 3); 32]),
        (3, &[(1, 0, 1, 0, 3); 33]),
        (1, &[(2, 0, 20, 0, 1_048_575)]),
        (65_535, &[(2, 0, 20, 0, 1_048_575), (2, 0, 16, 0, 65_535)]),
        (65_535, &[(2, 0, 16, 0, 65_535)]),
        (65_536, &[(2, 0, 16, 0, 65_535)]),
    ];
    rows.iter().map(|(c, lines)| (*c, edges::lines(lines))).collect()
}

// ---- checking: c (4 bytes, most significant first), the recipe's length (1), the recipe. The answer is a line: the
// refusal's number or 0, the line and the value that it tells.

pub fn checks(seed: u64, count: usize) -> Vec<u8> {
    let mut random = Random::seeded(seed);
    let mut cases = bench_recipes();
    cases.extend(bad_lines::proposals());
    cases.extend((0..count).map(|round| proposed(round, &mut random)));
    let mut stream = Vec::new();
    for (c, recipe) in cases {
        stream.extend((c as u32).to_be_bytes());
        stream.push(recipe.len() as u8);
        stream.extend(recipe);
    }
    stream
}

fn recipe_record<'a>(reader: &mut Reader<'a>) -> Option<(u64, &'a [u8])> {
    let (c, length) = (reader.number(4)?, reader.number(1)?);
    Some((c, reader.take(length as usize)?))
}

pub fn check_answers(stream: &[u8]) -> Vec<u8> {
    let mut reader = Reader(stream);
    let records = std::iter::from_fn(|| recipe_record(&mut reader));
    records.map(|(c, recipe)| told(&check(c, recipe)) + "\n").collect::<String>().into_bytes()
}

/// The front of an answer to a call that checks lines.
fn told<T>(answer: &Result<T, Refusal>) -> String {
    let Refusal { number, line, value } = Refusal::of(answer);
    format!("{number} {line} {value}")
}

// ---- writing: the call (1 byte: 0 document 01's, 1 the one over given literals), c (4), w (1), the number of literals
// (1), at most 40, the first free number (4), the lengths of the recipe (1), of the bit room (1) and of the clause room
// (2), the literals (4 each, two's complement), the recipe. Document 01's call has no literals and the first free
// number 0. The answer is a line: the refusal's number or 0, the line and the value that it tells, words, clauses, next
// free number, bits of y, and a checksum of both rooms at exit, every entry of which was 7.

const PLAIN: u8 = 0;
const GIVEN: u8 = 1;

pub(crate) fn checksum(entries: impl Iterator<Item = u32>) -> u32 {
    entries.fold(0, |sum: u32, entry| sum.wrapping_mul(31).wrapping_add(entry))
}

/// The rooms' lengths: mostly what is needed and some more, else one too short.
fn rooms(c: u64, w: u64, recipe: &[u8], random: &mut Random) -> (usize, usize) {
    let (mut bits, mut words) = needed(c, w, recipe).map_or((5, 5), |counts| (counts.bits, counts.words));
    match random.up_to(7) {
        0 => bits -= usize::from(bits > 0),
        1 => words -= usize::from(words > 0),
        2 => {}
        _ => (bits, words) = (bits + random.up_to(3) as usize, words + random.up_to(5) as usize),
    }
    (bits, words.min(65_535))
}

/// A constant and a recipe for it, with a width.
fn right_at_width(random: &mut Random) -> (u64, u64, Vec<u8>) {
    if random.one_in(2) {
        return narrow(random);
    }
    let (c, recipe) = right(random);
    (c, 1 + random.up_to(15), recipe)
}

/// Where x has few bits and lines shift little, many columns have two inputs of one variable. Some such columns are
/// hardly ever met except in the recipes by hand.
fn narrow(random: &mut Random) -> (u64, u64, Vec<u8>) {
    if random.one_in(12) {
        let mut calls = edges::shared();
        let Call { c, w, recipe, .. } = calls.swap_remove(random.up_to(calls.len() as u64 - 1) as usize);
        return (c, w, recipe);
    }
    let lines = 2 + random.up_to(6) as usize;
    let (d, recipe) = walk(lines, SMALL_SHIFTS, random);
    (with_odd_part(d, random), 1 + random.up_to(2), recipe)
}

fn write_case(round: usize, random: &mut Random) -> (u64, u64, Vec<u8>) {
    let (c, w, recipe) = right_at_width(random);
    let (c, recipe) = match random.up_to(11) {
        0 => proposed(round, random),
        1..=3 => with_bad_line(random),
        _ => (c, recipe),
    };
    (c, if random.one_in(40) { random.up_to(255) } else { w }, recipe)
}

/// Document 01's call: no literals, and no number is said to be free.
fn plain(c: u64, w: u64, recipe: Vec<u8>, (bits, clauses): (usize, usize)) -> Call {
    Call { c, w, x: Vec::new(), first: 0, recipe, bits, clauses }
}

/// Document 01's recipes at widths 1 to 4 and 16 in long rooms, its rooms that are one too short, and bad lines.
fn bench_writes() -> Vec<Call> {
    let mut calls = Vec::new();
    for (c, recipe) in bench_recipes() {
        calls.extend([1, 2, 3, 4, 16, 17, 0].map(|w| plain(c, w, recipe.clone(), (40, 9_000))));
    }
    let three = planned(3);
    calls.extend([(4, 52), (4, 51), (3, 52), (3, 51)].map(|rooms| plain(3, 2, three.clone(), rooms)));
    calls.extend([(5, 2), (7, 1), (6, 2), (53, 8)].map(|(c, w)| plain(c, w, planned(c), (20, 2_000))));
    calls.extend(bad_lines::proposals().into_iter().map(|(c, recipe)| plain(c, 2, recipe, (20, 2_000))));
    calls
}

/// The small edges; a variable named twice at any width; other numbers of literals than bits; and document 01's recipes from
/// the lowest first number that will do, and from the highest, with its neighbours.
fn edge_writes() -> Vec<Call> {
    let mut calls = edges::calls();
    calls.extend((2..=16).filter(|w| *w != edges::PAIRS).flat_map(edges::pairs));
    calls.extend([0, 15, 16, 17, 40].map(|many| signed(3, 16, many, 41, planned(3))));
    for (c, recipe) in bench_recipes() {
        for w in [1, 2, 3, 4, 16] {
            let last = END - opened(c, w, &recipe);
            let firsts = [w as u32, w as u32 + 1, last, last + 1, END, END + 1];
            calls.extend(firsts.map(|first| signed(c, w, w as usize, first, recipe.clone())));
        }
    }
    calls
}

/// Over so many literals, 1, -2, 3 and so on, in long rooms.
fn signed(c: u64, w: u64, many: usize, first: u32, recipe: Vec<u8>) -> Call {
    let x = (1..).map(|i| if i % 2 == 0 { -i } else { i }).take(many).collect();
    Call { c, w, x, first, recipe, bits: 40, clauses: 9_000 }
}

/// The variables that a call opens; none if it is refused whatever the literals.
fn opened(c: u64, w: u64, recipe: &[u8]) -> u32 {
    needed(c, w, recipe).map_or(0, |counts| counts.next - w as u32 - 1)
}

/// Distinct variables below the first free number, of both signs: the last ones before it, or any. Where too few are below it,
/// the lowest are taken and some are not.
pub(crate) fn drawn_literals(many: u64, first: u32, random: &mut Random) -> Vec<i32> {
    let below = u64::from(first.clamp(1, END) - 1).max(many);
    let span = if random.one_in(2) { below.min(many + random.up_to(3)) } else { below };
    let mut x: Vec<i32> = Vec::new();
    while (x.len() as u64) < many {
        let variable = (below - random.up_to(span - 1)) as i32;
        if !x.iter().any(|literal| literal.abs() == variable) {
            x.push(either_sign(variable, random));
        }
    }
    x
}

pub(crate) fn either_sign(literal: i32, random: &mut Random) -> i32 {
    if random.one_in(2) {
        literal.wrapping_neg()
    } else {
        literal
    }
}

/// A first free number from which the call succeeds, the last such one now and then.
fn drawn_first(w: u64, opened: u32, random: &mut Random) -> u32 {
    let further = match random.up_to(9) {
        0..=2 => 0,
        3..=5 => random.up_to(40),
        6..=7 => random.up_to(2_000_000_000),
        _ => return END - opened,
    };
    (w + 1 + further) as u32
}

/// A call that succeeds, unless it takes more words than a record can give it room for.
fn right_call(random: &mut Random) -> Call {
    let (c, w, recipe) = right_at_width(random);
    let counts = needed(c, w, &recipe).expect("the recipe is right");
    let first = drawn_first(w, counts.next - w as u32 - 1, random);
    let x = drawn_literals(w, first, random);
    let (bits, clauses) = (counts.bits + random.up_to(3) as usize, counts.words + random.up_to(5) as usize);
    Call { c, w, x, first, recipe, bits, clauses: clauses.min(65_535) }
}

/// What can be spoiled in a call, each for another refusal; two spoilings of one call show which refusal is tested first.
type Spoiling = fn(&mut Call, &mut Random);

const SPOILINGS: [Spoiling; 17] = [
    |call, random| call.c = any_constant(random),
    |call, random| call.w = [0, 17, random.up_to(255), 1 + random.up_to(15)][random.up_to(3) as usize],
    spoiled_literal,
    spoiled_literal,
    repeated_literal,
    repeated_literal,
    |call, random| call.first = random.up_to(2) as u32,
    |call, random| match random.up_to(1) {
        0 => call.recipe.truncate(call.recipe.len().saturating_sub(1)),
        _ => call.recipe.push(32),
    },
    |call, random| turned_over(&mut call.recipe, random),
    bad_line,
    bad_line,
    bad_line,
    |call, random| call.recipe = right(random).1,
    |call, random| call.first = END - opened(call.c, call.w, &call.recipe) + 1 + random.up_to(2) as u32,
    |call, random| {
        call.first = [END, END + 1, END + random.up_to(END as u64 - 1) as u32, u32::MAX][random.up_to(3) as usize]
    },
    |call, _| call.bits = shortened(call).0,
    |call, _| call.clauses = shortened(call).1,
];

/// Rooms that are one too short for the call.
fn shortened(call: &Call) -> (usize, usize) {
    let less = |length: usize| length.saturating_sub(1).min(65_535);
    needed(call.c, call.w, &call.recipe).map_or((0, 0), |counts| (less(counts.bits), less(counts.words)))
}

fn bad_line(call: &mut Call, random: &mut Random) {
    (call.c, call.recipe) = with_bad_line(random);
}

/// A 0, a variable that is not below the first free number, the lowest word, or a literal too many or too few.
fn spoiled_literal(call: &mut Call, random: &mut Random) {
    let high = call.first.saturating_add(random.up_to(2) as u32).min(END - 1) as i32;
    let spoiled = [0, either_sign(high, random), i32::MIN][random.up_to(2) as usize];
    let place = random.up_to(call.x.len().saturating_sub(1) as u64) as usize;
    match (random.up_to(4), call.x.get_mut(place)) {
        (0, _) | (_, None) => call.x.extend(drawn_literals(1, call.first, random)),
        (1, _) => drop(call.x.remove(place)),
        (_, Some(literal)) => *literal = spoiled,
    }
}

/// One variable at two places; with one place alone its sign may change, which is no reason to refuse.
fn repeated_literal(call: &mut Call, random: &mut Random) {
    if !call.x.is_empty() {
        let place = |random: &mut Random| random.up_to(call.x.len() as u64 - 1) as usize;
        let (from, to) = (place(random), place(random));
        call.x[to] = either_sign(call.x[from], random);
    }
}

/// Mostly right, else spoiled once, twice or three times.
fn given_case(random: &mut Random) -> Call {
    let mut call = right_call(random);
    let times = [0, 0, 0, 0, 0, 0, 1, 1, 2, 3][random.up_to(9) as usize];
    for _ in 0..times {
        SPOILINGS[random.up_to(SPOILINGS.len() as u64 - 1) as usize](&mut call, random);
    }
    call
}

fn plain_case(round: usize, random: &mut Random) -> Call {
    let (c, w, recipe) = write_case(171 + round, random);
    let rooms = rooms(c, w, &recipe, random);
    plain(c, w, recipe, rooms)
}

fn drawn_write(round: usize, random: &mut Random) -> (u8, Call) {
    if random.one_in(3) {
        (PLAIN, plain_case(round, random))
    } else {
        (GIVEN, given_case(random))
    }
}

pub fn writes(seed: u64, count: usize) -> Vec<u8> {
    let mut random = Random::seeded(seed);
    let by_hand = bench_writes().into_iter().map(|call| (PLAIN, call));
    let by_hand = by_hand.chain(edge_writes().into_iter().map(|call| (GIVEN, call)));
    let drawn = (0..count).map(|round| drawn_write(round, &mut random));
    by_hand.chain(drawn).flat_map(|(kind, call)| write_record(kind, &call)).collect()
}

fn write_record(kind: u8, call: &Call) -> Vec<u8> {
    let mut record = vec![kind];
    record.extend((call.c as u32).to_be_bytes());
    record.extend([call.w as u8, call.x.len() as u8]);
    record.extend(call.first.to_be_bytes());
    record.extend([call.recipe.len() as u8, call.bits as u8]);
    record.extend((call.clauses as u16).to_be_bytes());
    record.extend(call.x.iter().flat_map(|literal| literal.to_be_bytes()));
    record.extend(&call.recipe);
    record
}

fn write_line(reader: &mut Reader) -> Option<String> {
    let (kind, c, w) = (reader.number(1)? as u8, reader.number(4)?, reader.number(1)?);
    let (many, first, length) = (reader.number(1)?, reader.number(4)? as u32, reader.number(1)? as usize);
    let (mut bits, mut clauses) = (vec![7; reader.number(1)? as usize], vec![7; reader.number(2)? as usize]);
    let x: Vec<i32> = (0..many).map(|_| Some(reader.number(4)? as u32 as i32)).collect::<Option<_>>()?;
    let recipe = reader.take(length)?;
    let answer = match kind {
        PLAIN => write_plain(c, w, recipe, &mut bits, &mut clauses),
        _ => write(c, w, &x, first, recipe, &mut bits, &mut clauses),
    };
    let told = told(&answer);
    let counts = answer.map_or([0; 4], |counts| [counts.words, counts.clauses, counts.next as usize, counts.bits]);
    let sum = checksum(bits.iter().chain(&clauses).map(|entry| *entry as u32));
    Some(format!("{told} {} {} {} {} {sum}\n", counts[0], counts[1], counts[2], counts[3]))
}

pub fn write_answers(stream: &[u8]) -> Vec<u8> {
    let mut reader = Reader(stream);
    std::iter::from_fn(|| write_line(&mut reader)).collect::<String>().into_bytes()
}

// ---- planning: c (4), the lengths of the work room (2) and of the recipe room (1), and whether the work room is to be shown
// (1). The answer is six bytes: the refusal's number or 0, the lines, and a checksum of both rooms at exit, every byte of which
// was 7; then the work room, if it is to be shown.

pub fn plans(seed: u64, count: usize) -> Vec<u8> {
    let mut random = Random::seeded(seed);
    let mut stream = Vec::new();
    let mut put = |c: u64, work: usize, recipe: usize, show: u8| {
        stream.extend((c as u32).to_be_bytes());
        stream.extend((work as u16).to_be_bytes());
        stream.extend([recipe as u8, show]);
    };
    put(65_535, 32_768, 40, 1);
    for (c, work, recipe) in
        [(53, 32, 15), (53, 32, 14), (53, 31, 15), (7, 4, 5), (1, 1, 0), (65_536, 32_768, 40), (0, 9, 9)]
    {
        put(c, work, recipe, 1);
    }
    for round in 0..count {
        // few of the longest tables: each plan fills its own
        let bits = 1 + (round % 16).min(random.up_to(15) as usize);
        let d = (1 << (bits - 1) | random.up_to((1 << (bits - 1)) - 1)) | 1;
        let c = d << random.up_to(16 - bits as u64);
        let (work, recipe) = (1 << (bits - 1), LINE_BYTES * (bits / 2));
        match random.up_to(9) {
            0 => put(c, work - 1, recipe, 0),
            1 => put(c, work, recipe - usize::from(recipe > 0), 0),
            2 => put(any_constant(&mut random), work, recipe, 0),
            3 => put(c, work + random.up_to(9) as usize, recipe + random.up_to(9) as usize, 0),
            _ => put(c, work, recipe, 0),
        }
    }
    stream
}

fn plan_bytes(reader: &mut Reader) -> Option<Vec<u8>> {
    let (c, work, recipe, show) = (reader.number(4)?, reader.number(2)?, reader.number(1)?, reader.number(1)?);
    let (mut work, mut recipe) = (vec![7; work as usize], vec![7; recipe as usize]);
    let answer = plan(c, &mut work, &mut recipe);
    let sum = checksum(work.iter().chain(&recipe).map(|byte| u32::from(*byte)));
    let mut bytes = vec![Refusal::of(&answer).number, answer.unwrap_or(0) as u8];
    bytes.extend(sum.to_be_bytes());
    if show == 1 {
        bytes.extend(work);
    }
    Some(bytes)
}

pub fn plan_answers(stream: &[u8]) -> Vec<u8> {
    let mut reader = Reader(stream);
    std::iter::from_fn(|| plan_bytes(&mut reader)).flatten().collect()
}
