//! Document 02, i: one pass over words that believes only the clauses.

mod common;
use common::*;

const FALSE: u8 = 0;
const TRUE: u8 = 1;
const UNKNOWN: u8 = 2;

#[derive(Clone, Debug)]
struct Call {
    words: Vec<i32>,
    given: Vec<i32>,
    allowance: u64,
    room: Vec<u8>,
}

impl Call {
    /// In a room of so many unknown values, with allowance for everything.
    fn new(words: &[i32], given: &[i32], room: usize) -> Call {
        Call { words: words.to_vec(), given: given.to_vec(), allowance: u64::MAX, room: vec![UNKNOWN; room] }
    }

    /// The answer and the room at exit; a refusal must leave the room as it came.
    fn done(&self) -> (Result<u64, u8>, Vec<u8>) {
        let mut room = self.room.clone();
        let answer = numbered(second::propagate(&self.words, &self.given, self.allowance, &mut room));
        assert!(answer.is_ok() || room == self.room, "{self:?}: the room was changed");
        (answer, room)
    }

    fn refusal(&self) -> Option<u8> {
        self.done().0.err()
    }
}

/// Words, given literals, and what a success reads and leaves.
type Worked<'a> = (&'a [i32], &'a [i32], u64, &'a [u8]);

fn assert_worked(cases: &[Worked]) {
    for (words, given, read, left) in cases {
        let call = Call::new(words, given, left.len());
        assert_eq!(call.done(), (Ok(*read), left.to_vec()), "{call:?}");
        // As many as are read are enough, and one less is not.
        assert_eq!(Call { allowance: *read, ..call.clone() }.done().0, Ok(*read), "{call:?}");
        if let Some(less) = read.checked_sub(1) {
            assert_eq!(Call { allowance: less, ..call.clone() }.refusal(), Some(20), "{call:?}");
        }
    }
}

#[test]
fn given_literals_are_taken_as_true() {
    assert_worked(&[(&[], &[], 0, &[]), (&[], &[], 0, &[2, 2]), (&[], &[3, -2], 0, &[2, 0, 1, 2])]);
}

#[test]
fn a_single_unknown_literal_is_set() {
    assert_worked(&[
        (&[1, 0], &[], 1, &[1]),
        (&[-1, 0], &[], 1, &[0]),
        (&[-2, 0], &[], 1, &[2, 0, 2]),
        (&[1, -2, 0], &[2], 1, &[1, 1]),
        (&[-3, 1, 2, 0], &[-2, -1], 1, &[0, 0, 0]),
        (&[-1, 2, 0, -2, 3, 0], &[1], 2, &[1, 1, 1]),
    ]);
}

#[test]
fn a_repeated_unknown_literal_is_still_single() {
    assert_worked(&[
        (&[1, 1, 0], &[], 1, &[1]),
        (&[-2, -2, -2, 0], &[], 1, &[2, 0]),
        (&[-3, 1, -3, 2, -3, 0], &[-1, -2], 1, &[0, 0, 0]),
        (&[1, 1, 2, 1, 0], &[-1], 1, &[0, 1]),
    ]);
}

#[test]
fn a_satisfied_clause_is_passed() {
    assert_worked(&[
        (&[1, 0], &[1], 1, &[1]),
        (&[1, 2, 0], &[1], 1, &[1, 2]),
        (&[2, 1, 0], &[1], 1, &[1, 2]),
        (&[2, -1, 3, 0], &[-1, -2], 1, &[0, 0, 2]),
        (&[1, 2, 0], &[1, -2], 1, &[1, 0]),
        (&[1, 1, 0], &[1], 1, &[1]),
        (&[1, -1, 0], &[-1], 1, &[0]),
        (&[1, -1, 2, 0], &[1], 1, &[1, 2]),
        (&[1, 0, 1, 0], &[], 2, &[1]),
    ]);
}

#[test]
fn a_clause_of_two_different_unknown_literals_is_passed() {
    assert_worked(&[
        (&[1, 2, 0], &[], 1, &[2, 2]),
        (&[1, 1, 2, 0], &[], 1, &[2, 2]),
        (&[1, 2, 3, 0], &[-2], 1, &[2, 0, 2]),
        (&[1, -1, 0], &[], 1, &[2]),
        (&[-1, 1, 1, 0], &[], 1, &[2]),
        (&[2, 1, -1, 0], &[-2], 1, &[2, 0]),
    ]);
}

/// What a later clause sets helps no earlier one.
#[test]
fn the_clauses_are_read_once_in_order() {
    assert_worked(&[
        (&[1, 2, 0, -1, 0], &[], 2, &[0, 2]),
        (&[-2, 3, 0, -1, 2, 0], &[1], 2, &[1, 1, 2]),
        (&[-2, 3, 0, -1, 2, 0, -2, 3, 0], &[1], 3, &[1, 1, 1]),
    ]);
    // Unsatisfiable, and nothing in one pass tells.
    assert_worked(&[(&[1, 2, 0, 1, -2, 0, -1, 2, 0, -1, -2, 0], &[], 4, &[2, 2])]);
}

#[test]
fn refusal_26_for_a_room_not_all_unknown() {
    for byte in 0..=255 {
        for place in 0..4 {
            let mut call = Call::new(&[1, 0], &[2], 4);
            call.room[place] = byte;
            assert_eq!(call.refusal(), (byte != UNKNOWN).then_some(26), "{byte} {place}");
        }
    }
    assert_eq!(Call { room: vec![TRUE, FALSE], ..Call::new(&[], &[], 0) }.refusal(), Some(26));
}

#[test]
fn refusal_26_for_a_given_literal() {
    let outside = [0, 5, -5, 6, i32::MAX, -i32::MAX, i32::MIN];
    for literal in outside {
        for place in 0..=3 {
            let mut given = vec![-4, 2, 1];
            given.insert(place, literal);
            assert_eq!(Call::new(&[], &given, 4).refusal(), Some(26), "{given:?}");
        }
        assert_eq!(Call::new(&[], &[literal], 0).refusal(), Some(26), "{literal}");
    }
    for (first, second) in [(1, 1), (1, -1), (-1, 1), (-1, -1)] {
        for given in [vec![first, second], vec![first, 3, second], vec![2, first, second], vec![first, second, 4]] {
            assert_eq!(Call::new(&[], &given, 4).refusal(), Some(26), "{given:?}");
        }
    }
    assert_eq!(Call::new(&[], &[1, -2, 3, -4], 4).refusal(), None);
    assert_eq!(Call::new(&[], &[1, -2, 3, -4, 4], 4).refusal(), Some(26));
}

#[test]
fn refusal_20_where_the_allowance_is_spent_and_words_are_left() {
    let words = [1, 0, 2, 0, -1, 3, 0];
    for allowance in 0..5 {
        let call = Call { allowance, ..Call::new(&words, &[], 3) };
        assert_eq!(call.refusal(), (allowance < 3).then_some(20), "{allowance}");
    }
    assert_eq!(Call { allowance: 0, ..Call::new(&[], &[1], 1) }.done(), (Ok(0), vec![TRUE]));
}

#[test]
fn refusal_21_where_the_words_end_inside_a_clause() {
    for words in [&[1][..], &[1, 2], &[1, 0, 2], &[1, 0, 1], &[1, 2, 0, 2, 2, 2]] {
        assert_eq!(Call::new(words, &[], 2).refusal(), Some(21), "{words:?}");
        let closed = [words, &[0]].concat();
        assert_eq!(Call::new(&closed, &[], 2).refusal(), None, "{closed:?}");
    }
}

#[test]
fn refusal_21_for_a_variable_above_the_room() {
    for room in 0..4 {
        for variable in 1..6 {
            for literal in [variable, -variable] {
                let expected = (variable > room).then_some(21);
                assert_eq!(Call::new(&[literal, 0], &[], room as usize).refusal(), expected, "{literal} {room}");
            }
        }
        for literal in [i32::MAX, -i32::MAX, i32::MIN] {
            assert_eq!(Call::new(&[literal, 0], &[], room as usize).refusal(), Some(21), "{literal} {room}");
        }
    }
    // Also where the clause is satisfied, and at any place in it.
    for words in [[3, 1, 2, 0], [1, 3, 2, 0], [1, 2, -3, 0], [1, 2, i32::MIN, 0]] {
        assert_eq!(Call::new(&words, &[1], 2).refusal(), Some(21), "{words:?}");
    }
}

#[test]
fn refusal_22_where_all_literals_are_false() {
    for words in [&[0][..], &[1, 0, 0], &[-1, 0, 1, 0], &[-1, 0, 1, 1, 0], &[-1, 0, -2, 0, 2, 1, 0]] {
        assert_eq!(Call::new(words, &[], 2).refusal(), Some(22), "{words:?}");
    }
    assert_eq!(Call::new(&[0], &[], 0).refusal(), Some(22));
    assert_eq!(Call::new(&[-1, 0], &[1], 1).refusal(), Some(22));
    assert_eq!(Call::new(&[-1, 2, -1, 0], &[1, -2], 2).refusal(), Some(22));
}

type Fault = fn(&mut Call);

/// Reasons to refuse at the second clause, and before it, in the order of the tests.
const FAULTS: [(u8, Fault); 6] = [
    (26, |call| call.room[0] = FALSE),
    (26, |call| call.given.push(-3)),
    (20, |call| call.allowance = 1),
    (21, |call| call.words.truncate(call.words.len() - 1)),
    (21, |call| call.words.insert(2, 4)),
    (22, |call| call.words.retain(|word| *word != 2)),
];

#[test]
fn the_first_test_with_a_reason_refuses() {
    for set in 0..1u32 << FAULTS.len() {
        let mut call = Call { allowance: 2, ..Call::new(&[1, 0, -1, 2, -3, 0], &[3], 3) };
        let faults = FAULTS.iter().enumerate().filter(|(place, _)| set >> place & 1 == 1).map(|(_, fault)| fault);
        faults.clone().for_each(|(_, spoil)| spoil(&mut call));
        let first = faults.map(|(number, _)| *number).next();
        assert_eq!(call.refusal(), first, "{set:b}");
    }
}

/// All that speaks against a clause comes before all that speaks against the next.
#[test]
fn an_earlier_clause_refuses_first() {
    let allowed = |words: &[i32], allowance: u64| Call { allowance, ..Call::new(words, &[], 1) }.refusal();
    assert_eq!(allowed(&[0, 1, 0], 1), Some(22));
    assert_eq!(allowed(&[2, 0, 1, 0], 1), Some(21));
    assert_eq!(allowed(&[0, 1], 9), Some(22));
    assert_eq!(allowed(&[0, 2, 0], 9), Some(22));
    assert_eq!(allowed(&[2, 0, 0], 9), Some(21));
    assert_eq!(allowed(&[1, 0, 0, 2], 1), Some(20));
    assert_eq!(allowed(&[1, 0, 2, 0, 0], 1), Some(20));
}

/// The pass read a second time: with indices, and with a room of its own as its only store.
fn walked(call: &Call) -> Result<(u64, Vec<u8>), u8> {
    let mut values = call.room.clone();
    if values.iter().any(|value| *value != UNKNOWN) {
        return Err(26);
    }
    for literal in &call.given {
        let variable = i64::from(*literal).abs();
        if variable == 0 || variable > values.len() as i64 || values[variable as usize - 1] != UNKNOWN {
            return Err(26);
        }
        values[variable as usize - 1] = u8::from(*literal > 0);
    }
    let (mut start, mut read) = (0, 0);
    while start < call.words.len() {
        if read == call.allowance {
            return Err(20);
        }
        let mut end = start;
        while end < call.words.len() && call.words[end] != 0 {
            end += 1;
        }
        let inside = |word: &i32| i64::from(*word).abs() <= values.len() as i64;
        if end == call.words.len() || !call.words[start..end].iter().all(inside) {
            return Err(21);
        }
        visit(&call.words[start..end], &mut values)?;
        (start, read) = (end + 1, read + 1);
    }
    Ok((read, values))
}

fn visit(clause: &[i32], values: &mut [u8]) -> Result<(), u8> {
    let mut single = None;
    let mut different = false;
    for literal in clause {
        match (values[literal.unsigned_abs() as usize - 1], *literal > 0) {
            (TRUE, true) | (FALSE, false) => return Ok(()),
            (UNKNOWN, _) => different |= single.replace(*literal).is_some_and(|other| other != *literal),
            _ => {}
        }
    }
    match single {
        None => return Err(22),
        Some(literal) if !different => values[literal.unsigned_abs() as usize - 1] = u8::from(literal > 0),
        Some(_) => {}
    }
    Ok(())
}

/// Small words over few variables. Each clause has a literal that holds in a
/// drawn assignment, unless the draw is a free one.
fn drawn(random: &mut Random) -> Call {
    let (room, model, free) = (random.up_to(6), random.next(), random.up_to(2) == 0);
    let literal = |truth: bool, random: &mut Random| {
        let variable = 1 + random.up_to(room.max(2) - 1) as i32;
        if holds(variable, model) == truth {
            variable
        } else {
            -variable
        }
    };
    let mut words = Vec::new();
    for _ in 0..random.up_to(7) {
        for place in 0..random.up_to(9).min(1 + random.up_to(2)) {
            let truth = if free { random.up_to(1) == 0 } else { place == 0 };
            words.push(literal(truth, random));
        }
        words.push(0);
    }
    let mut given: Vec<i32> = (0..random.up_to(3)).map(|_| literal(random.up_to(9) > 0, random)).collect();
    given.sort_unstable_by_key(|literal| literal.abs());
    if random.up_to(9) > 0 {
        given.dedup_by_key(|literal| literal.abs());
        given.retain(|literal| literal.abs() <= room as i32);
    }
    let mut call = Call::new(&words, &given, room as usize);
    spoil(&mut call, random);
    call
}

/// Now and then another last word, any word at any place, a smaller allowance, a value in the room.
fn spoil(call: &mut Call, random: &mut Random) {
    let place = random.up_to(call.words.len().max(1) as u64 - 1) as usize;
    let word = match random.up_to(9) {
        0 => [i32::MIN, i32::MAX, -i32::MAX][random.up_to(2) as usize],
        _ => random.up_to(14) as i32 - 7,
    };
    match random.up_to(15) {
        0 => drop(call.words.pop()),
        1 => call.words.insert(place, word),
        2..=3 => call.allowance = random.up_to(4),
        4 => call.room.iter_mut().take(1).for_each(|value| *value = random.up_to(3) as u8),
        5 => call.given.push(word),
        _ => {}
    }
}

#[test]
fn the_pass_is_the_one_read_a_second_time() {
    let (mut random, mut met) = (Random::seeded(21), [0; 27]);
    for _ in 0..60_000 {
        let call = drawn(&mut random);
        let (answer, left) = call.done();
        assert_eq!(answer.map(|read| (read, left)), walked(&call), "{call:?}");
        met[usize::from(answer.err().unwrap_or(0))] += 1;
    }
    println!("numbers met: {met:?}");
    assert!([0, 20, 21, 22, 26].iter().all(|number| met[*number] > 1_000), "{met:?}");
}

/// The clauses in front that are closed and name no variable above the room: those a pass can have read.
fn readable(call: &Call) -> Vec<i32> {
    let whole = |clause: &&[i32]| {
        let inside = clause.iter().all(|word| word.unsigned_abs() as usize <= call.room.len());
        clause.last() == Some(&0) && inside
    };
    call.words.split_inclusive(|word| *word == 0).take_while(whole).collect::<Vec<_>>().concat()
}

/// All assignments of the room's variables in which the words and the given literals hold.
fn agreeing(words: &[i32], call: &Call) -> Vec<u64> {
    let given = |assignment: &u64| call.given.iter().all(|literal| holds(*literal, *assignment));
    (0..1u64 << call.room.len()).filter(given).filter(|assignment| satisfies(words, *assignment)).collect()
}

#[test]
fn what_is_left_is_forced_and_a_conflict_is_real() {
    let (mut random, mut set, mut open, mut conflicts) = (Random::seeded(22), 0, 0, 0);
    for _ in 0..60_000 {
        let call = drawn(&mut random);
        match call.done() {
            (Ok(_), left) => {
                let all = agreeing(&call.words, &call);
                let known = (1..).zip(&left).filter(|(_, value)| **value != UNKNOWN);
                let forced =
                    |(variable, value): (i32, &u8)| all.iter().all(|one| holds(variable, *one) == (*value == TRUE));
                assert!(known.clone().all(forced), "{call:?} leaves {left:?}");
                // Where nothing agrees everything is forced, so that doesn't count.
                set += if all.is_empty() { 0 } else { known.count() - call.given.len() };
                open += left.iter().filter(|value| **value == UNKNOWN).count();
            }
            (Err(22), _) => {
                assert_eq!(agreeing(&readable(&call), &call), [], "{call:?}");
                conflicts += 1;
            }
            _ => {}
        }
    }
    println!("{set} values set by clauses, {open} left unknown, {conflicts} conflicts");
    assert!(set > 10_000 && open > 10_000 && conflicts > 5_000);
}

/// A pass over the words of a written product.
struct Product {
    c: u64,
    x: Vec<i32>,
    first: u32,
    written: Written,
}

impl Product {
    fn new(c: u64, x: &[i32], first: u32, recipe: &[u8]) -> Product {
        Product { c, x: x.to_vec(), first, written: written_over(c, x, first, recipe) }
    }

    /// With just enough allowance and room, and x given as a number.
    fn call(&self, number: u64, random: &mut Random) -> Call {
        let bit = |(place, literal): (usize, &i32)| if number >> place & 1 == 1 { *literal } else { -literal };
        let mut given: Vec<i32> = self.x.iter().enumerate().map(bit).collect();
        for place in 1..given.len() {
            given.swap(place, random.up_to(place as u64) as usize);
        }
        let room = self.written.highest() as usize;
        Call { allowance: self.written.counts.clauses as u64, ..Call::new(&self.written.room, &given, room) }
    }

    fn assert_one_pass(&self, number: u64, random: &mut Random) {
        let (call, counts) = (self.call(number, random), self.written.counts);
        let (answer, left) = call.done();
        let name = format!("{} {:?} {} at {number}", self.c, self.x, self.first);
        assert_eq!(answer, Ok(counts.clauses as u64), "{name}");
        let value = |variable: u32| left[variable as usize - 1];
        for variable in 1..counts.next {
            let named = self.x.iter().any(|literal| literal.unsigned_abs() == variable);
            assert_eq!(value(variable) != UNKNOWN, named || variable >= self.first, "{name}: variable {variable}");
        }
        let holds = |literal: i32| value(literal.unsigned_abs()) == u8::from(literal > 0);
        assert_eq!(reading(&self.x, holds), number, "{name}");
        assert_eq!(reading(&self.written.bits, holds), self.c * number, "{name}");
        self.assert_no_less(call, &left, random);
    }

    /// More room and allowance change nothing; less of them, or of x, is told.
    fn assert_no_less(&self, call: Call, left: &[u8], random: &mut Random) {
        let counts = self.written.counts;
        let longer = Call { allowance: u64::MAX, room: vec![UNKNOWN; left.len() + 3], ..call.clone() };
        assert_eq!(longer.done(), (Ok(counts.clauses as u64), [left, &[UNKNOWN; 3]].concat()), "{call:?}");
        if counts.clauses > 0 {
            assert_eq!(Call { allowance: call.allowance - 1, ..call.clone() }.refusal(), Some(20), "{call:?}");
        }
        if counts.next > self.first {
            assert_eq!(Call { room: vec![UNKNOWN; left.len() - 1], ..call.clone() }.refusal(), Some(21), "{call:?}");
        }
        // Any part of x can be extended, so there is nothing to conflict with.
        let mut part = call.clone();
        part.given.truncate(random.up_to(call.given.len() as u64) as usize);
        assert_eq!(part.done().0, Ok(counts.clauses as u64), "{part:?}");
    }
}

fn small_first(w: u64, random: &mut Random) -> u32 {
    w as u32 + 1 + random.up_to(1) as u32 * random.up_to(9) as u32
}

#[test]
fn one_pass_over_planned_products() {
    let mut random = Random::seeded(23);
    for c in 1..=120 {
        for w in 1..=4 {
            let first = small_first(w, &mut random);
            let product = Product::new(c, &literals(w, first, &mut random), first, &planned(c));
            (0..1 << w).for_each(|number| product.assert_one_pass(number, &mut random));
        }
    }
    for _ in 0..60 {
        let (c, w) = (1 + random.up_to(65_534), 1 + random.up_to(15));
        let first = small_first(w, &mut random);
        let product = Product::new(c, &literals(w, first, &mut random), first, &planned(c));
        let numbers = [0, (1 << w) - 1, random.up_to((1 << w) - 1), random.up_to((1 << w) - 1)];
        numbers.into_iter().for_each(|number| product.assert_one_pass(number, &mut random));
    }
}

/// Lines that nothing uses are set too, and so are those with two inputs of one variable in a column.
#[test]
fn one_pass_over_walks() {
    let mut random = Random::seeded(24);
    for round in 0..200 {
        let ((d, lines), w) = (walk(round % 33, &mut random), 1 + random.up_to(5));
        let (c, first) = (d << random.up_to(16 - bit_length(d) as u64), small_first(w, &mut random));
        let product = Product::new(c, &literals(w, first, &mut random), first, &recipe_of(&lines));
        (0..4).for_each(|_| product.assert_one_pass(random.up_to((1 << w) - 1), &mut random));
    }
    for (c, w, recipe) in recipes_with_pairs_of_every_kind() {
        for first in [w as u32 + 1, 9] {
            let product = Product::new(c, &literals(w, first, &mut random), first, &recipe);
            (0..1 << w).for_each(|number| product.assert_one_pass(number, &mut random));
        }
    }
}

/// Near misses: with one of its words changed a product gets what the second reading gives it.
#[test]
fn damaged_products() {
    let (mut random, mut met) = (Random::seeded(25), [0; 27]);
    for round in 0..3_000 {
        let (c, w) = (2 + round % 60, 1 + random.up_to(2));
        let first = small_first(w, &mut random);
        let product = Product::new(c, &literals(w, first, &mut random), first, &planned(c));
        let mut call = product.call(random.up_to((1 << w) - 1), &mut random);
        let place = random.up_to(call.words.len().max(1) as u64 - 1) as usize;
        if let Some(word) = call.words.get_mut(place) {
            *word = [0, -*word, 1 + random.up_to(20) as i32][random.up_to(2) as usize];
        }
        let (answer, left) = call.done();
        assert_eq!(answer.map(|read| (read, left)), walked(&call), "{call:?}");
        met[usize::from(answer.err().unwrap_or(0))] += 1;
    }
    println!("numbers met: {met:?}");
    assert!([0, 20, 21, 22].iter().all(|number| met[*number] > 20), "{met:?}");
}
