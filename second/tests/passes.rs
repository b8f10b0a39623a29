//! The stream of passes as a program meets it, read here a second time.

mod common;
use common::*;
use second::streams;

#[derive(Clone, Debug, PartialEq)]
struct Record {
    words: Vec<i32>,
    given: Vec<i32>,
    allowance: u64,
    room: Vec<u8>,
    length: usize,
}

const HEAD: usize = 14;

fn number(bytes: &[u8]) -> u64 {
    bytes.iter().fold(0, |number, byte| number << 8 | u64::from(*byte))
}

/// The record in front of the stream: a head of 14 bytes, the words, the literals, the room.
fn record(stream: &[u8]) -> Record {
    let (words, given, room) = (number(&stream[1..3]), number(&stream[3..4]), number(&stream[4..6]));
    let literals = HEAD + 4 * words as usize;
    let bytes = literals + 4 * given as usize;
    let length = bytes + room as usize;
    let word = |word: &[u8]| (number(word) as i64 - (1 << 31)) as i32;
    Record {
        words: stream[HEAD..literals].chunks(4).map(word).collect(),
        given: stream[literals..bytes].chunks(4).map(word).collect(),
        allowance: number(&stream[6..HEAD]),
        room: stream[bytes..length].to_vec(),
        length,
    }
}

fn records(mut stream: &[u8]) -> Vec<Record> {
    let mut records = Vec::new();
    while !stream.is_empty() {
        records.push(record(stream));
        stream = &stream[records.last().unwrap().length..];
    }
    records
}

/// The answer and the room at exit.
fn answer(record: &Record) -> (Result<u64, u8>, Vec<u8>) {
    let mut room = record.room.clone();
    (numbered(second::propagate(&record.words, &record.given, record.allowance, &mut room)), room)
}

fn refusal(record: &Record) -> u8 {
    answer(record).0.err().unwrap_or(0)
}

fn shown((answer, room): (Result<u64, u8>, Vec<u8>)) -> String {
    let sum = room.iter().fold(0u32, |sum, byte| sum.wrapping_mul(31).wrapping_add(u32::from(*byte)));
    match answer {
        Ok(read) => format!("0 {read} {sum}\n"),
        Err(number) => format!("{number} 0 {sum}\n"),
    }
}

#[test]
fn every_record_has_its_line() {
    let stream = streams::passes(5, 1_500);
    let answers = String::from_utf8(streams::pass_answers(&stream)).unwrap();
    let expected: String = records(&stream).iter().map(|record| shown(answer(record))).collect();
    assert_eq!(answers, expected);
}

/// 2 is set by the second clause; the room comes out as 2 1 0.
const BY_HAND: [u8; 14 + 4 * 5 + 4 + 3] = [
    9, 0, 5, 1, 0, 3, 0, 0, 0, 0, 0, 0, 0,
    2, // nine times more, five words, one literal, three bytes, allowance 2
    127, 255, 255, 253, 128, 0, 0, 0, 128, 0, 0, 2, 128, 0, 0, 3, 128, 0, 0, 0, // -3 0 2 3 0
    127, 255, 255, 253, // -3
    2, 2, 2,
];

#[test]
fn a_record_in_the_layout_is_read() {
    let answered = |stream: &[u8]| String::from_utf8(streams::pass_answers(stream)).unwrap();
    let left = |a: u32, b: u32, c: u32| (a * 31 + b) * 31 + c;
    assert_eq!(answered(&BY_HAND), format!("0 2 {}\n", left(2, 1, 0)));
    for (place, byte, number, room) in [
        (13, 1, 20, [2, 2, 2]),
        (33, 1, 21, [2, 2, 2]),
        (25, 3, 0, [2, 2, 0]),
        (34, 0, 26, [2, 2, 2]),
        (38, 3, 26, [3, 2, 2]),
        (40, 255, 26, [2, 2, 255]),
    ] {
        let mut changed = BY_HAND;
        changed[place] = byte;
        let expected = shown(answer(&record(&changed)));
        assert_eq!(answered(&changed), expected, "{place}");
        if number != 0 {
            assert_eq!(expected, format!("{number} 0 {}\n", left(room[0], room[1], room[2])), "{place}");
        }
    }
    let mut large = BY_HAND;
    large[6] = 128;
    assert_eq!(answered(&large), answered(&BY_HAND));
    large[0] = 0;
    assert_eq!(answered(&large), answered(&BY_HAND));
}

#[test]
fn a_record_that_ends_early_is_not_answered() {
    let two = [BY_HAND, BY_HAND].concat();
    for end in 0..=two.len() {
        let lines = streams::pass_answers(&two[..end]).iter().filter(|byte| **byte == b'\n').count();
        assert_eq!(lines, end / BY_HAND.len(), "{end}");
    }
}

#[test]
fn the_calls_by_hand_come_first_and_meet_the_edges() {
    let by_hand = streams::passes(1, 0);
    assert_eq!(streams::passes(2, 0), by_hand);
    assert!(streams::passes(2, 9).starts_with(&by_hand));
    let records = records(&by_hand);
    for number in [0, 20, 21, 22, 26] {
        assert!(records.iter().filter(|record| refusal(record) == number).count() >= 4, "{number}");
    }
    let some = |found: &dyn Fn(&Record) -> bool| assert!(records.iter().any(found));
    some(&|record| record.words.is_empty() && record.allowance == 0 && refusal(record) == 0);
    some(&|record| record.room.is_empty());
    some(&|record| record.words.contains(&i32::MIN));
    some(&|record| record.given.contains(&i32::MIN));
    (0..4).filter(|byte| *byte != 2).for_each(|byte| some(&|record| record.room.contains(&byte)));
    // 3 over 1 and 2: all four values of x and their products
    let three = written_over(3, &[1, 2], 3, &planned(3));
    let over_three = |record: &&Record| record.words == three.room && record.given.len() == 2 && refusal(record) == 0;
    let products: Vec<u64> = records.iter().filter(over_three).map(|record| product(&three.bits, record)).collect();
    assert_eq!(products, [0, 3, 6, 9]);
}

/// What y reads in the room that a call leaves.
fn product(y: &[i32], record: &Record) -> u64 {
    let left = answer(record).1;
    reading(y, |literal| left[literal.unsigned_abs() as usize - 1] == u8::from(literal > 0))
}

/// How often each of some things was met among the calls drawn.
#[derive(Default, Debug)]
struct Met {
    numbers: [usize; 27],
    long: usize,
    long_numbers: [usize; 27],
    longest: usize,
    small_set: usize,
    /// Refusals with another reason to come later, by both numbers.
    two: std::collections::BTreeMap<(u8, u8), usize>,
    lowest: usize,
    largest: usize,
    any_allowance: usize,
    unclosed: usize,
}

impl Met {
    fn note(&mut self, record: &Record) {
        let (answer, left) = answer(record);
        let number = answer.err().unwrap_or(0);
        self.numbers[usize::from(number)] += 1;
        self.longest = self.longest.max(record.words.len());
        let known = left.iter().filter(|value| **value != 2).count();
        if record.words.len() > 24 {
            self.long += 1;
            self.long_numbers[usize::from(number)] += 1;
        } else {
            self.small_set += usize::from(number == 0 && known > record.given.len());
        }
        if let Some(later) = later(number, record) {
            *self.two.entry((number, later)).or_default() += 1;
        }
        let all = || record.words.iter().chain(&record.given);
        self.lowest += usize::from(all().any(|word| *word == i32::MIN));
        self.largest += usize::from(all().any(|word| *word == i32::MAX));
        self.any_allowance += usize::from(record.allowance == u64::MAX);
        self.unclosed += usize::from(record.words.last().is_some_and(|word| *word != 0));
    }
}

/// The refusal that is left where the reason for this one is taken away, if there is one.
fn later(number: u8, record: &Record) -> Option<u8> {
    let mut mended = record.clone();
    match number {
        26 => (mended.room, mended.given) = (vec![2; record.room.len()], Vec::new()),
        20 => mended.allowance = u64::MAX,
        21 => mended.words.push(0),
        _ => return None,
    }
    Some(refusal(&mended)).filter(|later| *later != 0 && *later != number)
}

#[test]
fn the_calls_drawn_are_of_every_kind() {
    let (by_hand, mut met) = (records(&streams::passes(3, 0)).len(), Met::default());
    let records = records(&streams::passes(3, 6_000));
    assert_eq!(records.len(), by_hand + 6_000);
    records[by_hand..].iter().for_each(|record| met.note(record));
    println!("{met:?}");
    assert!([0, 20, 21, 22, 26].iter().all(|number| met.numbers[*number] > 600), "{met:?}");
    assert!((300..600).contains(&met.long) && met.long_numbers[0] > met.long / 2, "{met:?}");
    assert!([20, 21, 22].iter().all(|number| met.long_numbers[*number] > 10), "{met:?}");
    assert!(met.longest > 2_000 && met.small_set > 400, "{met:?}");
    let pairs = [(26, 20), (26, 21), (26, 22), (20, 21), (20, 22), (21, 22)];
    assert!(pairs.iter().all(|pair| met.two.get(pair) > Some(&30)), "{met:?}");
    assert!([met.lowest, met.largest, met.any_allowance, met.unclosed].iter().all(|count| *count > 60), "{met:?}");
}

/// It is kept as a file elsewhere.
#[test]
fn the_stream_is_no_long_one() {
    assert!(streams::passes(1, 1_500).len() < 200_000);
}
