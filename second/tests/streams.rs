//! The streams of calls as a program meets them, read here a second time.

mod common;
use common::judged::judged;
use common::listed::{pairs_of, PAIRS};
use common::*;
use second::{streams, Refusal};
use std::collections::BTreeMap;

const END: u64 = 2_147_483_648;

#[derive(Debug)]
struct Record {
    kind: u8,
    c: u64,
    w: u64,
    first: u32,
    bits: usize,
    clauses: usize,
    x: Vec<i32>,
    recipe: Vec<u8>,
    length: usize,
}

fn number(bytes: &[u8]) -> u64 {
    bytes.iter().fold(0, |number, byte| number << 8 | u64::from(*byte))
}

/// The record in front of the stream: a head of 15 bytes, the literals, the recipe.
fn record(stream: &[u8]) -> Record {
    let (many, recipe) = (usize::from(stream[6]), usize::from(stream[11]));
    let (literals, length) = (15 + 4 * many, 15 + 4 * many + recipe);
    let literal = |word: &[u8]| i32::from_be_bytes([word[0], word[1], word[2], word[3]]);
    Record {
        kind: stream[0],
        c: number(&stream[1..5]),
        w: number(&stream[5..6]),
        first: number(&stream[7..11]) as u32,
        bits: usize::from(stream[12]),
        clauses: number(&stream[13..15]) as usize,
        x: stream[15..literals].chunks(4).map(literal).collect(),
        recipe: stream[literals..length].to_vec(),
        length,
    }
}

fn records(mut stream: &[u8]) -> Vec<Record> {
    let mut records = Vec::new();
    while !stream.is_empty() {
        records.push(record(stream));
        stream = &stream[records.last().unwrap().length..];
    }
    records
}

fn answer(record: &Record) -> (Result<second::Counts, Refusal>, u32) {
    let Record { c, w, x, first, recipe, .. } = record;
    let (mut bits, mut clauses) = (vec![7; record.bits], vec![7; record.clauses]);
    let answer = match record.kind {
        0 => second::write_plain(*c, *w, recipe, &mut bits, &mut clauses),
        1 => second::write(*c, *w, x, *first, recipe, &mut bits, &mut clauses),
        kind => panic!("call {kind}"),
    };
    let add = |sum: u32, entry: &i32| sum.wrapping_mul(31).wrapping_add(*entry as u32);
    (answer, bits.iter().chain(&clauses).fold(0, add))
}

fn shown((answer, sum): (Result<second::Counts, Refusal>, u32)) -> String {
    match answer {
        Ok(counts) => format!("0 0 0 {} {} {} {} {sum}", counts.words, counts.clauses, counts.next, counts.bits),
        Err(Refusal { number, line, value }) => format!("{number} {line} {value} 0 0 0 0 {sum}"),
    }
}

#[test]
fn every_record_of_writing_has_its_line() {
    let stream = streams::writes(5, 1_500);
    let answers = String::from_utf8(streams::write_answers(&stream)).unwrap();
    let expected: String = records(&stream).iter().map(|record| shown(answer(record)) + "\n").collect();
    assert_eq!(answers, expected);
}

#[test]
fn a_record_in_the_layout_is_read() {
    let head = [1, 0, 0, 0, 3, 2, 2, 0, 0, 0, 10, 5, 4, 0, 52];
    let stream = [&head[..], &[255, 255, 255, 251, 0, 0, 0, 9], &[0x20, 4, 0, 0, 3]].concat();
    let given = written_over(3, &[-5, 9], 10, &planned(3));
    let sum =
        given.bits.iter().chain(&given.room).fold(0u32, |sum, word| sum.wrapping_mul(31).wrapping_add(*word as u32));
    assert_eq!(String::from_utf8(streams::write_answers(&stream)).unwrap(), format!("0 0 0 52 14 14 4 {sum}\n"));
    let mut plain = [&[0, 0, 0, 0, 3, 2, 0, 0, 0, 0, 0, 5, 4, 0, 52], &[0x20, 4, 0, 0, 3][..]].concat();
    assert!(streams::write_answers(&plain).starts_with(b"0 0 0 52 14 7 4 "));
    plain[19] = 5;
    assert!(streams::write_answers(&plain).starts_with(b"7 1 3 0 0 0 0 "));
    plain[15] = 0x60;
    assert!(streams::write_answers(&plain).starts_with(b"7 1 -1 0 0 0 0 "));
    plain[0] = 1;
    assert!(streams::write_answers(&plain).starts_with(b"14 0 0 0 0 0 0 "));
}

#[test]
fn a_record_that_ends_early_is_not_answered() {
    let stream = streams::writes(5, 0);
    let given =
        records(&stream).iter().take_while(|record| record.kind == 0).map(|record| record.length).sum::<usize>();
    let two = &stream[given..][..record(&stream[given..]).length * 2];
    assert_eq!(record(two).length, record(&two[two.len() / 2..]).length);
    for end in 0..=two.len() {
        let lines = streams::write_answers(&two[..end]).iter().filter(|byte| **byte == b'\n').count();
        assert_eq!(lines, end / (two.len() / 2), "{end}");
    }
}

#[test]
fn the_calls_by_hand_come_first_and_meet_the_edges() {
    let records = records(&streams::writes(1, 0));
    assert_eq!(streams::writes(2, 0), streams::writes(1, 0));
    assert!(records.windows(2).all(|pair| pair[0].kind <= pair[1].kind));
    let plain = records.iter().filter(|record| record.kind == 0).count();
    assert_eq!(plain, 14 * 7 + 8 + 17);
    let repeated = |a: usize, b: usize, w: u64, sign: i32| {
        let found = |record: &Record| record.w == w && record.x.len() as u64 == w && record.x[a] == sign * record.x[b];
        records[plain..].iter().any(found)
    };
    for w in 2..=16 {
        for (a, b) in (0..w as usize).flat_map(|b| (0..b).map(move |a| (a, b))) {
            assert!(repeated(a, b, w, 1) && repeated(a, b, w, -1), "{w} {a} {b}");
        }
    }
    let answers: Vec<_> = records.iter().map(|record| numbered(answer(record).0)).collect();
    for number in [0, 1, 2, 14, 3, 7, 8, 15, 9, 10] {
        assert!(answers[plain..].iter().any(|answer| answer.err().unwrap_or(0) == number), "{number}");
    }
    assert!(answers.iter().flatten().any(|counts| u64::from(counts.next) == END));
    assert!(records.iter().any(|record| record.x.contains(&i32::MIN)) && records.iter().any(|r| r.x.len() == 40));
}

/// How often each of some things was met among the calls drawn.
#[derive(Default, Debug)]
struct Met {
    plain: usize,
    given: usize,
    successes: usize,
    refusals: [usize; 16],
    last: usize,
    negative: usize,
    length_too: usize,
    variables_too: usize,
    bits_too: usize,
    words_too: usize,
}

impl Met {
    fn note(&mut self, record: &Record) {
        if record.kind == 0 {
            assert!(record.x.is_empty() && record.first == 0);
            self.plain += 1;
            return;
        }
        assert!(record.x.len() <= 40);
        self.given += 1;
        match numbered(answer(record).0) {
            Ok(counts) => self.note_success(record, counts),
            Err(number) => self.note_refusal(record, number),
        }
    }

    fn note_success(&mut self, record: &Record, counts: second::Counts) {
        self.successes += 1;
        self.last += usize::from(u64::from(counts.next) == END);
        self.negative += usize::from(record.x.iter().any(|literal| *literal < 0));
    }

    /// Refusals that had another reason to come later.
    fn note_refusal(&mut self, record: &Record, number: u8) {
        let Record { c, w, recipe, .. } = record;
        self.refusals[usize::from(number)] += 1;
        self.length_too += usize::from(number == 14 && recipe.len() % 5 != 0);
        self.variables_too += usize::from(number == 8 && u64::from(record.first) > END);
        if number == 15 {
            self.bits_too += usize::from(record.bits < bit_length(c * ((1 << w) - 1)));
            let short = second::write_plain(*c, *w, recipe, &mut [0; 32], &mut vec![0; record.clauses]);
            self.words_too += usize::from(numbered(short) == Err(10));
        }
    }
}

#[test]
fn the_calls_drawn_are_of_every_kind() {
    let (by_hand, mut met) = (records(&streams::writes(3, 0)).len(), Met::default());
    let records = records(&streams::writes(3, 6_000));
    assert_eq!(records.len(), by_hand + 6_000);
    records[by_hand..].iter().for_each(|record| met.note(record));
    println!("{met:?}");
    assert!((1_800..2_200).contains(&met.plain) && met.successes > met.given / 2, "{met:?}");
    assert!(met.last > 100 && met.negative > 1_000, "{met:?}");
    assert!([1, 2, 14, 3, 7, 8, 15, 9, 10].iter().all(|number| met.refusals[*number] > 5), "{met:?}");
    assert!([met.length_too, met.variables_too, met.bits_too, met.words_too].iter().all(|both| *both > 2), "{met:?}");
}

/// Calls that succeed have columns with two inputs of one variable, of every kind that was found.
#[test]
fn the_calls_drawn_have_pairs() {
    let (by_hand, mut met) = (records(&streams::writes(4, 0)).len(), BTreeMap::new());
    let drawn = records(&streams::writes(4, 6_000)).split_off(by_hand);
    let right: Vec<&Record> = drawn.iter().filter(|record| answer(record).0.is_ok()).collect();
    let pairs: Vec<_> = right.iter().map(|record| pairs_of(record.w, &record.recipe)).collect();
    let with_pairs = pairs.iter().filter(|pairs| !pairs.is_empty()).count();
    pairs.iter().flatten().for_each(|pair| *met.entry(*pair).or_insert(0) += 1);
    println!("{with_pairs} of {}: {met:?}", right.len());
    assert!(3 * with_pairs > right.len(), "{with_pairs} of {}", right.len());
    assert!(met.values().all(|calls| *calls > 5) && met.into_keys().eq(PAIRS));
}

/// The calls of checking: c in four bytes, the recipe's length in one, the recipe.
fn proposals(mut stream: &[u8]) -> Vec<(u64, Vec<u8>)> {
    let mut proposals = Vec::new();
    while !stream.is_empty() {
        let end = 5 + usize::from(stream[4]);
        proposals.push((number(&stream[..4]), stream[5..end].to_vec()));
        stream = &stream[end..];
    }
    proposals
}

fn refusal_shown(answer: Result<(), Refusal>) -> String {
    answer
        .map_or_else(|Refusal { number, line, value }| format!("{number} {line} {value}\n"), |()| "0 0 0\n".to_string())
}

#[test]
fn a_record_of_checking_in_the_layout_is_read() {
    let [three, fifteen] = [[0x20, 4, 0, 0, 3], [0x40, 0x10, 0, 0, 15]];
    let negative = [&[0, 0, 7, 0xAD, 15], &three[..], &fifteen, &[0x40, 0x80, 0x20, 7, 0xAD]].concat();
    let right = [&[0, 0, 0, 6, 5], &three[..]].concat();
    let itself = [&[0, 0, 0, 6, 10], &three[..], &[0x20, 4, 0x20, 0, 3]].concat();
    let out_of_range = [&[0, 1, 0, 0, 5], &fifteen[..]].concat();
    let stream = [negative, right, itself, out_of_range].concat();
    assert_eq!(String::from_utf8(streams::check_answers(&stream)).unwrap(), "7 3 -12\n0 0 0\n5 2 0\n1 0 0\n");
    assert_eq!(streams::check_answers(&stream[..stream.len() - 1]), b"7 3 -12\n0 0 0\n5 2 0\n");
    assert_eq!(streams::check_answers(&[]), b"");
}

/// What a line of answers begins with.
fn told(line: &str) -> Refusal {
    let words: Vec<&str> = line.split(' ').take(3).collect();
    Refusal { number: words[0].parse().unwrap(), line: words[1].parse().unwrap(), value: words[2].parse().unwrap() }
}

/// Each of 4 to 7 was met often and at every line, and 7 with values below 0 and with ones of more than 20 bits.
fn assert_bad_lines_of_every_kind(told: &[Refusal]) {
    for number in 4..=7 {
        let mut lines = BTreeMap::new();
        let met = told.iter().filter(|refusal| refusal.number == number);
        met.for_each(|refusal| *lines.entry(refusal.line).or_insert(0) += 1);
        let (times, rarest) = (lines.values().sum::<usize>(), lines.values().min());
        println!("{number}: {times} times, a line at least {rarest:?} times");
        assert!(times >= 300 && (1..=32).eq(lines.into_keys()), "{number}");
    }
    let values = |wished: &dyn Fn(i64) -> bool| told.iter().filter(|refusal| wished(refusal.value)).count();
    let (negative, large) = (values(&|value| value < 0), values(&|value| value > 1_048_575));
    println!("{negative} values below 0, {large} of more than 20 bits");
    assert!(negative >= 200 && large >= 200);
    assert!(values(&|value| value < -1_048_575) >= 50 && values(&|value| (-99..0).contains(&value)) >= 20);
}

#[test]
fn the_recipes_have_bad_lines_and_every_record_has_its_line() {
    let stream = streams::checks(6, 20_000);
    let answers = String::from_utf8(streams::check_answers(&stream)).unwrap();
    let expected: String = proposals(&stream).iter().map(|(c, recipe)| refusal_shown(judged(*c, recipe))).collect();
    assert!(answers == expected, "a record has another line");
    let told: Vec<Refusal> = answers.lines().map(told).collect();
    assert_bad_lines_of_every_kind(&told);
    assert!(told.iter().filter(|refusal| refusal.number == 0).count() > 5_000);
}

/// Where the constant, the width and the literals are good, writing tells what checking tells.
#[test]
fn the_writes_have_bad_lines() {
    let stream = streams::writes(6, 20_000);
    let answers = String::from_utf8(streams::write_answers(&stream)).unwrap();
    let told: Vec<Refusal> = answers.lines().map(told).collect();
    let records = records(&stream);
    assert_eq!(told.len(), records.len());
    for (record, told) in records.iter().zip(&told).filter(|(_, told)| ![1, 2, 14].contains(&told.number)) {
        match judged(record.c, &record.recipe) {
            Ok(()) => assert!([0, 15, 9, 10].contains(&told.number) && (told.line, told.value) == (0, 0), "{record:?}"),
            Err(refusal) => assert_eq!(*told, refusal, "{record:?}"),
        }
    }
    for kind in [0, 1] {
        let of_kind = records.iter().zip(&told).filter(|(record, _)| record.kind == kind);
        assert!((4..=7).all(|number| of_kind.clone().filter(|(_, told)| told.number == number).count() >= 100));
    }
    assert_bad_lines_of_every_kind(&told);
}

#[test]
fn a_seed_gives_one_stream() {
    for stream in [streams::checks, streams::writes] {
        assert_eq!(stream(7, 500), stream(7, 500));
        assert_ne!(stream(7, 500), stream(8, 500));
    }
}

/// FNV-1a, to hold a stream to its bytes.
fn hash(bytes: &[u8]) -> u64 {
    bytes.iter().fold(0xCBF2_9CE4_8422_2325, |hash, byte| (hash ^ u64::from(*byte)).wrapping_mul(0x100_0000_01B3))
}

/// Answers to these streams are kept elsewhere, so not a byte of them may change.
#[test]
fn checks_and_plans_stay() {
    assert_eq!(hash(&streams::checks(1, 3_000)), 0x6BEF_0438_56D7_B64C);
    assert_eq!(hash(&streams::plans(1, 3_000)), 0x8642_AA9B_401F_1B7A);
}
