//! The archive beside the second engine, on calls that are right, damaged and at random.

use second::streams;

const SEED: u64 = 20_261_115;

/// Takes the records of a stream apart (`second::streams` tells their layout).
struct Reader(Vec<u8>, usize);

impl Reader {
    fn take(&mut self, length: usize) -> Vec<u8> {
        self.1 += length;
        self.0[self.1 - length..self.1].to_vec()
    }

    fn number(&mut self, bytes: usize) -> u64 {
        self.take(bytes).iter().fold(0, |number, byte| number * 256 + u64::from(*byte))
    }

    fn ended(&self) -> bool {
        self.1 == self.0.len()
    }
}

/// What both engines tell of a refusal.
fn fields(refusal: ladlebean::Refusal) -> second::Refusal {
    second::Refusal { number: refusal.number as u8, line: refusal.line as u64, value: refusal.value }
}

#[test]
fn checks_agree() {
    let mut reader = Reader(streams::checks(SEED, 20_000), 0);
    while !reader.ended() {
        let (c, length) = (reader.number(4), reader.number(1));
        let recipe = reader.take(length as usize);
        assert_eq!(ladlebean::check(c, &recipe).map_err(fields), second::check(c, &recipe), "{c} {recipe:?}");
    }
}

#[test]
fn plans_agree() {
    let mut reader = Reader(streams::plans(SEED, 600), 0);
    while !reader.ended() {
        let (c, work, recipe, _) = (reader.number(4), reader.number(2), reader.number(1), reader.number(1));
        let mut ours = (vec![7; work as usize], vec![7; recipe as usize]);
        let mut theirs = ours.clone();
        let answer = ladlebean::plan(c, &mut ours.0, &mut ours.1).map_err(fields);
        assert_eq!(answer, second::plan(c, &mut theirs.0, &mut theirs.1), "{c}");
        assert_eq!(ours, theirs, "{c}");
    }
}

/// A call of writing and what it left.
#[derive(Debug, PartialEq)]
struct Left {
    answer: Result<(usize, usize, u32, usize), second::Refusal>,
    bits: Vec<i32>,
    clauses: Vec<i32>,
}

fn left(
    bits: u64,
    clauses: u64,
    write: impl Fn(&mut [i32], &mut [i32]) -> Result<(usize, usize, u32, usize), second::Refusal>,
) -> Left {
    let (mut bits, mut clauses) = (vec![7; bits as usize], vec![7; clauses as usize]);
    let answer = write(&mut bits, &mut clauses);
    Left { answer, bits, clauses }
}

fn told(answer: Result<ladlebean::Counts, ladlebean::Refusal>) -> Result<(usize, usize, u32, usize), second::Refusal> {
    answer.map(|k| (k.words, k.clauses, k.next, k.bits)).map_err(fields)
}

fn right(answer: Result<second::Counts, second::Refusal>) -> Result<(usize, usize, u32, usize), second::Refusal> {
    answer.map(|k| (k.words, k.clauses, k.next, k.bits))
}

#[test]
fn writes_agree() {
    let mut reader = Reader(streams::writes(SEED, 6_000), 0);
    while !reader.ended() {
        let (call, c, w, n) = (reader.number(1), reader.number(4), reader.number(1), reader.number(1));
        let (first, length) = (reader.number(4) as u32, reader.number(1));
        let (bits, clauses) = (reader.number(1), reader.number(2));
        let x: Vec<i32> = (0..n).map(|_| reader.number(4) as u32 as i32).collect();
        let recipe = reader.take(length as usize);
        let (ours, theirs) = if call == 0 {
            (
                left(bits, clauses, |b, k| told(ladlebean::write_plain(c, w as u32, &recipe, b, k))),
                left(bits, clauses, |b, k| right(second::write_plain(c, w, &recipe, b, k))),
            )
        } else {
            (
                left(bits, clauses, |b, k| told(ladlebean::write(c, w as u32, &x, first, &recipe, b, k))),
                left(bits, clauses, |b, k| right(second::write(c, w, &x, first, &recipe, b, k))),
            )
        };
        assert_eq!(ours, theirs, "{call} {c} {w} {x:?} {first} {recipe:?}");
    }
}

#[test]
fn the_panels_variables_or_the_first_ones() {
    // a recipe over 1 to w, and over other names: words, entries and counts differ by the names alone
    let mut recipe = [0; 40];
    for (c, w) in [(3, 2), (53, 8), (2_046, 16), (43_691, 16), (65_535, 1)] {
        let lines = ladlebean::plan(c, &mut vec![0; 1 << 15], &mut recipe).unwrap();
        let recipe = &recipe[..5 * lines];
        let plain = left(32, 16_384, |b, k| told(ladlebean::write_plain(c, w, recipe, b, k)));
        let (words, count, next, length) = plain.answer.unwrap();
        let opened = next - w - 1;
        let x: Vec<i32> = (0..w as i32).map(|i| if i % 2 == 0 { -(37 - 2 * i) } else { 37 - 2 * i }).collect();
        for first in [40, 1_000_000, (1 << 31) - opened] {
            let name = |v: &i32| match v.unsigned_abs() {
                0 => 0,
                n if n <= w => v.signum() * x[n as usize - 1],
                n => v.signum() * (first + n - w - 1) as i32,
            };
            let other = left(32, 16_384, |b, k| told(ladlebean::write(c, w, &x, first, recipe, b, k)));
            assert_eq!(other.answer, Ok((words, count, first + opened, length)), "{c} {w} {first}");
            assert!(plain.clauses[..words].iter().map(name).eq(other.clauses[..words].iter().copied()), "{c} {w} {first}");
            assert!(plain.bits[..length].iter().map(name).eq(other.bits[..length].iter().copied()), "{c} {w} {first}");
        }
        let past = left(32, 16_384, |b, k| told(ladlebean::write(c, w, &x, (1 << 31) - opened + 1, recipe, b, k)));
        assert_eq!(past.answer, Err(second::Refusal { number: 15, line: 0, value: 0 }));
        assert!(past.bits.iter().chain(&past.clauses).all(|entry| *entry == 7));
    }
}

#[test]
fn passes_agree() {
    let mut reader = Reader(streams::passes(SEED, 20_000), 0);
    while !reader.ended() {
        let (_, words, given, room) = (reader.number(1), reader.number(2), reader.number(1), reader.number(2));
        let allowance = reader.number(8);
        let mut list = |many: u64| -> Vec<i32> { (0..many).map(|_| (reader.number(4) as i64 - (1 << 31)) as i32).collect() };
        let (words, given) = (list(words), list(given));
        let mut ours = reader.take(room as usize);
        let mut theirs = ours.clone();
        let answer = ladlebean::propagate(&words, &given, allowance, &mut ours).map_err(fields);
        assert_eq!(answer, second::propagate(&words, &given, allowance, &mut theirs), "{words:?} {given:?} {allowance}");
        assert_eq!(ours, theirs, "{words:?} {given:?} {allowance}");
    }
}

#[test]
fn a_pass_multiplies() {
    // what the archive wrote, read by the archive's pass alone: every variable that was opened has a value, and y is c times x
    let mut recipe = [0; 40];
    for (c, w, first) in [(1, 1, 40), (3, 2, 40), (53, 8, 1_000), (2_046, 16, 40), (43_691, 16, 60_000), (65_535, 5, 41)] {
        let lines = ladlebean::plan(c, &mut vec![0; 1 << 15], &mut recipe).unwrap();
        let x: Vec<i32> = (0..w as i32).map(|i| if i % 2 == 0 { -(37 - 2 * i) } else { 37 - 2 * i }).collect();
        let written = left(32, 16_384, |b, k| told(ladlebean::write(c, w, &x, first, &recipe[..5 * lines], b, k)));
        let (words, clauses, next, bits) = written.answer.unwrap();
        for number in (0..1u64 << w).step_by(if w > 8 { 997 } else { 1 }) {
            let given: Vec<i32> = x.iter().enumerate().map(|(i, l)| if number >> i & 1 == 1 { *l } else { -l }).collect();
            let mut values = vec![ladlebean::UNKNOWN; next as usize - 1];
            assert_eq!(ladlebean::propagate(&written.clauses[..words], &given, clauses as u64, &mut values), Ok(clauses as u64));
            assert!(values[first as usize - 1..].iter().all(|value| *value < 2), "{c} {w} {number}");
            let bit = |l: &i32| *l != 0 && values[l.unsigned_abs() as usize - 1] == u8::from(*l > 0);
            let y: u64 = written.bits[..bits].iter().enumerate().map(|(i, l)| u64::from(bit(l)) << i).sum();
            assert_eq!(y, c * number, "{c} {w} {number}");
        }
    }
}

#[test]
fn constants_and_widths_of_every_size() {
    for c in [0, 1, 65_535, 65_536, u64::from(u32::MAX) + 1, u64::MAX] {
        assert_eq!(ladlebean::check(c, &[]).map_err(fields), second::check(c, &[]), "{c}");
        for w in [0, 1, 16, 17, u32::MAX] {
            let answer = told(ladlebean::write_plain(c, w, &[], &mut [], &mut []));
            assert_eq!(answer, right(second::write_plain(c, u64::from(w), &[], &mut [], &mut [])), "{c} {w}");
            for first in [0, 1, 2, 1 << 31, (1 << 31) + 1, u32::MAX] {
                let x = [i32::MIN];
                let answer = told(ladlebean::write(c, w, &x, first, &[], &mut [], &mut []));
                assert_eq!(answer, right(second::write(c, u64::from(w), &x, first, &[], &mut [], &mut [])), "{c} {w} {first}");
            }
        }
    }
}

#[test]
fn a_refusal_shows_its_line() {
    // 1965 = 131 * 16 - 131 with another kind, operand or claim in line 2 or 3
    let right = [0x20, 4, 0, 0, 3, 0x20, 0x1C, 0x10, 0, 0x83, 0x41, 0x10, 0x20, 7, 0xAD];
    assert_eq!(ladlebean::check(1965, &right), Ok(()));
    let shown = |place: usize, byte: u8| {
        let mut recipe = right;
        recipe[place] = byte;
        let refusal = ladlebean::check(1965, &recipe).unwrap_err();
        assert_eq!(ladlebean::write_plain(1965, 8, &recipe, &mut [], &mut []), Err(refusal));
        refusal.to_string()
    };
    assert_eq!(shown(10, 0x61), "refused 7: line 3 gives -1965, claims 1965");
    assert_eq!(shown(9, 0x85), "refused 7: line 2 gives 131, claims 133");
    assert_eq!(shown(9, 0x84), "refused 6: line 2");
    assert_eq!(shown(12, 0x30), "refused 5: line 3");
    assert_eq!(shown(5, 0), "refused 4: line 2");
    assert_eq!(ladlebean::check(1967, &right).unwrap_err().to_string(), "refused 8");
    assert_eq!(ladlebean::check(0, &right).unwrap_err().to_string(), "refused 1");
    assert_eq!(ladlebean::plan(0, &mut [], &mut []).unwrap_err().to_string(), "refused 1");
}
