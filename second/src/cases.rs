//! Worked cases for the definitions to be held to, printed as the table that
//! the proofs compute. Only the numbers come from here; the table's layout is
//! that of the definitions' own formatter.

use crate::bad_lines;
use crate::edges::{self, Call};
use crate::passes::{self, Pass};
use crate::{check, plan, print, write_plain, Counts, Refusal};

/// The chosen splits of all odd numbers of at most this many bits are printed.
const TABLE_BITS: u32 = 9;
/// What every room holds before a call.
const BEFORE: u8 = 7;

/// The whole file.
pub fn table() -> String {
    let rows = [
        field("chosen", chosen()),
        field("planned", planned()),
        field("plan_rooms", plan_rooms()),
        field("checked", checked()),
        field("written", written()),
        field("write_rooms", write_rooms()),
        field("given", edges::calls().iter().map(given_row).collect()),
        field("given_rooms", edges::rooms().iter().map(given_rooms_row).collect()),
        field("propagated", passes::calls().iter().map(propagated_row).collect()),
        field("printed", printed()),
    ];
    format!("{HEAD}{}\n\nunfoldable pub agreed : Table\nagreed =\n    record {{\n{}    }}\n", splits(), rows.concat())
}

const HEAD: &str = "-- The second engine's answers. Printed by `second cases`; do not edit.
use Rattle.std.specs.Prelude.{ℕ, List, [], ◌∷◌, pos, negsuc}
use Rattle.cases.specs.Table.{Table}

-- the chosen splits of the odd numbers of at most 9 bits
unfoldable pub agreed_splits : List ℕ
agreed_splits = ";

fn field(name: &str, rows: Vec<String>) -> String {
    format!("      {name} =\n          {}\n          ∷ [];\n", rows.join("\n          ∷ "))
}

fn list<T>(items: &[T], show: impl Fn(&T) -> String) -> String {
    items.iter().map(|item| show(item) + " ∷ ").collect::<String>() + "[]"
}

fn naturals(bytes: &[u8]) -> String {
    list(bytes, u8::to_string)
}

fn integers(words: &[i32]) -> String {
    list(words, |&word| integer(word.into()))
}

fn integer(value: i64) -> String {
    if value < 0 {
        format!("negsuc {}", -(value + 1))
    } else {
        format!("pos {value}")
    }
}

/// A refusal's number, or 0.
fn number<T>(answer: &Result<T, Refusal>) -> u8 {
    Refusal::of(answer).number
}

/// All that a refusal tells, in the tables of calls that check lines.
fn refusal<T>(answer: &Result<T, Refusal>) -> String {
    let Refusal { number, line, value } = Refusal::of(answer);
    format!("number = {number}; line = {line}; value = {}", integer(value))
}

fn work_room(bits: u32) -> Vec<u8> {
    vec![BEFORE; 1 << (bits - 1)]
}

fn recipe_for(c: u64) -> Vec<u8> {
    let mut recipe = vec![0; 40];
    let lines = plan(c, &mut work_room(16), &mut recipe).expect("c is in range");
    recipe.truncate(5 * lines);
    recipe
}

fn splits() -> String {
    let mut work = work_room(TABLE_BITS);
    plan((1 << TABLE_BITS) - 1, &mut work, &mut [BEFORE; 20]).expect("the rooms are long enough");
    naturals(&work)
}

fn chosen() -> Vec<String> {
    let mut work = work_room(5);
    plan(31, &mut work, &mut [BEFORE; 10]).expect("the rooms are long enough");
    work.iter().enumerate().map(|(i, split)| format!("record {{ n = {}; split = {split} }}", 2 * i + 1)).collect()
}

/// The lengths that planning c asks of its rooms.
fn plan_lengths(c: u64) -> (usize, usize) {
    let bits = (c >> c.trailing_zeros()).ilog2() + 1;
    (1 << (bits - 1), 5 * (bits as usize / 2))
}

fn planned() -> Vec<String> {
    let constants =
        [2, 9, 23, 44, 45, 89, 105, 117, 171, 182, 213, 255, 341, 367, 427, 437, 459, 491, 505, 511, 65_280, 54_272];
    let exact = constants.map(|c| (c, plan_lengths(c).0, plan_lengths(c).1));
    let longer = [(173, 200, 33), (493, 300, 160)];
    let refused = [
        (0, 9, 9),
        (65_536, 9, 9),
        (4_294_967_295, 0, 0),
        (45, 31, 15),
        (45, 32, 14),
        (45, 31, 14),
        (511, 255, 20),
        (511, 256, 19),
        (0, 0, 0),
        (8, 0, 0),
    ];
    let rows = exact.iter().chain(&longer).chain(&refused);
    rows.map(|&(c, work, recipe)| planned_row(c, work, recipe)).collect()
}

fn planned_row(c: u64, work: usize, recipe: usize) -> String {
    let mut room = vec![BEFORE; recipe];
    let answer = plan(c, &mut vec![BEFORE; work], &mut room);
    let lines = naturals(&room[..5 * answer.unwrap_or(0)]);
    format!("record {{ c = {c}; work = {work}; recipe = {recipe}; number = {}; lines = {lines} }}", number(&answer))
}

fn plan_rooms() -> Vec<String> {
    [(1, 3, 4), (12, 4, 8), (23, 18, 12), (45, 35, 15), (45, 31, 20), (0, 2, 2)]
        .map(|(c, work, recipe)| plan_rooms_row(c, work, recipe))
        .to_vec()
}

fn plan_rooms_row(c: u64, work: usize, recipe: usize) -> String {
    let (mut work_room, mut recipe_room) = (vec![BEFORE; work], vec![BEFORE; recipe]);
    let _ = plan(c, &mut work_room, &mut recipe_room);
    let rooms = format!("work_room = {}; recipe_room = {}", naturals(&work_room), naturals(&recipe_room));
    format!("record {{ c = {c}; work = {work}; recipe = {recipe}; {rooms} }}")
}

/// The planned recipe of c with one bit of it turned over, counted from the
/// first byte's most significant.
fn damaged(c: u64, bit: usize) -> Vec<u8> {
    let mut recipe = recipe_for(c);
    recipe[bit / 8] ^= 0x80 >> (bit % 8);
    recipe
}

fn checked() -> Vec<String> {
    let whole = [1, 64, 3, 53, 255, 1_000, 21_845, 43_691, 47_803, 61_687, 65_535].map(|c| (c, recipe_for(c)));
    let broken = [0, 1, 2, 5, 8, 9, 13, 14, 19, 20, 30, 39, 40, 42, 48, 52, 59, 60, 79, 80, 99, 119]
        .map(|bit| (47_803, damaged(47_803, bit)));
    let others = [
        (0, vec![]),
        (65_536, vec![]),
        (9, vec![0; 4]),
        (9, vec![0x20; 165]),
        (3, recipe_for(3).repeat(32)),
        (6, recipe_for(5)),
        (5, recipe_for(10)),
    ];
    // x - 2^31 * x is far below zero, 2^20 + 1 is too large for its claim, 2^20 - 1 is a right line for no constant
    let edges = [
        vec![0x60, 0x7C, 0, 0, 1],
        vec![0x20, 0x50, 0, 0, 1],
        vec![0x40, 0x50, 0x0F, 0xFF, 0xFF],
        vec![0x5F, 0xFF, 0xFF, 0xFF, 0xFE],
    ]
    .map(|recipe| (1, recipe));
    // lines that break two rules: the form and an operand, either operand and an even claim, an even claim and the value
    let twice = [
        vec![0xA0, 0x84, 0, 0, 3],
        vec![0x00, 0x04, 0x10, 0, 3],
        vec![0x20, 0x84, 0, 0, 2],
        vec![0x20, 0x04, 0x10, 0, 2],
        vec![0x20, 0x04, 0, 0, 4],
    ]
    .map(|recipe| (1, recipe));
    let bad_lines = bad_lines::proposals();
    let rows = whole.iter().chain(&broken).chain(&others).chain(&edges).chain(&twice).chain(&bad_lines);
    rows.map(|(c, recipe)| checked_row(*c, recipe)).collect()
}

fn checked_row(c: u64, recipe: &[u8]) -> String {
    format!("record {{ c = {c}; recipe = {}; {} }}", naturals(recipe), refusal(&check(c, recipe)))
}

/// A constant, a width and a recipe: planned ones, and ones with a line that
/// subtracts, a line that repeats another and a line that nothing uses.
fn recipes() -> Vec<(u64, u64, Vec<u8>)> {
    let planned = [
        (1, 16),
        (3, 2),
        (6, 2),
        (7, 3),
        (11, 1),
        (12, 4),
        (45, 2),
        (53, 3),
        (59, 2),
        (255, 4),
        (21_845, 5),
        (65_535, 3),
    ];
    let by_hand = [
        (59, 2, vec![0x40, 0x18, 0, 0, 0x3F, 0x60, 0x88, 0, 0, 0x3B]),
        (5, 3, vec![0x20, 4, 0, 0, 3, 0x40, 0x84, 0, 0, 5]),
        (3, 2, vec![0x20, 8, 0, 0, 5, 0x40, 8, 0, 0, 3, 0x20, 4, 0, 0, 3]),
        (20, 1, vec![0x20, 8, 0, 0, 5, 0x60, 0x84, 0, 0, 3, 0x41, 4, 0, 0, 5]),
    ];
    planned.map(|(c, w)| (c, w, recipe_for(c))).into_iter().chain(by_hand).collect()
}

fn write_lengths(c: u64, w: u64, recipe: &[u8]) -> (usize, usize) {
    let counts = write_plain(c, w, recipe, &mut [0; 32], &mut [0; 80_000]).expect("the rooms are long enough");
    (counts.bits, counts.words)
}

fn written() -> Vec<String> {
    let mut rows = Vec::new();
    for (c, w, recipe) in recipes() {
        let (bits, clauses) = write_lengths(c, w, &recipe);
        rows.push(written_row(c, w, &recipe, bits, clauses));
        if clauses > 0 {
            rows.push(written_row(c, w, &recipe, bits, clauses - 1));
        }
        rows.push(written_row(c, w, &recipe, bits - 1, clauses));
    }
    // The documents' own row with two inputs of one variable.
    let five = edges::lines(&edges::THREE_FIVE);
    let (bits, clauses) = write_lengths(5, 1, &five);
    rows.push(written_row(5, 1, &five, bits, clauses));
    let refused = [(0, 0, 3), (65_536, 3, 3), (3, 0, 5), (3, 17, 5), (3, 4_294_967_295, 3), (5, 2, 3), (3, 2, 3)];
    rows.extend(refused.map(|(c, w, planned)| written_row(c, w, &recipe_for(planned), 3, 51)));
    rows.push(written_row(3, 2, &damaged(3, 0), 3, 51));
    rows.extend(bad_lines::writes().iter().map(|(w, (c, recipe))| written_row(*c, *w, recipe, 3, 51)));
    rows
}

/// A call of writing in rooms of two lengths: what it is shown as, and the
/// call itself, which is document 01's or one over given literals.
struct Writing<'a> {
    c: u64,
    w: u64,
    recipe: &'a [u8],
    bits: usize,
    clauses: usize,
    call: &'a Filling<'a>,
}

type Filling<'a> = dyn Fn(&mut [i32], &mut [i32]) -> Result<Counts, Refusal> + 'a;

impl Writing<'_> {
    /// The answer and both rooms at exit.
    fn done(&self) -> (Result<Counts, Refusal>, Vec<i32>, Vec<i32>) {
        let (mut bit_room, mut clause_room) =
            (vec![i32::from(BEFORE); self.bits], vec![i32::from(BEFORE); self.clauses]);
        ((self.call)(&mut bit_room, &mut clause_room), bit_room, clause_room)
    }

    fn arguments(&self) -> String {
        let Writing { c, w, recipe, bits, clauses, .. } = self;
        format!("c = {c}; w = {w}; recipe = {}; bits = {bits}; clauses = {clauses}", naturals(recipe))
    }

    fn answer_row(&self) -> String {
        let (answer, bit_room, _) = self.done();
        let counts =
            answer.as_ref().map_or([0; 4], |counts| [counts.words, counts.clauses, counts.next as usize, counts.bits]);
        let shown = format!(
            "words_used = {}; clauses_written = {}; next = {}; y = {}",
            counts[0],
            counts[1],
            counts[2],
            integers(&bit_room[..counts[3]])
        );
        format!("record {{ {}; {}; {shown} }}", self.arguments(), refusal(&answer))
    }

    fn rooms_row(&self) -> String {
        let (_, bit_room, clause_room) = self.done();
        let rooms = format!("bit_room = {}; clause_room = {}", integers(&bit_room), integers(&clause_room));
        format!("record {{ {}; {rooms} }}", self.arguments())
    }
}

fn written_row(c: u64, w: u64, recipe: &[u8], bits: usize, clauses: usize) -> String {
    let call = |y: &mut [i32], words: &mut [i32]| write_plain(c, w, recipe, y, words);
    Writing { c, w, recipe, bits, clauses, call: &call }.answer_row()
}

fn write_rooms() -> Vec<String> {
    let mut rows = Vec::new();
    for (c, w, recipe) in recipes() {
        let (bits, clauses) = write_lengths(c, w, &recipe);
        if clauses < 700 {
            rows.push(write_rooms_row(c, w, &recipe, bits + 2, clauses + 3));
        }
    }
    rows.push(write_rooms_row(3, 2, &recipe_for(3), 4, 5));
    rows.push(write_rooms_row(3, 2, &recipe_for(3), 3, 52));
    rows
}

fn write_rooms_row(c: u64, w: u64, recipe: &[u8], bits: usize, clauses: usize) -> String {
    let call = |y: &mut [i32], words: &mut [i32]| write_plain(c, w, recipe, y, words);
    Writing { c, w, recipe, bits, clauses, call: &call }.rooms_row()
}

/// The literals and the first free number around a row of writing.
fn given(given: &Call, row: impl Fn(&Writing) -> String) -> String {
    let Call { c, w, x, first, recipe, bits, clauses } = given;
    let call = |y: &mut [i32], words: &mut [i32]| given.answer(y, words);
    let writing = Writing { c: *c, w: *w, recipe, bits: *bits, clauses: *clauses, call: &call };
    format!("record {{ x = {}; first = {first}; call = {} }}", integers(x), row(&writing))
}

fn given_row(call: &Call) -> String {
    given(call, |writing| writing.answer_row())
}

fn given_rooms_row(call: &Call) -> String {
    given(call, |writing| writing.rooms_row())
}

fn propagated_row(call: &Pass) -> String {
    let Pass { words, given, allowance, room } = call;
    let (answer, left) = call.answer();
    let shown = format!(
        "words = {}; given = {}; allowance = {allowance}; room = {}",
        integers(words),
        integers(given),
        naturals(room)
    );
    let (number, clauses) = (number(&answer), answer.unwrap_or(0));
    format!("record {{ {shown}; number = {number}; clauses = {clauses}; left = {} }}", naturals(&left))
}

fn printed() -> Vec<String> {
    let inputs: [&[u8]; 22] = [
        b"3 2\n",
        b"00003 02\n",
        b"1 1\n",
        b"6 2\n",
        b"53 1\n",
        b"511 2\n",
        b"0 2\n",
        b"65536 2\n",
        b"99999 99\n",
        b"3 0\n",
        b"3 17\n",
        b"",
        b"\n",
        b"3",
        b"3 2",
        b"3 2\r\n",
        b"3  2\n",
        b" 3 2\n",
        b"3 2\n\n",
        b"123456 2\n",
        b"3 002\n",
        b"3 -2\n",
    ];
    inputs
        .map(|input| format!("record {{ input = {}; output = {} }}", naturals(input), naturals(&print(input))))
        .to_vec()
}

#[cfg(test)]
mod tests {
    use super::*;

    #[test]
    fn integers_at_both_ends() {
        let shown = "negsuc 2147483647 ∷ negsuc 0 ∷ pos 0 ∷ pos 2147483647 ∷ []";
        assert_eq!(integers(&[i32::MIN, -1, 0, i32::MAX]), shown);
        assert_eq!([i64::MIN, i64::MAX].map(integer), ["negsuc 9223372036854775807", "pos 9223372036854775807"]);
    }

    #[test]
    fn rows_of_checking() {
        let shown = |c: u64, recipe: &[u8], rest: &str| {
            assert_eq!(checked_row(c, recipe), format!("record {{ c = {c}; recipe = {}; {rest} }}", naturals(recipe)));
        };
        shown(6, &recipe_for(3), "number = 0; line = 0; value = pos 0");
        shown(5, &recipe_for(3), "number = 8; line = 0; value = pos 0");
        shown(3, &[recipe_for(3), damaged(3, 0)].concat(), "number = 4; line = 2; value = pos 0");
        shown(3, &[0x60, 4, 0, 0, 3], "number = 7; line = 1; value = negsuc 0");
        shown(3, &[0x20, 0x7C, 0, 0, 3], "number = 7; line = 1; value = pos 2147483649");
    }

    /// Without repeats, few enough to be computed, and with each rule of the lines broken in several of them.
    #[test]
    fn the_rows_of_checking_differ_and_meet_every_rule() {
        let rows = checked();
        let distinct: std::collections::BTreeSet<&String> = rows.iter().collect();
        assert!(distinct.len() == rows.len() && rows.len() < 75, "{}", rows.len());
        for number in 4..=7 {
            let of_line =
                |line: &u64| rows.iter().any(|row| row.contains(&format!("number = {number}; line = {line};")));
            assert!((1..=3).filter(of_line).count() >= 2, "{number}");
        }
        let (least, largest) = ("negsuc 2251797666201598", "pos 2251797667250175");
        let told = [(1, "pos 0"), (1, "negsuc 0"), (3, "negsuc 11"), (32, "pos 3"), (2, least), (2, largest)];
        for (line, value) in told {
            let ending = format!("; number = 7; line = {line}; value = {value} }}");
            assert!(rows.iter().any(|row| row.ends_with(&ending)), "{line} {value}");
        }
    }

    #[test]
    fn a_row_over_given_literals() {
        let call = Call { c: 6, w: 1, x: vec![-9], first: 12, recipe: recipe_for(3), bits: 3, clauses: 1 };
        let shown = "record { c = 6; w = 1; recipe = 32 ∷ 4 ∷ 0 ∷ 0 ∷ 3 ∷ []; bits = 3; clauses = 1; ";
        let row = "number = 0; line = 0; value = pos 0; words_used = 0; clauses_written = 0; next = 12; ";
        let y = "y = pos 0 ∷ negsuc 8 ∷ negsuc 8 ∷ [] }";
        let rooms = "bit_room = pos 0 ∷ negsuc 8 ∷ negsuc 8 ∷ []; clause_room = pos 7 ∷ [] }";
        let around = "record { x = negsuc 8 ∷ []; first = 12; call = ";
        assert_eq!(given_row(&call), format!("{around}{shown}{row}{y} }}"));
        assert_eq!(given_rooms_row(&call), format!("{around}{shown}{rooms} }}"));
        let nothing = "words_used = 0; clauses_written = 0; next = 0; y = [] } }";
        let bad_line = Call { recipe: vec![0x60, 4, 0, 0, 3], ..call };
        assert!(given_row(&bad_line).ends_with(&format!("; number = 7; line = 1; value = negsuc 0; {nothing}")));
        let refused = Call { first: 9, ..bad_line };
        assert!(given_row(&refused).ends_with(&format!("; number = 14; line = 0; value = pos 0; {nothing}")));
    }

    /// Without repeats, and with every refusal that writing has beside the lines'.
    #[test]
    fn the_rows_over_given_literals_differ_and_meet_every_refusal() {
        let rows: Vec<String> = edges::calls().iter().map(given_row).collect();
        let distinct: std::collections::BTreeSet<&String> = rows.iter().collect();
        assert_eq!(distinct.len(), rows.len());
        for number in [0, 1, 2, 14, 3, 7, 8, 15, 9, 10] {
            assert!(rows.iter().any(|row| row.contains(&format!("; number = {number};"))), "{number}");
        }
    }

    #[test]
    fn a_row_of_a_pass() {
        let call = Pass { words: vec![-1, 2, 0], given: vec![1], allowance: 7, room: vec![2, 2, 2] };
        let around = "record { words = negsuc 0 ∷ pos 2 ∷ pos 0 ∷ []; given = pos 1 ∷ []; allowance = 7; ";
        let success = "room = 2 ∷ 2 ∷ 2 ∷ []; number = 0; clauses = 1; left = 1 ∷ 1 ∷ 2 ∷ [] }";
        assert_eq!(propagated_row(&call), format!("{around}{success}"));
        let refused = Pass { room: vec![2, 3], ..call };
        let refusal = "room = 2 ∷ 3 ∷ []; number = 26; clauses = 0; left = 2 ∷ 3 ∷ [] }";
        assert_eq!(propagated_row(&refused), format!("{around}{refusal}"));
    }

    /// Without repeats, few enough to be computed, and with every number several times.
    #[test]
    fn the_rows_of_passes_differ_and_meet_every_refusal() {
        let rows: Vec<String> = passes::calls().iter().map(propagated_row).collect();
        let distinct: std::collections::BTreeSet<&String> = rows.iter().collect();
        assert!(distinct.len() == rows.len() && rows.len() < 120);
        for number in [0, 20, 21, 22, 26] {
            let met = rows.iter().filter(|row| row.contains(&format!("; number = {number};"))).count();
            assert!(met >= 5, "{number}: {met}");
        }
    }
}
