//! Every sum done on the bench in document 01, one of them as document 02 has it.

mod common;
use common::*;

fn y_of(c: u64, w: u64) -> Vec<i32> {
    written(c, w, &planned(c)).bits
}

#[test]
fn splits_of_1_3_5_7() {
    let mut work = [0xEE; 5];
    second::plan(7, &mut work, &mut [0; 5]).unwrap();
    assert_eq!(work, [0, 33, 34, 67, 0xEE]);
}

#[test]
fn plan_for_53() {
    let mut recipe = [0; 15];
    assert_eq!(second::plan(53, &mut [0; 32], &mut recipe), Ok(3));
    let expected = [0x20, 0x04, 0, 0, 0x03, 0x20, 0x88, 0, 0, 0x0D, 0x21, 0x08, 0, 0, 0x35];
    assert_eq!(recipe, expected);
}

#[test]
fn rooms_of_53() {
    assert_eq!(second::plan(53, &mut [0; 32], &mut [0; 15]), Ok(3));
    assert_eq!(numbered(second::plan(53, &mut [0; 32], &mut [0; 14])), Err(12));
    assert_eq!(numbered(second::plan(53, &mut [0; 31], &mut [0; 15])), Err(11));
}

#[test]
fn plan_for_7() {
    assert_eq!(planned(7), [0x40, 0x0C, 0, 0, 0x07]);
}

#[test]
fn plan_for_1() {
    assert_eq!(second::plan(1, &mut [9], &mut []), Ok(0));
    assert!(planned(1).is_empty());
}

#[test]
fn recipe_63_59() {
    let recipe = [0x40, 0x18, 0, 0, 0x3F, 0x60, 0x88, 0, 0, 0x3B];
    assert_eq!(recipe, recipe_of(&[(SMINUS, 0, 6, 0, 63), (MINUSS, 1, 2, 0, 59)])[..]);
    assert_eq!(check(59, &recipe), Ok(()));
}

#[test]
fn y_of_5_at_2() {
    let written = written(5, 2, &planned(5));
    assert_eq!(written.bits, [1, 2, 1, 2]);
    assert_eq!(written.counts, second::Counts { words: 0, clauses: 0, next: 3, bits: 4 });
}

#[test]
fn y_of_7_at_1() {
    let written = written(7, 1, &planned(7));
    assert_eq!(written.bits, [1, 1, 1]);
    assert_eq!((written.counts.clauses, written.counts.words), (0, 0));
}

#[test]
fn y_of_6_at_2() {
    assert_eq!(y_of(6, 2), [0, 1, 3, 5, 6]);
}

#[test]
fn recipe_3_5_at_1() {
    let recipe = recipe_of(&[(SPLUS, 0, 1, 0, 3), (SMINUS, 1, 1, 0, 5)]);
    let written = written(5, 1, &recipe);
    assert_eq!(written.bits, [1, 0, 1]);
    assert_eq!(written.counts, second::Counts { words: 0, clauses: 0, next: 2, bits: 3 });
}

#[test]
fn rooms_of_3_at_2() {
    let recipe = planned(3);
    let with_rooms = |bits: usize, words: usize| {
        let counts = second::write_plain(3, 2, &recipe, &mut vec![0; bits], &mut vec![0; words]);
        numbered(counts).map(|counts| (counts.bits, counts.words))
    };
    assert_eq!(with_rooms(4, 52), Ok((4, 52)));
    assert_eq!(with_rooms(4, 51), Err(10));
    assert_eq!(with_rooms(3, 52), Err(9));
}

#[test]
fn recipe_3_131_1965() {
    let lines = [(SPLUS, 0, 1, 0, 3), (SPLUS, 0, 7, 1, 131), (SMINUS, 2, 4, 2, 1965)];
    assert_eq!(check(1965, &recipe_of(&lines)), Ok(()));
}

#[test]
fn misprint_for_2047() {
    assert_eq!(check(2047, &line(SPLUS, 0, 11, 0, 2047)), Err(7));
}

#[test]
fn misprint_for_49() {
    let lines = [(SMINUS, 0, 4, 0, 15), (SPLUS, 0, 6, 1, 49)];
    assert_eq!(check(15, &recipe_of(&lines[..1])), Ok(()));
    assert_eq!(check(49, &recipe_of(&lines)), Err(7));
}

fn recipes_for_117() -> [Vec<u8>; 3] {
    [
        recipe_of(&[(SPLUS, 0, 4, 0, 17), (SPLUS, 0, 1, 1, 19), (SMINUS, 1, 3, 2, 117)]),
        recipe_of(&[(SMINUS, 0, 6, 0, 63), (MINUSS, 1, 2, 0, 59), (SMINUS, 2, 1, 0, 117)]),
        recipe_of(&[(SPLUS, 0, 1, 0, 3), (SPLUS, 1, 4, 0, 49), (SPLUS, 0, 4, 0, 17), (SPLUS, 3, 2, 2, 117)]),
    ]
}

#[test]
fn recipes_for_117_are_accepted() {
    for recipe in recipes_for_117() {
        assert_eq!(check(117, &recipe), Ok(()));
        let written = written(117, 4, &recipe);
        (0..16).for_each(|x| assert_propagates(117, &written, x));
    }
}

/// An adder is a column that opens a sum variable; a sum has four or eight
/// clauses, which all end in its variable, and a carry has three or six.
fn adders(room: &[i32], highest: u32) -> usize {
    let mut ending = vec![0; highest as usize + 1];
    for clause in clauses(room) {
        ending[clause.last().unwrap().unsigned_abs() as usize] += 1;
    }
    ending.iter().filter(|count| [4, 8].contains(*count)).count()
}

/// The passage takes a subtraction as an adder in every column, an addition
/// as one where two bits or more meet.
fn adders_as_in_the_passage(recipe: &[u8], w: u64) -> usize {
    let mut before = 0;
    let mut total = 0;
    for end in (5..=recipe.len()).step_by(5) {
        let (kind, k) = (u64::from(recipe[end - 5] >> 5), u64::from(recipe[end - 1]));
        let written = written(k, w, &recipe[..end]);
        let upto = adders(&written.room, written.highest());
        total += if kind == SPLUS { upto - before } else { written.bits.len() };
        before = upto;
    }
    total
}

#[test]
fn adder_counts_of_117_are_those_of_w_4() {
    assert_eq!(recipes_for_117().map(|recipe| adders_as_in_the_passage(&recipe, 4)), [18, 31, 12]);
    assert_ne!(recipes_for_117().map(|recipe| adders_as_in_the_passage(&recipe, 3)), [18, 31, 12]);
}

#[test]
fn the_largest_c_and_w_pass() {
    let written = written(65_535, 16, &planned(65_535));
    assert_eq!(written.counts.bits, 32);
    let inputs = [0, 1, 2, 255, 256, 32_767, 43_690, 65_534, 65_535];
    inputs.into_iter().for_each(|x| assert_propagates(65_535, &written, x));
}

#[test]
fn c_65_536_and_w_17_are_refused() {
    let recipe = planned(65_535);
    let mut rooms = (vec![0; 40], vec![0; WORDS]);
    assert_eq!(numbered(second::write_plain(65_536, 16, &recipe, &mut rooms.0, &mut rooms.1)), Err(1));
    assert_eq!(numbered(second::write_plain(65_535, 17, &recipe, &mut rooms.0, &mut rooms.1)), Err(2));
    assert_eq!(numbered(second::plan(65_536, &mut [0; 1 << 16], &mut [0; 160])), Err(1));
    assert_eq!(check(65_536, &recipe), Err(1));
}

#[test]
fn recipe_bytes_160_pass_and_165_do_not() {
    let three = line(SPLUS, 0, 1, 0, 3);
    assert_eq!(check(3, &three.repeat(32)), Ok(()));
    assert_eq!(check(3, &three.repeat(33)), Err(3));
}

#[test]
fn a_line_of_twenty_ones_is_accepted() {
    let lines = [(SMINUS, 0, 20, 0, 1_048_575), (SPLUS, 0, 1, 0, 3)];
    assert_eq!(check(3, &recipe_of(&lines)), Ok(()));
    assert_eq!(check(3, &recipe_of(&lines[..1])), Err(8));
    for w in 1..=4 {
        let written = written(3, w, &recipe_of(&lines));
        (0..1 << w).for_each(|x| assert_propagates(3, &written, x));
    }
}

const FILE_3_2: &str = "c mul 3 2
c y 1 3 5 6
p cnf 6 14
1 2 -3 0
1 -2 3 0
-1 2 3 0
-1 -2 -3 0
1 -4 0
2 -4 0
-1 -2 4 0
2 4 -5 0
2 -4 5 0
-2 4 5 0
-2 -4 -5 0
2 -6 0
4 -6 0
-2 -4 6 0
";

#[test]
fn whole_file_for_3_2() {
    assert_eq!(String::from_utf8(second::print(b"3 2\n")).unwrap(), FILE_3_2);
    assert_eq!(String::from_utf8(second::print_recipe(3, 2, &planned(3))).unwrap(), FILE_3_2);
}

#[test]
fn leading_zeros_are_read_and_not_printed() {
    assert_eq!(second::print(b"00003 02\n"), FILE_3_2.as_bytes());
}

#[test]
fn files_without_clauses() {
    assert_eq!(second::print(b"5 2\n"), b"c mul 5 2\nc y 1 2 1 2\np cnf 2 0\n");
    assert_eq!(second::print(b"1 1\n"), b"c mul 1 1\nc y 1\np cnf 1 0\n");
    assert_eq!(second::print(b"8 2\n"), b"c mul 8 2\nc y 0 0 0 1 2\np cnf 2 0\n");
}
