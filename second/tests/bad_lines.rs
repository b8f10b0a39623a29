//! Document 02, c: refusals 4 to 7 tell the line, and 7 also what the line really gives. Elsewhere each field is zero.

mod common;
use common::judged::{claim, first_bad_line, judged};
use common::*;
use second::Refusal;

const THREE: Fields = (SPLUS, 0, 1, 0, 3);
const TWENTY_ONES: Fields = (SMINUS, 0, 20, 0, 1_048_575);
/// Document 01's recipe for 1965.
const RIGHT: [Fields; 3] = [THREE, (SPLUS, 0, 7, 1, 131), (SMINUS, 2, 4, 2, 1965)];

fn told(number: u8, line: u64, value: i64) -> Result<(), Refusal> {
    Err(Refusal { number, line, value })
}

/// What checking tells. Both writings must tell the same, and where nothing is to be told they miss a bit room.
fn asked_at(w: u64, c: u64, recipe: &[u8]) -> Result<(), Refusal> {
    let checked = second::check(c, recipe);
    let expected = checked.err().unwrap_or(Refusal { number: 9, line: 0, value: 0 });
    let given: Vec<i32> = (1..=w as i32).map(|i| if i % 2 == 0 { 50 - i } else { i - 50 }).collect();
    assert_eq!(second::write_plain(c, w, recipe, &mut [], &mut []), Err(expected), "{c} {w} {recipe:?}");
    assert_eq!(second::write(c, w, &given, 50, recipe, &mut [], &mut []), Err(expected), "{c} {w} {recipe:?}");
    checked
}

fn asked(c: u64, lines: &[Fields]) -> Result<(), Refusal> {
    asked_at(2, c, &recipe_of(lines))
}

/// The recipe for 1965 with one line in place of another.
fn with_line(number: usize, line: Fields) -> [Fields; 3] {
    let mut lines = RIGHT;
    lines[number - 1] = line;
    lines
}

#[test]
fn a_wrong_claim_at_either_end() {
    assert_eq!(asked(1965, &RIGHT), Ok(()));
    assert_eq!(asked(1965, &with_line(1, (SPLUS, 0, 1, 0, 5))), told(7, 1, 3));
    // The lines behind it are right over what it claims.
    assert_eq!(
        asked(1995, &[(SPLUS, 0, 1, 0, 5), (SPLUS, 0, 7, 1, 133), (SMINUS, 2, 4, 2, 1995)]),
        told(7, 1, 3),
        "the first line gives no 5"
    );
    let last = [&[THREE; 31][..], &[(SPLUS, 31, 5, 30, 97)]].concat();
    assert_eq!(asked(97, &last), told(7, 32, 99));
}

/// The values of line 2 and 3 come from what lines 1 and 2 claim.
#[test]
fn small_values_below_one() {
    assert_eq!(asked(1, &[(MINUSS, 0, 1, 0, 1)]), told(7, 1, -1));
    assert_eq!(asked(1, &[(SMINUS, 0, 0, 0, 1)]), told(7, 1, 0));
    assert_eq!(asked(1965, &[THREE, (SMINUS, 0, 4, 0, 15), (SMINUS, 1, 0, 2, 1965)]), told(7, 3, -12));
    assert_eq!(asked(1965, &with_line(3, (MINUSS, 1, 4, 2, 1965))), told(7, 3, 3 - 16 * 131));
}

/// The claims agree with what the lines give in their lowest twenty bits.
#[test]
fn values_that_no_claim_can_have() {
    assert_eq!(asked(1, &[(MINUSS, 0, 1, 0, 1_048_575)]), told(7, 1, -1));
    assert_eq!(asked(1, &[(SPLUS, 0, 20, 0, 1)]), told(7, 1, 1_048_577));
    assert_eq!(asked(1, &[(SPLUS, 0, 31, 0, 1)]), told(7, 1, 2_147_483_649));
    assert_eq!(asked(1, &[THREE, (SPLUS, 0, 31, 1, 3)]), told(7, 2, 2_147_483_651));
    assert_eq!(asked(1, &[TWENTY_ONES, (SPLUS, 1, 31, 1, 1_048_575)]), told(7, 2, 2_251_797_667_250_175));
    assert_eq!(asked(1, &[TWENTY_ONES, (MINUSS, 0, 31, 1, 1)]), told(7, 2, -2_251_797_666_201_599));
    assert_eq!(asked(1, &[TWENTY_ONES, (SMINUS, 0, 0, 1, 1)]), told(7, 2, -1_048_574));
}

#[test]
fn every_kind_and_shift_over_the_least_and_the_largest_operands() {
    for (kind, s) in (1..=3).flat_map(|kind| (0..32).map(move |s| (kind, s))) {
        for (left, right) in (0..3).flat_map(|left| (0..3).map(move |right| (left, right))) {
            for claimed in [1, 3, 1_048_575] {
                let recipe = recipe_of(&[THREE, TWENTY_ONES, (kind, left, s, right, claimed)]);
                assert_eq!(asked_at(1, 7, &recipe), judged(7, &recipe), "{kind} {left} {s} {right} {claimed}");
            }
        }
    }
}

#[test]
fn an_operand_that_is_not_earlier() {
    assert_eq!(asked(3, &[(SPLUS, 0, 1, 1, 3)]), told(5, 1, 0));
    assert_eq!(asked(3, &[(SPLUS, 1, 1, 0, 3)]), told(5, 1, 0));
    assert_eq!(asked(1965, &with_line(3, (SMINUS, 2, 4, 3, 1965))), told(5, 3, 0));
    assert_eq!(asked(1965, &with_line(3, (SMINUS, 3, 4, 2, 1965))), told(5, 3, 0));
    assert_eq!(asked(1965, &with_line(2, (SPLUS, 0, 7, 3, 131))), told(5, 2, 0));
    assert_eq!(asked(1965, &with_line(2, (SPLUS, 63, 7, 1, 131))), told(5, 2, 0));
}

#[test]
fn an_even_claim_tells_no_value() {
    assert_eq!(asked(1965, &with_line(2, (SPLUS, 0, 7, 1, 132))), told(6, 2, 0));
    assert_eq!(asked(1965, &with_line(3, (SMINUS, 1, 0, 2, 0))), told(6, 3, 0));
    // What the line gives is even too, and what it claims.
    assert_eq!(asked(1965, &with_line(2, (SPLUS, 0, 0, 1, 4))), told(6, 2, 0));
}

#[test]
fn a_bad_form() {
    assert_eq!(asked(1965, &with_line(2, (0, 0, 7, 1, 131))), told(4, 2, 0));
    assert_eq!(asked(1965, &with_line(2, (0, 9, 0, 9, 0))), told(4, 2, 0));
    for line in 1..=3 {
        let mut recipe = recipe_of(&RIGHT);
        recipe[5 * (line - 1)] |= 0x80;
        assert_eq!(asked_at(16, 1965, &recipe), told(4, line as u64, 0));
    }
}

#[test]
fn the_first_bad_line_is_told() {
    let wrong = (SPLUS, 0, 7, 1, 133);
    assert_eq!(asked(1965, &[THREE, wrong, (0, 2, 4, 2, 1965)]), told(7, 2, 131));
    assert_eq!(asked(1965, &[THREE, wrong, (SMINUS, 9, 4, 2, 1965)]), told(7, 2, 131));
    assert_eq!(asked(1965, &[THREE, wrong, (SMINUS, 2, 4, 2, 1964)]), told(7, 2, 131));
    assert_eq!(asked(1965, &[(SPLUS, 0, 1, 0, 4), wrong, (0, 2, 4, 2, 1965)]), told(6, 1, 0));
}

#[test]
fn the_product_comes_behind_every_line() {
    assert_eq!(asked(1967, &RIGHT), told(8, 0, 0));
    assert_eq!(asked(1967, &with_line(3, (SMINUS, 2, 4, 2, 1963))), told(7, 3, 1965));
    assert_eq!(asked(1967, &with_line(3, (SMINUS, 2, 4, 2, 1967))), told(7, 3, 1965));
}

/// Lines that break a rule wherever they stand among lines that give 3, by what they tell.
fn bad_lines(number: u64) -> Vec<(Vec<u8>, u8, i64)> {
    let mut top = line(SPLUS, 0, 1, 0, 3);
    top[0] |= 0x80;
    vec![
        (top, 4, 0),
        (line(0, 0, 1, 0, 3), 4, 0),
        (line(SPLUS, number, 1, 0, 3), 5, 0),
        (line(SPLUS, 0, 1, number, 3), 5, 0),
        (line(SPLUS, 63, 1, number - 1, 3), 5, 0),
        (line(SPLUS, 0, 1, 0, 2), 6, 0),
        (line(SPLUS, 0, 1, 0, 1), 7, 3),
        (line(MINUSS, 0, 1, 0, 3), 7, -1),
        (line(SMINUS, 0, 31, 0, 3), 7, 2_147_483_647),
    ]
}

/// At each place of the longest recipe, and with nothing behind it.
#[test]
fn every_line_number_is_told() {
    for number in 1..=32u64 {
        for (bad, refusal, value) in bad_lines(number) {
            let mut recipe = recipe_of(&[THREE; 32]);
            recipe.splice(5 * (number as usize - 1)..5 * number as usize, bad);
            assert_eq!(asked_at(3, 3, &recipe), told(refusal, number, value), "{number}");
            assert_eq!(asked_at(3, 3, &recipe[..5 * number as usize]), told(refusal, number, value), "{number}");
        }
    }
}

/// The recipes here have a bad line too, as far as a test before the lines refuses them.
#[test]
fn elsewhere_each_field_is_zero() {
    let (good, bad) = (recipe_of(&[THREE]), recipe_of(&with_line(2, (MINUSS, 0, 7, 1, 131))));
    assert_eq!(asked_at(2, 1965, &bad), told(7, 2, 1 - 128 * 3));
    for c in [0, 65_536, u64::MAX] {
        assert_eq!(asked_at(2, c, &bad), told(1, 0, 0));
    }
    assert_eq!(asked_at(2, 1965, &bad[..14]), told(3, 0, 0));
    assert_eq!(asked_at(2, 1965, &bad.repeat(11)), told(3, 0, 0));
    assert_eq!(asked_at(2, 5, &good), told(8, 0, 0));

    let none = |number: u8| Refusal { number, line: 0, value: 0 };
    assert_eq!(second::plan(0, &mut [0; 9], &mut [0; 9]), Err(none(1)));
    assert_eq!(second::plan(53, &mut [0; 31], &mut [0; 15]), Err(none(11)));
    assert_eq!(second::plan(53, &mut [0; 32], &mut [0; 14]), Err(none(12)));

    let written = |w: u64, x: &[i32], first: u32, recipe: &[u8], bits: usize| {
        second::write(3, w, x, first, recipe, &mut vec![0; bits], &mut [0; 51]).unwrap_err()
    };
    assert_eq!(written(17, &[1, 2], 3, &bad, 4), none(2));
    assert_eq!(written(2, &[1, -1], 3, &bad, 4), none(14));
    assert_eq!(written(2, &[1, 2], 2_147_483_645, &good, 4), none(15));
    assert_eq!(written(2, &[1, 2], 3, &good, 3), none(9));
    assert_eq!(written(2, &[1, 2], 3, &good, 4), none(10));
    assert_eq!(second::write_plain(3, 0, &bad, &mut [], &mut []), Err(none(2)));
    assert_eq!(second::write_plain(3, 2, &good, &mut [0; 4], &mut [0; 51]), Err(none(10)));

    assert_eq!(second::propagate(&[1, 0], &[], 0, &mut [2]), Err(none(20)));
    assert_eq!(second::propagate(&[1, 2], &[], 9, &mut [2]), Err(none(21)));
    assert_eq!(second::propagate(&[0], &[], 9, &mut [2]), Err(none(22)));
    assert_eq!(second::propagate(&[1, 0], &[], 9, &mut [1]), Err(none(26)));
}

/// The file keeps to the number, whatever a refusal tells beside it.
#[test]
fn the_file_tells_the_number_alone() {
    for number in 4..=7 {
        let bad = bad_lines(2).into_iter().find(|(_, refusal, _)| *refusal == number).unwrap().0;
        let recipe = [line(SPLUS, 0, 1, 0, 3), bad].concat();
        assert_eq!(second::print_recipe(3, 2, &recipe), format!("refused {number}\n").into_bytes());
    }
}

/// Lines that are right, whatever the constant, are refused by nothing but their product.
fn assert_right_lines(recipe: &[u8]) {
    let product = recipe.chunks(5).last().map_or(1, claim) as u64;
    let other = if product == 1 { 3 } else { 1 };
    assert_eq!(second::check(other, recipe), told(8, 0, 0), "{recipe:?}");
    if product <= 65_535 {
        assert_eq!(second::check(product, recipe), Ok(()), "{recipe:?}");
    }
}

/// The line with another claim, if the value can be one.
fn with_claim(line: &[u8], value: i64) -> Option<Vec<u8>> {
    let claimed = u64::try_from(value).ok().filter(|value| value % 2 == 1 && *value <= 1_048_575)?;
    let number = line.iter().fold(0, |number, byte| number << 8 | u64::from(*byte));
    Some((number >> 20 << 20 | claimed).to_be_bytes()[3..].to_vec())
}

/// Nothing before the line told is bad, and where the line was refused by its value, that value is right.
fn assert_told_well(recipe: &[u8], refusal: Refusal) {
    let place = 5 * (refusal.line as usize - 1);
    (0..=place).step_by(5).for_each(|end| assert_right_lines(&recipe[..end]));
    if refusal.number == 7 {
        if let Some(mended) = with_claim(&recipe[place..place + 5], refusal.value) {
            assert_right_lines(&[&recipe[..place], &mended].concat());
        }
    }
}

/// Right recipes: document 01's, planned ones, ones of 1 to 32 lines that nobody planned.
fn right_recipes() -> Vec<(u64, Vec<u8>)> {
    let mut random = Random::seeded(31);
    let mut recipes = vec![(1965, recipe_of(&RIGHT)), (3, recipe_of(&[TWENTY_ONES, THREE]))];
    recipes.extend([53, 255, 21_845, 43_691, 47_803, 61_687, 65_535].map(|c| (c, planned(c))));
    recipes.extend([1, 2, 3, 5, 8, 13, 21, 31, 32, 32].map(|lines| {
        let (d, lines) = walk(lines, &mut random);
        (d, recipe_of(&lines))
    }));
    recipes
}

/// Counts of what was told: refusals by number, lines, values below 0, values of more than 20 bits.
#[derive(Default, Debug)]
struct Met {
    numbers: [usize; 10],
    lines: std::collections::BTreeSet<u64>,
    negative: usize,
    large: usize,
}

impl Met {
    fn note(&mut self, answer: Result<(), Refusal>) {
        let Refusal { number, line, value } = answer.err().unwrap_or(Refusal { number: 0, line: 0, value: 0 });
        self.numbers[usize::from(number)] += 1;
        self.lines.extend((line > 0).then_some(line));
        self.negative += usize::from(value < 0);
        self.large += usize::from(value > 1_048_575);
    }
}

#[test]
fn every_bit_of_right_recipes_turned_over() {
    let mut met = Met::default();
    for (c, right) in right_recipes() {
        assert_eq!(asked_at(1, c, &right), Ok(()));
        for bit in 0..8 * right.len() {
            let mut recipe = right.clone();
            recipe[bit / 8] ^= 1 << (bit % 8);
            let answer = asked_at(1 + bit as u64 % 16, c, &recipe);
            assert_eq!(answer, judged(c, &recipe), "{c} {recipe:?}");
            if let Some(refusal) = first_bad_line(&recipe) {
                assert!(refusal.line > bit as u64 / 40, "a line before the changed one is told");
                assert_told_well(&recipe, refusal);
            }
            met.note(answer);
        }
    }
    println!("{met:?}");
    assert!((4..=7).all(|number| met.numbers[number] > 100) && met.lines.len() == 32, "{met:?}");
    assert!(met.negative > 100 && met.large > 100, "{met:?}");
}

/// Several lines changed, so that the first of them must be told.
#[test]
fn any_bytes_of_right_recipes_changed() {
    let (mut random, mut met) = (Random::seeded(32), Met::default());
    for round in 0..4_000 {
        let (d, lines) = walk(1 + round % 32, &mut random);
        let mut recipe = recipe_of(&lines);
        for _ in 0..=random.up_to(3) {
            let place = random.up_to(recipe.len() as u64 - 1) as usize;
            recipe[place] = random.next() as u8;
        }
        let answer = asked_at(1 + random.up_to(15), d, &recipe);
        assert_eq!(answer, judged(d, &recipe), "{d} {recipe:?}");
        if let Some(refusal) = first_bad_line(&recipe) {
            assert_told_well(&recipe, refusal);
        }
        met.note(answer);
    }
    println!("{met:?}");
    assert!((4..=7).all(|number| met.numbers[number] > 100) && met.lines.len() > 24, "{met:?}");
}

#[test]
fn what_a_line_claims() {
    let recipe = recipe_of(&[TWENTY_ONES, (SPLUS, 63, 31, 63, 0), (0, 63, 0, 63, 1965)]);
    let claims = [0, 1, 2, 3, 4, u64::MAX].map(|line| second::claimed(&recipe, line));
    assert_eq!(claims, [None, Some(1_048_575), Some(0), Some(1965), None, None]);
    assert_eq!(second::claimed(&recipe[..14], 3), None);
}
