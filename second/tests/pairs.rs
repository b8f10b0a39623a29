//! Document 02, b: columns with two inputs of one variable.

mod common;
use common::listed::{pairs_of, PAIRS};
use common::*;
use std::collections::BTreeMap;

/// No clause names a variable twice, and each pair is one that is known; counts the recipes that have it.
fn note(c: u64, w: u64, recipe: &[u8], met: &mut BTreeMap<listed::Pair, usize>) {
    assert_no_variable_twice(&written(c, w, recipe).room);
    for pair in pairs_of(w, recipe) {
        assert!(PAIRS.contains(&pair), "{c} {w}: {pair:?}");
        *met.entry(pair).or_default() += 1;
    }
}

#[test]
fn planned_recipes_name_no_variable_twice() {
    let mut met = BTreeMap::new();
    for c in 1..=2_047 {
        let recipe = planned(c);
        [1, 2, 3, 16].into_iter().for_each(|w| note(c, w, &recipe, &mut met));
    }
    println!("{met:?}");
    // Most of them are at width 1.
    assert!(met.values().sum::<usize>() > 500, "{met:?}");
}

#[test]
fn walks_name_no_variable_twice() {
    let (mut random, mut met) = (Random::seeded(16), BTreeMap::new());
    for round in 0..3_000 {
        let (most_s, most_w) = [(20, 16), (6, 3)][round % 2];
        let (d, lines) = walk_within(most_s, round / 2 % 33, &mut random);
        let c = d << random.up_to(16 - bit_length(d) as u64);
        note(c, 1 + random.up_to(most_w - 1), &recipe_of(&lines), &mut met);
    }
    println!("{met:?}");
    // All kinds but two, which are hardly ever met except in the recipes by hand.
    assert!(met.values().filter(|recipes| **recipes > 20).count() >= PAIRS.len() - 2, "{met:?}");
}

/// With one variable alone any two unfixed inputs are a pair.
#[test]
fn width_1_opens_nothing() {
    let mut random = Random::seeded(17);
    for round in 0..600 {
        let (d, lines) = walk_within([20, 6][round % 2], round / 2 % 33, &mut random);
        for x in [1, -1, 8, -8] {
            let written = written_over(d, &[x], 9, &recipe_of(&lines));
            assert_eq!(written.counts, second::Counts { words: 0, clauses: 0, next: 9, bits: bit_length(d) });
            let y: Vec<i32> = (0..bit_length(d)).map(|place| if d >> place & 1 == 1 { x } else { 0 }).collect();
            assert_eq!(written.bits, y, "{d}");
        }
    }
}

/// 15 = 5 * 4 - 5 at width 2. With two inputs of one variable counted as two it needed 196 words.
#[test]
fn rooms_of_15_at_2() {
    let recipe = recipe_of(&[(SPLUS, 0, 2, 0, 5), (SMINUS, 1, 2, 1, 15)]);
    let with_words = |words: usize| numbered(second::write_plain(15, 2, &recipe, &mut [0; 6], &mut vec![0; words]));
    assert_eq!(with_words(68), Ok(second::Counts { words: 68, clauses: 18, next: 8, bits: 6 }));
    assert_eq!(with_words(67), Err(10));
    assert_eq!(written(15, 2, &recipe).bits, [1, 3, -4, -4, 5, 7]);
}

/// No word is too few where none is needed, and the largest first free number will do.
#[test]
fn rooms_of_5_at_1() {
    let recipe = recipe_of(&[(SPLUS, 0, 1, 0, 3), (SMINUS, 1, 1, 0, 5)]);
    let mut bits = [0; 3];
    let end = 2_147_483_648;
    let counts = second::Counts { words: 0, clauses: 0, next: end, bits: 3 };
    let from =
        |first: u32, bits: &mut [i32]| numbered(second::write(5, 1, &[-i32::MAX], first, &recipe, bits, &mut []));
    assert_eq!(from(end, &mut bits), Ok(counts));
    assert_eq!(bits, [-i32::MAX, 0, -i32::MAX]);
    assert_eq!(from(end, &mut bits[..2]), Err(9));
    assert_eq!(from(end + 1, &mut bits), Err(15));
}
