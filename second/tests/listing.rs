//! Word for word against the clauses as the documents list them, which the
//! engine derives from truth tables instead.

mod common;
use common::listed::{pairs_of, Listed, PAIRS};
use common::*;

fn assert_listed(c: u64, w: u64, recipe: &[u8]) {
    let x: Vec<i32> = (1..=w as i32).collect();
    assert_listed_over(c, &x, w as u32 + 1, recipe, &written(c, w, recipe));
}

/// Over any literals, with new variables from the first free number on.
fn assert_listed_over(c: u64, x: &[i32], first: u32, recipe: &[u8], written: &Written) {
    let (product, listed) = Listed::of(x, first, recipe);
    let y: Vec<i32> = std::iter::repeat_n(0, c.trailing_zeros() as usize).chain(product).collect();
    assert_eq!(written.bits, y, "{c} {x:?}");
    assert_eq!(written.room, listed.words, "{c} {x:?}");
    assert_eq!(written.highest() as i32, listed.highest, "{c} {x:?}");
    assert_no_variable_twice(&written.room);
}

/// What the documents' own example lists, before the engine is held to it.
#[test]
fn the_pair_of_recipe_3_5_at_1() {
    let recipe = recipe_of(&[(SPLUS, 0, 1, 0, 3), (SMINUS, 1, 1, 0, 5)]);
    let (bits, listed) = Listed::of(&[1], 2, &recipe);
    assert_eq!((bits, listed.words, listed.highest), (vec![1, 0, 1], vec![], 1));
    assert_eq!(listed.pairs.len(), 1);
    assert_listed(5, 1, &recipe);
}

/// Recipes with a pair of each kind, at every width and over literals of both signs.
#[test]
fn recipes_with_pairs() {
    let mut met = std::collections::BTreeSet::new();
    for (c, w, recipe) in recipes_with_pairs_of_every_kind() {
        met.extend(pairs_of(w, &recipe));
        (1..=16).for_each(|w| assert_listed(c, w, &recipe));
        for signs in 0..1u32 << w {
            let x: Vec<i32> = (0..w as i32).map(|i| if signs >> i & 1 == 1 { -9 + i } else { 9 - i }).collect();
            assert_listed_over(c, &x, 20, &recipe, &written_over(c, &x, 20, &recipe));
        }
    }
    assert!(met.into_iter().eq(PAIRS));
}

#[test]
fn planned_recipes() {
    for c in 1..=600 {
        (1..=16).for_each(|w| assert_listed(c, w, &planned(c)));
    }
    let mut random = Random::seeded(8);
    for _ in 0..300 {
        let (c, w) = (1 + random.up_to(65_534), 1 + random.up_to(15));
        assert_listed(c, w, &planned(c));
    }
}

#[test]
fn walks() {
    let mut random = Random::seeded(9);
    for round in 0..600 {
        let (d, lines) = walk(round % 33, &mut random);
        assert_listed(d << random.up_to(16 - bit_length(d) as u64), 1 + random.up_to(15), &recipe_of(&lines));
    }
}

#[test]
fn walks_over_given_literals() {
    let mut random = Random::seeded(10);
    for round in 0..1200 {
        let (d, lines) = walk(round % 33, &mut random);
        let c = d << random.up_to(16 - bit_length(d) as u64);
        let (w, recipe) = (1 + random.up_to(15), recipe_of(&lines));
        let first = w as u32 + 1 + [0, random.up_to(9), random.up_to(2_000_000_000)][round % 3] as u32;
        let x = literals(w, first, &mut random);
        assert_listed_over(c, &x, first, &recipe, &written_over(c, &x, first, &recipe));
    }
}
