//! Exactly one assignment for each input, and there y reads the product.

mod common;
use common::listed::{pairs_of, PAIRS};
use common::*;
use std::collections::BTreeMap;

/// With at most this many new variables all assignments are tried.
const TRIED: u32 = 16;

fn assert_one_model(c: u64, written: &Written, x: u64) {
    let Written { w, counts, bits, room } = written;
    let models = models(room, *w, counts.next - 1, x);
    assert_eq!(models.len(), 1, "{c} {w} x = {x}");
    assert_eq!(reading_of_model(bits, models[0]), c * x, "{c} {w} x = {x}");
}

#[test]
fn planned_recipes_of_1_to_300() {
    let (mut tried, mut propagated) = (0, 0);
    for c in 1..=300 {
        for w in 1..=4 {
            let written = written(c, w, &planned(c));
            assert_counted_off_the_room(&written);
            let by_trial = written.highest() - w as u32 <= TRIED;
            for x in 0..1 << w {
                if by_trial {
                    assert_one_model(c, &written, x);
                }
                assert_propagates(c, &written, x);
            }
            *if by_trial { &mut tried } else { &mut propagated } += 1;
        }
    }
    println!("{tried} files by trial, {propagated} by propagation only");
}

/// An entry 0 stands for a bit that is 0 in every product, so no bit of y
/// can have been fixed at 1 and stored as 0.
#[test]
fn no_bit_of_y_is_fixed_at_1() {
    for c in 1..=300u64 {
        for w in 1..=4 {
            let written = written(c, w, &planned(c));
            for (place, bit) in written.bits.iter().enumerate() {
                assert!(bit.unsigned_abs() <= written.highest());
                let ever = (0..1 << w).any(|x| (c * x) >> place & 1 == 1);
                assert!(*bit != 0 || !ever, "{c} {w}: bit {place}");
            }
        }
    }
}

#[test]
fn wide_inputs_by_propagation() {
    let mut random = Random::seeded(2);
    for _ in 0..60 {
        let (c, w) = (1 + random.up_to(65_534), 5 + random.up_to(11));
        let written = written(c, w, &planned(c));
        assert_counted_off_the_room(&written);
        let ends = [0, 1, (1 << w) - 1];
        let samples = (0..12).map(|_| random.up_to((1 << w) - 1)).collect::<Vec<_>>();
        ends.iter().chain(&samples).for_each(|x| assert_propagates(c, &written, *x));
    }
}

/// Over all assignments, where these are not too many; then the pairs of inputs of one variable are told.
fn tried_pairs(c: u64, w: u64, recipe: &[u8], most_new: u32) -> Vec<listed::Pair> {
    let written = written(c, w, recipe);
    if written.highest() - w as u32 > most_new {
        return vec![];
    }
    assert_counted_off_the_room(&written);
    (0..1 << w).for_each(|x| assert_one_model(c, &written, x));
    pairs_of(w, recipe).into_iter().collect()
}

#[test]
fn recipes_with_pairs() {
    let recipes = recipes_with_pairs_of_every_kind();
    let own: Vec<_> = recipes.iter().flat_map(|(c, w, recipe)| tried_pairs(*c, *w, recipe, TRIED)).collect();
    assert!(PAIRS.iter().all(|pair| own.contains(pair)), "{own:?}");
    for (c, _, recipe) in &recipes {
        (1..=4).for_each(|w| drop(tried_pairs(*c, w, recipe, TRIED)));
    }
}

/// With at most this many new variables thousands of recipes can be tried.
const QUICK: u32 = 11;

/// Short walks of small shifts over narrow inputs. The kinds of pairs that they miss come with more new variables.
#[test]
fn narrow_walks() {
    let (mut random, mut met) = (Random::seeded(15), BTreeMap::new());
    for round in 0..6_000u64 {
        let (d, lines) = walk_within(6, 1 + round as usize % 5, &mut random);
        for pair in tried_pairs(d, 1 + round / 5 % 3, &recipe_of(&lines), QUICK) {
            *met.entry(pair).or_insert(0) += 1;
        }
    }
    println!("{met:?}");
    assert!(met.len() >= PAIRS.len() - 3 && met.keys().all(|pair| PAIRS.contains(pair)), "{met:?}");
}
