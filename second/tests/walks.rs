//! Recipes nobody planned: random walks of accepted lines.

mod common;
use common::*;

/// What the walks must have met for the test to be worth its name.
#[derive(Default, Debug)]
struct Met {
    kinds: [usize; 4],
    largest_s: u64,
    largest_k: u64,
    repeats: usize,
    unused: usize,
}

impl Met {
    fn note(&mut self, lines: &[Fields]) {
        for (place, &(kind, _, s, _, k)) in lines.iter().enumerate() {
            self.kinds[kind as usize] += 1;
            self.largest_s = self.largest_s.max(s);
            self.largest_k = self.largest_k.max(k);
            self.repeats += usize::from(lines[..place].iter().any(|line| line.4 == k));
            let number = place as u64 + 1;
            let used = number == lines.len() as u64 || lines.iter().any(|line| line.1 == number || line.3 == number);
            self.unused += usize::from(!used);
        }
    }
}

#[test]
fn walks_of_accepted_lines() {
    let mut random = Random::seeded(6);
    let mut met = Met::default();
    for round in 0..1500u64 {
        let (d, lines) = walk((round % 33) as usize, &mut random);
        met.note(&lines);
        let most_t = 16 - bit_length(d) as u64;
        let (c, recipe) = (d << random.up_to(most_t), recipe_of(&lines));
        assert_eq!(second::check(c, &recipe), Ok(()));
        let w = 1 + round % 4;
        let written = written(c, w, &recipe);
        assert_counted_off_the_room(&written);
        (0..1 << w).for_each(|x| assert_propagates(c, &written, x));
    }
    println!("{met:?}");
    assert!(met.kinds[1..].iter().all(|count| *count > 500), "{met:?}");
    assert!(met.largest_s >= 19 && met.largest_k > 1_000_000 && met.repeats > 500 && met.unused > 500, "{met:?}");
}

/// Short walks small enough to try all assignments of the new variables.
#[test]
fn short_walks_by_trial() {
    let mut random = Random::seeded(7);
    let mut tried = 0;
    for round in 0..4000u64 {
        let ((d, lines), w) = (walk((round % 3) as usize, &mut random), 1 + round % 2);
        let written = written(d, w, &recipe_of(&lines));
        if written.highest() > 14 {
            continue;
        }
        tried += 1;
        for x in 0..1 << w {
            let models = models(&written.room, w, written.highest(), x);
            assert_eq!(models.len(), 1, "{d} {w} x = {x} {lines:?}");
            assert_eq!(reading_of_model(&written.bits, models[0]), d * x, "{d} {w} x = {x} {lines:?}");
        }
    }
    println!("{tried} tried");
    assert!(tried > 500);
}

/// Thirty-two lines of the largest coefficients and w = 16 stay within what
/// the limits allow.
#[test]
fn the_longest_recipe() {
    let mut lines = vec![(SMINUS, 0, 20, 0, 1_048_575)];
    while lines.len() < 31 {
        lines.push((MINUSS, 1, 1 + lines.len() as u64 % 18, 0, 0));
        let (_, _, s, _, k) = lines.last_mut().unwrap();
        *k = 1_048_575 - (1 << *s);
    }
    lines.push((SMINUS, 0, 16, 0, 65_535));
    let written = written(65_535, 16, &recipe_of(&lines));
    println!("{:?}", written.counts);
    let inputs = [0, 1, 21_845, 43_690, 65_535];
    inputs.into_iter().for_each(|x| assert_propagates(65_535, &written, x));
}
