//! Demand 3: how long recipes and files may get.

mod common;
use common::*;

/// Nonzero digits of the non-adjacent form.
fn nonzero_digits(mut n: i64) -> usize {
    let mut nonzero = 0;
    while n != 0 {
        let digit = if n % 2 == 0 { 0 } else { 2 - n.rem_euclid(4) };
        nonzero += usize::from(digit != 0);
        n = (n - digit) / 2;
    }
    nonzero
}

#[test]
fn nonzero_digits_of_small_numbers() {
    let counts = [1, 2, 3, 5, 7, 11, 21, 53, 65_535].map(nonzero_digits);
    assert_eq!(counts, [1, 1, 2, 2, 2, 3, 3, 4, 2]);
}

#[test]
fn lines_of_every_c() {
    let mut work = vec![0; 1 << 15];
    let mut longest = 0;
    for c in 1..=65_535 {
        let mut recipe = [0; 40];
        let lines = second::plan(c, &mut work, &mut recipe).unwrap();
        assert!(lines <= bit_length(odd_part(c)) / 2, "{c}");
        assert!(lines < nonzero_digits(c as i64), "{c}");
        assert_eq!(second::check(c, &recipe[..5 * lines]), Ok(()), "{c}");
        longest = longest.max(lines);
    }
    println!("at most {longest} lines");
}

/// Clauses of the first lines, read off the room. Every coefficient of a
/// planned recipe is a constant itself, so each beginning is a recipe.
fn clauses_upto(recipe: &[u8], w: u64) -> usize {
    let product = match recipe {
        [] => 1,
        [.., high, low] => u64::from(*high) << 8 | u64::from(*low),
        _ => unreachable!("a recipe is empty or has five bytes"),
    };
    clauses(&written(product, w, recipe).room).count()
}

#[test]
fn clauses_of_each_line() {
    let mut random = Random::seeded(5);
    let small = 1..=64;
    let large = (0..150).map(|_| 1 + random.up_to(65_534)).collect::<Vec<_>>();
    for c in small.chain(large) {
        let (recipe, length) = (planned(c), bit_length(odd_part(c)) as u64);
        for w in 1..=16 {
            let upto: Vec<usize> = (0..=recipe.len()).step_by(5).map(|end| clauses_upto(&recipe[..end], w)).collect();
            let most = 14 * (length + w) as usize;
            assert!(upto.windows(2).all(|pair| pair[1] - pair[0] <= most), "{c} {w}");
            assert_eq!(written(c, w, &recipe).counts.clauses, *upto.last().unwrap());
        }
    }
}
