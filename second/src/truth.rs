//! Clauses derived from truth tables.
//!
//! A pattern is a clause without variables: a sign for each input and, last,
//! for the new variable; 0 where the clause does not mention it.

use std::cmp::Reverse;

pub type Pattern = Vec<i32>;

/// Truth of an output for the number of true inputs.
pub type Truth = fn(usize) -> bool;

/// All input values counted up from zero, first input most significant.
fn input_values(inputs: usize) -> impl Iterator<Item = Vec<bool>> {
    (0..1usize << inputs).map(move |number| (0..inputs).rev().map(|place| number >> place & 1 == 1).collect())
}

fn sign(positive: bool) -> i32 {
    if positive {
        1
    } else {
        -1
    }
}

fn ones(values: &[bool]) -> usize {
    values.iter().filter(|value| **value).count()
}

/// One clause for each row of the table: away from the row, or the new
/// variable has the value of the row.
pub fn rows(inputs: usize, truth: &dyn Fn(usize) -> bool) -> Vec<Pattern> {
    let row = |values: Vec<bool>| {
        let away = values.iter().map(|value| sign(!value));
        away.chain([sign(truth(ones(&values)))]).collect()
    };
    input_values(inputs).map(row).collect()
}

/// The prime implicates of "the new variable equals the truth of the
/// inputs": shorter ones first, then those that deny the new variable, then
/// those over earlier inputs.
pub fn prime_implicates(inputs: usize, truth: &dyn Fn(usize) -> bool) -> Vec<Pattern> {
    let models: Vec<Vec<bool>> = input_values(inputs)
        .map(|mut values| {
            values.push(truth(ones(&values)));
            values
        })
        .collect();
    let implied = |pattern: &Pattern| models.iter().all(|model| satisfied(pattern, model));
    let prime = |pattern: &Pattern| implied(pattern) && !weakenings(pattern).iter().any(implied);
    let mut primes: Vec<Pattern> = all_patterns(inputs + 1).into_iter().filter(prime).collect();
    primes.sort_by_key(|pattern| {
        let mentioned: Vec<bool> = pattern.iter().map(|sign| *sign != 0).collect();
        (ones(&mentioned), pattern[inputs], Reverse(mentioned))
    });
    primes
}

fn satisfied(pattern: &Pattern, model: &[bool]) -> bool {
    pattern.iter().zip(model).any(|(mentioned, value)| *mentioned == sign(*value))
}

/// The pattern with one of its signs left out.
fn weakenings(pattern: &Pattern) -> Vec<Pattern> {
    let mentioned = (0..pattern.len()).filter(|place| pattern[*place] != 0);
    let without = |place: usize| {
        let mut shorter = pattern.clone();
        shorter[place] = 0;
        shorter
    };
    mentioned.map(without).collect()
}

fn all_patterns(length: usize) -> Vec<Pattern> {
    let longer = |patterns: Vec<Pattern>, _| {
        let extended = patterns.iter().flat_map(|pattern| [-1, 0, 1].map(|sign| [&pattern[..], &[sign]].concat()));
        extended.collect()
    };
    (0..length).fold(vec![Pattern::new()], longer)
}

#[cfg(test)]
mod tests {
    use super::*;

    #[test]
    fn carries_come_out_as_document_01_lists_them() {
        let both = [vec![1, 0, -1], vec![0, 1, -1], vec![-1, -1, 1]];
        let either = [vec![-1, 0, 1], vec![0, -1, 1], vec![1, 1, -1]];
        let most = [
            vec![1, 1, 0, -1],
            vec![1, 0, 1, -1],
            vec![0, 1, 1, -1],
            vec![-1, -1, 0, 1],
            vec![-1, 0, -1, 1],
            vec![0, -1, -1, 1],
        ];
        assert_eq!(prime_implicates(2, &|ones| ones >= 2), both);
        assert_eq!(prime_implicates(2, &|ones| ones + 1 >= 2), either);
        assert_eq!(prime_implicates(3, &|ones| ones >= 2), most);
    }

    #[test]
    fn sums_count_up_from_zero() {
        let even = [vec![1, 1, -1], vec![1, -1, 1], vec![-1, 1, 1], vec![-1, -1, -1]];
        let odd = [vec![1, 1, 1], vec![1, -1, -1], vec![-1, 1, -1], vec![-1, -1, 1]];
        assert_eq!(rows(2, &|ones| ones % 2 == 1), even);
        assert_eq!(rows(2, &|ones| (ones + 1) % 2 == 1), odd);
        let three = rows(3, &|ones| ones % 2 == 1);
        assert_eq!(three.len(), 8);
        assert_eq!(three[1], [1, 1, -1, 1]);
        assert_eq!(three[4], [-1, 1, 1, 1]);
    }
}
