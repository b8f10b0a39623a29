//! The work room against the planner's rules, worked out a second time here.

mod common;
use common::*;
use std::collections::BTreeSet;

/// The splits of n, as (kind, p, left, right).
fn splits(n: u64) -> Vec<(u64, u64, u64, u64)> {
    let length = bit_length(n) as u64;
    let mut found = Vec::new();
    for p in 1..=length {
        let (low, high) = (n % (1 << p), n / (1 << p));
        if p < length && high % 2 == 1 {
            found.push((SPLUS, p, high, low));
        }
        if high % 2 == 0 && (p < length || high == 0) {
            found.push((SMINUS, p, high + 1, (1 << p) - low));
        }
        if p < length && high % 2 == 0 {
            found.push((MINUSS, p, (1 << length) - (1 << p) + low, (1 << (length - p)) - 1 - high));
        }
    }
    found
}

/// Follows the bytes of the work room down to 1.
fn walk(n: u64, work: &[u8], met: &mut Vec<u64>) {
    if n == 1 {
        return;
    }
    met.push(n);
    let byte = u64::from(work[(n as usize - 1) / 2]);
    let (_, _, left, right) = *splits(n).iter().find(|(kind, p, ..)| 32 * kind + p == byte).expect("a split of n");
    walk(left, work, met);
    walk(right, work, met);
}

fn met_by(split: &(u64, u64, u64, u64), n: u64, work: &[u8]) -> Vec<u64> {
    let mut met = vec![n];
    walk(split.2, work, &mut met);
    walk(split.3, work, &mut met);
    met
}

fn distinct(met: &[u64]) -> usize {
    met.iter().collect::<BTreeSet<_>>().len()
}

#[test]
fn every_byte_is_the_first_best_split() {
    let mut work = vec![0; 1 << 15];
    second::plan(65_535, &mut work, &mut [0; 40]).unwrap();
    assert_eq!(work[0], 0);
    let mut shared_decides = 0;
    for n in (3..65_536).step_by(2) {
        let (mut splits, byte) = (splits(n), work[(n as usize - 1) / 2]);
        splits.sort();
        let counted_once = splits.iter().min_by_key(|split| distinct(&met_by(split, n, &work))).unwrap();
        let counted_twice = splits.iter().min_by_key(|split| met_by(split, n, &work).len()).unwrap();
        assert_eq!(u64::from(byte), 32 * counted_once.0 + counted_once.1, "{n}");
        shared_decides += usize::from(counted_once != counted_twice);
    }
    for kind in [SPLUS, SMINUS, MINUSS] {
        let places = (1..=16).map(|p| work.iter().filter(|byte| u64::from(**byte) == 32 * kind + p).count());
        println!("kind {kind} chosen at p = 1 to 16: {:?}", places.collect::<Vec<_>>());
    }
    assert!(shared_decides > 0, "some choice must hang on counting a shared coefficient once");
}

#[test]
fn lines_are_the_set_in_order() {
    let mut work = vec![0; 1 << 11];
    for d in (3..4096).step_by(2) {
        let mut recipe = [0; 30];
        let lines = second::plan(d, &mut work, &mut recipe).unwrap();
        let mut met = Vec::new();
        walk(d, &work, &mut met);
        let zeros = |n: u64| format!("{n:b}").matches('0').count();
        let order: BTreeSet<_> = met.into_iter().map(|n| (bit_length(n), zeros(n), n)).collect();
        let claimed = |line: &[u8]| u64::from(line[2] & 15) << 16 | u64::from(line[3]) << 8 | u64::from(line[4]);
        let planned: Vec<u64> = recipe.chunks(5).take(lines).map(claimed).collect();
        assert_eq!(planned, order.into_iter().map(|(_, _, n)| n).collect::<Vec<_>>());
    }
}

#[test]
fn a_power_of_two_times_d_has_the_plan_of_d() {
    for d in (1..512).step_by(2) {
        for t in 0..7 {
            assert_eq!(planned(d << t), planned(d));
        }
    }
}

#[test]
fn a_shorter_table_is_the_beginning_of_a_longer_one() {
    let mut long = vec![0; 1 << 15];
    second::plan(65_535, &mut long, &mut [0; 40]).unwrap();
    for length in 1..=16 {
        let mut short = vec![0; 1 << (length - 1)];
        second::plan((1 << length) - 1, &mut short, &mut [0; 40]).unwrap();
        assert_eq!(short[..], long[..short.len()]);
    }
}
