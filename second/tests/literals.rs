//! Document 02, a: writing over given literals and a first free number.

mod common;
use common::*;

const MARK: i32 = -559_038_737;
/// The largest next free number.
const END: u32 = 2_147_483_648;

#[derive(Clone, Debug)]
struct Call {
    c: u64,
    w: u64,
    x: Vec<i32>,
    first: u32,
    recipe: Vec<u8>,
    bits: usize,
    clauses: usize,
}

impl Call {
    /// In rooms for everything.
    fn new(c: u64, x: &[i32], first: u32, recipe: &[u8]) -> Call {
        Call { c, w: x.len() as u64, x: x.to_vec(), first, recipe: recipe.to_vec(), bits: 40, clauses: WORDS }
    }

    /// Writes in marked rooms; a refusal must leave every mark, a success those past what it counts.
    fn answer(&self) -> Result<second::Counts, u8> {
        let Call { c, w, x, first, recipe, .. } = self;
        let (mut bits, mut clauses) = (vec![MARK; self.bits], vec![MARK; self.clauses]);
        let answer = numbered(second::write(*c, *w, x, *first, recipe, &mut bits, &mut clauses));
        let (y, words) = answer.map_or((0, 0), |counts| (counts.bits, counts.words));
        assert!(bits[y..].iter().chain(&clauses[words..]).all(|word| *word == MARK), "{self:?}: a room was changed");
        assert!(!bits[..y].contains(&MARK) && !clauses[..words].contains(&MARK), "{self:?}: a room was not filled");
        answer
    }

    fn refusal(&self) -> Option<u8> {
        self.answer().err()
    }
}

fn three(x: &[i32], first: u32) -> Call {
    Call::new(3, x, first, &planned(3))
}

fn one(x: &[i32], first: u32) -> Call {
    Call::new(1, x, first, &[])
}

fn plain(w: u64) -> Vec<i32> {
    (1..=w as i32).collect()
}

/// Alternating signs and gaps between the variables, all below 1,000.
fn sparse(w: u64) -> Vec<i32> {
    plain(w).into_iter().map(|i| if i % 2 == 0 { 7 * i } else { -60 * i }).collect()
}

#[test]
fn refusal_14_for_not_w_literals() {
    for w in 1..=16 {
        for many in 0..=40 {
            let call = Call { w, ..three(&plain(many), 100) };
            assert_eq!(call.refusal(), (many != w).then_some(14), "{w} {many}");
        }
        // One too many that names no variable more is one too many all the same.
        for more in [0, 1, -1, 100, i32::MIN] {
            let x = [plain(w), vec![more]].concat();
            assert_eq!(Call { w, ..three(&x, 100) }.refusal(), Some(14), "{w} {more}");
        }
    }
}

#[test]
fn refusal_14_for_a_zero() {
    for w in 1..=16 {
        assert_eq!(three(&sparse(w), 1_000).refusal(), None);
        for place in 0..w as usize {
            let mut x = sparse(w);
            x[place] = 0;
            assert_eq!(three(&x, 1_000).refusal(), Some(14), "{w} {place}");
        }
    }
}

#[test]
fn refusal_14_for_a_variable_not_below_the_first_free_number() {
    for w in 1..=16 {
        for place in 0..w as usize {
            for (variable, expected) in [(999, None), (1_000, Some(14)), (1_001, Some(14)), (i32::MAX, Some(14))] {
                for literal in [variable, -variable] {
                    let mut x = sparse(w);
                    x[place] = literal;
                    assert_eq!(three(&x, 1_000).refusal(), expected, "{w} {place} {literal}");
                }
            }
        }
    }
}

#[test]
fn refusal_14_for_two_literals_of_one_variable() {
    for w in 2..=16 {
        for (earlier, later) in (0..w as usize).flat_map(|later| (0..later).map(move |earlier| (earlier, later))) {
            for sign in [1, -1] {
                let mut x = sparse(w);
                x[later] = sign * x[earlier];
                assert_eq!(three(&x, 1_000).refusal(), Some(14), "{w} {earlier} {later}");
                assert_eq!(one(&x, u32::MAX).refusal(), Some(14), "{w} {earlier} {later}");
            }
        }
    }
}

#[test]
fn the_lowest_first_free_numbers() {
    for w in 1..=16 {
        for first in [0, 1] {
            assert_eq!(one(&plain(w), first).refusal(), Some(14), "{w} {first}");
            assert_eq!(one(&vec![0; w as usize], first).refusal(), Some(14), "{w} {first}");
        }
        assert_eq!(one(&plain(w), w as u32).refusal(), Some(14), "{w}");
        assert_eq!(one(&plain(w), w as u32 + 1).refusal(), None, "{w}");
    }
    assert_eq!(one(&[-1], 2).refusal(), None);
    assert_eq!(one(&[2], 2).refusal(), Some(14));
}

#[test]
fn the_lowest_word_names_the_variable_2147483648() {
    assert_eq!(one(&[i32::MIN], END).refusal(), Some(14));
    assert_eq!(one(&[i32::MIN], END + 1).refusal(), Some(15));
    assert_eq!(one(&[i32::MIN], u32::MAX).refusal(), Some(15));
    assert_eq!(one(&[i32::MIN, i32::MAX], u32::MAX).refusal(), Some(15));
    assert_eq!(one(&[i32::MIN, i32::MIN], u32::MAX).refusal(), Some(14));
    assert_eq!(three(&[1, i32::MIN], END + 1).refusal(), Some(15));
    assert_eq!(Call { recipe: vec![], ..three(&[1, i32::MIN], END + 1) }.refusal(), Some(8));
}

/// Recipes with what they open at a width: none, few, and the most lines of the most columns.
fn recipes() -> Vec<(u64, u64, Vec<u8>)> {
    let mut long = vec![(SMINUS, 0, 20, 0, 1_048_575)];
    while long.len() < 31 {
        let s = 1 + long.len() as u64 % 18;
        long.push((MINUSS, 1, s, 0, 1_048_575 - (1 << s)));
    }
    long.push((SMINUS, 0, 16, 0, 65_535));
    let shared = recipe_of(&[(SPLUS, 0, 1, 0, 3), (SMINUS, 1, 1, 0, 5)]);
    let mut recipes = vec![(65_535, 16, recipe_of(&long)), (5, 1, shared)];
    recipes.extend([(1, 1), (1, 16), (5, 2), (3, 2), (6, 2), (53, 8), (65_535, 16)].map(|(c, w)| (c, w, planned(c))));
    recipes
}

#[test]
fn refusal_15_at_its_edge() {
    for (c, w, recipe) in recipes() {
        let opened = written(c, w, &recipe).highest() - w as u32;
        let call = |first: u32| Call::new(c, &sparse(w), first, &recipe);
        let counts = call(END - opened).answer().unwrap();
        assert_eq!(counts.next, END, "{c} {w}");
        for first in [END - opened + 1, END - opened + 2, END + 1, END + 2, u32::MAX - opened, u32::MAX - 1, u32::MAX] {
            assert_eq!(call(first).refusal(), Some(15), "{c} {w} {first}");
        }
        assert_eq!(call(END).refusal(), (opened > 0).then_some(15), "{c} {w}");
        assert_eq!(call(END - opened - 1).answer().unwrap().next, END - 1, "{c} {w}");
    }
}

#[test]
fn the_largest_variables_are_written() {
    let x = [-2_147_483_643, 2_147_483_642];
    let written = written_over(3, &x, END - 4, &planned(3));
    assert_eq!(written.bits, [-2_147_483_643, 2_147_483_644, 2_147_483_646, i32::MAX]);
    assert_eq!(written.room[..4], [-2_147_483_643, 2_147_483_642, -2_147_483_644, 0]);
    assert_eq!(written.room[written.room.len() - 4..], [-2_147_483_642, -2_147_483_645, i32::MAX, 0]);
    assert_eq!(written_over(1, &[i32::MAX, -1], END, &[]).bits, [i32::MAX, -1]);
}

fn put_in_front(call: &mut Call, line: Vec<u8>) {
    call.recipe.splice(0..0, line);
}

type Fault = fn(&mut Call);

/// The tests in their order, with what gives each of them a reason and takes none from those before it.
const FAULTS: [(u8, Fault); 12] = [
    (1, |call| call.c = 65_536),
    (2, |call| call.w = 17),
    (14, |call| call.x[1] = -call.x[0]),
    (3, |call| call.recipe.push(0)),
    (4, |call| put_in_front(call, line(0, 0, 1, 0, 3))),
    (5, |call| put_in_front(call, line(SPLUS, 60, 1, 0, 3))),
    (6, |call| put_in_front(call, line(SPLUS, 0, 1, 0, 4))),
    (7, |call| put_in_front(call, line(SPLUS, 0, 1, 0, 5))),
    (8, |call| call.c = 5),
    (15, |call| call.first = END - 3),
    (9, |call| call.bits = 3),
    (10, |call| call.clauses = 51),
];

/// Every set of faults. They go in from the last to the first, since a line put in front is met first.
#[test]
fn the_first_test_with_a_reason_refuses() {
    for set in 0..1u32 << FAULTS.len() {
        let mut call = Call { bits: 4, clauses: 52, ..three(&[-5, 9], 10) };
        let faults = FAULTS.iter().enumerate().filter(|(place, _)| set >> place & 1 == 1).map(|(_, fault)| fault);
        faults.clone().rev().for_each(|(_, spoil)| spoil(&mut call));
        let first = faults.map(|(number, _)| *number).next();
        assert_eq!(call.refusal(), first, "{set:b}");
    }
}

#[test]
fn the_order_around_14_and_15() {
    let cut = planned(3)[..4].to_vec();
    let wrong = line(SPLUS, 0, 1, 0, 5);
    let nothing = |c, w, x: &[i32], first, recipe: &[u8]| {
        Call { w, bits: 0, clauses: 0, ..Call::new(c, x, first, recipe) }.refusal()
    };
    assert_eq!(nothing(0, 0, &[0], u32::MAX, &cut), Some(1));
    assert_eq!(nothing(3, 0, &[0], u32::MAX, &cut), Some(2));
    assert_eq!(nothing(3, 17, &[0], u32::MAX, &cut), Some(2));
    assert_eq!(nothing(3, 1, &[0], u32::MAX, &cut), Some(14));
    assert_eq!(nothing(3, 2, &[5, -6], u32::MAX, &cut), Some(3));
    assert_eq!(nothing(3, 2, &[5, -6], u32::MAX, &wrong), Some(7));
    assert_eq!(nothing(3, 2, &[5, -6], u32::MAX, &[]), Some(8));
    assert_eq!(nothing(3, 2, &[5, -6], u32::MAX, &planned(3)), Some(15));
    assert_eq!(nothing(3, 2, &[5, -6], END - 3, &planned(3)), Some(15));
    assert_eq!(nothing(3, 2, &[5, -6], END - 4, &planned(3)), Some(9));
    assert_eq!(Call { bits: 4, clauses: 0, ..three(&[5, -6], END - 4) }.refusal(), Some(10));
    assert_eq!(Call { bits: 4, clauses: 52, ..three(&[5, -6], END - 4) }.refusal(), None);
}

/// Both calls in marked rooms of these lengths: the answers and the rooms.
type Both = [(Result<second::Counts, second::Refusal>, Vec<i32>, Vec<i32>); 2];

fn both(c: u64, w: u64, recipe: &[u8], bits: usize, clauses: usize) -> Both {
    let x = plain(w.min(20));
    [true, false].map(|old| {
        let (mut y, mut words) = (vec![MARK; bits], vec![MARK; clauses]);
        let answer = match old {
            true => second::write_plain(c, w, recipe, &mut y, &mut words),
            false => second::write(c, w, &x, x.len() as u32 + 1, recipe, &mut y, &mut words),
        };
        (answer, y, words)
    })
}

#[test]
fn the_old_call_is_the_case_1_to_w() {
    let mut random = Random::seeded(11);
    let mut met = [0; 16];
    for round in 0..6_000 {
        let (d, lines) = walk(round % 12, &mut random);
        let (mut c, mut recipe) = (d << random.up_to(16 - bit_length(d) as u64), recipe_of(&lines));
        match random.up_to(9) {
            0 => c = random.up_to(70_000),
            1 => recipe = (0..random.up_to(170)).map(|_| random.next() as u8).collect(),
            2 => drop(recipe.pop()),
            _ => {}
        }
        let w = random.up_to(18);
        let [old, given] = both(c, w, &recipe, random.up_to(40) as usize, random.up_to(9_000) as usize);
        assert_eq!(old, given, "{c} {w} {recipe:?}");
        met[usize::from(numbered(old.0).err().unwrap_or(0))] += 1;
    }
    println!("refusals met: {met:?}");
    assert!([0, 1, 2, 3, 8, 9, 10].iter().all(|number| met[*number] > 20), "{met:?}");
    assert_eq!((met[14], met[15]), (0, 0));
}

#[test]
fn the_old_call_takes_any_width() {
    for w in [0, 17, 1 << 31, (1 << 32) + 2, u64::MAX] {
        let answers = both(3, w, &planned(3), 40, 100).map(|answer| numbered(answer.0));
        assert_eq!(answers, [Err(2), Err(2)], "{w}");
    }
}

#[test]
fn given_literals_rename_the_old_call() {
    let mut random = Random::seeded(12);
    for round in 0..1_500u64 {
        let (d, lines) = walk(round as usize % 20, &mut random);
        let (w, recipe) = (1 + random.up_to(15), recipe_of(&lines));
        let c = d << random.up_to(16 - bit_length(d) as u64);
        let old = written(c, w, &recipe);
        let opened = old.highest() - w as u32;
        let first =
            [w as u32 + 1, w as u32 + 1 + random.up_to(50) as u32, 1_000_000_000, END - opened][round as usize % 4];
        let x = literals(w, first, &mut random);
        let name = |word: &i32| match word.unsigned_abs() {
            0 => 0,
            variable if u64::from(variable) <= w => x[variable as usize - 1] * word.signum(),
            variable => (first + variable - w as u32 - 1) as i32 * word.signum(),
        };
        let given = written_over(c, &x, first, &recipe);
        assert_eq!(given.room, old.room.iter().map(name).collect::<Vec<_>>(), "{c} {x:?} {first}");
        assert_eq!(given.bits, old.bits.iter().map(name).collect::<Vec<_>>(), "{c} {x:?} {first}");
        assert_eq!(given.counts, second::Counts { next: first + opened, ..old.counts }, "{c} {x:?} {first}");
        assert_names_only_x_and_the_new(&given, &x, first);
    }
}

/// Words name nothing but x's variables and the new ones, and each new one is in some clause.
fn assert_names_only_x_and_the_new(given: &Written, x: &[i32], first: u32) {
    let mut named = vec![false; (given.counts.next - first) as usize];
    for word in given.room.iter().chain(&given.bits).filter(|word| **word != 0) {
        let new = (first..given.counts.next).contains(&word.unsigned_abs());
        assert!(new || x.contains(word) || x.contains(&-word), "{word} is neither x's nor new");
    }
    for word in given.room.iter().filter(|word| word.unsigned_abs() >= first) {
        named[(word.unsigned_abs() - first) as usize] = true;
    }
    assert!(named.iter().all(|seen| *seen), "a new variable is in no clause");
    assert_eq!(clauses(&given.room).count(), given.counts.clauses);
}

#[test]
fn the_next_free_number_is_the_first_where_none_is_new() {
    for first in [3, 4, 77, END - 1, END] {
        let given = written_over(5, &[-2, 1], first, &planned(5));
        assert_eq!(given.bits, [-2, 1, -2, 1]);
        assert_eq!(given.counts, second::Counts { words: 0, clauses: 0, next: first, bits: 4 });
    }
}

/// Every assignment of the variables below `first` extends to exactly one of those below the next free number, and there y
/// is c times what the literals read as. Tells how many assignments were tried.
fn assert_extends_to_one(c: u64, x: &[i32], first: u32, recipe: &[u8]) -> u64 {
    let given = written_over(c, x, first, recipe);
    let (below, new) = (first - 1, given.counts.next - first);
    assert_names_only_x_and_the_new(&given, x, first);
    for assignment in 0..1u64 << below {
        let extended = (0..1u64 << new).map(|values| values << below | assignment);
        let models: Vec<u64> = extended.filter(|whole| satisfies(&given.room, *whole)).collect();
        assert_eq!(models.len(), 1, "{c} {x:?} {first} under {assignment:b}");
        let value = reading(x, |literal| holds(literal, assignment));
        assert_eq!(reading_of_model(&given.bits, models[0]), c * value, "{c} {x:?} {first} under {assignment:b}");
    }
    1 << below << new
}

/// All lists of literals of distinct variables below `first`.
fn all_literals(w: u64, first: u32) -> Vec<Vec<i32>> {
    let literals: Vec<i32> = (1..first as i32).flat_map(|variable| [variable, -variable]).collect();
    let longer = |shorter: Vec<Vec<i32>>, _| {
        let free = |x: &Vec<i32>, literal: &i32| !x.contains(literal) && !x.contains(&-literal);
        let next =
            |x: &Vec<i32>| literals.iter().filter(|l| free(x, l)).map(|l| [&x[..], &[*l]].concat()).collect::<Vec<_>>();
        shorter.iter().flat_map(next).collect()
    };
    (0..w).fold(vec![vec![]], longer)
}

#[test]
fn one_extension_over_all_literals() {
    assert_eq!(all_literals(2, 4).len(), 24);
    for (c, w) in [(3, 1), (3, 2), (6, 2), (5, 2), (7, 2)] {
        for first in w as u32 + 1..=5 {
            for x in all_literals(w, first) {
                assert_extends_to_one(c, &x, first, &planned(c));
            }
        }
    }
}

/// At most this many variables below the next free number.
const TRIED: u32 = 14;

#[test]
fn one_extension_over_some_literals() {
    let (mut random, mut calls, mut tried) = (Random::seeded(13), 0, 0);
    for round in 0..2_500u64 {
        let ((d, lines), w) = (walk(round as usize % 4, &mut random), 1 + random.up_to(3));
        let (c, recipe) = (d << random.up_to(1), recipe_of(&lines));
        let first = w as u32 + 1 + random.up_to(5) as u32;
        if c <= 65_535 && written(c, w, &recipe).highest() - w as u32 + first - 1 <= TRIED {
            tried += assert_extends_to_one(c, &literals(w, first, &mut random), first, &recipe);
            calls += 1;
        }
    }
    println!("{calls} calls, {tried} assignments");
    assert!(calls > 500);
}

#[test]
fn arguments_of_any_kind_are_met_without_panic() {
    let mut random = Random::seeded(14);
    let mut met = [0; 16];
    for _ in 0..10_000 {
        let c = 1 + random.up_to(65_534);
        let w = random.up_to(18);
        let edges = [0, 1, 2, END - 40, END, u32::MAX - 3];
        let first = edges[random.up_to(5) as usize].saturating_add(random.up_to(40) as u32);
        let many = if random.up_to(9) == 0 { random.up_to(18) } else { w };
        let word = |random: &mut Random| match random.up_to(30) {
            0 => [0, i32::MIN, i32::MAX][random.up_to(2) as usize],
            _ => random.next() as i32 >> random.up_to(31),
        };
        let x: Vec<i32> = (0..many).map(|_| word(&mut random)).collect();
        let recipe = if random.up_to(5) == 0 { vec![0x20; random.up_to(12) as usize] } else { planned(c) };
        let (bits, clauses) = (random.up_to(80) as usize, random.up_to(6_000) as usize);
        let call = Call { w, bits, clauses, ..Call::new(c, &x, first, &recipe) };
        met[usize::from(call.refusal().unwrap_or(0))] += 1;
    }
    println!("refusals met: {met:?}");
    assert!([0, 2, 3, 14, 15].iter().all(|number| met[*number] > 0), "{met:?}");
}
