//! Each refusal at its edge, their order, and what they leave untouched.

mod common;
use common::*;

const MARK: u8 = 0xA5;
const MARK_WORD: i32 = -559_038_737;

/// Plans in marked rooms; a refusal must leave every mark.
fn plan_in(c: u64, work_room: usize, recipe_room: usize) -> Result<usize, u8> {
    let (mut work, mut recipe) = (vec![MARK; work_room], vec![MARK; recipe_room]);
    let answer = numbered(second::plan(c, &mut work, &mut recipe));
    if answer.is_err() {
        assert!(work.iter().chain(&recipe).all(|byte| *byte == MARK), "{c}: a refusal changed a room");
    }
    answer
}

/// Writes in marked rooms; a refusal must leave every mark.
fn write_in(c: u64, w: u64, recipe: &[u8], bit_room: usize, clause_room: usize) -> Result<second::Counts, u8> {
    let (mut bits, mut room) = (vec![MARK_WORD; bit_room], vec![MARK_WORD; clause_room]);
    let answer = numbered(second::write_plain(c, w, recipe, &mut bits, &mut room));
    if answer.is_err() {
        assert!(bits.iter().chain(&room).all(|word| *word == MARK_WORD), "{c} {w}: a refusal changed a room");
    }
    answer
}

/// The refusal of writing with rooms for everything.
fn refused(c: u64, w: u64, recipe: &[u8]) -> Option<u8> {
    write_in(c, w, recipe, 32, WORDS).err()
}

const OUT_OF_RANGE: [u64; 5] = [0, 65_536, 1 << 32, (1 << 32) + 1, u64::MAX];

#[test]
fn refusal_1() {
    for c in OUT_OF_RANGE {
        assert_eq!(plan_in(c, 1 << 16, 160), Err(1));
        assert_eq!(check(c, &[]), Err(1));
        assert_eq!(refused(c, 4, &[]), Some(1));
    }
    for c in [1, 65_535] {
        assert!(plan_in(c, 1 << 15, 40).is_ok());
        assert_eq!(check(c, &planned(c)), Ok(()));
        assert_eq!(refused(c, 4, &planned(c)), None);
    }
}

#[test]
fn refusal_2() {
    for w in [0, 17, 63, 64, 1 << 32, u64::MAX] {
        assert_eq!(refused(5, w, &planned(5)), Some(2));
    }
    for w in 1..=16 {
        assert_eq!(refused(5, w, &planned(5)), None);
        assert_eq!(refused(65_535, w, &planned(65_535)), None);
    }
}

#[test]
fn refusal_3() {
    let recipe = line(SPLUS, 0, 1, 0, 3).repeat(40);
    for length in 0..=200 {
        let expected = match length {
            0 => Some(8),
            _ if length % 5 != 0 || length > 160 => Some(3),
            _ => None,
        };
        assert_eq!(check(3, &recipe[..length]).err(), expected, "{length}");
        assert_eq!(refused(3, 2, &recipe[..length]), expected, "{length}");
    }
}

/// Checks and writes a recipe for 3 and gives the one refusal of both.
fn refused_for_3(lines: &[Vec<u8>]) -> Option<u8> {
    let recipe = lines.concat();
    let checked = check(3, &recipe).err();
    assert_eq!(refused(3, 2, &recipe), checked);
    checked
}

fn three() -> Vec<u8> {
    line(SPLUS, 0, 1, 0, 3)
}

fn with_top_bit(mut line: Vec<u8>) -> Vec<u8> {
    line[0] |= 0x80;
    line
}

#[test]
fn refusal_4() {
    assert_eq!(refused_for_3(&[three()]), None);
    assert_eq!(refused_for_3(&[with_top_bit(three())]), Some(4));
    assert_eq!(refused_for_3(&[line(0, 0, 1, 0, 3)]), Some(4));
    assert_eq!(refused_for_3(&[three(), with_top_bit(three())]), Some(4));
    assert_eq!(refused_for_3(&[three(), line(0, 0, 1, 0, 3)]), Some(4));
    assert_eq!(refused_for_3(&[vec![0; 5]]), Some(4));
}

#[test]
fn refusal_5() {
    let threes = |upto: usize| vec![three(); upto];
    for number in 1..=32u64 {
        for operand in 0..64 {
            let as_left = [threes(number as usize - 1), vec![line(SMINUS, operand, 2, 0, 11)]].concat();
            let as_right = [threes(number as usize - 1), vec![line(SPLUS, 0, 3, operand, 11)]].concat();
            // Line 0 makes 4 - 1 or 8 + 1 of these, an earlier line 12 - 1 or 8 + 3.
            let expected = match operand {
                0 => Some(7),
                _ if operand >= number => Some(5),
                _ => Some(8),
            };
            assert_eq!(refused_for_3(&as_left), expected, "left {operand} in line {number}");
            assert_eq!(refused_for_3(&as_right), expected, "right {operand} in line {number}");
        }
    }
}

#[test]
fn refusal_6() {
    for claimed in [0, 2, 4, 1_048_574] {
        assert_eq!(refused_for_3(&[line(SPLUS, 0, 1, 0, claimed)]), Some(6));
    }
    // What the kind gives at s = 0 is even; so it can be claimed neither way.
    assert_eq!(refused_for_3(&[line(SPLUS, 0, 0, 0, 2)]), Some(6));
    assert_eq!(refused_for_3(&[line(SMINUS, 0, 0, 0, 0)]), Some(6));
    assert_eq!(refused_for_3(&[line(MINUSS, 0, 0, 0, 0)]), Some(6));
    assert_eq!(refused_for_3(&[line(SPLUS, 0, 0, 0, 3)]), Some(7));
}

#[test]
fn refusal_7() {
    assert_eq!(refused_for_3(&[line(SPLUS, 0, 1, 0, 1)]), Some(7));
    assert_eq!(refused_for_3(&[line(SPLUS, 0, 1, 0, 5)]), Some(7));
    // 2^20 + 1 and -1 agree with these claims in their lowest twenty bits.
    assert_eq!(refused_for_3(&[line(SPLUS, 0, 20, 0, 1)]), Some(7));
    assert_eq!(refused_for_3(&[line(MINUSS, 0, 1, 0, 1_048_575)]), Some(7));
    assert_eq!(refused_for_3(&[line(SPLUS, 0, 19, 0, 524_289), three()]), None);
    let twenty_ones = line(SMINUS, 0, 20, 0, 1_048_575);
    assert_eq!(refused_for_3(&[twenty_ones.clone(), three()]), None);
    assert_eq!(refused_for_3(&[twenty_ones.clone(), line(SPLUS, 1, 31, 1, 1_048_575)]), Some(7));
    assert_eq!(refused_for_3(&[twenty_ones, line(MINUSS, 1, 31, 1, 1_048_575)]), Some(7));
    assert_eq!(refused_for_3(&[line(SMINUS, 0, 1, 0, 1), three()]), None);
}

#[test]
fn refusal_8() {
    let (empty, three) = (vec![], three());
    for t in 0..16 {
        assert_eq!(check(1 << t, &empty), Ok(()));
        assert_eq!(check(1 << t, &three), Err(8));
        assert_eq!(refused(1 << t, 2, &three), Some(8));
    }
    for t in 0..15 {
        assert_eq!(check(3 << t, &three), Ok(()));
        assert_eq!(check(3 << t, &empty), Err(8));
        assert_eq!(refused(3 << t, 2, &empty), Some(8));
    }
    assert_eq!(check(5, &three), Err(8));
    let five_last = [three.clone(), line(SPLUS, 0, 2, 0, 5)].concat();
    assert_eq!(check(3, &five_last), Err(8));
    assert_eq!(check(5, &five_last), Ok(()));
}

const SOME_C: [u64; 14] = [1, 2, 3, 6, 7, 53, 59, 117, 255, 1965, 4096, 43_690, 54_321, 65_535];

#[test]
fn refusals_9_and_10_at_their_edges() {
    for c in SOME_C {
        for w in [1, 2, 5, 16] {
            let recipe = planned(c);
            let bits = bit_length(c * ((1 << w) - 1));
            let counts = write_in(c, w, &recipe, bits, WORDS).unwrap();
            assert_eq!(counts.bits, bits);
            assert_eq!(write_in(c, w, &recipe, bits, counts.words), Ok(counts));
            assert_eq!(write_in(c, w, &recipe, bits - 1, counts.words), Err(9));
            assert_eq!(write_in(c, w, &recipe, 0, counts.words), Err(9));
            if counts.words > 0 {
                assert_eq!(write_in(c, w, &recipe, bits, counts.words - 1), Err(10));
                assert_eq!(write_in(c, w, &recipe, bits, 0), Err(10));
                assert_eq!(write_in(c, w, &recipe, bits - 1, counts.words - 1), Err(9));
            }
        }
    }
}

#[test]
fn refusals_11_and_12_at_their_edges() {
    for c in SOME_C {
        let length = bit_length(odd_part(c));
        let (work, recipe) = (1 << (length - 1), 5 * (length / 2));
        assert!(plan_in(c, work, recipe).is_ok());
        assert_eq!(plan_in(c, work - 1, recipe), Err(11));
        assert_eq!(plan_in(c, 0, recipe), Err(11));
        if recipe > 0 {
            assert_eq!(plan_in(c, work, recipe - 1), Err(12));
            assert_eq!(plan_in(c, work, 0), Err(12));
            assert_eq!(plan_in(c, work - 1, recipe - 1), Err(11));
        }
    }
    // The room asked for is that of the length, even where fewer lines come.
    assert_eq!(plan_in(65_535, 1 << 15, 39), Err(12));
    assert_eq!(plan_in(65_535, 1 << 15, 40), Ok(1));
}

#[test]
fn refusal_13() {
    let malformed: [&[u8]; 26] = [
        b"",
        b"\n",
        b" ",
        b" \n",
        b"3\n",
        b"3 \n",
        b" 3\n",
        b" 2\n",
        b"3 2",
        b"3 2\n\n",
        b"3 2\n ",
        b"3 2 \n",
        b" 3 2\n",
        b"3  2\n",
        b"3\t2\n",
        b"3 2\r\n",
        b"3 002\n",
        b"000003 2\n",
        b"+3 2\n",
        b"3 -2\n",
        b"3 2\n3 2\n",
        b"a 2\n",
        b"3 b\n",
        b"\xEF\xBB\xBF3 2\n",
        b"3,2\n",
        b"3 2\0\n",
    ];
    for input in malformed {
        assert_eq!(second::print(input), b"refused 13\n", "{input:?}");
    }
    assert!(second::print(b"3 2\n").starts_with(b"c mul 3 2\n"));
    assert!(second::print(b"00003 16\n").starts_with(b"c mul 3 16\n"));
}

#[test]
fn the_program_passes_refusals_on() {
    let inputs: [(&[u8], &str); 8] = [
        (b"0 1\n", "refused 1\n"),
        (b"00000 00\n", "refused 1\n"),
        (b"65536 1\n", "refused 1\n"),
        (b"99999 99\n", "refused 1\n"),
        (b"100000 2\n", "refused 13\n"),
        (b"3 0\n", "refused 2\n"),
        (b"3 17\n", "refused 2\n"),
        (b"65535 99\n", "refused 2\n"),
    ];
    for (input, output) in inputs {
        assert_eq!(second::print(input), output.as_bytes());
    }
}

/// Everything is wrong at first; each step mends what was refused last.
#[test]
fn order_of_writing() {
    let bad_line = with_top_bit(line(0, 9, 0, 9, 0));
    let (short, long) = (bad_line[..4].to_vec(), bad_line.repeat(33));
    let nothing = |c, w, recipe: &[u8]| write_in(c, w, recipe, 0, 0);
    assert_eq!(nothing(0, 0, &short), Err(1));
    assert_eq!(nothing(6, 0, &short), Err(2));
    assert_eq!(nothing(6, 2, &short), Err(3));
    assert_eq!(nothing(6, 2, &long), Err(3));
    assert_eq!(nothing(6, 2, &bad_line), Err(4));
    assert_eq!(nothing(6, 2, &line(0, 9, 0, 9, 0)), Err(4));
    assert_eq!(nothing(6, 2, &line(3, 9, 0, 9, 0)), Err(5));
    assert_eq!(nothing(6, 2, &line(3, 0, 0, 9, 0)), Err(5));
    assert_eq!(nothing(6, 2, &line(3, 0, 1, 0, 0)), Err(6));
    assert_eq!(nothing(6, 2, &line(3, 0, 1, 0, 3)), Err(7));
    assert_eq!(nothing(6, 2, &line(2, 0, 1, 0, 1)), Err(8));
    assert_eq!(nothing(6, 2, &three()), Err(9));
    assert_eq!(write_in(6, 2, &three(), 5, 0), Err(10));
    assert!(write_in(6, 2, &three(), 5, 52).is_ok());
}

#[test]
fn order_of_checking_and_planning() {
    assert_eq!(check(0, &[0; 4]), Err(1));
    assert_eq!(check(5, &[0; 4]), Err(3));
    assert_eq!(check(5, &[0; 165]), Err(3));
    assert_eq!(check(5, &[0; 160]), Err(4));
    assert_eq!(check(5, &three()), Err(8));
    assert_eq!(plan_in(0, 0, 0), Err(1));
    assert_eq!(plan_in(65_535, 0, 0), Err(11));
    assert_eq!(plan_in(65_535, 1 << 15, 0), Err(12));
}

#[test]
fn order_within_a_line_and_between_lines() {
    let breaking = |rule: u64| match rule {
        4 => line(0, 0, 1, 0, 3),
        5 => line(SPLUS, 60, 1, 0, 3),
        6 => line(SPLUS, 0, 1, 0, 4),
        _ => line(SPLUS, 0, 1, 0, 5),
    };
    assert_eq!(refused_for_3(&[line(SPLUS, 1, 1, 0, 4)]), Some(5));
    assert_eq!(refused_for_3(&[line(SPLUS, 0, 1, 1, 4)]), Some(5));
    assert_eq!(refused_for_3(&[with_top_bit(line(SPLUS, 1, 1, 0, 4))]), Some(4));
    for earlier in 4..=7 {
        for later in 4..=7 {
            assert_eq!(refused_for_3(&[breaking(earlier), breaking(later)]), Some(earlier as u8));
            assert_eq!(refused_for_3(&[three(), breaking(earlier), breaking(later)]), Some(earlier as u8));
        }
    }
}

#[test]
fn success_leaves_the_tails() {
    for c in SOME_C {
        let length = bit_length(odd_part(c));
        let (mut work, mut recipe) = (vec![MARK; (1 << 15) + 7], vec![MARK; 200]);
        let lines = second::plan(c, &mut work, &mut recipe).unwrap();
        assert!(work[1 << (length - 1)..].iter().chain(&recipe[5 * lines..]).all(|byte| *byte == MARK));
        let (mut bits, mut room) = (vec![MARK_WORD; 40], vec![MARK_WORD; WORDS]);
        let counts = second::write_plain(c, 9, &recipe[..5 * lines], &mut bits, &mut room).unwrap();
        assert!(bits[counts.bits..].iter().chain(&room[counts.words..]).all(|word| *word == MARK_WORD));
        assert!(!bits[..counts.bits].contains(&MARK_WORD) && !room[..counts.words].contains(&MARK_WORD));
    }
}

/// One bit of an accepted recipe changed, and rooms and numbers of any kind.
#[test]
fn changed_recipes_are_met_without_panic() {
    let mut random = Random::seeded(3);
    let mut met = [0; 14];
    for _ in 0..20_000 {
        let c = 1 + random.up_to(65_534);
        let mut recipe = planned(c);
        if !recipe.is_empty() {
            let place = random.up_to(8 * recipe.len() as u64 - 1) as usize;
            recipe[place / 8] ^= 1 << (place % 8);
        }
        let checked = check(c, &recipe);
        let (bit_room, clause_room) = (random.up_to(40) as usize, random.up_to(2000) as usize);
        let written = write_in(c, random.up_to(18), &recipe, bit_room, clause_room);
        let number = written.err().unwrap_or(0);
        assert!(checked.is_ok() || number == 2 || Err(number) == checked, "{c} {recipe:?}");
        assert!(checked.is_err() || [0, 2, 9, 10].contains(&number), "{c} {recipe:?}");
        met[number as usize] += 1;
    }
    println!("refusals met: {met:?}");
}

#[test]
fn arguments_of_any_kind_are_met_without_panic() {
    let mut random = Random::seeded(4);
    for _ in 0..20_000 {
        let (c, w) = (random.next() >> random.up_to(63), random.next() >> random.up_to(63));
        let recipe: Vec<u8> = (0..random.up_to(170)).map(|_| random.next() as u8).collect();
        let _ = check(c, &recipe);
        let _ = write_in(c, w, &recipe, random.up_to(40) as usize, random.up_to(500) as usize);
        let _ = plan_in(c, random.up_to(300) as usize, random.up_to(60) as usize);
        let input: Vec<u8> = (0..random.up_to(9)).map(|_| b"0123456789 \n"[random.up_to(11) as usize]).collect();
        assert!(second::print(&input).ends_with(b"\n"));
    }
}
