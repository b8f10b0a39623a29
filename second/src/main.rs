//! Command line over the library, for people and for scripts.

use std::io::{Read, Write};
use std::process::ExitCode;

use second::{streams, Refusal};

const USAGE: &str = "usage: second plan C           lines of the planned recipe, and its bytes
       second check C HEX      is HEX a recipe for C, and if not, which line is bad
       second write C W [HEX]  the file for HEX, or for the planned recipe
       second print            reads `C W` from standard input, writes the file
       second cases            worked cases, as the table that the proofs compute
       second calls KIND SEED COUNT   that many calls of a KIND, as a stream of records
       second answers KIND     the answers to such a stream on standard input
KIND is checks, plans, writes or passes (over words).
C and W are decimal numbers; blanks within HEX are ignored.
";

fn main() -> ExitCode {
    let arguments: Vec<String> = std::env::args_os().skip(1).map(|word| word.to_string_lossy().into_owned()).collect();
    let words: Vec<&str> = arguments.iter().map(String::as_str).collect();
    let Some(output) = answer(&words) else {
        eprint!("{USAGE}");
        return ExitCode::from(2);
    };
    match std::io::stdout().write_all(&output) {
        Ok(()) => ExitCode::SUCCESS,
        Err(_) => ExitCode::FAILURE,
    }
}

/// What to print, or nothing if the words make no known request.
fn answer(words: &[&str]) -> Option<Vec<u8>> {
    match words {
        ["plan", c] => Some(planned(number(c)?).into_bytes()),
        ["check", c, hex] => Some(checked(number(c)?, &recipe(hex)?).into_bytes()),
        ["write", c, w] => Some(written(number(c)?, number(w)?)),
        ["write", c, w, hex] => Some(second::print_recipe(number(c)?, number(w)?, &recipe(hex)?)),
        ["print"] => Some(printed()),
        ["cases"] => Some(second::cases::table().into_bytes()),
        ["calls", kind, seed, count] => calls(kind, number(seed)?, number(count)? as usize),
        ["answers", kind] => answers(kind),
        _ => None,
    }
}

/// Digits only: the library's own parsing of numbers would take a sign too.
fn number(word: &str) -> Option<u64> {
    let digits = word.bytes().all(|byte| byte.is_ascii_digit());
    digits.then(|| word.parse().ok())?
}

fn recipe(hex: &str) -> Option<Vec<u8>> {
    let digits: Option<Vec<u32>> = hex.chars().filter(|c| !c.is_whitespace()).map(|c| c.to_digit(16)).collect();
    let digits = digits.filter(|digits| digits.len() % 2 == 0)?;
    Some(digits.chunks(2).map(|pair| (pair[0] * 16 + pair[1]) as u8).collect())
}

fn planned_recipe(c: u64) -> Result<Vec<u8>, Refusal> {
    let mut room = vec![0; 160];
    let lines = second::plan(c, &mut vec![0; 1 << 15], &mut room)?;
    room.truncate(5 * lines);
    Ok(room)
}

fn planned(c: u64) -> String {
    match planned_recipe(c) {
        Ok(recipe) => format!("{}\n{}", recipe.len() / 5, rows(&recipe)),
        Err(refusal) => format!("refused {}\n", refusal.number),
    }
}

fn rows(recipe: &[u8]) -> String {
    let row = |line: &[u8]| line.iter().map(|byte| format!("{byte:02X}")).collect::<Vec<_>>().join(" ") + "\n";
    recipe.chunks(5).map(row).collect()
}

fn checked(c: u64, recipe: &[u8]) -> String {
    match second::check(c, recipe) {
        Ok(()) => "accepted\n".to_string(),
        Err(refusal) => format!("refused {}{}\n", refusal.number, blamed(refusal, recipe)),
    }
}

/// The line to blame with what it claims beside what it gives; where a refusal names no line there is nothing to add.
fn blamed(Refusal { number, line, value }: Refusal, recipe: &[u8]) -> String {
    match (number, second::claimed(recipe, line)) {
        (_, None) => String::new(),
        (7, Some(claimed)) => format!(": line {line} gives {value}, claims {claimed}"),
        _ => format!(": line {line}"),
    }
}

fn written(c: u64, w: u64) -> Vec<u8> {
    match planned_recipe(c) {
        Ok(recipe) => second::print_recipe(c, w, &recipe),
        Err(refusal) => format!("refused {}\n", refusal.number).into_bytes(),
    }
}

fn calls(kind: &str, seed: u64, count: usize) -> Option<Vec<u8>> {
    match kind {
        "checks" => Some(streams::checks(seed, count)),
        "plans" => Some(streams::plans(seed, count)),
        "writes" => Some(streams::writes(seed, count)),
        "passes" => Some(streams::passes(seed, count)),
        _ => None,
    }
}

fn answers(kind: &str) -> Option<Vec<u8>> {
    let answer = match kind {
        "checks" => streams::check_answers,
        "plans" => streams::plan_answers,
        "writes" => streams::write_answers,
        "passes" => streams::pass_answers,
        _ => return None,
    };
    let mut stream = Vec::new();
    std::io::stdin().read_to_end(&mut stream).ok()?;
    Some(answer(&stream))
}

/// A standard input that cannot be read is no well-formed one either.
fn printed() -> Vec<u8> {
    let mut input = Vec::new();
    match std::io::stdin().read_to_end(&mut input) {
        Ok(_) => second::print(&input),
        Err(_) => b"refused 13\n".to_vec(),
    }
}
