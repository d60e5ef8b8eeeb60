//! Compares the corrector's C library with the reference, over random cases.
//!
//!     compare [--draw N] [--cases N] [--from N] [--kind pages|lists|positions|sets|runs]
//!     compare --self
//!
//! The cases of each kind but the sets grow with --cases. --from begins with a later case, so that one can be made again alone.
//! With --self nothing is compared: the reference is tried on the examples of the rules.

use outside::examples::EXAMPLES;
use std::process::ExitCode;

const DRAW: u64 = 20_022_023;
const CASES: usize = 20_000;

struct Options {
    draw: u64,
    cases: usize,
    from: usize,
    kind: Option<String>,
    own: bool,
}

fn main() -> ExitCode {
    let options = match options() {
        Ok(options) => options,
        Err(why) => {
            eprintln!("compare: {why}");
            return ExitCode::from(2);
        }
    };
    let (passed, failed) = if options.own { try_reference() } else { compare(&options) };
    println!("{passed} passed, {failed} failed");
    if failed > 0 || passed == 0 {
        return ExitCode::FAILURE;
    }
    ExitCode::SUCCESS
}

fn options() -> Result<Options, String> {
    let mut options = Options { draw: DRAW, cases: CASES, from: 0, kind: None, own: false };
    let mut words = std::env::args().skip(1);
    while let Some(word) = words.next() {
        let mut value = || words.next().ok_or(format!("{word} wants a value"));
        match word.as_str() {
            "--self" => options.own = true,
            "--draw" => options.draw = number(&value()?)?,
            "--cases" => options.cases = number(&value()?)? as usize,
            "--from" => options.from = number(&value()?)? as usize,
            "--kind" => options.kind = Some(value()?),
            _ => return Err(format!("unknown word {word}")),
        }
    }
    Ok(options)
}

fn number(word: &str) -> Result<u64, String> {
    word.parse().map_err(|_| format!("{word} is no number"))
}

/// Passed and failed examples.
fn try_reference() -> (usize, usize) {
    let (mut passed, mut failed) = (0, 0);
    for (name, check) in EXAMPLES {
        if check() {
            passed += 1;
        } else {
            failed += 1;
            println!("{name}: FAILED");
        }
    }
    (passed, failed)
}

#[cfg(not(linked))]
fn compare(_: &Options) -> (usize, usize) {
    println!("this program was built without the library: only --self can be tried");
    (0, 1)
}

#[cfg(linked)]
fn compare(options: &Options) -> (usize, usize) {
    use outside::cases::{lists, pages, positions, runs, sets, tally::Tally};

    type Kind = (&'static str, usize, fn(u64, std::ops::Range<usize>, &mut Tally));
    let kinds: [Kind; 5] = [
        ("pages", options.cases / 20, pages::compare),
        ("lists", options.cases / 4, lists::compare),
        ("positions", options.cases * 2, positions::compare),
        ("sets", 0, sets::compare),
        ("runs", options.cases, runs::compare),
    ];
    println!("draw {}, cases {}", options.draw, options.cases);
    let (mut passed, mut failed) = (0, 0);
    for (name, cases, compare) in kinds {
        if options.kind.as_ref().is_some_and(|kind| kind != name) {
            continue;
        }
        let mut tally = Tally::default();
        compare(options.draw, options.from..options.from + cases, &mut tally);
        tally.tell(name);
        passed += tally.compared - tally.failed;
        failed += tally.failed;
    }
    (passed, failed)
}
