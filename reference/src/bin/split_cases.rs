//! Writes the stored splits, judged by this implementation, and two with a wrong
//! answer on purpose, so that a program that compares stored splits can show that it
//! notices a difference.
//!
//! `split_cases SEED CASES WRONG`: the two files. A split that is not what it was
//! made for shows a fault in the maker or in the judge, and nothing is written.

use plancheck_reference::cases::{encode_splits, stored_splits, SplitCase};
use std::process::ExitCode;

fn main() -> ExitCode {
    let arguments: Vec<String> = std::env::args().skip(1).collect();
    let [seed, cases_file, wrong_file] = &arguments[..] else {
        eprintln!("split_cases SEED CASES WRONG");
        return ExitCode::FAILURE;
    };
    let seed = seed.parse().expect("the seed is a number");
    let cases = stored_splits(seed);
    if let Some(case) = cases.iter().find(|case| !case.is_as_intended()) {
        eprintln!("{}: {:?}", case.name, case.answer);
        return ExitCode::FAILURE;
    }
    for (file, cases) in [(cases_file, &cases), (wrong_file, &wrong_answers(seed))] {
        std::fs::write(file, encode_splits(cases)).expect("the file can be written");
    }
    print_summary(&cases);
    ExitCode::SUCCESS
}

/// A refusal with an item that it does not have, and a split with another last byte
/// of its last text.
fn wrong_answers(seed: u64) -> Vec<SplitCase> {
    let mut cases = stored_splits(seed);
    let is_refused = |case: &SplitCase| case.answer.is_err();
    let place = cases.iter().position(is_refused).expect("one is refused");
    let mut refused = cases.swap_remove(place);
    if let Err(refusal) = &mut refused.answer {
        refusal.item += 1;
    }
    let place = cases.iter().position(|case| case.answer.is_ok());
    let mut written = cases.swap_remove(place.expect("one is written"));
    if let Ok([.., plan]) = &mut written.answer {
        plan.pop();
        plan.push(b'x');
    }
    vec![refused, written]
}

fn print_summary(cases: &[SplitCase]) {
    println!("splits\t{}", cases.len());
    let written = cases.iter().filter(|case| case.answer.is_ok()).count();
    println!("written\t{written}");
    for number in [1, 4, 6, 9, 40, 41, 42] {
        let refused =
            |case: &&SplitCase| matches!(&case.answer, Err(refusal) if refusal.number == number);
        println!("refused {number}\t{}", cases.iter().filter(refused).count());
    }
}
