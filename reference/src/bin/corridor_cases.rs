//! Writes the stored corridors in cells, judged by this implementation, and two
//! with a wrong answer on purpose, so that a program that compares stored corridors
//! can show that it notices a difference.
//!
//! `corridor_cases SEED CASES WRONG`: the two files. A corridor whose answer is
//! known from its making is held to it, and nothing is written if one has another.

use plancheck_reference::cases::{encode_corridors, stored_corridors, CorridorCase};
use plancheck_reference::Refusal;
use std::process::ExitCode;

fn main() -> ExitCode {
    let arguments: Vec<String> = std::env::args().skip(1).collect();
    let [seed, cases_file, wrong_file] = &arguments[..] else {
        eprintln!("corridor_cases SEED CASES WRONG");
        return ExitCode::FAILURE;
    };
    let cases = stored_corridors(seed.parse().expect("the seed is a number"));
    if let Some(case) = cases.iter().find(|case| !case.is_as_intended()) {
        eprintln!("{}: {:?}", case.name, case.run);
        return ExitCode::FAILURE;
    }
    for (file, cases) in [(cases_file, &cases), (wrong_file, &wrong_answers())] {
        std::fs::write(file, encode_corridors(cases)).expect("the file can be written");
    }
    print_summary(&cases);
    ExitCode::SUCCESS
}

/// A refusal with an item that it does not have, and a run with one vehicle too many
/// in its last cell.
fn wrong_answers() -> Vec<CorridorCase> {
    let mut refused = CorridorCase::new("wrong refusal", Vec::new());
    assert_eq!(refused.run, Err(Refusal::new(36, 1, 0)));
    refused.run = Err(Refusal::new(36, 1, 1));
    let text = b"C\t9\t9\t1000\t9\nC\t9\t9\t1000\t0\nX\t9\nD\t0\n".to_vec();
    let mut moved = CorridorCase::new("wrong volume", text);
    let run = moved.run.as_mut().expect("the corridor runs");
    assert_eq!(run.volumes, [0, 9]);
    run.volumes[1] += 1;
    vec![refused, moved]
}

fn print_summary(cases: &[CorridorCase]) {
    println!("corridors\t{}", cases.len());
    let ran = cases.iter().filter(|case| case.run.is_ok()).count();
    println!("ran\t{ran}");
    for number in [36, 37] {
        let refused =
            |case: &&CorridorCase| matches!(&case.run, Err(refusal) if refusal.number == number);
        println!("refused {number}\t{}", cases.iter().filter(refused).count());
    }
}
