//! Writes the stored steps of vehicles, judged by this implementation, and two with
//! a wrong answer on purpose, so that a program that compares stored steps can show
//! that it notices a difference.
//!
//! `street_cases SEED CASES WRONG`: the two files. A step whose places are known from
//! its making is held to them, and nothing is written if one has others.

use plancheck_reference::cases::{encode_streets, stored_streets, Street, StreetCase};
use plancheck_reference::Refusal;
use std::process::ExitCode;

fn main() -> ExitCode {
    let arguments: Vec<String> = std::env::args().skip(1).collect();
    let [seed, cases_file, wrong_file] = &arguments[..] else {
        eprintln!("street_cases SEED CASES WRONG");
        return ExitCode::FAILURE;
    };
    let cases = stored_streets(seed.parse().expect("the seed is a number"));
    if let Some(case) = cases.iter().find(|case| !case.is_as_intended()) {
        eprintln!("{}: {:?}, {:?}", case.name, case.answer, case.after);
        return ExitCode::FAILURE;
    }
    for (file, cases) in [(cases_file, &cases), (wrong_file, &wrong_answers())] {
        std::fs::write(file, encode_streets(cases)).expect("the file can be written");
    }
    print_summary(&cases);
    ExitCode::SUCCESS
}

/// A refusal reported with the other number, and a vehicle that ends at the zero of the
/// other sign.
fn wrong_answers() -> Vec<StreetCase> {
    let street = Street::new(&[f64::NAN], &[1.0], &[], 0.0);
    let mut refused = StreetCase::new("wrong refusal", &street);
    assert_eq!(refused.answer, Err(Refusal::new(38, 0, 0)));
    refused.answer = Err(Refusal::new(39, 0, 0));
    let street = Street::new(&[-5.0], &[6.0], &[-0.0], 0.0);
    let mut stepped = StreetCase::new("wrong sign", &street);
    assert_eq!(stepped.after[0].to_bits(), (-0.0_f64).to_bits());
    stepped.after[0] = 0.0;
    vec![refused, stepped]
}

fn print_summary(cases: &[StreetCase]) {
    println!("streets\t{}", cases.len());
    let stepped = cases.iter().filter(|case| case.answer.is_ok()).count();
    println!("stepped\t{stepped}");
    for number in [38, 39] {
        let refused =
            |case: &&StreetCase| matches!(&case.answer, Err(refusal) if refusal.number == number);
        println!("refused {number}\t{}", cases.iter().filter(refused).count());
    }
    let has_nan = |case: &&StreetCase| {
        let street = &case.street;
        let lists = [&street.places, &street.advances, &street.red_lines];
        street.spacing.is_nan() || lists.into_iter().flatten().any(|value| value.is_nan())
    };
    println!("with a NaN\t{}", cases.iter().filter(has_nan).count());
}
