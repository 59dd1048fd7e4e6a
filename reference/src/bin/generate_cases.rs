//! Writes the stored set of test cases.
//!
//! `generate_cases [seed [file [index]]]`: the seed is a number (1 if none is
//! given), the file gets the cases in the form that `cases` describes
//! (`cases.bin` if none is given), the index, if one is named, gets a line for
//! each case with its number, its answer and what it is about.

use plancheck_reference::cases::{encode, stored_cases, Answer, Case};
use plancheck_reference::RefusedPlan;
use std::process::ExitCode;

fn main() -> ExitCode {
    match run() {
        Ok(()) => ExitCode::SUCCESS,
        Err(problem) => {
            eprintln!("{problem}");
            ExitCode::FAILURE
        }
    }
}

fn run() -> Result<(), String> {
    let mut arguments = std::env::args().skip(1);
    let seed = arguments.next().unwrap_or_else(|| "1".to_string());
    let seed: u64 = seed
        .parse()
        .map_err(|_| format!("the seed is not a number: {seed}"))?;
    let file = arguments.next().unwrap_or_else(|| "cases.bin".to_string());
    let index = arguments.next();

    let cases = stored_cases(seed);
    for (number, case) in cases.iter().enumerate() {
        // A case that is not what it was made for shows a fault in the maker
        // or in the judge; nothing is to be built on it.
        if !case.is_as_intended() {
            return Err(format!(
                "case {number} ({}) was made for {:?}, but is answered {:?} or writes something else",
                case.name, case.intended, case.outcome.answer
            ));
        }
    }
    let bytes = encode(&cases);
    std::fs::write(&file, &bytes).map_err(|error| format!("{file}: {error}"))?;
    if let Some(index) = index {
        std::fs::write(&index, index_text(&cases)).map_err(|error| format!("{index}: {error}"))?;
    }
    print_summary(&cases, bytes.len());
    Ok(())
}

fn index_text(cases: &[Case]) -> String {
    let mut text = String::new();
    for (number, case) in cases.iter().enumerate() {
        let answer = match case.outcome.answer {
            Answer::NetworkAccepted => "network accepted".to_string(),
            Answer::PlanAccepted(_) => "plan accepted".to_string(),
            Answer::State(_) => "state".to_string(),
            Answer::Written(length) => format!("written {length}"),
            Answer::Compared(compared) => format!("{:?}, gap {}", compared.order, compared.gap),
            Answer::RefusedPlan(RefusedPlan { refusal, plan }) => format!(
                "refused {} {} {} of {plan}",
                refusal.number, refusal.line, refusal.item
            ),
            Answer::Refused(refusal) => format!(
                "refused {} {} {}",
                refusal.number, refusal.line, refusal.item
            ),
        };
        text += &format!("{number}\t{answer}\t{}\n", case.name);
    }
    text
}

fn print_summary(cases: &[Case], size: usize) {
    let count = |matches: &dyn Fn(&Answer) -> bool| {
        cases
            .iter()
            .filter(|case| matches(&case.outcome.answer))
            .count()
    };
    println!("cases\t{}", cases.len());
    println!("bytes\t{size}");
    let network_accepted = count(&|answer| matches!(answer, Answer::NetworkAccepted));
    println!("network accepted\t{network_accepted}");
    let plan_accepted = count(&|answer| matches!(answer, Answer::PlanAccepted(_)));
    println!("plan accepted\t{plan_accepted}");
    println!(
        "state\t{}",
        count(&|answer| matches!(answer, Answer::State(_)))
    );
    println!(
        "written\t{}",
        count(&|answer| matches!(answer, Answer::Written(_)))
    );
    println!(
        "compared\t{}",
        count(&|answer| matches!(answer, Answer::Compared(_)))
    );
    println!(
        "refused in a comparison\t{}",
        count(&|answer| matches!(answer, Answer::RefusedPlan(_)))
    );
    for number in (1..=6).chain(8..=35) {
        let refused =
            count(&|answer| matches!(answer, Answer::Refused(refusal) if refusal.number == number));
        println!("refused {number}\t{refused}");
    }
}
