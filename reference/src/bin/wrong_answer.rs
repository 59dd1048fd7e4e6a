//! Writes a file of one stored case with a wrong answer on purpose, so that a
//! program that compares stored cases can show that it notices a difference.
//!
//! `wrong_answer [file]`: the file is `wrong_answer.bin` if none is given. The
//! case is a plan check with empty texts and an empty ledger: what is stored
//! names an item that the refusal does not have.

use plancheck_reference::cases::{encode, Answer, Buffer, Call, Case, Ledger, Question};
use plancheck_reference::Refusal;

fn main() -> std::io::Result<()> {
    let file = std::env::args().nth(1);
    let file = file.as_deref().unwrap_or("wrong_answer.bin");
    let question = Question {
        network: Vec::new(),
        plan: Vec::new(),
        second: Vec::new(),
        ledger: Ledger::default(),
        second_ledger: Ledger::default(),
        buffer: Buffer::default(),
        call: Call::CheckPlan,
    };
    let mut outcome = question.judge();
    assert_eq!(outcome.answer, Answer::Refused(Refusal::new(1, 1, 0)));
    outcome.answer = Answer::Refused(Refusal::new(1, 1, 1));
    let case = Case {
        name: "wrong answer".to_string(),
        question,
        intended: None,
        intended_buffer: None,
        outcome,
    };
    std::fs::write(file, encode(&[case]))
}
