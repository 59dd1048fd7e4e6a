//! `explain`: a refusal with its place, the lines that it points at, and what to do.

use crate::command::{part, Command, Ended, Outcome, Problem};
use crate::files::{read_given, Texts, PLAN_OPTION};
use crate::judge::Run;
use crate::network::Network;
use crate::pointed::pointed;
use crate::why::why;
use crate::words;
use plancheck::{Reason, Refusal};
use std::io::{self, Write};
use std::path::Path;

pub const COMMAND: Command = Command {
    name: "explain",
    arguments: "FOLDER [--plan FILE] | NETWORK PLAN | NUMBER",
    does: "says of a refused network or plan where it breaks, by which lines and numbers, and what to do; or what a refusal's number means",
    run,
};

fn run(arguments: &[String], out: &mut dyn Write) -> Outcome {
    let parted = part(&COMMAND, arguments, &[PLAN_OPTION], &[])?;
    if let [argument] = parted.others[..] {
        let number = argument.parse::<u32>().ok();
        if let Some(number) = number.filter(|_| !Path::new(argument).exists()) {
            return explain_number(number, out);
        }
    }
    let texts = read_given(&COMMAND, &parted.others, parted.value(PLAN_OPTION))?.texts;
    let (refusal, run) = match Run::new(&texts) {
        Ok(run) => match run.answer {
            Ok(_) => {
                writeln!(out, "accepted: there is nothing to explain")?;
                return Ok(Ended::Done);
            }
            Err(refusal) => (refusal, Some(run)),
        },
        Err(refusal) => (refusal, None),
    };
    explain(out, &refusal, &texts, run.as_ref())?;
    Ok(Ended::Refused)
}

fn explain_number(number: u32, out: &mut dyn Write) -> Outcome {
    let known = Reason::from_number(number).zip(words::row(number));
    let Some((reason, row)) = known else {
        return Err(Problem(format!("no refusal has the number {number}")));
    };
    writeln!(out, "refusal {number}: {reason}")?;
    if let Some(text) = reason.text() {
        writeln!(out, "its line is one of the {text} text")?;
    }
    if let Some(kind) = reason.item_kind() {
        writeln!(out, "its item is a {kind}")?;
    }
    writeln!(out, "in short: {}", row.short)?;
    writeln!(out, "meaning: {}", row.meaning.replace('`', ""))?;
    writeln!(out, "what to do: {}", row.action())?;
    Ok(Ended::Done)
}

fn explain(out: &mut dyn Write, refusal: &Refusal, texts: &Texts, run: Option<&Run>) -> io::Result<()> {
    let network: Option<&Network> = run.map(|run| &run.network);
    writeln!(out, "{}", words::sentence(refusal, network))?;
    for line in pointed(refusal, texts, run) {
        writeln!(out, "  {}", line.words())?;
    }
    if let Some(words) = run.and_then(|run| words::before_the_step(refusal, run)) {
        writeln!(out, "  {words}")?;
    }
    let of_step = run.and_then(|run| why(refusal, texts, run)).map(|why| why.words);
    for words in words::faults(refusal, texts, network).into_iter().chain(of_step) {
        writeln!(out, "why: {words}")?;
    }
    if let Some(row) = words::row(refusal.number) {
        writeln!(out, "what to do: {}", row.action())?;
    }
    Ok(())
}
