//! `model`: the check's rules for a solver.

use crate::command::{part, Command, Ended, Outcome};
use crate::files::{read_network, write};
use crate::model::Model;
use crate::words;
use plancheck::{NetworkText, Text};
use std::io::Write;
use std::path::Path;

pub const COMMAND: Command = Command {
    name: "model",
    arguments: "NETWORK [-o FILE]",
    does: "writes the rules of the check as a mixed integer program in LP format, for a solver; `solution` reads what it finds",
    run,
};

fn run(arguments: &[String], out: &mut dyn Write) -> Outcome {
    let parted = part(&COMMAND, arguments, &["-o"], &[])?;
    let [network] = parted.others[..] else {
        return Err(COMMAND.wrong());
    };
    let text = read_network(network)?;
    match NetworkText::read(&text) {
        Ok(network) => {
            let model = Model::new(&network).to_string();
            match parted.value("-o") {
                Some(path) => write(Path::new(path), model.as_bytes())?,
                None => out.write_all(model.as_bytes())?,
            }
            Ok(Ended::Done)
        }
        Err(refusal) => {
            let given = [(Text::Network, &text[..])];
            eprintln!("workbench: {}", words::told(&refusal, &given, None, &[]));
            Ok(Ended::Refused)
        }
    }
}
