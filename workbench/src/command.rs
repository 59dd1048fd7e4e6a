//! What a command of the tool is, and how it ends.

use std::io::{self, Write};

/// How a command ended that was not wrong.
#[derive(Clone, Copy, Debug, PartialEq, Eq)]
pub enum Ended {
    /// Accepted, or what was asked for is written.
    Done,
    /// The library refused a text.
    Refused,
    /// Something was not read, which has been printed; the rest is done.
    Unread,
}

/// Why nothing could be done, in words: a wrong command, or a file that was not read or written. It has no words where nobody
/// reads on, as behind `| head`, which is no fault.
#[derive(Debug)]
pub struct Problem(pub String);

pub type Outcome = Result<Ended, Problem>;

impl From<io::Error> for Problem {
    fn from(error: io::Error) -> Problem {
        match error.kind() {
            io::ErrorKind::BrokenPipe => Problem(String::new()),
            _ => Problem(error.to_string()),
        }
    }
}

/// One command: its name, its arguments as the usage prints them, what it does, and the function that does it. `workbench/run`
/// reads the three texts here too, each on one line, for help before anything is built.
pub struct Command {
    pub name: &'static str,
    pub arguments: &'static str,
    pub does: &'static str,
    pub run: fn(&[String], &mut dyn Write) -> Outcome,
}

impl Command {
    pub fn run(&self, arguments: &[String], out: &mut dyn Write) -> Outcome {
        (self.run)(arguments, out)
    }

    /// The problem of arguments that do not fit.
    pub fn wrong(&self) -> Problem {
        Problem(format!("usage: workbench {} {}", self.name, self.arguments))
    }

    /// The same, with what is wrong.
    pub fn wrong_as(&self, words: &str) -> Problem {
        Problem(format!("{words}; {}", self.wrong().0))
    }
}

/// The arguments of a command: options with their values, which a flag has none of, and the others.
pub struct Parted<'a> {
    pub options: Vec<(&'a str, &'a str)>,
    pub others: Vec<&'a str>,
}

impl<'a> Parted<'a> {
    /// The value of an option, the last where it is given several times.
    pub fn value(&self, option: &str) -> Option<&'a str> {
        let given = self.options.iter().rev().find(|(name, _)| *name == option);
        given.map(|&(_, value)| value)
    }

    pub fn has(&self, flag: &str) -> bool {
        self.value(flag).is_some()
    }
}

/// Parts arguments; an option that is neither among those with a value nor among the flags is a problem. `-` is no option:
/// it stands for standard input.
pub fn part<'a>(
    command: &Command,
    arguments: &'a [String],
    with_value: &[&str],
    flags: &[&str],
) -> Result<Parted<'a>, Problem> {
    let (mut options, mut others) = (Vec::new(), Vec::new());
    let mut rest = arguments.iter();
    while let Some(argument) = rest.next() {
        if flags.contains(&argument.as_str()) {
            options.push((argument.as_str(), ""));
        } else if with_value.contains(&argument.as_str()) {
            let value = rest.next();
            let value = value.ok_or_else(|| command.wrong_as(&format!("{argument} has no value")))?;
            options.push((argument.as_str(), value.as_str()));
        } else if argument.starts_with('-') && argument != "-" {
            return Err(command.wrong_as(&format!("there is no option {argument}")));
        } else {
            others.push(argument.as_str());
        }
    }
    Ok(Parted { options, others })
}
