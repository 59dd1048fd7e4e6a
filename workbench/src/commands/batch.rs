//! `batch`: many plans, each on its network, a line of JSON for each.

use crate::answer::{unread, Answer};
use crate::command::{part, Command, Ended, Outcome, Problem};
use crate::files::{network_at, read_file, read_network, take_input, INPUT, NETWORK, PLAN};
use crate::json::{self, Value};
use plancheck::{check_plan, MAX_LEDGER_LEN};
use std::fs::File;
use std::io::{self, BufRead, BufReader, Write};
use std::path::{Path, PathBuf};
use std::sync::mpsc::{sync_channel, Receiver, SyncSender, TryRecvError};
use std::sync::Arc;
use std::thread::{self, JoinHandle};

pub const COMMAND: Command = Command {
    name: "batch",
    arguments: "[--network NETWORK] [--jobs N] [LIST]",
    does: "judges what each line of standard input or of LIST names, a JSON line for each in their order: NETWORK tab PLAN, FOLDER, or JSON with the texts",
    run,
};

const MAX_JOBS: usize = 256;
/// How many lines wait for a judge, and how many of its answers wait to be written: memory does not grow with the input.
const WAITING: usize = 16;
/// The longest line: both texts at their longest are 230,892 bytes, and JSON may write each as six.
const MAX_LINE: usize = 2 * 1024 * 1024;

/// A line of the input.
struct Line {
    number: u64,
    read: Read,
}

/// A line without its end, or nothing of one that is too long.
enum Read {
    Whole(Vec<u8>),
    TooLong,
}

/// A line of the output.
struct Told {
    json: String,
    is_read: bool,
}

fn run(arguments: &[String], out: &mut dyn Write) -> Outcome {
    let parted = part(&COMMAND, arguments, &["--network", "--jobs"], &[])?;
    let jobs = parted.value("--jobs").map_or(Some(1), |jobs| jobs.parse().ok());
    let jobs = jobs.filter(|jobs| (1..=MAX_JOBS).contains(jobs));
    let jobs = jobs.ok_or_else(|| COMMAND.wrong_as(&format!("--jobs takes 1 to {MAX_JOBS}")))?;
    let input: Box<dyn BufRead + Send> = match parted.others[..] {
        [] | [INPUT] => Box::new(BufReader::new(take_input()?)),
        [list] => {
            let file = File::open(list).map_err(|error| Problem(format!("{list} was not read: {error}")))?;
            Box::new(BufReader::new(file))
        }
        _ => return Err(COMMAND.wrong()),
    };
    let network = parted.value("--network").map(read_network).transpose()?;
    let network: Option<Arc<[u8]>> = network.map(Arc::from);
    judge_all(input, network.as_ref(), jobs, out)
}

/// The lines go to the judges in turn, and their answers come in the same turn, so that they stay in order. Where nobody reads
/// the answers, writing one fails, and the program ends with the threads that still wait.
fn judge_all(input: Box<dyn BufRead + Send>, network: Option<&Arc<[u8]>>, jobs: usize, out: &mut dyn Write) -> Outcome {
    let (mut judges, mut answers) = (Vec::new(), Vec::new());
    for _ in 0..jobs {
        let (judge, lines) = sync_channel(WAITING);
        let (answer, told) = sync_channel(WAITING);
        let network = network.cloned();
        thread::spawn(move || judge_lines(&lines, &answer, network.as_deref()));
        judges.push(judge);
        answers.push(told);
    }
    let reader = thread::spawn(move || read_lines(input, &judges));
    let (mut told, mut not_read) = (0, 0);
    for judge in answers.iter().cycle() {
        let Some(answer) = next_answer(judge, out)? else { break };
        writeln!(out, "{}", answer.json)?;
        told += 1;
        not_read += u64::from(!answer.is_read);
    }
    if told < lines_read(reader)? {
        return Err(Problem("a judge failed: the answers end before the lines".to_string()));
    }
    if not_read == 0 {
        return Ok(Ended::Done);
    }
    eprintln!("workbench: {not_read} of {told} lines were not judged: their answers are unread, and say why");
    Ok(Ended::Unread)
}

/// The next answer of a judge; before it is waited for, what is written is handed on.
fn next_answer(judge: &Receiver<Told>, out: &mut dyn Write) -> io::Result<Option<Told>> {
    match judge.try_recv() {
        Ok(told) => Ok(Some(told)),
        Err(TryRecvError::Disconnected) => Ok(None),
        Err(TryRecvError::Empty) => {
            out.flush()?;
            Ok(judge.recv().ok())
        }
    }
}

fn lines_read(reader: JoinHandle<io::Result<u64>>) -> Result<u64, Problem> {
    match reader.join() {
        Ok(Ok(count)) => Ok(count),
        Ok(Err(error)) => Err(Problem(format!("the input was not read: {error}"))),
        Err(_) => Err(Problem("the input was not read".to_string())),
    }
}

/// Hands each line to the next judge, and counts them.
fn read_lines(mut input: Box<dyn BufRead + Send>, judges: &[SyncSender<Line>]) -> io::Result<u64> {
    let mut number = 0;
    for judge in judges.iter().cycle() {
        let Some(read) = next_line(&mut input)? else { break };
        number += 1;
        if judge.send(Line { number, read }).is_err() {
            break;
        }
    }
    Ok(number)
}

/// The next line, which the input's end may end.
fn next_line(input: &mut dyn BufRead) -> io::Result<Option<Read>> {
    let mut line = Vec::new();
    let (mut is_there, mut is_too_long) = (false, false);
    loop {
        let bytes = match input.fill_buf() {
            Err(error) if error.kind() == io::ErrorKind::Interrupted => continue,
            read => read?,
        };
        if bytes.is_empty() {
            break;
        }
        is_there = true;
        let end = bytes.iter().position(|&byte| byte == b'\n');
        let taken = end.unwrap_or(bytes.len());
        is_too_long |= line.len() + taken > MAX_LINE;
        if !is_too_long {
            line.extend_from_slice(&bytes[..taken]);
        }
        input.consume(taken + usize::from(end.is_some()));
        if end.is_some() {
            break;
        }
    }
    if line.last() == Some(&b'\r') {
        line.pop();
    }
    let read = if is_too_long { Read::TooLong } else { Read::Whole(line) };
    Ok(is_there.then_some(read))
}

fn judge_lines(lines: &Receiver<Line>, answers: &SyncSender<Told>, network: Option<&[u8]>) {
    let mut ledger = vec![0; MAX_LEDGER_LEN];
    while let Ok(line) = lines.recv() {
        let told = judge_line(&line, network, &mut ledger);
        if answers.send(told).is_err() {
            break;
        }
    }
}

fn judge_line(line: &Line, network: Option<&[u8]>, ledger: &mut [u32]) -> Told {
    let mut named = vec![("line", line.number.into())];
    let texts = match &line.read {
        Read::Whole(bytes) => texts_of(bytes, network, &mut named),
        Read::TooLong => Err(format!("the line is longer than {MAX_LINE} bytes")),
    };
    match texts {
        Ok(Texts { own, plan }) => {
            let network = own.as_deref().or(network).unwrap_or_default();
            let verdict = check_plan(network, &plan, ledger);
            Told {
                json: Answer::new(network, verdict).json(named).to_string(),
                is_read: true,
            }
        }
        Err(why) => Told {
            json: unread(named, why).to_string(),
            is_read: false,
        },
    }
}

/// What a line gives: a plan, and a network where it is not that of all lines.
struct Texts {
    own: Option<Vec<u8>>,
    plan: Vec<u8>,
}

/// The texts of a line, or why there are none; what names them goes before the answer.
fn texts_of(line: &[u8], network: Option<&[u8]>, named: &mut Vec<(&str, Value)>) -> Result<Texts, String> {
    let line = std::str::from_utf8(line).map_err(|_| "the line is no UTF-8".to_string())?;
    if line.trim_start().starts_with('{') {
        return texts_in(line, network.is_some(), named);
    }
    let (own, plan) = match (line.split_once('\t'), network) {
        _ if line.is_empty() => return Err("the line is empty".to_string()),
        (Some(_), Some(_)) => return Err("the network is that of --network, and the line names two files".to_string()),
        (Some((network, plan)), None) => (Some(network_at(network)), PathBuf::from(plan)),
        (None, Some(_)) => (None, PathBuf::from(line)),
        (None, None) => (Some(Path::new(line).join(NETWORK)), Path::new(line).join(PLAN)),
    };
    if let Some(own) = &own {
        named.push(("network", own.display().to_string().into()));
    }
    named.push(("plan", plan.display().to_string().into()));
    let read = |path: &Path| read_file(path).map_err(|problem| problem.0);
    Ok(Texts {
        own: own.as_deref().map(read).transpose()?,
        plan: read(&plan)?,
    })
}

/// The texts in a line of JSON: `network`, unless all lines have one, `plan`, and perhaps an `id`, which the answer repeats.
fn texts_in(line: &str, has_network: bool, named: &mut Vec<(&str, Value)>) -> Result<Texts, String> {
    let Value::Object(members) = json::read(line).map_err(|wrong| wrong.to_string())? else {
        return Err("an object is due".to_string());
    };
    let id = members.iter().find(|(key, _)| key == "id");
    named.extend(id.map(|(_, id)| ("id", id.clone())));
    let (mut own, mut plan) = (None, None);
    for (key, value) in members {
        match (key.as_str(), value) {
            ("id", _) => {}
            ("network", _) if has_network => {
                return Err("the network is that of --network, and the line has one".to_string())
            }
            ("network", Value::Text(text)) => own = Some(text.into_bytes()),
            ("plan", Value::Text(text)) => plan = Some(text.into_bytes()),
            ("network" | "plan", _) => return Err(format!("{key} is no string")),
            _ => return Err(format!("there is no key {key}: network, plan and id are")),
        }
    }
    if own.is_none() && !has_network {
        return Err("there is no network".to_string());
    }
    let plan = plan.ok_or("there is no plan: an empty one, which means hold, is \"\"")?;
    Ok(Texts { own, plan })
}
