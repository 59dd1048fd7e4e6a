//! Prints what the program `plancheck` prints for the `network.tsv` and
//! `plan.tsv` of a folder (the current one unless another is given).

use plancheck_reference::{file_refusal, report, NETWORK_FILE_LIMIT, PLAN_FILE_LIMIT};
use std::fs::File;
use std::io::{self, Read, Write};
use std::path::{Path, PathBuf};

fn main() -> io::Result<()> {
    let folder = std::env::args_os().nth(1).unwrap_or_else(|| ".".into());
    io::stdout().write_all(&output(&PathBuf::from(folder)))
}

/// Both files are read before anything is judged; the network is tried first.
fn output(folder: &Path) -> Vec<u8> {
    let Some(network) = read_up_to(&folder.join("network.tsv"), NETWORK_FILE_LIMIT) else {
        return file_refusal(1);
    };
    let Some(plan) = read_up_to(&folder.join("plan.tsv"), PLAN_FILE_LIMIT) else {
        return file_refusal(2);
    };
    report(&network, &plan)
}

/// The whole file; nothing if it is longer than the limit or cannot be opened
/// or read.
fn read_up_to(path: &Path, limit: usize) -> Option<Vec<u8>> {
    let mut bytes = Vec::new();
    // One byte more than allowed shows that a file is too long.
    let mut reader = File::open(path).ok()?.take(limit as u64 + 1);
    reader.read_to_end(&mut bytes).ok()?;
    if bytes.len() > limit {
        return None;
    }
    Some(bytes)
}
