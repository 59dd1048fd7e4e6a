//! The program on whole folders: files that are missing, too long or good.

use std::fs;
use std::path::{Path, PathBuf};
use std::process::Command;

const NETWORK: &str = "N\t1\t0\t0\t1\t0\t0\nQ\t5\t1\t3\t0\t0\t4\t0\nS\t1\t1\n";
const PLAN: &str = "P\t1\t3\n";
const ACCEPTED: &str = "A\t1\t3\t2\t6\nB\t0\t0\t4\t0\nB\t1\t1\t5\t3\n";

/// An empty folder for one test.
fn folder(name: &str) -> PathBuf {
    let folder = Path::new(env!("CARGO_TARGET_TMPDIR")).join(name);
    let _ = fs::remove_dir_all(&folder);
    fs::create_dir_all(&folder).unwrap();
    folder
}

fn printed(folder: &Path) -> String {
    let output = Command::new(env!("CARGO_BIN_EXE_plancheck_reference"))
        .arg(folder)
        .output()
        .unwrap();
    String::from_utf8(output.stdout).unwrap()
}

#[test]
fn a_good_folder() {
    let folder = folder("good");
    fs::write(folder.join("network.tsv"), NETWORK).unwrap();
    fs::write(folder.join("plan.tsv"), PLAN).unwrap();
    assert_eq!(printed(&folder), ACCEPTED);
    // The current folder is the default.
    let output = Command::new(env!("CARGO_BIN_EXE_plancheck_reference"))
        .current_dir(&folder)
        .output()
        .unwrap();
    assert_eq!(output.stdout, ACCEPTED.as_bytes());
}

#[test]
fn files_that_cannot_be_read() {
    let folder = folder("unreadable");
    assert_eq!(printed(&folder), "L\t1\n");
    fs::write(folder.join("plan.tsv"), PLAN).unwrap();
    assert_eq!(printed(&folder), "L\t1\n");
    fs::remove_file(folder.join("plan.tsv")).unwrap();
    // A missing plan is reported even where the network is bad.
    for network in [NETWORK, "bad"] {
        fs::write(folder.join("network.tsv"), network).unwrap();
        assert_eq!(printed(&folder), "L\t2\n");
    }
    // A folder can be opened, but not read.
    fs::create_dir(folder.join("plan.tsv")).unwrap();
    assert_eq!(printed(&folder), "L\t2\n");
    fs::remove_file(folder.join("network.tsv")).unwrap();
    fs::create_dir(folder.join("network.tsv")).unwrap();
    assert_eq!(printed(&folder), "L\t1\n");
}

/// 24 links and 120 steps; each demand is written in the given way.
fn long_network(demand: fn(String) -> String) -> String {
    let mut text = "N\t24\t0\t0\t120\t0\t0\n".to_string();
    text += &"Q\t5\t1\t3\t0\t0\t4\t0\n".repeat(24);
    let demands = format!("\t{}", demand("0".to_string())).repeat(24);
    text + &format!("S\t1{demands}\n").repeat(120)
}

#[test]
fn files_at_and_above_their_limits() {
    let folder = folder("long");
    let write = |network: usize, plan: usize| {
        fs::write(folder.join("network.tsv"), vec![b'x'; network]).unwrap();
        fs::write(folder.join("plan.tsv"), vec![b'x'; plan]).unwrap();
    };
    write(16_384, 24_576);
    assert_eq!(printed(&folder), "R\t1\t1\t0\n");
    write(16_385, 24_576);
    assert_eq!(printed(&folder), "L\t1\n");
    write(16_384, 24_577);
    assert_eq!(printed(&folder), "L\t2\n");
    write(16_385, 24_577);
    assert_eq!(printed(&folder), "L\t1\n");
    // Zeros in front count as bytes of the file.
    let padded = format!(
        "N\t{:010}\t0\t0\t1\t0\t0\nQ\t5\t1\t3\t0\t0\t4\t0\nS\t1\t1\n",
        1
    );
    fs::write(folder.join("network.tsv"), padded).unwrap();
    fs::write(folder.join("plan.tsv"), "P\t0000000001\t03\n").unwrap();
    assert_eq!(printed(&folder), ACCEPTED);
    fs::write(folder.join("network.tsv"), long_network(|length| length)).unwrap();
    fs::write(folder.join("plan.tsv"), "\n").unwrap();
    assert_eq!(printed(&folder), "R\t9\t1\t0\n");
    fs::write(
        folder.join("network.tsv"),
        long_network(|length| format!("{length:0>10}")),
    )
    .unwrap();
    assert_eq!(printed(&folder), "L\t1\n");
    write(0, 0);
    assert_eq!(printed(&folder), "R\t1\t1\t0\n");
    // An empty file is a plan that holds; a missing one is none.
    fs::write(folder.join("network.tsv"), NETWORK).unwrap();
    let held = "A\t0\t0\t4\t9\nB\t0\t0\t4\t0\nB\t1\t1\t4\t0\n";
    assert_eq!(printed(&folder), held);
    fs::remove_file(folder.join("plan.tsv")).unwrap();
    assert_eq!(printed(&folder), "L\t2\n");
}
