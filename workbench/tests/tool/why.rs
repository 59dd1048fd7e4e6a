//! Why a step is refused: each rule of a plan broken once, with the numbers that it compares.

use super::{corridor_with, scratch, workbench};
use std::fs;

/// What `explain` says of a folder: the refusal's number, and why.
fn why(folder: &str) -> (String, String) {
    let said = workbench(&["explain", folder]);
    assert_eq!(said.status, 1, "{}", said.out);
    let number = said.out.strip_prefix("refused with ").unwrap();
    let number = number.split(' ').next().unwrap().to_string();
    let why = said.out.lines().find_map(|line| line.strip_prefix("why: "));
    (number, why.unwrap_or("").to_string())
}

#[test]
fn rules_of_the_corridor() {
    for (name, file, line, text, number, words) in [
        ("c2", "plan.tsv", 1, "P\t3\t5000\t0\t0\t0\t0", "10", "its mask 3 is phase 1 and 2 at once"),
        ("no_phase", "plan.tsv", 1, "P\t0\t5000\t0\t0\t0\t0", "10", "its mask is 0, which is no phase"),
        ("phase_4", "plan.tsv", 1, "P\t8\t5000\t0\t0\t0\t0", "10", "its mask 8 is phase 4, and the signal has 2"),
        ("c3", "plan.tsv", 4, "P\t1\t0\t0\t0\t2000\t0", "13", "phase 1 would have shown for 40 s by the step's end, and its greatest time is 30 s"),
        ("c4", "network.tsv", 2, "G\t20\t60\t2\t2\t9\t20\t10\t30\t10\t30", "12", "phase 2 has shown for 9 s when the step leaves it, and its least time is 10 s"),
        ("c5", "network.tsv", 2, "G\t20\t60\t2\t2\t10\t19\t10\t30\t10\t30", "14", "phase 1 begins again 19 s after it last began, and the least cycle is 20 s"),
        ("cycle", "network.tsv", 2, "G\t20\t29\t2\t2\t10\t20\t10\t30\t10\t30", "14", "by the step's end phase 1 would have begun 30 s ago, and the greatest cycle is 29 s"),
        ("order", "network.tsv", 2, "G\t20\t60\t3\t2\t10\t20\t10\t30\t10\t30\t10\t30", "11", "phase 2 shows before the step, so that it may go on or phase 3 may follow, and the plan shows phase 1"),
        ("demand", "plan.tsv", 1, "P\t1\t5001\t0\t0\t0\t0", "15", "0 vehicles wait outside at the step's start and 5 come in it, and the plan admits 5.001"),
        ("later", "plan.tsv", 1, "P\t1\t1000\t0\t0\t0\t0\nP\t1\t4001\t0\t0\t0\t0", "15", "4 vehicles wait outside at the step's start and 0 come in it, and the plan admits 4.001"),
        ("exit", "plan.tsv", 3, "P\t1\t0\t0\t0\t5001\t2000", "25", "0.5 vehicles a second for 10 s are 5, and the plan lets out 5.001"),
        ("c6", "plan.tsv", 2, "P\t1\t0\t0\t0\t0\t5001", "26", "0.5 vehicles a second for 10 s are 5, and the plan moves 5.001"),
        ("c7", "plan.tsv", 2, "P\t2\t0\t0\t0\t0\t3000", "27", "signal 1 shows phase 2, and link 1 is open in phase 1; the plan moves 3 vehicles"),
        ("c8", "plan.tsv", 1, "P\t1\t5000\t0\t0\t0\t3000", "17", "0 vehicles had left before the step and 3 leave in it, 3 in all, and 0 have arrived by its end"),
        ("c9", "network.tsv", 3, "Q\t4999\t10\t0\t1\t1\t0\t0", "18", "it holds 0 vehicles at the step's start and 5 enter, 5 in all, and its capacity is 4.999; what leaves in the step makes room for the next"),
        ("c10", "network.tsv", 3, "Q\t60000\t15\t0\t1\t1\t0\t0", "17", "0 vehicles had left before the step and 3 leave in it, 3 in all, and 2.5 have arrived by its end"),
    ] {
        let folder = corridor_with(&format!("why_{name}"), file, line, text);
        assert_eq!(why(&folder), (number.to_string(), words.to_string()), "{name}");
    }
}

/// Two texts, judged.
fn why_of(name: &str, network: &str, plan: &str) -> (String, String) {
    let folder = scratch(name);
    fs::write(folder.join("network.tsv"), network).unwrap();
    fs::write(folder.join("plan.tsv"), plan).unwrap();
    why(&folder.display().to_string())
}

#[test]
fn what_enters_in_the_step_may_arrive_in_it() {
    let network = "N\t1\t0\t0\t1\t0\t0\nQ\t60000\t5\t500\t0\t0\t0\t0\nS\t10\t5000\n";
    let (number, words) = why_of("why_short", network, "P\t5000\t2501\n");
    assert_eq!(number, "17");
    assert!(
        words.ends_with("2.501 in all, and 2.5 have arrived by its end"),
        "{words}"
    );
}

#[test]
fn a_share_and_a_tram() {
    let network = "N\t3\t1\t2\t2\t1\t0\nT\t1\t2\t2\t2\nG\t20\t60\t2\t1\t10\t10\t10\t60\t10\t60\nQ\t60000\t10\t0\t0\t0\t9000\t0\n\
        Q\t60000\t10\t0\t0\t0\t0\t0\nQ\t60000\t10\t0\t0\t0\t0\t0\nM\t1\t2\t500\t750\nM\t1\t3\t500\t250\nS\t10\t0\t0\t0\nS\t10\t0\t0\t0\n";
    assert_eq!(
        why_of("why_share", network, "P\t1\t0\t0\t0\t0\t0\t0\t3000\t1001\n"),
        (
            "16".to_string(),
            "4.001 vehicles move from link 1 in all, of which 250 in 1000 are 1, and the plan moves 1.001".to_string()
        )
    );
    let held = "P\t1\t0\t0\t0\t0\t0\t0\t0\t0\n".repeat(2);
    assert_eq!(
        why_of("why_tram", network, &held),
        (
            "29".to_string(),
            "the tram asks for phase 2 from step 2 to step 2, and the plan shows phase 1".to_string()
        )
    );
}

/// Step 2 takes too much off link 1; without it link 2 would let out too much, so that nothing is moved to see what arrives.
#[test]
fn two_links_that_break_the_rule() {
    let network = "N\t2\t0\t0\t2\t0\t0\nQ\t60000\t10\t500\t0\t0\t0\t0\nQ\t60000\t10\t500\t0\t0\t0\t0\nS\t10\t2000\t2000\nS\t10\t0\t0\n";
    let (number, words) = why_of("why_two", network, "P\t2000\t2000\t0\t0\nP\t0\t0\t2001\t2001\n");
    assert_eq!(number, "17");
    assert!(
        words.ends_with("2.001 in all, and 2 have arrived by its end"),
        "{words}"
    );
}
