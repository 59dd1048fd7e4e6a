//! The greatest lengths of texts are reached, by a text that passes, every number of it padded, and by one that is
//! written.

use plancheck::{
    check_network, check_plan, plan_from_listing, plan_from_sheet, MAX_LEDGER_LEN, MAX_LINKS, MAX_MOVEMENTS,
    MAX_NETWORK_TEXT_LEN, MAX_PLAN_TEXT_LEN, MAX_SIGNALS, MAX_STEPS, MAX_TRAMS, MAX_WRITTEN_PLAN_LEN,
};

/// Every number of a text padded to ten digits.
fn padded(text: &str) -> String {
    let line = |line: &str| {
        let (letter, numbers) = line.split_once('\t').unwrap();
        let numbers: String = numbers.split('\t').map(|number| format!("\t{number:0>10}")).collect();
        format!("{letter}{numbers}\n")
    };
    text.lines().map(line).collect()
}

/// A network of as many links, signals, phases and movements as there may be, in which nothing moves: its steps last a
/// second, and each signal shows phase 1.
fn network(trams: &str, past_steps: usize, steps: usize) -> String {
    let count = trams.lines().count();
    let mut text = format!("N\t{MAX_LINKS}\t{MAX_SIGNALS}\t{MAX_MOVEMENTS}\t{steps}\t{count}\t{past_steps}\n{trams}");
    text += &format!("G\t8\t3600\t8\t1\t0\t0{}\n", "\t1\t3600".repeat(8)).repeat(MAX_SIGNALS);
    text += &"Q\t0\t1\t0\t0\t0\t0\t0\n".repeat(MAX_LINKS);
    // from links 1 to 3 to every other link, the last of these with the rest of the shares
    let others = MAX_LINKS - 1;
    for index in 0..MAX_MOVEMENTS {
        let (from, place) = (index / others + 1, index % others);
        let to = if place + 1 < from { place + 1 } else { place + 2 };
        let is_last = place + 1 == others || index + 1 == MAX_MOVEMENTS;
        let share = if is_last { 1000 - place } else { 1 };
        text += &format!("M\t{from}\t{to}\t1\t{share}\n");
    }
    text += &format!("H\t1{}\n", "\t0\t0".repeat(MAX_LINKS)).repeat(past_steps);
    text + &format!("S\t1{}\n", "\t0".repeat(MAX_LINKS)).repeat(steps)
}

/// Two steps, in each of which a tram claims every signal: with one there is no room for as many tram lines, and the
/// line of a step is shorter than that of a past step.
#[test]
fn a_network_text() {
    let trams: String = (1..=MAX_TRAMS)
        .map(|line| format!("T\t{}\t1\t{}\t{}\n", line.div_ceil(2), 2 - line % 2, 2 - line % 2))
        .collect();
    let text = padded(&network(&trams, MAX_STEPS - 2, 2));
    assert_eq!(text.len(), MAX_NETWORK_TEXT_LEN);
    assert_eq!(check_network(text.as_bytes()), Ok(()));
}

#[test]
fn a_plan_text() {
    let line = format!(
        "P{}{}\n",
        "\t1".repeat(MAX_SIGNALS),
        "\t0".repeat(2 * MAX_LINKS + MAX_MOVEMENTS)
    );
    let plan = padded(&line.repeat(MAX_STEPS));
    assert_eq!(plan.len(), MAX_PLAN_TEXT_LEN);
    let totals = check_plan(
        network("", 0, MAX_STEPS).as_bytes(),
        plan.as_bytes(),
        &mut [0; MAX_LEDGER_LEN],
    );
    assert!(totals.is_ok());
}

/// Phase 8 of every signal, whose mask is 128, and volumes of ten digits.
#[test]
fn a_plan_from_a_listing() {
    let mut listing = String::new();
    for step in 1..=MAX_STEPS {
        for signal in 1..=MAX_SIGNALS {
            listing += &format!("p_{signal}_8_{step} 1\n");
        }
        for link in 1..=MAX_LINKS {
            listing += &format!("i_{link}_{step} 4294967.295\no_{link}_{step} 1000000\n");
        }
        for movement in 1..=MAX_MOVEMENTS {
            listing += &format!("m_{movement}_{step} 4294967.295\n");
        }
    }
    let mut plan = vec![0; MAX_WRITTEN_PLAN_LEN];
    let written = plan_from_listing(network("", 0, MAX_STEPS).as_bytes(), listing.as_bytes(), &mut plan);
    assert_eq!(written, Ok(MAX_WRITTEN_PLAN_LEN));
}

/// Phase 8 of every signal again; every volume is 0, so that the plan is shorter.
#[test]
fn a_plan_for_a_sheet() {
    let sheet = format!("F{}\t3600\t7\n", "\t1".repeat(7)).repeat(MAX_SIGNALS);
    let mut plan = vec![0; MAX_WRITTEN_PLAN_LEN];
    let written = plan_from_sheet(network("", 0, MAX_STEPS).as_bytes(), sheet.as_bytes(), &mut plan);
    assert_eq!(written, Ok(30_960));
}
