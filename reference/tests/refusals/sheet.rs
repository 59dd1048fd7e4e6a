//! Fixed-time sheets: refusals 33 to 35, and those before them.

use crate::fixture::{refusal, Sheet, FILL};
use plancheck_reference::{check_sheet, plan_from_sheet, Refusal};

/// One link and one light of two phases over eight steps of ten seconds, with
/// these tram lines. Its greatest cycle is 40 seconds.
fn street(trams: &[&str]) -> Sheet {
    let mut lines = vec![format!("N 1 1 0 8 {} 0", trams.len())];
    lines.extend(trams.iter().map(|tram| tram.to_string()));
    lines.push("G 20 40 2 1 10 10 10 30 10 30".to_string());
    lines.push("Q 0 1 0 0 0 0 0".to_string());
    lines.extend(vec!["S 10 0".to_string(); 8]);
    Sheet::new(&lines.join("\n"))
}

/// The plan of these phases.
fn shown(phases: [u64; 8]) -> Vec<u8> {
    let line = |phase: &u64| format!("P\t{phase}\t0\t0\n");
    phases.iter().map(line).collect::<String>().into_bytes()
}

/// Phase 2 from 10 to 30, 1 to 50, 2 to 70: only the last run is tested.
const PHASES: [u64; 8] = [1, 2, 2, 1, 1, 2, 2, 1];

fn check(network: &Sheet, plan: &[u8], sheet: &str) -> Result<(), Refusal> {
    let mut ledger = [FILL; 18];
    let sheet = sheet.replace(' ', "\t");
    check_sheet(&network.text(), plan, sheet.as_bytes(), &mut ledger).map(|_| ())
}

fn assert_kept(network: &Sheet, phases: [u64; 8], sheet: &str) {
    assert_eq!(check(network, &shown(phases), sheet), Ok(()), "{sheet}");
}

fn assert_not_kept(network: &Sheet, phases: [u64; 8], sheet: &str, line: u64) {
    let told = Err(refusal(34, line, 1));
    assert_eq!(check(network, &shown(phases), sheet), told, "{sheet}");
}

#[test]
fn r34_a_run_of_another_duration() {
    let network = street(&[]);
    for first in [10, 20, 30] {
        assert_kept(&network, PHASES, &format!("F {first} 20\n"));
        for second in [10, 19, 21, 30] {
            assert_not_kept(&network, PHASES, &format!("F {first} {second}\n"), 7);
        }
    }
    // The last run isn't left: phase 1 in step 8.
    assert_kept(&network, PHASES, "F 30 20\n");
    // Left a step earlier, which is reported at its last step.
    assert_not_kept(&network, [1, 2, 2, 1, 1, 2, 1, 1], "F 10 20\n", 6);
}

#[test]
fn r34_a_run_that_begins_before_the_greatest_cycle_is_exempt() {
    // The tested run begins at 50 seconds, strictly below 51.
    let network = street(&[]);
    for (greatest, is_tested) in [(40, true), (49, true), (50, true), (51, false)] {
        let network = network.clone().set(2, 3, greatest);
        if is_tested {
            assert_not_kept(&network, PHASES, "F 20 10\n", 7);
        } else {
            assert_kept(&network, PHASES, "F 20 10\n");
        }
    }
    // The one before it begins at 30: not below 30.
    let network = street(&[]).set_line(2, "G 20 30 2 1 0 0 10 30 10 30");
    let phases = [1, 2, 2, 1, 1, 2, 2, 2];
    assert_kept(&network, [1, 2, 2, 1, 1, 2, 1, 1], "F 20 10\n");
    let told = check(&network, &shown(phases), "F 20 10\n");
    assert_eq!(told, Err(refusal(14, 7, 1)));
    assert_not_kept(&network, [1, 2, 2, 1, 1, 2, 1, 1], "F 10 10\n", 5);
}

#[test]
fn r34_tram_steps_are_left_out() {
    // Phase 2 from 50 on, with a tram of phase 1 in its midst: 20 seconds.
    let network = street(&["T 1 1 7 7"]);
    let phases = [1, 2, 2, 1, 1, 2, 1, 2];
    // Not left: a tram's phase doesn't leave it.
    assert_kept(&network, phases, "F 20 10\n");
    let network = street(&["T 1 2 7 7"]);
    let phases = [1, 2, 2, 1, 1, 2, 2, 1];
    // The tram shows the phase that is running, and its seconds don't count.
    assert_kept(&network, phases, "F 20 10\n");
    assert_not_kept(&network, phases, "F 20 20\n", 6);
    // Trams to the end leave the run untested.
    let network = street(&["T 1 1 7 8"]);
    assert_kept(&network, [1, 2, 2, 1, 1, 2, 1, 1], "F 20 30\n");
}

#[test]
fn r34_the_phase_shown_before_the_plan_never_begins_in_it() {
    // Trams hold the light until 50 seconds; then phase 1 goes on.
    let network = street(&["T 1 2 1 5"]);
    let phases = [2, 2, 2, 2, 2, 1, 1, 2];
    assert_kept(&network, phases, "F 10 10\n");
    // Phase 2 begins at 50 by the clock, at 0 by ordinary seconds.
    let phases = [2, 2, 2, 2, 2, 2, 1, 1];
    assert_kept(&network, phases, "F 30 10\n");
    assert_not_kept(&network, phases, "F 30 20\n", 6);
}

#[test]
fn r34_comes_last() {
    let network = street(&[]);
    let plan = shown(PHASES);
    let mut surplus = plan.clone();
    surplus.push(b'\n');
    assert_eq!(
        check(&network, &surplus, "F 20 10\n"),
        Err(refusal(9, 9, 0))
    );
    let bad = shown([1, 2, 2, 1, 1, 2, 2, 3]);
    assert_eq!(check(&network, &bad, "F 20 10\n"), Err(refusal(10, 8, 1)));
    // All rows are written all the same.
    let mut ledger = [FILL; 20];
    let answer = check_sheet(&network.text(), &plan, b"F\t20\t10\n", &mut ledger);
    assert_eq!(answer, Err(refusal(34, 7, 1)));
    assert_eq!(ledger[..18], [0; 18]);
    assert_eq!(ledger[18..], [FILL; 2]);
}

#[test]
fn r33_the_sheet() {
    let network = street(&[]);
    let plan = shown(PHASES);
    for (sheet, line) in [
        ("", 1),
        ("\n", 1),
        ("F 20 20", 1),
        ("F 20\n", 1),
        ("F 20 20 0\n", 1),
        ("f 20 20\n", 1),
        ("G 20 20\n", 1),
        ("F 20 x\n", 1),
        ("F 20 00000000020\n", 1),
        ("F 9 20\n", 1),
        ("F 20 31\n", 1),
        ("F 0 0\n", 1),
        ("F 20 4294967295\n", 1),
        ("F 20 20\n\n", 2),
        ("F 20 20\nF 20 20\n", 2),
        ("F 20 20\nx", 2),
    ] {
        let told = Err(refusal(33, line, 0));
        assert_eq!(check(&network, &plan, sheet), told, "{sheet:?}");
        // Before the plan and the ledger.
        assert_eq!(check(&network, b"x", sheet), told, "{sheet:?}");
        let sheet = sheet.replace(' ', "\t");
        let answer = check_sheet(&network.text(), &plan, sheet.as_bytes(), &mut []);
        assert_eq!(answer.map(|_| ()), told);
    }
    for sheet in ["F 10 20\n", "F 30 20\n", "F 0000000010 0020\n"] {
        assert_kept(&network, PHASES, sheet);
    }
    // Then the ledger, before the plan; the network before all.
    let answer = check_sheet(&network.text(), b"x", b"F\t20\t20\n", &mut [0; 17]);
    assert_eq!(answer, Err(refusal(8, 0, 0)));
    let answer = check_sheet(&network.set(3, 3, 0).text(), b"x", b"x", &mut []);
    assert_eq!(answer, Err(refusal(4, 3, 1)));
}

#[test]
fn an_empty_plan_holds() {
    // Phase 1 for 10 seconds more than the light may show it.
    let network = street(&[]);
    assert_eq!(check(&network, b"", "F 20 20\n"), Err(refusal(13, 3, 1)));
    let long = network.set_line(2, "G 20 90 2 1 10 10 10 90 10 30");
    assert_eq!(check(&long, b"", "F 20 20\n"), Ok(()));
}

fn assert_written(network: &Sheet, sheet: &str, phases: [u64; 8]) {
    let sheet = sheet.replace(' ', "\t");
    let expected = shown(phases);
    for more in [0, 5] {
        let mut buffer = vec![b'.'; expected.len() + more];
        let answer = plan_from_sheet(&network.text(), sheet.as_bytes(), &mut buffer);
        assert_eq!(answer, Ok(expected.len()), "{sheet}");
        assert_eq!(buffer[..expected.len()], expected, "{sheet}");
        assert!(buffer[expected.len()..].iter().all(|&byte| byte == b'.'));
    }
    let mut buffer = vec![b'.'; expected.len() - 1];
    let answer = plan_from_sheet(&network.text(), sheet.as_bytes(), &mut buffer);
    assert_eq!(answer, Err(refusal(24, 0, 0)));
    assert!(buffer.iter().all(|&byte| byte == b'.'));
}

fn assert_not_written(network: &Sheet, sheet: &str, told: Refusal) {
    let sheet = sheet.replace(' ', "\t");
    for room in [0, 1000] {
        let mut buffer = vec![b'.'; room];
        let answer = plan_from_sheet(&network.text(), sheet.as_bytes(), &mut buffer);
        assert_eq!(answer, Err(told), "{sheet}");
        assert!(buffer.iter().all(|&byte| byte == b'.'));
    }
}

#[test]
fn the_plan_of_a_sheet() {
    let network = street(&[]);
    assert_written(&network, "F 20 10 0\n", [1, 1, 2, 1, 1, 2, 1, 1]);
    assert_written(&network, "F 20 10 10\n", [1, 2, 1, 1, 2, 1, 1, 2]);
    // An offset of the first duration shows the second phase at once.
    assert_written(&network, "F 20 10 20\n", [2, 1, 1, 2, 1, 1, 2, 1]);
    let padded = "F 0030 00010 0000000030\n";
    assert_written(&network, padded, [2, 1, 1, 1, 2, 1, 1, 1]);
    // The past has no say.
    let past = network.set(1, 7, 1).insert_line(4, "H 7 0 0");
    assert_written(&past, "F 20 10 0\n", [1, 1, 2, 1, 1, 2, 1, 1]);
}

#[test]
fn r35_a_run_that_ends_inside_a_step() {
    let network = street(&[]);
    let told = refusal(35, 0, 1);
    assert_not_written(&network, "F 20 10 5\n", told);
    assert_not_written(&network, "F 15 20 0\n", told);
    assert_not_written(&network, "F 20 10 1\n", told);
    // The run before time 0 counts: it ends at 5 seconds.
    assert_not_written(&network, "F 20 20 15\n", told);
    // Boundaries at 10, 20, .., 70 and then the horizon at 75.
    let short = network.set(11, 2, 5);
    assert_written(&short, "F 20 10 0\n", [1, 1, 2, 1, 1, 2, 1, 1]);
    // A run that ends at the horizon or later is free.
    let long = "G 20 3600 2 1 10 10 10 3600 10 3600";
    let network = street(&[]).set_line(2, long);
    for first in [80, 81, 3600] {
        assert_written(&network, &format!("F {first} 10 0\n"), [1; 8]);
    }
    assert_not_written(&network, "F 79 10 0\n", told);
    assert_written(&network, "F 70 10 0\n", [1, 1, 1, 1, 1, 1, 1, 2]);
    assert_not_written(&network, "F 71 10 0\n", told);
}

#[test]
fn r35_a_light_with_trams() {
    let told = refusal(35, 0, 1);
    for tram in ["T 1 1 1 1", "T 1 2 8 8"] {
        assert_not_written(&street(&[tram]), "F 20 10 0\n", told);
    }
    // By rising light, for either reason; 33 of the last line comes first.
    let two = |tram: &str| {
        street(&[tram])
            .set(1, 3, 2)
            .insert_line(4, "G 20 40 2 1 10 10 10 30 10 30")
    };
    assert_not_written(
        &two("T 2 1 1 1"),
        "F 20 10 5\nF 20 10 0\n",
        refusal(35, 0, 1),
    );
    assert_not_written(
        &two("T 2 1 1 1"),
        "F 20 10 0\nF 20 10 0\n",
        refusal(35, 0, 2),
    );
    assert_not_written(
        &two("T 1 1 1 1"),
        "F 20 10 0\nF 20 10 5\n",
        refusal(35, 0, 1),
    );
    assert_not_written(
        &two("T 1 1 1 1"),
        "F 20 10 0\nF 20 10 30\n",
        refusal(33, 2, 0),
    );
}

#[test]
fn r33_when_writing() {
    let network = street(&[]);
    for (sheet, line) in [
        ("", 1),
        ("F 20 10\n", 1),
        ("F 20 10 0 0\n", 1),
        ("F 20 10 30\n", 1),
        ("F 20 10 4294967295\n", 1),
        ("F 9 10 0\n", 1),
        ("F 20 10 0", 1),
        ("F 20 10 0\n\n", 2),
        ("F 20 10 0\nF 20 10 0\n", 2),
    ] {
        assert_not_written(&network, sheet, refusal(33, line, 0));
    }
    assert_written(&network, "F 20 10 20\n", [2, 1, 1, 2, 1, 1, 2, 1]);
    let bad = network.set(3, 3, 0);
    assert_not_written(&bad, "x", refusal(4, 3, 1));
}

#[test]
fn no_lights_no_lines() {
    let network = Sheet::new("N 1 0 0 1 0 0\nQ 0 1 0 0 0 0 0\nS 10 0");
    let mut ledger = [FILL; 4];
    assert!(check_sheet(&network.text(), b"", b"", &mut ledger).is_ok());
    let answer = check_sheet(&network.text(), b"", b"\n", &mut ledger);
    assert_eq!(answer, Err(refusal(33, 1, 0)));
    let mut buffer = [b'.'; 8];
    assert_eq!(plan_from_sheet(&network.text(), b"", &mut buffer), Ok(6));
    assert_eq!(&buffer, b"P\t0\t0\n..");
    let answer = plan_from_sheet(&network.text(), b"F\n", &mut buffer);
    assert_eq!(answer, Err(refusal(33, 1, 0)));
}
