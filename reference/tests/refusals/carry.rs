//! Carrying on from a boundary: the written network, refusals 31, 8, those of the
//! plan, and 32.

use crate::fixture::*;
use plancheck_reference::{carry_on, Refusal};

/// Answer, ledger and buffer of a call with room for all; the buffer's untouched
/// bytes are dots.
fn carried(network: &[u8], boundary: u64, plan: &[u8]) -> (Result<usize, Refusal>, Vec<u8>) {
    let mut ledger = [FILL; NEED];
    let mut buffer = vec![b'.'; 2000];
    let answer = carry_on(network, boundary, plan, &mut ledger, &mut buffer);
    (answer, buffer)
}

fn assert_carried(network: &[u8], boundary: u64, plan: &[u8], expected: &Sheet) {
    let text = expected.text();
    let (answer, buffer) = carried(network, boundary, plan);
    let found = String::from_utf8_lossy(&buffer);
    assert_eq!(answer, Ok(text.len()), "{found}");
    assert_eq!(buffer[..text.len()], text, "{found}");
    assert!(buffer[text.len()..].iter().all(|&byte| byte == b'.'));
}

fn assert_refused(network: &[u8], boundary: u64, plan: &[u8], told: Refusal) {
    let (answer, buffer) = carried(network, boundary, plan);
    assert_eq!(answer, Err(told));
    assert!(buffer.iter().all(|&byte| byte == b'.'));
}

/// The junction after two steps of its plan.
fn after_two_steps() -> Sheet {
    Sheet::new(
        "N 3 2 3 2 0 2\n\
         G 20 60 2 1 20 20 10 30 10 30\n\
         G 15 90 3 2 10 25 10 30 5 20 10 40\n\
         Q 60000 10 0 1 1 4000 0\n\
         Q 60000 10 500 2 5 0 0\n\
         Q 20000 20 1000 0 0 1000 0\n\
         M 1 2 500 250\n\
         M 1 3 500 750\n\
         M 2 3 300 1000\n\
         H 10 5000 4000 1000 0 3100 1000\n\
         H 10 0 2000 500 400 1500 0\n\
         S 10 0 200 0\n\
         S 10 0 0 0",
    )
}

#[test]
fn the_junction_after_two_steps() {
    assert_carried(
        &network().text(),
        2,
        &plan().keep(2).text(),
        &after_two_steps(),
    );
    // Whatever zeros stand in front.
    let padded = (network().pad().text(), plan().keep(2).pad().text());
    assert_carried(&padded.0, 2, &padded.1, &after_two_steps());
}

#[test]
fn rows_are_those_of_the_first_steps() {
    for room in [0, 2000] {
        let mut ledger = [FILL; 20];
        let mut buffer = vec![0; room];
        let plan = plan().keep(2).text();
        let answer = carry_on(&network().text(), 2, &plan, &mut ledger, &mut buffer);
        assert_eq!(answer.is_ok(), room > 0);
        assert_eq!(ledger[..18], ROWS[..3].concat());
        assert_eq!(ledger[18..], [FILL; 2]);
    }
}

#[test]
fn waiting_grows_by_what_is_not_admitted() {
    let network = network().set(5, 8, 700).set(6, 8, 40).text();
    let plan = plan().keep(3).set(1, 4, 4999).set(2, 5, 650).text();
    let (answer, buffer) = carried(&network, 3, &plan);
    let text = String::from_utf8(buffer[..answer.unwrap()].to_vec()).unwrap();
    let waiting: Vec<&str> = text
        .lines()
        .filter(|line| line.starts_with('Q'))
        .map(|line| line.rsplit('\t').next().unwrap())
        .collect();
    // 5000 - 4999; 700 + 200 - 650 - 200; 40 + 100 - 100.
    assert_eq!(waiting, ["1", "50", "40"]);
}

#[test]
fn the_old_past_stays() {
    let past = "H 7 50 20 0 0 0 0";
    let network = network().set(1, 7, 1).insert_line(10, past);
    let expected = after_two_steps().set(1, 7, 3).insert_line(10, past);
    assert_carried(&network.text(), 2, &plan().keep(2).text(), &expected);
}

/// The junction with these tram lines.
fn with_trams(sheet: Sheet, lines: &[&str]) -> Sheet {
    let mut sheet = sheet.set(1, 6, lines.len());
    for (index, line) in lines.iter().enumerate() {
        sheet = sheet.insert_line(2 + index, line);
    }
    sheet
}

#[test]
fn trams_are_clipped_dropped_and_counted_from_the_boundary() {
    let trams = ["T 2 1 4 4", "T 1 1 1 1", "T 2 1 1 1", "T 1 2 3 4"];
    let network = with_trams(network(), &trams);
    // Light 1's run begins with step 2; light 2 has its 5 seconds still.
    let expected = with_trams(after_two_steps(), &["T 2 1 2 2", "T 1 2 1 2"]);
    let network = network.set_line(7, "G 15 90 3 1 5 5 5 30 1 20 10 40");
    let expected = expected
        .set_line(4, "G 20 60 2 1 10 10 10 30 10 30")
        .set_line(5, "G 15 90 3 2 10 15 5 30 1 20 10 40");
    assert_carried(&network.text(), 2, &plan().keep(2).text(), &expected);
    // A tram across the boundary is clipped to its start.
    let network = with_trams(super::fixture::network(), &["T 1 1 2 2", "T 1 2 3 4"]);
    let first_three = plan().keep(3).text();
    let (answer, buffer) = carried(&network.text(), 3, &first_three);
    let text = String::from_utf8(buffer[..answer.unwrap()].to_vec()).unwrap();
    assert!(
        text.starts_with("N\t3\t2\t3\t1\t1\t3\nT\t1\t2\t1\t1\nG"),
        "{text}"
    );
}

#[test]
fn the_last_ordinary_phase_is_carried() {
    // Light 1 shows phase 1 in step 1 and, for a tram, phase 2 in step 2.
    let network = with_trams(network(), &["T 1 2 2 3"]).text();
    let plan = plan().keep(2).set(2, 2, 2).set(2, 10, 0).set(2, 11, 0);
    let (answer, buffer) = carried(&network, 2, &plan.text());
    let text = String::from_utf8(buffer[..answer.unwrap()].to_vec()).unwrap();
    let light = text.lines().nth(2).unwrap();
    assert_eq!(light, "G\t20\t60\t2\t1\t10\t10\t10\t30\t10\t30");
    assert_eq!(text.lines().nth(1).unwrap(), "T\t1\t2\t1\t1");
}

#[test]
fn r31_boundary() {
    let plan = plan().keep(2).text();
    for boundary in [0, 4, 5, 1 << 32, (1 << 32) + 2, u64::MAX] {
        assert_refused(&network().text(), boundary, &plan, refusal(31, 0, 0));
        // Before the ledger, the plan and the buffer.
        let answer = carry_on(&network().text(), boundary, b"x", &mut [], &mut []);
        assert_eq!(answer, Err(refusal(31, 0, 0)));
    }
    for (boundary, lines) in [(1, 1), (3, 3)] {
        let plan = super::fixture::plan().keep(lines).text();
        assert!(carried(&network().text(), boundary, &plan).0.is_ok());
    }
    // A network of one step has no such boundary.
    let one = network().set(1, 5, 1).keep(10).text();
    for boundary in [0, 1, 2] {
        assert_refused(&one, boundary, b"", refusal(31, 0, 0));
    }
    // The network's own come first, its past too.
    let bad = network().set(4, 3, 0).text();
    assert_refused(&bad, 0, b"x", refusal(4, 4, 1));
    let bad = network().set(4, 8, 4_294_967_295u64).text();
    assert_refused(&bad, 0, b"x", refusal(30, 0, 0));
}

#[test]
fn r8_the_ledger_of_the_cut_network() {
    for boundary in 1..4 {
        let need = 6 * (boundary as usize + 1);
        let plan = plan().keep(boundary as usize).text();
        let mut buffer = [0; 2000];
        let mut ledger = vec![FILL; need];
        let answer = carry_on(&network().text(), boundary, &plan, &mut ledger, &mut buffer);
        assert!(answer.is_ok());
        let mut ledger = vec![FILL; need - 1];
        for plan in [&plan[..], b"x"] {
            let answer = carry_on(&network().text(), boundary, plan, &mut ledger, &mut buffer);
            assert_eq!(answer, Err(refusal(8, 0, 0)));
            assert!(ledger.iter().all(|&number| number == FILL));
        }
    }
}

#[test]
fn r9_a_plan_of_as_many_lines() {
    let network = network().text();
    for boundary in 1..4 {
        let longer = plan().keep(boundary + 1).text();
        let told = refusal(9, boundary as u64 + 1, 0);
        assert_refused(&network, boundary as u64, &longer, told);
        let unfinished = plan().keep(boundary).unfinished();
        let told = refusal(9, boundary as u64, 0);
        assert_refused(&network, boundary as u64, &unfinished, told);
        if boundary > 1 {
            let shorter = plan().keep(boundary - 1).text();
            assert_refused(&network, boundary as u64, &shorter, told);
        }
    }
}

#[test]
fn an_empty_plan_holds_up_to_the_boundary() {
    // Light 1 has shown phase 2 for 10 seconds of at most 30.
    let hold = Sheet::new(&["P 2 1 0 0 0 0 0 0 0 0 0"; 3].join("\n"));
    let network = network().text();
    for boundary in [1, 2] {
        let (answer, expected) = carried(
            &network,
            boundary,
            &hold.clone().keep(boundary as usize).text(),
        );
        assert!(answer.is_ok());
        assert_eq!(carried(&network, boundary, b""), (answer, expected));
    }
    assert_refused(&network, 3, b"", refusal(13, 3, 1));
    assert_refused(&network, 3, &hold.text(), refusal(13, 3, 1));
}

#[test]
fn the_plans_refusals() {
    let network = network().text();
    let early = plan().keep(2).set(1, 10, 1001);
    assert_refused(&network, 2, &early.text(), refusal(16, 1, 1));
    let late = plan().keep(2).set(2, 2, 3);
    assert_refused(&network, 2, &late.text(), refusal(10, 2, 1));
    // Later lines are surplus, however bad.
    let bad = plan().set(3, 2, 3).text();
    assert_refused(&network, 2, &bad, refusal(9, 3, 0));
}

#[test]
fn r32_buffer() {
    let text = after_two_steps().text();
    let plan = plan().keep(2).text();
    for room in [0, 1, text.len() - 1] {
        let mut buffer = vec![b'.'; room];
        let mut ledger = [FILL; 18];
        let answer = carry_on(&network().text(), 2, &plan, &mut ledger, &mut buffer);
        assert_eq!(answer, Err(refusal(32, 0, 0)));
        assert!(buffer.iter().all(|&byte| byte == b'.'));
    }
    let mut buffer = vec![b'.'; text.len()];
    let answer = carry_on(&network().text(), 2, &plan, &mut [FILL; 18], &mut buffer);
    assert_eq!(answer, Ok(text.len()));
    assert_eq!(buffer, text);
    // The plan's refusals come first.
    let bad = super::fixture::plan().keep(2).set(2, 2, 3).text();
    let answer = carry_on(&network().text(), 2, &bad, &mut [FILL; 18], &mut []);
    assert_eq!(answer, Err(refusal(10, 2, 1)));
}
