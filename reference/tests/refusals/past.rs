//! Past steps and waiting volume: refusal 30, row 0, arrivals, rule 15, the time
//! and the state of a link.

use crate::fixture::*;
use plancheck_reference::{check_network, check_plan, link_state, Totals};

/// The junction with these past steps, oldest first.
fn with_past(lines: &[&str]) -> Sheet {
    let mut sheet = network().set(1, 7, lines.len());
    for (index, line) in lines.iter().enumerate() {
        sheet = sheet.insert_line(10 + index, line);
    }
    sheet
}

const QUIET: &str = "H 10 0 0 0 0 0 0";

fn with_quiet_past(count: usize) -> Sheet {
    with_past(&vec![QUIET; count])
}

#[test]
fn r1_form_of_a_past_step() {
    assert_network_accepted(&with_past(&[QUIET]).text());
    for line in [
        "H 10 0 0 0 0 0",
        "H 10 0 0 0 0 0 0 0",
        "H",
        "h 10 0 0 0 0 0 0",
        "S 10 0 0 0",
        "H x 0 0 0 0 0 0",
        "H 10 0 0 0 0 0 4294967296",
        "H 10 0 0 0 0 0 -1",
        "",
    ] {
        assert_network_refused(&with_past(&[line]).text(), 1, 10, 0);
        assert_network_refused(&with_past(&[QUIET, line]).text(), 1, 11, 0);
    }
    // Missing lines, and one that isn't counted.
    assert_network_refused(&network().set(1, 7, 1).text(), 1, 10, 0);
    assert_network_refused(&with_past(&[QUIET]).set(1, 7, 0).text(), 1, 10, 0);
    assert_network_refused(&with_past(&[QUIET]).keep(10).text(), 1, 11, 0);
    // The count and the waiting volume are parts of their lines.
    assert_network_refused(&network().remove_field(1, 7).text(), 1, 1, 0);
    assert_network_refused(&network().remove_field(4, 8).text(), 1, 4, 0);
}

#[test]
fn r5_share_sums_come_before_the_first_past_step() {
    let sheet = with_past(&["H x"]).set(7, 5, 249);
    assert_network_refused(&sheet.text(), 5, 8, 2);
}

#[test]
fn r2_count() {
    for count in [121u64, 4_294_967_295] {
        assert_network_refused(&network().set(1, 7, count).text(), 2, 1, 0);
    }
    assert_network_refused(&network().set(1, 7, 120).text(), 1, 10, 0);
}

#[test]
fn r30_past_and_present_steps() {
    assert_network_accepted(&with_quiet_past(116).text());
    for count in [117, 120] {
        assert_network_refused(&with_quiet_past(count).text(), 30, 0, 0);
    }
    assert_network_refused(&with_quiet_past(121).text(), 2, 1, 0);
}

#[test]
fn r30_length() {
    // No light's times are against it: phases last at most 20 to 40 seconds.
    for length in [1, 60] {
        let sheet = with_quiet_past(2).set(11, 2, length);
        assert_network_accepted(&sheet.text());
    }
    for length in [0u64, 61, 4_294_967_295] {
        for line in [10, 11] {
            let sheet = with_quiet_past(2).set(line, 2, length);
            assert_network_refused(&sheet.text(), 30, 0, 0);
        }
    }
}

#[test]
fn r30_comes_last() {
    let bad = || with_quiet_past(1).set(10, 2, 0);
    assert_network_refused(&bad().text(), 30, 0, 0);
    let surplus = [bad().text(), b"\n".to_vec()].concat();
    assert_network_refused(&surplus, 1, 15, 0);
    assert_network_refused(&bad().set(14, 2, 0).text(), 6, 14, 4);
    assert_network_refused(&bad().set(14, 2, "x").text(), 1, 14, 0);
    assert_network_refused(&bad().unfinished(), 1, 14, 0);
    // And before whatever is wrong with the ledger.
    let answer = check_plan(&bad().text(), b"x", &mut []);
    assert_eq!(answer, Err(refusal(30, 0, 0)));
}

#[test]
fn r30_left_above_arrived() {
    // Link 3 takes 20 seconds and starts with 1000. Of the 7 that enter it 25 to
    // 15 seconds before time 0 a half has arrived.
    let with_left = |left: u64| {
        let first = "H 10 0 0 0 0 7 0".to_string();
        let last = format!("H 15 0 0 0 0 9 {left}");
        with_past(&[&first, &last]).text()
    };
    assert_network_accepted(&with_left(1003));
    assert_network_refused(&with_left(1004), 30, 0, 0);
    assert_network_refused(&with_left(4_294_967_295), 30, 0, 0);
    // What it is when the past ends counts: 1010 have left before they entered.
    let lines = ["H 10 0 0 0 0 0 1010", "H 10 0 0 0 0 10 0"];
    assert_network_refused(&with_past(&lines).text(), 30, 0, 0);
    let lines = [lines[0], lines[1], QUIET];
    assert_network_refused(&with_past(&lines).text(), 30, 0, 0);
    let lines = [lines[0], lines[1], QUIET, QUIET];
    assert_network_accepted(&with_past(&lines).text());
}

#[test]
fn r30_more_than_the_capacity() {
    // Link 3 holds 20000 and starts with 1000.
    for (entered, left, accepted) in [
        (19_000, 0, true),
        (19_001, 0, false),
        (19_500, 500, true),
        (19_501, 500, false),
    ] {
        let line = format!("H 10 0 0 0 0 {entered} {left}");
        let text = with_past(&[&line]).text();
        if accepted {
            assert_network_accepted(&text);
        } else {
            assert_network_refused(&text, 30, 0, 0);
        }
    }
    // In the past it may have held more.
    let lines = ["H 10 0 0 0 0 50000 0", "H 60 0 0 0 0 0 50000"];
    assert_network_accepted(&with_past(&lines).text());
    // The standing start is still measured against the capacity: 4.
    let sheet = with_past(&["H 60 0 0 0 0 0 20000"]).set(6, 7, 20_001);
    assert_network_refused(&sheet.text(), 4, 6, 3);
}

#[test]
fn r30_all_that_may_enter() {
    // Link 1 has a demand of 5000.
    let most = 72_000_000 - 5000;
    assert_network_accepted(&network().set(4, 8, most).text());
    assert_network_refused(&network().set(4, 8, most + 1).text(), 30, 0, 0);
    assert_network_refused(&network().set(4, 8, 4_294_967_295u64).text(), 30, 0, 0);
    assert_network_accepted(&network().set(4, 8, most + 5000).set(10, 3, 0).text());
    // A past step lets more enter; what entered in it counts.
    let most = most + 2 * 13_800_000;
    let past = |entered: u64| {
        let line = format!("H 10 {entered} 0 0 0 0 0");
        with_past(&[QUIET, &line])
    };
    assert_network_accepted(&past(0).set(4, 8, most).text());
    assert_network_refused(&past(0).set(4, 8, most + 1).text(), 30, 0, 0);
    assert_network_accepted(&past(40).set(4, 8, most - 40).text());
    assert_network_refused(&past(40).set(4, 8, most - 39).text(), 30, 0, 0);
}

#[test]
fn r30_sums_above_32_bits() {
    let half = 1u64 << 31;
    let line = format!("H 60 {half} 0 0 0 0 0");
    assert_network_refused(&with_past(&[&line, &line]).text(), 30, 0, 0);
    let line = format!("H 60 0 {half} 0 0 0 0");
    assert_network_refused(&with_past(&[&line, &line]).text(), 30, 0, 0);
    // Waiting and one past entry come to 2^32.
    let sheet = with_past(&["H 60 1 0 0 0 0 0"]).set(4, 8, 4_294_967_295u64);
    assert_network_refused(&sheet.text(), 30, 0, 0);
}

#[test]
fn row_0_and_the_rows_go_on_from_the_past() {
    // 70 enter link 1 and 30 leave it; with them the plan passes as before.
    let network = with_past(&["H 10 50 20 0 0 0 0", "H 10 20 10 0 0 0 0"]).text();
    let mut ledger = [FILL; NEED];
    let totals = check_plan(&network, &plan().text(), &mut ledger).unwrap();
    for (row, numbers) in ROWS.iter().enumerate() {
        let mut expected = *numbers;
        expected[0] += 70;
        expected[1] += 30;
        assert_eq!(ledger[6 * row..6 * row + 6], expected);
    }
    let more = 40;
    let expected = Totals {
        inside: TOTALS.inside + more,
        doubled_time: TOTALS.doubled_time + 2 * 40 * more,
        ..TOTALS
    };
    assert_eq!(totals, expected);
}

#[test]
fn arrivals_from_the_past() {
    // Link 3 takes 20 seconds. 1000 stand there; what enters 20 to 10 seconds
    // before time 0 has arrived by the end of step 1, what enters later hasn't.
    let plan = |let_out: u64| {
        Sheet::new(&format!(
            "P 1 1 0 0 0 0 0 {let_out} 0 0 0\nP 1 2 0 0 0 0 0 0 0 0 0\n\
         P 2 4 0 0 0 0 0 0 0 0 0\nP 2 1 0 0 0 0 0 0 0 0 0"
        ))
    };
    let network = with_past(&["H 10 0 0 0 0 300 0", "H 10 0 0 0 0 800 0"]).text();
    assert_plan_accepted(&network, &plan(1300).text());
    assert_plan_refused(&network, &plan(1301).text(), 17, 1, 3);
    // With 24 seconds the travel time ends inside the past step.
    let network = with_past(&["H 10 0 0 0 0 301 0", "H 10 0 0 0 0 800 0"]);
    let network = network.set(6, 3, 24).text();
    assert_plan_accepted(&network, &plan(1180).text());
    assert_plan_refused(&network, &plan(1181).text(), 17, 1, 3);
    // With 31 seconds it ends before the past.
    let network = with_past(&["H 10 0 0 0 0 301 0", "H 10 0 0 0 0 800 0"]);
    let network = network.set(6, 3, 31).text();
    assert_plan_accepted(&network, &plan(1000).text());
    assert_plan_refused(&network, &plan(1001).text(), 17, 1, 3);
}

#[test]
fn r15_waiting_may_be_admitted_from_step_1() {
    // Link 3 has a demand of 100 in step 1, link 2 of 200 in step 3.
    let network = network().set(5, 8, 700).set(6, 8, 40).text();
    let waiting = plan().set(1, 6, 140).set(2, 5, 700);
    assert_plan_accepted(&network, &waiting.clone().text());
    assert_plan_refused(&network, &waiting.clone().set(1, 6, 141).text(), 15, 1, 3);
    assert_plan_refused(&network, &waiting.clone().set(2, 5, 701).text(), 15, 2, 2);
    assert_plan_refused(&network, &waiting.set(3, 5, 201).text(), 15, 3, 2);
}

#[test]
fn waiting_counts_in_the_time_alone() {
    let sheet = network().set(5, 8, 700).set(6, 8, 40);
    let totals = judge(&sheet.text(), &plan().text(), 5).unwrap();
    let expected = Totals {
        doubled_time: TOTALS.doubled_time + 2 * 40 * 740,
        ..TOTALS
    };
    assert_eq!(totals, expected);
}

#[test]
fn an_empty_plan_holds_after_a_past() {
    let sheet = with_past(&["H 10 50 20 0 0 0 0"]).set(4, 8, 7);
    let sheet = sheet.set(2, 11, 50).set(3, 9, 45);
    let demand = 5100 * 70 + 200 * 30;
    let expected = Totals {
        admitted: 0,
        let_out: 0,
        inside: 5030,
        doubled_time: 2 * 40 * (5030 + 7) + demand,
    };
    assert_eq!(judge(&sheet.text(), b"", 5), Ok(expected));
}

/// The state of link 3, which takes 24 seconds and starts with 1000, after 301
/// and then 800 entered in the past.
fn state(row: [u32; 2], boundary: u64) -> Option<(u64, u64)> {
    let sheet = with_past(&["H 10 0 0 0 0 301 0", "H 10 0 0 0 0 800 0"]);
    let mut ledger = [FILL; NEED];
    let place = 6 * boundary as usize + 4;
    ledger[place..place + 2].copy_from_slice(&row);
    match link_state(&sheet.set(6, 3, 24).text(), &ledger, boundary, 3) {
        Ok(state) => Some((state.queued, state.in_transit)),
        Err(told) => {
            assert_eq!(told, refusal(21, 0, 0));
            None
        }
    }
}

#[test]
fn the_state_call_reads_the_network_alone_before_time_0() {
    // At time 0 what entered by 24 seconds before: the standing start.
    assert_eq!(state([1000, 0], 0), Some((1000, 0)));
    assert_eq!(state([2101, 100], 0), Some((900, 1101)));
    assert_eq!(state([2101, 1001], 0), None);
    assert_eq!(state([999, 0], 0), None);
    // At 10 seconds 6 of the first 10 seconds' entries: 1180.6.
    assert_eq!(state([2101, 0], 1), Some((1180, 921)));
    assert_eq!(state([2101, 1180], 1), Some((0, 921)));
    assert_eq!(state([2101, 1181], 1), None);
    assert_eq!(state([1181, 0], 1), Some((1180, 1)));
    assert_eq!(state([1180, 0], 1), None);
    // At 20 seconds 6 of the last 10: 1301 and 480.
    assert_eq!(state([2101, 0], 2), Some((1781, 320)));
    assert_eq!(state([2101, 1782], 2), None);
    // At 30 seconds the ledger's rows 0 and 1 tell, whatever the past was.
    let fill = u64::from(FILL);
    assert_eq!(state([FILL, 0], 3), Some((fill, 0)));
}

#[test]
fn the_state_call_reads_row_0_at_time_0() {
    // Link 3 takes 20 seconds: at 20 seconds row 0 counts, not the past.
    let network = with_past(&["H 10 0 0 0 0 300 0"]).text();
    let mut ledger = [0; NEED];
    ledger[4] = 5;
    ledger[6 * 2 + 4] = 9;
    let state = link_state(&network, &ledger, 2, 3).unwrap();
    assert_eq!((state.queued, state.in_transit), (5, 4));
    // At 10 seconds the past does.
    ledger[6 + 4] = 1400;
    let state = link_state(&network, &ledger, 1, 3).unwrap();
    assert_eq!((state.queued, state.in_transit), (1000, 400));
}

#[test]
fn padded_past_steps() {
    let sheet = with_past(&["H 10 50 20 0 0 0 0"]).set(4, 8, 7);
    assert_eq!(check_network(&sheet.clone().pad().text()), Ok(()));
    let padded = judge(&sheet.clone().pad().text(), &plan().text(), 5);
    assert_eq!(padded, judge(&sheet.clone().text(), &plan().text(), 5));
    let long = sheet.set(10, 3, "00000000050");
    assert_network_refused(&long.text(), 1, 10, 0);
}
