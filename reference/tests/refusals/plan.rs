//! Refusals 8 to 18 and 25 to 27.

use crate::fixture::*;
use plancheck_reference::check_plan;

#[test]
fn the_junction_passes() {
    let mut ledger = [FILL; NEED + 2];
    let answer = check_plan(&network().text(), &plan().text(), &mut ledger);
    assert_eq!(answer, Ok(TOTALS));
    assert_eq!(ledger[..NEED], ROWS.concat());
    assert_eq!(ledger[NEED..], [FILL, FILL]);
}

#[test]
fn padded_numbers() {
    for (network, plan) in [
        (network().pad(), plan()),
        (network(), plan().pad()),
        (network().pad(), plan().pad()),
    ] {
        let mut ledger = [FILL; NEED + 2];
        let answer = check_plan(&network.text(), &plan.text(), &mut ledger);
        assert_eq!(answer, Ok(TOTALS));
        assert_eq!(ledger[..NEED], ROWS.concat());
    }
    let text = plan().set(2, 10, 5001).pad().text();
    assert_plan_refused(&network().pad().text(), &text, 26, 2, 1);
}

// Refusal 8.

#[test]
fn r8_ledger_too_short() {
    for length in [0, 1, 6, 29] {
        let mut ledger = vec![FILL; length];
        let answer = check_plan(&network().text(), &plan().text(), &mut ledger);
        assert_eq!(answer, Err(refusal(8, 0, 0)));
        assert!(ledger.iter().all(|&number| number == FILL));
    }
    for length in [30, 31, 100] {
        let mut ledger = vec![FILL; length];
        let answer = check_plan(&network().text(), &plan().text(), &mut ledger);
        assert_eq!(answer, Ok(TOTALS));
        assert_eq!(ledger[..NEED], ROWS.concat());
        assert!(ledger[NEED..].iter().all(|&number| number == FILL));
    }
}

#[test]
fn r8_comes_after_the_network_and_before_the_plan() {
    let mut ledger = [FILL; NEED - 1];
    let answer = check_plan(&network().text(), b"", &mut ledger);
    assert_eq!(answer, Err(refusal(8, 0, 0)));
    let answer = check_plan(&network().set(4, 3, 0).text(), b"", &mut ledger);
    assert_eq!(answer, Err(refusal(4, 4, 1)));
    let answer = check_plan(b"", b"", &mut []);
    assert_eq!(answer, Err(refusal(1, 1, 0)));
    assert_eq!(ledger, [FILL; NEED - 1]);
}

// Refusal 9.

fn assert_form_refused(plan: &[u8], line: u64) {
    assert_plan_refused(&network().text(), plan, 9, line, 0);
}

#[test]
fn r9_missing_line() {
    for lines in 1..4 {
        assert_form_refused(&plan().keep(lines).text(), lines as u64 + 1);
    }
}

#[test]
fn r9_every_cut_of_the_text() {
    let text = plan().text();
    for length in 1..text.len() {
        let line_feeds = text[..length].iter().filter(|&&byte| byte == b'\n').count();
        assert_form_refused(&text[..length], line_feeds as u64 + 1);
    }
}

#[test]
fn an_empty_plan_holds() {
    // Signal 1 shows phase 2 for 10 seconds and may for 30, signal 2 phase 1
    // for 5 and may for 30.
    assert_plan_refused(&network().text(), b"", 13, 3, 1);
    assert_plan_refused(&network().set(2, 11, 50).text(), b"", 13, 3, 2);
    let wide = network().set(2, 11, 50).set(3, 9, 45);
    assert_plan_accepted(&wide.clone().text(), b"");
    assert_plan_refused(&wide.clone().set(2, 11, 49).text(), b"", 13, 4, 1);
    assert_plan_refused(&wide.clone().set(3, 9, 44).text(), b"", 13, 4, 2);
    assert_plan_refused(&wide.clone().set(2, 3, 59).text(), b"", 14, 4, 1);
    // As the same plan written out.
    let written = Sheet::new(&["P 2 1 0 0 0 0 0 0 0 0 0"; 4].join("\n"));
    for network in [network(), wide] {
        let mut ledgers = [[FILL; NEED + 2]; 2];
        let empty = check_plan(&network.text(), b"", &mut ledgers[0]);
        let whole = check_plan(&network.text(), &written.text(), &mut ledgers[1]);
        assert_eq!(empty, whole);
        assert_eq!(ledgers[0], ledgers[1]);
    }
    // A line feed is a line.
    assert_form_refused(b"\n", 1);
}

#[test]
fn r9_surplus_after_all_rows() {
    for surplus in [
        "\n",
        "P\t2\t1\t0\t0\t0\t0\t0\t0\t0\t0\t0\n",
        "P",
        "\t",
        "\0",
        "\n\n",
    ] {
        let mut text = plan().text();
        text.extend_from_slice(surplus.as_bytes());
        let mut ledger = [FILL; NEED];
        let answer = check_plan(&network().text(), &text, &mut ledger);
        assert_eq!(answer, Err(refusal(9, 5, 0)));
        assert_eq!(ledger[..], ROWS.concat());
        // A refusal of the last step comes first.
        let mut text = plan().set(4, 2, 3).text();
        text.extend_from_slice(surplus.as_bytes());
        assert_plan_refused(&network().text(), &text, 10, 4, 1);
    }
}

#[test]
fn r9_wrong_letter() {
    for line in 1..=4 {
        for letter in ["", "p", "S", "N", "PP", "0", " P", "\0"] {
            assert_form_refused(&plan().set(line, 1, letter).text(), line as u64);
        }
        assert_form_refused(&plan().insert_line(line, "").text(), line as u64);
    }
}

#[test]
fn r9_bad_number_in_every_field() {
    for line in 1..=4 {
        for field in 2..=12 {
            for number in [
                "",
                "00000000000",
                "00000000001",
                "04294967295",
                "-1",
                "+1",
                " 1",
                "1\r",
                "x",
                "1/",
                "1:",
                "\0",
                "4294967296",
                "9999999999",
                "10000000000",
            ] {
                assert_form_refused(&plan().set(line, field, number).text(), line as u64);
            }
        }
    }
}

#[test]
fn r9_wrong_field_count() {
    for line in 1..=4 {
        for extra in ["0", "", "x"] {
            assert_form_refused(&plan().append_field(line, extra).text(), line as u64);
        }
        assert_form_refused(&plan().remove_field(line, 12).text(), line as u64);
        assert_form_refused(&plan().set_line(line, "P").text(), line as u64);
    }
}

#[test]
fn r9_form_comes_before_the_rules_of_its_line_only() {
    let text = plan().set(2, 2, 3).set(2, 12, "x").text();
    assert_plan_refused(&network().text(), &text, 9, 2, 0);
    let text = plan().set(2, 2, 3).set(3, 12, "x").text();
    assert_plan_refused(&network().text(), &text, 10, 2, 1);
}

#[test]
fn r9_number_too_large_for_its_rule_is_no_bad_number() {
    let network = network().text();
    let most = 4_294_967_295u64;
    assert_plan_refused(&network, &plan().set(1, 2, most).text(), 10, 1, 1);
    assert_plan_refused(&network, &plan().set(1, 4, most).text(), 15, 1, 1);
    assert_plan_refused(&network, &plan().set(1, 7, most).text(), 25, 1, 1);
    assert_plan_refused(&network, &plan().set(1, 10, most).text(), 26, 1, 1);
}

// Rule 10.

#[test]
fn r10_masks() {
    let network = network().text();
    for mask in [
        0u64,
        3,
        4,
        5,
        6,
        7,
        8,
        1 << 31,
        (1 << 31) + 1,
        4_294_967_295,
    ] {
        for line in 1..=4 {
            let text = plan().set(line, 2, mask).text();
            assert_plan_refused(&network, &text, 10, line as u64, 1);
        }
    }
    for mask in [0u64, 3, 5, 6, 7, 8, 9, 16, 1 << 31, 4_294_967_295] {
        for line in 1..=4 {
            let text = plan().set(line, 3, mask).text();
            assert_plan_refused(&network, &text, 10, line as u64, 2);
        }
    }
    // Both signals: the first is reported.
    let text = plan().set(2, 2, 0).set(2, 3, 0).text();
    assert_plan_refused(&network, &text, 10, 2, 1);
}

// Rule 11.

#[test]
fn r11_order_of_phases() {
    let network = network().text();
    // Signal 2 shows phase 1 before the plan: phase 3 is neither it nor next.
    assert_plan_refused(&network, &plan().set(1, 3, 4).text(), 11, 1, 2);
    // After phase 1 in step 1.
    assert_plan_refused(&network, &plan().set(2, 3, 4).text(), 11, 2, 2);
    // Backwards from phase 2 to phase 1.
    assert_plan_refused(&network, &plan().set(3, 3, 1).text(), 11, 3, 2);
    // From phase 3 to phase 2.
    assert_plan_refused(&network, &plan().set(4, 3, 2).text(), 11, 4, 2);
    // Staying is allowed, and so is phase 1 after phase 3, as the plan has it.
    assert_plan_accepted(&network, &plan().set(4, 3, 4).text());
}

#[test]
fn r11_comes_before_r12_to_r14() {
    // Signal 1 leaves phase 2 too early, signal 2 skips a phase.
    let network = network().set(2, 6, 9).text();
    assert_plan_refused(&network, &plan().text(), 12, 1, 1);
    assert_plan_refused(&network, &plan().set(1, 3, 4).text(), 11, 1, 2);
}

// Rule 12.

#[test]
fn r12_least_time() {
    // The phase shown before the plan: 10 seconds of phase 2.
    assert_plan_accepted(&network().set(2, 10, 10).text(), &plan().text());
    assert_plan_refused(&network().set(2, 10, 11).text(), &plan().text(), 12, 1, 1);
    // Phase 1 of signal 2: 5 seconds before the plan and 10 of step 1.
    assert_plan_accepted(&network().set(3, 8, 15).text(), &plan().text());
    assert_plan_refused(&network().set(3, 8, 16).text(), &plan().text(), 12, 2, 2);
    // Phase 2 of signal 2: step 2.
    assert_plan_accepted(&network().set(3, 10, 10).text(), &plan().text());
    assert_plan_refused(&network().set(3, 10, 11).text(), &plan().text(), 12, 3, 2);
    // Phase 1 of signal 1: steps 1 and 2.
    assert_plan_accepted(&network().set(2, 8, 20).text(), &plan().text());
    assert_plan_refused(&network().set(2, 8, 21).text(), &plan().text(), 12, 3, 1);
    // Phase 3 of signal 2: step 3.
    assert_plan_accepted(&network().set(3, 12, 10).text(), &plan().text());
    assert_plan_refused(&network().set(3, 12, 11).text(), &plan().text(), 12, 4, 2);
}

#[test]
fn r12_run_still_showing_at_the_end_is_not_tested() {
    // Signal 1 ends with 20 seconds of phase 2, of which 30 are the least; the
    // phase 2 before the plan has its 30.
    let network = network().set(2, 6, 30).set(2, 7, 30).set(2, 10, 30).text();
    assert_plan_accepted(&network, &plan().text());
}

// Rule 13.

#[test]
fn r13_greatest_time() {
    // Phase 1 of signal 1: steps 1 and 2.
    assert_plan_accepted(&network().set(2, 9, 20).text(), &plan().text());
    assert_plan_refused(&network().set(2, 9, 19).text(), &plan().text(), 13, 2, 1);
    // Phase 1 of signal 2: 5 seconds before the plan and step 1.
    assert_plan_accepted(&network().set(3, 9, 15).text(), &plan().text());
    assert_plan_refused(&network().set(3, 9, 14).text(), &plan().text(), 13, 1, 2);
    // Phase 2 of signal 1 at the end: steps 3 and 4. The ten seconds before
    // the plan are a run of their own.
    assert_plan_accepted(&network().set(2, 11, 20).text(), &plan().text());
    assert_plan_refused(&network().set(2, 11, 19).text(), &plan().text(), 13, 4, 1);
}

#[test]
fn r13_shown_phase_goes_on_from_its_seconds() {
    // Signal 1 goes on with phase 2 in step 1: 20 seconds, then 30.
    let quiet = |masks: [u64; 4]| {
        let lines: Vec<String> = masks
            .iter()
            .zip([1, 1, 2, 4])
            .map(|(mask, other)| format!("P {mask} {other} 0 0 0 0 0 0 0 0 0"))
            .collect();
        Sheet::new(&lines.join("\n"))
    };
    let wide = network().set(2, 3, 90);
    assert_plan_accepted(&wide.clone().text(), &quiet([2, 2, 1, 1]).text());
    assert_plan_refused(&wide.clone().text(), &quiet([2, 2, 2, 1]).text(), 13, 3, 1);
    assert_plan_refused(
        &wide.set(2, 11, 29).text(),
        &quiet([2, 2, 1, 1]).text(),
        13,
        2,
        1,
    );
}

// Rule 14.

#[test]
fn r14_least_cycle() {
    // Phase 1 of signal 1 begins in step 1 with the clock at 20.
    assert_plan_accepted(&network().set(2, 2, 20).text(), &plan().text());
    assert_plan_refused(&network().set(2, 2, 21).text(), &plan().text(), 14, 1, 1);
    // Phase 1 of signal 2 begins in step 4 with the clock at 35.
    assert_plan_accepted(&network().set(3, 2, 35).text(), &plan().text());
    assert_plan_refused(&network().set(3, 2, 36).text(), &plan().text(), 14, 4, 2);
    // It goes on in step 1, so nothing begins there.
    assert_plan_refused(&network().set(3, 2, 90).text(), &plan().text(), 14, 4, 2);
}

#[test]
fn r14_greatest_cycle() {
    // Signal 1: restarted in step 1, 40 after step 4.
    assert_plan_accepted(&network().set(2, 3, 40).text(), &plan().text());
    assert_plan_refused(&network().set(2, 3, 39).text(), &plan().text(), 14, 4, 1);
    // Signal 2: 15, 25, 35, then restarted.
    assert_plan_accepted(&network().set(3, 3, 35).text(), &plan().text());
    assert_plan_refused(&network().set(3, 3, 34).text(), &plan().text(), 14, 3, 2);
    // A step longer than the greatest cycle.
    let network = network().set(3, 2, 9).set(3, 3, 9).text();
    assert_plan_refused(&network, &plan().text(), 14, 1, 2);
}

#[test]
fn r14_signal_by_signal() {
    // In step 4 signal 1 is above its greatest cycle and signal 2 below its
    // least; the first signal is reported.
    let network = network().set(2, 3, 39).set(3, 2, 36).text();
    assert_plan_refused(&network, &plan().text(), 14, 4, 1);
}

// Rules 15 and 25 to 27.

#[test]
fn r15_admitted() {
    let text = network().text();
    assert_plan_refused(&text, &plan().set(1, 4, 5001).text(), 15, 1, 1);
    assert_plan_refused(&text, &plan().set(1, 5, 1).text(), 15, 1, 2);
    assert_plan_refused(&text, &plan().set(1, 6, 101).text(), 15, 1, 3);
    assert_plan_refused(&text, &plan().set(3, 5, 201).text(), 15, 3, 2);
    assert_plan_refused(&text, &plan().set(4, 6, 1).text(), 15, 4, 3);
    assert_plan_refused(&network().set(10, 3, 4999).text(), &plan().text(), 15, 1, 1);
}

/// In the last step link 3 keeps 100, so that nobody leaves too early if they
/// are admitted late.
fn fewer_let_out() -> Sheet {
    plan().set(4, 9, 1500)
}

#[test]
fn r15_what_was_not_admitted_waits() {
    let text = network().text();
    // Link 3 may have its 100 in any later step, link 1 has had its 5000.
    let plan = fewer_let_out;
    let late = |step: usize, volume: u64| plan().set(1, 6, 0).set(step, 6, volume).text();
    for step in 2..=4 {
        assert_plan_accepted(&text, &late(step, 100));
        assert_plan_accepted(&text, &late(step, 99));
        assert_plan_refused(&text, &late(step, 101), 15, step as u64, 3);
        assert_plan_refused(&text, &plan().set(step, 4, 1).text(), 15, step as u64, 1);
    }
    // In two parts.
    let parts = plan().set(1, 6, 40).set(2, 6, 60);
    assert_plan_accepted(&text, &parts.clone().text());
    assert_plan_refused(&text, &parts.set(3, 6, 1).text(), 15, 3, 3);
    // Demand of a later step can't be had before: link 2's 200 of step 3.
    assert_plan_refused(&text, &plan().set(2, 5, 1).text(), 15, 2, 2);
    // No link has another's demand, and the lowest link is reported.
    let text_of = |first: u64, third: u64| plan().set(1, 4, first).set(1, 6, third).text();
    assert_plan_refused(&text, &text_of(4000, 101), 15, 1, 3);
    assert_plan_refused(&text, &text_of(5001, 101), 15, 1, 1);
}

#[test]
fn vehicles_outside_count_in_the_time_alone() {
    // 100 of link 3 wait for one step or for three: inside or outside, they
    // are counted alike.
    let judged = |network: Sheet, plan: Sheet| {
        let mut ledger = [FILL; NEED];
        let totals = check_plan(&network.text(), &plan.text(), &mut ledger).unwrap();
        (totals, ledger)
    };
    let (at_once, _) = judged(network(), fewer_let_out());
    assert_eq!(at_once.doubled_time, TOTALS.doubled_time + 10 * 100);
    for step in [2, 4] {
        let late = fewer_let_out().set(1, 6, 0).set(step, 6, 100);
        assert_eq!(judged(network(), late).0, at_once);
    }
    let (never, ledger) = judged(network(), fewer_let_out().set(1, 6, 0));
    assert_eq!(never.admitted, at_once.admitted - 100);
    assert_eq!(never.inside, at_once.inside - 100);
    assert_eq!(never.doubled_time, at_once.doubled_time);
    assert_eq!(ledger[10], ROWS[1][4] - 100);
    // Demand that nobody admits counts from the end of its step.
    let (totals, _) = judged(network().set(12, 3, 7), plan());
    assert_eq!(totals.doubled_time, TOTALS.doubled_time + 7 * (10 + 2 * 10));
    assert_eq!(totals.inside, TOTALS.inside);
}

#[test]
fn r25_let_out() {
    // Link 3 lets 3000 out in step 3: 300 thousandths a second are enough.
    assert_plan_accepted(&network().set(6, 4, 300).text(), &plan().text());
    assert_plan_refused(&network().set(6, 4, 299).text(), &plan().text(), 25, 3, 3);
    assert_plan_refused(&network().text(), &plan().set(1, 7, 1).text(), 25, 1, 1);
    assert_plan_refused(&network().text(), &plan().set(2, 8, 5001).text(), 25, 2, 2);
    // At the rate's limit the rule passes and the next one that fails is 17.
    assert_plan_refused(&network().text(), &plan().set(2, 8, 5000).text(), 17, 2, 2);
    // A red signal does not keep volume from being let out: link 2 lets out in
    // step 2, in which its signal shows a phase outside its mask.
    assert_plan_accepted(&network().text(), &plan().text());
}

#[test]
fn r26_movement_above_its_rate() {
    // Movement 2 takes 3000 in step 1, movement 1 takes 1000.
    assert_plan_accepted(&network().set(8, 4, 300).text(), &plan().text());
    assert_plan_refused(&network().set(8, 4, 299).text(), &plan().text(), 26, 1, 2);
    assert_plan_accepted(&network().set(7, 4, 100).text(), &plan().text());
    assert_plan_refused(&network().set(7, 4, 99).text(), &plan().text(), 26, 1, 1);
    assert_plan_refused(&network().text(), &plan().set(3, 12, 3001).text(), 26, 3, 3);
    assert_plan_refused(&network().text(), &plan().set(3, 12, 3000).text(), 17, 3, 2);
}

#[test]
fn r27_movement_from_a_shut_link() {
    // Signal 1 shows phase 2 in steps 3 and 4.
    assert_plan_refused(&network().text(), &plan().set(3, 10, 1).text(), 27, 3, 1);
    assert_plan_refused(&network().text(), &plan().set(4, 11, 1).text(), 27, 4, 2);
    // Signal 2 shows phase 2 in step 2.
    assert_plan_refused(&network().text(), &plan().set(2, 12, 1).text(), 27, 2, 3);
    // With phase 2 in the mask, or without a signal, the link is open; one
    // less is then there to go in step 3.
    let open = plan().set(2, 12, 1).set(3, 12, 999).text();
    assert_plan_accepted(&network().set(5, 6, 7).text(), &open);
    assert_plan_accepted(&network().set(5, 5, 0).set(5, 6, 0).text(), &open);
    // With only phase 2 in its mask link 1 is shut in step 1.
    assert_plan_refused(&network().set(4, 6, 2).text(), &plan().text(), 27, 1, 1);
}

#[test]
fn r15_then_r25_then_r26_then_r27() {
    let network = network().text();
    let shut = plan().set(2, 12, 1);
    assert_plan_refused(&network, &shut.clone().text(), 27, 2, 3);
    let above_rate = shut.set(2, 11, 5001);
    assert_plan_refused(&network, &above_rate.clone().text(), 26, 2, 2);
    let let_out = above_rate.set(2, 9, 10_001);
    assert_plan_refused(&network, &let_out.clone().text(), 25, 2, 3);
    let admitted = let_out.set(2, 6, 1);
    assert_plan_refused(&network, &admitted.text(), 15, 2, 3);
    // Each over all its items: in step 3 movement 1 is shut in and movement 3
    // above its rate, in step 2 it is the other way round.
    let text = plan().set(3, 10, 1).set(3, 12, 3001).text();
    assert_plan_refused(&network, &text, 26, 3, 3);
    let text = plan().set(2, 10, 5001).set(2, 12, 1).text();
    assert_plan_refused(&network, &text, 26, 2, 1);
    // Link 3 is above its demand, link 1 above its exit limit.
    let text = plan().set(2, 7, 1).set(2, 6, 1).text();
    assert_plan_refused(&network, &text, 15, 2, 3);
    // A movement above its rate from a shut link, at the rate and below it.
    for (volume, number) in [(5001, 26), (5000, 27), (1, 27)] {
        let text = plan().set(3, 10, volume).text();
        assert_plan_refused(&network, &text, number, 3, 1);
    }
    // 27 comes before 16: the shut link's movements break their shares too.
    assert_plan_refused(&network, &plan().set(4, 11, 7).text(), 27, 4, 2);
}

// Rule 16.

#[test]
fn r16_shares() {
    let network = network().text();
    // Movements 1 and 2 share 250 to 750.
    assert_plan_refused(&network, &plan().set(1, 10, 1001).text(), 16, 1, 1);
    assert_plan_refused(&network, &plan().set(1, 10, 999).text(), 16, 1, 2);
    assert_plan_refused(&network, &plan().set(1, 11, 3001).text(), 16, 1, 2);
    assert_plan_refused(&network, &plan().set(1, 11, 2999).text(), 16, 1, 1);
    // A single movement has the whole sum.
    assert_plan_accepted(&network, &plan().set(4, 12, 199).text());
    // None at all is fine too.
    assert_plan_accepted(&network, &quiet_after_step_2());
    // Volume let out is not in the sum.
    let network = crate::fixture::network().set(4, 4, 500).text();
    let text = plan().set(2, 7, 4).text();
    assert_plan_accepted(&network, &text);
    let text = plan().set(2, 7, 4).set(2, 10, 501).text();
    assert_plan_refused(&network, &text, 16, 2, 1);
}

// Rule 17.

#[test]
fn r17_arrival() {
    let text = network().text();
    // Link 1 has let its 4000 go in step 1.
    let more = plan().set(1, 10, 1001).set(1, 11, 3003).text();
    assert_plan_refused(&text, &more, 17, 1, 1);
    // Link 3: nothing but the standing 1000 has arrived before 30 seconds.
    assert_plan_refused(&text, &plan().set(1, 9, 1001).text(), 17, 1, 3);
    assert_plan_refused(&text, &plan().set(2, 9, 1).text(), 17, 2, 3);
    // At 30 seconds what entered by 10 seconds has arrived: 4100.
    assert_plan_accepted(&text, &plan().set(3, 9, 3100).set(4, 9, 1500).text());
    assert_plan_refused(&text, &plan().set(3, 9, 3101).text(), 17, 3, 3);
    // At 40 seconds what entered by 20 seconds has arrived: 5600.
    assert_plan_refused(&text, &plan().set(4, 9, 1601).text(), 17, 4, 3);
    // Link 2 has let all that arrived go in step 3 and 4.
    assert_plan_refused(&text, &plan().set(3, 12, 1001).text(), 17, 3, 2);
    assert_plan_refused(&text, &plan().set(4, 12, 201).text(), 17, 4, 2);
    // Volume that enters in a step cannot leave in it: with a travel time of
    // 20 seconds the 1000 of step 1 are not there in step 2.
    assert_plan_refused(&network().set(5, 3, 20).text(), &plan().text(), 17, 2, 2);
}

#[test]
fn r17_standing_start_before_the_travel_time() {
    // Link 1 with a travel time of 40 and of 50 seconds: only the standing
    // volume may leave until 40 seconds, and it may leave before.
    for time in [40, 50] {
        let text = network().set(4, 3, time).text();
        assert_plan_refused(&text, &plan().text(), 17, 2, 1);
        let plan = plan().set(2, 10, 0).set(2, 11, 0).text();
        // Then link 2 lets 400 + 100 + 1000 out of 1000 that entered.
        assert_plan_refused(&text, &plan, 17, 3, 2);
    }
}

/// One link, a step of ten seconds in which 7 enter, one of twenty in which 13
/// enter, and what leaves in each.
fn early_departure(travel_time: u64, let_out: [u64; 2]) -> Option<(u64, u64, u64)> {
    let network = format!(
        "N\t1\t0\t0\t2\t0\t0\nQ\t60000\t{travel_time}\t1000\t0\t0\t5\t0\nS\t10\t7\nS\t20\t13\n"
    );
    let plan = format!("P\t7\t{}\nP\t13\t{}\n", let_out[0], let_out[1]);
    let mut ledger = [FILL; 6];
    let answer = check_plan(network.as_bytes(), plan.as_bytes(), &mut ledger);
    answer.err().map(|r| (r.number, r.line, r.item))
}

#[test]
fn r17_travel_time_that_ends_inside_a_step() {
    // Travel time, and what may leave by each boundary, rounded down: 5 stand
    // at the start, then 7 enter by 10 seconds and 13 more by 30.
    for (travel_time, by_first, by_second) in [
        (1, 5 + 7 * 9 / 10, 12 + 13 * 19 / 20),
        (4, 5 + 7 * 6 / 10, 12 + 13 * 16 / 20),
        (9, 5 + 7 / 10, 12 + 13 * 11 / 20),
        (10, 5, 12 + 13 * 10 / 20),
        (19, 5, 12 + 13 / 20),
        (20, 5, 12),
        (21, 5, 5 + 7 * 9 / 10),
        (29, 5, 5 + 7 / 10),
        (30, 5, 5),
        (31, 5, 5),
    ] {
        assert_eq!(early_departure(travel_time, [by_first, 0]), None);
        let one_more = [by_first + 1, 0];
        assert_eq!(early_departure(travel_time, one_more), Some((17, 1, 1)));
        let both = [by_first, by_second - by_first];
        assert_eq!(early_departure(travel_time, both), None);
        let one_more = [by_first, by_second - by_first + 1];
        assert_eq!(early_departure(travel_time, one_more), Some((17, 2, 1)));
    }
}

// Rule 18.

#[test]
fn r18_capacity() {
    // Link 3 needs 4100, 5600 - 1000, 6600 - 1000 and 6800 - 4000.
    assert_plan_accepted(&network().set(6, 2, 5600).text(), &plan().text());
    assert_plan_refused(&network().set(6, 2, 5599).text(), &plan().text(), 18, 3, 3);
    assert_plan_refused(&network().set(6, 2, 4599).text(), &plan().text(), 18, 2, 3);
    assert_plan_refused(&network().set(6, 2, 4100).text(), &plan().text(), 18, 2, 3);
    assert_plan_refused(&network().set(6, 2, 4099).text(), &plan().text(), 18, 1, 3);
    // Step 2: entered 5600, left at boundary 1 is 1000.
    assert_plan_accepted(&network().set(6, 2, 4600).text(), &quiet_after_step_2());
    // Link 1: entered 9000, nothing left before.
    assert_plan_accepted(&network().set(4, 2, 9000).text(), &plan().text());
    assert_plan_refused(&network().set(4, 2, 8999).text(), &plan().text(), 18, 1, 1);
}

/// The plan without volumes in steps 3 and 4.
fn quiet_after_step_2() -> Vec<u8> {
    plan()
        .set_line(3, "P 2 4 0 0 0 0 0 0 0 0 0")
        .set_line(4, "P 2 1 0 0 0 0 0 0 0 0 0")
        .text()
}

#[test]
fn r18_space_freed_in_a_step_counts_from_the_next() {
    // Link 1 is full with its 4000: the 4000 that leave in step 1 make room
    // for the demand in step 2 only.
    let full = network().set(4, 2, 4000).set(11, 3, 4000);
    let late = plan()
        .set(1, 4, 0)
        .set(2, 4, 4000)
        .set(2, 10, 0)
        .set(2, 11, 0);
    let late = late.set(2, 8, 0).set(3, 8, 0).set(3, 9, 0).set(4, 9, 0);
    assert_plan_accepted(&full.clone().text(), &late.clone().text());
    assert_plan_refused(
        &full.clone().text(),
        &late.clone().set(1, 4, 1).text(),
        18,
        1,
        1,
    );
    let full = full.set(11, 3, 4001);
    assert_plan_refused(&full.text(), &late.set(2, 4, 4001).text(), 18, 2, 1);
}

// Several rules in one line.

#[test]
fn the_lowest_rule_of_a_line_is_told() {
    // Step 3 breaks rules 10 to 18 one after the other, each time with the
    // lower one mended.
    let network = network()
        .set(2, 8, 21) // rule 12 at step 3, signal 1
        .set(3, 11, 10) // phase 2 of signal 2: at most 10 seconds
        .text();
    let step = |masks: &str, rest: &str| plan().set_line(3, &format!("P {masks} {rest}")).text();
    let volumes = "0 201 0 0 0 0 0 0 5000";
    assert_plan_refused(&network, &step("0 1", volumes), 10, 3, 1);
    assert_plan_refused(&network, &step("2 8", volumes), 10, 3, 2);
    assert_plan_refused(&network, &step("2 1", volumes), 11, 3, 2);
    assert_plan_refused(&network, &step("2 2", volumes), 12, 3, 1);
    assert_plan_refused(&network, &step("1 2", volumes), 13, 3, 2);
    assert_plan_refused(&network, &step("1 4", volumes), 15, 3, 2);
}

#[test]
fn rules_16_to_18_in_one_line() {
    // Link 1 is full, all its volume goes in wrong shares, more than arrived.
    let network = network().set(4, 2, 4000).text();
    let line = |moves: &str| {
        plan()
            .set_line(1, &format!("P 1 1 1 0 0 0 0 1000 {moves} 0"))
            .text()
    };
    assert_plan_refused(&network, &line("1002 3003"), 16, 1, 1);
    assert_plan_refused(&network, &line("1001 3004"), 16, 1, 2);
    assert_plan_refused(&network, &line("1001 3003"), 17, 1, 1);
    assert_plan_refused(&network, &line("1000 3000"), 18, 1, 1);
    // Rule 17 of a later link comes before rule 18 of an earlier one.
    let text = plan()
        .set_line(1, "P 1 1 1 0 0 0 0 1001 1000 3000 0")
        .text();
    assert_plan_refused(&network, &text, 17, 1, 3);
}

// The ledger.

#[test]
fn rows_passed_are_written_and_the_rest_keeps_what_it_held() {
    for step in 1..=4usize {
        for (field, value) in [(1, "X"), (2, "0")] {
            let text = plan().set(step, field, value).text();
            let mut ledger: Vec<u32> = (0..NEED as u32 + 5)
                .map(|index| 9_000_000 + index)
                .collect();
            let before = ledger.clone();
            assert!(check_plan(&network().text(), &text, &mut ledger).is_err());
            assert_eq!(ledger[..6 * step], ROWS.concat()[..6 * step]);
            assert_eq!(ledger[6 * step..], before[6 * step..]);
        }
    }
}

#[test]
fn what_a_ledger_held_before_has_no_say() {
    for fill in [0, 1, 4_294_967_295] {
        let mut ledger = [fill; NEED];
        assert_eq!(
            check_plan(&network().text(), &plan().text(), &mut ledger),
            Ok(TOTALS)
        );
        assert_eq!(ledger[..], ROWS.concat());
    }
}

#[test]
fn the_smallest_plan() {
    let network = b"N\t1\t0\t0\t1\t0\t0\nQ\t5\t1\t3\t0\t0\t4\t0\nS\t1\t1\n";
    let mut ledger = [FILL; 4];
    let totals = check_plan(network, b"P\t1\t3\n", &mut ledger).unwrap();
    assert_eq!(
        (
            totals.admitted,
            totals.let_out,
            totals.inside,
            totals.doubled_time
        ),
        (1, 3, 2, 6)
    );
    assert_eq!(ledger, [4, 0, 5, 3]);
}

#[test]
fn volumes_above_half_of_32_bits() {
    // Link 1 is full with 2,000,000,000 and gets 600,000 a step from outside
    // for each 600,000 that it has let out the step before.
    let mut network =
        "N\t1\t0\t0\t120\t0\t0\nQ\t2000000000\t60\t10000\t0\t0\t2000000000\t0\n".to_string();
    network += &"S\t60\t600000\n".repeat(120);
    let plan = "P\t0\t600000\n".to_string() + &"P\t600000\t600000\n".repeat(119);
    let mut ledger = [FILL; 242];
    let totals = check_plan(network.as_bytes(), plan.as_bytes(), &mut ledger).unwrap();
    assert_eq!(totals.admitted, 119 * 600_000);
    assert_eq!(totals.let_out, 120 * 600_000);
    assert_eq!(totals.inside, 2_000_000_000 - 600_000);
    // Full at the start, 600,000 short at every other boundary, at which as
    // much waits outside.
    assert_eq!(totals.doubled_time, 60 * 2 * 120 * 2_000_000_000);
    assert_eq!(ledger[240..], [2_000_000_000 + 119 * 600_000, 72_000_000]);
}
