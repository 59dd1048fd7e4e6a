//! The cases themselves: that they are what they were made for, that the
//! stored form can be read back, and that nothing is left out.

use plancheck_reference::cases::{
    accepted_cases, checksum, decode, draw_full_size, draw_small_size, encode, random_cases,
    shuffled_listing, stored_cases, Answer, Call, Case, Maker, Question, Random, Scenario, Traffic,
    LARGEST,
};
use plancheck_reference::{check_plan, plan_from_listing, Comparison, Order, Refusal};
use std::sync::OnceLock;

/// The stored cases, made once for all tests.
fn stored() -> &'static [Case] {
    static STORED: OnceLock<Vec<Case>> = OnceLock::new();
    STORED.get_or_init(|| stored_cases(1))
}

fn assert_as_intended(case: &Case) {
    assert!(
        case.is_as_intended(),
        "{}: {:?}, not {:?}\n{}\n{}",
        case.name,
        case.outcome.answer,
        case.intended,
        String::from_utf8_lossy(&case.question.network),
        String::from_utf8_lossy(&case.question.plan)
    );
}

#[test]
fn random_cases_are_what_they_were_made_for() {
    for seed in 0..40 {
        for case in random_cases(seed) {
            assert_as_intended(&case);
        }
    }
}

#[test]
fn simulated_plans_pass_with_the_simulated_ledger() {
    let mut random = Random::new(77);
    let mut scenarios = Vec::new();
    for round in 0..200 {
        let size = if round % 2 == 0 {
            draw_small_size(&mut random)
        } else {
            draw_full_size(&mut random)
        };
        let traffic = [
            Traffic::Free,
            Traffic::Full,
            Traffic::Extreme,
            Traffic::Idle,
        ][round % 4];
        scenarios.push(Scenario::make(&mut random, size, traffic));
    }
    for traffic in [Traffic::Free, Traffic::Full, Traffic::Extreme] {
        scenarios.push(Scenario::make(&mut random, LARGEST, traffic));
    }
    let mut traffic = Traffics::default();
    for scenario in &scenarios {
        let mut maker = Maker::new(1);
        accepted_cases(&mut maker, scenario);
        for case in maker.judged() {
            assert_as_intended(&case);
            if case.question.call == Call::CheckPlan {
                let ledger = &case.outcome.ledger[..scenario.ledger_need()];
                assert_eq!(ledger, scenario.ledger());
            }
        }
        traffic.add(scenario);
    }
    traffic.assert_lively();
}

/// How often volumes reach each of their limits.
#[derive(Default, Debug)]
struct Traffics {
    moved: u64,
    admitted_all_demand: u64,
    let_out_at_exit_rate: u64,
    moved_at_rate: u64,
    left_all_arrived: u64,
    left_all_arrived_inside_a_step: u64,
    left_what_entered_in_the_step: u64,
    links_filled: u64,
    shared: u64,
    above_half_of_32_bits: u64,
}

impl Traffics {
    fn add(&mut self, scenario: &Scenario) {
        for (index, planned) in scenario.plan.iter().enumerate() {
            let step = &scenario.network.steps[index];
            for (movement, &volume) in planned.moved.iter().enumerate() {
                let limits = &scenario.network.movements[movement];
                self.moved += u64::from(volume > 0);
                self.moved_at_rate += u64::from(volume == limits.rate * step.length);
                self.shared += u64::from(volume > 0 && limits.share < 1000);
            }
            for (link, limits) in scenario.network.links.iter().enumerate() {
                let admitted = planned.admitted[link];
                let let_out = planned.let_out[link];
                let entered = scenario.entered[index + 1][link];
                let left = scenario.left[index + 1][link];
                let arrived = scenario.arrived[index + 1][link];
                let at_rate = let_out == limits.exit_rate * step.length;
                let full = entered - scenario.left[index][link] == limits.capacity;
                let gone = left > scenario.left[index][link] && left == arrived;
                self.admitted_all_demand +=
                    u64::from(admitted > 0 && admitted == step.demand[link]);
                self.let_out_at_exit_rate += u64::from(let_out > 0 && at_rate);
                self.links_filled += u64::from(full && entered > scenario.entered[index][link]);
                self.left_all_arrived += u64::from(gone);
                let entry = scenario.entry(index + 1, link);
                let is_inside = entry.is_some_and(|entry| entry.elapsed > 0);
                self.left_all_arrived_inside_a_step += u64::from(gone && is_inside);
                let before = scenario.entered[index][link];
                self.left_what_entered_in_the_step += u64::from(left > before);
                self.above_half_of_32_bits += u64::from(entered > 1 << 31);
            }
        }
    }

    fn assert_lively(&self) {
        for count in [
            self.moved,
            self.admitted_all_demand,
            self.let_out_at_exit_rate,
            self.moved_at_rate,
            self.left_all_arrived,
            self.left_all_arrived_inside_a_step,
            self.left_what_entered_in_the_step,
            self.links_filled,
            self.shared,
            self.above_half_of_32_bits,
        ] {
            assert!(count > 50, "{self:?}");
        }
    }
}

/// The number of a refusal, whichever plan it is about.
fn refused_number(answer: &Answer) -> Option<u64> {
    match answer {
        Answer::Refused(refusal) => Some(refusal.number),
        Answer::RefusedPlan(told) => Some(told.refusal.number),
        _ => None,
    }
}

#[test]
fn each_call_that_judges_a_network_or_a_plan_tells_each_of_its_numbers() {
    let of_networks = [1, 2, 3, 4, 5, 6, 28, 30];
    let of_plans = (9..=18).chain([25, 26, 27, 29]);
    let of_both: Vec<u64> = of_networks.into_iter().chain(of_plans).collect();
    let is_asked = |asked: Call, call: Call| match asked {
        Call::CarryOn { .. } => matches!(call, Call::CarryOn { .. }),
        _ => asked == call,
    };
    for (call, numbers) in [
        (Call::CheckNetwork, &of_networks[..]),
        (Call::CheckPlan, &of_both),
        (Call::PlanFromListing, &of_networks),
        (Call::CheckSheet, &of_both),
        (Call::PlanFromSheet, &of_networks),
        (Call::CarryOn { boundary: 1 }, &of_both),
        (Call::ComparePlans, &of_both),
    ] {
        let cases = stored()
            .iter()
            .filter(|case| is_asked(call, case.question.call));
        let told: Vec<Option<u64>> = cases
            .map(|case| refused_number(&case.outcome.answer))
            .collect();
        for &number in numbers {
            let count = told.iter().filter(|&&told| told == Some(number)).count();
            assert!(count > 0, "{call:?}: refusal {number} is never told");
        }
    }
}

#[test]
fn the_stored_cases_leave_nothing_out() {
    let cases = stored();
    assert!(cases.len() >= 2_000);
    for case in cases {
        assert_as_intended(case);
    }
    let count = |matches: &dyn Fn(&Case) -> bool| cases.iter().filter(|case| matches(case)).count();
    for wanted in (1..=6).chain(8..=35) {
        let refused = count(
            &|case| matches!(case.outcome.answer, Answer::Refused(Refusal { number, .. }) if number == wanted),
        );
        assert!(refused >= 30, "refusal {wanted}: {refused} cases");
    }
    for name in [
        "10: no bit",
        "10: two bits",
        "10: all phases",
        "10: one bit above P",
        "10: a phase and one above P",
        "10: highest bit",
        "10: a phase and the highest bit",
        "10: all bits",
        "11: phase skipped",
        "11: back to an earlier phase",
        "12: phase left too early",
        "12: least time one above",
        "least time just kept",
        "13: phase goes on too long",
        "13: greatest time one below",
        "greatest time just kept",
        "14: phase 1 begins too early",
        "14: cycle goes on too long",
        "14: least cycle one above",
        "least cycle just kept",
        "14: greatest cycle one below",
        "greatest cycle just kept",
        "15: admitted above demand",
        "25: let out above the exit rate",
        "26: movement above its rate",
        "26: movement from a shut link above its rate",
        "27: movement from a shut link",
        "15: demand one below",
        "25: exit rate one below",
        "26: rate one below",
        "16: movement one above its share",
        "16: others above their share",
        "17: one let out that has not arrived",
        "17: one moved that has not arrived",
        "17: one that left was not admitted before",
        "18: one admitted to a full link",
        "18: capacity one below",
        "capacity just kept",
        "all limits just kept",
        "21: left above arrived",
        "21: entered below arrived",
        "21: arrived below left",
        "21: arrived above entered",
        "a part has arrived",
        "a part has arrived, other rows differ",
        "left at or above the part that has arrived",
        "entered at or below the part that has arrived",
        "entered falls over the step or stays",
        "ends of 32 bits inside a step",
        "travel time just kept",
        "17: travel time one second above",
        "any travel time",
        "row 0 has no say before the travel time",
        "listing of a plan",
        "listing of a plan, zeros named",
        "listing in the plan's order",
        "listing of any numbers",
        "empty listing",
        "last variable alone",
        "22: malformed",
        "22: names nothing",
        "22: repeated",
        "22: unfinished last line",
        "22: bytes after the last line",
        "22: malformed line before a volume",
        "whole volume",
        "23: not whole",
        "23: one too large",
        "23: too large",
        "24: buffer too short",
        "buffer just long enough",
        "4: before the listing",
        "damaged listing",
        "28: light",
        "28: first step",
        "28: last step",
        "28: overlap",
        "28: phase",
        "28: phase before a link",
        "28: phase before the form of the first link",
        "3: last light before a tram's phase",
        "tram of the first or last phase",
        "29: not the tram's phase",
        "empty plan",
        "empty plan, phases may go on",
        "empty plan, phase one second too long",
        "empty plan, cycle one second too long",
        "9: empty line in place of a plan",
        "1: eleven digits",
        "9: eleven digits",
        "120 steps, past ones too",
        "30: 121 steps, past ones too",
        "30: 120 past steps",
        "quiet past step",
        "30: length of a past step",
        "length of a past step at its limit",
        "all that has arrived has left",
        "30: one left that has not arrived",
        "full when the past ends",
        "30: one more than a link holds",
        "as much waits as may enter",
        "30: one more waits than may enter",
        "30: past entries above 32 bits",
        "30: past exits above 32 bits",
        "1: surplus before the past",
        "6: last step before the past",
        "waiting volume just kept",
        "15: waiting one below",
        "arrived in the past",
        "the past alone tells what has arrived",
        "left at or above what arrived in the past",
        "entered at or below what arrived in the past",
        "carried network",
        "carried, buffer just long enough",
        "carried twice",
        "rest of a plan",
        "first part of a plan",
        "empty plan to carry on",
        "damaged call to carry on",
        "31: boundary",
        "31: before the ledger and the plan",
        "8: ledger one too short for the first steps",
        "9: a line more than steps to carry on from",
        "9: a line fewer than steps to carry on from",
        "32: buffer one byte too short",
        "kept sheet",
        "sheet of another duration",
        "run at the greatest cycle",
        "run a second before the greatest cycle",
        "any sheet",
        "broken rule before the sheet",
        "empty plan against a sheet",
        "33: duration",
        "33: offset",
        "33: surplus",
        "33: sheet of the other call",
        "33: before ledger and plan",
        "8: after the sheet, before the plan",
        "4: before the sheet",
        "plan of a sheet",
        "plan of a sheet, buffer just long enough",
        "24: buffer too short for a sheet's plan",
        "35: a run or a tram",
        "34: the run that ends first, not the one left first",
        "run that counts or not",
        "damaged sheet",
        "two plans",
        "plan with itself",
        "one thousandth ahead",
        "one thousandth behind",
        "first plan refused",
        "second plan refused",
        "both plans refused",
        "8: first ledger",
        "8: second ledger",
        "8: both ledgers",
        "9: first plan before the second ledger",
        "9: second plan unfinished",
        "4: network before both plans",
        "empty plan compared",
        "padded: plan passes",
        "padded: network passes",
        "padded: state of a link",
    ] {
        let named = count(&|case| case.name == name);
        assert!(named >= 3, "{name}: {named} cases");
    }
    for wanted in [Order::Ahead, Order::Behind, Order::Equal, Order::Crossing] {
        let compared = count(
            &|case| matches!(case.outcome.answer, Answer::Compared(Comparison { order, .. }) if order == wanted),
        );
        assert!(compared >= 5, "{wanted:?}: {compared} cases");
    }
    for call in [Call::CheckNetwork, Call::CheckPlan, Call::PlanFromListing] {
        let padded = count(&|case| case.question.call == call && case.name.starts_with("padded: "));
        assert!(padded >= 30, "{call:?}: {padded} padded cases");
    }
    for largest in [&b"N\t24\t8\t64\t120\t"[..], b"N\t24\t8\t64\t30\t"] {
        let largest = count(&|case| case.question.network.starts_with(largest));
        assert!(largest > 10);
    }
}

#[test]
fn the_stored_form_can_be_read_back() {
    let cases = stored();
    let bytes = encode(cases);
    assert!(bytes.len() < 8_000_000);
    let stored = decode(&bytes).expect("the form is right");
    assert_eq!(stored.len(), cases.len());
    for (case, (question, answer, sum)) in cases.iter().zip(&stored) {
        assert_eq!(&case.question, question);
        assert_eq!(&case.outcome.answer, answer);
        assert_eq!(case.outcome.checksum(), *sum);
    }
    assert!(decode(&bytes[..bytes.len() - 1]).is_none());
}

#[test]
fn the_stored_file_is_made_from_seed_1() {
    let file = concat!(
        env!("CARGO_MANIFEST_DIR"),
        "/../crates/cases_plan/data/cases.bin"
    );
    let bytes = std::fs::read(file).expect("the file is there");
    assert!(
        bytes == encode(stored()),
        "make it again with reference/make-cases"
    );
}

#[test]
fn a_plan_written_from_its_listing_is_the_plan_itself() {
    let mut random = Random::new(78);
    let mut accepted = 0;
    for round in 0..300 {
        let size = draw_small_size(&mut random);
        let traffic = [Traffic::Free, Traffic::Full][round % 2];
        let scenario = Scenario::make(&mut random, size, traffic);
        let mut maker = Maker::new(1);
        accepted_cases(&mut maker, &scenario);
        let case = &maker.judged()[1];
        let Question { network, plan, .. } = &case.question;
        let listing = shuffled_listing(&mut random, &scenario);
        let mut buffer = vec![0; plan.len()];
        let length = plan_from_listing(network, &listing, &mut buffer);
        // A listing cannot name every volume; then the plan has lower ones.
        if buffer[..length.expect("the listing is good")] == plan[..] {
            let mut ledger = vec![0; scenario.ledger_need()];
            assert_eq!(
                check_plan(network, &buffer, &mut ledger),
                Ok(scenario.totals())
            );
            accepted += 1;
        }
    }
    assert!(accepted > 80, "{accepted}");
}

#[test]
fn checksums() {
    // Known values of FNV-1a: no bytes, the bytes of "abcd" and of "abcdef".
    assert_eq!(checksum(&[], b""), 0xCBF2_9CE4_8422_2325);
    let abcd = [u32::from_le_bytes(*b"abcd")];
    assert_eq!(checksum(&abcd, b""), 0xFC17_9F83_EE07_24DD);
    assert_eq!(checksum(&[], b"abcd"), 0xFC17_9F83_EE07_24DD);
    assert_eq!(checksum(&abcd, b"ef"), 0xD80B_DA3F_BE24_4A0A);
}

#[test]
fn the_same_seed_gives_the_same_cases() {
    assert_eq!(random_cases(5), random_cases(5));
    assert_ne!(random_cases(5), random_cases(6));
}
