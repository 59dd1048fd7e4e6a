//! The state of one link, refusals 19 to 21 and those before them.

use crate::fixture::*;
use plancheck_reference::{check_plan, link_state, Refusal, State};

fn ledger() -> Vec<u32> {
    ROWS.concat()
}

fn state(ledger: &[u32], boundary: u64, link: u64) -> Result<(u64, u64), Refusal> {
    link_state(&network().text(), ledger, boundary, link)
        .map(|State { queued, in_transit }| (queued, in_transit))
}

#[test]
fn states_of_the_junction() {
    let mut filled = vec![FILL; NEED];
    check_plan(&network().text(), &plan().text(), &mut filled).unwrap();
    assert_eq!(filled, ledger());
    // Link 1 and 2 take 10 seconds, link 3 takes 20.
    let expected = [
        [(4000, 0), (0, 5000), (3000, 0), (3000, 0), (3000, 0)],
        [(0, 0), (0, 1000), (600, 500), (0, 200), (0, 0)],
        [(1000, 0), (0, 3100), (0, 4600), (100, 2500), (0, 1200)],
    ];
    for (link, states) in expected.iter().enumerate() {
        for (boundary, &expected) in states.iter().enumerate() {
            assert_eq!(
                state(&ledger(), boundary as u64, link as u64 + 1),
                Ok(expected),
                "link {}, boundary {boundary}",
                link + 1
            );
        }
    }
}

#[test]
fn network_and_ledger_length_come_first() {
    let broken = network().set(4, 3, 0).text();
    assert_eq!(link_state(&broken, &[], 99, 99), Err(refusal(4, 4, 1)));
    assert_eq!(link_state(b"", &[], 99, 99), Err(refusal(1, 1, 0)));
    for length in [0, 1, 29] {
        assert_eq!(state(&ledger()[..length], 99, 99), Err(refusal(8, 0, 0)));
        assert_eq!(state(&ledger()[..length], 0, 1), Err(refusal(8, 0, 0)));
    }
    let mut longer = ledger();
    longer.push(FILL);
    assert_eq!(state(&longer, 0, 1), Ok((4000, 0)));
}

#[test]
fn r19_boundary_above_the_last() {
    for boundary in [5, 6, 1 << 32, u64::MAX] {
        for link in [0, 1, 3, 4, u64::MAX] {
            assert_eq!(state(&ledger(), boundary, link), Err(refusal(19, 0, 0)));
        }
    }
    assert_eq!(state(&ledger(), 4, 1), Ok((3000, 0)));
}

#[test]
fn r20_link_outside() {
    for boundary in [0, 4] {
        for link in [0, 4, (1 << 32) + 1, u64::MAX] {
            assert_eq!(state(&ledger(), boundary, link), Err(refusal(20, 0, 0)));
        }
        for link in 1..=3 {
            assert!(state(&ledger(), boundary, link).is_ok());
        }
    }
}

/// The ledger with one number changed.
fn ledger_with(row: usize, link: usize, left: bool, value: u32) -> Vec<u32> {
    let mut ledger = ledger();
    ledger[6 * row + 2 * (link - 1) + usize::from(left)] = value;
    ledger
}

#[test]
fn r21_left_above_arrived() {
    // Link 3 at boundary 3: arrived is entered(1) = 4100.
    assert_eq!(state(&ledger_with(3, 3, true, 4100), 3, 3), Ok((0, 2500)));
    assert_eq!(
        state(&ledger_with(3, 3, true, 4101), 3, 3),
        Err(refusal(21, 0, 0))
    );
    assert_eq!(state(&ledger_with(3, 3, true, 0), 3, 3), Ok((4100, 2500)));
    assert_eq!(
        state(&ledger_with(3, 3, true, u32::MAX), 3, 3),
        Err(refusal(21, 0, 0))
    );
    // The same by lowering entered(1).
    assert_eq!(state(&ledger_with(1, 3, false, 4000), 3, 3), Ok((0, 2600)));
    assert_eq!(
        state(&ledger_with(1, 3, false, 3999), 3, 3),
        Err(refusal(21, 0, 0))
    );
}

#[test]
fn r21_arrived_above_entered() {
    assert_eq!(state(&ledger_with(3, 3, false, 4100), 3, 3), Ok((100, 0)));
    assert_eq!(
        state(&ledger_with(3, 3, false, 4099), 3, 3),
        Err(refusal(21, 0, 0))
    );
    assert_eq!(state(&ledger_with(1, 3, false, 6600), 3, 3), Ok((2600, 0)));
    assert_eq!(
        state(&ledger_with(1, 3, false, 6601), 3, 3),
        Err(refusal(21, 0, 0))
    );
}

#[test]
fn r21_before_the_travel_time_arrived_is_the_standing_start() {
    // Link 3 at boundary 1, whatever row 0 holds.
    for entered in [0, 999, 1000, 1001, u32::MAX] {
        assert_eq!(
            state(&ledger_with(0, 3, false, entered), 1, 3),
            Ok((0, 3100))
        );
    }
    // At boundary 2, which is at the travel time, row 0 is read.
    assert_eq!(state(&ledger_with(0, 3, false, 1001), 2, 3), Ok((1, 4599)));
    assert_eq!(
        state(&ledger_with(0, 3, false, 999), 2, 3),
        Err(refusal(21, 0, 0))
    );
    // At boundary 0 the row itself may not contradict the standing start.
    assert_eq!(
        state(&ledger_with(0, 3, false, 999), 0, 3),
        Err(refusal(21, 0, 0))
    );
    assert_eq!(state(&ledger_with(0, 3, false, 1001), 0, 3), Ok((1000, 1)));
    assert_eq!(state(&ledger_with(0, 3, true, 1000), 0, 3), Ok((0, 0)));
    assert_eq!(
        state(&ledger_with(0, 3, true, 1001), 0, 3),
        Err(refusal(21, 0, 0))
    );
}

#[test]
fn r21_other_links_and_rows_have_no_say() {
    let mut other = vec![0; NEED];
    for row in [1, 3] {
        other[6 * row + 4] = ROWS[row][4];
        other[6 * row + 5] = ROWS[row][5];
    }
    assert_eq!(state(&other, 3, 3), Ok((100, 2500)));
    other = vec![u32::MAX; NEED];
    assert_eq!(state(&other, 3, 3), Ok((0, 0)));
    assert_eq!(state(&other, 1, 3), Err(refusal(21, 0, 0)));
}

/// One link that takes 14 seconds, its boundaries at 10, 20 and 40: at 20 four
/// tenths of the first step's volume have not arrived, at 40 three tenths of
/// the last step's have.
fn state_inside_a_step(ledger: [u32; 8], boundary: u64) -> Result<(u64, u64), Refusal> {
    let network =
        b"N\t1\t0\t0\t3\t0\t0\nQ\t60000\t14\t0\t0\t0\t0\t0\nS\t10\t0\nS\t10\t0\nS\t20\t0\n";
    link_state(network, &ledger, boundary, 1)
        .map(|State { queued, in_transit }| (queued, in_transit))
}

#[test]
fn standing_is_rounded_down_and_the_rest_is_moving() {
    // 3 x 6 / 10 have arrived at 20 seconds.
    for (left, expected) in [(0, (1, 4)), (1, (0, 4))] {
        let ledger = [0, 0, 3, 0, 5, left, 5, left];
        assert_eq!(state_inside_a_step(ledger, 2), Ok(expected));
    }
    let ledger = [0, 0, 3, 0, 5, 2, 5, 2];
    assert_eq!(state_inside_a_step(ledger, 2), Err(refusal(21, 0, 0)));
    // 5 + 9 x 6 / 20 = 7.7 have arrived at 40 seconds: the last step's own.
    for (left, expected) in [
        (0, Ok((7, 7))),
        (7, Ok((0, 7))),
        (8, Err(refusal(21, 0, 0))),
    ] {
        let ledger = [0, 0, 3, 0, 5, 0, 14, left];
        assert_eq!(state_inside_a_step(ledger, 3), expected);
    }
    // A whole number where the parts make one.
    let ledger = [0, 0, 5, 0, 5, 3, 5, 3];
    assert_eq!(state_inside_a_step(ledger, 2), Ok((0, 2)));
}

#[test]
fn r21_compares_what_has_arrived_before_rounding() {
    // 0.6 have arrived and nothing has entered.
    let ledger = [0, 0, 1, 0, 0, 0, 0, 0];
    assert_eq!(state_inside_a_step(ledger, 2), Err(refusal(21, 0, 0)));
    let ledger = [0, 0, 1, 0, 1, 0, 0, 0];
    assert_eq!(state_inside_a_step(ledger, 2), Ok((0, 1)));
    // 1.8 have arrived.
    let ledger = [0, 0, 3, 0, 1, 0, 0, 0];
    assert_eq!(state_inside_a_step(ledger, 2), Err(refusal(21, 0, 0)));
    let ledger = [0, 0, 3, 0, 2, 1, 0, 0];
    assert_eq!(state_inside_a_step(ledger, 2), Ok((0, 1)));
}

#[test]
fn r21_entered_falls_over_the_step() {
    // Over step 1 from 3 to 2, though between them enough has entered.
    let ledger = [3, 0, 2, 0, 9, 0, 0, 0];
    assert_eq!(state_inside_a_step(ledger, 2), Err(refusal(21, 0, 0)));
    let ledger = [3, 0, 3, 0, 9, 0, 0, 0];
    assert_eq!(state_inside_a_step(ledger, 2), Ok((3, 6)));
    // Over another step it is no matter: at 40 seconds rows 2 and 3 are read.
    let ledger = [9, 0, 3, 0, 5, 0, 14, 0];
    assert_eq!(state_inside_a_step(ledger, 3), Ok((7, 7)));
    let ledger = [9, 0, 3, 0, 15, 0, 14, 0];
    assert_eq!(state_inside_a_step(ledger, 3), Err(refusal(21, 0, 0)));
    // On a boundary no step is looked at: link 3 at boundary 3 is read from
    // boundary 1.
    let mut falling = ledger_with(2, 3, false, 0);
    falling[4] = u32::MAX;
    assert_eq!(state(&falling, 3, 3), Ok((100, 2500)));
}

#[test]
fn parts_above_32_bits() {
    let most = u32::MAX;
    let ledger = [0, 0, most, 0, most, 0, 0, 0];
    let arrived = u64::from(most) * 6 / 10;
    let moving = u64::from(most) - arrived;
    assert_eq!(state_inside_a_step(ledger, 2), Ok((arrived, moving)));
    let ledger = [0, 0, most, 0, most, arrived as u32, 0, 0];
    assert_eq!(state_inside_a_step(ledger, 2), Ok((0, moving)));
    let ledger = [0, 0, most, 0, most, arrived as u32 + 1, 0, 0];
    assert_eq!(state_inside_a_step(ledger, 2), Err(refusal(21, 0, 0)));
    let ledger = [most - 1, 0, most, 0, most, most - 1, 0, 0];
    assert_eq!(state_inside_a_step(ledger, 2), Ok((0, 1)));
}
