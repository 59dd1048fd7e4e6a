//! Plans from the solver's listing, refusals 22 to 24 and those before them.

use crate::fixture::*;
use plancheck_reference::{plan_from_listing, Refusal};

/// The junction's plan as the solver lists it: rates in vehicles per second
/// over steps of ten seconds, lines in no order.
const LISTING: &str = "m_2_1 0.3\n\
    p_1_1_1 1\n\
    p_2_1_1 1.000\n\
    i_1_1 0.5\n\
    o_3_3 0.3\n\
    i_3_1 0.01\n\
    p_2_2_2 0001\n\
    o_3_1 0000000000.1\n\
    m_1_1 0.100000\n\
    p_1_1_2 1\n\
    p_1_2_2 0\n\
    o_2_2 0.04\n\
    m_1_2 0.05\n\
    m_2_2 0.15\n\
    p_1_2_3 1\n\
    p_2_3_3 1\n\
    i_2_3 0.02\n\
    o_2_3 0.01\n\
    m_3_3 00.1\n\
    p_1_2_4 1\n\
    p_2_1_4 1\n\
    o_3_4 0.16\n\
    m_3_4 0.02\n\
    m_1_4 0.0\n";

/// The buffer after the call, whose untouched bytes are dots.
fn written(network: &[u8], listing: &[u8], room: usize) -> (Result<usize, Refusal>, Vec<u8>) {
    let mut buffer = vec![b'.'; room];
    let answer = plan_from_listing(network, listing, &mut buffer);
    (answer, buffer)
}

fn assert_written(listing: &str, plan: &[u8]) {
    for more in [0, 1, 40] {
        let room = plan.len() + more;
        let (answer, buffer) = written(&network().text(), listing.as_bytes(), room);
        assert_eq!(answer, Ok(plan.len()), "{listing}");
        assert_eq!(buffer[..plan.len()], *plan, "{listing}");
        assert!(buffer[plan.len()..].iter().all(|&byte| byte == b'.'));
    }
    for room in [plan.len() - 1, 1, 0] {
        let (answer, buffer) = written(&network().text(), listing.as_bytes(), room);
        assert_eq!(answer, Err(refusal(24, 0, 0)));
        assert!(buffer.iter().all(|&byte| byte == b'.'));
    }
}

fn assert_refused(listing: &[u8], number: u64, line: u64) {
    for room in [0, 1000] {
        let (answer, buffer) = written(&network().text(), listing, room);
        let text = String::from_utf8_lossy(listing);
        assert_eq!(answer, Err(refusal(number, line, 0)), "{text}");
        assert!(buffer.iter().all(|&byte| byte == b'.'), "{text}");
    }
}

/// A plan of zeros.
fn zeros() -> Sheet {
    let lines = ["P 0 0 0 0 0 0 0 0 0 0 0"; 4];
    Sheet::new(&lines.join("\n"))
}

#[test]
fn the_junctions_plan() {
    assert_written(LISTING, &plan().text());
    // In any order.
    let mut lines: Vec<&str> = LISTING.lines().collect();
    lines.sort();
    assert_written(&(lines.join("\n") + "\n"), &plan().text());
    lines.reverse();
    assert_written(&(lines.join("\n") + "\n"), &plan().text());
}

#[test]
fn an_absent_variable_is_0() {
    assert_written("", &zeros().text());
    assert_written("m_3_4 0.02\n", &zeros().set(4, 12, 200).text());
    assert_written("o_1_2 0\n", &zeros().text());
}

#[test]
fn phases_in_a_mask() {
    let listing = "p_2_3_2 1\np_2_1_2 1\np_2_2_2 0\n";
    assert_written(listing, &zeros().set(2, 3, 5).text());
    for value in ["1", "1.0", "1.000000", "0000000001", "01.0"] {
        let listing = format!("p_1_2_1 {value}\n");
        assert_written(&listing, &zeros().set(1, 2, 2).text());
    }
    for value in ["0", "0.0", "0.000000", "0000000000"] {
        assert_written(&format!("p_1_2_1 {value}\n"), &zeros().text());
    }
    for value in [
        "2",
        "10",
        "0.5",
        "1.5",
        "1.000001",
        "0.000001",
        "9999999999",
    ] {
        assert_refused(format!("p_1_2_1 {value}\n").as_bytes(), 22, 1);
    }
}

#[test]
fn r22_every_cut_of_the_listing() {
    let listing = LISTING.as_bytes();
    for length in 0..listing.len() {
        let cut = &listing[..length];
        let line_feeds = cut.iter().filter(|&&byte| byte == b'\n').count();
        if length == 0 || cut.ends_with(b"\n") {
            let (answer, _) = written(&network().text(), cut, 1000);
            assert!(answer.is_ok());
        } else {
            assert_refused(cut, 22, line_feeds as u64 + 1);
        }
    }
}

#[test]
fn r22_every_byte_missing_or_changed_to_one_of_another_kind() {
    let listing = LISTING.as_bytes();
    for place in 0..listing.len() {
        let line = listing[..place]
            .iter()
            .filter(|&&byte| byte == b'\n')
            .count() as u64
            + 1;
        for byte in [b'\t', b'-', b'x', b'\r', 0, 255] {
            let mut changed = listing.to_vec();
            changed[place] = byte;
            assert_refused(&changed, 22, line);
        }
        if b"\n _iomp".contains(&listing[place]) {
            let mut changed = listing.to_vec();
            changed.remove(place);
            assert_refused(&changed, 22, line);
        }
    }
}

#[test]
fn r22_malformed() {
    for line in [
        "",
        " ",
        "i_1_1",
        "i_1_1 ",
        " i_1_1 1",
        "i_1_1  1",
        "i_1_1\t1",
        "i_1_1 1 ",
        "i_1_1 1\r",
        "I_1_1 1",
        "q_1_1 1",
        "i_1 1",
        "i_1_1_1 1",
        "i__1 1",
        "i_1_ 1",
        "_1_1 1",
        "i_01_1 1",
        "i_1_01 1",
        "p_1_1 1",
        "p_1_1_1_1 1",
        "p_1_01_1 1",
        "i_1_1 1.",
        "i_1_1 .5",
        "i_1_1 .",
        "i_1_1 +1",
        "i_1_1 -1",
        "i_1_1 1e0",
        "i_1_1 12345678901",
        "i_1_1 00000000000",
        "i_1_1 0.0000000",
    ] {
        assert_refused(format!("{line}\n").as_bytes(), 22, 1);
        assert_refused(format!("o_1_1 0\n{line}\no_1_1 0\n").as_bytes(), 22, 2);
    }
    // Ten digits and six places are allowed.
    assert_written("i_1_1 0000000000.000000\n", &zeros().text());
}

#[test]
fn r22_what_the_network_has_not() {
    for (good, bad) in [
        (
            &["i_1_1", "i_3_4", "o_1_1", "o_3_4"][..],
            &["i_0_1", "i_4_1", "i_1_0", "i_1_5"][..],
        ),
        (&["m_1_1", "m_3_4"], &["m_0_1", "m_4_1", "m_1_0", "m_1_5"]),
        (
            &["p_1_1_1", "p_1_2_4", "p_2_3_4"],
            &[
                "p_0_1_1", "p_3_1_1", "p_1_0_1", "p_1_3_1", "p_2_4_1", "p_1_1_5", "p_1_1_0",
            ],
        ),
        (
            &[],
            &[
                "i_4294967297_1",
                "i_1_18446744073709551617",
                "p_1_257_1",
                "m_65537_1",
            ],
        ),
    ] {
        for name in good {
            assert_written(&format!("{name} 0\n"), &zeros().text());
        }
        for name in bad {
            assert_refused(format!("{name} 0\n").as_bytes(), 22, 1);
        }
    }
}

#[test]
fn r22_repeated() {
    for second in ["i_1_1 0.5", "i_1_1 0", "i_1_1 0.000001", "i_1_1 9999999999"] {
        for first in ["i_1_1 0.5", "i_1_1 0"] {
            assert_refused(format!("{first}\n{second}\n").as_bytes(), 22, 2);
            assert_refused(format!("{first}\no_1_1 0\n{second}\n").as_bytes(), 22, 3);
        }
    }
    assert_refused(b"p_1_1_1 0\np_1_1_1 1\n", 22, 2);
    // Another link, step or letter is another variable.
    assert_written(
        "i_1_1 0\ni_2_1 0\ni_1_2 0\no_1_1 0\nm_1_1 0\n",
        &zeros().text(),
    );
}

#[test]
fn r23_volumes() {
    // Steps of ten seconds: a hundredth of a thousandth a second is whole.
    assert_written("i_1_1 0.0001\n", &zeros().set(1, 4, 1).text());
    for rate in ["0.00001", "0.000001", "0.00011", "0.00009"] {
        assert_refused(format!("i_1_1 {rate}\n").as_bytes(), 23, 1);
    }
    let most = zeros().set(1, 4, 4_294_967_295_u64);
    assert_written("i_1_1 429496.7295\n", &most.text());
    for rate in ["429496.7296", "4294967", "9999999999", "9999999999.999999"] {
        assert_refused(format!("i_1_1 {rate}\n").as_bytes(), 23, 1);
    }
    // The length is that of the variable's own step.
    let network = network()
        .set(12, 2, 3)
        .set(4, 3, 3600)
        .set(5, 3, 3600)
        .set(6, 3, 3600);
    let (answer, _) = written(&network.clone().text(), b"i_1_3 0.001\n", 1000);
    assert!(answer.is_ok());
    let (answer, _) = written(&network.text(), b"i_1_3 0.0001\n", 1000);
    assert_eq!(answer, Err(refusal(23, 1, 0)));
}

#[test]
fn r22_and_r23_line_by_line() {
    assert_refused(b"i_1_1 0.000001\ni_1_1\n", 23, 1);
    assert_refused(b"i_1_1\ni_1_1 0.000001\n", 22, 1);
    assert_refused(b"i_9_1 0.000001\n", 22, 1);
    assert_refused(b"i_1_1 0.000001", 22, 1);
}

#[test]
fn a_padded_network_gives_the_same_plan_without_leading_zeros() {
    let plan = plan().text();
    let (answer, buffer) = written(&network().pad().text(), LISTING.as_bytes(), plan.len());
    assert_eq!(answer, Ok(plan.len()));
    assert_eq!(buffer, plan);
}

#[test]
fn the_networks_own_come_first() {
    let broken = network().set(4, 3, 0).text();
    for listing in [&b""[..], b"\n", b"i_1_1 0.000001\n"] {
        let (answer, buffer) = written(&broken, listing, 10);
        assert_eq!(answer, Err(refusal(4, 4, 1)));
        assert_eq!(buffer, [b'.'; 10]);
    }
}
