//! What networks have.

use plancheck::{check_network, network_counts, Counts, Reason};

const AVENUE: &[u8] = include_bytes!("../../../examples/avenue/network.tsv");

#[test]
fn the_avenue() {
    let counts = network_counts(AVENUE).unwrap();
    let expected = Counts {
        links: 10,
        signals: 3,
        movements: 12,
        steps: 24,
        trams: 0,
        past: 0,
    };
    assert_eq!(counts, expected);
    assert_eq!(counts.required_ledger_len(), 500);
}

#[test]
fn trams_are_counted() {
    let network =
        b"N\t1\t1\t0\t1\t1\t0\nT\t1\t2\t1\t1\nG\t20\t60\t2\t2\t10\t20\t10\t30\t10\t30\nQ\t0\t10\t0\t0\t0\t0\t0\nS\t10\t0\n";
    assert_eq!(network_counts(network).unwrap().trams, 1);
}

#[test]
fn past_steps_are_counted() {
    let network = b"N\t1\t0\t0\t1\t0\t2\nQ\t60000\t10\t500\t0\t0\t0\t0\nH\t10\t0\t0\nH\t10\t0\t0\nS\t10\t0\n";
    let counts = network_counts(network).unwrap();
    assert_eq!((counts.steps, counts.past), (1, 2));
    assert_eq!(counts.required_ledger_len(), 4);
}

#[test]
fn what_the_check_refuses_is_not_counted() {
    for network in [
        &b""[..],
        b"N\t25\t0\t0\t1\t0\t0\n",
        &AVENUE[..100],
        &[AVENUE, b"\n"].concat(),
    ] {
        assert_eq!(
            network_counts(network).unwrap_err(),
            check_network(network).unwrap_err()
        );
    }
    assert_eq!(
        network_counts(b"N\t25\t0\t0\t1\t0\t0\n").unwrap_err().reason(),
        Some(Reason::NetworkCounts)
    );
}
