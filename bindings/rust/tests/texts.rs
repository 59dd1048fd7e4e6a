//! Networks and plans by types: written, read again, and held to the library's own reading.

use plancheck::{check_network, check_plan, network_counts, NetworkText, PlanText, Reason, MAX_LEDGER_LEN};

const CORRIDOR: [&str; 2] = [
    include_str!("../../../examples/corridor/network.tsv"),
    include_str!("../../../examples/corridor/plan.tsv"),
];
const FOLDERS: [[&str; 2]; 4] = [
    CORRIDOR,
    [
        include_str!("../../../examples/avenue/network.tsv"),
        include_str!("../../../examples/avenue/plan.tsv"),
    ],
    [
        include_str!("../../../examples/carry/network.tsv"),
        include_str!("../../../examples/carry/plan.tsv"),
    ],
    [
        include_str!("../../../examples/split/network.tsv"),
        include_str!("../../../examples/split/plan.tsv"),
    ],
];
/// With a tram, and one who waits outside.
const TRAM: &str =
    "N\t1\t1\t0\t1\t1\t0\nT\t1\t2\t1\t1\nG\t20\t60\t2\t2\t10\t20\t10\t30\t10\t30\nQ\t0\t10\t0\t0\t0\t0\t7\nS\t10\t0\n";

#[test]
fn networks_are_read_and_written_as_they_were() {
    for network in FOLDERS.iter().map(|[network, _]| *network).chain([TRAM]) {
        let read = NetworkText::read(network.as_bytes()).unwrap();
        assert_eq!(read.to_string(), network);
        assert_eq!(read.counts(), network_counts(network.as_bytes()).unwrap());
    }
}

#[test]
fn plans_are_read_and_written_as_they_were() {
    for [network, plan] in FOLDERS {
        let counts = network_counts(network.as_bytes()).unwrap();
        let read = PlanText::read(plan.as_bytes(), &counts).unwrap();
        assert_eq!(read.to_string(), plan);
        assert_eq!(read.steps.len(), counts.steps);
    }
}

#[test]
fn what_is_read_stands_in_its_field() {
    let network = NetworkText::read(TRAM.as_bytes()).unwrap();
    let (tram, signal, link) = (network.trams[0], &network.signals[0], network.links[0]);
    assert_eq!([tram.signal, tram.phase, tram.first, tram.last], [1, 2, 1, 1]);
    assert_eq!([signal.least_cycle, signal.greatest_cycle, signal.shown], [20, 60, 2]);
    assert_eq!([signal.shown_for, signal.cycle_clock], [10, 20]);
    assert!(signal
        .phases
        .iter()
        .all(|phase| [phase.least, phase.greatest] == [10, 30]));
    assert_eq!([link.capacity, link.travel_time, link.waiting], [0, 10, 7]);
    let [network, plan] = CORRIDOR;
    let corridor = NetworkText::read(network.as_bytes()).unwrap();
    let [first, second] = [corridor.links[0], corridor.links[1]];
    assert_eq!(
        [first.signal, first.mask, second.exit_rate, second.signal],
        [1, 1, 500, 0]
    );
    let movement = corridor.movements[0];
    assert_eq!(
        [movement.from, movement.to, movement.rate, movement.share],
        [1, 2, 500, 1000]
    );
    assert_eq!(corridor.steps[0].demands, [5000, 0]);
    let step = &PlanText::read(plan.as_bytes(), &corridor.counts()).unwrap().steps[2];
    assert_eq!(step.masks, [1]);
    assert_eq!(
        [&step.admitted[..], &step.let_out, &step.moved],
        [&[0, 0][..], &[0, 3000], &[2000]]
    );
}

#[test]
fn a_past_is_read_by_link() {
    let network = "N\t2\t0\t0\t1\t0\t1\nQ\t60000\t10\t0\t0\t0\t3000\t0\nQ\t60000\t10\t0\t0\t0\t0\t0\nH\t10\t5000\t3000\t1\t0\nS\t10\t0\t0\n";
    let read = NetworkText::read(network.as_bytes()).unwrap();
    let past = &read.past[0];
    assert_eq!(past.length, 10);
    let volumes: Vec<[u32; 2]> = past.volumes.iter().map(|of| [of.entered, of.left]).collect();
    assert_eq!(volumes, [[5000, 3000], [1, 0]]);
    assert_eq!(read.to_string(), network);
}

#[test]
fn an_empty_plan_is_hold() {
    let network = NetworkText::read(TRAM.as_bytes()).unwrap();
    let empty = PlanText::read(b"", &network.counts()).unwrap();
    assert_eq!((empty.steps.len(), empty.to_string()), (0, String::new()));
    let mut ledger = vec![0; MAX_LEDGER_LEN];
    let held = PlanText::hold(&network).to_string();
    assert_eq!(held, "P\t2\t0\t0\n");
    assert_eq!(
        check_plan(TRAM.as_bytes(), held.as_bytes(), &mut ledger),
        check_plan(TRAM.as_bytes(), b"", &mut ledger)
    );
}

#[test]
fn a_network_that_is_refused_is_not_read() {
    let refused = CORRIDOR[0].replace("60000", "6x");
    assert_eq!(
        NetworkText::read(refused.as_bytes()).unwrap_err(),
        check_network(refused.as_bytes()).unwrap_err()
    );
}

/// Each byte of the corridor's plan changed, left out or put in, and each beginning of it: a plan that is read is one whose lines
/// all have their form, and one that is not is refused by the library at that line with 9, or at an earlier one.
#[test]
fn the_form_is_what_the_library_takes() {
    let [network, plan] = CORRIDOR.map(str::as_bytes);
    let counts = network_counts(network).unwrap();
    let mut ledger = vec![0; MAX_LEDGER_LEN];
    let mut tried = 0;
    let mut hold_to_library = |damaged: &[u8]| {
        tried += 1;
        let answer = check_plan(network, damaged, &mut ledger);
        let form = answer
            .err()
            .filter(|refusal| refusal.reason() == Some(Reason::PlanForm));
        match (PlanText::read(damaged, &counts), answer) {
            (Ok(read), answer) => {
                assert_eq!(form, None, "{damaged:?}");
                let written = read.to_string();
                assert_eq!(check_plan(network, written.as_bytes(), &mut ledger), answer);
            }
            (Err(refusal), Err(library)) => {
                assert!(Some(refusal) == form || library.line < refusal.line, "{damaged:?}");
            }
            (Err(_), Ok(_)) => panic!("{damaged:?} is accepted"),
        }
    };
    for place in 0..=plan.len() {
        hold_to_library(&plan[..place]);
        for byte in [b'\t', b'\n', b'\r', b' ', b'0', b'9', b'P', b'-', 0] {
            hold_to_library(&[&plan[..place], &[byte], &plan[place..]].concat());
            if place < plan.len() {
                hold_to_library(&[&plan[..place], &[byte], &plan[place + 1..]].concat());
                hold_to_library(&[&plan[..place], &plan[place + 1..]].concat());
            }
        }
    }
    hold_to_library(b"P\t00000000001\t5000\t0\t0\t0\t0\n");
    hold_to_library(b"P\t0000000001\t4294967296\t0\t0\t0\t0\n");
    hold_to_library(&[plan, plan].concat());
    assert!(tried > 1000);
}
