//! A network and a plan split between two boxes, with the avenue of `examples/split`.
#![cfg(feature = "alloc")]

use plancheck::{
    check_plan, split, split_into, Half, Reason, Refusal, Totals, MAX_LEDGER_LEN, MAX_LINKS, MAX_MOVEMENTS,
    MAX_NETWORK_TEXT_LEN, MAX_PLAN_TEXT_LEN, MAX_SIGNALS, MAX_STEPS,
};

const NETWORK: &[u8] = include_bytes!("../../../examples/split/network.tsv");
const PLAN: &[u8] = include_bytes!("../../../examples/split/plan.tsv");
/// Links 1 to 3 and 9.
const FIRST_HALF: u32 = 0b1_0000_0111;
const HALVES: [Half<&[u8]>; 2] = [
    Half {
        network: include_bytes!("../../../examples/split/first/network.tsv"),
        plan: include_bytes!("../../../examples/split/first/plan.tsv"),
    },
    Half {
        network: include_bytes!("../../../examples/split/second/network.tsv"),
        plan: include_bytes!("../../../examples/split/second/plan.tsv"),
    },
];

fn lent(texts: &mut [Half<Vec<u8>>; 2]) -> [Half<&mut [u8]>; 2] {
    texts.each_mut().map(|half| Half {
        network: &mut half.network[..],
        plan: &mut half.plan[..],
    })
}

#[test]
fn the_avenue_in_two() {
    let halves = split(NETWORK, PLAN, FIRST_HALF).unwrap();
    let texts = halves.each_ref().map(|half| Half {
        network: &half.network[..],
        plan: &half.plan[..],
    });
    assert_eq!(texts, HALVES);
}

#[test]
fn the_totals_of_both_halves_add_up() {
    let totals =
        |network: &[u8], plan: &[u8]| -> Totals { check_plan(network, plan, &mut [0; MAX_LEDGER_LEN]).unwrap() };
    let whole = totals(NETWORK, PLAN);
    let [first, second] = HALVES.map(|half| totals(half.network, half.plan));
    assert_eq!(first.doubled_time + second.doubled_time, whole.doubled_time);
    assert_eq!(first.inside + second.inside, whole.inside);
    // movement 5 goes from link 3 to link 4: behind the letter, three masks, and what eleven links admit and let out
    let lines = std::str::from_utf8(PLAN).unwrap().lines();
    let volumes = lines.map(|line| {
        line.split('\t')
            .nth(1 + 3 + 2 * 11 + 4)
            .unwrap()
            .parse::<u64>()
            .unwrap()
    });
    let border: u64 = volumes.sum();
    assert!(border > 0);
    assert_eq!(first.admitted + second.admitted, whole.admitted + border);
    assert_eq!(first.let_out + second.let_out, whole.let_out + border);
}

#[test]
fn the_bytes_past_the_texts_are_kept() {
    let mut texts = HALVES.map(|half| Half {
        network: vec![7; half.network.len() + 3],
        plan: vec![7; half.plan.len()],
    });
    let lengths = split_into(NETWORK, PLAN, FIRST_HALF, lent(&mut texts)).unwrap();
    for ((text, length), expected) in texts.iter().zip(lengths).zip(HALVES) {
        assert_eq!(length.network, expected.network.len());
        assert_eq!(length.plan, expected.plan.len());
        assert_eq!(text.network, [expected.network, &[7; 3]].concat());
        assert_eq!(text.plan, expected.plan);
    }
}

#[test]
fn buffers_one_byte_short_are_left_as_they_were() {
    for short in 0..4 {
        let mut texts = HALVES.map(|half| Half {
            network: vec![7; half.network.len()],
            plan: vec![7; half.plan.len()],
        });
        let half = &mut texts[short / 2];
        let buffer = if short % 2 == 0 {
            &mut half.network
        } else {
            &mut half.plan
        };
        buffer.pop();
        let refusal = split_into(NETWORK, PLAN, FIRST_HALF, lent(&mut texts)).unwrap_err();
        assert_eq!(refusal.reason(), Some(Reason::SplitBufferTooShort));
        let bytes = texts.iter().flat_map(|half| half.network.iter().chain(&half.plan));
        assert!(bytes.into_iter().all(|&byte| byte == 7), "buffer {short}");
    }
    let none = [(); 2].map(|()| Half::default());
    let refusal = split_into(NETWORK, PLAN, FIRST_HALF, none).unwrap_err();
    assert_eq!((refusal.number, refusal.line, refusal.item), (42, 0, 0));
}

fn reason(network: &[u8], plan: &[u8], first_half: u32) -> Option<Reason> {
    let refusal: Refusal = split(network, plan, first_half).unwrap_err();
    assert_eq!(refusal.item, 0);
    refusal.reason()
}

#[test]
fn sets_and_borders_that_cannot_be() {
    // none, all, a twelfth link, and links whose movements to the other half leave a signal
    for set in [0, 0x7FF, FIRST_HALF | 1 << 11, u32::MAX, 0b1, 0b1_0000_0011] {
        assert_eq!(reason(NETWORK, b"x", set), Some(Reason::CannotSplit), "{set:b}");
    }
    // the other way round is as good
    assert_eq!(reason(NETWORK, b"x", 0x7FF - FIRST_HALF), Some(Reason::PlanForm));
}

#[test]
fn a_signal_of_both_halves() {
    // two links with one signal and no movements
    let network = "N\t2\t1\t0\t1\t0\t0\nG\t20\t60\t2\t1\t5\t5\t10\t30\t10\t30\nQ\t9\t10\t0\t1\t1\t0\t0\nQ\t9\t10\t0\t1\t2\t0\t0\nS\t10\t0\t0\n";
    assert_eq!(reason(network.as_bytes(), b"x", 0b01), Some(Reason::DividedSignal));
    let parted = network.replace("\t1\t2\t0\t0\nS", "\t0\t0\t0\t0\nS");
    assert_eq!(reason(parted.as_bytes(), b"x", 0b01), Some(Reason::PlanForm));
}

#[test]
fn the_network_and_the_plan_themselves() {
    assert_eq!(reason(b"N\n", PLAN, FIRST_HALF), Some(Reason::NetworkForm));
    let refusal = split(NETWORK, &PLAN[..PLAN.len() - 1], FIRST_HALF).unwrap_err();
    assert_eq!((refusal.reason(), refusal.line), (Some(Reason::PlanForm), 24));
}

/// The longest texts: as many lines as there may be, and every number of the plan as long as a field.
#[test]
fn every_half_has_room() {
    let mut network = format!("N\t{MAX_LINKS}\t{MAX_SIGNALS}\t{MAX_MOVEMENTS}\t{MAX_STEPS}\t0\t0\n");
    for _ in 0..MAX_SIGNALS {
        network += &("G\t8\t3600\t8\t1\t1000\t1000".to_string() + &"\t1000\t3600".repeat(8) + "\n");
    }
    network += &"Q\t2000000000\t3600\t10000\t0\t0\t2000000000\t0\n".repeat(MAX_LINKS);
    // all between links 1 to 23: link 24 is a half of its own
    let pairs = (1..).flat_map(|from| (1..24).filter(move |&to| to != from).map(move |to| (from, to)));
    let pairs: Vec<(usize, usize)> = pairs.take(MAX_MOVEMENTS).collect();
    for (index, &(from, to)) in pairs.iter().enumerate() {
        let others = pairs[..index].iter().filter(|pair| pair.0 == from).count();
        let is_last = !pairs.get(index + 1).is_some_and(|next| next.0 == from);
        let share = if is_last { 1000 - 40 * others } else { 40 };
        network += &format!("M\t{from}\t{to}\t10000\t{share}\n");
    }
    network += &("S\t60".to_string() + &"\t600000".repeat(MAX_LINKS) + "\n").repeat(MAX_STEPS);
    let fields = MAX_SIGNALS + 2 * MAX_LINKS + MAX_MOVEMENTS;
    let plan = ("P".to_string() + &"\t4294967295".repeat(fields) + "\n").repeat(MAX_STEPS);
    assert_eq!(plan.len(), MAX_PLAN_TEXT_LEN);

    let [first, second] = split(network.as_bytes(), plan.as_bytes(), (1 << 23) - 1).unwrap();
    assert!(first.network.len() < MAX_NETWORK_TEXT_LEN);
    // two fields of link 24 fewer in each line
    assert_eq!(first.plan.len(), MAX_PLAN_TEXT_LEN - 2 * 11 * MAX_STEPS);
    assert_eq!(second.plan.len(), (1 + 2 * 11 + 1) * MAX_STEPS);
}
