//! Cases at the greatest values, worked out by hand: one link that gets volume
//! from all others and gives volume to all others.

use super::{refused, Answer, Maker, Texts};
use crate::{Link, Movement, Network, PastStep, PlanStep, Step, Totals};

const LINKS: usize = 24;
const CAPACITY: u64 = 2_000_000_000;
/// Of all links in one step.
const DEMAND: u64 = 600_000 * LINKS as u64;

/// The first link is full, the others are half full; movements go from the
/// first link to the others with these shares, and from each of the others
/// back to the first link if asked for.
fn hub(shares: [u64; LINKS - 1], back: bool, steps: usize) -> Network {
    let link = |standing: u64| Link {
        capacity: CAPACITY,
        travel_time: 60,
        exit_rate: 10_000,
        signal: 0,
        phase_mask: 0,
        standing,
        waiting: 0,
    };
    let mut links = vec![link(CAPACITY / 2); LINKS];
    links[0] = link(CAPACITY);
    let mut movements = Vec::new();
    for (index, share) in shares.into_iter().enumerate() {
        movements.push(Movement {
            from: 1,
            to: index as u64 + 2,
            rate: 10_000,
            share,
        });
    }
    if back {
        for from in 2..=LINKS as u64 {
            movements.push(Movement {
                from,
                to: 1,
                rate: 10_000,
                share: 1000,
            });
        }
    }
    Network {
        trams: Vec::new(),
        signals: Vec::new(),
        links,
        movements,
        past: Vec::new(),
        steps: vec![
            Step {
                length: 60,
                demand: vec![600_000; LINKS],
            };
            steps
        ],
    }
}

/// A share times a sum above 32 bits: 340 x 23 x 600,000 is more than 2^32, so
/// the first movement keeps its share and the second breaks its own.
pub fn share_times_sum(maker: &mut Maker) {
    let mut shares = [30; LINKS - 1];
    shares[0] = 1000 - 22 * 30;
    let network = hub(shares, false, 1);
    let mut step = PlanStep {
        masks: Vec::new(),
        admitted: vec![0; LINKS],
        let_out: vec![0; LINKS],
        moved: vec![600_000; LINKS - 1],
    };
    let need = 2 * 2 * LINKS;
    let texts = Texts::new(&network, std::slice::from_ref(&step));
    let intended = Some(Answer::Refused(refused(16, 1, 2)));
    maker.ask_plan("16: share times sum above 32 bits", texts, need, intended);
    // All at their shares, the first just below its rate.
    let sum = 1_764_700;
    step.moved = shares.iter().map(|share| share * sum / 1000).collect();
    let texts = Texts::new(&network, &[step]);
    let inside = CAPACITY + 23 * CAPACITY / 2;
    let intended = Some(Answer::PlanAccepted(Totals {
        admitted: 0,
        let_out: 0,
        inside,
        doubled_time: 60 * (2 * inside + DEMAND),
    }));
    maker.ask_plan(
        "movements at their shares and a rate",
        texts,
        need,
        intended,
    );
}

/// As much as can be through one link for as long as can be: its cumulative
/// entries come to 3.69 thousand million.
pub fn highest_curves(maker: &mut Maker) {
    const STEPS: u64 = 120;
    let mut shares = [43; LINKS - 1];
    for share in &mut shares[..11] {
        *share = 44;
    }
    let network = hub(shares, true, STEPS as usize);
    // 44 thousandths of it are just below what the rate allows.
    let from_hub = 13_636_000;
    let into_hub = 593_000;
    let admitted = from_hub + 600_000 - 23 * into_hub;
    let mut moved: Vec<u64> = shares.iter().map(|share| share * from_hub / 1000).collect();
    moved.extend([0; LINKS - 1]);
    let mut first = PlanStep {
        masks: Vec::new(),
        admitted: vec![0; LINKS],
        let_out: vec![0; LINKS],
        moved,
    };
    first.let_out[0] = 600_000;
    let mut later = first.clone();
    later.admitted[0] = admitted;
    later.moved[LINKS - 1..].fill(into_hub);
    let mut plan = vec![first];
    plan.extend(vec![later; STEPS as usize - 1]);

    let inside = |boundary: u64| {
        let start = CAPACITY + 23 * CAPACITY / 2;
        start + admitted * boundary.saturating_sub(1) - 600_000 * boundary
    };
    let counted = |boundary: u64| {
        let outside = DEMAND * boundary - admitted * boundary.saturating_sub(1);
        inside(boundary) + outside
    };
    let totals = Totals {
        admitted: admitted * (STEPS - 1),
        let_out: 600_000 * STEPS,
        inside: inside(STEPS),
        doubled_time: (1..=STEPS)
            .map(|boundary| 60 * (counted(boundary - 1) + counted(boundary)))
            .sum(),
    };
    let need = 2 * (STEPS as usize + 1) * LINKS;
    let intended = Some(Answer::PlanAccepted(totals));
    let texts = Texts::new(&network, &plan);
    maker.ask_plan("highest curves", texts, need, intended);
    // The link is full all the time: one more does not fit in the last step.
    plan[STEPS as usize - 1].admitted[0] += 1;
    let intended = Some(Answer::Refused(refused(18, STEPS as usize, 1)));
    let texts = Texts::new(&network, &plan);
    maker.ask_plan("18: one more at the highest curves", texts, need, intended);
}

/// All demand of 120 steps is admitted in the last one, in which as much as can
/// be is moved into the same link too, and leaves it within the step: the
/// volume that enters times the seconds of the step are above 32 bits.
pub fn all_demand_at_once(maker: &mut Maker) {
    const STEPS: u64 = 120;
    let mut shares = [43; LINKS - 1];
    for share in &mut shares[..11] {
        *share = 44;
    }
    let mut network = hub(shares, true, STEPS as usize);
    network.links[0].standing = 0;
    network.links[0].travel_time = 1;
    let from_hub = 13_636_000;
    let mut plan = vec![PlanStep::of_zeros(&network); STEPS as usize];
    let last = &mut plan[STEPS as usize - 1];
    last.admitted[0] = 600_000 * STEPS;
    last.let_out[0] = 600_000;
    for (moved, share) in last.moved.iter_mut().zip(shares) {
        *moved = share * from_hub / 1000;
    }
    last.moved[LINKS - 1..].fill(600_000);

    let start = 23 * CAPACITY / 2;
    let counted = |boundary: u64| start + DEMAND * boundary;
    let steps = (1..=STEPS).map(|boundary| 60 * (counted(boundary - 1) + counted(boundary)));
    let totals = Totals {
        admitted: 600_000 * STEPS,
        let_out: 600_000,
        inside: start + 600_000 * STEPS - 600_000,
        doubled_time: steps.sum::<u64>() - 60 * 600_000,
    };
    let need = 2 * (STEPS as usize + 1) * LINKS;
    let intended = Some(Answer::PlanAccepted(totals));
    let texts = Texts::new(&network, &plan);
    maker.ask_plan("all demand at once", texts, need, intended);
    plan[STEPS as usize - 1].admitted[0] += 1;
    let intended = Some(Answer::Refused(refused(15, STEPS as usize, 1)));
    let texts = Texts::new(&network, &plan);
    maker.ask_plan("15: one more than all demand", texts, need, intended);
}

/// The highest number that a ledger can hold: 119 past steps, all that refusal
/// 30 lets enter waits, and in the one step all of it is admitted and as much as
/// can be is moved into the same link.
pub fn highest_row(maker: &mut Maker) {
    const PAST: u64 = 119;
    const MOST: u64 = 72_000_000 + PAST * 13_800_000;
    const MOVED: u64 = 600_000 * 23;
    let mut network = hub([0; LINKS - 1], true, 1);
    network.movements.drain(..LINKS - 1);
    network.steps[0].demand[0] = 0;
    network.links[0].waiting = MOST - 5;
    let quiet = PastStep {
        length: 60,
        entered: vec![0; LINKS],
        left: vec![0; LINKS],
    };
    network.past = vec![quiet; PAST as usize];
    network.past[0].entered[0] = 5;
    network.past[0].left[0] = MOST + MOVED;
    let step = PlanStep {
        masks: Vec::new(),
        admitted: [&[MOST - 5], vec![0; LINKS - 1].as_slice()].concat(),
        let_out: vec![0; LINKS],
        moved: vec![600_000; LINKS - 1],
    };

    let start = CAPACITY - MOST - MOVED + 5 + 23 * CAPACITY / 2;
    let counted = start + MOST - 5;
    let totals = Totals {
        admitted: MOST - 5,
        let_out: 0,
        inside: counted,
        doubled_time: 60 * (2 * counted + DEMAND - 600_000),
    };
    let need = 2 * 2 * LINKS;
    let mut ask = |name: &str, network: &Network, step: &PlanStep, intended: Answer| {
        let texts = Texts::new(network, std::slice::from_ref(step));
        maker.ask_plan(name, texts, need, Some(intended));
    };
    ask("highest row", &network, &step, Answer::PlanAccepted(totals));
    let mut more = step.clone();
    more.admitted[0] += 1;
    let told = Answer::Refused(refused(15, 1, 1));
    ask("15: one more than waits", &network, &more, told);
    let mut fewer = network.clone();
    fewer.past[1].left[0] = 1;
    fewer.past[0].left[0] -= 2;
    let told = Answer::Refused(refused(18, 1, 1));
    ask("18: one more at the highest row", &fewer, &step, told);
    let mut more = network;
    more.links[0].waiting += 1;
    let told = Answer::Refused(refused(30, 0, 0));
    ask("30: one more at the highest row", &more, &step, told);
}
