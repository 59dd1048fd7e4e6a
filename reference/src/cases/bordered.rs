//! Networks that can be split, with plans that they accept, and their halves,
//! got by taking away what isn't theirs.

use super::random::Random;
use super::scenario::draw_shares;
use super::{draw_full_size, draw_small_size, draw_traffic, Scenario, Size};
use crate::{Movement, Network, PlanStep};

/// A set of links, bit i for the link of index i.
pub type Set = u64;

/// A network whose border movements are such as can be split, and its first
/// half.
pub fn bordered_scenario(random: &mut Random) -> (Scenario, Set) {
    let mut size = match random.chance(50) {
        true => draw_small_size(random),
        false => draw_full_size(random),
    };
    size.links = size.links.max(2);
    bordered_scenario_of(random, size)
}

/// One of this size, but for its movements: those over the border are drawn anew.
pub fn bordered_scenario_of(random: &mut Random, size: Size) -> (Scenario, Set) {
    let first_half = random.between(1, (1 << size.links) - 2);
    let traffic = draw_traffic(random);
    let scenario = Scenario::make_changed(random, size, traffic, |random, network| {
        put_border(random, network, first_half);
    });
    (scenario, first_half)
}

pub fn is_in(set: Set, link: usize) -> bool {
    set >> link & 1 == 1
}

fn is_border(movement: &Movement, first_half: Set) -> bool {
    is_in(first_half, movement.from as usize - 1) != is_in(first_half, movement.to as usize - 1)
}

/// The border movements, from index 0.
pub fn borders(network: &Network, first_half: Set) -> Vec<usize> {
    let movements = network.movements.iter().enumerate();
    movements
        .filter(|(_, movement)| is_border(movement, first_half))
        .map(|(index, _)| index)
        .collect()
}

fn put_border(random: &mut Random, network: &mut Network, first_half: Set) {
    for link in &mut network.links {
        link.waiting = 0;
    }
    part_signals(random, network, first_half);
    network
        .movements
        .retain(|movement| !is_border(movement, first_half));
    for _ in 0..random.pick(&[0, 1, 1, 2, 3]) {
        add_border_movement(random, network, first_half);
    }
    let pair = |movement: &Movement| (movement.from, movement.to);
    network.movements.sort_by_key(pair);
    share_anew(random, network);
}

/// Each signal is one of either half; links of the other half lose it.
fn part_signals(random: &mut Random, network: &mut Network, first_half: Set) {
    let sides: Vec<bool> = network.signals.iter().map(|_| random.chance(50)).collect();
    for (index, link) in network.links.iter_mut().enumerate() {
        if link.signal > 0 && sides[link.signal as usize - 1] != is_in(first_half, index) {
            link.signal = 0;
            link.phase_mask = 0;
        }
    }
}

/// From a link that keeps nothing else to go by, to one of the other half that
/// has none yet; none if such links are not drawn.
fn add_border_movement(random: &mut Random, network: &mut Network, first_half: Set) {
    let links = network.links.len();
    let (from, to) = (random.index(links), random.index(links));
    let mut borders = borders(network, first_half).into_iter();
    let is_taken = borders.any(|index| {
        let movement = &network.movements[index];
        movement.from == from as u64 + 1 || movement.to == to as u64 + 1
    });
    if is_in(first_half, from) == is_in(first_half, to) || is_taken {
        return;
    }
    network
        .movements
        .retain(|movement| movement.from != from as u64 + 1);
    network.movements.push(Movement {
        from: from as u64 + 1,
        to: to as u64 + 1,
        rate: random.pick(&[7, 300, 1000, 10_000]),
        share: 1000,
    });
    let link = &mut network.links[from];
    link.signal = 0;
    link.phase_mask = 0;
    link.exit_rate = 0;
    for step in &mut network.steps {
        step.demand[to] = 0;
    }
}

/// Shares that sum to 1000 again, for each link that has movements.
fn share_anew(random: &mut Random, network: &mut Network) {
    for from in 1..=network.links.len() as u64 {
        let own = network
            .movements
            .iter_mut()
            .filter(|movement| movement.from == from);
        let own: Vec<&mut Movement> = own.collect();
        let shares = draw_shares(random, own.len());
        for (movement, share) in own.into_iter().zip(shares) {
            movement.share = share;
        }
    }
}

/// Both halves of a network and its plan.
pub fn halves(
    network: &Network,
    plan: &[PlanStep],
    first_half: Set,
) -> [(Network, Vec<PlanStep>); 2] {
    let all = (1 << network.links.len()) - 1;
    [(first_half, true), (all - first_half, false)]
        .map(|(set, is_first)| half(network, plan, set, is_first))
}

fn half(
    network: &Network,
    plan: &[PlanStep],
    set: Set,
    is_first: bool,
) -> (Network, Vec<PlanStep>) {
    let mut half = Taking {
        network: network.clone(),
        plan: plan.to_vec(),
    };
    half.cross_border(set);
    let signals_gone = half.signals_elsewhere(set, is_first);
    for link in (0..network.links.len()).rev() {
        if !is_in(set, link) {
            half.take_link(link);
        }
    }
    for signal in signals_gone.into_iter().rev() {
        half.take_signal(signal);
    }
    (half.network, half.plan)
}

/// A network and a plan from which links and signals are taken one by one.
struct Taking {
    network: Network,
    plan: Vec<PlanStep>,
}

impl Taking {
    /// Border volumes become let-out, demand and admitted volumes.
    fn cross_border(&mut self, set: Set) {
        let most = u64::from(u32::MAX);
        for (index, movement) in self.network.movements.clone().into_iter().enumerate() {
            let (from, to) = (movement.from as usize - 1, movement.to as usize - 1);
            if is_in(set, from) && !is_in(set, to) {
                self.network.links[from].exit_rate = movement.rate;
                for step in &mut self.plan {
                    step.let_out[from] = most.min(step.let_out[from] + step.moved[index]);
                }
            }
            if is_in(set, to) && !is_in(set, from) {
                let steps = self.plan.iter_mut().zip(&mut self.network.steps);
                for (planned, step) in steps {
                    step.demand[to] = planned.moved[index];
                    planned.admitted[to] = most.min(planned.admitted[to] + planned.moved[index]);
                }
            }
        }
    }

    /// The signals, from index 0, that go to the other half: one without links
    /// goes to the first.
    fn signals_elsewhere(&self, set: Set, is_first: bool) -> Vec<usize> {
        let signals = 0..self.network.signals.len();
        let is_elsewhere = |&signal: &usize| {
            let links = self.network.links.iter().enumerate();
            let mut own = links.filter(|(_, link)| link.signal == signal as u64 + 1);
            match own.next() {
                Some((link, _)) => !is_in(set, link),
                None => !is_first,
            }
        };
        signals.filter(is_elsewhere).collect()
    }

    fn take_link(&mut self, link: usize) {
        let number = link as u64 + 1;
        self.network.links.remove(link);
        for step in &mut self.network.steps {
            step.demand.remove(link);
        }
        for step in &mut self.plan {
            step.admitted.remove(link);
            step.let_out.remove(link);
        }
        for movement in (0..self.network.movements.len()).rev() {
            let Movement { from, to, .. } = self.network.movements[movement];
            if from == number || to == number {
                self.network.movements.remove(movement);
                for step in &mut self.plan {
                    step.moved.remove(movement);
                }
            }
        }
        for movement in &mut self.network.movements {
            movement.from -= u64::from(movement.from > number);
            movement.to -= u64::from(movement.to > number);
        }
    }

    fn take_signal(&mut self, signal: usize) {
        let number = signal as u64 + 1;
        self.network.signals.remove(signal);
        self.network.trams.retain(|tram| tram.signal != number);
        for tram in &mut self.network.trams {
            tram.signal -= u64::from(tram.signal > number);
        }
        for link in &mut self.network.links {
            link.signal -= u64::from(link.signal > number);
        }
        for step in &mut self.plan {
            step.masks.remove(signal);
        }
    }
}
