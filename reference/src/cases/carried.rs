//! What a simulated plan leaves at a boundary: the network from there on with
//! the rest of the plan, and the network up to it.

use super::{Scenario, Texts};
use crate::{Network, PastStep, PlanStep, Tram};

impl Scenario {
    /// The scenario from a boundary on.
    pub fn carried(&self, boundary: usize) -> Scenario {
        Scenario {
            network: self.carried_network(boundary),
            plan: self.plan[boundary..].to_vec(),
            shown: self.shown[boundary..].to_vec(),
            entered: self.entered[boundary..].to_vec(),
            left: self.left[boundary..].to_vec(),
            arrived: self.arrived[boundary..].to_vec(),
        }
    }

    /// The scenario up to a boundary.
    pub fn cut(&self, boundary: usize) -> Scenario {
        let mut network = self.network.clone();
        network.steps.truncate(boundary);
        network.trams.retain(|tram| tram.first <= boundary as u64);
        for tram in &mut network.trams {
            tram.last = tram.last.min(boundary as u64);
        }
        Scenario {
            network,
            plan: self.plan[..boundary].to_vec(),
            shown: self.shown[..=boundary].to_vec(),
            entered: self.entered[..=boundary].to_vec(),
            left: self.left[..=boundary].to_vec(),
            arrived: self.arrived[..=boundary].to_vec(),
        }
    }

    fn carried_network(&self, boundary: usize) -> Network {
        let mut network = self.network.clone();
        let steps = self.plan[..boundary].iter().zip(&self.network.steps);
        for (planned, step) in steps {
            network
                .past
                .push(past_step(&self.network, planned, step.length));
        }
        network.steps = self.network.steps[boundary..].to_vec();
        network.trams = self.trams_from(boundary);
        for (signal, shown) in network.signals.iter_mut().zip(&self.shown[boundary]) {
            signal.shown_phase = shown.phase;
            signal.shown_seconds = shown.run;
            signal.clock = shown.clock;
        }
        for (link, limits) in network.links.iter_mut().enumerate() {
            limits.waiting = self.outside(boundary, link);
        }
        network
    }

    /// The trams that have a step after the boundary, counted from there.
    fn trams_from(&self, boundary: usize) -> Vec<Tram> {
        let boundary = boundary as u64;
        let mut trams = Vec::new();
        for tram in &self.network.trams {
            let steps = (tram.first..=tram.last).filter(|&step| step > boundary);
            let steps: Vec<u64> = steps.map(|step| step - boundary).collect();
            if let (Some(&first), Some(&last)) = (steps.first(), steps.last()) {
                trams.push(Tram {
                    first,
                    last,
                    ..tram.clone()
                });
            }
        }
        trams
    }

    pub fn plan_text(&self) -> Vec<u8> {
        Texts::of(self).plan
    }

    /// The texts of the network as it is and of the first steps of the plan.
    pub fn texts_up_to(&self, boundary: usize) -> Texts {
        Texts::new(&self.network, &self.plan[..boundary])
    }
}

/// A planned step as one of the past.
fn past_step(network: &Network, planned: &PlanStep, length: u64) -> PastStep {
    let mut past = PastStep {
        length,
        entered: planned.admitted.clone(),
        left: planned.let_out.clone(),
    };
    for (movement, &volume) in network.movements.iter().zip(&planned.moved) {
        past.entered[movement.to as usize - 1] += volume;
        past.left[movement.from as usize - 1] += volume;
    }
    past
}
