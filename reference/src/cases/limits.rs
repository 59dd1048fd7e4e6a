//! Limits of the network drawn to what the plan just keeps, and by one
//! further.

use super::{refused, Answer, Maker, Scenario, Texts};
use crate::{Network, Refusal};

impl Maker {
    /// The plan still passes.
    fn kept(&mut self, scenario: &Scenario, name: &str, change: impl FnOnce(&mut Network)) {
        let mut changed = scenario.clone();
        change(&mut changed.network);
        let intended = Some(Answer::PlanAccepted(changed.totals()));
        self.ask_plan(name, Texts::of(&changed), scenario.ledger_need(), intended);
    }

    fn broken(
        &mut self,
        scenario: &Scenario,
        name: &str,
        refusal: Refusal,
        change: impl FnOnce(&mut Network),
    ) {
        let mut network = scenario.network.clone();
        change(&mut network);
        let texts = Texts::new(&network, &scenario.plan);
        let intended = Some(Answer::Refused(refusal));
        self.ask_plan(name, texts, scenario.ledger_need(), intended);
    }
}

pub fn exact_limits(maker: &mut Maker, scenario: &Scenario) {
    let all_at_once = maker.random.chance(30);
    if all_at_once {
        let tight = tightened(scenario);
        maker.kept(scenario, "all limits just kept", |network| *network = tight);
    }
    if !scenario.network.signals.is_empty() {
        let signal = maker.random.index(scenario.network.signals.len());
        least_time(maker, scenario, signal);
        greatest_time(maker, scenario, signal);
        least_cycle(maker, scenario, signal);
        greatest_cycle(maker, scenario, signal);
    }
    let link = maker.random.index(scenario.network.links.len());
    capacity(maker, scenario, link);
    exit_rate(maker, scenario, link);
    demand(maker, scenario, link);
    waiting(maker, scenario, link);
    travel_time(maker, scenario, link);
    if !scenario.network.movements.is_empty() {
        let movement = maker.random.index(scenario.network.movements.len());
        rate(maker, scenario, movement);
    }
}

/// The steps (from index 0) in which a signal leaves a phase (from 1), with
/// the seconds that it has shown.
fn left_runs(scenario: &Scenario, signal: usize, phase: u64) -> Vec<(usize, u64)> {
    let before_and_after = scenario.shown.windows(2).enumerate();
    before_and_after
        .filter(|(_, pair)| pair[0][signal].phase == phase && pair[1][signal].phase != phase)
        .map(|(step, pair)| (step, pair[0][signal].run))
        .collect()
}

/// Steps and seconds after them in which a signal shows a phase.
fn runs(scenario: &Scenario, signal: usize, phase: u64) -> Vec<(usize, u64)> {
    let after = scenario.shown[1..].iter().enumerate();
    after
        .filter(|(_, shown)| shown[signal].phase == phase)
        .map(|(step, shown)| (step, shown[signal].run))
        .collect()
}

/// Steps in which phase 1 begins, with the clock before.
fn restarts(scenario: &Scenario, signal: usize) -> Vec<(usize, u64)> {
    let before_and_after = scenario.shown.windows(2).enumerate();
    before_and_after
        .filter(|(_, pair)| pair[0][signal].phase != 1 && pair[1][signal].phase == 1)
        .map(|(step, pair)| (step, pair[0][signal].clock))
        .collect()
}

fn clocks(scenario: &Scenario, signal: usize) -> Vec<(usize, u64)> {
    let after = scenario.shown[1..].iter().enumerate();
    after
        .map(|(step, shown)| (step, shown[signal].clock))
        .collect()
}

fn least(values: &[(usize, u64)]) -> Option<u64> {
    values.iter().map(|value| value.1).min()
}

fn greatest(values: &[(usize, u64)]) -> Option<u64> {
    values.iter().map(|value| value.1).max()
}

/// The first step with this value, counted from 1.
fn first_step(values: &[(usize, u64)], value: u64) -> usize {
    let place = values.iter().find(|candidate| candidate.1 == value);
    place.expect("the value is there").0 + 1
}

/// Rule 12.
fn least_time(maker: &mut Maker, scenario: &Scenario, signal: usize) {
    let phase = maker
        .random
        .index(scenario.network.signals[signal].phases.len());
    let values = left_runs(scenario, signal, phase as u64 + 1);
    let Some(shortest) = least(&values) else {
        return;
    };
    let with_least = |least: u64| {
        move |network: &mut Network| {
            let phase = &mut network.signals[signal].phases[phase];
            phase.least = least;
            phase.greatest = phase.greatest.max(least);
        }
    };
    maker.kept(scenario, "least time just kept", with_least(shortest));
    if shortest < 3600 {
        let refusal = refused(12, first_step(&values, shortest), signal + 1);
        let name = "12: least time one above";
        maker.broken(scenario, name, refusal, with_least(shortest + 1));
    }
}

/// Rule 13.
fn greatest_time(maker: &mut Maker, scenario: &Scenario, signal: usize) {
    let limits = &scenario.network.signals[signal];
    let phase = maker.random.index(limits.phases.len());
    let values = runs(scenario, signal, phase as u64 + 1);
    let Some(longest) = greatest(&values) else {
        return;
    };
    // The network itself must still pass.
    let mut lowest = scenario.longest_step();
    if limits.shown_phase == phase as u64 + 1 {
        lowest = lowest.max(limits.shown_seconds);
    }
    let with_greatest = |greatest: u64| {
        move |network: &mut Network| {
            let phase = &mut network.signals[signal].phases[phase];
            phase.greatest = greatest;
            phase.least = phase.least.min(greatest);
        }
    };
    let name = "greatest time just kept";
    maker.kept(scenario, name, with_greatest(longest.max(lowest)));
    if longest > lowest {
        // The first run that is longer than allowed, at its first such step.
        let above = values.iter().find(|value| value.1 >= longest);
        let step = above.expect("the longest is there").0 + 1;
        let refusal = refused(13, step, signal + 1);
        let name = "13: greatest time one below";
        maker.broken(scenario, name, refusal, with_greatest(longest - 1));
    }
}

/// Rule 14, first half.
fn least_cycle(maker: &mut Maker, scenario: &Scenario, signal: usize) {
    let values = restarts(scenario, signal);
    let Some(shortest) = least(&values) else {
        return;
    };
    let with_least = |least: u64| {
        move |network: &mut Network| {
            let signal = &mut network.signals[signal];
            signal.least_cycle = least;
            signal.greatest_cycle = signal.greatest_cycle.max(least);
        }
    };
    maker.kept(scenario, "least cycle just kept", with_least(shortest));
    if shortest < 3600 {
        let refusal = refused(14, first_step(&values, shortest), signal + 1);
        let name = "14: least cycle one above";
        maker.broken(scenario, name, refusal, with_least(shortest + 1));
    }
}

/// Rule 14, second half.
fn greatest_cycle(maker: &mut Maker, scenario: &Scenario, signal: usize) {
    let values = clocks(scenario, signal);
    let longest = greatest(&values).expect("there is a step");
    let lowest = scenario.network.signals[signal].clock.max(1);
    let with_greatest = |greatest: u64| {
        move |network: &mut Network| {
            let signal = &mut network.signals[signal];
            signal.greatest_cycle = greatest;
            signal.least_cycle = signal.least_cycle.min(greatest);
        }
    };
    let name = "greatest cycle just kept";
    maker.kept(scenario, name, with_greatest(longest.max(lowest)));
    if longest > lowest {
        let refusal = refused(14, first_step(&values, longest), signal + 1);
        let name = "14: greatest cycle one below";
        maker.broken(scenario, name, refusal, with_greatest(longest - 1));
    }
}

/// Steps with what a link must hold in them, space freed in a step counting
/// from the next.
fn room_needed(scenario: &Scenario, link: usize) -> Vec<(usize, u64)> {
    (0..scenario.step_count())
        .map(|step| {
            let needed = scenario.entered[step + 1][link] - scenario.left[step][link];
            (step, needed)
        })
        .collect()
}

/// Rule 18.
fn capacity(maker: &mut Maker, scenario: &Scenario, link: usize) {
    // The network itself must still pass.
    let standing = scenario.network.links[link].standing;
    let lowest = standing.max(scenario.held_at_start(link));
    let values = room_needed(scenario, link);
    let needed = greatest(&values).expect("there is a step");
    let name = "capacity just kept";
    maker.kept(scenario, name, |network| {
        network.links[link].capacity = needed.max(lowest);
    });
    if needed > lowest {
        let refusal = refused(18, first_step(&values, needed), link + 1);
        maker.broken(scenario, "18: capacity one below", refusal, |network| {
            network.links[link].capacity = needed - 1;
        });
    }
}

/// Steps with the rate that a volume needs in them.
fn rates_needed(scenario: &Scenario, volume: impl Fn(usize) -> u64) -> Vec<(usize, u64)> {
    (0..scenario.step_count())
        .map(|step| {
            let length = scenario.network.steps[step].length;
            (step, volume(step).div_ceil(length))
        })
        .collect()
}

/// Rule 25.
fn exit_rate(maker: &mut Maker, scenario: &Scenario, link: usize) {
    let values = rates_needed(scenario, |step| scenario.plan[step].let_out[link]);
    let needed = greatest(&values).expect("there is a step");
    maker.kept(scenario, "exit rate just kept", |network| {
        network.links[link].exit_rate = needed;
    });
    if needed > 0 {
        let refusal = refused(25, first_step(&values, needed), link + 1);
        maker.broken(scenario, "25: exit rate one below", refusal, |network| {
            network.links[link].exit_rate = needed - 1;
        });
    }
}

/// Rule 26.
fn rate(maker: &mut Maker, scenario: &Scenario, movement: usize) {
    let values = rates_needed(scenario, |step| scenario.plan[step].moved[movement]);
    let needed = greatest(&values).expect("there is a step").max(1);
    maker.kept(scenario, "rate just kept", |network| {
        network.movements[movement].rate = needed;
    });
    if needed > 1 {
        let refusal = refused(26, first_step(&values, needed), movement + 1);
        maker.broken(scenario, "26: rate one below", refusal, |network| {
            network.movements[movement].rate = needed - 1;
        });
    }
}

/// Rule 15: a step's demand lowered by as much as no later step needs.
fn demand(maker: &mut Maker, scenario: &Scenario, link: usize) {
    let step = maker.random.index(scenario.step_count());
    let values: Vec<(usize, u64)> = (step..scenario.step_count())
        .map(|later| (later, scenario.outside(later + 1, link)))
        .collect();
    let spare = least(&values).expect("there is a step");
    let demand = scenario.network.steps[step].demand[link];
    maker.kept(scenario, "demand just kept", |network| {
        network.steps[step].demand[link] = demand.saturating_sub(spare);
    });
    if demand > spare {
        let refusal = refused(15, first_step(&values, spare), link + 1);
        maker.broken(scenario, "15: demand one below", refusal, |network| {
            network.steps[step].demand[link] = demand - spare - 1;
        });
    }
}

/// Rule 17: the longest travel time with which nothing leaves too early.
fn travel_time(maker: &mut Maker, scenario: &Scenario, link: usize) {
    let early = |travel_time: u64| {
        scenario.first_early_departure(link, travel_time, |row| scenario.entered[row][link])
    };
    let mut kept = scenario.network.links[link].travel_time;
    let mut above = 3601;
    while above - kept > 1 {
        let middle = (kept + above) / 2;
        if early(middle).is_none() {
            kept = middle;
        } else {
            above = middle;
        }
    }
    maker.kept(scenario, "travel time just kept", |network| {
        network.links[link].travel_time = kept;
    });
    if let Some(boundary) = early(kept + 1) {
        let (name, refusal) = match boundary {
            0 => ("30: travel time one second above", refused(30, 0, 0)),
            _ => (
                "17: travel time one second above",
                refused(17, boundary, link + 1),
            ),
        };
        maker.broken(scenario, name, refusal, |network| {
            network.links[link].travel_time = kept + 1;
        });
    }
}

/// Rule 15: what waits at the start lowered by as much as no step needs.
fn waiting(maker: &mut Maker, scenario: &Scenario, link: usize) {
    let values: Vec<(usize, u64)> = (0..scenario.step_count())
        .map(|step| (step, scenario.outside(step + 1, link)))
        .collect();
    let spare = least(&values).expect("there is a step");
    let waiting = scenario.network.links[link].waiting;
    maker.kept(scenario, "waiting volume just kept", |network| {
        network.links[link].waiting = waiting.saturating_sub(spare);
    });
    if waiting > spare {
        let refusal = refused(15, first_step(&values, spare), link + 1);
        maker.broken(scenario, "15: waiting one below", refusal, |network| {
            network.links[link].waiting = waiting - spare - 1;
        });
    }
}

/// The network with every limit at what the plan needs.
fn tightened(scenario: &Scenario) -> Network {
    let mut network = scenario.network.clone();
    let longest_step = scenario.longest_step();
    for (index, signal) in network.signals.iter_mut().enumerate() {
        for (phase_index, phase) in signal.phases.iter_mut().enumerate() {
            let number = phase_index as u64 + 1;
            let longest = greatest(&runs(scenario, index, number)).unwrap_or(0);
            phase.greatest = longest.max(longest_step);
            if signal.shown_phase == number {
                phase.greatest = phase.greatest.max(signal.shown_seconds);
            }
            let shortest = least(&left_runs(scenario, index, number));
            phase.least = shortest.unwrap_or(phase.greatest);
        }
        let longest = greatest(&clocks(scenario, index)).unwrap_or(0);
        signal.greatest_cycle = longest.max(signal.clock).max(1);
        let shortest = least(&restarts(scenario, index));
        signal.least_cycle = shortest.unwrap_or(signal.greatest_cycle);
    }
    for (index, link) in network.links.iter_mut().enumerate() {
        let needed = greatest(&room_needed(scenario, index)).unwrap_or(0);
        link.capacity = needed.max(link.standing).max(scenario.held_at_start(index));
        let rates = rates_needed(scenario, |step| scenario.plan[step].let_out[index]);
        link.exit_rate = greatest(&rates).unwrap_or(0);
    }
    for (index, movement) in network.movements.iter_mut().enumerate() {
        let rates = rates_needed(scenario, |step| scenario.plan[step].moved[index]);
        movement.rate = greatest(&rates).unwrap_or(0).max(1);
    }
    for link in 0..network.links.len() {
        // What no later step needs, from the last step on.
        let mut spare = u64::MAX;
        for (index, step) in network.steps.iter_mut().enumerate().rev() {
            spare = spare.min(scenario.outside(index + 1, link));
            let lowered = step.demand[link].min(spare);
            step.demand[link] -= lowered;
            spare -= lowered;
        }
        network.links[link].waiting -= network.links[link].waiting.min(spare);
    }
    network
}
