//! Signals that repeat a cycle of fixed durations, and what a plan does to a
//! sheet by the notes of its simulation.

use super::random::Random;
use super::scenario::{draw_trams, tram_at, Timing};
use super::{Scenario, Size, Traffic};
use crate::{Network, Phase, Signal};

/// The duration of each phase of each signal.
pub type Durations = Vec<Vec<u64>>;

/// A scenario whose signals repeat their cycles, trams left out, and the
/// durations.
pub fn fixed_scenario(random: &mut Random) -> (Scenario, Durations) {
    let size = Size {
        links: random.between(1, 4) as usize,
        signals: random.between(1, 3) as usize,
        movements: random.between(0, 4) as usize,
        steps: random.between(12, 40) as usize,
    };
    let unit = random.pick(&[1, 2, 5, 10]);
    let trams = draw_trams(random, size);
    let mut signals = Vec::new();
    let mut schedules = Vec::new();
    let mut durations = Vec::new();
    for index in 0..size.signals {
        let is_ordinary = |&step: &usize| tram_at(&trams, index, step).is_none();
        let ordinary = (0..size.steps).filter(is_ordinary).count();
        let fixed = draw_durations(random, unit);
        let (signal, schedule) = draw_fixed_signal(random, &fixed, unit, ordinary);
        signals.push(signal);
        schedules.push(schedule);
        durations.push(fixed);
    }
    let timing = Timing {
        lengths: vec![unit; size.steps],
        trams,
        signals,
        schedules,
    };
    let traffic = random.pick(&[Traffic::Free, Traffic::Full]);
    let scenario = Scenario::make_with_timing(random, size, traffic, timing);
    // Now and then the first steps are past.
    let past = random.pick(&[0, 0, 0, 1, 3]);
    match past {
        0 => (scenario, durations),
        past => (scenario.carried(past), durations),
    }
}

fn draw_durations(random: &mut Random, unit: u64) -> Vec<u64> {
    let phases = random.pick(&[2, 2, 3, 4]);
    (0..phases).map(|_| unit * random.between(1, 3)).collect()
}

/// A signal somewhere in its cycle, and its phases in so many ordinary steps of
/// one unit each.
fn draw_fixed_signal(
    random: &mut Random,
    durations: &[u64],
    unit: u64,
    steps: usize,
) -> (Signal, Vec<u64>) {
    let cycle: u64 = durations.iter().sum();
    let start = unit * random.between(0, cycle / unit - 1);
    let (shown_phase, shown_seconds) = shown_at(durations, start);
    let slack = |random: &mut Random| random.pick(&[0, 0, 1, unit, 3 * unit]);
    let phases = durations.iter().map(|&duration| Phase {
        least: duration.saturating_sub(slack(random)).max(1),
        greatest: duration + slack(random),
    });
    let phases = phases.collect();
    let signal = Signal {
        least_cycle: cycle.saturating_sub(slack(random)).max(1),
        greatest_cycle: cycle + slack(random),
        shown_phase,
        shown_seconds,
        clock: start,
        phases,
    };
    let seconds = (0..steps as u64).map(|step| start + unit * step);
    let schedule = seconds.map(|seconds| shown_at(durations, seconds).0);
    (signal, schedule.collect())
}

/// The phase, from 1, of the repeated cycle after some seconds, and how long it
/// has shown.
fn shown_at(durations: &[u64], seconds: u64) -> (u64, u64) {
    let cycle: u64 = durations.iter().sum();
    let mut begun = 0;
    for (index, duration) in durations.iter().enumerate() {
        if seconds % cycle < begun + duration {
            return (index as u64 + 1, seconds % cycle - begun);
        }
        begun += duration;
    }
    unreachable!("a second of the cycle is in one of its phases")
}

impl Scenario {
    /// The line and the signal, both from 1, of the first run of another
    /// duration that counts: it begins in the plan, not before the greatest
    /// cycle, and is left in the plan.
    pub fn other_duration(&self, durations: &[Vec<u64>]) -> Option<(usize, usize)> {
        let mut others = Vec::new();
        for (signal, fixed) in durations.iter().enumerate() {
            for run in self.left_runs(signal) {
                if self.is_tested(signal, run.begun) && run.seconds != fixed[run.phase as usize - 1]
                {
                    others.push((run.last_line, signal + 1));
                }
            }
        }
        others.into_iter().min()
    }

    /// A run that begins in this step (from index 0).
    pub fn is_tested(&self, signal: usize, begun: usize) -> bool {
        self.times()[begun] >= self.network.signals[signal].greatest_cycle
    }

    /// The runs that begin in the plan and are left in it.
    pub fn left_runs(&self, signal: usize) -> Vec<LeftRun> {
        let mut runs = Vec::new();
        let mut begun = None;
        for step in 0..self.step_count() {
            let before = self.shown[step][signal];
            if self.shown[step + 1][signal].phase == before.phase {
                continue;
            }
            if let Some(begun) = begun {
                let is_ordinary = |&earlier: &usize| self.tram_phase(signal, earlier).is_none();
                let last = (0..step).rev().find(is_ordinary);
                runs.push(LeftRun {
                    phase: before.phase,
                    seconds: before.run,
                    begun,
                    last_line: 1 + last.expect("the run has a step"),
                });
            }
            begun = Some(step);
        }
        runs
    }
}

/// A run that is over, as the simulation has noted it.
pub struct LeftRun {
    pub phase: u64,
    pub seconds: u64,
    /// The step in which it begins, from index 0.
    pub begun: usize,
    /// Its last ordinary step, from 1.
    pub last_line: usize,
}

/// The masks of a cycle that has run for some seconds at time 0; none if a run
/// ends inside a step.
pub fn cycle_masks(network: &Network, durations: &[u64], offset: u64) -> Option<Vec<u64>> {
    let mut phase = 0;
    let mut left = durations[0];
    let mut seconds = offset;
    while seconds >= left {
        seconds -= left;
        phase += 1;
        left = durations[phase];
    }
    left -= seconds;
    let mut masks = Vec::new();
    for step in &network.steps {
        masks.push(1 << phase);
        left = left.checked_sub(step.length)?;
        if left == 0 {
            phase = (phase + 1) % durations.len();
            left = durations[phase];
        }
    }
    Some(masks)
}
