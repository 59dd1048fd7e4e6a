//! The plan text and refusals 8 to 18, 25 to 27 and 29.

use crate::arrivals::Arrived;
use crate::network::{Link, Movement, Network};
use crate::text::{write_record, Line, Lines};
use crate::{Refusal, Totals};
use std::borrow::Cow;
use std::ops::Range;

/// One `P` line.
#[derive(Clone, Debug, PartialEq, Eq)]
pub struct PlanStep {
    /// The mask shown by each signal.
    pub masks: Vec<u64>,
    /// Volume admitted on each link.
    pub admitted: Vec<u64>,
    /// Volume let out of the network from each link.
    pub let_out: Vec<u64>,
    /// Volume of each movement.
    pub moved: Vec<u64>,
}

impl PlanStep {
    pub fn of_zeros(network: &Network) -> PlanStep {
        PlanStep {
            masks: vec![0; network.signals.len()],
            admitted: vec![0; network.links.len()],
            let_out: vec![0; network.links.len()],
            moved: vec![0; network.movements.len()],
        }
    }

    /// Each signal keeps its shown phase and every volume is 0.
    fn of_hold(network: &Network) -> PlanStep {
        let signals = network.signals.iter();
        PlanStep {
            masks: signals
                .map(|signal| 1 << (signal.shown_phase - 1))
                .collect(),
            ..PlanStep::of_zeros(network)
        }
    }
}

/// The plan text of these steps.
pub fn text(steps: &[PlanStep]) -> Vec<u8> {
    let mut text = Vec::new();
    for step in steps {
        let parts = [&step.masks, &step.admitted, &step.let_out, &step.moved];
        write_record(&mut text, b'P', &parts.map(Vec::as_slice).concat());
    }
    text
}

/// A plan that has passed.
pub struct Judged {
    pub steps: Vec<PlanStep>,
    pub passed: Passed,
}

pub fn check(network_text: &[u8], plan_text: &[u8], ledger: &mut [u32]) -> Result<Totals, Refusal> {
    let network = Network::read(network_text)?;
    let judged = judge(&network, plan_text, ledger)?;
    Ok(totals(&network, &judged))
}

/// Judges the ledger's length, then the plan line by line. A row of the ledger
/// is written as soon as its step has passed, so that a refusal leaves the later
/// rows as they were.
pub fn judge(network: &Network, plan_text: &[u8], ledger: &mut [u32]) -> Result<Judged, Refusal> {
    network.judge_ledger_length(ledger.len())?;

    let mut passed = Passed::before_step_1(network);
    passed.write_row(0, ledger);

    let meant = meant(network, plan_text);
    let mut lines = Lines::new(&meant);
    let mut steps = Vec::new();
    for number in 1..=network.steps.len() {
        let step = read_step(&lines.take(), network)?;
        passed = judge_step(network, passed, number, &step)?;
        passed.write_row(number, ledger);
        steps.push(step);
    }
    if let Some(line) = lines.surplus() {
        return Err(malformed(line));
    }
    Ok(Judged { steps, passed })
}

/// The steps of a plan text, of which only the form is judged.
pub fn read_steps(network: &Network, plan_text: &[u8]) -> Result<Vec<PlanStep>, Refusal> {
    let meant = meant(network, plan_text);
    let mut lines = Lines::new(&meant);
    let mut steps = Vec::new();
    for _ in &network.steps {
        steps.push(read_step(&lines.take(), network)?);
    }
    match lines.surplus() {
        Some(line) => Err(malformed(line)),
        None => Ok(steps),
    }
}

/// An empty plan text stands for one that holds.
fn meant<'a>(network: &Network, plan_text: &'a [u8]) -> Cow<'a, [u8]> {
    if plan_text.is_empty() {
        let steps = vec![PlanStep::of_hold(network); network.steps.len()];
        text(&steps).into()
    } else {
        plan_text.into()
    }
}

/// Judges one step and adds it to the steps that have passed.
fn judge_step(
    network: &Network,
    mut passed: Passed,
    number: usize,
    step: &PlanStep,
) -> Result<Passed, Refusal> {
    let attempt = Attempt {
        network,
        passed: &passed,
        number,
        step,
    };
    attempt.judge()?;
    let showing = attempt.showing();
    let entered = attempt.links().map(|link| attempt.entered(link)).collect();
    let left = attempt.links().map(|link| attempt.left(link)).collect();
    let admitted = attempt.links().map(|link| attempt.admitted(link)).collect();
    passed.admitted = admitted;
    passed.showing = showing;
    passed.curves.entered.push(entered);
    passed.curves.left.push(left);
    Ok(passed)
}

/// Refusal 9 at a line.
fn malformed(line: u64) -> Refusal {
    Refusal::new(9, line, 0)
}

/// A `P` line: 1 + R + 2L + M fields.
fn read_step(line: &Line, network: &Network) -> Result<PlanStep, Refusal> {
    let signal_count = network.signals.len();
    let link_count = network.links.len();
    let movement_count = network.movements.len();
    let numbers = line
        .numbers(b'P', signal_count + 2 * link_count + movement_count)
        .ok_or(malformed(line.number))?;
    let (masks, rest) = numbers.split_at(signal_count);
    let (admitted, rest) = rest.split_at(link_count);
    let (let_out, moved) = rest.split_at(link_count);
    Ok(PlanStep {
        masks: masks.to_vec(),
        admitted: admitted.to_vec(),
        let_out: let_out.to_vec(),
        moved: moved.to_vec(),
    })
}

/// What a signal shows after an ordinary step, with its two clocks. Both stand
/// still while a tram passes.
#[derive(Clone, Copy)]
pub struct Showing {
    /// Counted from 1.
    pub phase: u64,
    /// Seconds of the run of this phase.
    pub run: u64,
    /// Seconds since phase 1 last began.
    pub cycle: u64,
}

/// Cumulative entries and exits of each link, one row a boundary.
pub struct Curves {
    pub entered: Vec<Vec<u64>>,
    pub left: Vec<Vec<u64>>,
}

/// What is known after the steps that have passed.
pub struct Passed {
    pub showing: Vec<Showing>,
    pub curves: Curves,
    /// All that has been admitted on each link.
    pub admitted: Vec<u64>,
}

impl Passed {
    fn before_step_1(network: &Network) -> Passed {
        let showing = network
            .signals
            .iter()
            .map(|signal| Showing {
                phase: signal.shown_phase,
                run: signal.shown_seconds,
                cycle: signal.clock,
            })
            .collect();
        let links = 0..network.links.len();
        let entered = links.clone().map(|link| network.entered_at_0(link));
        let left = links.clone().map(|link| network.left_at_0(link));
        Passed {
            showing,
            curves: Curves {
                entered: vec![entered.collect()],
                left: vec![left.collect()],
            },
            admitted: vec![0; links.len()],
        }
    }

    /// Row n holds entered and left of each link in link order and starts at
    /// index 2 x n x L. Judged volumes stay below 2^32: a link starts with at
    /// most 2,000,000,000, refusal 30 bounds what it gains in the past and from
    /// outside, and in each step it gains at most 600,000 from each of 23 links.
    fn write_row(&self, boundary: usize, ledger: &mut [u32]) {
        let entered = &self.curves.entered[boundary];
        let left = &self.curves.left[boundary];
        let start = 2 * boundary * entered.len();
        for index in 0..entered.len() {
            ledger[start + 2 * index] = entered[index] as u32;
            ledger[start + 2 * index + 1] = left[index] as u32;
        }
    }
}

/// One step before it has passed. Signals, links and movements are taken by
/// their index from 0 here; a refusal names them from 1.
struct Attempt<'a> {
    network: &'a Network,
    /// The steps before, which have all passed.
    passed: &'a Passed,
    /// The number of this step.
    number: usize,
    step: &'a PlanStep,
}

/// A rule gives the index of the first item that breaks it.
type Rule = fn(&Attempt) -> Option<usize>;

/// The rules in the order in which they are judged. Rule 10 comes first: the
/// others may ask for the phase that a mask shows.
const RULES: [(u64, Rule); 13] = [
    (10, |attempt| attempt.signal_with_bad_mask()),
    (29, |attempt| attempt.signal_without_tram_phase()),
    (11, |attempt| attempt.signal_out_of_order()),
    (12, |attempt| attempt.signal_below_least_time()),
    (13, |attempt| attempt.signal_above_greatest_time()),
    (14, |attempt| attempt.signal_outside_cycle()),
    (15, |attempt| attempt.link_above_demand()),
    (25, |attempt| attempt.link_above_exit_rate()),
    (26, |attempt| attempt.movement_above_its_rate()),
    (27, |attempt| attempt.movement_from_shut_link()),
    (16, |attempt| attempt.movement_above_its_share()),
    (17, |attempt| attempt.link_left_before_arrival()),
    (18, |attempt| attempt.link_above_capacity()),
];

impl Attempt<'_> {
    fn judge(&self) -> Result<(), Refusal> {
        for (number, rule) in RULES {
            if let Some(index) = rule(self) {
                return Err(Refusal::new(number, self.number as u64, index as u64 + 1));
            }
        }
        Ok(())
    }

    /// Rule 10: a mask has exactly one bit set, and it is one of the phases.
    fn signal_with_bad_mask(&self) -> Option<usize> {
        self.signals().find(|&signal| {
            phase_of_mask(self.step.masks[signal], self.phase_count(signal)).is_none()
        })
    }

    /// Rule 29: in a tram's step its phase is shown.
    fn signal_without_tram_phase(&self) -> Option<usize> {
        self.signals().find(|&signal| {
            let asked = self.network.tram_phase(signal, self.number);
            asked.is_some_and(|phase| phase != self.phase(signal))
        })
    }

    /// Rule 11: the phase is that of the step before or the next.
    fn signal_out_of_order(&self) -> Option<usize> {
        self.ordinary_signals().find(|&signal| {
            let before = self.passed.showing[signal].phase;
            let next = phase_after(before, self.phase_count(signal));
            let phase = self.phase(signal);
            phase != before && phase != next
        })
    }

    /// Rule 12: a phase that is left has shown at least its least time.
    fn signal_below_least_time(&self) -> Option<usize> {
        self.ordinary_signals().find(|&signal| {
            let before = &self.passed.showing[signal];
            let phase_left = &self.network.signals[signal].phases[before.phase as usize - 1];
            self.phase(signal) != before.phase && before.run < phase_left.least
        })
    }

    /// Rule 13: a run's seconds, this step included, are at most its greatest
    /// time.
    fn signal_above_greatest_time(&self) -> Option<usize> {
        self.ordinary_signals().find(|&signal| {
            let phase = &self.network.signals[signal].phases[self.phase(signal) as usize - 1];
            self.run(signal) > phase.greatest
        })
    }

    /// Rule 14: when phase 1 begins, the cycle clock is at least the least
    /// cycle; after the step it is at most the greatest cycle.
    fn signal_outside_cycle(&self) -> Option<usize> {
        self.ordinary_signals().find(|&signal| {
            let limits = &self.network.signals[signal];
            let too_early =
                self.begins_cycle(signal) && self.passed.showing[signal].cycle < limits.least_cycle;
            too_early || self.cycle(signal) > limits.greatest_cycle
        })
    }

    /// Rule 15: admitted by the end of this step is at most what waited at time
    /// 0 and demand by then.
    fn link_above_demand(&self) -> Option<usize> {
        self.links()
            .find(|&link| self.admitted(link) > self.network.offered(link, self.number))
    }

    /// Rule 25: let out is at most exit rate x length.
    fn link_above_exit_rate(&self) -> Option<usize> {
        self.links().find(|&link| {
            self.step.let_out[link] > self.network.links[link].exit_rate * self.length()
        })
    }

    /// Rule 26: a movement is at most its rate x length.
    fn movement_above_its_rate(&self) -> Option<usize> {
        self.movements().find(|&movement| {
            self.step.moved[movement] > self.network.movements[movement].rate * self.length()
        })
    }

    /// Rule 27: a movement is 0 if its from link is shut.
    fn movement_from_shut_link(&self) -> Option<usize> {
        self.movements().find(|&movement| {
            let from = self.network.movements[movement].from as usize - 1;
            self.step.moved[movement] != 0 && !self.is_open(from)
        })
    }

    /// Rule 16: 1000 x the movement is at most its share x the sum of all
    /// movements from that link.
    fn movement_above_its_share(&self) -> Option<usize> {
        self.movements().find(|&movement| {
            let Movement { from, share, .. } = self.network.movements[movement];
            1000 * self.step.moved[movement] > share * self.moved_from(from as usize - 1)
        })
    }

    /// Rule 17: left(n) <= arrived(n).
    fn link_left_before_arrival(&self) -> Option<usize> {
        self.links()
            .find(|&link| self.arrived(link).is_below(self.left(link)))
    }

    /// Rule 18: entered(n) - left(n-1) <= capacity.
    fn link_above_capacity(&self) -> Option<usize> {
        self.links().find(|&link| {
            let left_before = self.passed.curves.left[self.number - 1][link];
            self.entered(link) > self.network.links[link].capacity + left_before
        })
    }

    fn signals(&self) -> Range<usize> {
        0..self.network.signals.len()
    }

    /// The signals of which no tram asks anything in this step.
    fn ordinary_signals(&self) -> impl Iterator<Item = usize> + '_ {
        self.signals()
            .filter(|&signal| self.network.tram_phase(signal, self.number).is_none())
    }

    fn links(&self) -> Range<usize> {
        0..self.network.links.len()
    }

    fn movements(&self) -> Range<usize> {
        0..self.network.movements.len()
    }

    /// The step's length in seconds.
    fn length(&self) -> u64 {
        self.network.steps[self.number - 1].length
    }

    fn phase_count(&self, signal: usize) -> u64 {
        self.network.signals[signal].phases.len() as u64
    }

    /// The phase that a signal shows in this step, counted from 1.
    fn phase(&self, signal: usize) -> u64 {
        phase_of_mask(self.step.masks[signal], self.phase_count(signal))
            .expect("rule 10 has passed")
    }

    /// The seconds of the run, this step included: a run starts at 0 when the
    /// phase changes.
    fn run(&self, signal: usize) -> u64 {
        let before = &self.passed.showing[signal];
        if self.phase(signal) == before.phase {
            before.run + self.length()
        } else {
            self.length()
        }
    }

    /// Phase 1 begins only where another phase was shown before.
    fn begins_cycle(&self, signal: usize) -> bool {
        self.phase(signal) == 1 && self.passed.showing[signal].phase != 1
    }

    /// The cycle clock after this step.
    fn cycle(&self, signal: usize) -> u64 {
        if self.begins_cycle(signal) {
            self.length()
        } else {
            self.passed.showing[signal].cycle + self.length()
        }
    }

    /// A link without a signal is always open; another one is while its signal
    /// shows a phase of the link's mask.
    fn is_open(&self, link: usize) -> bool {
        let Link {
            signal, phase_mask, ..
        } = self.network.links[link];
        signal == 0 || (phase_mask & self.step.masks[signal as usize - 1]) != 0
    }

    /// The sum of all movements of this step from a link.
    fn moved_from(&self, link: usize) -> u64 {
        self.movements()
            .filter(|&movement| self.network.movements[movement].from == link as u64 + 1)
            .map(|movement| self.step.moved[movement])
            .sum()
    }

    /// The sum of all movements of this step into a link.
    fn moved_into(&self, link: usize) -> u64 {
        self.movements()
            .filter(|&movement| self.network.movements[movement].to == link as u64 + 1)
            .map(|movement| self.step.moved[movement])
            .sum()
    }

    /// All that is admitted on a link in this step and those before.
    fn admitted(&self, link: usize) -> u64 {
        self.passed.admitted[link] + self.step.admitted[link]
    }

    /// entered(n), n being this step's number.
    fn entered(&self, link: usize) -> u64 {
        self.passed.curves.entered[self.number - 1][link]
            + self.step.admitted[link]
            + self.moved_into(link)
    }

    /// left(n), n being this step's number.
    fn left(&self, link: usize) -> u64 {
        self.passed.curves.left[self.number - 1][link]
            + self.step.let_out[link]
            + self.moved_from(link)
    }

    /// arrived(n), n being this step's number. A part of what enters in this
    /// very step arrives in it if the travel time is below the step's length.
    fn arrived(&self, link: usize) -> Arrived {
        let entered = |boundary: usize| {
            if boundary == self.number {
                self.entered(link)
            } else {
                self.passed.curves.entered[boundary][link]
            }
        };
        let arrived = self.network.arrived(self.number, link, entered);
        arrived.expect("a plan's entered count never falls")
    }

    /// What the signals have shown by the last ordinary step.
    fn showing(&self) -> Vec<Showing> {
        self.signals()
            .map(
                |signal| match self.network.tram_phase(signal, self.number) {
                    Some(_) => self.passed.showing[signal],
                    None => Showing {
                        phase: self.phase(signal),
                        run: self.run(signal),
                        cycle: self.cycle(signal),
                    },
                },
            )
            .collect()
    }
}

/// The phase that a mask shows: none unless exactly one bit is set, which must
/// be that of one of the signal's phases.
fn phase_of_mask(mask: u64, phase_count: u64) -> Option<u64> {
    (1..=phase_count).find(|phase| mask == 1 << (phase - 1))
}

/// After the last phase comes phase 1.
fn phase_after(phase: u64, phase_count: u64) -> u64 {
    if phase == phase_count {
        1
    } else {
        phase + 1
    }
}

/// The totals of a plan that has passed.
pub fn totals(network: &Network, judged: &Judged) -> Totals {
    let curves = &judged.passed.curves;
    let inside = |boundary: usize| -> u64 {
        let entered: u64 = curves.entered[boundary].iter().sum();
        let left: u64 = curves.left[boundary].iter().sum();
        entered - left
    };
    let offered = |boundary: usize| -> u64 {
        let links = 0..network.links.len();
        links.map(|link| network.offered(link, boundary)).sum()
    };
    let mut totals = Totals {
        admitted: 0,
        let_out: 0,
        inside: inside(network.steps.len()),
        doubled_time: 0,
    };
    // Vehicles that are inside or wait outside, where demand brings them.
    let mut counted_before = inside(0) + offered(0);
    for (index, step) in judged.steps.iter().enumerate() {
        totals.admitted += step.admitted.iter().sum::<u64>();
        totals.let_out += step.let_out.iter().sum::<u64>();
        let counted = inside(index + 1) + (offered(index + 1) - totals.admitted);
        totals.doubled_time += network.steps[index].length * (counted_before + counted);
        counted_before = counted;
    }
    totals
}
