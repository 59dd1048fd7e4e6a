//! An avenue through junctions, each with a signal and a side street that crosses.
//!
//! ```text
//!             side in          side in
//!                |                |
//!   avenue --> [ 1 ] -- avenue --> [ 2 ] -- avenue -->
//!                |                |
//!             side out         side out
//! ```

use super::chance::Chance;
use crate::records::write_record;

/// A junction has three links beside the avenue's last one, and a network has 24.
pub const MAX_JUNCTIONS: u32 = 7;
/// A network has at most so many tram lines.
const MAX_TRAM_LINES: u32 = 16;

/// Phases are counted from 0 here, as in its tables of times.
pub struct Signal {
    pub least_cycle: u32,
    pub greatest_cycle: u32,
    pub shown: usize,
    pub shown_for: u32,
    pub cycle_clock: u32,
    pub least: Vec<u32>,
    pub greatest: Vec<u32>,
}

pub struct Link {
    pub capacity: u32,
    pub travel_time: u32,
    pub exit_rate: u32,
    /// Counted from 1; 0 for none.
    pub signal: u32,
    pub mask: u32,
    pub standing: u32,
}

/// Links are counted from 0.
pub struct Movement {
    pub from: usize,
    pub to: usize,
    pub rate: u32,
    pub share: u32,
}

pub struct Step {
    pub length: u32,
    pub demand: Vec<u32>,
}

/// Signal, phase and steps are counted from 1.
pub struct Tram {
    pub signal: u32,
    pub phase: u32,
    pub first: u32,
    pub last: u32,
}

pub struct Avenue {
    pub trams: Vec<Tram>,
    pub signals: Vec<Signal>,
    pub links: Vec<Link>,
    pub movements: Vec<Movement>,
    pub steps: Vec<Step>,
}

/// The phase of the side street, counted from 0: the avenue's is first, and pedestrians may have phases behind either.
fn side_phase(phases: usize) -> usize {
    phases / 2
}

impl Avenue {
    pub fn new(chance: &mut Chance, junctions: u32, steps: u32) -> Avenue {
        let signals: Vec<Signal> = (0..junctions).map(|_| signal(chance)).collect();
        let links = links(chance, &signals);
        let movements = movements(chance, signals.len());
        let steps = demands(chance, steps, signals.len(), links.len());
        let trams = trams(chance, junctions, &steps);
        Avenue {
            trams,
            signals,
            links,
            movements,
            steps,
        }
    }

    pub fn text(&self) -> String {
        let mut text = String::new();
        let counts = [
            self.links.len(),
            self.signals.len(),
            self.movements.len(),
            self.steps.len(),
            self.trams.len(),
            0, // no past steps
        ];
        write_record(&mut text, 'N', &counts.map(index));
        for tram in &self.trams {
            write_record(&mut text, 'T', &[tram.signal, tram.phase, tram.first, tram.last]);
        }
        for signal in &self.signals {
            write_record(&mut text, 'G', &signal.numbers());
        }
        for link in &self.links {
            let shut = [link.signal, link.mask, link.standing, 0]; // nobody waits outside at the start
            write_record(
                &mut text,
                'Q',
                &[&[link.capacity, link.travel_time, link.exit_rate], &shut[..]].concat(),
            );
        }
        for movement in &self.movements {
            let links = [index(movement.from) + 1, index(movement.to) + 1];
            write_record(&mut text, 'M', &[&links[..], &[movement.rate, movement.share]].concat());
        }
        for step in &self.steps {
            write_record(&mut text, 'S', &[&[step.length], &step.demand[..]].concat());
        }
        text
    }
}

impl Signal {
    /// The numbers of its `G` line.
    fn numbers(&self) -> Vec<u32> {
        let mut numbers = vec![self.least_cycle, self.greatest_cycle, index(self.least.len())];
        numbers.extend([index(self.shown) + 1, self.shown_for, self.cycle_clock]);
        numbers.extend(
            self.least
                .iter()
                .zip(&self.greatest)
                .flat_map(|(&least, &greatest)| [least, greatest]),
        );
        numbers
    }
}

/// Two to four phases: the avenue, perhaps pedestrians, the side street, perhaps pedestrians.
fn signal(chance: &mut Chance) -> Signal {
    let phases = chance.between(2, 4) as usize;
    let (mut least, mut greatest) = (Vec::new(), Vec::new());
    for phase in 0..phases {
        let (shortest, longest) = if phase == 0 {
            (chance.between(3, 5) * 5, chance.between(9, 12) * 5)
        } else if phase == side_phase(phases) {
            (chance.between(2, 3) * 5, chance.between(5, 7) * 5)
        } else {
            (5, 15)
        };
        least.push(shortest);
        greatest.push(longest);
    }
    let shown = chance.between(0, u32::try_from(phases - 1).unwrap_or(0)) as usize;
    let shown_for = chance.between(0, least[shown] / 5) * 5;
    let cycle_clock = shown_for + least[..shown].iter().sum::<u32>();
    Signal {
        least_cycle: least.iter().sum(),
        greatest_cycle: greatest.iter().sum(),
        shown,
        shown_for,
        cycle_clock,
        least,
        greatest,
    }
}

/// The avenue's links in driving order, then the side streets in, then those out.
fn links(chance: &mut Chance, signals: &[Signal]) -> Vec<Link> {
    let mut links = Vec::new();
    for junction in 0..=signals.len() {
        let leaves = junction == signals.len();
        links.push(Link {
            // The first link is short in some avenues, so that drivers wait outside.
            capacity: chance.between(if junction == 0 { 14 } else { 50 }, 90) * 1000,
            travel_time: chance.between(14, 38),
            exit_rate: if leaves { 1200 } else { 0 },
            signal: if leaves { 0 } else { index(junction) + 1 },
            mask: u32::from(!leaves),
            standing: chance.between(0, 12) * 500,
        });
    }
    for (junction, signal) in signals.iter().enumerate() {
        links.push(Link {
            capacity: chance.between(20, 40) * 1000,
            travel_time: chance.between(7, 18),
            exit_rate: 0,
            signal: index(junction) + 1,
            mask: 1 << side_phase(signal.least.len()),
            standing: chance.between(0, 6) * 500,
        });
    }
    for _ in signals {
        links.push(Link {
            capacity: chance.between(20, 40) * 1000,
            travel_time: chance.between(7, 18),
            exit_rate: 600,
            signal: 0,
            mask: 0,
            standing: 0,
        });
    }
    links
}

/// Along the avenue and out of it, and the same from each side street. Shares are multiples of 50, so that volumes of 20
/// thousandths part exactly.
fn movements(chance: &mut Chance, junctions: usize) -> Vec<Movement> {
    let mut movements = Vec::new();
    for junction in 0..junctions {
        let turning = chance.between(2, 5) * 50;
        movements.extend(movements_of(junction, junctions, junction, [1000, 400], 1000 - turning));
    }
    for junction in 0..junctions {
        let joining = chance.between(6, 14) * 50;
        movements.extend(movements_of(
            junction,
            junctions,
            junctions + 1 + junction,
            [500, 400],
            joining,
        ));
    }
    movements
}

fn movements_of(junction: usize, junctions: usize, from: usize, rates: [u32; 2], share: u32) -> [Movement; 2] {
    let side_out = 2 * junctions + 1 + junction;
    [(junction + 1, rates[0], share), (side_out, rates[1], 1000 - share)].map(|(to, rate, share)| Movement {
        from,
        to,
        rate,
        share,
    })
}

/// Steps of 5 s and, from the middle on, of 10 s. A platoon comes along the avenue; side streets have a trickle.
fn demands(chance: &mut Chance, count: u32, junctions: usize, links: usize) -> Vec<Step> {
    let platoon = chance.between(count / 4, count / 2);
    let usual = chance.between(220, 420);
    let side: Vec<u32> = (0..junctions).map(|_| chance.between(50, 160)).collect();
    let mut steps = Vec::new();
    for step in 0..count {
        let length = if step < count / 2 { 5 } else { 10 };
        let mut demand = vec![0; links];
        let rate = if step.abs_diff(platoon) < 1 + count / 10 {
            2 * usual
        } else {
            usual
        };
        demand[0] = rate * length;
        for (junction, &rate) in side.iter().enumerate() {
            demand[junctions + 1 + junction] = chance.between(rate / 2, rate * 3 / 2) * length;
        }
        steps.push(Step { length, demand });
    }
    steps
}

/// Trams that run along the avenue and claim its phase at each junction, a while apart.
fn trams(chance: &mut Chance, junctions: u32, steps: &[Step]) -> Vec<Tram> {
    let horizon: u32 = steps.iter().map(|step| step.length).sum();
    let runs = chance.between(0, 3).min(MAX_TRAM_LINES / junctions);
    let hop = chance.between(15, 25);
    let mut lines = Vec::new();
    for run in 0..runs {
        let start = chance.between(10, 30) + run * 110;
        for junction in 0..junctions {
            let from = start + junction * hop;
            if from + 12 <= horizon {
                let (first, last) = (step_at(steps, from), step_at(steps, from + 12));
                let signal = junction + 1;
                lines.push(Tram {
                    signal,
                    phase: 1,
                    first,
                    last,
                });
            }
        }
    }
    lines
}

/// The step, counted from 1, in which a second falls.
fn step_at(steps: &[Step], second: u32) -> u32 {
    let mut end = 0;
    let ended = steps.iter().take_while(|step| {
        end += step.length;
        end <= second
    });
    (index(ended.count()) + 1).min(index(steps.len()))
}

fn index(place: usize) -> u32 {
    u32::try_from(place).unwrap_or(u32::MAX)
}
