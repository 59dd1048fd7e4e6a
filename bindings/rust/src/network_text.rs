//! A network by its parts, written as a text and read from one.

use crate::records::{count, read, write, write_all, Record};
use crate::{check_network, Counts, Refusal, Volumes};
use alloc::{vec, vec::Vec};
use core::fmt;

/// A network by its parts. `Display` writes its text, so that `to_string()` gives what the calls take; [`NetworkText::read`]
/// reads one.
///
/// Signals, links, movements, steps and phases are counted from 1, volumes are thousandths of a vehicle, times seconds, rates
/// thousandths of a vehicle a second. Whether the numbers fit together is the library's to say: a step with too few demands,
/// as an example, gives a text that [`check_network`](crate::check_network) refuses with 1.
///
/// ```
/// use plancheck::{check_plan, Link, NetworkText, PlanText, Step, MAX_LEDGER_LEN};
///
/// // One link without a signal lets out half a vehicle a second; five vehicles come in the first of two steps.
/// let network = NetworkText {
///     links: vec![Link { capacity: 60_000, travel_time: 10, exit_rate: 500, ..Link::default() }],
///     steps: vec![Step { length: 10, demands: vec![5000] }, Step { length: 10, demands: vec![0] }],
///     ..NetworkText::default()
/// };
/// assert_eq!(
///     network.to_string(),
///     "N\t1\t0\t0\t2\t0\t0\nQ\t60000\t10\t500\t0\t0\t0\t0\nS\t10\t5000\nS\t10\t0\n"
/// );
///
/// let mut plan = PlanText::hold(&network);
/// plan.steps[0].admitted[0] = 5000;
/// plan.steps[1].let_out[0] = 5000;
/// let mut ledger = [0; MAX_LEDGER_LEN];
/// let totals = check_plan(network.to_string().as_bytes(), plan.to_string().as_bytes(), &mut ledger)?;
/// assert_eq!(totals.let_out, 5000);
/// # Ok::<(), plancheck::Refusal>(())
/// ```
#[derive(Clone, Debug, Default, PartialEq, Eq, Hash)]
pub struct NetworkText {
    /// The `T` lines.
    pub trams: Vec<Tram>,
    /// The `G` lines.
    pub signals: Vec<Signal>,
    /// The `Q` lines.
    pub links: Vec<Link>,
    /// The `M` lines, their pairs of links rising.
    pub movements: Vec<Movement>,
    /// The `H` lines, the oldest first.
    pub past: Vec<PastStep>,
    /// The `S` lines.
    pub steps: Vec<Step>,
}

/// A tram claims a signal for a phase, from one step to another, the last included.
#[derive(Clone, Copy, Debug, Default, PartialEq, Eq, Hash)]
pub struct Tram {
    /// The signal that it claims.
    pub signal: u32,
    /// The phase that the signal must show.
    pub phase: u32,
    /// The first step.
    pub first: u32,
    /// The last step.
    pub last: u32,
}

/// A signal, and what it shows before the plan.
#[derive(Clone, Debug, Default, PartialEq, Eq, Hash)]
pub struct Signal {
    /// The least time of a cycle.
    pub least_cycle: u32,
    /// The greatest time of a cycle.
    pub greatest_cycle: u32,
    /// The phase that is shown before the plan.
    pub shown: u32,
    /// The seconds that it has shown.
    pub shown_for: u32,
    /// The seconds since phase 1 last began.
    pub cycle_clock: u32,
    /// The limits of each phase, 2 to 8 of them.
    pub phases: Vec<Phase>,
}

/// How long a phase of a signal lasts.
#[derive(Clone, Copy, Debug, Default, PartialEq, Eq, Hash)]
pub struct Phase {
    /// The least time.
    pub least: u32,
    /// The greatest time.
    pub greatest: u32,
}

/// A link.
#[derive(Clone, Copy, Debug, Default, PartialEq, Eq, Hash)]
pub struct Link {
    /// The volume that it holds at most.
    pub capacity: u32,
    /// The seconds from its start to its end.
    pub travel_time: u32,
    /// The rate at which it lets vehicles out of the network; 0 where it does not.
    pub exit_rate: u32,
    /// The signal at its end; 0 for none.
    pub signal: u32,
    /// The phases that open it, bit k − 1 for phase k ([`phase_mask`]); 0 without a signal.
    pub mask: u32,
    /// The volume that stands on it at the start, before the past steps.
    pub standing: u32,
    /// The volume that waits outside at time 0.
    pub waiting: u32,
}

/// A movement from one link to another.
#[derive(Clone, Copy, Debug, Default, PartialEq, Eq, Hash)]
pub struct Movement {
    /// The link that it leaves.
    pub from: u32,
    /// The link that it enters.
    pub to: u32,
    /// The rate at which vehicles move.
    pub rate: u32,
    /// Its share of all that move from its link, in thousandths.
    pub share: u32,
}

/// A step that is past.
#[derive(Clone, Debug, Default, PartialEq, Eq, Hash)]
pub struct PastStep {
    /// Its seconds.
    pub length: u32,
    /// What entered and what left each link in it.
    pub volumes: Vec<Volumes>,
}

/// A step of the plan.
#[derive(Clone, Debug, Default, PartialEq, Eq, Hash)]
pub struct Step {
    /// Its seconds.
    pub length: u32,
    /// The volume that comes to each link in it.
    pub demands: Vec<u32>,
}

/// The mask of one phase, counted from 1: phase 3 is 4. There is none of phase 0 or of one above 32, which is 0.
///
/// ```
/// // A link that phases 1 and 3 open.
/// assert_eq!(plancheck::phase_mask(1) | plancheck::phase_mask(3), 5);
/// assert_eq!(plancheck::phase_mask(0), 0);
/// ```
#[must_use]
pub const fn phase_mask(phase: u32) -> u32 {
    match phase {
        1..=32 => 1 << (phase - 1),
        _ => 0,
    }
}

impl NetworkText {
    /// Reads a network text that the library finds valid. Numbers that are padded with zeros are written without them again.
    ///
    /// # Errors
    ///
    /// Refusals 1 to 6, 28 and 30, of [`check_network`].
    pub fn read(text: &[u8]) -> Result<NetworkText, Refusal> {
        check_network(text)?;
        let mut network = NetworkText::default();
        for line in text.split(|&byte| byte == b'\n') {
            let letter = line.first().copied().unwrap_or_default();
            network.take(letter, &read(line, letter).unwrap_or_default());
        }
        Ok(network)
    }

    /// How much it has of each.
    #[must_use]
    pub fn counts(&self) -> Counts {
        Counts {
            links: self.links.len(),
            signals: self.signals.len(),
            movements: self.movements.len(),
            steps: self.steps.len(),
            trams: self.trams.len(),
            past: self.past.len(),
        }
    }

    /// Takes a line by its letter and numbers.
    fn take(&mut self, letter: u8, numbers: &[u32]) {
        match letter {
            b'T' => self.trams.extend(Tram::read(numbers)),
            b'G' => self.signals.extend(Signal::read(numbers)),
            b'Q' => self.links.extend(Link::read(numbers)),
            b'M' => self.movements.extend(Movement::read(numbers)),
            b'H' => self.past.extend(PastStep::read(numbers)),
            b'S' => self.steps.extend(Step::read(numbers)),
            _ => {}
        }
    }
}

impl fmt::Display for NetworkText {
    fn fmt(&self, formatter: &mut fmt::Formatter<'_>) -> fmt::Result {
        let counts = [
            count(&self.links),
            count(&self.signals),
            count(&self.movements),
            count(&self.steps),
            count(&self.trams),
            count(&self.past),
        ];
        write(formatter, 'N', counts)?;
        write_all(formatter, &self.trams)?;
        write_all(formatter, &self.signals)?;
        write_all(formatter, &self.links)?;
        write_all(formatter, &self.movements)?;
        write_all(formatter, &self.past)?;
        write_all(formatter, &self.steps)
    }
}

impl Record for Tram {
    const LETTER: char = 'T';

    fn read(numbers: &[u32]) -> Option<Tram> {
        let &[signal, phase, first, last] = numbers else {
            return None;
        };
        Some(Tram {
            signal,
            phase,
            first,
            last,
        })
    }

    fn numbers(&self) -> Vec<u32> {
        vec![self.signal, self.phase, self.first, self.last]
    }
}

impl Record for Signal {
    const LETTER: char = 'G';

    fn read(numbers: &[u32]) -> Option<Signal> {
        let &[least_cycle, greatest_cycle, _, shown, shown_for, cycle_clock, ref times @ ..] = numbers else {
            return None;
        };
        let phases = pairs(times).map(|[least, greatest]| Phase { least, greatest });
        Some(Signal {
            least_cycle,
            greatest_cycle,
            shown,
            shown_for,
            cycle_clock,
            phases: phases.collect(),
        })
    }

    fn numbers(&self) -> Vec<u32> {
        let mut numbers = vec![
            self.least_cycle,
            self.greatest_cycle,
            count(&self.phases),
            self.shown,
            self.shown_for,
            self.cycle_clock,
        ];
        numbers.extend(self.phases.iter().flat_map(|phase| [phase.least, phase.greatest]));
        numbers
    }
}

impl Record for Link {
    const LETTER: char = 'Q';

    fn read(numbers: &[u32]) -> Option<Link> {
        let &[capacity, travel_time, exit_rate, signal, mask, standing, waiting] = numbers else {
            return None;
        };
        Some(Link {
            capacity,
            travel_time,
            exit_rate,
            signal,
            mask,
            standing,
            waiting,
        })
    }

    fn numbers(&self) -> Vec<u32> {
        vec![
            self.capacity,
            self.travel_time,
            self.exit_rate,
            self.signal,
            self.mask,
            self.standing,
            self.waiting,
        ]
    }
}

impl Record for Movement {
    const LETTER: char = 'M';

    fn read(numbers: &[u32]) -> Option<Movement> {
        let &[from, to, rate, share] = numbers else {
            return None;
        };
        Some(Movement { from, to, rate, share })
    }

    fn numbers(&self) -> Vec<u32> {
        vec![self.from, self.to, self.rate, self.share]
    }
}

impl Record for PastStep {
    const LETTER: char = 'H';

    fn read(numbers: &[u32]) -> Option<PastStep> {
        let (&length, volumes) = numbers.split_first()?;
        let volumes = pairs(volumes).map(|[entered, left]| Volumes { entered, left });
        Some(PastStep {
            length,
            volumes: volumes.collect(),
        })
    }

    fn numbers(&self) -> Vec<u32> {
        let volumes = self.volumes.iter().flat_map(|volumes| [volumes.entered, volumes.left]);
        [self.length].into_iter().chain(volumes).collect()
    }
}

impl Record for Step {
    const LETTER: char = 'S';

    fn read(numbers: &[u32]) -> Option<Step> {
        let (&length, demands) = numbers.split_first()?;
        Some(Step {
            length,
            demands: demands.to_vec(),
        })
    }

    fn numbers(&self) -> Vec<u32> {
        let demands = self.demands.iter().copied();
        [self.length].into_iter().chain(demands).collect()
    }
}

fn pairs(numbers: &[u32]) -> impl Iterator<Item = [u32; 2]> + '_ {
    numbers.chunks_exact(2).map(|pair| [pair[0], pair[1]])
}
