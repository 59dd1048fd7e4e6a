//! Fixed-time sheets: whether a plan keeps one, the plan that one asks for, and
//! refusals 33 to 35.

use crate::network::{Network, Signal};
use crate::plan::{self, PlanStep};
use crate::text::{Line, Lines};
use crate::{Refusal, Totals};

/// An `F` line: how long one signal shows each phase.
struct SheetLine {
    durations: Vec<u64>,
    /// Seconds of the cycle already run at time 0; none in a sheet to be kept.
    offset: Option<u64>,
}

/// Whether the lines of a sheet end in an offset.
#[derive(Clone, Copy, PartialEq, Eq)]
enum Offsets {
    Absent,
    Given,
}

pub fn check_sheet(
    network_text: &[u8],
    plan_text: &[u8],
    sheet_text: &[u8],
    ledger: &mut [u32],
) -> Result<Totals, Refusal> {
    let network = Network::read(network_text)?;
    let sheet = read(sheet_text, &network, Offsets::Absent)?;
    let judged = plan::judge(&network, plan_text, ledger)?;
    if let Some((line, signal)) = first_other_duration(&network, &judged.steps, &sheet) {
        return Err(Refusal::new(34, line, signal));
    }
    Ok(plan::totals(&network, &judged))
}

/// Writes the plan at the start of the buffer and gives its length.
pub fn write_plan(
    network_text: &[u8],
    sheet_text: &[u8],
    buffer: &mut [u8],
) -> Result<usize, Refusal> {
    let network = Network::read(network_text)?;
    let sheet = read(sheet_text, &network, Offsets::Given)?;
    for (signal, line) in sheet.iter().enumerate() {
        if has_trams(&network, signal) || !ends_on_boundaries(&network, line) {
            return Err(Refusal::new(35, 0, signal as u64 + 1));
        }
    }
    let text = plan::text(&planned(&network, &sheet));
    if buffer.len() < text.len() {
        return Err(Refusal::new(24, 0, 0));
    }
    buffer[..text.len()].copy_from_slice(&text);
    Ok(text.len())
}

/// One line a signal, and nothing after them.
fn read(text: &[u8], network: &Network, offsets: Offsets) -> Result<Vec<SheetLine>, Refusal> {
    let mut lines = Lines::new(text);
    let mut sheet = Vec::new();
    for signal in &network.signals {
        let line = lines.take();
        let read = read_line(&line, signal, offsets);
        sheet.push(read.ok_or(Refusal::new(33, line.number, 0))?);
    }
    match lines.surplus() {
        Some(line) => Err(Refusal::new(33, line, 0)),
        None => Ok(sheet),
    }
}

/// Each duration within its phase's limits, the offset below their sum.
fn read_line(line: &Line, signal: &Signal, offsets: Offsets) -> Option<SheetLine> {
    let phases = signal.phases.len();
    let has_offset = offsets == Offsets::Given;
    let mut durations = line.numbers(b'F', phases + usize::from(has_offset))?;
    let offset = durations.drain(phases..).next();
    let mut pairs = durations.iter().zip(&signal.phases);
    let are_within =
        pairs.all(|(&duration, phase)| (phase.least..=phase.greatest).contains(&duration));
    let is_below = offset.is_none_or(|offset| offset < durations.iter().sum());
    (are_within && is_below).then_some(SheetLine { durations, offset })
}

/// The ordinary steps, as long as there are, in which a signal shows one phase.
struct Run {
    phase: u64,
    /// The first and the last step, from 1; none in the run that the phase shown
    /// before the plan has had by time 0.
    first: Option<usize>,
    last: usize,
    seconds: u64,
}

/// The runs of a signal (from index 0), that of the phase shown before the plan
/// first.
fn runs(network: &Network, steps: &[PlanStep], signal: usize) -> Vec<Run> {
    let mut runs = vec![Run {
        phase: network.signals[signal].shown_phase,
        first: None,
        last: 0,
        seconds: 0,
    }];
    for (index, step) in steps.iter().enumerate() {
        let number = index + 1;
        if network.tram_phase(signal, number).is_some() {
            continue;
        }
        let phase = u64::from(step.masks[signal].trailing_zeros()) + 1;
        let run = runs.last_mut().expect("there is a first one");
        if run.phase == phase {
            run.last = number;
            run.seconds += network.steps[index].length;
        } else {
            runs.push(Run {
                phase,
                first: Some(number),
                last: number,
                seconds: network.steps[index].length,
            });
        }
    }
    runs
}

/// Rule 34: the line and the signal, both from 1, of the first run of another
/// duration that begins in the plan, at the greatest cycle or later, and is left
/// in it.
fn first_other_duration(
    network: &Network,
    steps: &[PlanStep],
    sheet: &[SheetLine],
) -> Option<(u64, u64)> {
    let times = network.times();
    let mut others = Vec::new();
    for (index, signal) in network.signals.iter().enumerate() {
        let mut left = runs(network, steps, index);
        left.pop();
        for run in left {
            let begins = run.first.map(|first| times[first - 1]);
            let is_tested = begins.is_some_and(|time| time >= signal.greatest_cycle);
            if is_tested && run.seconds != sheet[index].durations[run.phase as usize - 1] {
                others.push((run.last as u64, index as u64 + 1));
            }
        }
    }
    others.into_iter().min()
}

fn has_trams(network: &Network, signal: usize) -> bool {
    let mut trams = network.trams.iter();
    trams.any(|tram| tram.signal == signal as u64 + 1)
}

/// The phase, from index 0, that the repeated cycle shows from a time on.
fn phase_at(line: &SheetLine, time: u64) -> usize {
    let cycle: u64 = line.durations.iter().sum();
    let offset = line.offset.expect("the sheet has offsets");
    let mut seconds = (offset + time) % cycle;
    let mut phase = 0;
    while seconds >= line.durations[phase] {
        seconds -= line.durations[phase];
        phase += 1;
    }
    phase
}

/// Every run that ends before the horizon ends on a boundary.
fn ends_on_boundaries(network: &Network, line: &SheetLine) -> bool {
    let times = network.times();
    let horizon = times[network.steps.len()];
    let mut ends = (1..horizon).filter(|&time| phase_at(line, time - 1) != phase_at(line, time));
    ends.all(|time| times.contains(&time))
}

/// The masks of the cycle, with every volume 0.
fn planned(network: &Network, sheet: &[SheetLine]) -> Vec<PlanStep> {
    let starts = &network.times()[..network.steps.len()];
    let steps = starts.iter().map(|&start| PlanStep {
        masks: sheet
            .iter()
            .map(|line| 1 << phase_at(line, start))
            .collect(),
        ..PlanStep::of_zeros(network)
    });
    steps.collect()
}
