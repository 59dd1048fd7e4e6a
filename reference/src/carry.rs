//! Carrying on from a boundary: the network from there on, and refusals 31 and
//! 32.

use crate::network::{Network, PastStep, Tram};
use crate::plan::{self, Judged};
use crate::Refusal;

/// Writes the carried network at the start of the buffer and gives its length.
/// The first steps are judged on the network cut to them; nothing is written to
/// the buffer unless they pass and it is long enough.
pub fn carry_on(
    network_text: &[u8],
    boundary: u64,
    plan_text: &[u8],
    ledger: &mut [u32],
    buffer: &mut [u8],
) -> Result<usize, Refusal> {
    let network = Network::read(network_text)?;
    let steps = network.steps.len() as u64;
    if boundary < 1 || boundary >= steps {
        return Err(Refusal::new(31, 0, 0));
    }
    let boundary = boundary as usize;
    let judged = plan::judge(&cut(&network, boundary), plan_text, ledger)?;
    let text = carried(&network, boundary, &judged).text();
    if buffer.len() < text.len() {
        return Err(Refusal::new(32, 0, 0));
    }
    buffer[..text.len()].copy_from_slice(&text);
    Ok(text.len())
}

/// The network of the steps up to a boundary.
fn cut(network: &Network, boundary: usize) -> Network {
    let last = boundary as u64;
    let clipped = |tram: &Tram| Tram {
        last: tram.last.min(last),
        ..*tram
    };
    let trams = network.trams.iter().map(clipped);
    Network {
        trams: trams.filter(|tram| tram.first <= tram.last).collect(),
        steps: network.steps[..boundary].to_vec(),
        ..network.clone()
    }
}

/// The network of the steps after a boundary, the first ones being past.
fn carried(network: &Network, boundary: usize, judged: &Judged) -> Network {
    let mut carried = network.clone();
    carried.trams = trams_after(&network.trams, boundary as u64);
    // The last ordinary phase, whatever a tram has shown since.
    for (signal, showing) in carried.signals.iter_mut().zip(&judged.passed.showing) {
        signal.shown_phase = showing.phase;
        signal.shown_seconds = showing.run;
        signal.clock = showing.cycle;
    }
    for (index, link) in carried.links.iter_mut().enumerate() {
        link.waiting = network.offered(index, boundary) - judged.passed.admitted[index];
    }
    let past_steps = (1..=boundary).map(|step| past_step(network, step, judged));
    carried.past.extend(past_steps);
    carried.steps.drain(..boundary);
    carried
}

/// Clipped, dropped if nothing is left, with the steps counted from the
/// boundary.
fn trams_after(trams: &[Tram], boundary: u64) -> Vec<Tram> {
    let later = trams.iter().filter(|tram| tram.last > boundary);
    let counted = later.map(|tram| Tram {
        first: tram.first.max(boundary + 1) - boundary,
        last: tram.last - boundary,
        ..*tram
    });
    counted.collect()
}

/// A judged step (from 1) as one of the past.
fn past_step(network: &Network, step: usize, judged: &Judged) -> PastStep {
    let volumes = |rows: &[Vec<u64>]| {
        let rows = rows[step].iter().zip(&rows[step - 1]);
        rows.map(|(after, before)| after - before).collect()
    };
    let curves = &judged.passed.curves;
    PastStep {
        length: network.steps[step - 1].length,
        entered: volumes(&curves.entered),
        left: volumes(&curves.left),
    }
}
