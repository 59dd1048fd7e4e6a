//! The state of one link, and refusals 19 to 21.

use crate::network::Network;
use crate::{Refusal, State};

/// Reads one link's state at one boundary from a ledger.
pub fn link_state(
    network_text: &[u8],
    ledger: &[u32],
    boundary: u64,
    link: u64,
) -> Result<State, Refusal> {
    let network = Network::read(network_text)?;
    network.judge_ledger_length(ledger.len())?;
    if boundary > network.steps.len() as u64 {
        return Err(refusal(19));
    }
    if link < 1 || link > network.links.len() as u64 {
        return Err(refusal(20));
    }
    // Both are within the judged limits from here on.
    let boundary = boundary as usize;
    let index = link as usize - 1;

    let link_count = network.links.len();
    let entered = |row: usize| u64::from(ledger[2 * row * link_count + 2 * index]);
    let left = |row: usize| u64::from(ledger[2 * row * link_count + 2 * index + 1]);

    let arrived = network.arrived(boundary, index, entered);
    let arrived = arrived.map_err(|_| refusal(21))?;
    if arrived.is_below(left(boundary)) || arrived.is_above(entered(boundary)) {
        return Err(refusal(21));
    }
    // Standing is rounded down, the rest of what the link holds is moving.
    let arrived = arrived.rounded_down();
    Ok(State {
        queued: arrived - left(boundary),
        in_transit: entered(boundary) - arrived,
    })
}

/// These refusals name neither line nor item.
fn refusal(number: u64) -> Refusal {
    Refusal::new(number, 0, 0)
}
