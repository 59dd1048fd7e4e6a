//! The text that the program `plancheck` prints.

use crate::network::Network;
use crate::text::write_record;
use crate::{check_plan, Refusal, Totals};

/// The greatest number of bytes of `network.tsv`.
pub const NETWORK_FILE_LIMIT: usize = 16_384;
/// The greatest number of bytes of `plan.tsv`.
pub const PLAN_FILE_LIMIT: usize = 24_576;

/// A ledger that is long enough for every network: 120 steps and 24 links.
const LEDGER_LENGTH: usize = 2 * (120 + 1) * 24;

/// What is printed for two texts: the totals and all rows, or the refusal.
pub fn report(network: &[u8], plan: &[u8]) -> Vec<u8> {
    let mut ledger = vec![0; LEDGER_LENGTH];
    let judged = check_plan(network, plan, &mut ledger)
        .and_then(|totals| Network::read(network).map(|network| (network, totals)));
    match judged {
        Ok((network, totals)) => accepted(&network, &totals, &ledger),
        Err(refusal) => refused(&refusal),
    }
}

/// What is printed for a file that is too long or cannot be read: 1 for the
/// network, 2 for the plan.
pub fn file_refusal(file: u64) -> Vec<u8> {
    let mut output = Vec::new();
    write_record(&mut output, b'L', &[file]);
    output
}

fn accepted(network: &Network, totals: &Totals, ledger: &[u32]) -> Vec<u8> {
    let mut output = Vec::new();
    write_record(
        &mut output,
        b'A',
        &[
            totals.admitted,
            totals.let_out,
            totals.inside,
            totals.doubled_time,
        ],
    );
    let row_length = 2 * network.links.len();
    for (boundary, time) in network.times().into_iter().enumerate() {
        let mut numbers = vec![boundary as u64, time];
        let row = &ledger[boundary * row_length..(boundary + 1) * row_length];
        numbers.extend(row.iter().map(|&number| u64::from(number)));
        write_record(&mut output, b'B', &numbers);
    }
    output
}

fn refused(refusal: &Refusal) -> Vec<u8> {
    let mut output = Vec::new();
    write_record(
        &mut output,
        b'R',
        &[refusal.number, refusal.line, refusal.item],
    );
    output
}
