//! The stored form of corridors in cells.
//!
//! All numbers are little-endian; `u32` takes four bytes, `u64` eight.
//!
//! ```text
//! 8 bytes  "CELLCASE"
//! u32      version of this form: 1
//! u32      number of cases
//! ```
//!
//! Then, for each case:
//!
//! ```text
//! u32      length of the corridor's text in bytes; its bytes follow
//! u32      number of the refusal, 0 where the corridor has run
//! u32 x 2  line and item of the refusal; 0 where the corridor has run
//! u32      number of cells; 0 where the corridor is refused
//! u64 x 2  total flow in and total flow out; 0 where the corridor is refused
//! u32 x 64 the volumes after the last step; 0 past the cells, and all 0 where
//!          the corridor is refused
//! ```

use super::corridors::CorridorCase;
use crate::cells::Run;
use crate::Refusal;

const MAGIC: &[u8; 8] = b"CELLCASE";
const VERSION: u32 = 1;
/// As many volumes are stored, whatever the number of cells.
const MOST_CELLS: usize = 64;

/// The stored form of corridors.
pub fn encode_corridors(cases: &[CorridorCase]) -> Vec<u8> {
    let mut bytes = MAGIC.to_vec();
    bytes.extend(VERSION.to_le_bytes());
    bytes.extend((cases.len() as u32).to_le_bytes());
    for case in cases {
        bytes.extend((case.text.len() as u32).to_le_bytes());
        bytes.extend(&case.text);
        match &case.run {
            Ok(run) => encode_run(&mut bytes, run),
            Err(refusal) => encode_refusal(&mut bytes, refusal),
        }
    }
    bytes
}

fn encode_run(bytes: &mut Vec<u8>, run: &Run) {
    for number in [0, 0, 0, run.volumes.len() as u32] {
        bytes.extend(number.to_le_bytes());
    }
    for total in [run.flow_in, run.flow_out] {
        bytes.extend(total.to_le_bytes());
    }
    let mut volumes: Vec<u32> = run.volumes.iter().map(|&volume| volume as u32).collect();
    volumes.resize(MOST_CELLS, 0);
    bytes.extend(volumes.iter().flat_map(|volume| volume.to_le_bytes()));
}

fn encode_refusal(bytes: &mut Vec<u8>, refusal: &Refusal) {
    for number in [refusal.number, refusal.line, refusal.item] {
        bytes.extend((number as u32).to_le_bytes());
    }
    let rest = 4 + 2 * 8 + 4 * MOST_CELLS;
    bytes.resize(bytes.len() + rest, 0);
}
