//! The stored form of steps of vehicles along a street.
//!
//! All numbers are little-endian; `u32` takes four bytes, `u64` eight. A value is a
//! 64-bit float, and is given by its bits as a `u64`.
//!
//! ```text
//! 8 bytes  "STEPCASE"
//! u32      version of this form: 1
//! u32      number of cases
//! ```
//!
//! Then, for each case:
//!
//! ```text
//! u32 x 3  number of places, of advances and of red lines
//! value    the spacing
//! values   the places before the step, the advances, and the red lines
//! u32      number of the refusal, 0 where the vehicles have stepped
//! u32 x 2  line and item of the refusal
//! values   the places after the step, as many as before
//! ```
//!
//! A NaN is one value: whoever compares leaves aside what its bits are.

use super::streets::StreetCase;

const MAGIC: &[u8; 8] = b"STEPCASE";
const VERSION: u32 = 1;

/// The stored form of streets.
pub fn encode_streets(cases: &[StreetCase]) -> Vec<u8> {
    let mut bytes = MAGIC.to_vec();
    encode_numbers(&mut bytes, &[VERSION, cases.len() as u32]);
    for case in cases {
        encode_case(&mut bytes, case);
    }
    bytes
}

fn encode_case(bytes: &mut Vec<u8>, case: &StreetCase) {
    let street = &case.street;
    let lists = [&street.places, &street.advances, &street.red_lines];
    encode_numbers(bytes, &lists.map(|values| values.len() as u32));
    encode_values(bytes, &[street.spacing]);
    for values in lists {
        encode_values(bytes, values);
    }
    let refusal = match &case.answer {
        Ok(()) => [0; 3],
        Err(refusal) => [refusal.number, refusal.line, refusal.item],
    };
    encode_numbers(bytes, &refusal.map(|number| number as u32));
    encode_values(bytes, &case.after);
}

fn encode_numbers(bytes: &mut Vec<u8>, numbers: &[u32]) {
    bytes.extend(numbers.iter().flat_map(|number| number.to_le_bytes()));
}

fn encode_values(bytes: &mut Vec<u8>, values: &[f64]) {
    bytes.extend(values.iter().flat_map(|value| value.to_le_bytes()));
}
