//! The stored form of splits.
//!
//! All numbers are little-endian; `u32` takes four bytes.
//!
//! ```text
//! 8 bytes  "HALFCASE"
//! u32      version of this form: 1
//! u32      number of cases
//! ```
//!
//! Then, for each case:
//!
//! ```text
//! u32      length of the network text in bytes; its bytes follow
//! u32      length of the plan text in bytes; its bytes follow
//! u32      the set of links in the first half, bit i-1 for link i
//! u32 x 4  lengths of the buffers: for network and plan of the first half, then
//!          of the second
//! u32      what each byte of the buffers is before the call
//! u32      number of the refusal, 0 where the texts are written
//! u32 x 2  line and item of the refusal; 0 where the texts are written
//! ```
//!
//! and four times, in the order of the buffers:
//!
//! ```text
//! u32      length of the text that is written to the buffer, in bytes, 0 where the
//!          call is refused; its bytes follow. Past them the buffer is as it was
//! ```

use super::splits::SplitCase;

const MAGIC: &[u8; 8] = b"HALFCASE";
const VERSION: u32 = 1;

/// The stored form of splits.
pub fn encode_splits(cases: &[SplitCase]) -> Vec<u8> {
    let mut bytes = MAGIC.to_vec();
    push_number(&mut bytes, VERSION.into());
    push_number(&mut bytes, cases.len() as u64);
    for case in cases {
        encode_case(&mut bytes, case);
    }
    bytes
}

fn encode_case(bytes: &mut Vec<u8>, case: &SplitCase) {
    let question = &case.question;
    push_text(bytes, &question.network);
    push_text(bytes, &question.plan);
    push_number(bytes, question.first_half.into());
    for room in question.room {
        push_number(bytes, room as u64);
    }
    push_number(bytes, question.fill.into());
    let (refusal, texts) = match &case.answer {
        Ok(texts) => ([0; 3], texts.clone()),
        Err(refusal) => {
            let numbers = [refusal.number, refusal.line, refusal.item];
            (numbers, Default::default())
        }
    };
    for number in refusal {
        push_number(bytes, number);
    }
    for text in &texts {
        push_text(bytes, text);
    }
}

fn push_text(bytes: &mut Vec<u8>, text: &[u8]) {
    push_number(bytes, text.len() as u64);
    bytes.extend(text);
}

fn push_number(bytes: &mut Vec<u8>, number: u64) {
    let number = u32::try_from(number).expect("every number of the form has 32 bits");
    bytes.extend(number.to_le_bytes());
}
