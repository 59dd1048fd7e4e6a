//! The stored form of cases.
//!
//! A file of cases is one run of bytes, to be read from its start to its end
//! with fixed buffers. All numbers are little-endian; `u32` takes four bytes,
//! `u64` eight.
//!
//! Header:
//!
//! ```text
//! 8 bytes  "PLANCASE"
//! u32      version of this form: 4
//! u32      number of cases
//! u32      greatest length of a network text, in bytes
//! u32      greatest length of a plan text, listing or sheet, in bytes
//! u32      greatest length of a ledger, in 32-bit numbers
//! u32      greatest length of a buffer, in bytes
//! ```
//!
//! Then, for each case:
//!
//! ```text
//! u32      length of the network text, or 0xFFFFFFFF for the same network as
//!          in the case before; else its bytes follow
//! u32      length of the plan text (of the listing if the call is 4, of the
//!          sheet if it is 7), or 0xFFFFFFFF for the same one as in the case
//!          before; else its bytes follow
//! u32      length of the ledger, in numbers
//! u32      fill: what the ledger holds before the call, except at its start
//! u32      number of given numbers at the ledger's start (at most its length),
//!          or 0xFFFFFFFF for the same ones as in the case before; else the
//!          numbers follow, a u32 each
//! u32      length of the buffer, in bytes (0 unless the call is 4, 5 or 7)
//! u32      what each byte of the buffer is before the call
//! u32      call: 1 check a network, 2 check a plan, 3 state of one link,
//!          4 plan from a listing, 5 carry on from a boundary, 6 check a sheet,
//!          7 plan from a sheet, 8 compare two plans
//! u64      boundary (0 unless the call is 3 or 5)
//! u64      link (0 unless the call is 3)
//! u32      only if the call is 6 or 8: length of the sheet, or of the second
//!          plan; its bytes follow
//! u32 x 2  only if the call is 8: length and fill of the second plan's ledger,
//!          which has no given numbers
//! u32      answer: 0 network accepted, 1 plan accepted, 2 state, 3 refused,
//!          4 written, 5 compared
//! u64 x 4  numbers of the answer
//!            0: 0, 0, 0, 0
//!            1: admitted, let out, inside, doubled travel time
//!            2: queued (standing), in transit (moving), 0, 0
//!            3: refusal number, line, item, plan (0 unless the call is 8)
//!            4: length of the written text, 0, 0, 0
//!            5: order (1 ahead, 2 behind, 3 equal, 4 crossing), gap (modulo
//!               2^64), 0, 0
//! u64      checksum of the whole ledgers and the whole buffer after the call
//! ```
//!
//! The first case gives both texts and the ledger's start in full. "The same
//! ones as in the case before" are what that case used, whether given there or
//! taken over in turn. A text that a call has no use for (the plan in calls 1
//! and 3) is there all the same.
//!
//! The checksum is FNV-1a of 64 bits over the ledger's numbers in order, each as
//! four bytes, the lowest first, then likewise over those of the second plan's
//! ledger, then over the buffer's bytes: start with 0xCBF29CE484222325; for each
//! byte, exclusive-or it in, then multiply by 0x100000001B3, modulo 2^64.
//!
//! In a few cases of calls 3 and 5 the boundary or the link is above 4,294,967,295; a
//! program whose call takes 32-bit numbers passes those over.

use super::{Answer, Buffer, Call, Case, Ledger, Question};
use crate::{Comparison, Order, Refusal, RefusedPlan, State, Totals};

const MAGIC: &[u8; 8] = b"PLANCASE";
const VERSION: u32 = 4;
const SAME: u32 = u32::MAX;

/// The stored form of cases.
pub fn encode(cases: &[Case]) -> Vec<u8> {
    let greatest = |length: fn(&Question) -> usize| -> u32 {
        cases
            .iter()
            .map(|case| length(&case.question) as u32)
            .fold(0, u32::max)
    };
    let mut bytes = MAGIC.to_vec();
    for number in [
        VERSION,
        cases.len() as u32,
        greatest(|question| question.network.len()),
        greatest(|question| question.plan.len().max(question.second.len())),
        greatest(|question| question.ledger.length.max(question.second_ledger.length)),
        greatest(|question| question.buffer.length),
    ] {
        bytes.extend(number.to_le_bytes());
    }
    let mut before = None;
    for case in cases {
        encode_case(&mut bytes, case, before);
        before = Some(&case.question);
    }
    bytes
}

fn encode_case(bytes: &mut Vec<u8>, case: &Case, before: Option<&Question>) {
    let question = &case.question;
    let mut text = |text: &Vec<u8>, before: Option<&Vec<u8>>| {
        if before == Some(text) {
            bytes.extend(SAME.to_le_bytes());
        } else {
            bytes.extend((text.len() as u32).to_le_bytes());
            bytes.extend(text);
        }
    };
    text(&question.network, before.map(|before| &before.network));
    text(&question.plan, before.map(|before| &before.plan));

    let Ledger {
        length,
        start,
        fill,
    } = &question.ledger;
    bytes.extend((*length as u32).to_le_bytes());
    bytes.extend(fill.to_le_bytes());
    // An empty start is given as such, which takes no more room.
    if !start.is_empty() && before.is_some_and(|before| before.ledger.start == *start) {
        bytes.extend(SAME.to_le_bytes());
    } else {
        bytes.extend((start.len() as u32).to_le_bytes());
        bytes.extend(start.iter().flat_map(|number| number.to_le_bytes()));
    }

    bytes.extend((question.buffer.length as u32).to_le_bytes());
    bytes.extend(u32::from(question.buffer.fill).to_le_bytes());

    let (call, boundary, link) = match question.call {
        Call::CheckNetwork => (1u32, 0u64, 0u64),
        Call::CheckPlan => (2, 0, 0),
        Call::LinkState { boundary, link } => (3, boundary, link),
        Call::PlanFromListing => (4, 0, 0),
        Call::CarryOn { boundary } => (5, boundary, 0),
        Call::CheckSheet => (6, 0, 0),
        Call::PlanFromSheet => (7, 0, 0),
        Call::ComparePlans => (8, 0, 0),
    };
    bytes.extend(call.to_le_bytes());
    bytes.extend(boundary.to_le_bytes());
    bytes.extend(link.to_le_bytes());
    if matches!(question.call, Call::CheckSheet | Call::ComparePlans) {
        bytes.extend((question.second.len() as u32).to_le_bytes());
        bytes.extend(&question.second);
    }
    if question.call == Call::ComparePlans {
        let Ledger { length, fill, .. } = question.second_ledger;
        bytes.extend((length as u32).to_le_bytes());
        bytes.extend(fill.to_le_bytes());
    }
    encode_answer(bytes, case.outcome.answer);
    bytes.extend(case.outcome.checksum().to_le_bytes());
}

const ORDERS: [Order; 4] = [Order::Ahead, Order::Behind, Order::Equal, Order::Crossing];

fn encode_answer(bytes: &mut Vec<u8>, answer: Answer) {
    let (kind, numbers) = match answer {
        Answer::NetworkAccepted => (0u32, [0; 4]),
        Answer::PlanAccepted(totals) => (
            1,
            [
                totals.admitted,
                totals.let_out,
                totals.inside,
                totals.doubled_time,
            ],
        ),
        Answer::State(state) => (2, [state.queued, state.in_transit, 0, 0]),
        Answer::Refused(refusal) => (3, [refusal.number, refusal.line, refusal.item, 0]),
        Answer::RefusedPlan(RefusedPlan { refusal, plan }) => {
            (3, [refusal.number, refusal.line, refusal.item, plan])
        }
        Answer::Written(length) => (4, [length, 0, 0, 0]),
        Answer::Compared(Comparison { order, gap }) => {
            let place = ORDERS.iter().position(|&other| other == order);
            let place = place.expect("all orders are listed");
            (5, [place as u64 + 1, gap as u64, 0, 0])
        }
    };
    bytes.extend(kind.to_le_bytes());
    for number in numbers {
        bytes.extend(number.to_le_bytes());
    }
}

/// A stored case: its question, its answer and the checksum of what is written.
pub type Stored = (Question, Answer, u64);

/// Reads the stored form; nothing if the bytes are not of that form.
pub fn decode(bytes: &[u8]) -> Option<Vec<Stored>> {
    let mut reader = Reader { rest: bytes };
    if reader.take(8)? != MAGIC || reader.u32()? != VERSION {
        return None;
    }
    let count = reader.u32()?;
    let _greatest_network_length = reader.u32()?;
    let _greatest_plan_length = reader.u32()?;
    let _greatest_ledger_length = reader.u32()?;
    let _greatest_buffer_length = reader.u32()?;
    let mut cases: Vec<Stored> = Vec::new();
    for _ in 0..count {
        let before = cases.last().map(|case| &case.0);
        let case = reader.case(before)?;
        cases.push(case);
    }
    reader.rest.is_empty().then_some(cases)
}

struct Reader<'a> {
    rest: &'a [u8],
}

impl<'a> Reader<'a> {
    fn take(&mut self, length: usize) -> Option<&'a [u8]> {
        let (taken, rest) = self.rest.split_at_checked(length)?;
        self.rest = rest;
        Some(taken)
    }

    fn u32(&mut self) -> Option<u32> {
        Some(u32::from_le_bytes(self.take(4)?.try_into().ok()?))
    }

    fn u64(&mut self) -> Option<u64> {
        Some(u64::from_le_bytes(self.take(8)?.try_into().ok()?))
    }

    fn text(&mut self, before: Option<&Vec<u8>>) -> Option<Vec<u8>> {
        match self.u32()? {
            SAME => before.cloned(),
            length => Some(self.take(length as usize)?.to_vec()),
        }
    }

    fn case(&mut self, before: Option<&Question>) -> Option<Stored> {
        let network = self.text(before.map(|before| &before.network))?;
        let plan = self.text(before.map(|before| &before.plan))?;
        let length = self.u32()? as usize;
        let fill = self.u32()?;
        let start = match self.u32()? {
            SAME => before?.ledger.start.clone(),
            count => {
                let numbers = self.take(4 * count as usize)?;
                numbers
                    .chunks(4)
                    .map(|bytes| u32::from_le_bytes([bytes[0], bytes[1], bytes[2], bytes[3]]))
                    .collect()
            }
        };
        let buffer = Buffer {
            length: self.u32()? as usize,
            fill: u8::try_from(self.u32()?).ok()?,
        };
        let call = self.u32()?;
        let boundary = self.u64()?;
        let link = self.u64()?;
        let call = match call {
            1 => Call::CheckNetwork,
            2 => Call::CheckPlan,
            3 => Call::LinkState { boundary, link },
            4 => Call::PlanFromListing,
            5 => Call::CarryOn { boundary },
            6 => Call::CheckSheet,
            7 => Call::PlanFromSheet,
            8 => Call::ComparePlans,
            _ => return None,
        };
        let second = match call {
            Call::CheckSheet | Call::ComparePlans => self.text(None)?,
            _ => Vec::new(),
        };
        let second_ledger = match call {
            Call::ComparePlans => Ledger {
                length: self.u32()? as usize,
                start: Vec::new(),
                fill: self.u32()?,
            },
            _ => Ledger::default(),
        };
        let answer = self.answer(call)?;
        let question = Question {
            network,
            plan,
            second,
            ledger: Ledger {
                length,
                start,
                fill,
            },
            second_ledger,
            buffer,
            call,
        };
        Some((question, answer, self.u64()?))
    }

    fn answer(&mut self, call: Call) -> Option<Answer> {
        let kind = self.u32()?;
        let numbers = [self.u64()?, self.u64()?, self.u64()?, self.u64()?];
        Some(match kind {
            0 => Answer::NetworkAccepted,
            1 => Answer::PlanAccepted(Totals {
                admitted: numbers[0],
                let_out: numbers[1],
                inside: numbers[2],
                doubled_time: numbers[3],
            }),
            2 => Answer::State(State {
                queued: numbers[0],
                in_transit: numbers[1],
            }),
            3 => {
                let [number, line, item, plan] = numbers;
                let refusal = Refusal::new(number, line, item);
                match call {
                    Call::ComparePlans => Answer::RefusedPlan(RefusedPlan { refusal, plan }),
                    _ => Answer::Refused(refusal),
                }
            }
            4 => Answer::Written(numbers[0]),
            5 => Answer::Compared(Comparison {
                order: *ORDERS.get((numbers[0] as usize).checked_sub(1)?)?,
                gap: numbers[1] as i64,
            }),
            _ => return None,
        })
    }
}
