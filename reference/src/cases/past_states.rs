//! States whose arrivals entered in the past, which only the network has.

use super::{refused, Answer, Maker, Scenario};
use crate::State;

/// What has arrived at a boundary from before time 0, in parts of a length.
#[derive(Clone, Copy)]
struct Arrival {
    parts: u64,
    length: u64,
}

/// Goes back from time 0 over the past steps.
fn arrival(scenario: &Scenario, boundary: usize, link: usize) -> Arrival {
    let travel_time = scenario.network.links[link].travel_time;
    let mut seconds = travel_time - scenario.times()[boundary];
    for (index, step) in scenario.network.past.iter().enumerate().rev() {
        if seconds <= step.length {
            let before = scenario.entered_in_past(link, index) * step.length;
            return Arrival {
                parts: before + step.entered[link] * (step.length - seconds),
                length: step.length,
            };
        }
        seconds -= step.length;
    }
    Arrival {
        parts: scenario.network.links[link].standing,
        length: 1,
    }
}

impl Arrival {
    fn state(self, entered: u64, left: u64) -> Answer {
        if left * self.length > self.parts || self.parts > entered * self.length {
            return Answer::Refused(refused(21, 0, 0));
        }
        Answer::State(State {
            queued: self.parts / self.length - left,
            in_transit: entered - self.parts / self.length,
        })
    }
}

/// Ledgers with other numbers at the boundary; its arrivals entered before time
/// 0, so that no other row has a say.
pub fn past_contradictions(maker: &mut Maker, scenario: &Scenario, boundary: usize, link: usize) {
    let arrival = arrival(scenario, boundary, link);
    let down = arrival.parts / arrival.length;
    let up = arrival.parts.div_ceil(arrival.length);
    let entered = scenario.entered[boundary][link];
    let left = scenario.left[boundary][link];
    let most = u64::from(u32::MAX);
    let place = 2 * boundary * scenario.network.links.len() + 2 * link;
    let mut ask = |name: &str, mut ledger: Vec<u32>, entered: u64, left: u64| {
        ledger[place] = entered as u32;
        ledger[place + 1] = left as u32;
        let intended = Some(arrival.state(entered, left));
        let (boundary, link) = (boundary as u64, link as u64 + 1);
        maker.ask_state(scenario, name, ledger, boundary, link, intended);
    };
    ask("arrived in the past", scenario.ledger(), entered, left);
    let others = vec![u32::MAX; scenario.ledger_need()];
    ask(
        "the past alone tells what has arrived",
        others,
        entered,
        left,
    );
    for left in [down, down + 1, most] {
        let name = "left at or above what arrived in the past";
        ask(name, scenario.ledger(), entered, left);
    }
    for entered in [up, up.saturating_sub(1), most] {
        let name = "entered at or below what arrived in the past";
        ask(name, scenario.ledger(), entered, left);
    }
}
