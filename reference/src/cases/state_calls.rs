//! The state of one link, refusals 8 and 19 to 21.

use super::past_states::past_contradictions;
use super::scenario::Moment;
use super::{refused, Answer, Call, Ledger, Maker, Scenario, Texts};
use crate::State;

/// Refusal 8: ledgers that are too short, for both calls that take one.
pub fn short_ledgers(maker: &mut Maker, scenario: &Scenario) {
    let texts = Texts::of(scenario);
    let need = scenario.ledger_need();
    let somewhat = maker.random.index(need);
    let intended = Some(Answer::Refused(refused(8, 0, 0)));
    for length in [need - 1, somewhat, 0] {
        let mut ledger = maker.draw_ledger(need);
        ledger.length = length;
        ledger.start.truncate(length);
        let question = texts.clone().question(ledger.clone(), Call::CheckPlan);
        maker.ask("8: ledger too short", question, intended);
        if length == need - 1 {
            let call = Call::LinkState {
                boundary: 0,
                link: 1,
            };
            let question = texts.clone().question(ledger.clone(), call);
            maker.ask("8: ledger too short", question, intended);
            // Before a bad plan, a bad boundary and a bad link.
            let empty_plan = texts.with_plan(Vec::new());
            let question = empty_plan.question(ledger.clone(), Call::CheckPlan);
            maker.ask("8: ledger too short, empty plan", question, intended);
            let call = Call::LinkState {
                boundary: 1000,
                link: 0,
            };
            let question = texts.clone().question(ledger, call);
            maker.ask("8: ledger too short, nothing there", question, intended);
        }
    }
}

impl Maker {
    pub fn ask_state(
        &mut self,
        scenario: &Scenario,
        name: &str,
        start: Vec<u32>,
        boundary: u64,
        link: u64,
        intended: Option<Answer>,
    ) {
        let ledger = Ledger {
            length: start.len() + self.random.pick(&[0, 0, 3]),
            start,
            fill: self.random.pick(&[0, u32::MAX]),
        };
        let call = Call::LinkState { boundary, link };
        let question = Texts::of(scenario).question(ledger, call);
        self.ask(name, question, intended);
    }
}

/// States from the ledger of the plan.
pub fn states(maker: &mut Maker, scenario: &Scenario, count: usize) {
    for _ in 0..count {
        let boundary = maker.random.index(scenario.step_count() + 1);
        let link = maker.random.index(scenario.network.links.len());
        let intended = Some(Answer::State(scenario.state(boundary, link)));
        maker.ask_state(
            scenario,
            "state of a link",
            scenario.ledger(),
            boundary as u64,
            link as u64 + 1,
            intended,
        );
    }
}

/// Refusals 19 and 20.
pub fn outside(maker: &mut Maker, scenario: &Scenario) {
    let last_boundary = scenario.step_count() as u64;
    let last_link = scenario.network.links.len() as u64;
    let most = u64::from(u32::MAX);
    let wide = 1 << 32;
    let refusal = |number| Some(Answer::Refused(refused(number, 0, 0)));
    for (boundary, link) in [
        (last_boundary + 1, 1),
        (last_boundary + 1, 0),
        (last_boundary + 1, last_link + 1),
        (most, last_link),
        (wide, 1),
    ] {
        let intended = refusal(19);
        let ledger = scenario.ledger();
        maker.ask_state(scenario, "19: boundary", ledger, boundary, link, intended);
    }
    for (boundary, link) in [
        (0, 0),
        (last_boundary, 0),
        (last_boundary, last_link + 1),
        (0, most),
        (0, wide + 1),
    ] {
        let intended = refusal(20);
        let ledger = scenario.ledger();
        maker.ask_state(scenario, "20: link", ledger, boundary, link, intended);
    }
    let state = scenario.state(scenario.step_count(), scenario.network.links.len() - 1);
    maker.ask_state(
        scenario,
        "last boundary, last link",
        scenario.ledger(),
        last_boundary,
        last_link,
        Some(Answer::State(state)),
    );
}

/// Refusal 21: ledgers that no plan has written.
pub fn contradictions(maker: &mut Maker, scenario: &Scenario) {
    for round in 0..4 {
        let link = maker.random.index(scenario.network.links.len());
        let at_travel_time =
            (0..=scenario.step_count()).find(|&boundary| scenario.entry(boundary, link).is_some());
        let boundary = match round {
            0 => scenario.step_count(),
            1 => maker.random.index(scenario.step_count() + 1),
            2 => at_travel_time.unwrap_or(0),
            // Just before the travel time, which may be at boundary 0.
            _ => at_travel_time.map_or(scenario.step_count(), |boundary| boundary - 1),
        };
        match scenario.entry(boundary, link) {
            Some(entry) if entry.elapsed > 0 => {
                let inside = Inside {
                    boundary,
                    link,
                    entry,
                    length: scenario.network.steps[entry.boundary].length,
                };
                contradictions_inside_a_step(maker, scenario, &inside);
            }
            None if !scenario.network.past.is_empty() => {
                past_contradictions(maker, scenario, boundary, link);
            }
            _ => contradictions_on_a_boundary(maker, scenario, boundary, link),
        }
    }
}

/// Ledgers where the travel time ends on a boundary or before time 0.
fn contradictions_on_a_boundary(
    maker: &mut Maker,
    scenario: &Scenario,
    boundary: usize,
    link: usize,
) {
    let link_count = scenario.network.links.len();
    let entered = scenario.entered[boundary][link];
    let left = scenario.left[boundary][link];
    let arrived = scenario.arrived[boundary][link];
    let place = |row: usize| 2 * row * link_count + 2 * link;
    let mut ask = |name: &str, row: usize, is_left: bool, value: u64, passes: bool| {
        let Ok(value) = u32::try_from(value) else {
            return;
        };
        let mut ledger = scenario.ledger();
        ledger[place(row) + usize::from(is_left)] = value;
        let value = u64::from(value);
        let (entered, left, arrived) = if row == boundary && is_left {
            (entered, value, arrived)
        } else if row == boundary {
            (value, left, arrived)
        } else {
            (entered, left, value)
        };
        let intended = if passes {
            Answer::State(State {
                queued: arrived - left,
                in_transit: entered - arrived,
            })
        } else {
            Answer::Refused(refused(21, 0, 0))
        };
        let (boundary, link) = (boundary as u64, link as u64 + 1);
        maker.ask_state(scenario, name, ledger, boundary, link, Some(intended));
    };
    ask("left equal to arrived", boundary, true, arrived, true);
    ask("21: left above arrived", boundary, true, arrived + 1, false);
    ask("entered equal to arrived", boundary, false, arrived, true);
    if arrived > 0 {
        ask(
            "21: entered below arrived",
            boundary,
            false,
            arrived - 1,
            false,
        );
    }
    ask(
        "entered at most of 32 bits",
        boundary,
        false,
        u64::from(u32::MAX),
        true,
    );
    if let Some(Moment { boundary: row, .. }) = scenario.entry(boundary, link) {
        ask("arrived equal to left", row, false, left, true);
        if left > 0 {
            ask("21: arrived below left", row, false, left - 1, false);
        }
        ask("arrived equal to entered", row, false, entered, true);
        ask("21: arrived above entered", row, false, entered + 1, false);
    } else if boundary > 0 {
        // Before the travel time row 0 has no say.
        let mut ledger = scenario.ledger();
        ledger[place(0)] = u32::MAX;
        ledger[place(0) + 1] = u32::MAX;
        maker.ask_state(
            scenario,
            "row 0 has no say before the travel time",
            ledger,
            boundary as u64,
            link as u64 + 1,
            Some(Answer::State(scenario.state(boundary, link))),
        );
    }
    // Nothing but one number everywhere.
    let fill = maker.random.pick(&[0, 1, u32::MAX]);
    maker.ask_state(
        scenario,
        "one number everywhere",
        vec![fill; scenario.ledger_need()],
        boundary as u64,
        link as u64 + 1,
        None,
    );
}

/// A link's state at a boundary whose arrivals entered inside a step: the last
/// one before the boundary has its end and the boundary in one row.
struct Inside {
    boundary: usize,
    /// From index 0.
    link: usize,
    entry: Moment,
    /// Of the step.
    length: u64,
}

/// The numbers of a ledger that such a state is read from.
#[derive(Clone, Copy)]
struct Read {
    /// Entered by the step's start and by its end.
    start: u64,
    end: u64,
    /// Entered and left by the boundary.
    entered: u64,
    left: u64,
}

impl Inside {
    fn read(&self, scenario: &Scenario) -> Read {
        Read {
            start: scenario.entered[self.entry.boundary][self.link],
            end: scenario.entered[self.entry.boundary + 1][self.link],
            entered: scenario.entered[self.boundary][self.link],
            left: scenario.left[self.boundary][self.link],
        }
    }

    /// What has arrived in parts of the step's length: the mean of start and
    /// end by the seconds after and before.
    fn arrived_parts(&self, read: Read) -> u64 {
        read.start * (self.length - self.entry.elapsed) + read.end * self.entry.elapsed
    }

    fn intended(&self, read: Read) -> Answer {
        let parts = self.arrived_parts(read);
        let is_early = read.left * self.length > parts;
        if read.end < read.start || is_early || parts > read.entered * self.length {
            return Answer::Refused(refused(21, 0, 0));
        }
        Answer::State(State {
            queued: parts / self.length - read.left,
            in_transit: read.entered - parts / self.length,
        })
    }

    /// A ledger with these numbers at their places; none if one is too large.
    fn ledger(&self, read: Read, mut ledger: Vec<u32>, link_count: usize) -> Option<Vec<u32>> {
        let place = |row: usize| 2 * row * link_count + 2 * self.link;
        for (place, value) in [
            (place(self.entry.boundary), read.start),
            (place(self.entry.boundary + 1), read.end),
            (place(self.boundary), read.entered),
            (place(self.boundary) + 1, read.left),
        ] {
            ledger[place] = u32::try_from(value).ok()?;
        }
        Some(ledger)
    }

    fn ask(
        &self,
        maker: &mut Maker,
        scenario: &Scenario,
        name: &str,
        mut read: Read,
        others: Vec<u32>,
    ) {
        if self.entry.boundary + 1 == self.boundary {
            read.entered = read.end;
        }
        let Some(ledger) = self.ledger(read, others, scenario.network.links.len()) else {
            return;
        };
        let intended = Some(self.intended(read));
        let (boundary, link) = (self.boundary as u64, self.link as u64 + 1);
        maker.ask_state(scenario, name, ledger, boundary, link, intended);
    }
}

/// Ledgers where the travel time ends inside a step.
fn contradictions_inside_a_step(maker: &mut Maker, scenario: &Scenario, inside: &Inside) {
    let kept = scenario.ledger();
    // What other rows and links hold has no say, falling or not.
    let falling: Vec<u32> = (0..scenario.ledger_need() as u32).rev().collect();
    let mut ask = |name: &str, read: Read, others: &[u32]| {
        inside.ask(maker, scenario, name, read, others.to_vec());
    };
    let read = inside.read(scenario);
    let parts = inside.arrived_parts(read);
    let down = parts / inside.length;
    let up = parts.div_ceil(inside.length);
    ask("a part has arrived", read, &kept);
    ask("a part has arrived, other rows differ", read, &falling);
    for left in [down, down + 1] {
        let name = "left at or above the part that has arrived";
        ask(name, Read { left, ..read }, &kept);
    }
    for entered in [up, up.saturating_sub(1)] {
        let name = "entered at or below the part that has arrived";
        ask(name, Read { entered, ..read }, &kept);
    }
    let name = "entered falls over the step or stays";
    for end in [read.start, read.start.saturating_sub(1)] {
        ask(name, Read { end, ..read }, &kept);
    }
    for start in [read.end, read.end + 1, 0] {
        ask(name, Read { start, ..read }, &kept);
    }
    let most = u64::from(u32::MAX);
    for (start, end, entered) in [
        (0, 1, 0),
        (0, 1, 1),
        (most - 1, most, most),
        (0, most, most),
    ] {
        let read = Read {
            start,
            end,
            entered,
            left: 0,
        };
        let down = inside.arrived_parts(read) / inside.length;
        for left in [0, down, down + 1] {
            let name = "ends of 32 bits inside a step";
            ask(name, Read { left, ..read }, &falling);
        }
    }
}
