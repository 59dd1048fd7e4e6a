//! One input, judged by both.

use crate::declarations::{
    ComparisonResult, CountsResult, LinkResult, NetworkResult, PlanResult, TextResult,
};
use crate::guarded::{Guarded, BYTE_GUARD};
use crate::library;
use plancheck_reference::cases::{Answer, Call, Outcome, Question};
use plancheck_reference::{Network, Order, Refusal, RefusedPlan, State, Totals};

/// What stands on both sides of a ledger.
const NUMBER_GUARD: u32 = 0xA5C3_96F0;

/// All that a call of the library gives.
#[derive(Clone, Copy, Debug, PartialEq, Eq)]
pub enum Given {
    Network(NetworkResult, CountsResult),
    Plan(PlanResult),
    Link(LinkResult),
    Text(TextResult),
    Comparison(ComparisonResult),
}

/// What the library gave for an input, and what it left in ledger and buffer.
#[derive(PartialEq, Eq)]
pub struct Asked {
    pub given: Given,
    pub ledger: Vec<u32>,
    pub second_ledger: Vec<u32>,
    pub buffer: Vec<u8>,
    pub is_guard_kept: bool,
}

/// What both said of an input.
pub struct Compared {
    pub expected: Given,
    pub outcome: Outcome,
    pub asked: Asked,
}

impl Compared {
    pub fn agree(&self) -> bool {
        self.expected == self.asked.given
            && self.outcome.ledger == self.asked.ledger
            && self.outcome.second_ledger == self.asked.second_ledger
            && self.outcome.buffer == self.asked.buffer
            && self.asked.is_guard_kept
    }
}

/// Nothing where the library has no such call: its boundaries and links are of 32 bits, and it may be an earlier one.
pub fn compare(question: &Question) -> Option<Compared> {
    let asked = ask(question)?;
    let outcome = question.judge();
    Some(Compared {
        expected: in_numbers(question, outcome.answer),
        outcome,
        asked,
    })
}

/// Lends the library the ledgers and the buffer between guards.
fn ask(question: &Question) -> Option<Asked> {
    let mut ledger = Guarded::new(&question.ledger.numbers(), NUMBER_GUARD);
    let mut second_ledger = Guarded::new(&question.second_ledger.numbers(), NUMBER_GUARD);
    let mut buffer = Guarded::new(&question.buffer.bytes(), BYTE_GUARD);
    let ledgers = [ledger.inside(), second_ledger.inside()];
    let given = ask_library(question, ledgers, buffer.inside())?;
    Some(Asked {
        given,
        is_guard_kept: ledger.is_kept() && second_ledger.is_kept() && buffer.is_kept(),
        ledger: ledger.inside().to_vec(),
        second_ledger: second_ledger.inside().to_vec(),
        buffer: buffer.inside().to_vec(),
    })
}

fn ask_library(question: &Question, ledgers: [&mut [u32]; 2], buffer: &mut [u8]) -> Option<Given> {
    let network = &question.network;
    let [ledger, second_ledger] = ledgers;
    Some(match question.call {
        Call::CheckNetwork => Given::Network(
            library::check_network(network),
            library::network_counts(network),
        ),
        Call::CheckPlan => Given::Plan(library::check_plan(network, &question.plan, ledger)),
        Call::LinkState { boundary, link } => {
            let boundary = u32::try_from(boundary).ok()?;
            let link = u32::try_from(link).ok()?;
            Given::Link(library::link_state(network, ledger, boundary, link))
        }
        Call::PlanFromListing => {
            Given::Text(library::plan_from_listing(network, &question.plan, buffer))
        }
        Call::CarryOn { boundary } => {
            let boundary = u32::try_from(boundary).ok()?;
            let plan = &question.plan;
            Given::Text(library::carry_on(network, boundary, plan, ledger, buffer))
        }
        Call::CheckSheet => {
            let (plan, sheet) = (&question.plan, &question.second);
            Given::Plan(library::check_sheet(network, plan, sheet, ledger))
        }
        Call::PlanFromSheet => {
            Given::Text(library::plan_from_sheet(network, &question.plan, buffer))
        }
        Call::ComparePlans => {
            let plans = [&question.plan[..], &question.second];
            let ledgers = [ledger, second_ledger];
            Given::Comparison(library::compare_plans(network, plans, ledgers))
        }
    })
}

/// The answer as the header puts it: number 0 where the call accepts, and 0 in each member that the answer does not name.
fn in_numbers(question: &Question, answer: Answer) -> Given {
    let (refusal, plan) = match answer {
        Answer::Refused(refusal) => (refusal, 0),
        Answer::RefusedPlan(RefusedPlan { refusal, plan }) => (refusal, plan),
        _ => (Refusal::new(0, 0, 0), 0),
    };
    let [number, line, item] = [refusal.number, refusal.line, refusal.item].map(narrow);
    match question.call {
        Call::CheckNetwork => Given::Network(
            NetworkResult { number, line, item },
            counts(&question.network, [number, line, item]),
        ),
        Call::CheckPlan | Call::CheckSheet => {
            let totals = match answer {
                Answer::PlanAccepted(totals) => totals,
                _ => Totals::default(),
            };
            Given::Plan(PlanResult {
                number,
                line,
                item,
                admitted: totals.admitted,
                let_out: totals.let_out,
                inside: totals.inside,
                doubled_time: totals.doubled_time,
            })
        }
        Call::LinkState { .. } => {
            let state = match answer {
                Answer::State(state) => state,
                _ => State::default(),
            };
            Given::Link(LinkResult {
                number,
                line,
                item,
                queued: narrow(state.queued),
                in_transit: narrow(state.in_transit),
            })
        }
        Call::PlanFromListing | Call::CarryOn { .. } | Call::PlanFromSheet => {
            let length = match answer {
                Answer::Written(length) => length as usize,
                _ => 0,
            };
            Given::Text(TextResult {
                number,
                line,
                item,
                length,
            })
        }
        Call::ComparePlans => {
            let (order, gap) = match answer {
                Answer::Compared(compared) => (order_number(compared.order), compared.gap),
                _ => (0, 0),
            };
            Given::Comparison(ComparisonResult {
                number,
                line,
                item,
                plan: narrow(plan),
                order,
                gap,
            })
        }
    }
}

fn order_number(order: Order) -> u32 {
    match order {
        Order::Ahead => 1,
        Order::Behind => 2,
        Order::Equal => 3,
        Order::Crossing => 4,
    }
}

/// What a network has; 0 of each where it is refused.
fn counts(network: &[u8], [number, line, item]: [u32; 3]) -> CountsResult {
    let counts = Network::read(network).map_or([0; 6], |network| {
        [
            network.links.len(),
            network.signals.len(),
            network.movements.len(),
            network.steps.len(),
            network.trams.len(),
            network.past.len(),
        ]
    });
    let [links, signals, movements, steps, trams, past] = counts.map(|count| narrow(count as u64));
    CountsResult {
        number,
        line,
        item,
        links,
        signals,
        movements,
        steps,
        trams,
        past,
    }
}

fn narrow(number: u64) -> u32 {
    u32::try_from(number).expect("the header has 32 bits for this number")
}
