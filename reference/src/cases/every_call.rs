//! Networks and plans that one call refused, asked of the later calls too: each
//! number of a network and of a plan is reported by every call that judges one.

use super::sheet_calls::sheet;
use super::{Answer, Buffer, Call, Draft, Ledger, Maker, Question, Texts};
use crate::{Network, Refusal, RefusedPlan};

const OF_NETWORKS: [u64; 8] = [1, 2, 3, 4, 5, 6, 28, 30];
const OF_PLANS: [u64; 14] = [9, 10, 11, 12, 13, 14, 15, 16, 17, 18, 25, 26, 27, 29];

impl Maker {
    /// Some questions of this call that are refused with this number, and how.
    fn refused_before(&mut self, call: Call, number: u64, count: usize) -> Vec<(Draft, Refusal)> {
        let asked = self
            .drafts
            .iter()
            .filter(|draft| draft.question.call == call);
        let mut found: Vec<(Draft, Refusal)> = asked
            .filter_map(|draft| match draft.intended {
                Some(Answer::Refused(refusal)) => Some((draft.clone(), refusal)),
                _ => None,
            })
            .filter(|(_, refusal)| refusal.number == number)
            .collect();
        self.random.shuffle(&mut found);
        found.truncate(count);
        found
    }

    /// A plan that passes on this network, where one was asked about.
    fn accepted_plan(&self, network: &[u8]) -> Option<Vec<u8>> {
        let mut drafts = self.drafts.iter();
        let accepted = drafts.find(|draft| {
            let is_accepted = matches!(draft.intended, Some(Answer::PlanAccepted(_)));
            is_accepted && draft.question.network == network
        });
        accepted.map(|draft| draft.question.plan.clone())
    }

    fn ask_compared_refusal(
        &mut self,
        name: &str,
        question: Question,
        refusal: Refusal,
        plan: u64,
    ) {
        let told = Answer::RefusedPlan(RefusedPlan { refusal, plan });
        self.ask(name, question, Some(told));
    }
}

/// A refused network comes before everything else that a call is given.
pub fn refused_networks(maker: &mut Maker, count: usize) {
    for number in OF_NETWORKS {
        for (draft, refusal) in maker.refused_before(Call::CheckNetwork, number, count) {
            let name = format!("{number}: told by every call");
            let given = |second: &str, call| {
                let texts = Texts {
                    network: draft.question.network.clone(),
                    plan: b"x\n".to_vec(),
                };
                Question {
                    second: second.into(),
                    buffer: Buffer { length: 3, fill: 1 },
                    ..texts.question(Ledger::default(), call)
                }
            };
            maker.ask_text(&name, given("", Call::PlanFromListing), Err(refusal));
            maker.ask_text(&name, given("", Call::PlanFromSheet), Err(refusal));
            let kept = Some(Answer::Refused(refusal));
            maker.ask(&name, given("x\n", Call::CheckSheet), kept);
            maker.ask_compared_refusal(&name, given("x\n", Call::ComparePlans), refusal, 0);
        }
    }
}

/// The lines up to the refused one, to be carried on from there.
fn carried_refusal(maker: &mut Maker, name: &str, asked: &Question, refusal: Refusal) {
    let boundary = refusal.line;
    let lines = asked.plan.split_inclusive(|&byte| byte == b'\n');
    let question = Question {
        plan: lines.take(boundary as usize).flatten().copied().collect(),
        call: Call::CarryOn { boundary },
        ..asked.clone()
    };
    maker.ask_text(name, question, Err(refusal));
}

/// A refused plan, held to a sheet of the least durations, carried on from the
/// refused step, and compared as the first plan and as the second.
pub fn refused_plans(maker: &mut Maker, count: usize) {
    for number in OF_PLANS {
        for (draft, refusal) in maker.refused_before(Call::CheckPlan, number, count) {
            let name = format!("{number}: told by every call that judges a plan");
            let asked = draft.question;
            let network =
                Network::read(&asked.network).expect("the plan is refused, not the network");
            let signals = network.signals.iter();
            let durations: Vec<Vec<u64>> = signals
                .map(|signal| signal.phases.iter().map(|phase| phase.least).collect())
                .collect();
            let kept = Question {
                second: sheet(&durations, None).text(),
                call: Call::CheckSheet,
                ..asked.clone()
            };
            maker.ask(&name, kept, Some(Answer::Refused(refusal)));
            if number != 9 && refusal.line < network.steps.len() as u64 {
                carried_refusal(maker, &name, &asked, refusal);
            }
            let first = Question {
                second: b"x\n".to_vec(),
                call: Call::ComparePlans,
                ..asked.clone()
            };
            maker.ask_compared_refusal(&name, first, refusal, 1);
            let Some(accepted) = maker.accepted_plan(&asked.network) else {
                continue;
            };
            let second = Question {
                plan: accepted,
                second: asked.plan.clone(),
                second_ledger: Ledger {
                    start: Vec::new(),
                    ..asked.ledger.clone()
                },
                call: Call::ComparePlans,
                ..asked
            };
            maker.ask_compared_refusal(&name, second, refusal, 2);
        }
    }
}
