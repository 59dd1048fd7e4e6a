//! Carrying on from a boundary: the written network, and refusals 31, 8, those
//! of the plan, and 32.

use super::plan_breaches::draw_breaches;
use super::{refused, Answer, Call, Maker, Question, Scenario, Sheet, Texts};
use crate::Refusal;

impl Maker {
    /// Any call to carry on with these texts.
    pub fn carry_question(&mut self, texts: Texts, need: usize) -> Question {
        let boundary = self.random.between(0, 130);
        let ledger = self.draw_ledger(need);
        let room = self.random.pick(&[0, 100, 2000]);
        Question {
            buffer: self.draw_buffer(room),
            ..texts.question(ledger, Call::CarryOn { boundary })
        }
    }

    /// A call with enough room, for the ledger too.
    pub fn carry(&mut self, scenario: &Scenario, texts: Texts, boundary: usize) -> Question {
        let need = 2 * (boundary + 1) * scenario.network.links.len();
        let call = Call::CarryOn {
            boundary: boundary as u64,
        };
        let room = Sheet::of_network(&scenario.network).text().len() + 1000;
        Question {
            buffer: self.draw_buffer(room),
            ..texts.question(self.draw_ledger(need), call)
        }
    }

    fn ask_refused_carry(&mut self, name: &str, question: Question, refusal: Refusal) {
        self.ask_text(name, question, Err(refusal));
    }
}

/// The first boundary, the last one and some other at which one can carry on.
fn boundaries(maker: &mut Maker, scenario: &Scenario) -> Vec<usize> {
    let last = scenario.step_count() - 1;
    if last == 0 {
        return Vec::new();
    }
    let mut boundaries = vec![1, last, 1 + maker.random.index(last)];
    boundaries.sort();
    boundaries.dedup();
    boundaries
}

/// Both parts of the plan, with buffers that are long enough or not.
pub fn carried(maker: &mut Maker, scenario: &Scenario) {
    for boundary in boundaries(maker, scenario) {
        let rest = scenario.carried(boundary);
        let text = Sheet::of_network(&rest.network).text();
        let texts = scenario.texts_up_to(boundary);
        let question = maker.carry(scenario, texts, boundary);
        let mut with_room = |name: &str, room: usize| {
            let mut question = question.clone();
            question.buffer.length = room;
            let is_enough = room >= text.len();
            let intended = is_enough.then(|| text.clone()).ok_or(refused(32, 0, 0));
            maker.ask_text(name, question, intended);
        };
        with_room("carried network", text.len() + 40);
        with_room("carried, buffer just long enough", text.len());
        with_room("32: buffer one byte too short", text.len() - 1);
        with_room("32: no buffer", 0);

        let intended = Some(Answer::PlanAccepted(rest.totals()));
        let need = rest.ledger_need();
        maker.ask_plan("rest of a plan", Texts::of(&rest), need, intended);
        let first = scenario.cut(boundary);
        let intended = Some(Answer::PlanAccepted(first.totals()));
        let need = first.ledger_need();
        maker.ask_plan("first part of a plan", Texts::of(&first), need, intended);
        carried_twice(maker, scenario, boundary);
    }
}

/// Carrying on twice gives what carrying on once by both gives.
fn carried_twice(maker: &mut Maker, scenario: &Scenario, boundary: usize) {
    let rest = scenario.carried(boundary);
    for further in boundaries(maker, &rest).into_iter().take(1) {
        let text = Sheet::of_network(&scenario.carried(boundary + further).network).text();
        let question = maker.carry(&rest, rest.texts_up_to(further), further);
        maker.ask_text("carried twice", question, Ok(text));
    }
}

/// Refusals 31 and 8, and what comes before them.
pub fn refused_calls(maker: &mut Maker, scenario: &Scenario) {
    let steps = scenario.step_count() as u64;
    let texts = Texts::of(scenario);
    let mut outside = vec![0, steps, steps + 1, u64::from(u32::MAX)];
    if maker.random.chance(20) {
        outside.push((1 << 32) + 1);
    }
    for boundary in outside {
        let mut question = maker.carry(scenario, texts.clone(), 1);
        question.call = Call::CarryOn { boundary };
        maker.ask_refused_carry("31: boundary", question.clone(), refused(31, 0, 0));
        // Before the ledger, the plan and the buffer.
        question.ledger.length = 0;
        question.ledger.start.clear();
        question.plan = b"x".to_vec();
        question.buffer.length = 0;
        let name = "31: before the ledger and the plan";
        maker.ask_refused_carry(name, question, refused(31, 0, 0));
    }
    for boundary in boundaries(maker, scenario) {
        let need = 2 * (boundary + 1) * scenario.network.links.len();
        let texts = scenario.texts_up_to(boundary);
        let mut question = maker.carry(scenario, texts, boundary);
        question.ledger.length = need - 1;
        question.ledger.start.truncate(need - 1);
        let name = "8: ledger one too short for the first steps";
        maker.ask_refused_carry(name, question.clone(), refused(8, 0, 0));
        question.plan = b"x".to_vec();
        let name = "8: before the plan that is carried on";
        maker.ask_refused_carry(name, question, refused(8, 0, 0));
    }
}

/// The plan's refusals on the cut network: its form, a broken rule, and an empty
/// plan.
pub fn refused_plans(maker: &mut Maker, scenario: &Scenario) {
    for boundary in boundaries(maker, scenario) {
        let texts = scenario.texts_up_to(boundary);
        let longer = scenario.texts_up_to(boundary + 1);
        let question = maker.carry(scenario, longer, boundary);
        let name = "9: a line more than steps to carry on from";
        maker.ask_refused_carry(name, question, refused(9, boundary + 1, 0));
        if boundary > 1 {
            let shorter = scenario.texts_up_to(boundary - 1);
            let question = maker.carry(scenario, shorter, boundary);
            let name = "9: a line fewer than steps to carry on from";
            maker.ask_refused_carry(name, question, refused(9, boundary, 0));
        }
        let mut unfinished = texts.clone();
        unfinished.plan.pop();
        let mut question = maker.carry(scenario, unfinished, boundary);
        question.buffer.length = 0;
        let name = "9: unfinished plan to carry on, no buffer";
        maker.ask_refused_carry(name, question, refused(9, boundary, 0));
        for (plan, refusal) in draw_breaches(maker, scenario, boundary, 3) {
            let texts = Texts::new(&scenario.network, &plan);
            let mut question = maker.carry(scenario, texts, boundary);
            if maker.random.chance(30) {
                question.buffer.length = 0;
            }
            let name = format!("{}: in a plan to carry on", refusal.number);
            maker.ask_refused_carry(&name, question, refusal);
        }
        let question = maker.carry(scenario, texts.with_plan(Vec::new()), boundary);
        maker.ask("empty plan to carry on", question, None);
    }
}
