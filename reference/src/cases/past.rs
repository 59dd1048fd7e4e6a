//! Past steps: refusal 30 with each of its conditions, and the near misses that
//! pass.

use super::{refused, Answer, Maker, Scenario, Sheet, Texts};
use crate::{Network, PastStep};

const MOST: u64 = u32::MAX as u64;
const REFUSED: (u64, usize, usize) = (30, 0, 0);

/// A past step in which nothing happens.
fn quiet(network: &Network, length: u64) -> PastStep {
    PastStep {
        length,
        entered: vec![0; network.links.len()],
        left: vec![0; network.links.len()],
    }
}

impl Maker {
    /// A change after which the network is refused for its past or passes; the
    /// plan may not.
    fn past(
        &mut self,
        scenario: &Scenario,
        name: &str,
        passes: bool,
        change: impl FnOnce(&mut Network),
    ) {
        let mut network = scenario.network.clone();
        change(&mut network);
        let texts = Texts::new(&network, &scenario.plan);
        let need = scenario.ledger_need();
        if !passes {
            let (number, line, item) = REFUSED;
            self.ask_refused_network(name, texts, need, refused(number, line, item));
        } else if self.random.chance(60) {
            self.ask_network(name, texts, Some(Answer::NetworkAccepted));
        } else {
            self.ask_plan(name, texts, need, None);
        }
    }
}

/// The scenario itself, or with a quiet past step if it has no past: nothing
/// else changes. None if it has no room for one.
fn with_past(maker: &mut Maker, scenario: &Scenario) -> Option<Scenario> {
    let mut scenario = scenario.clone();
    if scenario.network.past.is_empty() {
        if scenario.step_count() == 120 {
            return None;
        }
        let step = quiet(&scenario.network, maker.random.between(1, 60));
        scenario.network.past.push(step);
    }
    Some(scenario)
}

pub fn past_steps(maker: &mut Maker, scenario: &Scenario) {
    counts(maker, scenario);
    let Some(scenario) = with_past(maker, scenario) else {
        return;
    };
    quiet_steps(maker, &scenario);
    lengths(maker, &scenario);
    let link = maker.random.index(scenario.network.links.len());
    left_above_arrived(maker, &scenario, link);
    above_capacity(maker, &scenario, link);
    above_all_that_may_enter(maker, &scenario, link);
    sums_above_32_bits(maker, &scenario, link);
}

/// Past and present steps together.
fn counts(maker: &mut Maker, scenario: &Scenario) {
    let room = 120 - scenario.step_count();
    for (name, count, passes) in [
        ("120 steps, past ones too", room, true),
        ("30: 121 steps, past ones too", room + 1, false),
        ("30: 120 past steps", 120, false),
    ] {
        maker.past(scenario, name, passes, |network| {
            network.past = vec![quiet(network, 1); count];
        });
    }
}

/// One more quiet step before all others changes nothing, however long it is.
fn quiet_steps(maker: &mut Maker, scenario: &Scenario) {
    if scenario.network.past.len() + scenario.step_count() == 120 {
        return;
    }
    for length in [1, 60] {
        let mut longer = scenario.clone();
        let step = quiet(&longer.network, length);
        longer.network.past.insert(0, step);
        let intended = Some(Answer::PlanAccepted(longer.totals()));
        let need = longer.ledger_need();
        maker.ask_plan("quiet past step", Texts::of(&longer), need, intended);
    }
}

fn lengths(maker: &mut Maker, scenario: &Scenario) {
    let step = maker.random.index(scenario.network.past.len());
    for length in [0, 61, MOST] {
        maker.past(scenario, "30: length of a past step", false, |network| {
            network.past[step].length = length;
        });
    }
    for length in [1, 60] {
        let name = "length of a past step at its limit";
        maker.past(scenario, name, true, |network| {
            let count = network.past.len();
            network.past = vec![quiet(network, length); count];
        });
    }
}

/// Only what has left when the past ends counts, in whichever step it left.
fn left_above_arrived(maker: &mut Maker, scenario: &Scenario, link: usize) {
    let step = maker.random.index(scenario.network.past.len());
    let spare = scenario.arrived[0][link] - scenario.left[0][link];
    for (name, volume, passes) in [
        ("all that has arrived has left", spare, true),
        ("30: one left that has not arrived", spare + 1, false),
        ("30: left at most of 32 bits", MOST, false),
    ] {
        maker.past(scenario, name, passes, |network| {
            let left = &mut network.past[step].left[link];
            *left = (*left + volume).min(MOST);
        });
    }
}

/// How much more may enter a link, all steps together.
fn may_enter(scenario: &Scenario, link: usize) -> u64 {
    let network = &scenario.network;
    let past: u64 = network.past.iter().map(|step| step.entered[link]).sum();
    let demand: u64 = network.steps.iter().map(|step| step.demand[link]).sum();
    let most = 72_000_000 + 13_800_000 * network.past.len() as u64;
    most - past - network.links[link].waiting - demand
}

fn above_capacity(maker: &mut Maker, scenario: &Scenario, link: usize) {
    let held = scenario.held_at_start(link);
    let limits = &scenario.network.links[link];
    let (name, broken) = ("full when the past ends", "30: one more than a link holds");
    if held > limits.standing {
        for (name, capacity, passes) in [(name, held, true), (broken, held - 1, false)] {
            maker.past(scenario, name, passes, |network| {
                network.links[link].capacity = capacity;
            });
        }
    }
    // More has entered, as long as nothing else is against it.
    let last = scenario.network.past.len() - 1;
    let room = limits.capacity - held;
    if room < may_enter(scenario, link) {
        for (name, volume, passes) in [(name, room, true), (broken, room + 1, false)] {
            maker.past(scenario, name, passes, |network| {
                network.past[last].entered[link] += volume;
            });
        }
    }
}

fn above_all_that_may_enter(maker: &mut Maker, scenario: &Scenario, link: usize) {
    let spare = may_enter(scenario, link);
    for (name, volume, passes) in [
        ("as much waits as may enter", spare, true),
        ("30: one more waits than may enter", spare + 1, false),
        ("30: waiting at most of 32 bits", MOST, false),
    ] {
        maker.past(scenario, name, passes, |network| {
            let waiting = &mut network.links[link].waiting;
            *waiting = (*waiting + volume).min(MOST);
        });
    }
    // Demand counts too: less of it lets more wait.
    let step = maker.random.index(scenario.step_count());
    let demand = scenario.network.steps[step].demand[link];
    maker.past(scenario, "less demand, more waits", true, |network| {
        network.steps[step].demand[link] = 0;
        network.links[link].waiting += spare + demand;
    });
}

/// Sums that 32 bits would take for small ones.
fn sums_above_32_bits(maker: &mut Maker, scenario: &Scenario, link: usize) {
    let room = 120 - scenario.step_count();
    if room < 2 {
        return;
    }
    let half = 1 << 31;
    let name = "30: past entries above 32 bits";
    maker.past(scenario, name, false, |network| {
        network.past = vec![quiet(network, 60); 2];
        network.past[0].entered[link] = half;
        network.past[1].entered[link] = half;
    });
    let name = "30: past exits above 32 bits";
    maker.past(scenario, name, false, |network| {
        network.past = vec![quiet(network, 60); 2];
        network.past[0].left[link] = half;
        network.past[1].left[link] = half;
    });
    let name = "30: waiting and past entries above 32 bits";
    maker.past(scenario, name, false, |network| {
        network.past = vec![quiet(network, 60); 2];
        network.links[link].waiting = MOST;
        network.past[1].entered[link] = 1;
    });
}

/// Refusal 30 comes after all others of the network.
pub fn order(maker: &mut Maker, scenario: &Scenario) {
    let Some(mut scenario) = with_past(maker, scenario) else {
        return;
    };
    let past = scenario.network.past.len();
    scenario.network.past[maker.random.index(past)].length = 0;
    let texts = Texts::of(&scenario);
    let need = scenario.ledger_need();
    let sheet = Sheet::of_network(&scenario.network);
    let lines = sheet.lines.len();

    let name = "1: surplus before the past";
    let surplus = [&texts.network[..], b"\n"].concat();
    let told = refused(1, lines + 1, 0);
    maker.ask_refused_network(name, texts.with_network(surplus), need, told);

    let mut changed = sheet.clone();
    changed.set(lines - 1, 2, b"600001");
    let name = "6: last step before the past";
    let told = refused(6, lines, scenario.step_count());
    maker.ask_refused_network(name, texts.with_network(changed.text()), need, told);

    let mut changed = sheet.clone();
    changed.set(lines - 1, 1, b"x");
    let name = "1: form of the last step before the past";
    let told = refused(1, lines, 0);
    maker.ask_refused_network(name, texts.with_network(changed.text()), need, told);

    // It comes before whatever is wrong with the plan or the ledger.
    let (number, line, item) = REFUSED;
    let told = Some(Answer::Refused(refused(number, line, item)));
    let bad_plan = texts.with_plan(b"x".to_vec());
    maker.ask_plan("30: before plan and ledger", bad_plan, 0, told);
}

/// Inside the past a link may hold more than its capacity and be left before
/// anything has arrived.
pub fn special_pasts(maker: &mut Maker) {
    let network = "N\t1\t0\t0\t1\t0\t3\nQ\t1000\t1\t0\t0\t0\t0\t0\n\
        H\t10\t0\t5000\nH\t10\t5000\t0\nH\t1\t0\t0\nS\t10\t0\n";
    let mut ask = |name: &str, network: String, answer: Answer| {
        let texts = Texts {
            network: network.into_bytes(),
            plan: b"P\t0\t0\n".to_vec(),
        };
        maker.ask_network(name, texts, Some(answer));
    };
    let accepted = Answer::NetworkAccepted;
    ask("left before it entered", network.to_string(), accepted);
    let full = network.replace(
        "H\t10\t0\t5000\nH\t10\t5000\t0",
        "H\t10\t5000\t0\nH\t10\t0\t5000",
    );
    ask("more than the capacity in the past", full, accepted);
    // The last step lasts a second, just the travel time.
    let (number, line, item) = REFUSED;
    let told = Answer::Refused(refused(number, line, item));
    let late = network.replace("Q\t1000\t1", "Q\t1000\t2");
    ask("30: a tenth has not arrived", late, told);
    let late = network.replace("H\t10\t0\t5000", "H\t10\t0\t4500");
    let late = late.replace("Q\t1000\t1", "Q\t1000\t2");
    ask("nine tenths have arrived", late, accepted);
}
