//! Rules 10 to 18, 25 to 27 and 29 broken in the plan: one value one beyond its limit, and two
//! such values at once.

use super::{refused, Answer, Maker, Scenario, Texts};
use crate::{PlanStep, Refusal};

/// One value of the plan that breaks one rule.
#[derive(Clone)]
struct Breach {
    name: &'static str,
    /// The step in which the value stands, from index 0.
    step: usize,
    field: Field,
    value: u64,
    /// The step in which the rule is broken, from index 0.
    broken_in: usize,
    rule: u64,
    /// The item named by the refusal, counted from 1.
    item: usize,
}

/// A field of a plan line, from index 0.
#[derive(Clone, Copy, PartialEq, Eq)]
enum Field {
    Mask(usize),
    Admitted(usize),
    LetOut(usize),
    Moved(usize),
}

impl Breach {
    /// A value that breaks a rule in its own step, reported at the value's item.
    fn at_once(rule: u64, name: &'static str, step: usize, field: Field, value: u64) -> Breach {
        let (Field::Mask(item) | Field::Admitted(item) | Field::LetOut(item) | Field::Moved(item)) =
            field;
        Breach {
            name,
            step,
            field,
            value,
            broken_in: step,
            rule,
            item: item + 1,
        }
    }

    fn apply(&self, plan: &mut [PlanStep]) {
        let step = &mut plan[self.step];
        match self.field {
            Field::Mask(signal) => step.masks[signal] = self.value,
            Field::Admitted(link) => step.admitted[link] = self.value,
            Field::LetOut(link) => step.let_out[link] = self.value,
            Field::Moved(movement) => step.moved[movement] = self.value,
        }
    }

    /// Where the breach stands in the order in which a plan is judged.
    fn order(&self) -> (usize, usize, usize) {
        let rules = [10, 29, 11, 12, 13, 14, 15, 25, 26, 27, 16, 17, 18];
        let place = rules.iter().position(|&rule| rule == self.rule);
        (
            self.broken_in,
            place.expect("the rule has a place"),
            self.item,
        )
    }

    /// A departure that is too early by what enters in the very same step.
    fn is_about_own_step(&self, scenario: &Scenario) -> bool {
        let arrives_at_once = || {
            let entry = scenario.entry(self.broken_in + 1, self.item - 1);
            entry.is_some_and(|entry| entry.boundary == self.broken_in && entry.elapsed > 0)
        };
        self.rule == 17 && arrives_at_once()
    }

    fn refusal(&self) -> Refusal {
        refused(self.rule, self.broken_in + 1, self.item)
    }
}

/// All breaches of a scenario, by kind.
fn breaches(scenario: &Scenario) -> Vec<Vec<Breach>> {
    let mut kinds = Vec::new();
    let mut kind = |make: &dyn Fn(usize, &mut Vec<Breach>)| {
        let mut breaches = Vec::new();
        for step in 0..scenario.step_count() {
            make(step, &mut breaches);
        }
        kinds.push(breaches);
    };
    kind(&|step, breaches| bad_masks(scenario, step, breaches));
    kind(&|step, breaches| without_tram_phase(scenario, step, breaches));
    kind(&|step, breaches| phases_out_of_order(scenario, step, breaches));
    kind(&|step, breaches| other_choices(scenario, step, 12, breaches));
    kind(&|step, breaches| other_choices(scenario, step, 13, breaches));
    kind(&|step, breaches| other_choices(scenario, step, 14, breaches));
    kind(&|step, breaches| above_demand(scenario, step, breaches));
    kind(&|step, breaches| above_exit_rate(scenario, step, breaches));
    kind(&|step, breaches| above_movement_rate(scenario, step, breaches));
    kind(&|step, breaches| from_shut_links(scenario, step, breaches));
    kind(&|step, breaches| above_share(scenario, step, breaches));
    kind(&|step, breaches| below_share(scenario, step, breaches));
    kind(&|step, breaches| let_out_before_arrival(scenario, step, breaches));
    kind(&|step, breaches| moved_before_arrival(scenario, step, breaches));
    kind(&|step, breaches| too_little_entered(scenario, step, breaches));
    kind(&|step, breaches| above_capacity(scenario, step, breaches));
    kinds
}

fn bad_masks(scenario: &Scenario, step: usize, breaches: &mut Vec<Breach>) {
    for (signal, limits) in scenario.network.signals.iter().enumerate() {
        let shown = scenario.plan[step].masks[signal];
        let above = 1 << limits.phases.len();
        let next = if shown << 1 == above { 1 } else { shown << 1 };
        for (name, value) in [
            ("10: no bit", 0),
            ("10: two bits", shown | next),
            ("10: all phases", above - 1),
            ("10: one bit above P", above),
            ("10: a phase and one above P", shown | above),
            ("10: highest bit", 1 << 31),
            ("10: a phase and the highest bit", shown | 1 << 31),
            ("10: all bits", u64::from(u32::MAX)),
        ] {
            let field = Field::Mask(signal);
            breaches.push(Breach::at_once(10, name, step, field, value));
        }
    }
}

/// Another phase than a tram's, whether it could come in an ordinary step or not.
fn without_tram_phase(scenario: &Scenario, step: usize, breaches: &mut Vec<Breach>) {
    for (signal, limits) in scenario.network.signals.iter().enumerate() {
        let Some(asked) = scenario.tram_phase(signal, step) else {
            continue;
        };
        for phase in (1..=limits.phases.len() as u64).filter(|&phase| phase != asked) {
            let field = Field::Mask(signal);
            let name = "29: not the tram's phase";
            breaches.push(Breach::at_once(29, name, step, field, 1 << (phase - 1)));
        }
    }
}

fn phases_out_of_order(scenario: &Scenario, step: usize, breaches: &mut Vec<Breach>) {
    for (signal, limits) in scenario.network.signals.iter().enumerate() {
        if scenario.tram_phase(signal, step).is_some() {
            continue;
        }
        let phase_count = limits.phases.len() as u64;
        let before = scenario.shown[step][signal].phase;
        let next = before % phase_count + 1;
        for phase in 1..=phase_count {
            if phase == before || phase == next {
                continue;
            }
            let name = if phase < before {
                "11: back to an earlier phase"
            } else {
                "11: phase skipped"
            };
            let field = Field::Mask(signal);
            breaches.push(Breach::at_once(11, name, step, field, 1 << (phase - 1)));
        }
    }
}

/// The phase goes on where the plan changes it, or changes where the plan goes
/// on; kept if this breaks the rule asked for before any other.
fn other_choices(scenario: &Scenario, step: usize, rule: u64, breaches: &mut Vec<Breach>) {
    let length = scenario.network.steps[step].length;
    for (signal, limits) in scenario.network.signals.iter().enumerate() {
        if scenario.tram_phase(signal, step).is_some() {
            continue;
        }
        let phase_count = limits.phases.len() as u64;
        let before = scenario.shown[step][signal];
        let next = before.phase % phase_count + 1;
        let goes_on = scenario.shown[step + 1][signal].phase == before.phase;
        let (phase, run) = if goes_on {
            (next, length)
        } else {
            (before.phase, before.run + length)
        };
        let least = limits.phases[before.phase as usize - 1].least;
        let greatest = limits.phases[phase as usize - 1].greatest;
        let cycle_begins = goes_on && phase == 1;
        let clock = if cycle_begins {
            length
        } else {
            before.clock + length
        };
        let broken = if goes_on && before.run < least {
            Some((12, "12: phase left too early"))
        } else if run > greatest {
            Some((13, "13: phase goes on too long"))
        } else if cycle_begins && before.clock < limits.least_cycle {
            Some((14, "14: phase 1 begins too early"))
        } else if clock > limits.greatest_cycle {
            Some((14, "14: cycle goes on too long"))
        } else {
            None
        };
        if let Some((broken_rule, name)) = broken {
            if broken_rule == rule {
                let field = Field::Mask(signal);
                breaches.push(Breach::at_once(rule, name, step, field, 1 << (phase - 1)));
            }
        }
    }
}

fn above_demand(scenario: &Scenario, step: usize, breaches: &mut Vec<Breach>) {
    for link in 0..scenario.network.links.len() {
        let most = scenario.plan[step].admitted[link] + scenario.outside(step + 1, link);
        for value in [most + 1, u64::from(u32::MAX)] {
            let field = Field::Admitted(link);
            breaches.push(Breach::at_once(
                15,
                "15: admitted above demand",
                step,
                field,
                value,
            ));
        }
    }
}

fn above_exit_rate(scenario: &Scenario, step: usize, breaches: &mut Vec<Breach>) {
    let length = scenario.network.steps[step].length;
    for (link, limits) in scenario.network.links.iter().enumerate() {
        for value in [limits.exit_rate * length + 1, u64::from(u32::MAX)] {
            let field = Field::LetOut(link);
            breaches.push(Breach::at_once(
                25,
                "25: let out above the exit rate",
                step,
                field,
                value,
            ));
        }
    }
}

fn above_movement_rate(scenario: &Scenario, step: usize, breaches: &mut Vec<Breach>) {
    let length = scenario.network.steps[step].length;
    for (movement, limits) in scenario.network.movements.iter().enumerate() {
        for value in [limits.rate * length + 1, u64::from(u32::MAX)] {
            let field = Field::Moved(movement);
            breaches.push(Breach::at_once(
                26,
                "26: movement above its rate",
                step,
                field,
                value,
            ));
        }
    }
}

fn from_shut_links(scenario: &Scenario, step: usize, breaches: &mut Vec<Breach>) {
    let length = scenario.network.steps[step].length;
    for (movement, limits) in scenario.network.movements.iter().enumerate() {
        if scenario.is_open(step, limits.from as usize - 1) {
            continue;
        }
        let most = limits.rate * length;
        for (rule, name, value) in [
            (27, "27: movement from a shut link", 1),
            (27, "27: movement from a shut link", most),
            (26, "26: movement from a shut link above its rate", most + 1),
        ] {
            let field = Field::Moved(movement);
            breaches.push(Breach::at_once(rule, name, step, field, value));
        }
    }
}

/// One movement more than its share: with its sum, all others keep theirs.
fn above_share(scenario: &Scenario, step: usize, breaches: &mut Vec<Breach>) {
    let length = scenario.network.steps[step].length;
    for (movement, limits) in scenario.network.movements.iter().enumerate() {
        let value = scenario.plan[step].moved[movement] + 1;
        let from = limits.from as usize - 1;
        if limits.share < 1000 && value <= limits.rate * length && scenario.is_open(step, from) {
            let field = Field::Moved(movement);
            breaches.push(Breach::at_once(
                16,
                "16: movement one above its share",
                step,
                field,
                value,
            ));
        }
    }
}

/// One movement less than its share: the first of the others has too much.
fn below_share(scenario: &Scenario, step: usize, breaches: &mut Vec<Breach>) {
    for (movement, limits) in scenario.network.movements.iter().enumerate() {
        let moved = scenario.plan[step].moved[movement];
        if moved == 0 {
            continue;
        }
        let other = scenario
            .movements_from(limits.from as usize - 1)
            .into_iter()
            .find(|&other| other != movement);
        if let Some(other) = other {
            let field = Field::Moved(movement);
            breaches.push(Breach {
                item: other + 1,
                ..Breach::at_once(16, "16: others above their share", step, field, moved - 1)
            });
        }
    }
}

fn let_out_before_arrival(scenario: &Scenario, step: usize, breaches: &mut Vec<Breach>) {
    let length = scenario.network.steps[step].length;
    for (link, limits) in scenario.network.links.iter().enumerate() {
        let waiting = scenario.arrived[step + 1][link] - scenario.left[step + 1][link];
        let value = scenario.plan[step].let_out[link] + waiting + 1;
        if value <= limits.exit_rate * length {
            let field = Field::LetOut(link);
            breaches.push(Breach::at_once(
                17,
                "17: one let out that has not arrived",
                step,
                field,
                value,
            ));
        }
    }
}

fn moved_before_arrival(scenario: &Scenario, step: usize, breaches: &mut Vec<Breach>) {
    let length = scenario.network.steps[step].length;
    for (movement, limits) in scenario.network.movements.iter().enumerate() {
        let from = limits.from as usize - 1;
        let waiting = scenario.arrived[step + 1][from] - scenario.left[step + 1][from];
        let value = scenario.plan[step].moved[movement] + waiting + 1;
        if limits.share == 1000 && value <= limits.rate * length && scenario.is_open(step, from) {
            let field = Field::Moved(movement);
            breaches.push(Breach {
                item: from + 1,
                ..Breach::at_once(17, "17: one moved that has not arrived", step, field, value)
            });
        }
    }
}

/// One volume less is admitted than leaves in a later step.
fn too_little_entered(scenario: &Scenario, step: usize, breaches: &mut Vec<Breach>) {
    for link in 0..scenario.network.links.len() {
        let admitted = scenario.plan[step].admitted[link];
        if admitted == 0 {
            continue;
        }
        let entered = |row: usize| scenario.entered[row][link] - u64::from(row > step);
        let travel_time = scenario.network.links[link].travel_time;
        let boundary = scenario.first_early_departure(link, travel_time, entered);
        if let Some(boundary) = boundary {
            let field = Field::Admitted(link);
            breaches.push(Breach {
                broken_in: boundary - 1,
                ..Breach::at_once(
                    17,
                    "17: one that left was not admitted before",
                    step,
                    field,
                    admitted - 1,
                )
            });
        }
    }
}

fn above_capacity(scenario: &Scenario, step: usize, breaches: &mut Vec<Breach>) {
    for (link, limits) in scenario.network.links.iter().enumerate() {
        let room = limits.capacity + scenario.left[step][link] - scenario.entered[step + 1][link];
        let value = scenario.plan[step].admitted[link] + room + 1;
        if room < scenario.outside(step + 1, link) {
            let field = Field::Admitted(link);
            breaches.push(Breach::at_once(
                18,
                "18: one admitted to a full link",
                step,
                field,
                value,
            ));
        }
    }
}

/// The first steps of the plan with a breach in them, and what each is refused
/// for.
pub fn draw_breaches(
    maker: &mut Maker,
    scenario: &Scenario,
    steps: usize,
    count: usize,
) -> Vec<(Vec<PlanStep>, Refusal)> {
    let kinds = breaches(scenario).into_iter().flatten();
    let mut breaches: Vec<Breach> = kinds.filter(|breach| breach.broken_in < steps).collect();
    maker.random.shuffle(&mut breaches);
    let broken = breaches.iter().take(count).map(|breach| {
        let mut plan = scenario.plan[..steps].to_vec();
        breach.apply(&mut plan);
        (plan, breach.refusal())
    });
    broken.collect()
}

/// Each kind of breach, by its name, at some places.
pub fn single_breaches(maker: &mut Maker, scenario: &Scenario) {
    for kind in breaches(scenario) {
        let mut names: Vec<&str> = kind.iter().map(|breach| breach.name).collect();
        names.sort();
        names.dedup();
        let count = if names.len() > 2 { 1 } else { 3 };
        for name in names {
            let named: Vec<&Breach> = kind.iter().filter(|breach| breach.name == name).collect();
            for _ in 0..count {
                let breach = named[maker.random.index(named.len())];
                let mut plan = scenario.plan.clone();
                breach.apply(&mut plan);
                let intended = Some(Answer::Refused(breach.refusal()));
                let changed = Texts::new(&scenario.network, &plan);
                maker.ask_plan(name, changed, scenario.ledger_need(), intended);
            }
        }
    }
}

/// Two breaches of different fields, mostly in one line.
pub fn two_breaches(maker: &mut Maker, scenario: &Scenario) {
    let kinds: Vec<Vec<Breach>> = breaches(scenario)
        .into_iter()
        .map(|kind| {
            let told_at_once = |breach: &Breach| breach.broken_in == breach.step;
            kind.into_iter().filter(told_at_once).collect::<Vec<_>>()
        })
        .filter(|kind| !kind.is_empty())
        .collect();
    if kinds.is_empty() {
        return;
    }
    for _ in 0..24 {
        let kind = &kinds[maker.random.index(kinds.len())];
        let first = &kind[maker.random.index(kind.len())];
        let in_one_line = maker.random.chance(85);
        let kind = &kinds[maker.random.index(kinds.len())];
        let others: Vec<&Breach> = kind
            .iter()
            .filter(|other| other.field != first.field || other.step != first.step)
            .filter(|other| !in_one_line || other.step == first.step)
            .collect();
        if others.is_empty() {
            continue;
        }
        let second = others[maker.random.index(others.len())];
        let told = if first.order() < second.order() {
            first
        } else {
            second
        };
        let mut plan = scenario.plan.clone();
        first.apply(&mut plan);
        second.apply(&mut plan);
        // Two breaches of shares may mend each other, and so may another volume
        // that enters in a step and one that arrives in the same step.
        let may_mend = first.rule == 16 && second.rule == 16
            || first.is_about_own_step(scenario)
            || second.is_about_own_step(scenario);
        let independent = first.step != second.step || !may_mend;
        let intended = independent.then(|| Answer::Refused(told.refusal()));
        let name = format!("two breaches: {} / {}", first.name, second.name);
        let changed = Texts::new(&scenario.network, &plan);
        maker.ask_plan(&name, changed, scenario.ledger_need(), intended);
    }
}
