//! Splits: both halves of networks and plans, and refusals 40, 41, 9 and 42.
//! `split_file` says how they are kept.

use super::bordered::{bordered_scenario, bordered_scenario_of, borders, halves, is_in, Set};
use super::{pad, refused, Random, Scenario, Sheet, Size, Texts, Traffic, LARGEST};
use crate::{split, Movement, Network, PastStep, PlanStep, Refusal};

const MOST: u64 = u32::MAX as u64;
/// The greatest demand that a network may have.
const GREATEST_DEMAND: u64 = 600_000;
const TEXTS: [&str; 4] = ["network 1", "plan 1", "network 2", "plan 2"];

/// A call to split.
#[derive(Clone, Debug, PartialEq, Eq)]
pub struct SplitQuestion {
    pub network: Vec<u8>,
    pub plan: Vec<u8>,
    /// Bit i-1 for link i.
    pub first_half: u32,
    /// Lengths of the buffers: for network and plan of the first half, then of the
    /// second.
    pub room: [usize; 4],
    /// What each byte of them is before the call.
    pub fill: u8,
}

impl SplitQuestion {
    /// What each buffer holds before the call.
    pub fn buffers(&self) -> [Vec<u8>; 4] {
        self.room.map(|room| vec![self.fill; room])
    }

    /// The answer of this implementation, and what it leaves in the buffers.
    pub fn judge(&self) -> (Result<[usize; 4], Refusal>, [Vec<u8>; 4]) {
        let mut buffers = self.buffers();
        let lent = buffers.each_mut().map(|buffer| &mut buffer[..]);
        let answer = split(&self.network, &self.plan, self.first_half.into(), lent);
        (answer, buffers)
    }

    /// The same with zeros before some numbers of its texts.
    pub fn padded(&self, random: &mut Random) -> SplitQuestion {
        SplitQuestion {
            network: pad(random, &self.network),
            plan: pad(random, &self.plan),
            ..self.clone()
        }
    }
}

/// A call, with what its making leads to: the four texts, or the refusal.
#[derive(Clone)]
struct Draft {
    name: String,
    question: SplitQuestion,
    intended: Result<[Vec<u8>; 4], Refusal>,
}

/// A call, with what this implementation answers and writes.
pub struct SplitCase {
    /// What the case is about; not stored.
    pub name: String,
    pub question: SplitQuestion,
    intended: Result<[Vec<u8>; 4], Refusal>,
    /// The four texts, or the refusal.
    pub answer: Result<[Vec<u8>; 4], Refusal>,
    /// Whether the bytes past the texts, all where the call is refused, are as they
    /// were.
    is_rest_kept: bool,
}

impl SplitCase {
    fn new(draft: Draft) -> SplitCase {
        let Draft {
            name,
            question,
            intended,
        } = draft;
        let (answer, buffers) = question.judge();
        let lengths = answer.unwrap_or_default();
        let mut pairs = buffers.iter().zip(lengths);
        let is_kept = |&byte: &u8| byte == question.fill;
        let is_rest_kept = pairs.all(|(buffer, length)| buffer[length..].iter().all(is_kept));
        let mut texts = buffers;
        for (text, length) in texts.iter_mut().zip(lengths) {
            text.truncate(length);
        }
        SplitCase {
            name,
            question,
            intended,
            answer: answer.map(|_| texts),
            is_rest_kept,
        }
    }

    pub fn is_as_intended(&self) -> bool {
        self.answer == self.intended && self.is_rest_kept
    }
}

/// Collects calls.
struct Maker {
    random: Random,
    drafts: Vec<Draft>,
}

impl Maker {
    fn new(seed: u64) -> Maker {
        Maker {
            random: Random::new(seed),
            drafts: Vec::new(),
        }
    }

    fn ask(
        &mut self,
        name: &str,
        texts: Texts,
        first_half: Set,
        room: [usize; 4],
        intended: Result<[Vec<u8>; 4], Refusal>,
    ) {
        let question = SplitQuestion {
            network: texts.network,
            plan: texts.plan,
            first_half: first_half as u32,
            room,
            fill: self.random.pick(&[0, b'x', b'\n', 255]),
        };
        self.drafts.push(Draft {
            name: name.to_string(),
            question,
            intended,
        });
    }

    /// A split of what has both halves, with more or less room.
    fn ask_split(
        &mut self,
        name: &str,
        network: &Network,
        plan: &[PlanStep],
        first_half: Set,
        room: impl Fn(usize, usize) -> usize,
    ) {
        let written = split_texts(network, plan, first_half);
        let mut lengths = [0; 4];
        for (index, text) in written.iter().enumerate() {
            lengths[index] = room(index, text.len());
        }
        let mut pairs = written.iter().zip(lengths);
        let is_enough = pairs.all(|(text, room)| text.len() <= room);
        let intended = if is_enough {
            Ok(written)
        } else {
            Err(refused(42, 0, 0))
        };
        let texts = Texts::new(network, plan);
        self.ask(name, texts, first_half, lengths, intended);
    }

    fn ask_no_split(&mut self, name: &str, texts: Texts, first_half: Set, refusal: Refusal) {
        let most = texts.network.len() + texts.plan.len() + 100;
        let room = self.random.pick(&[most, most, 0]);
        self.ask(name, texts, first_half, [room; 4], Err(refusal));
    }

    fn ask_bad_border(&mut self, name: &str, scenario: &Scenario, network: &Network, set: Set) {
        let texts = Texts::new(network, &scenario.plan);
        self.ask_no_split(name, texts, set, refused(40, 0, 0));
    }

    /// Only what is asked, in the order of its making.
    fn asked(self) -> Vec<SplitQuestion> {
        self.drafts
            .into_iter()
            .map(|draft| draft.question)
            .collect()
    }

    /// Copies of some calls since a place, with zeros before numbers and what was
    /// intended there.
    fn ask_padded(&mut self, from: usize, count: usize) {
        let last = self.drafts.len();
        for _ in 0..count {
            let draft = &self.drafts[from + self.random.index(last - from)];
            let copy = Draft {
                name: format!("padded: {}", draft.name),
                question: draft.question.padded(&mut self.random),
                intended: draft.intended.clone(),
            };
            self.drafts.push(copy);
        }
    }
}

/// The stored set of splits.
pub fn stored_splits(seed: u64) -> Vec<SplitCase> {
    let mut maker = Maker::new(seed);
    for _ in 0..14 {
        splits(&mut maker);
    }
    large(&mut maker);
    maker.drafts.into_iter().map(SplitCase::new).collect()
}

/// The calls of one random network: the unit of a comparison with random seeds.
pub fn split_questions(seed: u64) -> Vec<SplitQuestion> {
    let mut maker = Maker::new(seed);
    splits(&mut maker);
    maker.asked()
}

/// Calls on a network of the largest size.
pub fn largest_splits(seed: u64) -> Vec<SplitQuestion> {
    let mut maker = Maker::new(seed);
    largest(&mut maker);
    maker.asked()
}

/// The four texts of a split.
fn split_texts(network: &Network, plan: &[PlanStep], first_half: Set) -> [Vec<u8>; 4] {
    let [(first, first_plan), (second, second_plan)] = halves(network, plan, first_half);
    [
        Sheet::of_network(&first).text(),
        Sheet::of_plan(&first_plan).text(),
        Sheet::of_network(&second).text(),
        Sheet::of_plan(&second_plan).text(),
    ]
}

/// Every family of calls for one network.
fn splits(maker: &mut Maker) {
    let (scenario, first_half) = bordered_scenario(&mut maker.random);
    let before = maker.drafts.len();
    written(maker, &scenario, first_half);
    any_plans(maker, &scenario, first_half);
    maker.ask_padded(before, 3);
    sets(maker, &scenario);
    past_and_waiting(maker, &scenario, first_half);
    for border in borders(&scenario.network, first_half) {
        bad_borders(maker, &scenario, first_half, border);
        good_borders(maker, &scenario, first_half, border);
        border_sums(maker, &scenario, first_half, border);
        border_demands(maker, &scenario, first_half, border);
    }
    single_links(maker, &scenario);
    divided_signals(maker, &scenario, first_half);
    forms(maker, &scenario, first_half);
}

fn written(maker: &mut Maker, scenario: &Scenario, first_half: Set) {
    let (network, plan) = (&scenario.network, &scenario.plan);
    let all = (1 << network.links.len()) - 1;
    maker.ask_split("split", network, plan, first_half, |_, length| length + 9);
    let name = "split the other way round";
    maker.ask_split(name, network, plan, all - first_half, |_, length| length);
    for (short, text) in TEXTS.iter().enumerate() {
        let name = format!("42: {text} one byte too long");
        maker.ask_split(&name, network, plan, first_half, |index, length| {
            length - usize::from(index == short)
        });
    }
    let none = maker.random.index(4);
    let name = "42: no buffer";
    maker.ask_split(name, network, plan, first_half, |index, length| {
        if index == none {
            0
        } else {
            length
        }
    });
}

/// Plans that no rule allows: only their form counts.
fn any_plans(maker: &mut Maker, scenario: &Scenario, first_half: Set) {
    let network = &scenario.network;
    let mut plan = scenario.plan.clone();
    for step in &mut plan {
        for mask in &mut step.masks {
            *mask = maker.random.pick(&[*mask, 0, 3, MOST]);
        }
        for volume in [&mut step.admitted, &mut step.let_out, &mut step.moved]
            .into_iter()
            .flatten()
        {
            let any = maker.random.between(0, MOST);
            *volume = maker.random.pick(&[*volume, 1, MOST - 1, MOST, any]);
        }
    }
    let name = "split of any plan, sums too large for a field";
    maker.ask_split(name, network, &plan, first_half, |_, length| length);

    let masks = network
        .signals
        .iter()
        .map(|signal| 1 << (signal.shown_phase - 1));
    let hold = PlanStep {
        masks: masks.collect(),
        ..PlanStep::of_zeros(network)
    };
    let plan = vec![hold; network.steps.len()];
    let texts = split_texts(network, &plan, first_half);
    let lengths = texts.each_ref().map(|text| text.len());
    let empty = Texts::new(network, &[]);
    let name = "split of an empty plan";
    maker.ask(name, empty, first_half, lengths, Ok(texts));
}

/// What is let out before a border and admitted behind it, with the border's
/// volume just at the greatest number, above it and far above it.
fn border_sums(maker: &mut Maker, scenario: &Scenario, first_half: Set, border: usize) {
    let Movement { from, to, .. } = scenario.network.movements[border];
    let mut plan = scenario.plan.clone();
    for step in &mut plan {
        let volume = maker.random.pick(&[0, 1, 7, 4_000_000_000, MOST]);
        let rest = MOST - volume;
        let others = [rest.saturating_sub(1), rest, rest + 1, MOST];
        let mut draw = || maker.random.pick(&others).min(MOST);
        step.let_out[from as usize - 1] = draw();
        step.admitted[to as usize - 1] = draw();
        step.moved[border] = volume;
    }
    let name = "sums at a border near the greatest number";
    maker.ask_split(name, &scenario.network, &plan, first_half, |_, length| {
        length
    });
}

/// A border volume is written as demand as it stands, also above the greatest
/// demand, where the half is then refused.
fn border_demands(maker: &mut Maker, scenario: &Scenario, first_half: Set, border: usize) {
    let step = maker.random.index(scenario.step_count());
    for volume in [GREATEST_DEMAND, GREATEST_DEMAND + 1] {
        let mut plan = scenario.plan.clone();
        plan[step].moved[border] = volume;
        let name = format!("border volume of {volume}");
        let network = &scenario.network;
        maker.ask_split(&name, network, &plan, first_half, |_, length| length);
    }
}

/// One link against all others, either way round, without movements: all lights,
/// which have no links, are the first half's.
fn single_links(maker: &mut Maker, scenario: &Scenario) {
    let mut network = scenario.network.clone();
    let mut plan = scenario.plan.clone();
    network.movements.clear();
    for link in &mut network.links {
        (link.signal, link.phase_mask) = (0, 0);
    }
    for step in &mut plan {
        step.moved.clear();
    }
    let links = network.links.len();
    let single = 1 << maker.random.index(links);
    for set in [single, (1 << links) - 1 - single] {
        let name = "one link, and lights without links";
        maker.ask_split(name, &network, &plan, set, |_, length| length);
    }
}

/// Halves without links and links that there aren't.
fn sets(maker: &mut Maker, scenario: &Scenario) {
    let network = &scenario.network;
    let above = 1 << network.links.len();
    for set in [0, above - 1, above, above + 1, 1 << 31, MOST] {
        maker.ask_bad_border("40: set of links", scenario, network, set);
    }
}

fn past_and_waiting(maker: &mut Maker, scenario: &Scenario, first_half: Set) {
    let mut network = scenario.network.clone();
    let link = maker.random.index(network.links.len());
    network.links[link].waiting = 1;
    maker.ask_bad_border("40: waiting", scenario, &network, first_half);
    let mut network = scenario.network.clone();
    network.past.push(PastStep {
        length: 1,
        entered: vec![0; network.links.len()],
        left: vec![0; network.links.len()],
    });
    maker.ask_bad_border("40: past", scenario, &network, first_half);
}

/// A border movement of another kind, for each reason.
fn bad_borders(maker: &mut Maker, scenario: &Scenario, first_half: Set, border: usize) {
    let Movement { from, to, .. } = scenario.network.movements[border];
    let (from, to) = (from as usize - 1, to as usize - 1);
    let step = maker.random.index(scenario.step_count());
    let mut ask = |name: &str, change: &dyn Fn(&mut Network)| {
        let mut network = scenario.network.clone();
        change(&mut network);
        maker.ask_bad_border(name, scenario, &network, first_half);
    };
    ask("40: exit rate at the border", &|network| {
        network.links[from].exit_rate = 1;
    });
    ask("40: demand at the border", &|network| {
        network.steps[step].demand[to] = 1;
    });
    if !scenario.network.signals.is_empty() {
        ask("40: light at the border", &|network| {
            network.links[from].signal = 1;
            network.links[from].phase_mask = 1;
        });
    }
    // Another movement from the same link, and a second border into the other.
    let links = 0..scenario.network.links.len();
    let other_to = links.clone().find(|&link| link != from && link != to);
    if let Some(other) = other_to {
        ask("40: another movement at the border", &|network| {
            network.movements[border].share = 500;
            let movement = network.movements[border].clone();
            network.movements.push(Movement {
                to: other as u64 + 1,
                ..movement
            });
            network
                .movements
                .sort_by_key(|movement| (movement.from, movement.to));
        });
    }
    let is_beside =
        |&link: &usize| link != from && is_in(first_half, link) == is_in(first_half, from);
    if let Some(other) = links.clone().find(is_beside) {
        ask("40: second border", &|network| {
            let number = other as u64 + 1;
            network.movements.retain(|movement| movement.from != number);
            add_movement(network, other, to);
        });
    }
}

/// One more movement, from a link that has none and becomes one of a border.
fn add_movement(network: &mut Network, from: usize, to: usize) {
    let link = &mut network.links[from];
    link.signal = 0;
    link.phase_mask = 0;
    link.exit_rate = 0;
    network.movements.push(Movement {
        from: from as u64 + 1,
        to: to as u64 + 1,
        rate: 10,
        share: 1000,
    });
    network
        .movements
        .sort_by_key(|movement| (movement.from, movement.to));
}

/// What is free at a border: demand before it, the exit rate and a light behind
/// it, other movements into both links, and a border that leaves the link which
/// this one enters.
fn good_borders(maker: &mut Maker, scenario: &Scenario, first_half: Set, border: usize) {
    let Movement { from, to, .. } = scenario.network.movements[border];
    let (from, to) = (from as usize - 1, to as usize - 1);
    let mut changed = Changed::of(scenario);
    let network = &mut changed.network;
    for link in [from, to] {
        network.links[link].capacity = 2_000_000_000;
    }
    if !is_entered(network, first_half, from) {
        for step in &mut network.steps {
            step.demand[from] = GREATEST_DEMAND;
        }
    }
    if !is_left(network, first_half, to) {
        network.links[to].exit_rate = 77;
        light_behind(network, first_half, to);
    }
    changed.ask(maker, "what is free at a border", first_half);

    let links = || 0..scenario.network.links.len();
    let beside = |link: usize| {
        let is_beside = is_in(first_half, link);
        links().filter(move |&other| other != link && is_in(first_half, other) == is_beside)
    };
    for link in [from, to] {
        for other in beside(link).filter(|&other| !is_left(&scenario.network, first_half, other)) {
            let mut changed = Changed::of(scenario);
            changed.move_only(&mut maker.random, other, link);
            changed.ask(maker, "an inner movement beside a border", first_half);
        }
    }
    let is_across = |&other: &usize| {
        is_in(first_half, other) != is_in(first_half, to)
            && !is_entered(&scenario.network, first_half, other)
    };
    if let Some(other) = links().find(is_across) {
        let mut changed = Changed::of(scenario);
        changed.move_only(&mut maker.random, to, other);
        let link = &mut changed.network.links[to];
        (link.signal, link.phase_mask, link.exit_rate) = (0, 0, 0);
        for step in &mut changed.network.steps {
            step.demand[other] = 0;
        }
        let name = "a border that leaves what another enters";
        changed.ask(maker, name, first_half);
    }
}

fn is_entered(network: &Network, first_half: Set, link: usize) -> bool {
    let mut borders = borders(network, first_half).into_iter();
    borders.any(|border| network.movements[border].to == link as u64 + 1)
}

fn is_left(network: &Network, first_half: Set, link: usize) -> bool {
    let mut borders = borders(network, first_half).into_iter();
    borders.any(|border| network.movements[border].from == link as u64 + 1)
}

/// A light that has no links but of this half, if there is one.
fn light_behind(network: &mut Network, first_half: Set, link: usize) {
    let is_own = |signal: &u64| {
        let links = network.links.iter().enumerate();
        let mut own = links.filter(|(_, other)| other.signal == *signal);
        own.all(|(other, _)| is_in(first_half, other) == is_in(first_half, link))
    };
    let mut signals = 1..=network.signals.len() as u64;
    if let Some(signal) = signals.find(is_own) {
        network.links[link].signal = signal;
        network.links[link].phase_mask = 1;
    }
}

/// A network and its plan with other movements.
struct Changed {
    network: Network,
    plan: Vec<PlanStep>,
}

impl Changed {
    fn of(scenario: &Scenario) -> Changed {
        Changed {
            network: scenario.network.clone(),
            plan: scenario.plan.clone(),
        }
    }

    /// The one movement from a link, with any volumes.
    fn move_only(&mut self, random: &mut Random, from: usize, to: usize) {
        let number = from as u64 + 1;
        for index in (0..self.network.movements.len()).rev() {
            if self.network.movements[index].from == number {
                self.network.movements.remove(index);
                for step in &mut self.plan {
                    step.moved.remove(index);
                }
            }
        }
        let movement = Movement {
            from: number,
            to: to as u64 + 1,
            rate: random.between(1, 10_000),
            share: 1000,
        };
        let movements = &mut self.network.movements;
        let index = movements.partition_point(|other| other.from < number);
        movements.insert(index, movement);
        for step in &mut self.plan {
            let volume = random.between(0, 70_000);
            step.moved.insert(index, volume);
        }
    }

    fn ask(self, maker: &mut Maker, name: &str, first_half: Set) {
        let Changed { network, plan } = self;
        maker.ask_split(name, &network, &plan, first_half, |_, length| length);
    }
}

/// Refusal 41, after 40 and before the plan.
fn divided_signals(maker: &mut Maker, scenario: &Scenario, first_half: Set) {
    if scenario.network.signals.is_empty() {
        return;
    }
    let froms: Vec<u64> = borders(&scenario.network, first_half)
        .into_iter()
        .map(|border| scenario.network.movements[border].from)
        .collect();
    let is_free = |link: &usize| !froms.contains(&(*link as u64 + 1));
    let links = || (0..scenario.network.links.len()).filter(is_free);
    let first = links().find(|&link| is_in(first_half, link));
    let second = links().find(|&link| !is_in(first_half, link));
    let (Some(first), Some(second)) = (first, second) else {
        return;
    };
    let mut network = scenario.network.clone();
    for link in [first, second] {
        network.links[link].signal = 1;
        network.links[link].phase_mask = 1;
    }
    let texts = Texts::new(&network, &scenario.plan);
    let told = refused(41, 0, 0);
    maker.ask_no_split("41: divided light", texts.clone(), first_half, told);
    let bad_plan = texts.with_plan(b"x".to_vec());
    maker.ask_no_split("41: before the plan", bad_plan, first_half, told);
    network.links[first].waiting = 1;
    let texts = Texts::new(&network, &scenario.plan);
    maker.ask_no_split("40: before 41", texts, first_half, refused(40, 0, 0));
}

/// Refusal 9, after 40 and before 42.
fn forms(maker: &mut Maker, scenario: &Scenario, first_half: Set) {
    let texts = Texts::of(scenario);
    let steps = scenario.step_count();
    let mut unfinished = texts.clone();
    unfinished.plan.pop();
    let told = refused(9, steps, 0);
    maker.ask_no_split("9: unfinished plan to split", unfinished, first_half, told);
    let surplus = texts.with_plan([&texts.plan[..], b"\n"].concat());
    let told = refused(9, steps + 1, 0);
    maker.ask_no_split("9: surplus in a plan to split", surplus, first_half, told);
    let mut sheet = Sheet::of_plan(&scenario.plan);
    let line = maker.random.index(steps);
    sheet.set(line, 1, b"4294967296");
    let bad = texts.with_plan(sheet.text());
    let told = refused(9, line + 1, 0);
    maker.ask_no_split(
        "9: bad number in a plan to split",
        bad.clone(),
        first_half,
        told,
    );
    let told = refused(40, 0, 0);
    maker.ask_no_split("40: before the plan", bad, 0, told);
    refused_networks(maker, scenario);
}

/// The network's own refusals come before the set of links, here of no link.
fn refused_networks(maker: &mut Maker, scenario: &Scenario) {
    let sheet = Sheet::of_network(&scenario.network);
    let texts = Texts::of(scenario);
    let last = sheet.lines.len();
    let unfinished = texts.with_network(sheet.unfinished_text());
    let told = refused(1, last, 0);
    maker.ask_no_split("1: before the set of links", unfinished, 0, told);
    let first_link = last - scenario.step_count() - scenario.network.movements.len() + 1
        - scenario.network.links.len();
    for (name, line, field, told) in [
        (
            "4: before the set of links",
            first_link,
            2,
            refused(4, first_link, 1),
        ),
        (
            "6: before the set of links",
            last,
            1,
            refused(6, last, scenario.step_count()),
        ),
    ] {
        let mut sheet = sheet.clone();
        sheet.set(line - 1, field, b"0");
        let texts = texts.with_network(sheet.text());
        maker.ask_no_split(name, texts, 0, told);
    }
}

/// A chain of 24 links whose every second movement is a border.
fn large(maker: &mut Maker) {
    let size = Size {
        links: 24,
        signals: 8,
        movements: 0,
        steps: 20,
    };
    let first_half = 0x00CC_CCCC;
    let change = |_: &mut Random, network: &mut Network| {
        for link in &mut network.links {
            link.waiting = 0;
            link.signal = 0;
            link.phase_mask = 0;
        }
        for step in &mut network.steps {
            step.demand[1..].fill(0);
        }
        for from in 0..23 {
            add_movement(network, from, from + 1);
            network.movements[from].rate = 500;
        }
    };
    let random = &mut maker.random;
    let scenario = Scenario::make_changed(random, size, Traffic::Free, change);
    written(maker, &scenario, first_half);
    sets(maker, &scenario);
}

/// The largest network that has few enough borders.
fn largest(maker: &mut Maker) {
    let (scenario, first_half) = bordered_scenario_of(&mut maker.random, LARGEST);
    written(maker, &scenario, first_half);
    any_plans(maker, &scenario, first_half);
}
