//! Listings of the solver, with the plans that are written from them, and
//! refusals 22 to 24.

use super::scenario::greatest_common_divisor;
use super::{refused, Call, Ledger, Maker, Question, Random, Scenario, Sheet};
use crate::{PlanStep, Refusal};

const GREATEST_VOLUME: u64 = u32::MAX as u64;

/// One line of a listing: a variable and its decimal.
#[derive(Clone)]
struct Entry {
    name: String,
    decimal: String,
}

impl Entry {
    fn new(name: &str, decimal: &str) -> Entry {
        Entry {
            name: name.to_string(),
            decimal: decimal.to_string(),
        }
    }

    fn line(&self) -> Vec<u8> {
        format!("{} {}\n", self.name, self.decimal).into_bytes()
    }
}

fn lines(entries: &[Entry]) -> Vec<Vec<u8>> {
    entries.iter().map(Entry::line).collect()
}

/// Whether variables of value 0 are named.
#[derive(Clone, Copy, PartialEq, Eq)]
enum Zeros {
    Absent,
    Named,
    SomeNamed,
}

/// The entries of a plan in the order of its text. Each volume is one that a
/// rate of six places can give.
fn entries(
    random: &mut Random,
    scenario: &Scenario,
    plan: &[PlanStep],
    zeros: Zeros,
) -> Vec<Entry> {
    let mut entries = Vec::new();
    for (index, planned) in plan.iter().enumerate() {
        let step = index + 1;
        let length = scenario.network.steps[index].length;
        let mut values = Vec::new();
        for (signal, limits) in scenario.network.signals.iter().enumerate() {
            for phase in 1..=limits.phases.len() {
                let is_shown = planned.masks[signal] >> (phase - 1) & 1;
                let name = format!("p_{}_{phase}_{step}", signal + 1);
                values.push((name, 1_000_000 * is_shown));
            }
        }
        for (letter, volumes) in [
            ('i', &planned.admitted),
            ('o', &planned.let_out),
            ('m', &planned.moved),
        ] {
            for (item, volume) in volumes.iter().enumerate() {
                let name = format!("{letter}_{}_{step}", item + 1);
                values.push((name, 1000 * volume / length));
            }
        }
        for (name, millionths) in values {
            let is_named = millionths > 0
                || zeros == Zeros::Named
                || zeros == Zeros::SomeNamed && random.chance(20);
            if is_named {
                let decimal = spell(random, millionths);
                entries.push(Entry { name, decimal });
            }
        }
    }
    entries
}

/// A decimal, with more zeros than it needs now and then.
fn spell(random: &mut Random, millionths: u64) -> String {
    let whole = millionths / 1_000_000;
    let all_places = format!("{:06}", millionths % 1_000_000);
    let needed = all_places.trim_end_matches('0').len();
    let places = random.pick(&[needed, needed, needed.max(1), (needed + 1).min(6), 6]);
    let width = random.pick(&[1, 1, 1, 2, 10]);
    if places == 0 {
        format!("{whole:0width$}")
    } else {
        format!("{whole:0width$}.{}", &all_places[..places])
    }
}

/// A volume is the step's length times a rate of six places just if it is a
/// multiple of this.
fn grain(length: u64) -> u64 {
    length / greatest_common_divisor(length, 1000)
}

/// The plan with every volume lowered to one that a listing can name.
fn nameable(scenario: &Scenario) -> Vec<PlanStep> {
    let mut plan = scenario.plan.clone();
    for (planned, step) in plan.iter_mut().zip(&scenario.network.steps) {
        let parts = [
            &mut planned.admitted,
            &mut planned.let_out,
            &mut planned.moved,
        ];
        for volume in parts.into_iter().flatten() {
            *volume -= *volume % grain(step.length);
        }
    }
    plan
}

/// Any masks and any volumes, no matter whether they could pass.
fn draw_plan(random: &mut Random, scenario: &Scenario) -> Vec<PlanStep> {
    let mut plan = nameable(scenario);
    for (planned, step) in plan.iter_mut().zip(&scenario.network.steps) {
        for (mask, limits) in planned.masks.iter_mut().zip(&scenario.network.signals) {
            *mask = random.between(0, (1 << limits.phases.len()) - 1);
        }
        let grain = grain(step.length);
        let parts = [
            &mut planned.admitted,
            &mut planned.let_out,
            &mut planned.moved,
        ];
        for volume in parts.into_iter().flatten() {
            let most = GREATEST_VOLUME / grain;
            let any = random.between(0, most);
            *volume = grain * random.pick(&[0, 0, 0, 1, any % 1000, any, most]);
        }
    }
    plan
}

impl Maker {
    /// A listing whose plan is known, with just enough room or more.
    fn ask_written(
        &mut self,
        name: &str,
        scenario: &Scenario,
        lines: Vec<Vec<u8>>,
        plan: &[PlanStep],
    ) {
        let text = Sheet::of_plan(plan).text();
        let room = text.len() + self.random.pick(&[0, 0, 1, 50]);
        self.ask_listing(name, scenario, lines.concat(), room, Ok(text));
    }

    /// A listing that is refused, whether there is room for a plan or not.
    fn ask_refused_listing(
        &mut self,
        name: &str,
        scenario: &Scenario,
        lines: Vec<Vec<u8>>,
        refusal: Refusal,
    ) {
        let room = self.random.pick(&[0, 1, 100, 100_000]);
        self.ask_listing(name, scenario, lines.concat(), room, Err(refusal));
    }

    fn ask_listing(
        &mut self,
        name: &str,
        scenario: &Scenario,
        listing: Vec<u8>,
        room: usize,
        intended: Result<Vec<u8>, Refusal>,
    ) {
        let question = self.listing_question(scenario, listing, room);
        self.ask_text(name, question, intended);
    }

    /// A listing of which nothing is known.
    pub fn ask_any_listing(&mut self, name: &str, scenario: &Scenario, listing: Vec<u8>) {
        let room = Sheet::of_plan(&scenario.plan).text().len() + 200;
        let question = self.listing_question(scenario, listing, room);
        self.ask(name, question, None);
    }

    fn listing_question(&mut self, scenario: &Scenario, listing: Vec<u8>, room: usize) -> Question {
        Question {
            network: Sheet::of_network(&scenario.network).text(),
            plan: listing,
            second: Vec::new(),
            ledger: Ledger::default(),
            second_ledger: Ledger::default(),
            buffer: self.draw_buffer(room),
            call: Call::PlanFromListing,
        }
    }
}

/// The listing of the scenario's plan as far as one can name it, in any order.
pub fn shuffled_listing(random: &mut Random, scenario: &Scenario) -> Vec<u8> {
    let plan = nameable(scenario);
    let mut entries = entries(random, scenario, &plan, Zeros::SomeNamed);
    random.shuffle(&mut entries);
    lines(&entries).concat()
}

/// Listings from which a plan is written.
pub fn written(maker: &mut Maker, scenario: &Scenario) {
    let accepted = nameable(scenario);
    let any = draw_plan(&mut maker.random, scenario);
    for (name, plan, zeros, is_shuffled) in [
        ("listing of a plan", &accepted, Zeros::Absent, true),
        (
            "listing of a plan, zeros named",
            &accepted,
            Zeros::Named,
            true,
        ),
        (
            "listing in the plan's order",
            &accepted,
            Zeros::SomeNamed,
            false,
        ),
        ("listing of any numbers", &any, Zeros::SomeNamed, true),
    ] {
        let mut entries = entries(&mut maker.random, scenario, plan, zeros);
        if is_shuffled {
            maker.random.shuffle(&mut entries);
        }
        maker.ask_written(name, scenario, lines(&entries), plan);
    }
    let zeros = vec![PlanStep::of_zeros(&scenario.network); scenario.step_count()];
    maker.ask_written("empty listing", scenario, Vec::new(), &zeros);
    last_of_each(maker, scenario, &zeros);
}

/// The last variable of each kind, by itself.
fn last_of_each(maker: &mut Maker, scenario: &Scenario, zeros: &[PlanStep]) {
    let network = &scenario.network;
    let step = scenario.step_count();
    let volume = grain(network.steps[step - 1].length);
    let decimal = spell(
        &mut maker.random,
        1000 * volume / network.steps[step - 1].length,
    );
    let mut ask = |entry: Entry, change: &dyn Fn(&mut PlanStep)| {
        let mut plan = zeros.to_vec();
        change(&mut plan[step - 1]);
        maker.ask_written("last variable alone", scenario, lines(&[entry]), &plan);
    };
    let link = network.links.len();
    ask(Entry::new(&format!("i_{link}_{step}"), &decimal), &|step| {
        step.admitted[link - 1] = volume
    });
    ask(Entry::new(&format!("o_{link}_{step}"), &decimal), &|step| {
        step.let_out[link - 1] = volume
    });
    if let Some(movement) = network.movements.len().checked_sub(1) {
        let name = format!("m_{}_{step}", movement + 1);
        ask(Entry::new(&name, &decimal), &|step| {
            step.moved[movement] = volume
        });
    }
    if let Some(signal) = network.signals.len().checked_sub(1) {
        let phases = network.signals[signal].phases.len();
        let name = format!("p_{}_{phases}_{step}", signal + 1);
        for decimal in ["1", "1.0", "1.000000", "0000000001", "01.000"] {
            ask(Entry::new(&name, decimal), &|step| {
                step.masks[signal] = 1 << (phases - 1)
            });
        }
        for decimal in ["0", "0.0", "0000000000.000000"] {
            ask(Entry::new(&name, decimal), &|_| {});
        }
    }
}

/// Lines that are malformed whatever the network is.
const MALFORMED: [&str; 52] = [
    "",
    " ",
    "i_1_1",
    "i_1_1 ",
    " i_1_1 1",
    "i_1_1  1",
    "i_1_1\t1",
    "i_1_1\t 1",
    "i_1_1 1 ",
    "i_1_1 1\t",
    "i_1_1 1\r",
    "i_1_1=1",
    "I_1_1 1",
    "x_1_1 1",
    "ii_1_1 1",
    "_1_1 1",
    "1_1 1",
    "i1_1 1",
    "i_1 1",
    "i_1_1_1 1",
    "i_1_1_ 1",
    "i__1 1",
    "i_1_ 1",
    "i_ 1",
    "i 1",
    "i-1-1 1",
    "i_01_1 1",
    "i_1_01 1",
    "i_00_1 1",
    "i_+1_1 1",
    "i_1a_1 1",
    "i_1.0_1 1",
    "p_1_1 1",
    "p_1_1_1_1 1",
    "p_01_1_1 1",
    "p_1_01_1 1",
    "i_1_1 1.",
    "i_1_1 .5",
    "i_1_1 .",
    "i_1_1 +1",
    "i_1_1 -1",
    "i_1_1 1e0",
    "i_1_1 1,5",
    "i_1_1 0x1",
    "i_1_1 1.2.3",
    "i_1_1 1..2",
    "i_1_1 12345678901",
    "i_1_1 00000000000",
    "i_1_1 00000000000.5",
    "i_1_1 1.0000000",
    "i_1_1 0.0000000",
    "i_1_1 1 1",
];

/// Variables that the network hasn't, and values that no phase has.
fn unknown(scenario: &Scenario) -> Vec<Entry> {
    let network = &scenario.network;
    let (links, movements) = (network.links.len(), network.movements.len());
    let (signals, steps) = (network.signals.len(), scenario.step_count());
    let mut names = vec![
        format!("i_{}_1", links + 1),
        format!("o_{}_{steps}", links + 1),
        format!("m_{}_1", movements + 1),
        format!("p_{}_1_1", signals + 1),
        format!("i_1_{}", steps + 1),
        format!("o_{links}_{}", steps + 1),
    ];
    for name in ["i_0_1", "o_0_1", "i_1_0", "m_0_1", "p_0_1_1"] {
        names.push(name.to_string());
    }
    // 1 and the number of values that 8, 16, 32 or 64 bits have.
    for wraps_to_1 in ["257", "65537", "4294967297", "18446744073709551617"] {
        names.push(format!("i_{wraps_to_1}_1"));
        names.push(format!("o_1_{wraps_to_1}"));
        names.push(format!("m_{wraps_to_1}_1"));
        names.push(format!("p_1_{wraps_to_1}_1"));
    }
    let mut entries: Vec<Entry> = names.iter().map(|name| Entry::new(name, "1")).collect();
    for (index, signal) in network.signals.iter().enumerate() {
        let phases = signal.phases.len();
        let name = |phase: usize| format!("p_{}_{phase}_{steps}", index + 1);
        entries.push(Entry::new(&name(phases + 1), "1"));
        entries.push(Entry::new(&name(0), "0"));
        for value in [
            "2",
            "10",
            "0.5",
            "0.000001",
            "1.000001",
            "0.999999",
            "9999999999",
        ] {
            entries.push(Entry::new(&name(phases), value));
        }
    }
    entries
}

/// Some lines of the plan's listing, so that a refusal is not always the first.
fn some_entries(maker: &mut Maker, scenario: &Scenario) -> Vec<Entry> {
    let plan = nameable(scenario);
    let mut entries = entries(&mut maker.random, scenario, &plan, Zeros::SomeNamed);
    maker.random.shuffle(&mut entries);
    entries.truncate(maker.random.index(12));
    entries
}

/// Refusal 22: a line that is malformed, repeated or names what the network
/// hasn't.
pub fn refused_lines(maker: &mut Maker, scenario: &Scenario) {
    for _ in 0..12 {
        let line = maker.random.pick(&MALFORMED).to_string() + "\n";
        refused_line(maker, scenario, "22: malformed", line.into_bytes());
    }
    let mut unknown = unknown(scenario);
    maker.random.shuffle(&mut unknown);
    unknown.truncate(10);
    for entry in unknown {
        refused_line(maker, scenario, "22: names nothing", entry.line());
    }
    for _ in 0..4 {
        repeated(maker, scenario);
    }
    let entries = some_entries(maker, scenario);
    if !entries.is_empty() {
        let mut lines = lines(&entries);
        let last = lines.len() - 1;
        lines[last].pop();
        let refusal = refused(22, last + 1, 0);
        maker.ask_refused_listing("22: unfinished last line", scenario, lines, refusal);
    }
    let refusal = refused(22, entries.len() + 1, 0);
    for rest in ["i", "i_1_1 0", "\t", "\0"] {
        let mut lines = lines(&entries);
        lines.push(rest.into());
        let name = "22: bytes after the last line";
        maker.ask_refused_listing(name, scenario, lines, refusal);
    }
}

/// A bad line at some place; another one after it has no say.
fn refused_line(maker: &mut Maker, scenario: &Scenario, name: &str, line: Vec<u8>) {
    let mut lines = lines(&some_entries(maker, scenario));
    let place = maker.random.index(lines.len() + 1);
    lines.insert(place, line);
    if maker.random.chance(30) {
        let later = maker.random.pick(&["i_1_1 0.000001\n", "\n", "i_0_0 0\n"]);
        lines.push(later.into());
    }
    maker.ask_refused_listing(name, scenario, lines, refused(22, place + 1, 0));
}

/// A variable for the second time, with any value, a volume that isn't whole
/// too.
fn repeated(maker: &mut Maker, scenario: &Scenario) {
    let mut entries = some_entries(maker, scenario);
    let step = scenario.step_count();
    entries.retain(|entry| entry.name != format!("i_1_{step}"));
    let first = maker.random.index(entries.len() + 1);
    let decimal = maker.random.pick(&["0", "0.0", "0.000"]);
    entries.insert(first, Entry::new(&format!("i_1_{step}"), decimal));
    let repeated = maker.random.index(entries.len());
    let mut again = entries[repeated].clone();
    if maker.random.chance(60) {
        again.decimal = maker
            .random
            .pick(&["0", "1", "0.000001", "9999999999"])
            .to_string();
    }
    let place = maker
        .random
        .between(repeated as u64 + 1, entries.len() as u64) as usize;
    entries.insert(place, again);
    let refusal = refused(22, place + 1, 0);
    maker.ask_refused_listing("22: repeated", scenario, lines(&entries), refusal);
}

/// Refusal 23, and the volumes next to it.
pub fn volumes(maker: &mut Maker, scenario: &Scenario) {
    let zeros = vec![PlanStep::of_zeros(&scenario.network); scenario.step_count()];
    for _ in 0..3 {
        let index = maker.random.index(scenario.step_count());
        let length = scenario.network.steps[index].length;
        let link = maker.random.index(scenario.network.links.len());
        let grain = grain(length);
        let least_rate = 1000 * grain / length;
        let most = GREATEST_VOLUME / grain;
        let name = format!("o_{}_{}", link + 1, index + 1);
        for multiple in [1, most, maker.random.between(1, most)] {
            let mut plan = zeros.clone();
            plan[index].let_out[link] = grain * multiple;
            let decimal = spell(&mut maker.random, least_rate * multiple);
            let lines = lines(&[Entry::new(&name, &decimal)]);
            maker.ask_written("whole volume", scenario, lines, &plan);
            for rate in [least_rate * multiple - 1, least_rate * multiple + 1] {
                // A rate of 0 is whole, and so is every one where a millionth is.
                if rate > 0 && rate % least_rate != 0 {
                    let decimal = spell(&mut maker.random, rate);
                    refused_volume(maker, scenario, "23: not whole", &name, &decimal);
                }
            }
        }
        let decimal = spell(&mut maker.random, least_rate * (most + 1));
        refused_volume(maker, scenario, "23: one too large", &name, &decimal);
        let decimal = maker
            .random
            .pick(&["9999999999", "9999999999.999999", "4294967295"]);
        refused_volume(maker, scenario, "23: too large", &name, decimal);
    }
}

/// The volume at some place, with a malformed line before or after it or none.
fn refused_volume(
    maker: &mut Maker,
    scenario: &Scenario,
    name: &str,
    variable: &str,
    decimal: &str,
) {
    let mut entries = some_entries(maker, scenario);
    entries.retain(|entry| entry.name != variable);
    let mut lines = lines(&entries);
    let place = maker.random.index(lines.len() + 1);
    lines.insert(place, Entry::new(variable, decimal).line());
    let malformed: Vec<u8> = (maker.random.pick(&MALFORMED).to_string() + "\n").into();
    match maker.random.between(0, 3) {
        0 => {
            let before = maker.random.index(place + 1);
            lines.insert(before, malformed);
            let name = "22: malformed line before a volume";
            maker.ask_refused_listing(name, scenario, lines, refused(22, before + 1, 0));
        }
        1 => {
            lines.push(malformed);
            maker.ask_refused_listing(name, scenario, lines, refused(23, place + 1, 0));
        }
        _ => maker.ask_refused_listing(name, scenario, lines, refused(23, place + 1, 0)),
    }
}

/// Refusal 24, and the network's own before everything else.
pub fn buffers(maker: &mut Maker, scenario: &Scenario) {
    let plan = nameable(scenario);
    let listing = shuffled_listing(&mut maker.random, scenario);
    let text = Sheet::of_plan(&plan).text();
    let somewhat = maker.random.index(text.len());
    for room in [text.len() - 1, somewhat, 0] {
        let intended = Err(refused(24, 0, 0));
        maker.ask_listing(
            "24: buffer too short",
            scenario,
            listing.clone(),
            room,
            intended,
        );
    }
    let room = text.len();
    maker.ask_listing(
        "buffer just long enough",
        scenario,
        listing.clone(),
        room,
        Ok(text),
    );

    let mut broken = scenario.clone();
    broken.network.links[0].travel_time = 0;
    let line = 2 + scenario.network.trams.len() + scenario.network.signals.len();
    let listing = maker
        .random
        .pick(&["", "\n", "i_1_1 0\n"])
        .as_bytes()
        .to_vec();
    let intended = Err(refused(4, line, 1));
    let room = maker.random.pick(&[0, 10_000]);
    maker.ask_listing("4: before the listing", &broken, listing, room, intended);
}
