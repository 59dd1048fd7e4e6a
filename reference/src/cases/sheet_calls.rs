//! Fixed-time sheets: plans that keep one or not, plans written from one, and
//! refusals 33 to 35.

use super::fixed_signals::{cycle_masks, fixed_scenario, Durations};
use super::form::broken_forms;
use super::plan_breaches::draw_breaches;
use super::{
    refused, Answer, Buffer, Call, Ledger, Maker, Question, Random, Scenario, Sheet, Texts,
};
use crate::{Network, PlanStep, Refusal};

const MOST: u64 = u32::MAX as u64;

/// The text of a sheet, whose lines end in an offset if there are any.
pub fn sheet(durations: &[Vec<u64>], offsets: Option<&[u64]>) -> Sheet {
    let mut sheet = Sheet { lines: Vec::new() };
    for (signal, fixed) in durations.iter().enumerate() {
        let mut numbers = fixed.clone();
        numbers.extend(offsets.map(|offsets| offsets[signal]));
        sheet.push(b'F', &numbers);
    }
    sheet
}

/// Any durations that each phase's limits allow, often at one of them.
fn draw_durations(random: &mut Random, network: &Network) -> Durations {
    let signals = network.signals.iter();
    signals
        .map(|signal| {
            let phases = signal.phases.iter();
            phases
                .map(|phase| {
                    let any = random.between(phase.least, phase.greatest);
                    random.pick(&[phase.least, phase.greatest, any])
                })
                .collect()
        })
        .collect()
}

fn draw_offsets(random: &mut Random, durations: &[Vec<u64>]) -> Vec<u64> {
    let sums = durations.iter().map(|fixed| fixed.iter().sum::<u64>());
    sums.map(|sum| {
        let any = random.between(0, sum - 1);
        random.pick(&[0, sum - 1, any, any])
    })
    .collect()
}

impl Maker {
    /// The scenario's plan against this sheet.
    fn sheet_to_keep(&mut self, scenario: &Scenario, sheet: Vec<u8>) -> Question {
        let ledger = self.draw_ledger(scenario.ledger_need());
        Question {
            second: sheet,
            ..Texts::of(scenario).question(ledger, Call::CheckSheet)
        }
    }

    pub fn any_sheet_to_keep(&mut self, scenario: &Scenario) -> Question {
        let durations = draw_durations(&mut self.random, &scenario.network);
        self.sheet_to_keep(scenario, sheet(&durations, None).text())
    }

    /// What a plan is written from, with some room.
    fn sheet_to_write(&mut self, network: &Network, sheet: Vec<u8>) -> Question {
        let texts = Texts::new(network, &[]).with_plan(sheet);
        let zeros = vec![PlanStep::of_zeros(network); network.steps.len()];
        let room = Sheet::of_plan(&zeros).text().len() + 1000;
        Question {
            buffer: self.draw_buffer(room),
            ..texts.question(Ledger::default(), Call::PlanFromSheet)
        }
    }

    pub fn any_sheet_to_write(&mut self, scenario: &Scenario) -> Question {
        let durations = draw_durations(&mut self.random, &scenario.network);
        let offsets = draw_offsets(&mut self.random, &durations);
        let text = sheet(&durations, Some(&offsets)).text();
        self.sheet_to_write(&scenario.network, text)
    }

    /// The scenario's plan, which passes, against durations.
    fn ask_kept(&mut self, name: &str, scenario: &Scenario, durations: &[Vec<u64>]) {
        let intended = match scenario.other_duration(durations) {
            None => Answer::PlanAccepted(scenario.totals()),
            Some((line, signal)) => Answer::Refused(refused(34, line, signal)),
        };
        let question = self.sheet_to_keep(scenario, sheet(durations, None).text());
        self.ask(name, question, Some(intended));
    }
}

/// Plans that repeat a cycle, and the sheets that they just keep or not.
pub fn fixed_times(maker: &mut Maker) {
    let (scenario, durations) = fixed_scenario(&mut maker.random);
    maker.ask_kept("kept sheet", &scenario, &durations);
    for (signal, limits) in scenario.network.signals.iter().enumerate() {
        for (phase, limits) in limits.phases.iter().enumerate() {
            let fixed = durations[signal][phase];
            for other in [fixed - 1, fixed + 1, limits.least, limits.greatest] {
                if (limits.least..=limits.greatest).contains(&other) && other != fixed {
                    let mut changed = durations.clone();
                    changed[signal][phase] = other;
                    maker.ask_kept("sheet of another duration", &scenario, &changed);
                }
            }
        }
        last_exempt(maker, &scenario, &durations, signal);
    }
    written_from(maker, &scenario.network, &durations);
}

/// A run that begins at the greatest cycle is tested, a second before it isn't.
fn last_exempt(maker: &mut Maker, scenario: &Scenario, durations: &[Vec<u64>], signal: usize) {
    let clocks = scenario.shown.iter().map(|shown| shown[signal].clock);
    let longest = clocks.max().expect("there is a boundary");
    let times = scenario.times();
    let runs = scenario.left_runs(signal);
    let mut late = runs.iter().filter(|run| times[run.begun] >= longest);
    let Some(run) = late.next_back() else {
        return;
    };
    // Wrong for this run and all like it.
    let mut changed = durations.to_vec();
    let fixed = &mut changed[signal][run.phase as usize - 1];
    let limits = &scenario.network.signals[signal].phases[run.phase as usize - 1];
    *fixed = if *fixed == limits.least {
        limits.greatest
    } else {
        limits.least
    };
    let begins = times[run.begun];
    for (name, greatest) in [
        ("run at the greatest cycle", begins),
        ("run a second before the greatest cycle", begins + 1),
    ] {
        let mut scenario = scenario.clone();
        scenario.network.signals[signal].greatest_cycle = greatest;
        maker.ask_kept(name, &scenario, &changed);
    }
}

/// Any sheets on any plan.
pub fn any_sheets(maker: &mut Maker, scenario: &Scenario) {
    for _ in 0..3 {
        let durations = draw_durations(&mut maker.random, &scenario.network);
        maker.ask_kept("any sheet", scenario, &durations);
    }
    // A plan that is refused, whatever its sheet.
    let steps = scenario.step_count();
    for (plan, refusal) in draw_breaches(maker, scenario, steps, 2) {
        let mut question = maker.any_sheet_to_keep(scenario);
        question.plan = Sheet::of_plan(&plan).text();
        let name = "broken rule before the sheet";
        maker.ask(name, question, Some(Answer::Refused(refusal)));
    }
    let mut question = maker.any_sheet_to_keep(scenario);
    question.plan.clear();
    maker.ask("empty plan against a sheet", question, None);
}

/// Refusal 33, and what comes before and after it.
pub fn refused_sheets(maker: &mut Maker, scenario: &Scenario) {
    let durations = draw_durations(&mut maker.random, &scenario.network);
    let offsets = draw_offsets(&mut maker.random, &durations);
    let kept = sheet(&durations, None);
    let written = sheet(&durations, Some(&offsets));
    let signals = durations.len();
    if signals > 0 {
        let line = maker.random.index(signals);
        let told = refused(33, line + 1, 0);
        for (name, text) in broken_forms(&mut maker.random, &kept, line) {
            let question = maker.sheet_to_keep(scenario, text);
            maker.ask(
                &format!("33: {name}"),
                question,
                Some(Answer::Refused(told)),
            );
        }
        for (name, text) in broken_forms(&mut maker.random, &written, line) {
            let question = maker.sheet_to_write(&scenario.network, text);
            maker.ask_text(&format!("33: {name}"), question, Err(told));
        }
        outside_limits(maker, scenario, &durations, line);
        let text = written.text();
        ask_both(
            maker,
            scenario,
            "33: sheet of the other call",
            (&text, &kept.text()),
            1,
        );
    }
    let more = |sheet: &Sheet| [&sheet.text()[..], b"\n"].concat();
    let surplus = (more(&kept), more(&written));
    let surplus = (&surplus.0[..], &surplus.1[..]);
    ask_both(maker, scenario, "33: surplus", surplus, signals + 1);
    order(maker, scenario, &kept);
}

/// Refusal 33 at a line, of the sheet to be kept and the one to be written from.
fn ask_both(
    maker: &mut Maker,
    scenario: &Scenario,
    name: &str,
    texts: (&[u8], &[u8]),
    line: usize,
) {
    let told = refused(33, line, 0);
    let question = maker.sheet_to_keep(scenario, texts.0.to_vec());
    maker.ask(name, question, Some(Answer::Refused(told)));
    let question = maker.sheet_to_write(&scenario.network, texts.1.to_vec());
    maker.ask_text(name, question, Err(told));
}

/// Durations outside of their phase's limits, and offsets not below their sum.
fn outside_limits(maker: &mut Maker, scenario: &Scenario, durations: &[Vec<u64>], signal: usize) {
    let phases = &scenario.network.signals[signal].phases;
    let phase = maker.random.index(phases.len());
    let offsets = vec![0; durations.len()];
    for duration in [phases[phase].least - 1, phases[phase].greatest + 1, MOST] {
        let mut changed = durations.to_vec();
        changed[signal][phase] = duration;
        let kept = sheet(&changed, None).text();
        let written = sheet(&changed, Some(&offsets)).text();
        let texts = (&kept[..], &written[..]);
        ask_both(maker, scenario, "33: duration", texts, signal + 1);
    }
    let sum: u64 = durations[signal].iter().sum();
    for offset in [sum, sum + 1, MOST] {
        let mut changed = offsets.clone();
        changed[signal] = offset;
        let text = sheet(durations, Some(&changed)).text();
        let question = maker.sheet_to_write(&scenario.network, text);
        maker.ask_text("33: offset", question, Err(refused(33, signal + 1, 0)));
    }
}

/// The network, then 33, then 8, then the plan.
fn order(maker: &mut Maker, scenario: &Scenario, kept: &Sheet) {
    let surplus = [&kept.text()[..], b"x"].concat();
    let lines = kept.lines.len();
    let mut question = maker.sheet_to_keep(scenario, surplus);
    question.plan = b"x".to_vec();
    question.ledger = Ledger::default();
    let told = Some(Answer::Refused(refused(33, lines + 1, 0)));
    maker.ask("33: before ledger and plan", question.clone(), told);
    let mut network = scenario.network.clone();
    network.links[0].travel_time = 0;
    question.network = Sheet::of_network(&network).text();
    let line = 2 + network.trams.len() + network.signals.len();
    let told = Some(Answer::Refused(refused(4, line, 1)));
    maker.ask("4: before the sheet", question, told);

    let mut question = maker.sheet_to_keep(scenario, kept.text());
    question.plan = b"x".to_vec();
    question.ledger.length = scenario.ledger_need() - 1;
    question.ledger.start.truncate(scenario.ledger_need() - 1);
    let told = Some(Answer::Refused(refused(8, 0, 0)));
    maker.ask("8: after the sheet, before the plan", question, told);
}

/// Plans written from any sheet, which mostly don't fit the steps.
pub fn written(maker: &mut Maker, scenario: &Scenario) {
    let durations = draw_durations(&mut maker.random, &scenario.network);
    written_from(maker, &scenario.network, &durations);
    // A cycle that fits if every step is as long as another.
    let mut network = scenario.network.clone();
    let length = network.steps[0].length;
    for step in &mut network.steps {
        step.length = length;
    }
    let mut durations = durations;
    let signals = durations.iter_mut().zip(&network.signals);
    for (fixed, signal) in signals {
        for (duration, phase) in fixed.iter_mut().zip(&signal.phases) {
            let fitting = *duration / length * length;
            if fitting >= phase.least {
                *duration = fitting;
            }
        }
    }
    written_from(maker, &network, &durations);
}

/// What a sheet with some offsets comes to, with trams and without.
fn written_from(maker: &mut Maker, network: &Network, durations: &[Vec<u64>]) {
    let mut without = network.clone();
    without.trams.clear();
    let length = network.steps[0].length;
    for _ in 0..2 {
        let mut offsets = draw_offsets(&mut maker.random, durations);
        for network in [&without, network] {
            ask_written(maker, network, durations, &offsets);
        }
        for offset in &mut offsets {
            *offset -= *offset % length;
        }
        ask_written(maker, &without, durations, &offsets);
    }
}

fn ask_written(maker: &mut Maker, network: &Network, durations: &[Vec<u64>], offsets: &[u64]) {
    let question = maker.sheet_to_write(network, sheet(durations, Some(offsets)).text());
    match planned(network, durations, offsets) {
        Err(refusal) => {
            let mut question = question;
            if maker.random.chance(30) {
                // Before the buffer.
                question.buffer = Buffer::default();
            }
            maker.ask_text("35: a run or a tram", question, Err(refusal));
        }
        Ok(plan) => {
            let text = Sheet::of_plan(&plan).text();
            for (name, room) in [
                ("plan of a sheet", text.len() + 3),
                ("plan of a sheet, buffer just long enough", text.len()),
                ("24: buffer too short for a sheet's plan", text.len() - 1),
            ] {
                let mut question = question.clone();
                question.buffer.length = room;
                let is_enough = room >= text.len();
                let intended = is_enough.then(|| text.clone()).ok_or(refused(24, 0, 0));
                maker.ask_text(name, question, intended);
            }
        }
    }
}

/// The plan of a sheet; by rising signal a tram or a run that ends in a step.
fn planned(
    network: &Network,
    durations: &[Vec<u64>],
    offsets: &[u64],
) -> Result<Vec<PlanStep>, Refusal> {
    let mut plan = vec![PlanStep::of_zeros(network); network.steps.len()];
    for (signal, fixed) in durations.iter().enumerate() {
        let told = refused(35, 0, signal + 1);
        let has_tram = network
            .trams
            .iter()
            .any(|tram| tram.signal == signal as u64 + 1);
        let masks = cycle_masks(network, fixed, offsets[signal]).ok_or(told)?;
        if has_tram {
            return Err(told);
        }
        for (step, mask) in plan.iter_mut().zip(masks) {
            step.masks[signal] = mask;
        }
    }
    Ok(plan)
}

/// Cases worked out by hand: which run is reported, and the ends of a sheet.
pub fn special_sheets(maker: &mut Maker) {
    // Two lights, steps of 10 seconds. Light 2's run of phase 2 ends with step
    // 8, but trams hide until step 12 that it is left; light 1's ends with step
    // 9 and is left in step 10.
    let trams = "T\t2\t1\t9\t11\n";
    let light = "G\t10\t60\t2\t1\t10\t10\t10\t60\t10\t60\n";
    let steps = "S\t10\t0\n".repeat(13);
    let head = "N\t1\t2\t0\t13\t1\t0\n";
    let link = "Q\t0\t1\t0\t0\t0\t0\t0\n";
    let network = format!("{head}{trams}{light}{light}{link}{steps}");
    let shown = [
        [1, 1],
        [1, 1],
        [2, 2],
        [2, 2],
        [1, 1],
        [1, 1],
        [2, 2],
        [2, 2],
        [2, 1],
        [1, 1],
        [1, 1],
        [1, 1],
        [1, 1],
    ];
    let plan: String = shown
        .iter()
        .map(|[a, b]| format!("P\t{a}\t{b}\t0\t0\n"))
        .collect();
    let ask = |maker: &mut Maker, name: &str, sheet: &str, answer: Option<Answer>| {
        let texts = Texts {
            network: network.clone().into_bytes(),
            plan: plan.clone().into_bytes(),
        };
        let question = Question {
            second: sheet.as_bytes().to_vec(),
            ..texts.question(maker.draw_ledger(28), Call::CheckSheet)
        };
        maker.ask(name, question, answer);
    };
    let told = |line, signal| Some(Answer::Refused(refused(34, line, signal)));
    let sheets = [
        ("F\t20\t10\nF\t20\t10\n", told(8, 2)),
        ("F\t20\t10\nF\t20\t20\n", told(9, 1)),
        ("F\t20\t30\nF\t20\t10\n", told(8, 2)),
    ];
    for (sheet, answer) in sheets {
        let name = "34: the run that ends first, not the one left first";
        ask(maker, name, sheet, answer);
    }
    let accepted = Answer::PlanAccepted(Default::default());
    ask(
        maker,
        "both runs last",
        "F\t20\t30\nF\t20\t20\n",
        Some(accepted),
    );
}

/// One light of two phases over eight steps of ten seconds, and a run that counts
/// or not by trams before it, in it and after it.
pub fn runs_with_trams(maker: &mut Maker) {
    let mut ask = |tram: &str, greatest: u64, shown: [u64; 8], sheet: &str, line: usize| {
        let trams = usize::from(!tram.is_empty());
        let light = format!("G\t20\t{greatest}\t2\t1\t10\t10\t10\t30\t10\t30\n");
        let steps = "S\t10\t0\n".repeat(8);
        let head = format!("N\t1\t1\t0\t8\t{trams}\t0\n");
        let link = "Q\t0\t1\t0\t0\t0\t0\t0\n";
        let planned = shown.iter().map(|mask| format!("P\t{mask}\t0\t0\n"));
        let texts = Texts {
            network: format!("{head}{tram}{light}{link}{steps}").into_bytes(),
            plan: planned.collect::<String>().into_bytes(),
        };
        let question = Question {
            second: sheet.as_bytes().to_vec(),
            ..texts.question(maker.draw_ledger(18), Call::CheckSheet)
        };
        let answer = match line {
            0 => Answer::PlanAccepted(Default::default()),
            _ => Answer::Refused(refused(34, line, 1)),
        };
        maker.ask("run that counts or not", question, Some(answer));
    };
    let plain = [1, 2, 2, 1, 1, 2, 2, 1];
    // The run from 50 to 70 seconds, tested from the greatest cycle on.
    ask("", 50, plain, "F\t20\t20\n", 0);
    ask("", 50, plain, "F\t20\t10\n", 7);
    ask("", 51, plain, "F\t20\t10\n", 0);
    // A tram in its midst: its seconds don't count, and it doesn't end it.
    ask("T\t1\t2\t7\t7\n", 40, plain, "F\t20\t10\n", 0);
    ask("T\t1\t2\t7\t7\n", 40, plain, "F\t20\t20\n", 6);
    let shown = [1, 2, 2, 1, 1, 2, 1, 2];
    ask("T\t1\t1\t7\t7\n", 40, shown, "F\t20\t10\n", 0);
    // Trams to the end: it isn't left.
    let shown = [1, 2, 2, 1, 1, 2, 1, 1];
    ask("T\t1\t1\t7\t8\n", 40, shown, "F\t20\t30\n", 0);
    // Trams from the start: the phase shown before the plan goes on, and begins
    // nowhere in it.
    let trams = "T\t1\t2\t1\t5\n";
    ask(trams, 40, [2, 2, 2, 2, 2, 1, 1, 2], "F\t10\t10\n", 0);
    // Then phase 2 begins, at 50 seconds by the clock.
    ask(trams, 40, [2, 2, 2, 2, 2, 2, 1, 1], "F\t30\t10\n", 0);
    ask(trams, 40, [2, 2, 2, 2, 2, 2, 1, 1], "F\t30\t20\n", 6);
}
