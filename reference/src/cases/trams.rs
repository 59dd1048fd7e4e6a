//! Tram lines: refusal 28, and the near misses that pass.

use super::{refused, Answer, Maker, Scenario, Sheet, Texts};
use crate::{Network, Refusal, Tram};

/// The network with one tram line more, and that line counted from 1.
fn with_tram(network: &Network, tram: Tram) -> (Network, usize) {
    let mut network = network.clone();
    network.trams.push(tram);
    let line = 1 + network.trams.len();
    (network, line)
}

/// A tram in a step that no other has for its signal, if there is one.
fn free_tram(maker: &mut Maker, scenario: &Scenario) -> Option<Tram> {
    let network = &scenario.network;
    let mut free: Vec<(usize, usize)> = (0..network.signals.len())
        .flat_map(|signal| (0..scenario.step_count()).map(move |step| (signal, step)))
        .filter(|&(signal, step)| scenario.tram_phase(signal, step).is_none())
        .collect();
    maker.random.shuffle(&mut free);
    let &(signal, step) = free.first()?;
    Some(Tram {
        signal: signal as u64 + 1,
        phase: 1,
        first: step as u64 + 1,
        last: step as u64 + 1,
    })
}

pub fn tram_lines(maker: &mut Maker, scenario: &Scenario) {
    if scenario.network.trams.len() == 16 {
        return;
    }
    let Some(tram) = free_tram(maker, scenario) else {
        // Without a signal every tram line is refused.
        let tram = Tram {
            signal: 1,
            phase: 1,
            first: 1,
            last: 1,
        };
        let (network, line) = with_tram(&scenario.network, tram);
        if network.signals.is_empty() {
            ask(
                maker,
                scenario,
                "28: no light at all",
                &network,
                refused(28, line, 0),
            );
        }
        return;
    };
    near_misses(maker, scenario, &tram);
    refused_at_once(maker, scenario, &tram);
    refused_phases(maker, scenario, &tram);
}

fn ask(maker: &mut Maker, scenario: &Scenario, name: &str, network: &Network, refusal: Refusal) {
    let texts = Texts::new(network, &scenario.plan);
    maker.ask_refused_network(name, texts, scenario.ledger_need(), refusal);
}

/// Another tram passes; the plan may not.
fn near_misses(maker: &mut Maker, scenario: &Scenario, tram: &Tram) {
    let phases = scenario.network.signals[tram.signal as usize - 1]
        .phases
        .len() as u64;
    for phase in [1, phases] {
        let (network, _) = with_tram(
            &scenario.network,
            Tram {
                phase,
                ..tram.clone()
            },
        );
        let texts = Texts::new(&network, &scenario.plan);
        let name = "tram of the first or last phase";
        maker.ask_network(name, texts.clone(), Some(Answer::NetworkAccepted));
        maker.ask_plan(name, texts, scenario.ledger_need(), None);
    }
}

/// Light and steps, which are judged on the tram's own line.
fn refused_at_once(maker: &mut Maker, scenario: &Scenario, tram: &Tram) {
    let most = u64::from(u32::MAX);
    let signals = scenario.network.signals.len() as u64;
    let steps = scenario.step_count() as u64;
    let mut bad: Vec<(&str, Tram)> = Vec::new();
    for signal in [0, signals + 1, most] {
        bad.push((
            "28: light",
            Tram {
                signal,
                ..tram.clone()
            },
        ));
    }
    for first in [0, tram.last + 1, most] {
        bad.push((
            "28: first step",
            Tram {
                first,
                ..tram.clone()
            },
        ));
    }
    for last in [0, tram.first - 1, steps + 1, most] {
        bad.push((
            "28: last step",
            Tram {
                last,
                ..tram.clone()
            },
        ));
    }
    for (name, tram) in bad {
        let (network, line) = with_tram(&scenario.network, tram);
        ask(maker, scenario, name, &network, refused(28, line, 0));
    }
    // The same step again, of another phase; and of a phase that isn't there,
    // which would be reported later.
    for phase in [2, 9] {
        let (network, _) = with_tram(&scenario.network, tram.clone());
        if network.trams.len() < 16 {
            let (network, line) = with_tram(
                &network,
                Tram {
                    phase,
                    ..tram.clone()
                },
            );
            ask(
                maker,
                scenario,
                "28: overlap",
                &network,
                refused(28, line, 0),
            );
        }
    }
}

/// Phases, which are judged after the last `G` line.
fn refused_phases(maker: &mut Maker, scenario: &Scenario, tram: &Tram) {
    let phases = scenario.network.signals[tram.signal as usize - 1]
        .phases
        .len() as u64;
    for phase in [0, phases + 1, u64::from(u32::MAX)] {
        let (network, line) = with_tram(
            &scenario.network,
            Tram {
                phase,
                ..tram.clone()
            },
        );
        ask(maker, scenario, "28: phase", &network, refused(28, line, 0));
        // A link is judged later, a signal before.
        let mut changed = network.clone();
        changed.links[0].travel_time = 0;
        let name = "28: phase before a link";
        ask(maker, scenario, name, &changed, refused(28, line, 0));
        let last = network.signals.len();
        let mut changed = network.clone();
        changed.signals[last - 1].least_cycle = 0;
        let name = "3: last light before a tram's phase";
        ask(
            maker,
            scenario,
            name,
            &changed,
            refused(3, line + last, last),
        );
        let mut sheet = Sheet::of_network(&network);
        sheet.set(line + last, 0, b"X");
        let texts = Texts::of(scenario).with_network(sheet.text());
        let need = scenario.ledger_need();
        let name = "28: phase before the form of the first link";
        maker.ask_refused_network(name, texts, need, refused(28, line, 0));
    }
}
