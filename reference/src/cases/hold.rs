//! Empty plan texts, which stand for plans that hold everything as it is.

use super::{refused, Answer, Call, Maker, Scenario, Texts};
use crate::{Network, Signal, Totals};

/// Whether a tram asks anything of a signal in a step (both from index 0).
fn is_tram_step(network: &Network, signal: usize, step: usize) -> bool {
    let step = step as u64 + 1;
    network
        .trams
        .iter()
        .any(|tram| tram.signal == signal as u64 + 1 && (tram.first..=tram.last).contains(&step))
}

/// What an empty plan comes to: every signal goes on with its phase until a
/// tram asks for another, it has shown too long or its cycle is too long, and
/// nothing moves.
fn held(network: &Network) -> Answer {
    let mut seconds = vec![0; network.signals.len()];
    for (index, step) in network.steps.iter().enumerate() {
        for (signal, seconds) in seconds.iter_mut().enumerate() {
            if !is_tram_step(network, signal, index) {
                *seconds += step.length;
            }
        }
        if let Some((rule, signal)) = broken_by_hold(network, index, &seconds) {
            return Answer::Refused(refused(rule, index + 1, signal + 1));
        }
    }
    let time: u64 = network.steps.iter().map(|step| step.length).sum();
    let standing: u64 = network.links.iter().map(|link| link.standing).sum();
    let waiting: u64 = network.links.iter().map(|link| link.waiting).sum();
    let entered: u64 = network.past.iter().flat_map(|step| &step.entered).sum();
    let left: u64 = network.past.iter().flat_map(|step| &step.left).sum();
    let inside = standing + entered - left;
    let mut doubled_time = 2 * time * (inside + waiting);
    let mut ends = 0;
    for step in &network.steps {
        ends += step.length;
        let demand: u64 = step.demand.iter().sum();
        doubled_time += demand * (2 * (time - ends) + step.length);
    }
    Answer::PlanAccepted(Totals {
        admitted: 0,
        let_out: 0,
        inside,
        doubled_time,
    })
}

/// The first rule that holding breaks after a step, and the signal, with the
/// ordinary seconds of each signal so far. In a tram's step 13 and 14 stand
/// still, so what passed before passes.
fn broken_by_hold(network: &Network, step: usize, seconds: &[u64]) -> Option<(u64, usize)> {
    let signals = || network.signals.iter().enumerate();
    let asked_otherwise = network.trams.iter().filter(|tram| {
        let shown = network.signals[tram.signal as usize - 1].shown_phase;
        (tram.first..=tram.last).contains(&(step as u64 + 1)) && tram.phase != shown
    });
    if let Some(signal) = asked_otherwise.map(|tram| tram.signal as usize - 1).min() {
        return Some((29, signal));
    }
    let too_long = signals().find(|(signal, limits)| {
        let phase = &limits.phases[limits.shown_phase as usize - 1];
        limits.shown_seconds + seconds[*signal] > phase.greatest
    });
    if let Some((signal, _)) = too_long {
        return Some((13, signal));
    }
    let too_long =
        signals().find(|(signal, limits)| limits.clock + seconds[*signal] > limits.greatest_cycle);
    too_long.map(|(signal, _)| (14, signal))
}

/// Empty plans on the network as it is, and what comes before and beside them.
pub fn empty_plans(maker: &mut Maker, scenario: &Scenario) {
    let need = scenario.ledger_need();
    for (name, network) in networks(scenario) {
        let intended = Some(held(&network));
        maker.ask_plan(name, Texts::new(&network, &[]), need, intended);
    }
    // A line feed is a line, and a bad one.
    let texts = Texts::of(scenario).with_plan(b"\n".to_vec());
    let intended = Some(Answer::Refused(refused(9, 1, 0)));
    maker.ask_plan("9: empty line in place of a plan", texts, need, intended);
    // The network and the ledger's length come first.
    let mut broken = scenario.network.clone();
    broken.links[0].travel_time = 0;
    let line = 2 + broken.trams.len() + broken.signals.len();
    let intended = Some(Answer::Refused(refused(4, line, 1)));
    let texts = Texts::new(&broken, &[]);
    maker.ask_plan("4: before an empty plan", texts, need, intended);
    let mut ledger = maker.draw_ledger(need);
    ledger.length = need - 1;
    ledger.start.truncate(need - 1);
    let question = Texts::new(&scenario.network, &[]).question(ledger, Call::CheckPlan);
    let intended = Some(Answer::Refused(refused(8, 0, 0)));
    maker.ask("8: before an empty plan", question, intended);
}

/// The network as it is, one that just allows to hold, and such that don't by
/// a second.
fn networks(scenario: &Scenario) -> Vec<(&'static str, Network)> {
    let mut kept = scenario.network.clone();
    for (index, signal) in kept.signals.iter_mut().enumerate() {
        let steps = scenario.network.steps.iter().enumerate();
        let ordinary = steps.filter(|(step, _)| !is_tram_step(&scenario.network, index, *step));
        let horizon: u64 = ordinary.map(|(_, step)| step.length).sum();
        // No shorter than the network itself allows.
        let longest = (signal.shown_seconds + horizon).max(scenario.longest_step());
        set_greatest_time(signal, longest.min(3600));
        set_greatest_cycle(signal, (signal.clock + horizon).clamp(1, 3600));
    }
    let mut networks = vec![
        ("empty plan", scenario.network.clone()),
        ("empty plan, phases may go on", kept.clone()),
    ];
    for (index, signal) in kept.signals.iter().enumerate() {
        let longest = signal.phases[signal.shown_phase as usize - 1].greatest;
        if longest > signal.shown_seconds.max(scenario.longest_step()) {
            let mut short = kept.clone();
            set_greatest_time(&mut short.signals[index], longest - 1);
            networks.push(("empty plan, phase one second too long", short));
        }
        if signal.greatest_cycle > signal.clock.max(1) {
            let mut short = kept.clone();
            set_greatest_cycle(&mut short.signals[index], signal.greatest_cycle - 1);
            networks.push(("empty plan, cycle one second too long", short));
        }
    }
    networks
}

/// Of the shown phase.
fn set_greatest_time(signal: &mut Signal, greatest: u64) {
    let phase = &mut signal.phases[signal.shown_phase as usize - 1];
    phase.greatest = greatest;
    phase.least = phase.least.min(greatest);
}

fn set_greatest_cycle(signal: &mut Signal, greatest: u64) {
    signal.greatest_cycle = greatest;
    signal.least_cycle = signal.least_cycle.min(greatest);
}
