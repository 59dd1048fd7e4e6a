//! Refusals 2 to 6: every condition broken by itself, and the near misses that
//! pass.

use super::{refused, Answer, Maker, Scenario, Sheet, Texts};
use crate::{Network, Phase, Refusal};

/// One kind of item in a network text.
struct Place {
    /// The refusal number of its values.
    number: u64,
    /// Counted from 1.
    line: usize,
    item: usize,
}

impl Maker {
    /// A change that breaks one condition of the item.
    fn breach(
        &mut self,
        scenario: &Scenario,
        name: &str,
        place: &Place,
        change: impl FnOnce(&mut Network),
    ) {
        let refusal = refused(place.number, place.line, place.item);
        self.refused_change(scenario, name, refusal, change);
    }

    fn refused_change(
        &mut self,
        scenario: &Scenario,
        name: &str,
        refusal: Refusal,
        change: impl FnOnce(&mut Network),
    ) {
        let mut network = scenario.network.clone();
        change(&mut network);
        let texts = Texts::new(&network, &scenario.plan);
        self.ask_refused_network(name, texts, scenario.ledger_need(), refusal);
    }

    /// A change after which the network still passes; the plan may not.
    fn near_miss(&mut self, scenario: &Scenario, name: &str, change: impl FnOnce(&mut Network)) {
        let mut network = scenario.network.clone();
        change(&mut network);
        let texts = Texts::new(&network, &scenario.plan);
        if self.random.chance(60) {
            self.ask_network(name, texts, Some(Answer::NetworkAccepted));
        } else {
            self.ask_plan(name, texts, scenario.ledger_need(), None);
        }
    }
}

/// Refusal 2.
pub fn counts(maker: &mut Maker, scenario: &Scenario) {
    let texts = Texts::of(scenario);
    for (field, count) in [
        (1, "0"),
        (1, "25"),
        (1, "4294967295"),
        (2, "9"),
        (2, "4294967295"),
        (3, "65"),
        (3, "4294967295"),
        (4, "0"),
        (4, "121"),
        (4, "4294967295"),
        (5, "17"),
        (5, "4294967295"),
        (6, "121"),
        (6, "4294967295"),
    ] {
        let mut sheet = Sheet::of_network(&scenario.network);
        sheet.set(0, field, count.as_bytes());
        maker.ask_refused_network(
            "2: count outside its limits",
            texts.with_network(sheet.text()),
            scenario.ledger_need(),
            refused(2, 1, 0),
        );
    }
    // Counts at their limits, to which the other lines do not belong.
    for (field, count) in [
        (1, "1"),
        (1, "24"),
        (2, "0"),
        (2, "8"),
        (3, "0"),
        (3, "64"),
        (4, "1"),
        (4, "120"),
        (5, "0"),
        (5, "16"),
        (6, "0"),
        (6, "120"),
    ] {
        let mut sheet = Sheet::of_network(&scenario.network);
        sheet.set(0, field, count.as_bytes());
        maker.ask_network(
            "count at its limit, other lines as they were",
            texts.with_network(sheet.text()),
            None,
        );
    }
    // Two counts, and a line of good counts that the rest does not follow.
    let mut sheet = Sheet::of_network(&scenario.network);
    sheet.set(0, 1, b"25");
    sheet.set(0, 4, b"0");
    sheet.lines.truncate(1);
    maker.ask_network(
        "2: two counts outside their limits",
        texts.with_network(sheet.text()),
        Some(Answer::Refused(refused(2, 1, 0))),
    );
    maker.ask_network(
        "1: largest counts and no other line",
        texts.with_network(b"N\t24\t8\t64\t120\t0\t0\n".to_vec()),
        Some(Answer::Refused(refused(1, 2, 0))),
    );
}

/// A near miss or a breach of one item.
type Judged<'a, T> = (&'a str, T, bool);

/// Refusal 3, except for the number of phases.
pub fn signals(maker: &mut Maker, scenario: &Scenario) {
    let signal_count = scenario.network.signals.len();
    if signal_count == 0 {
        return;
    }
    let signal = maker.random.index(signal_count);
    let phase_count = scenario.network.signals[signal].phases.len();
    let phase = maker.random.index(phase_count);
    let place = Place {
        number: 3,
        line: 2 + scenario.network.trams.len() + signal,
        item: 1 + signal,
    };

    for shown in [0, phase_count as u64 + 1, u64::from(u32::MAX)] {
        maker.breach(scenario, "3: shown phase is none", &place, |network| {
            network.signals[signal].shown_phase = shown;
        });
    }
    for shown in [1, phase_count as u64] {
        maker.near_miss(scenario, "shown phase first or last", |network| {
            let signal = &mut network.signals[signal];
            signal.shown_phase = shown;
            signal.shown_seconds = 1;
            signal.clock = 1;
        });
    }
    phase_times(maker, scenario, &place, phase);
    cycle_times(maker, scenario, &place);
    shown_times(maker, scenario, &place, phase);
}

impl Maker {
    /// A change that the item passes or not.
    fn judged_change(
        &mut self,
        scenario: &Scenario,
        place: &Place,
        name: &str,
        passes: bool,
        change: impl FnOnce(&mut Network),
    ) {
        if passes {
            self.near_miss(scenario, name, change);
        } else {
            self.breach(scenario, name, place, change);
        }
    }
}

const MOST: u64 = u32::MAX as u64;

/// The times of a phase. Where seconds have shown, they stay in reach.
fn phase_times(maker: &mut Maker, scenario: &Scenario, place: &Place, phase: usize) {
    let longest_step = scenario.longest_step();
    let times: [Judged<(u64, u64)>; 11] = [
        ("3: least time 0", (0, 3600), false),
        ("least time 1", (1, 3600), true),
        ("3: least above greatest time", (101, 100), false),
        ("least equal to greatest time", (100, 100), true),
        ("3: greatest time 3601", (1, 3601), false),
        ("3: least and greatest time 3601", (3601, 3601), false),
        ("least and greatest time 3600", (3600, 3600), true),
        ("3: greatest time at most of 32 bits", (1, MOST), false),
        ("3: least time at most of 32 bits", (MOST, 3600), false),
        ("3: both times 0", (0, 0), false),
        (
            "greatest time equal to the longest step",
            (1, longest_step),
            true,
        ),
    ];
    for (name, (least, greatest), passes) in times {
        maker.judged_change(scenario, place, name, passes, |network| {
            let signal = &mut network.signals[place.item - 1];
            signal.phases[phase] = Phase { least, greatest };
            if signal.shown_phase == phase as u64 + 1 {
                signal.shown_seconds = signal.shown_seconds.min(greatest);
                if signal.shown_phase == 1 {
                    signal.clock = signal.shown_seconds;
                }
            }
        });
    }
}

/// The times of the cycle, the clock at 1 second.
fn cycle_times(maker: &mut Maker, scenario: &Scenario, place: &Place) {
    let times: [Judged<(u64, u64)>; 9] = [
        ("3: least cycle 0", (0, 3600), false),
        ("least cycle 1", (1, 3600), true),
        ("3: least above greatest cycle", (101, 100), false),
        ("least equal to greatest cycle", (100, 100), true),
        ("3: greatest cycle 3601", (1, 3601), false),
        ("3: both cycles 3601", (3601, 3601), false),
        ("both cycles 3600", (3600, 3600), true),
        ("cycle of 1 second", (1, 1), true),
        ("3: greatest cycle at most of 32 bits", (1, MOST), false),
    ];
    for (name, (least, greatest), passes) in times {
        maker.judged_change(scenario, place, name, passes, |network| {
            let signal = &mut network.signals[place.item - 1];
            signal.least_cycle = least;
            signal.greatest_cycle = greatest;
            signal.shown_seconds = 1;
            signal.clock = 1;
        });
    }
}

/// A shown phase (from index 0), its seconds, the clock and the greatest cycle.
type Shown = (usize, u64, u64, u64);

/// Shown seconds and clock. A phase other than the first is shown where the
/// clock may differ from the seconds.
fn shown_times(maker: &mut Maker, scenario: &Scenario, place: &Place, phase: usize) {
    let phases = &scenario.network.signals[place.item - 1].phases;
    let other = (phase + 1) % phases.len();
    let greatest = phases[phase].greatest;
    let mut times: Vec<Judged<Shown>> = vec![(
        "shown seconds equal to the greatest time",
        (phase, greatest, greatest, 3600),
        true,
    )];
    if greatest < 3600 {
        let above = greatest + 1;
        let name = "3: shown seconds above the greatest time";
        times.push((name, (phase, above, above, 3600), false));
    }
    if greatest > phases[other].greatest {
        let name = "3: shown seconds above that phase's greatest time only";
        times.push((name, (other, greatest, greatest, 3600), false));
    }
    let name = "3: shown seconds at most of 32 bits";
    times.push((name, (phase, MOST, MOST, 3600), false));

    let later = phase.max(1);
    let later_seconds = phases[later].greatest.min(5);
    let seconds = phases[0].greatest.min(5);
    times.extend([
        (
            "clock equal to the greatest cycle",
            (later, 1, 77, 77),
            true,
        ),
        (
            "3: clock above the greatest cycle",
            (later, 1, 78, 77),
            false,
        ),
        ("3: clock at most of 32 bits", (later, 1, MOST, 77), false),
        (
            "clock equal to shown seconds",
            (later, later_seconds, later_seconds, 77),
            true,
        ),
        (
            "3: clock below shown seconds",
            (later, later_seconds, later_seconds - 1, 77),
            false,
        ),
        ("nothing shown yet", (later, 0, 0, 77), true),
        ("phase 1 and clock agree", (0, seconds, seconds, 77), true),
        (
            "3: clock above phase 1",
            (0, seconds, seconds + 1, 77),
            false,
        ),
        (
            "3: clock below phase 1",
            (0, seconds, seconds - 1, 77),
            false,
        ),
        ("clock above a later phase", (later, 1, 2, 77), true),
    ]);
    for (name, (phase, seconds, clock, greatest_cycle), passes) in times {
        maker.judged_change(scenario, place, name, passes, |network| {
            let signal = &mut network.signals[place.item - 1];
            signal.shown_phase = phase as u64 + 1;
            signal.shown_seconds = seconds;
            signal.clock = clock;
            signal.greatest_cycle = greatest_cycle;
            signal.least_cycle = 1;
        });
    }
}

/// Refusal 4.
pub fn links(maker: &mut Maker, scenario: &Scenario) {
    let network = &scenario.network;
    let signal_count = network.signals.len() as u64;
    let link = maker.random.index(network.links.len());
    let place = Place {
        number: 4,
        line: 2 + network.trams.len() + network.signals.len() + link,
        item: 1 + link,
    };

    for capacity in [2_000_000_001, MOST] {
        maker.breach(scenario, "4: capacity", &place, |network| {
            network.links[link].capacity = capacity;
        });
    }
    maker.near_miss(scenario, "greatest capacity", |network| {
        network.links[link].capacity = 2_000_000_000;
    });
    maker.near_miss(scenario, "capacity 0", |network| {
        network.past.clear();
        network.links[link].capacity = 0;
        network.links[link].standing = 0;
    });

    for travel_time in [0, 3601, MOST] {
        maker.breach(scenario, "4: travel time", &place, |network| {
            network.links[link].travel_time = travel_time;
        });
    }
    for travel_time in [1, 3600] {
        maker.near_miss(scenario, "travel time at its limit", |network| {
            network.past.clear();
            network.links[link].travel_time = travel_time;
        });
    }
    let any = maker.random.between(1, 3600);
    maker.near_miss(scenario, "any travel time", |network| {
        network.past.clear();
        network.links[link].travel_time = any;
    });

    for exit_rate in [10_001, MOST] {
        maker.breach(scenario, "4: exit rate", &place, |network| {
            network.links[link].exit_rate = exit_rate;
        });
    }
    maker.near_miss(scenario, "greatest exit rate", |network| {
        network.links[link].exit_rate = 10_000;
    });

    for signal in [signal_count + 1, MOST] {
        maker.breach(scenario, "4: light above R", &place, |network| {
            network.links[link].signal = signal;
            network.links[link].phase_mask = 1;
        });
    }
    for mask in [1, 128, MOST] {
        maker.breach(scenario, "4: mask without a light", &place, |network| {
            network.links[link].signal = 0;
            network.links[link].phase_mask = mask;
        });
    }
    maker.near_miss(scenario, "no light and no mask", |network| {
        network.links[link].signal = 0;
        network.links[link].phase_mask = 0;
    });
    if signal_count > 0 {
        let signal = maker.random.index(network.signals.len());
        let phase_count = network.signals[signal].phases.len();
        let above = 1 << phase_count;
        for mask in [0, above, above + 1, 1 << 31, MOST] {
            maker.breach(scenario, "4: mask of a light", &place, |network| {
                network.links[link].signal = signal as u64 + 1;
                network.links[link].phase_mask = mask;
            });
        }
        for mask in [1, above >> 1, above - 1] {
            maker.near_miss(scenario, "mask of a light", |network| {
                network.links[link].signal = signal as u64 + 1;
                network.links[link].phase_mask = mask;
            });
        }
    }

    maker.breach(scenario, "4: standing above capacity", &place, |network| {
        network.links[link].standing = network.links[link].capacity + 1;
    });
    maker.near_miss(scenario, "standing equal to capacity", |network| {
        network.past.clear();
        network.links[link].standing = network.links[link].capacity;
    });
    maker.breach(
        scenario,
        "4: standing at most of 32 bits",
        &place,
        |network| {
            network.links[link].standing = MOST;
        },
    );
}

/// Refusal 5.
pub fn movements(maker: &mut Maker, scenario: &Scenario) {
    let network = &scenario.network;
    let movement_count = network.movements.len();
    if movement_count == 0 {
        return;
    }
    let link_count = network.links.len() as u64;
    let lines_before = 1 + network.trams.len() + network.signals.len() + network.links.len();
    let movement = maker.random.index(movement_count);
    let place = |movement: usize| Place {
        number: 5,
        line: lines_before + movement + 1,
        item: movement + 1,
    };

    for link in [0, link_count + 1, MOST] {
        maker.breach(scenario, "5: from link", &place(movement), |network| {
            network.movements[movement].from = link;
        });
        maker.breach(scenario, "5: to link", &place(movement), |network| {
            network.movements[movement].to = link;
        });
    }
    maker.breach(
        scenario,
        "5: from equal to to",
        &place(movement),
        |network| {
            network.movements[movement].to = network.movements[movement].from;
        },
    );
    for rate in [0, 10_001, MOST] {
        maker.breach(scenario, "5: rate", &place(movement), |network| {
            network.movements[movement].rate = rate;
        });
    }
    for rate in [1, 10_000] {
        maker.near_miss(scenario, "rate at its limit", |network| {
            network.movements[movement].rate = rate;
        });
    }
    for share in [0, 1001, MOST] {
        maker.breach(scenario, "5: share", &place(movement), |network| {
            network.movements[movement].share = share;
        });
    }

    if movement > 0 {
        let before = network.movements[movement - 1].clone();
        maker.breach(
            scenario,
            "5: pair equal to the one before",
            &place(movement),
            |network| {
                network.movements[movement].from = before.from;
                network.movements[movement].to = before.to;
            },
        );
        // The two lines change places.
        maker.breach(
            scenario,
            "5: pair below the one before",
            &place(movement),
            |network| {
                network.movements.swap(movement - 1, movement);
            },
        );
    }
    for index in 1..movement_count {
        let (before, this) = (&network.movements[index - 1], &network.movements[index]);
        if this.from > before.from && this.to < before.to {
            // A smaller from link with a larger to link.
            maker.breach(
                scenario,
                "5: from link falls, to link rises",
                &place(index),
                |network| {
                    network.movements.swap(index - 1, index);
                },
            );
            break;
        }
    }

    // Share sums, reported at the link's last movement.
    let last_of = |from: u64| {
        network
            .movements
            .iter()
            .rposition(|movement| movement.from == from)
            .expect("the link has movements")
    };
    let sharing = |movement: usize| {
        let from = network.movements[movement].from;
        let same_link = network.movements.iter().filter(|other| other.from == from);
        same_link.count() > 1
    };
    let last = last_of(network.movements[movement].from);
    if network.movements[movement].share < 1000 {
        maker.breach(scenario, "5: shares sum to 1001", &place(last), |network| {
            network.movements[movement].share += 1;
        });
    }
    if network.movements[movement].share > 1 {
        maker.breach(scenario, "5: shares sum to 999", &place(last), |network| {
            network.movements[movement].share -= 1;
        });
    }
    if sharing(movement) {
        let from = network.movements[movement].from;
        // One gives 1 to another: the sum stays.
        let others: Vec<usize> = scenario
            .movements_from(from as usize - 1)
            .into_iter()
            .filter(|&other| other != movement && network.movements[other].share > 1)
            .collect();
        if let Some(&other) = others.first() {
            maker.near_miss(scenario, "shares changed, same sum", |network| {
                network.movements[movement].share += 1;
                network.movements[other].share -= 1;
            });
        }
    }
    maker.breach(
        scenario,
        "5: all shares 1000 or 1",
        &place(last_of_wrong_sum(network)),
        |network| {
            for movement in &mut network.movements {
                movement.share = if movement.share == 1000 { 999 } else { 1000 };
            }
        },
    );

    // After all `M` lines and before the first `H` or `S` line.
    let step_line = lines_before + movement_count;
    let mut sheet = Sheet::of_network(&with_wrong_share(network, movement));
    sheet.set(step_line, 0, b"X");
    let texts = Texts::of(scenario);
    let need = scenario.ledger_need();
    let at_last = refused(5, lines_before + last + 1, last + 1);
    let name = "5: share sum before the form of the first step";
    maker.ask_refused_network(name, texts.with_network(sheet.text()), need, at_last);
    sheet.lines.truncate(step_line);
    let name = "5: share sum before a missing first step";
    maker.ask_refused_network(name, texts.with_network(sheet.text()), need, at_last);
    let name = "1: unfinished last movement before the share sum";
    let refusal = refused(1, step_line, 0);
    maker.ask_refused_network(
        name,
        texts.with_network(sheet.unfinished_text()),
        need,
        refusal,
    );
    let mut broken = with_wrong_share(network, movement);
    broken.movements[movement_count - 1].rate = 0;
    maker.ask_refused_network(
        "5: value of the last movement before the share sum",
        Texts::new(&broken, &scenario.plan),
        need,
        refused(5, step_line, movement_count),
    );
}

/// A network in which one movement's share is off by one.
fn with_wrong_share(network: &Network, movement: usize) -> Network {
    let mut network = network.clone();
    let share = &mut network.movements[movement].share;
    *share = if *share > 1 { *share - 1 } else { *share + 1 };
    network
}

/// The last movement of the first link that has movements: with all shares
/// changed every link's sum is wrong, and the first link is reported.
fn last_of_wrong_sum(network: &Network) -> usize {
    let first = network.movements[0].from;
    let same_link = network.movements.iter().filter(|other| other.from == first);
    same_link.count() - 1
}

/// Refusal 6.
pub fn steps(maker: &mut Maker, scenario: &Scenario) {
    let network = &scenario.network;
    let lines_before = 1
        + network.trams.len()
        + network.signals.len()
        + network.links.len()
        + network.movements.len()
        + network.past.len();
    let step = maker.random.index(network.steps.len());
    let link = maker.random.index(network.links.len());
    let place = Place {
        number: 6,
        line: lines_before + step + 1,
        item: step + 1,
    };

    for length in [0, 61, MOST] {
        maker.breach(scenario, "6: length", &place, |network| {
            let_phases_last(network);
            network.steps[step].length = length;
        });
    }
    for length in [1, 60] {
        maker.near_miss(scenario, "length at its limit", |network| {
            let_phases_last(network);
            for step in &mut network.steps {
                step.length = length;
            }
        });
    }
    for demand in [600_001, MOST] {
        maker.breach(scenario, "6: demand", &place, |network| {
            network.steps[step].demand[link] = demand;
        });
    }
    maker.near_miss(scenario, "greatest demand", |network| {
        network.steps[step].demand[link] = 600_000;
    });

    if !network.signals.is_empty() {
        // One phase of one light is shorter than the first step that is as
        // long as the longest. What has shown of it stays in reach.
        let longest = scenario.longest_step();
        let first_longest = network
            .steps
            .iter()
            .position(|step| step.length == longest)
            .expect("one is the longest");
        let signal = maker.random.index(network.signals.len());
        let phase = maker.random.index(network.signals[signal].phases.len());
        let shorten = |greatest: u64| {
            move |network: &mut Network| {
                let signal = &mut network.signals[signal];
                signal.phases[phase] = Phase { least: 1, greatest };
                if signal.shown_phase == phase as u64 + 1 {
                    signal.shown_seconds = signal.shown_seconds.min(greatest);
                    if phase == 0 {
                        signal.clock = signal.shown_seconds;
                    }
                }
            }
        };
        if longest > 1 {
            let place = Place {
                number: 6,
                line: lines_before + first_longest + 1,
                item: first_longest + 1,
            };
            let name = "6: length above a phase's greatest time";
            maker.breach(scenario, name, &place, shorten(longest - 1));
        }
        let name = "length equal to a phase's greatest time";
        maker.near_miss(scenario, name, shorten(longest));
    }
}

/// All phases may last for a minute and more.
fn let_phases_last(network: &mut Network) {
    let signals = network.signals.iter_mut();
    for phase in signals.flat_map(|signal| &mut signal.phases) {
        phase.greatest = 3600;
    }
}

/// Two fields of the network text that are bad each by itself: the earlier
/// line is reported, and in one line the form before the values.
pub fn two_breaches(maker: &mut Maker, scenario: &Scenario) {
    let sheet = Sheet::of_network(&scenario.network);
    for _ in 0..12 {
        let first_line = maker.random.index(sheet.lines.len());
        let second_line = if maker.random.chance(60) {
            first_line
        } else {
            maker.random.index(sheet.lines.len())
        };
        let first = draw_bad_field(maker, scenario, &sheet, first_line);
        let second = draw_bad_field(maker, scenario, &sheet, second_line);
        if (first.line, first.field) == (second.line, second.field) {
            continue;
        }
        let mut changed = sheet.clone();
        for bad in [&first, &second] {
            changed.set(bad.line, bad.field, bad.value);
        }
        let told = if first.order() < second.order() {
            &first
        } else {
            &second
        };
        let mut texts = Texts::of(scenario).with_network(changed.text());
        if maker.random.chance(30) {
            // A bad plan has no say.
            texts.plan.truncate(5);
        }
        let need = scenario.ledger_need();
        maker.ask_refused_network("two bad fields in the network", texts, need, told.refusal);
    }
}

/// A bad field of a network text; line and field from index 0.
struct BadField {
    line: usize,
    field: usize,
    value: &'static [u8],
    refusal: Refusal,
}

impl BadField {
    fn order(&self) -> (usize, bool) {
        let is_value = self.refusal.number != 1;
        (self.line, is_value)
    }
}

fn draw_bad_field(maker: &mut Maker, scenario: &Scenario, sheet: &Sheet, line: usize) -> BadField {
    // The values of a past step are judged after all lines.
    if maker.random.chance(40) || sheet.lines[line][0] == b"H" {
        return BadField {
            line,
            field: maker.random.index(sheet.lines[line].len()),
            value: b"x",
            refusal: refused(1, line + 1, 0),
        };
    }
    let network = &scenario.network;
    let last_demand = network.links.len() + 1;
    let values: &[(usize, &'static [u8])] = match sheet.lines[line][0][0] {
        b'N' => &[(1, b"25"), (2, b"9"), (3, b"65"), (4, b"0"), (6, b"121")],
        b'T' => &[(1, b"0"), (1, b"9"), (3, b"0"), (4, b"0"), (4, b"121")],
        b'G' => &[(1, b"0"), (2, b"3601"), (4, b"0"), (5, b"4294967295")],
        b'Q' => &[
            (1, b"2000000001"),
            (2, b"0"),
            (3, b"10001"),
            (6, b"4294967295"),
        ],
        b'M' => &[(1, b"0"), (2, b"25"), (3, b"0"), (4, b"1001")],
        _ => &[
            (1, b"0"),
            (1, b"61"),
            (2, b"600001"),
            (last_demand, b"600001"),
        ],
    };
    let (field, value) = maker.random.pick(values);
    let trams = network.trams.len();
    let signals = trams + network.signals.len();
    let links = network.links.len();
    let movements = network.movements.len();
    let past = network.past.len();
    // Items are counted from 1 after the lines of the other kinds.
    let (number, item) = match sheet.lines[line][0][0] {
        b'N' => (2, 0),
        b'T' => (28, 0),
        b'G' => (3, line - trams),
        b'Q' => (4, line - signals),
        b'M' => (5, line - signals - links),
        _ => (6, line - signals - links - movements - past),
    };
    BadField {
        line,
        field,
        value,
        refusal: refused(number, line + 1, item),
    }
}
