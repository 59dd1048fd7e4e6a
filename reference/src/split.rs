//! Splitting a network and its plan between two boxes, and refusals 40 to 42.

use crate::network::{Link, Movement, Network, Step, Tram};
use crate::plan::{self, PlanStep};
use crate::Refusal;

/// The greatest number of a field.
const GREATEST: u64 = u32::MAX as u64;

/// Writes network and plan of the first half, then of the second, each at the
/// start of its buffer, and gives their lengths. Bit i-1 of the set is link i.
pub fn split(
    network_text: &[u8],
    plan_text: &[u8],
    first_half: u64,
    buffers: [&mut [u8]; 4],
) -> Result<[usize; 4], Refusal> {
    let network = Network::read(network_text)?;
    let halves = Halves {
        network: &network,
        first_half,
    };
    if !halves.is_acceptable_set() || !halves.are_acceptable_borders() {
        return Err(Refusal::new(40, 0, 0));
    }
    if halves.has_divided_signal() {
        return Err(Refusal::new(41, 0, 0));
    }
    let steps = plan::read_steps(&network, plan_text)?;
    let [first, second] = [true, false].map(|is_first| halves.half(is_first));
    let texts = [
        first.network(&steps).text(),
        plan::text(&first.plan(&steps)),
        second.network(&steps).text(),
        plan::text(&second.plan(&steps)),
    ];
    let mut pairs = buffers.iter().zip(&texts);
    if pairs.any(|(buffer, text)| buffer.len() < text.len()) {
        return Err(Refusal::new(42, 0, 0));
    }
    for (buffer, text) in buffers.into_iter().zip(&texts) {
        buffer[..text.len()].copy_from_slice(text);
    }
    Ok(texts.map(|text| text.len()))
}

/// A network and the links of its first half.
struct Halves<'a> {
    network: &'a Network,
    first_half: u64,
}

impl<'a> Halves<'a> {
    /// A link, from 1.
    fn is_in_first(&self, link: u64) -> bool {
        self.first_half >> (link - 1) & 1 == 1
    }

    /// Neither half is empty, no other link is named, and nothing is past or
    /// waits.
    fn is_acceptable_set(&self) -> bool {
        let all = (1 << self.network.links.len()) - 1;
        self.first_half != 0
            && self.first_half < all
            && self.network.past.is_empty()
            && self.network.links.iter().all(|link| link.waiting == 0)
    }

    fn is_border(&self, movement: &Movement) -> bool {
        self.is_in_first(movement.from) != self.is_in_first(movement.to)
    }

    fn are_acceptable_borders(&self) -> bool {
        let mut movements = self.network.movements.iter();
        movements.all(|movement| !self.is_border(movement) || self.is_acceptable_border(movement))
    }

    /// It leaves a link without a signal, exit rate and other movement from it,
    /// and enters one without demand and other border movement into it.
    fn is_acceptable_border(&self, border: &Movement) -> bool {
        let Link {
            signal, exit_rate, ..
        } = self.network.links[border.from as usize - 1];
        let movements = self.network.movements.iter();
        let others = || movements.clone().filter(|other| *other != border);
        let leaves_alone = others().all(|other| other.from != border.from);
        let enters_alone = others().all(|other| other.to != border.to || !self.is_border(other));
        let mut steps = self.network.steps.iter();
        let has_no_demand = steps.all(|step| step.demand[border.to as usize - 1] == 0);
        signal == 0 && exit_rate == 0 && leaves_alone && enters_alone && has_no_demand
    }

    /// The halves of a signal's links (from 1).
    fn links_of(&self, signal: u64) -> impl Iterator<Item = bool> + '_ {
        let links = self.network.links.iter().enumerate();
        links
            .filter(move |(_, link)| link.signal == signal)
            .map(|(index, _)| self.is_in_first(index as u64 + 1))
    }

    fn signals(&self) -> std::ops::RangeInclusive<u64> {
        1..=self.network.signals.len() as u64
    }

    fn has_divided_signal(&self) -> bool {
        let is_divided = |signal| {
            let in_first = self.links_of(signal).any(|in_first| in_first);
            let in_second = self.links_of(signal).any(|in_first| !in_first);
            in_first && in_second
        };
        self.signals().any(is_divided)
    }

    /// A signal without links goes to the first half.
    fn half(&self, is_first: bool) -> Half<'a> {
        let links = 1..=self.network.links.len() as u64;
        let in_half = |signal: &u64| self.links_of(*signal).next().unwrap_or(true) == is_first;
        Half {
            network: self.network,
            links: links
                .filter(|&link| self.is_in_first(link) == is_first)
                .collect(),
            signals: self.signals().filter(in_half).collect(),
        }
    }
}

/// One half: its links and signals by their old numbers, from 1.
struct Half<'a> {
    network: &'a Network,
    links: Vec<u64>,
    signals: Vec<u64>,
}

/// The new number, from 1, of an old one.
fn renumbered(kept: &[u64], old: u64) -> Option<u64> {
    let place = kept.iter().position(|&kept| kept == old)?;
    Some(place as u64 + 1)
}

/// What a list has at the kept places.
fn picked<T: Clone>(list: &[T], kept: &[u64]) -> Vec<T> {
    let places = kept.iter().map(|&number| number as usize - 1);
    places.map(|place| list[place].clone()).collect()
}

impl Half<'_> {
    /// The movement, from index 0, by which a link (from 1) sends volume to the
    /// other half.
    fn border_from(&self, link: u64) -> Option<usize> {
        let mut movements = self.network.movements.iter();
        movements.position(|movement| {
            movement.from == link && renumbered(&self.links, movement.to).is_none()
        })
    }

    /// The one by which a link gets volume from there.
    fn border_to(&self, link: u64) -> Option<usize> {
        let mut movements = self.network.movements.iter();
        movements.position(|movement| {
            movement.to == link && renumbered(&self.links, movement.from).is_none()
        })
    }

    /// The movements, from 1, within the half.
    fn movements(&self) -> Vec<u64> {
        let movements = (1..).zip(&self.network.movements);
        let inner = movements.filter(|(_, movement)| {
            self.links.contains(&movement.from) && self.links.contains(&movement.to)
        });
        inner.map(|(number, _)| number).collect()
    }

    fn network(&self, plan: &[PlanStep]) -> Network {
        let trams = self.network.trams.iter().filter_map(|tram| {
            let signal = renumbered(&self.signals, tram.signal)?;
            Some(Tram {
                signal,
                ..tram.clone()
            })
        });
        let link = |&number: &u64| {
            let old = &self.network.links[number as usize - 1];
            let border = self.border_from(number);
            Link {
                signal: renumbered(&self.signals, old.signal).unwrap_or(0),
                exit_rate: border
                    .map_or(old.exit_rate, |border| self.network.movements[border].rate),
                ..old.clone()
            }
        };
        let movements = picked(&self.network.movements, &self.movements());
        let movement = |old: Movement| {
            Some(Movement {
                from: renumbered(&self.links, old.from)?,
                to: renumbered(&self.links, old.to)?,
                ..old
            })
        };
        let steps = self.network.steps.iter().zip(plan);
        Network {
            trams: trams.collect(),
            signals: picked(&self.network.signals, &self.signals),
            links: self.links.iter().map(link).collect(),
            movements: movements.into_iter().filter_map(movement).collect(),
            past: Vec::new(),
            steps: steps
                .map(|(step, planned)| self.step(step, planned))
                .collect(),
        }
    }

    /// What comes over the border is demand.
    fn step(&self, old: &Step, planned: &PlanStep) -> Step {
        let demand = self.links.iter().map(|&link| match self.border_to(link) {
            Some(border) => planned.moved[border],
            None => old.demand[link as usize - 1],
        });
        Step {
            length: old.length,
            demand: demand.collect(),
        }
    }

    /// What goes over the border is let out here and admitted there.
    fn plan(&self, plan: &[PlanStep]) -> Vec<PlanStep> {
        let step = |old: &PlanStep| {
            let with_border = |volumes: &[u64], border: fn(&Self, u64) -> Option<usize>| {
                let sums = self.links.iter().map(|&link| {
                    let over = border(self, link).map_or(0, |border| old.moved[border]);
                    (volumes[link as usize - 1] + over).min(GREATEST)
                });
                sums.collect()
            };
            PlanStep {
                masks: picked(&old.masks, &self.signals),
                admitted: with_border(&old.admitted, Self::border_to),
                let_out: with_border(&old.let_out, Self::border_from),
                moved: picked(&old.moved, &self.movements()),
            }
        };
        plan.iter().map(step).collect()
    }
}
