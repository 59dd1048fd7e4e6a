//! A plan made by letting traffic run: queues move when their signal opens, as far as rates, shares and free space allow, and
//! who finds no space at an entry waits outside.

use super::avenue::{Avenue, Link, Movement, Tram};
use super::chance::Chance;
use super::phases::phases;
use crate::records::write_record;

/// What has happened by a boundary, by link.
#[derive(Clone)]
struct Row {
    entered: Vec<u32>,
    left: Vec<u32>,
}

struct Traffic<'a> {
    avenue: &'a Avenue,
    times: Vec<u32>,
    /// By boundary, as far as traffic has run.
    rows: Vec<Row>,
    waiting: Vec<u32>,
}

/// A plan for an avenue; none where a signal can't keep its limits.
pub fn plan_text(chance: &mut Chance, avenue: &Avenue) -> Option<String> {
    let mut shown = Vec::new();
    for (place, signal) in avenue.signals.iter().enumerate() {
        let trams: Vec<&Tram> = avenue
            .trams
            .iter()
            .filter(|tram| tram.signal as usize == place + 1)
            .collect();
        shown.push(phases(chance, signal, &avenue.steps, &trams)?);
    }
    let mut traffic = Traffic::new(avenue);
    let mut text = String::new();
    for step in 0..avenue.steps.len() {
        let masks: Vec<u32> = shown.iter().map(|phases| 1 << phases[step]).collect();
        let volumes = traffic.step(step, &masks);
        write_record(&mut text, 'P', &[masks, volumes].concat());
    }
    Some(text)
}

impl<'a> Traffic<'a> {
    fn new(avenue: &'a Avenue) -> Traffic<'a> {
        let mut times = vec![0];
        for step in &avenue.steps {
            times.push(times[times.len() - 1] + step.length);
        }
        let start = Row {
            entered: avenue.links.iter().map(|link| link.standing).collect(),
            left: vec![0; avenue.links.len()],
        };
        Traffic {
            avenue,
            times,
            rows: vec![start],
            waiting: vec![0; avenue.links.len()],
        }
    }

    /// Runs a step, counted from 0, and gives its volumes: admitted and let out of each link, and of each movement.
    fn step(&mut self, step: usize, masks: &[u32]) -> Vec<u32> {
        let links = &self.avenue.links;
        let length = self.avenue.steps[step].length;
        let before = self.rows[step].clone();
        let mut row = before.clone();
        // What is freed in a step is space from the next.
        let holds = |row: &Row, link: usize| row.entered[link] - before.left[link];
        let mut let_out = vec![0; links.len()];
        let mut moved = vec![0; self.avenue.movements.len()];
        for (place, link) in links.iter().enumerate() {
            let queue = self.arrived(step + 1, place) - row.left[place];
            let_out[place] = queue.min(link.exit_rate * length);
            row.left[place] += let_out[place];
            if link.signal == 0 || link.mask & masks[link.signal as usize - 1] != 0 {
                let space = |to: usize| links[to].capacity - holds(&row, to);
                let volumes = self.passing(place, queue - let_out[place], length, space);
                for (movement, volume) in volumes {
                    moved[movement] = volume;
                    row.left[place] += volume;
                    row.entered[self.avenue.movements[movement].to] += volume;
                }
            }
        }
        let mut admitted = vec![0; links.len()];
        for (place, link) in links.iter().enumerate() {
            self.waiting[place] += self.avenue.steps[step].demand[place];
            admitted[place] = self.waiting[place].min(link.capacity - holds(&row, place));
            self.waiting[place] -= admitted[place];
            row.entered[place] += admitted[place];
        }
        self.rows.push(row);
        [admitted, let_out, moved].concat()
    }

    /// What passes by each movement of a link: all have exactly their share, so that the least room of one holds all.
    fn passing(&self, from: usize, queue: u32, length: u32, space: impl Fn(usize) -> u32) -> Vec<(usize, u32)> {
        let own: Vec<(usize, &Movement)> = self
            .avenue
            .movements
            .iter()
            .enumerate()
            .filter(|(_, movement)| movement.from == from)
            .collect();
        if own.is_empty() {
            return Vec::new();
        }
        let mut total = u64::from(queue);
        for (_, movement) in &own {
            let most = (movement.rate * length).min(space(movement.to));
            total = total.min(u64::from(most) * 1000 / u64::from(movement.share));
        }
        // Shares are multiples of 50: a multiple of 20 parts exactly.
        total -= total % 20;
        let part = |share: u32| u32::try_from(total * u64::from(share) / 1000).unwrap_or(0);
        own.into_iter()
            .map(|(place, movement)| (place, part(movement.share)))
            .collect()
    }

    /// What has arrived at a link's end by a boundary, rounded down; of what enters in the step before it, nothing is counted.
    fn arrived(&self, boundary: usize, place: usize) -> u32 {
        let link: &Link = &self.avenue.links[place];
        let Some(latest) = self.times[boundary].checked_sub(link.travel_time) else {
            return link.standing;
        };
        let known = self.rows.len() - 1;
        let begun = self.times[..=known]
            .iter()
            .rposition(|&time| time <= latest)
            .unwrap_or(0);
        let entered = |boundary: usize| u64::from(self.rows[boundary].entered[place]);
        if begun == known {
            return self.rows[known].entered[place];
        }
        let part = u64::from(latest - self.times[begun]) * (entered(begun + 1) - entered(begun));
        let elapsed = part / u64::from(self.times[begun + 1] - self.times[begun]);
        u32::try_from(entered(begun) + elapsed).unwrap_or(0)
    }
}
