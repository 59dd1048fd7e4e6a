//! A text as lines of fields, for changes of its form.

use crate::{Network, PlanStep};

/// Lines and fields are indexed from 0 here; field 0 is the letter.
#[derive(Clone)]
pub struct Sheet {
    pub lines: Vec<Vec<Vec<u8>>>,
}

impl Sheet {
    pub fn of_network(network: &Network) -> Sheet {
        let mut sheet = Sheet { lines: Vec::new() };
        sheet.push(
            b'N',
            &[
                network.links.len() as u64,
                network.signals.len() as u64,
                network.movements.len() as u64,
                network.steps.len() as u64,
                network.trams.len() as u64,
                network.past.len() as u64,
            ],
        );
        for tram in &network.trams {
            sheet.push(b'T', &[tram.signal, tram.phase, tram.first, tram.last]);
        }
        for signal in &network.signals {
            let mut numbers = vec![
                signal.least_cycle,
                signal.greatest_cycle,
                signal.phases.len() as u64,
                signal.shown_phase,
                signal.shown_seconds,
                signal.clock,
            ];
            for phase in &signal.phases {
                numbers.push(phase.least);
                numbers.push(phase.greatest);
            }
            sheet.push(b'G', &numbers);
        }
        for link in &network.links {
            sheet.push(
                b'Q',
                &[
                    link.capacity,
                    link.travel_time,
                    link.exit_rate,
                    link.signal,
                    link.phase_mask,
                    link.standing,
                    link.waiting,
                ],
            );
        }
        for movement in &network.movements {
            sheet.push(
                b'M',
                &[movement.from, movement.to, movement.rate, movement.share],
            );
        }
        for past in &network.past {
            let mut numbers = vec![past.length];
            for (&entered, &left) in past.entered.iter().zip(&past.left) {
                numbers.extend([entered, left]);
            }
            sheet.push(b'H', &numbers);
        }
        for step in &network.steps {
            let mut numbers = vec![step.length];
            numbers.extend(&step.demand);
            sheet.push(b'S', &numbers);
        }
        sheet
    }

    pub fn of_plan(plan: &[PlanStep]) -> Sheet {
        let mut sheet = Sheet { lines: Vec::new() };
        for step in plan {
            let parts = [&step.masks, &step.admitted, &step.let_out, &step.moved];
            let numbers: Vec<u64> = parts.into_iter().flatten().copied().collect();
            sheet.push(b'P', &numbers);
        }
        sheet
    }

    pub fn push(&mut self, letter: u8, numbers: &[u64]) {
        let mut fields = vec![vec![letter]];
        fields.extend(numbers.iter().map(|number| number.to_string().into_bytes()));
        self.lines.push(fields);
    }

    pub fn set(&mut self, line: usize, field: usize, value: &[u8]) {
        self.lines[line][field] = value.to_vec();
    }

    pub fn text(&self) -> Vec<u8> {
        let mut text = Vec::new();
        for fields in &self.lines {
            text.extend(fields.join(&b'\t'));
            text.push(b'\n');
        }
        text
    }

    /// The text without its last line feed.
    pub fn unfinished_text(&self) -> Vec<u8> {
        let mut text = self.text();
        text.pop();
        text
    }
}
