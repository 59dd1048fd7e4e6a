//! A mixed integer program as its text says it, and what it says of a plan.

use plancheck::{phase_mask, NetworkText, PlanText};
use std::collections::HashMap;

type Terms = Vec<(f64, String)>;

struct Row {
    terms: Terms,
    sign: String,
    limit: f64,
}

pub struct Program {
    objective: Terms,
    rows: Vec<Row>,
    /// What a variable is at most.
    most: HashMap<String, f64>,
}

/// Below it a difference is that of binary fractions: others are at least a part of a grain.
const SAME: f64 = 1e-6;

/// By its definition, by trying: the least volume whose rate six decimals can tell.
pub fn grain(length: u32) -> u32 {
    (1..=length).find(|volume| volume * 1000 % length == 0).unwrap()
}

impl Program {
    pub fn read(text: &str) -> Program {
        let text: Vec<&str> = text.lines().filter(|line| !line.starts_with('\\')).collect();
        let text = text.join("\n");
        let (objective, rest) = text.split_once("\nSubject To\n").unwrap();
        let (rows, rest) = rest.split_once("\nBounds\n").unwrap();
        let bounds = rest.lines().take_while(|line| line.starts_with(' '));
        let most = bounds.filter_map(|line| line.trim().strip_prefix("0 <= ")?.split_once(" <= "));
        Program {
            objective: terms(&objective.split_whitespace().skip(2).collect::<Vec<&str>>()),
            rows: rows.replace("\n  ", " ").lines().map(Row::read).collect(),
            most: most
                .map(|(name, most)| (name.to_string(), most.parse().unwrap()))
                .collect(),
        }
    }

    /// The value of a plan that keeps all rows and bounds.
    pub fn value(&self, network: &NetworkText, plan: &PlanText) -> Option<u64> {
        let mut values = values(network, plan);
        for row in self.rows.iter().filter(|row| row.sign == "=") {
            row.define(&mut values);
        }
        let in_bounds = |(name, value): (&String, &f64)| {
            let most = self.most.get(name).copied().unwrap_or(f64::INFINITY);
            (-SAME..=most + SAME).contains(value)
        };
        let holds = self.rows.iter().all(|row| row.holds(&values)) && values.iter().all(in_bounds);
        #[allow(clippy::cast_possible_truncation, clippy::cast_sign_loss)]
        holds.then(|| sum(&self.objective, &values).round() as u64)
    }
}

impl Row {
    fn read(line: &str) -> Row {
        let fields: Vec<&str> = line.split_whitespace().collect();
        let (own, end) = fields.split_at(fields.len() - 2);
        Row {
            terms: terms(&own[1..]),
            sign: end[0].to_string(),
            limit: end[1].parse().unwrap(),
        }
    }

    /// Gives the one variable that has no value yet the value that keeps the row.
    fn define(&self, values: &mut HashMap<String, f64>) {
        let mut unknown = self.terms.iter().filter(|(_, name)| !values.contains_key(name));
        if let (Some((factor, name)), None) = (unknown.next(), unknown.next()) {
            let others: Terms = self.terms.iter().filter(|(_, other)| other != name).cloned().collect();
            let value = (self.limit - sum(&others, values)) / factor;
            values.insert(name.clone(), value);
        }
    }

    fn holds(&self, values: &HashMap<String, f64>) -> bool {
        let above = sum(&self.terms, values) - self.limit;
        match self.sign.as_str() {
            "<=" => above <= SAME,
            ">=" => above >= -SAME,
            _ => above.abs() <= SAME,
        }
    }
}

fn sum(terms: &Terms, values: &HashMap<String, f64>) -> f64 {
    terms.iter().map(|(factor, name)| factor * values[name]).sum()
}

/// Terms such as `+ 3 x - y`.
fn terms(fields: &[&str]) -> Terms {
    let mut terms = Vec::new();
    let mut factor = 1.0;
    for &field in fields {
        match field {
            "+" => factor = 1.0,
            "-" => factor = -1.0,
            _ => match field.parse::<f64>() {
                Ok(number) => factor *= number,
                Err(_) => terms.push((factor, field.to_string())),
            },
        }
    }
    terms
}

/// The values that a plan gives the variables, but for those that rows define.
fn values(network: &NetworkText, plan: &PlanText) -> HashMap<String, f64> {
    let mut values = HashMap::from([("one".to_string(), 1.0)]);
    for (place, step) in plan.steps.iter().enumerate() {
        let (number, grain) = (place + 1, f64::from(grain(network.steps[place].length)));
        for (letter, volumes) in [("gi", &step.admitted), ("go", &step.let_out), ("gm", &step.moved)] {
            for (item, &volume) in volumes.iter().enumerate() {
                values.insert(format!("{letter}_{}_{number}", item + 1), f64::from(volume) / grain);
            }
        }
        for (signal, mask) in step.masks.iter().enumerate() {
            for phase in 1..=u32::try_from(network.signals[signal].phases.len()).unwrap() {
                let shows = mask & phase_mask(phase) != 0;
                values.insert(format!("p_{}_{phase}_{number}", signal + 1), f64::from(u8::from(shows)));
            }
        }
    }
    for (index, signal) in network.signals.iter().enumerate() {
        let mut before = signal.shown == 1;
        for (place, step) in plan.steps.iter().enumerate() {
            let (signal, number) = (index + 1, place + 1);
            let claims = |first: u32, last: u32| (first as usize..=last as usize).contains(&number);
            if network
                .trams
                .iter()
                .any(|tram| tram.signal as usize == signal && claims(tram.first, tram.last))
            {
                continue;
            }
            let now = step.masks[index] == 1;
            values.insert(format!("cyc_{signal}_{number}"), f64::from(u8::from(now && !before)));
            before = now;
        }
    }
    values
}
