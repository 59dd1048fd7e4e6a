//! A plan by its steps, written as a text and read from one.

use crate::records::{read, write};
use crate::{phase_mask, Counts, NetworkText, Reason, Refusal};
use alloc::{vec, vec::Vec};
use core::fmt;

/// A plan by its steps. `Display` writes its text, so that `to_string()` gives what the calls take; [`PlanText::read`] reads
/// one. A plan without steps writes the empty text, which means hold.
#[derive(Clone, Debug, Default, PartialEq, Eq, Hash)]
pub struct PlanText {
    /// The `P` lines.
    pub steps: Vec<PlanStep>,
}

/// What a plan does in one step. Volumes are thousandths of a vehicle.
#[derive(Clone, Debug, Default, PartialEq, Eq, Hash)]
pub struct PlanStep {
    /// The mask that each signal shows: one phase ([`phase_mask`]).
    pub masks: Vec<u32>,
    /// The volume admitted on each link.
    pub admitted: Vec<u32>,
    /// The volume let out of the network from each link.
    pub let_out: Vec<u32>,
    /// The volume of each movement.
    pub moved: Vec<u32>,
}

impl PlanText {
    /// The plan that the empty text stands for, to be changed: in each step every signal keeps the phase that it shows before
    /// the plan, and nothing moves.
    #[must_use]
    pub fn hold(network: &NetworkText) -> PlanText {
        let links = network.links.len();
        let step = PlanStep {
            masks: network.signals.iter().map(|signal| phase_mask(signal.shown)).collect(),
            admitted: vec![0; links],
            let_out: vec![0; links],
            moved: vec![0; network.movements.len()],
        };
        PlanText {
            steps: vec![step; network.steps.len()],
        }
    }

    /// Reads a plan text of a network that has so much of each. Only the form is judged: what the plan does is for
    /// [`check_plan`](crate::check_plan). A text of no bytes has no steps.
    ///
    /// # Errors
    ///
    /// Refusal 9, for the first line that is missing, unfinished or surplus, or has another letter, a bad number or another
    /// number of fields. An earlier line that [`check_plan`](crate::check_plan) refuses for what it does is no error here.
    ///
    /// # Examples
    ///
    /// ```
    /// use plancheck::{network_counts, PlanText};
    ///
    /// let network = "N\t1\t0\t0\t2\t0\t0\nQ\t60000\t10\t500\t0\t0\t0\t0\nS\t10\t5000\nS\t10\t0\n";
    /// let counts = network_counts(network.as_bytes())?;
    /// let plan = PlanText::read(b"P\t5000\t0\nP\t0\t5000\n", &counts)?;
    /// assert_eq!(plan.steps[1].let_out, [5000]);
    /// assert_eq!(PlanText::read(b"P\t5000\t0\n", &counts).unwrap_err().line, 2);
    /// # Ok::<(), plancheck::Refusal>(())
    /// ```
    pub fn read(text: &[u8], counts: &Counts) -> Result<PlanText, Refusal> {
        let mut steps = Vec::new();
        let mut rest = text;
        while !rest.is_empty() {
            let line = rest.iter().position(|&byte| byte == b'\n');
            let step = line.and_then(|end| PlanStep::read(&rest[..end], counts));
            let step = step.filter(|_| steps.len() < counts.steps);
            steps.push(step.ok_or_else(|| malformed(steps.len()))?);
            rest = &rest[line.map_or(rest.len(), |end| end + 1)..];
        }
        if text.is_empty() || steps.len() == counts.steps {
            Ok(PlanText { steps })
        } else {
            Err(malformed(steps.len()))
        }
    }
}

/// Refusal 9 of the line behind so many.
fn malformed(lines: usize) -> Refusal {
    Refusal {
        number: Reason::PlanForm.number(),
        line: u32::try_from(lines).map_or(u32::MAX, |lines| lines.saturating_add(1)),
        item: 0,
    }
}

impl PlanStep {
    fn read(line: &[u8], counts: &Counts) -> Option<PlanStep> {
        let numbers = read(line, b'P')?;
        let mut rest = numbers.iter().copied();
        let mut take = |count: usize| -> Option<Vec<u32>> { (0..count).map(|_| rest.next()).collect() };
        let step = PlanStep {
            masks: take(counts.signals)?,
            admitted: take(counts.links)?,
            let_out: take(counts.links)?,
            moved: take(counts.movements)?,
        };
        rest.next().is_none().then_some(step)
    }
}

impl fmt::Display for PlanText {
    fn fmt(&self, formatter: &mut fmt::Formatter<'_>) -> fmt::Result {
        for step in &self.steps {
            let numbers = [&step.masks, &step.admitted, &step.let_out, &step.moved];
            write(formatter, 'P', numbers.into_iter().flatten().copied())?;
        }
        Ok(())
    }
}
