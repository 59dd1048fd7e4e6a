//! A ledger read by boundary and link.

use crate::Counts;

/// What has entered and what has left one link by a boundary, or in a past step, in thousandths of a vehicle.
#[derive(Clone, Copy, Debug, Default, PartialEq, Eq, Hash)]
pub struct Volumes {
    /// All that came onto the link; by a boundary, with the standing start.
    pub entered: u32,
    /// All that went from it.
    pub left: u32,
}

/// The rows of a ledger that [`check_plan`](crate::check_plan) has filled, by boundary and link. Boundaries are counted
/// from 0, links from 1. The ledger is only read, and whatever it holds, nothing here panics.
///
/// ```
/// use plancheck::{check_plan, network_counts, Rows};
///
/// let network = "N\t1\t0\t0\t2\t0\t0\nQ\t60000\t10\t500\t0\t0\t0\t0\nS\t10\t5000\nS\t10\t0\n";
/// let counts = network_counts(network.as_bytes())?;
/// let mut ledger = vec![0; counts.required_ledger_len()];
/// check_plan(network.as_bytes(), b"P\t5000\t0\nP\t0\t2000\n", &mut ledger)?;
///
/// let rows = Rows::of(&ledger, &counts);
/// let at_the_end = rows.at(2, 1).unwrap();
/// assert_eq!((at_the_end.entered, at_the_end.left), (5000, 2000));
/// assert_eq!(rows.at(3, 1), None);
/// let entered: Vec<u32> = rows.of_link(1).map(|volumes| volumes.entered).collect();
/// assert_eq!(entered, [0, 5000, 5000]);
/// # Ok::<(), plancheck::Refusal>(())
/// ```
#[derive(Clone, Copy, Debug)]
pub struct Rows<'a> {
    ledger: &'a [u32],
    links: usize,
    steps: usize,
}

impl<'a> Rows<'a> {
    /// The rows of a ledger for so many links and steps. Rows that a shorter ledger does not have are missing.
    #[must_use]
    pub const fn new(ledger: &'a [u32], links: usize, steps: usize) -> Rows<'a> {
        Rows { ledger, links, steps }
    }

    /// The rows of a ledger for a network that has so much of each.
    #[must_use]
    pub const fn of(ledger: &'a [u32], counts: &Counts) -> Rows<'a> {
        Rows::new(ledger, counts.links, counts.steps)
    }

    /// The volumes of a link at a boundary; none where there is no such boundary or link.
    #[must_use]
    pub fn at(&self, boundary: usize, link: usize) -> Option<Volumes> {
        if boundary > self.steps || link == 0 || link > self.links {
            return None;
        }
        let place = boundary
            .checked_mul(self.links)?
            .checked_add(link - 1)?
            .checked_mul(2)?;
        Some(Volumes {
            entered: *self.ledger.get(place)?,
            left: *self.ledger.get(place.checked_add(1)?)?,
        })
    }

    /// The volumes of all links at a boundary, by rising link.
    pub fn of_boundary(self, boundary: usize) -> impl Iterator<Item = Volumes> + 'a {
        (1..=self.links).map_while(move |link| self.at(boundary, link))
    }

    /// The volumes of a link at all boundaries, from boundary 0 on.
    pub fn of_link(self, link: usize) -> impl Iterator<Item = Volumes> + 'a {
        (0..=self.steps).map_while(move |boundary| self.at(boundary, link))
    }
}

impl Volumes {
    /// What the link holds: entered − left, of a ledger that a plan has filled; 0 where a ledger has left above entered.
    #[must_use]
    pub const fn held(&self) -> u32 {
        self.entered.saturating_sub(self.left)
    }
}
