//! Which of two plans is ahead.

use crate::{library, refused, Refusal};
use core::fmt;

/// How the first of two plans compares with the second, by all volume let out of the network up to each boundary.
#[derive(Clone, Copy, Debug, PartialEq, Eq, Hash)]
pub enum Order {
    /// Never less, and somewhere more.
    Ahead,
    /// Never more, and somewhere less.
    Behind,
    /// The same at every boundary.
    Equal,
    /// Somewhere more and somewhere less.
    Crossing,
}

/// Two accepted plans compared.
#[derive(Clone, Copy, Debug, PartialEq, Eq, Hash)]
pub struct Comparison {
    /// How the first compares with the second.
    pub order: Order,
    /// The doubled time of the first minus that of the second: negative when the first is quicker. It is negative where
    /// the first is ahead, and 0 where they are equal.
    pub gap: i64,
}

/// What a comparison's refusal means.
#[derive(Clone, Copy, Debug, PartialEq, Eq, Hash)]
pub enum Refused {
    /// The network: neither plan was judged.
    Network,
    /// The first plan, or its ledger: the second plan was not judged.
    First,
    /// The second plan, or its ledger: the first plan is accepted.
    Second,
}

/// Why a comparison is refused.
#[derive(Clone, Copy, Debug, PartialEq, Eq, Hash)]
pub struct ComparisonRefusal {
    /// Whose refusal it is.
    pub of: Refused,
    /// The refusal, as [`check_plan`](crate::check_plan) returns it.
    pub refusal: Refusal,
}

/// Says which of two plans for one network is ahead, and fills a ledger for each plan.
///
/// Each ledger gets the rows that [`check_plan`](crate::check_plan) would write, the second plan's only where the first
/// plan is accepted. An empty plan text means hold.
///
/// # Errors
///
/// The network's refusal, then any of the first plan, 8 for its ledger among them, then any of the second.
///
/// # Examples
///
/// ```
/// // Five vehicles stand on one link; the first plan lets them out a step earlier.
/// let network = "N\t1\t0\t0\t2\t0\t0\nQ\t60000\t10\t500\t0\t0\t5000\t0\nS\t10\t0\nS\t10\t0\n";
/// let (first, second) = ("P\t0\t5000\nP\t0\t0\n", "P\t0\t0\nP\t0\t5000\n");
/// let mut ledgers = [[0; plancheck::required_ledger_len(1, 2)]; 2];
/// let [one, other] = &mut ledgers;
///
/// let comparison = plancheck::compare_plans(network.as_bytes(), first.as_bytes(), second.as_bytes(), one, other)?;
/// assert_eq!(comparison.order, plancheck::Order::Ahead);
/// assert_eq!(comparison.gap, -100_000);
/// assert_eq!(ledgers, [[5000, 0, 5000, 5000, 5000, 5000], [5000, 0, 5000, 0, 5000, 5000]]);
/// # Ok::<(), plancheck::ComparisonRefusal>(())
/// ```
pub fn compare_plans(
    network: &[u8],
    first: &[u8],
    second: &[u8],
    first_ledger: &mut [u32],
    second_ledger: &mut [u32],
) -> Result<Comparison, ComparisonRefusal> {
    // SAFETY: slices give aligned pointers that are not null, readable for their lengths; the ledgers are writable and,
    // being borrowed mutably, overlap neither each other nor a text.
    let result = unsafe {
        library::plancheck_compare_plans(
            network.as_ptr(),
            network.len(),
            first.as_ptr(),
            first.len(),
            second.as_ptr(),
            second.len(),
            first_ledger.as_mut_ptr(),
            first_ledger.len(),
            second_ledger.as_mut_ptr(),
            second_ledger.len(),
        )
    };
    refused(result.number, result.line, result.item).map_err(|refusal| ComparisonRefusal {
        of: refused_by(result.plan),
        refusal,
    })?;
    Ok(Comparison {
        order: order_by(result.order),
        gap: result.gap,
    })
}

/// The library gives 0, 1 or 2.
fn refused_by(plan: u32) -> Refused {
    match plan {
        0 => Refused::Network,
        1 => Refused::First,
        _ => Refused::Second,
    }
}

/// The library gives 1 to 4 for two plans that were compared.
fn order_by(number: u32) -> Order {
    match number {
        1 => Order::Ahead,
        2 => Order::Behind,
        3 => Order::Equal,
        _ => Order::Crossing,
    }
}

impl fmt::Display for Refused {
    fn fmt(&self, formatter: &mut fmt::Formatter<'_>) -> fmt::Result {
        formatter.write_str(match self {
            Refused::Network => "network",
            Refused::First => "first plan",
            Refused::Second => "second plan",
        })
    }
}

impl fmt::Display for ComparisonRefusal {
    fn fmt(&self, formatter: &mut fmt::Formatter<'_>) -> fmt::Result {
        write!(formatter, "{}: {}", self.of, self.refusal)
    }
}

impl core::error::Error for ComparisonRefusal {}
