//! Carrying a network on from a boundary.

use crate::{library, refused, Refusal};

/// No valid network text is longer than this, in bytes, however it is padded, so that a buffer of this length is enough for
/// every one that is carried on.
pub const MAX_NETWORK_TEXT_LEN: usize = 71_988;

/// Carries a network on from a boundary, for a server that plans anew while traffic runs: judges a plan of as many lines on
/// the network cut to as many steps, writes the network text from the boundary on, and returns its length. The steps of the
/// plan are past there.
///
/// A plan of K lines is accepted exactly when its first lines are by this call and the rest is on the text that it writes;
/// later rows of the ledger are then equal, and the doubled times add up.
///
/// The ledger gets rows 0 to the boundary, as by [`check_plan`](crate::check_plan). The bytes past the text keep what they
/// held, and a refusal leaves all of them as they were.
///
/// # Errors
///
/// Refusals 1 to 6, 28 and 30 of the whole network, 31 for a boundary that is not 1 to K − 1, 8 for a ledger shorter than
/// [`required_ledger_len`](crate::required_ledger_len) of so many steps, 9 to 18, 25 to 27 and 29 of the plan, 32 for a buffer
/// shorter than the text.
///
/// # Examples
///
/// ```
/// // Five vehicles enter one link without a signal; the plan of the first of two steps has run.
/// let network = "N\t1\t0\t0\t2\t0\t0\nQ\t60000\t10\t500\t0\t0\t0\t0\nS\t10\t5000\nS\t10\t0\n";
/// let mut ledger = [0; plancheck::required_ledger_len(1, 1)];
/// let mut carried = [0; 128];
/// let length = plancheck::carry_on(network.as_bytes(), 1, b"P\t5000\t0\n", &mut ledger, &mut carried)?;
/// let rest = "N\t1\t0\t0\t1\t0\t1\nQ\t60000\t10\t500\t0\t0\t0\t0\nH\t10\t5000\t0\nS\t10\t0\n";
/// assert_eq!(&carried[..length], rest.as_bytes());
/// # Ok::<(), plancheck::Refusal>(())
/// ```
pub fn carry_on(
    network: &[u8],
    boundary: u32,
    plan: &[u8],
    ledger: &mut [u32],
    carried: &mut [u8],
) -> Result<usize, Refusal> {
    // SAFETY: slices give aligned pointers that are not null, readable for their lengths; the ledger and the buffer are
    // writable and, being borrowed mutably, overlap neither each other nor a text.
    let result = unsafe {
        library::plancheck_carry_on(
            network.as_ptr(),
            network.len(),
            boundary,
            plan.as_ptr(),
            plan.len(),
            ledger.as_mut_ptr(),
            ledger.len(),
            carried.as_mut_ptr(),
            carried.len(),
        )
    };
    refused(result.number, result.line, result.item)?;
    Ok(result.length)
}
