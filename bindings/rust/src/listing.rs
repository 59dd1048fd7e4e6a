//! A plan from a solver's listing.

use crate::{library, refused, Refusal};

/// A buffer length that is enough for the plan text of every listing, in bytes.
pub const MAX_WRITTEN_PLAN_LEN: usize = 151_920;

/// Writes the plan text of a solver's listing, and returns its length. Each line of the listing is a variable, a space
/// and a decimal: `p_l_k_n` (signal, phase, step) of value 0 or 1, `i_i_n` and `o_i_n` (link, step: the rates admitted
/// and let out) and `m_j_n` (movement, step), in vehicles a second. A variable that no line names is 0.
///
/// The bytes past the text keep what they held, and a refusal leaves all of them as they were. The plan itself is not
/// judged: [`check_plan`](crate::check_plan) does that. The call takes tens of kilobytes of stack: it is for an
/// engineer's machine, not for a box.
///
/// # Errors
///
/// Refusals 1 to 6, 28 and 30 of the network, 22 for a line that is malformed, repeated or names what the network does not
/// have, 23 for a volume that is not whole or too large, 24 for a buffer shorter than the plan text.
///
/// # Examples
///
/// ```
/// // One link without a signal, two steps of ten seconds.
/// let network = "N\t1\t0\t0\t2\t0\t0\nQ\t60000\t10\t500\t0\t0\t0\t0\nS\t10\t5000\nS\t10\t0\n";
/// let mut plan = [0; 64];
/// let length = plancheck::plan_from_listing(network.as_bytes(), b"o_1_2 0.5\ni_1_1 0.500\n", &mut plan)?;
/// assert_eq!(&plan[..length], b"P\t5000\t0\nP\t0\t5000\n");
/// # Ok::<(), plancheck::Refusal>(())
/// ```
pub fn plan_from_listing(network: &[u8], listing: &[u8], plan: &mut [u8]) -> Result<usize, Refusal> {
    // SAFETY: slices give pointers that are not null, readable for their lengths; the buffer is writable and, being
    // borrowed mutably, overlaps neither text.
    let result = unsafe {
        library::plancheck_plan_from_listing(
            network.as_ptr(),
            network.len(),
            listing.as_ptr(),
            listing.len(),
            plan.as_mut_ptr(),
            plan.len(),
        )
    };
    refused(result.number, result.line, result.item)?;
    Ok(result.length)
}
