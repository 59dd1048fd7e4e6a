//! Plans and fixed-time sheets.

use crate::{library, refused, totals, Refusal, Totals};

/// Checks whether a plan is accepted and keeps a fixed-time sheet, and fills the ledger as [`check_plan`](crate::check_plan)
/// does. The sheet has a line for each signal, `F` and the duration of each phase.
///
/// Each run of a phase that begins in the plan and is left in it, steps that a tram claims left out, must last just its
/// duration; one that starts at a time below the signal's greatest cycle is exempt.
///
/// # Errors
///
/// Refusals 1 to 6, 28 and 30 of the network, 33 of the sheet, those of [`check_plan`](crate::check_plan), and last 34 for
/// a run of another duration, at the line of its last step that no tram claims; then all rows of the ledger are written.
///
/// # Examples
///
/// ```
/// // A signal of two phases whose cycle is twenty seconds, six steps of ten seconds.
/// let network = "N\t1\t1\t0\t6\t0\t0\nG\t20\t20\t2\t2\t10\t20\t10\t30\t10\t30\nQ\t60000\t10\t500\t0\t0\t0\t0\n\
///     S\t10\t0\nS\t10\t0\nS\t10\t0\nS\t10\t0\nS\t10\t0\nS\t10\t0\n";
/// let mut plan = [0; 256];
/// let length = plancheck::plan_from_sheet(network.as_bytes(), b"F\t10\t10\t0\n", &mut plan)?;
/// assert!(plan.starts_with(b"P\t1\t0\t0\nP\t2\t0\t0\nP\t1\t0\t0\n"));
///
/// let mut ledger = [0; plancheck::required_ledger_len(1, 6)];
/// assert!(plancheck::check_sheet(network.as_bytes(), &plan[..length], b"F\t10\t10\n", &mut ledger).is_ok());
/// let refusal = plancheck::check_sheet(network.as_bytes(), &plan[..length], b"F\t10\t20\n", &mut ledger).unwrap_err();
/// assert_eq!((refusal.number, refusal.line, refusal.item), (34, 4, 1));
/// # Ok::<(), plancheck::Refusal>(())
/// ```
pub fn check_sheet(network: &[u8], plan: &[u8], sheet: &[u8], ledger: &mut [u32]) -> Result<Totals, Refusal> {
    // SAFETY: slices give aligned pointers that are not null, readable for their lengths; the ledger is writable and,
    // being borrowed mutably, overlaps no text.
    let result = unsafe {
        library::plancheck_check_sheet(
            network.as_ptr(),
            network.len(),
            plan.as_ptr(),
            plan.len(),
            sheet.as_ptr(),
            sheet.len(),
            ledger.as_mut_ptr(),
            ledger.len(),
        )
    };
    totals(&result)
}

/// Writes a plan text for a fixed-time sheet whose lines end in an offset, the seconds of the cycle, phase 1 first, that
/// have run at time 0, and returns its length. Every volume is 0, and each mask is the phase that the repeated cycle shows in
/// that step. [`MAX_WRITTEN_PLAN_LEN`](crate::MAX_WRITTEN_PLAN_LEN) bytes are enough for every sheet.
///
/// The bytes past the text keep what they held, and a refusal leaves all of them as they were. The plan itself is not
/// judged: its masks keep the sheet, but may break the order and the times of the phases.
///
/// # Errors
///
/// Refusals 1 to 6, 28 and 30 of the network, 33 of the sheet, 35 for a signal with a run that ends before the horizon but
/// on no boundary, or with tram lines, 24 for a buffer shorter than the plan text.
pub fn plan_from_sheet(network: &[u8], sheet: &[u8], plan: &mut [u8]) -> Result<usize, Refusal> {
    // SAFETY: slices give pointers that are not null, readable for their lengths; the buffer is writable and, being
    // borrowed mutably, overlaps neither text.
    let result = unsafe {
        library::plancheck_plan_from_sheet(
            network.as_ptr(),
            network.len(),
            sheet.as_ptr(),
            sheet.len(),
            plan.as_mut_ptr(),
            plan.len(),
        )
    };
    refused(result.number, result.line, result.item)?;
    Ok(result.length)
}
