//! A run of a corridor in cells.

use crate::{library, refused, Refusal};

/// The greatest number of cells of a corridor; there is at least one.
pub const MAX_CELLS: usize = 64;

/// The greatest number of demands, and so of steps, of a corridor; there is at least one.
pub const MAX_DEMANDS: usize = 120;

/// What a run of a corridor gives. Volumes are in thousandths of a vehicle.
#[derive(Clone, Copy, Debug, PartialEq, Eq, Hash)]
pub struct CellsRun {
    /// How many cells the corridor has.
    pub cells: u32,
    /// Volume that flowed into the first cell in all steps.
    pub flow_in: u64,
    /// Volume that flowed out of the last cell in all steps.
    pub flow_out: u64,
    /// The volume of each cell after the last step; 0 past the cells.
    pub volumes: [u32; MAX_CELLS],
}

/// Runs a corridor in cells, one step a demand: `C` lines with flow limit, holding limit, wave ratio and start, one `X`
/// line with the exit limit, then `D` lines with the demands.
///
/// # Errors
///
/// Refusal 36 for the form or the limits of a line, 37 for a start above its holding limit.
///
/// # Examples
///
/// ```
/// let corridor = "C\t10\t100\t500\t20\nC\t8\t50\t1000\t0\nX\t5\nD\t7\nD\t100\n";
/// let run = plancheck::run_cells(corridor.as_bytes())?;
/// assert_eq!((run.cells, run.flow_in, run.flow_out), (2, 17, 5));
/// assert_eq!(run.volumes[..2], [21, 11]);
/// # Ok::<(), plancheck::Refusal>(())
/// ```
pub fn run_cells(corridor: &[u8]) -> Result<CellsRun, Refusal> {
    // SAFETY: a slice gives an aligned pointer that is not null, readable for its length. The call only reads it.
    let result = unsafe { library::plancheck_run_cells(corridor.as_ptr(), corridor.len()) };
    refused(result.number, result.line, result.item)?;
    Ok(CellsRun {
        cells: result.cells,
        flow_in: result.flow_in,
        flow_out: result.flow_out,
        volumes: result.volumes,
    })
}
