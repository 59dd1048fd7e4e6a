//! A step of vehicles along a street.

use crate::{library, refused, Refusal};

/// The greatest number of vehicles of a step; there may be none.
pub const MAX_VEHICLES: usize = 64;
/// The greatest number of red lines of a step; there may be none.
pub const MAX_RED_LINES: usize = 64;

/// Moves vehicles along a street by one step, in metres, for a time-distance display.
///
/// The first vehicle leads; each other's leader is the one just before it. A vehicle's target is its place plus its
/// advance, cut to each obstacle that is nearer: one spacing behind its leader's place before the step, and each red
/// line at or ahead of its own place. It moves only if its target is greater than its place. A refused step leaves
/// the places as they were.
///
/// # Errors
///
/// Refusal 39 for more than 64 vehicles or lines, or not one advance for each vehicle; 38 for a value that is not
/// finite or beyond a million metres either way, or a negative advance or spacing.
///
/// # Examples
///
/// ```
/// let mut places = [10.0, 5.0, 4.0];
/// plancheck::step_vehicles(&mut places, &[3.0, 10.0, 1.0], &[12.0], 2.0)?;
/// assert_eq!(places, [12.0, 8.0, 4.0]);
/// # Ok::<(), plancheck::Refusal>(())
/// ```
pub fn step_vehicles(places: &mut [f64], advances: &[f64], red_lines: &[f64], spacing: f64) -> Result<(), Refusal> {
    // SAFETY: slices give aligned pointers that are not null, readable for their lengths; the places are writable and,
    // being borrowed mutably, overlap neither of the others.
    let result = unsafe {
        library::plancheck_step_vehicles(
            places.as_mut_ptr(),
            places.len(),
            advances.as_ptr(),
            advances.len(),
            red_lines.as_ptr(),
            red_lines.len(),
            spacing,
        )
    };
    refused(result.number, result.line, result.item)
}
