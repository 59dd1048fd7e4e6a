//! A network and a plan, split between two boxes.

use crate::{library, refused, Refusal};
#[cfg(feature = "alloc")]
use crate::{MAX_NETWORK_TEXT_LEN, MAX_PLAN_TEXT_LEN};
#[cfg(feature = "alloc")]
use alloc::{vec, vec::Vec};

/// What one half has of a network and of a plan: its two texts, the buffers for them, or their lengths.
#[derive(Clone, Copy, Debug, Default, PartialEq, Eq, Hash)]
pub struct Half<T> {
    /// Of the network.
    pub network: T,
    /// Of the plan.
    pub plan: T,
}

/// Splits as [`split`](crate::split) does, into lent buffers, those of the first half and those of the second, and gives the
/// lengths of the texts. It allocates nothing.
///
/// The bytes past a text keep what they held, and a refusal leaves all of them as they were.
/// [`MAX_NETWORK_TEXT_LEN`](crate::MAX_NETWORK_TEXT_LEN) bytes are enough for every network,
/// [`MAX_PLAN_TEXT_LEN`](crate::MAX_PLAN_TEXT_LEN) for every plan.
///
/// # Errors
///
/// Those of [`split`](crate::split), and last 42 for a buffer shorter than its text.
pub fn split_into(
    network: &[u8],
    plan: &[u8],
    first_half: u32,
    buffers: [Half<&mut [u8]>; 2],
) -> Result<[Half<usize>; 2], Refusal> {
    let [first, second] = buffers;
    // SAFETY: slices give pointers that are not null, readable for their lengths; the buffers are writable and, being
    // borrowed mutably, overlap neither each other nor a text.
    let result = unsafe {
        library::plancheck_split(
            network.as_ptr(),
            network.len(),
            plan.as_ptr(),
            plan.len(),
            first_half,
            first.network.as_mut_ptr(),
            first.network.len(),
            first.plan.as_mut_ptr(),
            first.plan.len(),
            second.network.as_mut_ptr(),
            second.network.len(),
            second.plan.as_mut_ptr(),
            second.plan.len(),
        )
    };
    refused(result.number, result.line, result.item)?;
    let half = |network, plan| Half { network, plan };
    Ok([
        half(result.network_1, result.plan_1),
        half(result.network_2, result.plan_2),
    ])
}

/// Splits a network and a plan between two boxes, by the set of the links in the first half, bit i − 1 for link i, and
/// gives the texts of the first half and of the second.
///
/// Lines keep their order, and links, signals and movements are numbered anew in each half. A signal goes where its links
/// are, one without links to the first half, and tram lines follow their signal. A movement between the halves is a border
/// movement: its rate is the exit rate of the link that it leaves, and its volume is let out there, is the demand of the
/// link that it enters, and is admitted there, each beside what the plan lets out and admits. The networks of the halves
/// therefore go with this plan.
///
/// The whole is accepted by [`check_plan`](crate::check_plan) exactly when both halves are and, in every step, what is let
/// out before each border is what is admitted behind it; the doubled times then add up. Of a whole that is refused the
/// refusals of the halves say nothing.
///
/// Only the form of the plan's lines is judged. An empty plan text means hold: its K lines are written in both halves.
///
/// # Errors
///
/// Refusals 1 to 6, 28 and 30 of the network, 40 for a set, a network or a border movement that cannot be split, 41 for a
/// signal that has links in both halves, 9 for a line of the plan.
///
/// # Examples
///
/// ```
/// // Two links without signals; five vehicles enter the first, and move on to the second.
/// let network = "N\t2\t0\t1\t2\t0\t0\nQ\t60000\t10\t0\t0\t0\t0\t0\nQ\t60000\t10\t300\t0\t0\t0\t0\n\
///     M\t1\t2\t500\t1000\nS\t10\t5000\t0\nS\t10\t0\t0\n";
/// let plan = "P\t5000\t0\t0\t0\t0\nP\t0\t0\t0\t0\t5000\n";
///
/// let [first, second] = plancheck::split(network.as_bytes(), plan.as_bytes(), 0b01)?;
/// // What crosses the border leaves the first half, at the movement's rate ..
/// assert_eq!(first.network, b"N\t1\t0\t0\t2\t0\t0\nQ\t60000\t10\t500\t0\t0\t0\t0\nS\t10\t5000\nS\t10\t0\n");
/// assert_eq!(first.plan, b"P\t5000\t0\nP\t0\t5000\n");
/// // .. and comes to the second.
/// assert_eq!(second.network, b"N\t1\t0\t0\t2\t0\t0\nQ\t60000\t10\t300\t0\t0\t0\t0\nS\t10\t0\nS\t10\t5000\n");
/// assert_eq!(second.plan, b"P\t0\t0\nP\t5000\t0\n");
/// # Ok::<(), plancheck::Refusal>(())
/// ```
#[cfg(feature = "alloc")]
pub fn split(network: &[u8], plan: &[u8], first_half: u32) -> Result<[Half<Vec<u8>>; 2], Refusal> {
    let mut texts = [(); 2].map(|()| Half {
        network: vec![0; MAX_NETWORK_TEXT_LEN],
        plan: vec![0; MAX_PLAN_TEXT_LEN],
    });
    let buffers = texts.each_mut().map(|half| Half {
        network: &mut half.network[..],
        plan: &mut half.plan[..],
    });
    let lengths = split_into(network, plan, first_half, buffers)?;
    for (half, length) in texts.iter_mut().zip(lengths) {
        half.network.truncate(length.network);
        half.plan.truncate(length.plan);
        half.network.shrink_to_fit();
        half.plan.shrink_to_fit();
    }
    Ok(texts)
}
