//! What a network has, and the library's version.

use crate::{library, refused, required_ledger_len, Refusal};

/// How much a network has of each.
#[derive(Clone, Copy, Debug, PartialEq, Eq, Hash)]
pub struct Counts {
    /// Links, at least one.
    pub links: usize,
    /// Signals.
    pub signals: usize,
    /// Movements.
    pub movements: usize,
    /// Steps, at least one.
    pub steps: usize,
    /// Tram lines.
    pub trams: usize,
    /// Past steps.
    pub past: usize,
}

impl Counts {
    /// The ledger length that the network needs.
    #[must_use]
    pub const fn required_ledger_len(&self) -> usize {
        required_ledger_len(self.links, self.steps)
    }
}

/// Checks a network text, and returns what a valid one has.
///
/// # Errors
///
/// Refusals 1 to 6, 28 and 30.
///
/// # Examples
///
/// ```
/// // One link without a signal, two steps.
/// let network = "N\t1\t0\t0\t2\t0\t0\nQ\t60000\t10\t500\t0\t0\t0\t0\nS\t10\t0\nS\t10\t0\n";
/// let counts = plancheck::network_counts(network.as_bytes())?;
/// assert_eq!((counts.links, counts.signals, counts.steps), (1, 0, 2));
/// assert_eq!(counts.required_ledger_len(), 6);
/// # Ok::<(), plancheck::Refusal>(())
/// ```
pub fn network_counts(network: &[u8]) -> Result<Counts, Refusal> {
    // SAFETY: a slice gives an aligned pointer that is not null, readable for its length. The call only reads it.
    let result = unsafe { library::plancheck_network_counts(network.as_ptr(), network.len()) };
    refused(result.number, result.line, result.item)?;
    Ok(Counts {
        links: result.links as usize,
        signals: result.signals as usize,
        movements: result.movements as usize,
        steps: result.steps as usize,
        trams: result.trams as usize,
        past: result.past as usize,
    })
}

/// A version of the library: of its calls, of their answers and of the texts.
#[derive(Clone, Copy, Debug, PartialEq, Eq, PartialOrd, Ord, Hash)]
pub struct Version {
    /// Changes with any answer, struct or text. Libraries of one major number give every input the same answer.
    pub major: u32,
    /// Changes with new calls.
    pub minor: u32,
    /// Changes with speed, stack, code size, or the words of a page.
    pub patch: u32,
}

/// Returns the version of the library that is linked. That of the crate is the package's own.
///
/// ```
/// let version = plancheck::library_version();
/// assert_eq!((version.major, version.minor, version.patch), (1, 0, 0));
/// ```
#[must_use]
pub fn library_version() -> Version {
    // SAFETY: the call takes nothing.
    let result = unsafe { library::plancheck_version() };
    Version {
        major: result.major,
        minor: result.minor,
        patch: result.patch,
    }
}
