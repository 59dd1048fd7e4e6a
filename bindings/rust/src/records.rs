//! Records of a text: a letter and numbers, parted by tabs, a line each.

use alloc::vec::Vec;
use core::fmt;

/// A line of one letter by type.
pub(crate) trait Record: Sized {
    const LETTER: char;

    /// The record of these numbers; none where they are too few or too many.
    fn read(numbers: &[u32]) -> Option<Self>;

    fn numbers(&self) -> Vec<u32>;
}

/// Writes records, a line each.
pub(crate) fn write_all<R: Record>(formatter: &mut fmt::Formatter<'_>, records: &[R]) -> fmt::Result {
    let mut records = records.iter();
    records.try_for_each(|record| write(formatter, R::LETTER, record.numbers()))
}

/// Writes a record, its numbers without leading zeros.
pub(crate) fn write(
    formatter: &mut fmt::Formatter<'_>,
    letter: char,
    numbers: impl IntoIterator<Item = u32>,
) -> fmt::Result {
    write!(formatter, "{letter}")?;
    for number in numbers {
        write!(formatter, "\t{number}")?;
    }
    writeln!(formatter)
}

/// The numbers of a line that has this letter; none where a number is none, or it has another letter.
pub(crate) fn read(line: &[u8], letter: u8) -> Option<Vec<u32>> {
    let mut fields = line.split(|&byte| byte == b'\t');
    fields.next().filter(|&field| field == [letter])?;
    fields.map(number).collect()
}

/// 1 to 10 digits, at most 4,294,967,295.
fn number(digits: &[u8]) -> Option<u32> {
    if !(1..=10).contains(&digits.len()) || !digits.iter().all(u8::is_ascii_digit) {
        return None;
    }
    let add = |number: u64, &digit: &u8| 10 * number + u64::from(digit - b'0');
    u32::try_from(digits.iter().fold(0, add)).ok()
}

/// How many there are, as a text has it.
pub(crate) fn count<T>(items: &[T]) -> u32 {
    u32::try_from(items.len()).unwrap_or(u32::MAX)
}
