//! The solver's listing, the plan text written from it, and refusals 22 to 24.

use crate::network::Network;
use crate::plan::{self, PlanStep};
use crate::Refusal;
use std::collections::HashSet;

/// One vehicle per second, in millionths.
const WHOLE: u64 = 1_000_000;

/// Writes the plan at the start of the buffer and gives its length. Nothing is
/// written unless the whole listing is good and the buffer long enough.
pub fn write_plan(
    network_text: &[u8],
    listing: &[u8],
    buffer: &mut [u8],
) -> Result<usize, Refusal> {
    let network = Network::read(network_text)?;
    let text = plan::text(&read(listing, &network)?);
    if buffer.len() < text.len() {
        return Err(Refusal::new(24, 0, 0));
    }
    buffer[..text.len()].copy_from_slice(&text);
    Ok(text.len())
}

/// The plan of a listing, line by line: refusal 22, then 23. A variable that
/// no line names is 0.
fn read(listing: &[u8], network: &Network) -> Result<Vec<PlanStep>, Refusal> {
    let mut plan = vec![PlanStep::of_zeros(network); network.steps.len()];
    let mut named = HashSet::new();
    for (index, line) in listing.split_inclusive(|&byte| byte == b'\n').enumerate() {
        let line_number = index as u64 + 1;
        let malformed = Refusal::new(22, line_number, 0);
        let (variable, millionths) = read_line(line, network).ok_or(malformed)?;
        if !named.insert(variable) {
            return Err(malformed);
        }
        let step = &mut plan[variable.step];
        let length = network.steps[variable.step].length;
        match variable.quantity {
            Quantity::Phase { signal, phase } => match millionths {
                0 => {}
                WHOLE => step.masks[signal] |= 1 << phase,
                _ => return Err(malformed),
            },
            Quantity::Rate(flow) => {
                let not_a_volume = Refusal::new(23, line_number, 0);
                let volume = volume(millionths, length).ok_or(not_a_volume)?;
                match flow {
                    Flow::Admitted(link) => step.admitted[link] = volume,
                    Flow::LetOut(link) => step.let_out[link] = volume,
                    Flow::Moved(movement) => step.moved[movement] = volume,
                }
            }
        }
    }
    Ok(plan)
}

/// What a variable is about. All indices are from 0 here.
#[derive(Clone, Copy, PartialEq, Eq, Hash)]
struct Variable {
    step: usize,
    quantity: Quantity,
}

#[derive(Clone, Copy, PartialEq, Eq, Hash)]
enum Quantity {
    Phase { signal: usize, phase: usize },
    Rate(Flow),
}

#[derive(Clone, Copy, PartialEq, Eq, Hash)]
enum Flow {
    Admitted(usize),
    LetOut(usize),
    Moved(usize),
}

/// A variable that the network has, one space, a decimal (in millionths) and a
/// line feed.
fn read_line(line: &[u8], network: &Network) -> Option<(Variable, u64)> {
    let content = line.strip_suffix(b"\n")?;
    let space = content.iter().position(|&byte| byte == b' ')?;
    let variable = read_variable(&content[..space], network)?;
    let millionths = read_decimal(&content[space + 1..])?;
    Some((variable, millionths))
}

fn read_variable(name: &[u8], network: &Network) -> Option<Variable> {
    let mut parts = name.split(|&byte| byte == b'_');
    let letter = parts.next()?;
    let indices: Vec<u64> = parts.map(read_index).collect::<Option<_>>()?;
    let (&step, items) = indices.split_last()?;
    let quantity = match (letter, items) {
        (b"p", &[signal, phase]) => {
            let signal = place(signal, network.signals.len())?;
            let phase = place(phase, network.signals[signal].phases.len())?;
            Quantity::Phase { signal, phase }
        }
        (b"i", &[link]) => Quantity::Rate(Flow::Admitted(place(link, network.links.len())?)),
        (b"o", &[link]) => Quantity::Rate(Flow::LetOut(place(link, network.links.len())?)),
        (b"m", &[movement]) => {
            Quantity::Rate(Flow::Moved(place(movement, network.movements.len())?))
        }
        _ => return None,
    };
    Some(Variable {
        step: place(step, network.steps.len())?,
        quantity,
    })
}

/// The place from 0 of the item that an index names, if there is such an item.
fn place(index: u64, count: usize) -> Option<usize> {
    if (1..=count as u64).contains(&index) {
        Some(index as usize - 1)
    } else {
        None
    }
}

/// Digits without leading zeros. One too long for 64 bits stays at their
/// greatest number, which names nothing.
fn read_index(digits: &[u8]) -> Option<u64> {
    if digits.len() > 1 && digits[0] == b'0' {
        return None;
    }
    read_digits(digits)
}

/// 1 to 10 digits, then perhaps a point and 1 to 6 more, in millionths.
fn read_decimal(decimal: &[u8]) -> Option<u64> {
    let point = decimal.iter().position(|&byte| byte == b'.');
    let (whole, places) = match point {
        Some(point) => (&decimal[..point], Some(&decimal[point + 1..])),
        None => (decimal, None),
    };
    if whole.len() > 10 {
        return None;
    }
    let millionths = match places {
        None => 0,
        Some(places) if places.len() > 6 => return None,
        Some(places) => read_digits(places)? * 10_u64.pow(6 - places.len() as u32),
    };
    Some(read_digits(whole)? * WHOLE + millionths)
}

/// One digit or more.
fn read_digits(digits: &[u8]) -> Option<u64> {
    if digits.is_empty() || !digits.iter().all(u8::is_ascii_digit) {
        return None;
    }
    let value = digits.iter().fold(0, |value: u64, digit| {
        let digit = u64::from(digit - b'0');
        value.saturating_mul(10).saturating_add(digit)
    });
    Some(value)
}

/// The volume, in thousandths of a vehicle, of a rate in millionths of a
/// vehicle per second: whole, and not too large for a field. The product is
/// below 10^16 x 60.
fn volume(millionths: u64, length: u64) -> Option<u64> {
    let volume = millionths * length / 1000;
    if millionths * length % 1000 == 0 && volume <= 4_294_967_295 {
        Some(volume)
    } else {
        None
    }
}

#[cfg(test)]
mod tests {
    use super::*;

    #[test]
    fn decimals() {
        for (text, millionths) in [
            (&b"0"[..], 0),
            (b"0.0", 0),
            (b"0000000000.000000", 0),
            (b"1", 1_000_000),
            (b"1.000", 1_000_000),
            (b"0000000001", 1_000_000),
            (b"0.000001", 1),
            (b"00.5", 500_000),
            (b"12.34", 12_340_000),
            (b"9999999999.999999", 9_999_999_999_999_999),
        ] {
            assert_eq!(read_decimal(text), Some(millionths), "{text:?}");
        }
        for bad in [
            &b""[..],
            b".",
            b"1.",
            b".5",
            b"1.2.3",
            b"1..2",
            b"12345678901",
            b"00000000000",
            b"1.0000000",
            b"+1",
            b"-1",
            b"1e0",
            b"1,5",
            b" 1",
            b"1 ",
            b"1\r",
            b"1_0",
            b"\xb2",
        ] {
            assert_eq!(read_decimal(bad), None, "{bad:?}");
        }
    }

    #[test]
    fn indices() {
        assert_eq!(read_index(b"0"), Some(0));
        assert_eq!(read_index(b"120"), Some(120));
        assert_eq!(read_index(b"4294967297"), Some(4_294_967_297));
        assert_eq!(read_index(b"18446744073709551617"), Some(u64::MAX));
        for bad in [&b""[..], b"00", b"01", b"+1", b" 1", b"1 ", b"1.", b"x"] {
            assert_eq!(read_index(bad), None, "{bad:?}");
        }
    }

    #[test]
    fn volumes() {
        // 0.0025 vehicles a second for 2 seconds are 5 thousandths.
        assert_eq!(volume(2_500, 2), Some(5));
        assert_eq!(volume(2_501, 2), None);
        assert_eq!(volume(2_500, 1), None);
        assert_eq!(volume(4_294_967_295_000, 1), Some(4_294_967_295));
        assert_eq!(volume(4_294_967_296_000, 1), None);
        assert_eq!(volume(71_582_788_250, 60), Some(4_294_967_295));
        assert_eq!(volume(71_582_788_300, 60), None);
        assert_eq!(volume(9_999_999_999_999_999, 60), None);
    }
}
