//! The house format: lines ended by a line feed, fields parted by one tab.

const TAB: u8 = 9;
const LINE_FEED: u8 = 10;

/// One line of a text. A missing line has no fields at all and is unfinished,
/// so it never has the form of a record.
pub struct Line<'a> {
    /// Lines are counted from 1.
    pub number: u64,
    /// What stands between the tabs, empty fields included.
    pub fields: Vec<&'a [u8]>,
    /// The line was ended by a line feed.
    pub finished: bool,
}

impl Line<'_> {
    /// The numbers of a whole line of the right form: finished, with this
    /// letter and exactly this many good numbers.
    pub fn numbers(&self, letter: u8, count: usize) -> Option<Vec<u64>> {
        if self.finished && self.fields.len() == 1 + count {
            self.leading_numbers(letter, count)
        } else {
            None
        }
    }

    /// The first numbers of a line, whatever follows them.
    pub fn leading_numbers(&self, letter: u8, count: usize) -> Option<Vec<u64>> {
        if self.fields.len() < 1 + count || self.fields[0] != [letter] {
            return None;
        }
        self.fields[1..=count]
            .iter()
            .map(|field| number(field))
            .collect()
    }
}

/// The lines of a text, taken in order.
pub struct Lines<'a> {
    rest: &'a [u8],
    taken: u64,
}

impl<'a> Lines<'a> {
    pub fn new(text: &'a [u8]) -> Self {
        Lines {
            rest: text,
            taken: 0,
        }
    }

    /// The next line; a missing one where the text has ended.
    pub fn take(&mut self) -> Line<'a> {
        self.taken += 1;
        let text = self.rest;
        let (content, finished) = match text.iter().position(|&byte| byte == LINE_FEED) {
            Some(place) => {
                self.rest = &text[place + 1..];
                (&text[..place], true)
            }
            None => {
                self.rest = &[];
                (text, false)
            }
        };
        let missing = text.is_empty();
        Line {
            number: self.taken,
            fields: if missing {
                Vec::new()
            } else {
                content.split(|&byte| byte == TAB).collect()
            },
            finished,
        }
    }

    /// The line at which surplus text begins, if there is any.
    pub fn surplus(&self) -> Option<u64> {
        if self.rest.is_empty() {
            None
        } else {
            Some(self.taken + 1)
        }
    }
}

/// Writes one record, the numbers without leading zeros.
pub fn write_record(output: &mut Vec<u8>, letter: u8, numbers: &[u64]) {
    output.push(letter);
    for number in numbers {
        output.push(TAB);
        output.extend(number.to_string().as_bytes());
    }
    output.push(LINE_FEED);
}

/// A decimal number of 1 to 10 digits, at most 4,294,967,295, without sign.
/// Zeros may stand in front, within the 10 digits.
fn number(field: &[u8]) -> Option<u64> {
    if field.is_empty() || field.len() > 10 {
        return None;
    }
    if !field.iter().all(u8::is_ascii_digit) {
        return None;
    }
    // Ten digits are below 10^10, so this cannot overflow.
    let value = field
        .iter()
        .fold(0, |value: u64, digit| 10 * value + u64::from(digit - b'0'));
    if value <= 4_294_967_295 {
        Some(value)
    } else {
        None
    }
}

#[cfg(test)]
mod tests {
    use super::*;

    #[test]
    fn numbers() {
        assert_eq!(number(b"0"), Some(0));
        assert_eq!(number(b"7"), Some(7));
        assert_eq!(number(b"10"), Some(10));
        assert_eq!(number(b"999999999"), Some(999_999_999));
        assert_eq!(number(b"4294967295"), Some(4_294_967_295));
        assert_eq!(number(b"00"), Some(0));
        assert_eq!(number(b"0000000000"), Some(0));
        assert_eq!(number(b"01"), Some(1));
        assert_eq!(number(b"0000000001"), Some(1));
        assert_eq!(number(b"0999999999"), Some(999_999_999));
        for bad in [
            &b""[..],
            b"4294967296",
            b"9999999999",
            b"10000000000",
            b"00000000000",
            b"00000000001",
            b"04294967295",
            b"-1",
            b"+1",
            b" 1",
            b"1 ",
            b"1\r",
            b"1.0",
            b"1/",
            b"1:",
            b"\0",
            b"a",
            b"0x1",
            b"\xb2",
        ] {
            assert_eq!(number(bad), None, "{bad:?}");
        }
    }

    #[test]
    fn lines() {
        let mut lines = Lines::new(b"A\t1\n\n\t\nB");
        let line = lines.take();
        assert_eq!(
            (line.number, line.fields, line.finished),
            (1, vec![&b"A"[..], b"1"], true)
        );
        let line = lines.take();
        assert_eq!(
            (line.number, line.fields, line.finished),
            (2, vec![&b""[..]], true)
        );
        let line = lines.take();
        assert_eq!(
            (line.number, line.fields, line.finished),
            (3, vec![&b""[..], b""], true)
        );
        assert_eq!(lines.surplus(), Some(4));
        let line = lines.take();
        assert_eq!(
            (line.number, line.fields, line.finished),
            (4, vec![&b"B"[..]], false)
        );
        assert_eq!(lines.surplus(), None);
        let line = lines.take();
        assert_eq!((line.number, line.finished), (5, false));
        assert!(line.fields.is_empty());
    }

    #[test]
    fn written_records() {
        let mut text = Vec::new();
        write_record(&mut text, b'A', &[0, 4_294_967_295]);
        write_record(&mut text, b'B', &[]);
        assert_eq!(text, b"A\t0\t4294967295\nB\n");
    }

    #[test]
    fn form_of_a_line() {
        let form = |text: &[u8]| Lines::new(text).take().numbers(b'A', 2);
        assert_eq!(form(b"A\t1\t2\n"), Some(vec![1, 2]));
        for bad in [
            &b""[..],
            b"\n",
            b"A\t1\t2",
            b"A\t1\n",
            b"A\t1\t2\t3\n",
            b"A\t1\t2\t\n",
            b"A\t\t1\t2\n",
            b"B\t1\t2\n",
            b"AA\t1\t2\n",
            b"a\t1\t2\n",
            b"\t1\t2\n",
            b"A 1\t2\n",
        ] {
            assert_eq!(form(bad), None, "{bad:?}");
        }
    }

    #[test]
    fn leading_numbers_of_a_line() {
        let leading = |text: &[u8]| Lines::new(text).take().leading_numbers(b'A', 2);
        for good in [&b"A\t1\t2\n"[..], b"A\t1\t2", b"A\t1\t2\t", b"A\t1\t2\tx\n"] {
            assert_eq!(leading(good), Some(vec![1, 2]), "{good:?}");
        }
        for bad in [
            &b""[..],
            b"A\t1\n\t2",
            b"A\t1\t",
            b"A\t1\tx\n",
            b"B\t1\t2\n",
        ] {
            assert_eq!(leading(bad), None, "{bad:?}");
        }
    }
}
