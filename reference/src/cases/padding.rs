//! Texts whose numbers have zeros in front, which have no say.

use super::{Call, Maker, Question, Random};

/// The greatest number of digits.
const WIDTH: usize = 10;

impl Question {
    /// The same question with zeros before some numbers of its texts. A
    /// listing is kept as it is: its numbers are not those of the two texts.
    pub fn padded(&self, random: &mut Random) -> Question {
        let plan = match self.call {
            Call::PlanFromListing => self.plan.clone(),
            _ => pad(random, &self.plan),
        };
        Question {
            network: pad(random, &self.network),
            plan,
            second: pad(random, &self.second),
            ..self.clone()
        }
    }
}

/// Zeros before every number, before some or before one in a while. Whatever
/// else the text holds stays as it is, the first field of a line too.
pub fn pad(random: &mut Random, text: &[u8]) -> Vec<u8> {
    let percent = random.pick(&[100, 40, 5]);
    let is_full_width = random.chance(50);
    let mut padded = Vec::new();
    for line in text.split_inclusive(|&byte| byte == b'\n') {
        for (index, field) in line.split_inclusive(|&byte| byte == b'\t').enumerate() {
            let digits = field.iter().filter(|byte| byte.is_ascii_digit()).count();
            let is_number = field.iter().take(digits).all(u8::is_ascii_digit)
                && field[digits..].iter().all(|byte| b"\t\n".contains(byte));
            if index > 0 && is_number && (1..WIDTH).contains(&digits) && random.chance(percent) {
                let most = WIDTH - digits;
                let zeros = if is_full_width {
                    most
                } else {
                    random.index(most + 1)
                };
                padded.extend(vec![b'0'; zeros]);
            }
            padded.extend(field);
        }
    }
    padded
}

/// Padded copies of some questions asked before, with what was intended there.
pub fn padded_copies(maker: &mut Maker, from: usize, count: usize) {
    let last = maker.drafts.len();
    if from == last {
        return;
    }
    for _ in 0..count {
        let draft = &maker.drafts[from + maker.random.index(last - from)];
        let mut copy = draft.clone();
        copy.question = draft.question.padded(&mut maker.random);
        copy.name = format!("padded: {}", draft.name);
        maker.drafts.push(copy);
    }
}

#[cfg(test)]
mod tests {
    use super::*;

    #[test]
    fn only_numbers_are_padded() {
        let mut random = Random::new(1);
        for text in [
            &b""[..],
            b"\n",
            b"12",
            b"12\n",
            b"7\t\n",
            b"N\tx\t-1\t1x\tx1\t 1\t1\r\n",
            b"N\t1234567890\t00000000000\n",
        ] {
            for _ in 0..20 {
                assert_eq!(pad(&mut random, text), text);
            }
        }
        let mut widest = 0;
        for _ in 0..200 {
            let padded = pad(&mut random, b"N\t1\t0\nS\t12\t");
            let text = String::from_utf8(padded).unwrap();
            let fields: Vec<&str> = text.split(['\t', '\n']).collect();
            let numbers = [fields[1], fields[2], fields[4]];
            assert_eq!((fields[0], fields[3], fields[5]), ("N", "S", ""));
            assert_eq!(numbers.map(|field| field.parse()), [Ok(1), Ok(0), Ok(12)]);
            for number in numbers {
                assert!(number.len() <= WIDTH);
                widest = widest.max(number.len());
            }
        }
        assert_eq!(widest, WIDTH);
    }
}
