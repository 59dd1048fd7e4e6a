//! Damaged and random texts.

use super::listings::shuffled_listing;
use super::{Maker, Random, Scenario, Texts};

/// Networks with some damage, for all calls.
pub fn damaged_networks(maker: &mut Maker, scenario: &Scenario, count: usize) {
    let texts = Texts::of(scenario);
    for _ in 0..count {
        let text = damage(&mut maker.random, &texts.network);
        let changed = texts.with_network(text);
        if maker.random.chance(50) {
            maker.ask_network("damaged network", changed, None);
        } else {
            maker.ask_plan("damaged network", changed, scenario.ledger_need(), None);
        }
    }
}

/// Plans with some damage.
pub fn damaged_plans(maker: &mut Maker, scenario: &Scenario, count: usize) {
    let texts = Texts::of(scenario);
    for _ in 0..count {
        let text = damage(&mut maker.random, &texts.plan);
        let changed = texts.with_plan(text);
        maker.ask_plan("damaged plan", changed, scenario.ledger_need(), None);
    }
}

/// Calls to carry on with some damage to one of the texts.
pub fn damaged_carries(maker: &mut Maker, scenario: &Scenario, count: usize) {
    for round in 0..count {
        let boundary = 1 + maker.random.index(scenario.step_count());
        let mut texts = scenario.texts_up_to(boundary);
        let text = match round % 2 {
            0 => &mut texts.plan,
            _ => &mut texts.network,
        };
        *text = damage(&mut maker.random, text);
        let question = maker.carry(scenario, texts, boundary);
        maker.ask("damaged call to carry on", question, None);
    }
}

/// Sheets with some damage, to be kept or to be written from.
pub fn damaged_sheets(maker: &mut Maker, scenario: &Scenario, count: usize) {
    for round in 0..count {
        let mut question = if round % 2 == 0 {
            maker.any_sheet_to_keep(scenario)
        } else {
            maker.any_sheet_to_write(scenario)
        };
        let sheet = match round % 2 {
            0 => &mut question.second,
            _ => &mut question.plan,
        };
        *sheet = damage(&mut maker.random, sheet);
        maker.ask("damaged sheet", question, None);
    }
}

/// Listings with some damage, and lines of a listing's characters.
pub fn damaged_listings(maker: &mut Maker, scenario: &Scenario, count: usize) {
    for round in 0..count {
        let random = &mut maker.random;
        let listing = if round % 4 == 3 {
            let length = random.index(80);
            (0..length)
                .map(|_| random.pick(b"piom___0111122233. \n\n"))
                .collect()
        } else {
            let whole = shuffled_listing(random, scenario);
            let lines = whole.split_inclusive(|&byte| byte == b'\n');
            let some: Vec<&[u8]> = lines.take(random.index(30)).collect();
            damage(random, &some.concat())
        };
        maker.ask_any_listing("damaged listing", scenario, listing);
    }
}

/// One to three damages to a text.
pub fn damage(random: &mut Random, text: &[u8]) -> Vec<u8> {
    let mut text = text.to_vec();
    for _ in 0..random.pick(&[1, 1, 1, 1, 2, 3]) {
        text = match random.between(0, 7) {
            0..=2 => damage_number(random, &text),
            3..=5 => damage_byte(random, &text),
            6 => damage_line(random, &text),
            _ => {
                let length = random.index(text.len() + 1);
                text[..length].to_vec()
            }
        };
    }
    text
}

fn damage_byte(random: &mut Random, text: &[u8]) -> Vec<u8> {
    let mut text = text.to_vec();
    let place = random.index(text.len() + 1);
    let any = random.draw() as u8;
    let byte = random.pick(&[
        b'\t', b'\n', b'\t', b'\n', b'0', b'1', b'9', b'-', b' ', b'\r', 0, b'P', b'G', b'_', b'.',
        any, any,
    ]);
    if place == text.len() {
        text.push(byte);
        return text;
    }
    match random.between(0, 4) {
        0 => text[place] ^= 1 << random.between(0, 7),
        1 => text[place] = byte,
        2 => {
            text.remove(place);
        }
        3 => text.insert(place, byte),
        _ => {
            let other = random.index(text.len());
            text.swap(place, other);
        }
    }
    text
}

/// Changes one number, often by little.
fn damage_number(random: &mut Random, text: &[u8]) -> Vec<u8> {
    // A listing parts its numbers by other bytes than the two texts do.
    let separators: Vec<usize> = (0..text.len())
        .filter(|&place| matches!(text[place], b'\t' | b'_' | b' '))
        .collect();
    if separators.is_empty() {
        return damage_byte(random, text);
    }
    let start = separators[random.index(separators.len())] + 1;
    let length = text[start..]
        .iter()
        .position(|byte| matches!(byte, b'\t' | b'\n' | b'_' | b' ' | b'.'))
        .unwrap_or(text.len() - start);
    let field = &text[start..start + length];
    let number: Option<u64> = std::str::from_utf8(field)
        .ok()
        .and_then(|field| field.parse().ok());
    let new = match (number, random.between(0, 9)) {
        (Some(number), 0..=2) => number.saturating_add(1).to_string(),
        (Some(number), 3 | 4) => number.saturating_sub(1).to_string(),
        (Some(number), 5) => number.saturating_mul(2).to_string(),
        (Some(number), 6) => format!("0{number}"),
        (Some(number), 7) => format!("{number}0"),
        _ => {
            let small = random.between(0, 130).to_string();
            let any = (random.draw() as u32).to_string();
            let numbers = ["0", "1", "4294967295", "4294967296", &small, &any];
            random.pick(&numbers).to_string()
        }
    };
    let mut changed = text[..start].to_vec();
    changed.extend(new.as_bytes());
    changed.extend(&text[start + length..]);
    changed
}

fn damage_line(random: &mut Random, text: &[u8]) -> Vec<u8> {
    let mut lines: Vec<Vec<u8>> = text
        .split_inclusive(|&byte| byte == b'\n')
        .map(<[u8]>::to_vec)
        .collect();
    if lines.is_empty() {
        return text.to_vec();
    }
    let line = random.index(lines.len());
    let other = random.index(lines.len());
    match random.between(0, 3) {
        0 => {
            lines.remove(line);
        }
        1 => {
            let copy = lines[line].clone();
            lines.insert(other, copy);
        }
        2 => lines.swap(line, other),
        _ => lines[line] = lines[other].clone(),
    }
    lines.concat()
}

/// Texts of random bytes, random characters of the format and random lines.
pub fn random_texts(maker: &mut Maker, count: usize) {
    for round in 0..count {
        let random = &mut maker.random;
        let length = random.index(200);
        let network: Vec<u8> = match round % 3 {
            0 => (0..length).map(|_| random.draw() as u8).collect(),
            1 => (0..length)
                .map(|_| random.pick(b"NTGQMHSP\t\t\t\t\n0123456789"))
                .collect(),
            _ => {
                let mut text = format!(
                    "N\t{}\t{}\t{}\t{}\t{}\t{}\n",
                    random.between(0, 3),
                    random.between(0, 1),
                    random.between(0, 1),
                    random.between(0, 2),
                    random.between(0, 1),
                    random.between(0, 1)
                );
                for _ in 0..random.between(0, 5) {
                    text.push(random.pick(&['T', 'G', 'Q', 'M', 'H', 'S']));
                    for _ in 0..random.between(1, 11) {
                        text.push('\t');
                        text += &random.between(0, 12).to_string();
                    }
                    text.push('\n');
                }
                text.into_bytes()
            }
        };
        let texts = Texts {
            plan: network.clone(),
            network,
        };
        if round % 2 == 0 {
            maker.ask_network("random text", texts, None);
        } else {
            maker.ask_plan("random text", texts, 40, None);
        }
    }
}
