//! Corridors in cells: runs worked out by hand, every limit, the form of each
//! line, and random ones; refusals 36 and 37. `corridor_file` says how they are
//! kept.

use super::form::broken_forms;
use super::{damage, pad, refused, Random, Sheet};
use crate::cells::{run_cells, Run};
use crate::Refusal;

const MOST_CELLS: usize = 64;
const MOST_DEMANDS: usize = 120;
const LARGEST: u64 = 2_000_000_000;

/// Number of cells, flow in and flow out.
type Totals = (usize, u64, u64);

/// A corridor, with what this implementation makes of it.
pub struct CorridorCase {
    /// What the case is about; not stored.
    pub name: String,
    pub text: Vec<u8>,
    /// What the making of the case leads to, where it is known without a run; not
    /// stored.
    intended: Option<Result<Totals, Refusal>>,
    pub run: Result<Run, Refusal>,
}

impl CorridorCase {
    pub fn new(name: &str, text: Vec<u8>) -> CorridorCase {
        CorridorCase {
            name: name.to_string(),
            run: run_cells(&text),
            intended: None,
            text,
        }
    }

    pub fn is_as_intended(&self) -> bool {
        let totals = |run: Run| (run.volumes.len(), run.flow_in, run.flow_out);
        let given = self.run.clone().map(totals);
        self.intended.is_none_or(|intended| intended == given)
    }
}

/// Collects corridors.
struct Maker {
    random: Random,
    cases: Vec<CorridorCase>,
}

impl Maker {
    fn ask(&mut self, name: &str, text: Vec<u8>) {
        self.cases.push(CorridorCase::new(name, text));
    }

    fn ask_known(&mut self, name: &str, text: Vec<u8>, intended: Result<Totals, Refusal>) {
        let case = CorridorCase::new(name, text);
        self.cases.push(CorridorCase {
            intended: Some(intended),
            ..case
        });
    }

    fn ask_bad(&mut self, name: &str, text: Vec<u8>, number: u64, line: usize) {
        self.ask_known(name, text, Err(refused(number, line, 0)));
    }

    /// Copies of some of them, with zeros before numbers and what was intended
    /// there.
    fn ask_padded(&mut self, count: usize) {
        let last = self.cases.len();
        for _ in 0..count {
            let case = &self.cases[self.random.index(last)];
            let text = pad(&mut self.random, &case.text);
            let copy = CorridorCase {
                intended: case.intended,
                ..CorridorCase::new(&format!("padded: {}", case.name), text)
            };
            self.cases.push(copy);
        }
    }
}

/// The stored set of corridors.
pub fn stored_corridors(seed: u64) -> Vec<CorridorCase> {
    let mut maker = Maker {
        random: Random::new(seed),
        cases: Vec::new(),
    };
    runs(&mut maker);
    limits(&mut maker);
    counts(&mut maker);
    forms(&mut maker);
    for _ in 0..120 {
        let text = draw_corridor(&mut maker.random);
        maker.ask("any corridor", text);
    }
    maker.ask_padded(40);
    maker.cases
}

/// Runs that are known, among them one that distinguishes flows of the volumes before the
/// step from such of volumes already changed.
fn runs(maker: &mut Maker) {
    for (text, totals) in [
        ("C 10 100 500 20\nC 8 50 1000 0\nX 5\nD 7\nD 100\n", (2, 17, 5)),
        ("C 9 10 1000 3\nX 2\nD 100\nD 0\n", (1, 7, 4)),
        ("C 9 10 333 0\nX 0\nD 100\n", (1, 3, 0)),
        // All full: nothing moves up in the step in which the last one leaves.
        ("C 9 9 1000 9\nC 9 9 1000 9\nX 9\nD 9\n", (2, 0, 9)),
        // All empty but the first: one cell a step.
        ("C 9 9 1000 9\nC 9 9 1000 0\nX 9\nD 0\n", (2, 0, 0)),
        // Demand that doesn't fit is gone.
        ("C 5 100 1000 0\nX 0\nD 8\nD 0\n", (1, 5, 0)),
        // Products and totals above 32 bits.
        (
            "C 2000000000 2000000000 1000 0\nX 2000000000\nD 2000000000\nD 0\nD 2000000000\nD 2000000000\n",
            (1, 4_000_000_000, 4_000_000_000),
        ),
        ("C 2000000000 2000000000 999 0\nX 0\nD 2000000000\n", (1, 1_998_000_000, 0)),
        ("C 0 0 1 0\nX 0\nD 0\n", (1, 0, 0)),
    ] {
        let text = text.replace(' ', "\t").into_bytes();
        maker.ask_known("corridor worked out by hand", text, Ok(totals));
    }
}

/// A good corridor of two cells, as lines of fields.
fn good() -> Sheet {
    let mut sheet = Sheet { lines: Vec::new() };
    sheet.push(b'C', &[10, 100, 500, 20]);
    sheet.push(b'C', &[8, 50, 1000, 0]);
    sheet.push(b'X', &[5]);
    sheet.push(b'D', &[7]);
    sheet.push(b'D', &[100]);
    sheet
}

/// Each number at its limits and past them.
fn limits(maker: &mut Maker) {
    let volume: &[(u64, bool)] = &[(0, true), (LARGEST, true), (LARGEST + 1, false)];
    let ratio: &[(u64, bool)] = &[(0, false), (1, true), (1000, true), (1001, false)];
    for (line, field, values) in [
        (0, 1, volume),
        (1, 1, volume),
        (0, 2, &volume[1..]),
        (1, 2, volume),
        (0, 3, ratio),
        (1, 3, ratio),
        (2, 1, volume),
        (3, 1, volume),
        (4, 1, volume),
    ] {
        for &(value, passes) in values {
            let mut sheet = good();
            sheet.set(line, field, value.to_string().as_bytes());
            if passes {
                let name = "number of a corridor at its limit";
                maker.ask(name, sheet.text());
            } else {
                let name = "36: number of a corridor";
                maker.ask_bad(name, sheet.text(), 36, line + 1);
            }
        }
    }
    for line in [0, 1] {
        for holding in [0, 1, 100, LARGEST - 1, LARGEST] {
            for more in [0, 1] {
                let mut sheet = good();
                sheet.set(line, 2, holding.to_string().as_bytes());
                sheet.set(line, 4, (holding + more).to_string().as_bytes());
                let text = sheet.text();
                match (more, holding) {
                    (0, _) => maker.ask("full cell", text),
                    (_, LARGEST) => maker.ask_bad("36: start", text, 36, line + 1),
                    _ => maker.ask_bad("37: start", text, 37, line + 1),
                }
            }
        }
    }
    // Line by line: 37 of a line before 36 of the next.
    let mut sheet = good();
    sheet.set(0, 4, b"101");
    sheet.set(1, 3, b"0");
    maker.ask_bad("37: before the next line", sheet.text(), 37, 1);
    let mut sheet = good();
    sheet.set(0, 4, b"101");
    sheet.set(0, 3, b"0");
    maker.ask_bad("36: before 37 on a line", sheet.text(), 36, 1);
}

fn counts(maker: &mut Maker) {
    let cell = "C\t9\t10\t500\t3\n";
    let corridor = |cells: usize, demands: usize| {
        let text = cell.repeat(cells) + "X\t2\n" + &"D\t4\n".repeat(demands);
        text.into_bytes()
    };
    for (cells, demands, line) in [
        (MOST_CELLS, MOST_DEMANDS, None),
        (1, 1, None),
        (MOST_CELLS + 1, 1, Some(MOST_CELLS + 1)),
        (1, MOST_DEMANDS + 1, Some(MOST_DEMANDS + 3)),
        (0, 1, Some(1)),
        (3, 0, Some(5)),
    ] {
        let text = corridor(cells, demands);
        match line {
            None => maker.ask("corridor of the greatest or least size", text),
            Some(line) => maker.ask_bad("36: number of lines", text, 36, line),
        }
    }
    maker.ask_bad("36: no text", Vec::new(), 36, 1);
    maker.ask_bad("36: cells alone", cell.repeat(3).into_bytes(), 36, 4);
    let surplus = [&corridor(2, 2)[..], b"\n"].concat();
    maker.ask_bad("36: surplus", surplus, 36, 6);
    let surplus = [&corridor(2, 2)[..], b"x"].concat();
    maker.ask_bad("36: surplus", surplus, 36, 6);
}

fn forms(maker: &mut Maker) {
    let sheet = good();
    for line in 0..sheet.lines.len() {
        for (name, text) in broken_forms(&mut maker.random, &sheet, line) {
            // Demands may end after the first.
            if name == "line is missing" && line > 3 {
                continue;
            }
            maker.ask_bad(&format!("36: {name}"), text, 36, line + 1);
        }
    }
}

/// Mostly a good text; else one with a count or a value near a limit or past it,
/// or with damaged bytes.
pub fn draw_corridor(random: &mut Random) -> Vec<u8> {
    let bad = random.pick(&[0, 0, 0, 1, 5]);
    let cells = draw_count(random, 6, MOST_CELLS);
    let demands = draw_count(random, 12, MOST_DEMANDS);
    let scale = random.pick(&[10, 1000, 100_000, LARGEST]);
    let mut text = String::new();
    for _ in 0..cells {
        let holding = draw_volume(random, scale, bad);
        let start = if random.chance(100 - bad) {
            random.between(0, holding)
        } else {
            holding + random.between(0, 2)
        };
        let flow = draw_volume(random, scale, bad);
        let ratio = draw_ratio(random, bad);
        text += &format!("C\t{flow}\t{holding}\t{ratio}\t{start}\n");
    }
    if random.chance(100 - bad) {
        text += &format!("X\t{}\n", draw_field(random, scale, bad));
    }
    for _ in 0..demands {
        text += &format!("D\t{}\n", draw_field(random, scale, bad));
    }
    if random.chance(80) {
        text.into_bytes()
    } else {
        damage(random, text.as_bytes())
    }
}

fn draw_count(random: &mut Random, most: usize, limit: usize) -> usize {
    if random.chance(92) {
        1 + random.index(most)
    } else {
        random.pick(&[0, 1, limit - 1, limit, limit + 1])
    }
}

fn draw_volume(random: &mut Random, scale: u64, bad: u64) -> u64 {
    if random.chance(bad) {
        return random.pick(&[0, LARGEST, LARGEST + 1, 4_294_967_295, 4_294_967_296]);
    }
    random.between(0, scale)
}

/// A volume as it is written: a bad one has eleven digits.
fn draw_field(random: &mut Random, scale: u64, bad: u64) -> String {
    let volume = draw_volume(random, scale, bad);
    if random.chance(bad) {
        return format!("{volume:011}");
    }
    volume.to_string()
}

fn draw_ratio(random: &mut Random, bad: u64) -> u64 {
    if random.chance(bad) {
        return random.pick(&[0, 1, 1000, 1001]);
    }
    random.between(1, 1000)
}
