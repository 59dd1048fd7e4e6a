//! A junction of three links, two signals and three movements over four steps
//! of ten seconds, whose plan was worked out by hand.

use plancheck_reference::{check_network, check_plan, Refusal, Totals};

/// A text as lines of fields; both are counted from 1 and field 1 is the
/// letter.
#[derive(Clone)]
pub struct Sheet(Vec<Vec<String>>);

impl Sheet {
    pub fn new(text: &str) -> Sheet {
        let fields = |line: &str| line.split(' ').map(str::to_string).collect();
        Sheet(text.lines().map(fields).collect())
    }

    pub fn set(mut self, line: usize, field: usize, value: impl ToString) -> Sheet {
        self.0[line - 1][field - 1] = value.to_string();
        self
    }

    pub fn set_line(mut self, line: usize, content: &str) -> Sheet {
        self.0[line - 1] = content.split(' ').map(str::to_string).collect();
        self
    }

    pub fn insert_line(mut self, line: usize, content: &str) -> Sheet {
        self.0.insert(line - 1, Vec::new());
        self.set_line(line, content)
    }

    pub fn remove_line(mut self, line: usize) -> Sheet {
        self.0.remove(line - 1);
        self
    }

    pub fn remove_field(mut self, line: usize, field: usize) -> Sheet {
        self.0[line - 1].remove(field - 1);
        self
    }

    pub fn append_field(mut self, line: usize, value: &str) -> Sheet {
        self.0[line - 1].push(value.to_string());
        self
    }

    /// Every number with zeros in front, up to ten digits.
    pub fn pad(mut self) -> Sheet {
        for fields in &mut self.0 {
            for field in &mut fields[1..] {
                *field = format!("{field:0>10}");
            }
        }
        self
    }

    /// Only the first lines.
    pub fn keep(mut self, lines: usize) -> Sheet {
        self.0.truncate(lines);
        self
    }

    pub fn line_count(&self) -> usize {
        self.0.len()
    }

    pub fn field_count(&self, line: usize) -> usize {
        self.0[line - 1].len()
    }

    pub fn field(&self, line: usize, field: usize) -> &str {
        &self.0[line - 1][field - 1]
    }

    pub fn text(&self) -> Vec<u8> {
        let line = |fields: &Vec<String>| fields.join("\t") + "\n";
        self.0.iter().map(line).collect::<String>().into_bytes()
    }

    /// The text without its very last byte, the line feed.
    pub fn unfinished(&self) -> Vec<u8> {
        let mut text = self.text();
        text.pop();
        text
    }
}

pub fn network() -> Sheet {
    Sheet::new(
        "N 3 2 3 4 0 0\n\
         G 20 60 2 2 10 20 10 30 10 30\n\
         G 15 90 3 1 5 5 10 30 5 20 10 40\n\
         Q 60000 10 0 1 1 4000 0\n\
         Q 60000 10 500 2 5 0 0\n\
         Q 20000 20 1000 0 0 1000 0\n\
         M 1 2 500 250\n\
         M 1 3 500 750\n\
         M 2 3 300 1000\n\
         S 10 5000 0 100\n\
         S 10 0 0 0\n\
         S 10 0 200 0\n\
         S 10 0 0 0",
    )
}

pub fn plan() -> Sheet {
    Sheet::new(
        "P 1 1 5000 0 100 0 0 1000 1000 3000 0\n\
         P 1 2 0 0 0 0 400 0 500 1500 0\n\
         P 2 4 0 200 0 0 100 3000 0 0 1000\n\
         P 2 1 0 0 0 0 0 1600 0 0 200",
    )
}

pub const ROWS: [[u32; 6]; 5] = [
    [4000, 0, 0, 0, 1000, 0],
    [9000, 4000, 1000, 0, 4100, 1000],
    [9000, 6000, 1500, 400, 5600, 1000],
    [9000, 6000, 1700, 1500, 6600, 4000],
    [9000, 6000, 1700, 1700, 6800, 5600],
];

pub const TOTALS: Totals = Totals {
    admitted: 5300,
    let_out: 6100,
    inside: 4200,
    doubled_time: 564000,
};

/// Numbers that the junction's ledger needs.
pub const NEED: usize = 30;

/// What every ledger of these tests holds before the call.
pub const FILL: u32 = 0xDEAD_BEEF;

pub fn refusal(number: u64, line: u64, item: u64) -> Refusal {
    Refusal { number, line, item }
}

/// The plan call on a ledger two longer than needed; whatever the answer, the
/// rows from the given one on and the two numbers must keep what they held.
pub fn judge(network: &[u8], plan: &[u8], rows: usize) -> Result<Totals, Refusal> {
    let mut ledger = [FILL; NEED + 2];
    let answer = check_plan(network, plan, &mut ledger);
    assert!(
        ledger[6 * rows..].iter().all(|&number| number == FILL),
        "a row that was not passed was written: {ledger:?}"
    );
    assert!(
        ledger[..6 * rows].iter().all(|&number| number != FILL),
        "a row that was passed was not written: {ledger:?}"
    );
    answer
}

/// Both calls refuse the network, and the plan call writes nothing.
pub fn assert_network_refused(network: &[u8], number: u64, line: u64, item: u64) {
    let expected = refusal(number, line, item);
    let text = String::from_utf8_lossy(network);
    assert_eq!(check_network(network), Err(expected), "{text}");
    assert_eq!(judge(network, &plan().text(), 0), Err(expected), "{text}");
}

pub fn assert_network_accepted(network: &[u8]) {
    let text = String::from_utf8_lossy(network);
    assert_eq!(check_network(network), Ok(()), "{text}");
}

/// The plan call refuses at this step, after all rows before it.
pub fn assert_plan_refused(network: &[u8], plan: &[u8], number: u64, line: u64, item: u64) {
    let text = String::from_utf8_lossy(plan);
    assert_eq!(
        judge(network, plan, line as usize),
        Err(refusal(number, line, item)),
        "{text}"
    );
}

/// The plan call accepts and writes all five rows.
pub fn assert_plan_accepted(network: &[u8], plan: &[u8]) {
    let text = String::from_utf8_lossy(plan);
    assert!(judge(network, plan, 5).is_ok(), "{text}");
}
