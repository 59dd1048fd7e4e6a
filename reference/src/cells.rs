//! A corridor in cells (the Cell Transmission Model): a text read and run.

use crate::text::{Line, Lines};
use crate::Refusal;

const MOST_CELLS: usize = 64;
const MOST_DEMANDS: usize = 120;
const LARGEST: u64 = 2_000_000_000;

/// What a run gives.
#[derive(Clone, Debug, PartialEq, Eq)]
pub struct Run {
    pub flow_in: u64,
    pub flow_out: u64,
    pub volumes: Vec<u64>,
}

struct Cell {
    flow_limit: u64,
    holding_limit: u64,
    wave_ratio: u64,
    start: u64,
}

struct Corridor {
    cells: Vec<Cell>,
    exit_limit: u64,
    demands: Vec<u64>,
}

/// Refusals 36 and 37, line by line.
pub fn run_cells(text: &[u8]) -> Result<Run, Refusal> {
    let corridor = read(text)?;
    let mut volumes: Vec<u64> = corridor.cells.iter().map(|cell| cell.start).collect();
    let mut flow_in = 0;
    let mut flow_out = 0;
    for &demand in &corridor.demands {
        let flows = flows(&corridor, demand, &volumes);
        for (cell, volume) in volumes.iter_mut().enumerate() {
            *volume = *volume + flows[cell] - flows[cell + 1];
        }
        flow_in += flows[0];
        flow_out += flows[volumes.len()];
    }
    Ok(Run {
        flow_in,
        flow_out,
        volumes,
    })
}

/// The flow into each cell, then the flow out of the last, all by the volumes
/// before the step.
fn flows(corridor: &Corridor, demand: u64, volumes: &[u64]) -> Vec<u64> {
    let mut flows = Vec::new();
    let mut before = demand;
    for (cell, &volume) in corridor.cells.iter().zip(volumes) {
        let room = cell.wave_ratio * (cell.holding_limit - volume) / 1000;
        flows.push(before.min(cell.flow_limit).min(room));
        before = volume;
    }
    flows.push(before.min(corridor.exit_limit));
    flows
}

/// `C` lines as long as the letter is C, one `X` line, then `D` lines to the
/// end.
fn read(text: &[u8]) -> Result<Corridor, Refusal> {
    let mut lines = Lines::new(text);
    let mut cells = Vec::new();
    let mut line = lines.take();
    while line.fields.first() == Some(&&b"C"[..]) {
        if cells.len() == MOST_CELLS {
            return Err(malformed(&line));
        }
        cells.push(read_cell(&line)?);
        line = lines.take();
    }
    if cells.is_empty() {
        return Err(malformed(&line));
    }
    let exit_limit = read_volume(&line, b'X')?;
    let mut demands = Vec::new();
    while demands.is_empty() || lines.surplus().is_some() {
        let line = lines.take();
        if demands.len() == MOST_DEMANDS {
            return Err(malformed(&line));
        }
        demands.push(read_volume(&line, b'D')?);
    }
    Ok(Corridor {
        cells,
        exit_limit,
        demands,
    })
}

fn read_cell(line: &Line) -> Result<Cell, Refusal> {
    let numbers = line.numbers(b'C', 4).ok_or(malformed(line))?;
    let cell = Cell {
        flow_limit: numbers[0],
        holding_limit: numbers[1],
        wave_ratio: numbers[2],
        start: numbers[3],
    };
    let volumes = [cell.flow_limit, cell.holding_limit, cell.start];
    if volumes.iter().any(|&volume| volume > LARGEST) || !(1..=1000).contains(&cell.wave_ratio) {
        return Err(malformed(line));
    }
    if cell.start > cell.holding_limit {
        return Err(refused(37, line));
    }
    Ok(cell)
}

fn read_volume(line: &Line, letter: u8) -> Result<u64, Refusal> {
    let numbers = line.numbers(letter, 1).ok_or(malformed(line))?;
    if numbers[0] > LARGEST {
        return Err(malformed(line));
    }
    Ok(numbers[0])
}

fn malformed(line: &Line) -> Refusal {
    refused(36, line)
}

fn refused(number: u64, line: &Line) -> Refusal {
    Refusal {
        number,
        line: line.number,
        item: 0,
    }
}

#[cfg(test)]
mod tests {
    use super::*;

    fn ran(flow_in: u64, flow_out: u64, volumes: &[u64]) -> Result<Run, Refusal> {
        Ok(Run {
            flow_in,
            flow_out,
            volumes: volumes.to_vec(),
        })
    }

    fn told(text: &str) -> (u64, u64) {
        let refusal = run_cells(text.as_bytes()).unwrap_err();
        assert_eq!(refusal.item, 0);
        (refusal.number, refusal.line)
    }

    #[test]
    fn runs() {
        assert_eq!(
            run_cells(b"C\t10\t100\t500\t20\nC\t8\t50\t1000\t0\nX\t5\nD\t7\nD\t100\n"),
            ran(17, 5, &[21, 11])
        );
        assert_eq!(
            run_cells(b"C\t9\t10\t1000\t3\nX\t2\nD\t100\nD\t0\n"),
            ran(7, 4, &[6])
        );
        assert_eq!(
            run_cells(b"C\t9\t10\t333\t0\nX\t0\nD\t100\n"),
            ran(3, 0, &[3])
        );
    }

    #[test]
    fn refusals() {
        assert_eq!(told(""), (36, 1));
        assert_eq!(told("X\t5\nD\t7\n"), (36, 1));
        assert_eq!(told("C\t1\t1\t1\t2\nC\n"), (37, 1));
        assert_eq!(told("C\t1\t1\t0\t2\nX\t5\nD\t7\n"), (36, 1));
        assert_eq!(told("C\t1\t1\t1\t1\n"), (36, 2));
        assert_eq!(told("C\t1\t1\t1\t1\nX\t5\n"), (36, 3));
        assert_eq!(told("C\t1\t1\t1\t1\nX\t5\nD\t7\n\n"), (36, 4));
        let cells = "C\t1\t1\t1\t1\n".repeat(65);
        assert_eq!(told(&format!("{cells}X\t5\nD\t7\n")), (36, 65));
        let demands = "D\t1\n".repeat(121);
        assert_eq!(told(&format!("C\t1\t1\t1\t1\nX\t5\n{demands}")), (36, 123));
    }
}
