//! Runs of corridors in cells, and what is declined.

use plancheck::{run_cells, CellsRun, Refusal, MAX_CELLS};

const CORRIDOR: &str = include_str!("../../../examples/cells/corridor.tsv");
const EXPECTED: &str = include_str!("../../../examples/cells/expected.txt");

fn refusal(number: u32, line: u32) -> Refusal {
    Refusal { number, line, item: 0 }
}

fn refused(corridor: &str) -> Refusal {
    run_cells(corridor.as_bytes()).unwrap_err()
}

fn numbers(record: &str) -> Vec<u64> {
    record.split('\t').skip(1).map(|field| field.parse().unwrap()).collect()
}

#[test]
fn the_example() {
    let run = run_cells(CORRIDOR.as_bytes()).unwrap();
    let mut expected = EXPECTED.lines();
    let totals = numbers(expected.next().unwrap());
    assert_eq!(totals, [u64::from(run.cells), run.flow_in, run.flow_out]);
    let volumes: Vec<u64> = expected.map(|record| numbers(record)[1]).collect();
    assert_eq!(volumes.len(), run.cells as usize);
    for (cell, &volume) in run.volumes.iter().enumerate() {
        assert_eq!(u64::from(volume), volumes.get(cell).copied().unwrap_or(0));
    }
}

#[test]
fn one_cell_is_first_and_last() {
    let mut volumes = [0; MAX_CELLS];
    volumes[0] = 6;
    let expected = CellsRun {
        cells: 1,
        flow_in: 7,
        flow_out: 4,
        volumes,
    };
    assert_eq!(run_cells(b"C\t9\t10\t1000\t3\nX\t2\nD\t100\nD\t0\n"), Ok(expected));
}

#[test]
fn the_largest_corridor() {
    let cells = "C\t2000000000\t2000000000\t1000\t0\n".repeat(64);
    let demands = "D\t2000000000\n".repeat(120);
    let run = run_cells(format!("{cells}X\t2000000000\n{demands}").as_bytes()).unwrap();
    assert_eq!(run.cells, 64);
    assert_eq!(refused(&format!("C\t1\t1\t1\t1\n{cells}")), refusal(36, 65));
    assert_eq!(refused(&format!("{cells}X\t0\n{demands}D\t0\n")), refusal(36, 186));
}

#[test]
fn what_is_declined() {
    assert_eq!(refused(""), refusal(36, 1));
    assert_eq!(refused("C\t10\t100\t500\t101\nC\n"), refusal(37, 1));
    assert_eq!(refused("C\t10\t100\t1001\t101\nX\t5\nD\t7\n"), refusal(36, 1));
    assert_eq!(refused("C\t10\t100\t500\t20\n"), refusal(36, 2));
    assert_eq!(refused("C\t10\t100\t500\t20\nX\t5\n"), refusal(36, 3));
    assert_eq!(refused("C\t10\t100\t500\t20\nX\t5\nD\t7\n\n"), refusal(36, 4));
}

#[test]
fn refusals_in_words() {
    assert_eq!(
        refusal(37, 3).to_string(),
        "refusal 37, corridor line 3: the start is above the cell's holding limit"
    );
}
