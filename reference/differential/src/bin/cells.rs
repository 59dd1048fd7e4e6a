//! Compares runs of corridors in cells with the other implementation: the answer, the totals and every volume.
//!
//! `cells COUNT SEED`: COUNT texts, of the seeds SEED, SEED + 1, .., so that a difference can be found again by itself: `cells 1 SEED` with the seed
//! that is printed. Of each seed there is a text and one with zeros before some of its numbers, which must get the same from the library.

// Each of the comparing programs calls a part of the library.
#[allow(dead_code)]
#[path = "../../../../bindings/rust/src/library.rs"]
mod declarations;

use declarations::{plancheck_run_cells, CellsResult};
use plancheck_reference::cases::{draw_corridor, pad, Random};
use plancheck_reference::cells;
use std::collections::BTreeMap;
use std::process::ExitCode;

/// After so many differences nothing more is learnt.
const MOST_DIFFERENCES: u64 = 20;
const CELLS: usize = 64;

#[derive(Default)]
struct Counts {
    texts: u64,
    differences: u64,
    cells: u64,
    flow_out: u64,
    answers: BTreeMap<u32, u64>,
}

fn main() -> ExitCode {
    let arguments: Option<Vec<u64>> = std::env::args()
        .skip(1)
        .map(|argument| argument.parse().ok())
        .collect();
    let Some([count, seed]) = arguments.as_deref() else {
        eprintln!("cells COUNT SEED");
        return ExitCode::FAILURE;
    };
    let mut counts = Counts::default();
    let mut seed = *seed;
    while counts.texts < *count && counts.differences < MOST_DIFFERENCES {
        let mut random = Random::new(seed);
        let text = draw_corridor(&mut random);
        let plain = judge(&mut counts, seed, &text);
        let padded = judge(&mut counts, seed, &pad(&mut random, &text));
        if plain != padded {
            counts.differences += 1;
            println!("difference: seed {seed}, padded otherwise than not");
        }
        seed = seed.wrapping_add(1);
    }
    report(&counts);
    if counts.differences == 0 {
        ExitCode::SUCCESS
    } else {
        ExitCode::FAILURE
    }
}

/// What the library gave.
fn judge(counts: &mut Counts, seed: u64, text: &[u8]) -> CellsResult {
    let expected = in_numbers(text);
    // SAFETY: a slice gives a pointer that is not null, readable for its length. The header asks for no more.
    let given = unsafe { plancheck_run_cells(text.as_ptr(), text.len()) };
    counts.texts += 1;
    counts.cells += u64::from(given.cells);
    counts.flow_out += u64::from(given.flow_out > 0);
    *counts.answers.entry(given.number).or_default() += 1;
    if given != expected {
        counts.differences += 1;
        println!("difference: seed {seed}, text {}", text.escape_ascii());
        println!("reference {expected:?}");
        println!("library   {given:?}");
    }
    given
}

/// The answer as the header puts it: 0 in each member that it does not name.
fn in_numbers(text: &[u8]) -> CellsResult {
    let mut result = CellsResult {
        number: 0,
        line: 0,
        item: 0,
        cells: 0,
        flow_in: 0,
        flow_out: 0,
        volumes: [0; CELLS],
    };
    match cells::run_cells(text) {
        Ok(run) => {
            result.cells = narrow(run.volumes.len() as u64);
            result.flow_in = run.flow_in;
            result.flow_out = run.flow_out;
            for (place, &volume) in result.volumes.iter_mut().zip(&run.volumes) {
                *place = narrow(volume);
            }
        }
        Err(refusal) => {
            result.number = narrow(refusal.number);
            result.line = narrow(refusal.line);
            result.item = narrow(refusal.item);
        }
    }
    result
}

fn narrow(number: u64) -> u32 {
    u32::try_from(number).expect("the header has 32 bits for this number")
}

fn report(counts: &Counts) {
    for (number, texts) in &counts.answers {
        println!("answer {number}\t{texts}");
    }
    println!("cells run\t{}", counts.cells);
    println!("texts with flow out\t{}", counts.flow_out);
    println!("texts\t{}", counts.texts);
    println!("differences\t{}", counts.differences);
}
