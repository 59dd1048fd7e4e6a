//! Compares a step of vehicles with the other implementation: the answer, and the bits of every place after the call, signs of zeros included.
//!
//! `traces COUNT SEED`: COUNT steps, of the seeds SEED, SEED + 1, .., so that a difference can be found again by itself: `traces 1 SEED` with the
//! seed that is printed.

// Each of the comparing programs calls a part of the library.
#[allow(dead_code)]
#[path = "../../../../bindings/rust/src/library.rs"]
mod declarations;

use declarations::{plancheck_step_vehicles, NetworkResult};
use plancheck_reference::cases::{draw_street, Random, Street};
use plancheck_reference::traces;
use std::collections::BTreeMap;
use std::process::ExitCode;

/// After so many differences nothing more is learnt.
const MOST_DIFFERENCES: u64 = 20;
/// What stands on both sides of the places, to see that nothing is written there.
const GUARD: f64 = 12345.678;
const GUARDS: usize = 4;
#[derive(Default)]
struct Counts {
    steps: u64,
    differences: u64,
    moved: u64,
    zeros: u64,
    answers: BTreeMap<u32, u64>,
}

fn main() -> ExitCode {
    let arguments: Option<Vec<u64>> = std::env::args()
        .skip(1)
        .map(|argument| argument.parse().ok())
        .collect();
    let Some([count, seed]) = arguments.as_deref() else {
        eprintln!("traces COUNT SEED");
        return ExitCode::FAILURE;
    };
    let mut counts = Counts::default();
    while counts.steps < *count && counts.differences < MOST_DIFFERENCES {
        let seed = seed.wrapping_add(counts.steps);
        judge(&mut counts, seed, &draw_street(&mut Random::new(seed)));
    }
    report(&counts);
    if counts.differences == 0 {
        ExitCode::SUCCESS
    } else {
        ExitCode::FAILURE
    }
}

fn judge(counts: &mut Counts, seed: u64, step: &Street) {
    let mut expected_places = step.places.clone();
    let expected = match traces::step_vehicles(
        &mut expected_places,
        &step.advances,
        &step.red_lines,
        step.spacing,
    ) {
        Ok(()) => [0; 3],
        Err(refusal) => [refusal.number, refusal.line, refusal.item],
    };
    let (given, given_places) = ask_library(step);
    counts.steps += 1;
    *counts.answers.entry(given.number).or_default() += 1;
    for (before, after) in step.places.iter().zip(&expected_places) {
        counts.moved += u64::from(after > before);
        counts.zeros += u64::from(after > before && *after == 0.0);
    }
    let given_numbers = [given.number, given.line, given.item].map(u64::from);
    if given_numbers != expected || given_places != guarded(&expected_places) {
        counts.differences += 1;
        println!("difference: seed {seed}, {step:?}");
        println!("reference {expected:?} {expected_places:?}");
        let given_places: Vec<f64> = given_places.into_iter().map(f64::from_bits).collect();
        println!("library   {given:?}, guards included {given_places:?}");
    }
}

/// The places with what stands on both sides of them, as bits.
fn guarded(places: &[f64]) -> Vec<u64> {
    let guard = [GUARD; GUARDS];
    let all = guard.iter().chain(places).chain(&guard);
    all.map(|place| place.to_bits()).collect()
}

fn ask_library(step: &Street) -> (NetworkResult, Vec<u64>) {
    let mut numbers: Vec<f64> = guarded(&step.places)
        .into_iter()
        .map(f64::from_bits)
        .collect();
    let places = &mut numbers[GUARDS..GUARDS + step.places.len()];
    // SAFETY: a slice gives an aligned pointer that is not null, readable (and, where it is mutable, writable) for its length, and no other
    // reference reaches the places. The header asks for no more.
    let given = unsafe {
        plancheck_step_vehicles(
            places.as_mut_ptr(),
            places.len(),
            step.advances.as_ptr(),
            step.advances.len(),
            step.red_lines.as_ptr(),
            step.red_lines.len(),
            step.spacing,
        )
    };
    (given, numbers.into_iter().map(f64::to_bits).collect())
}

fn report(counts: &Counts) {
    for (number, steps) in &counts.answers {
        println!("answer {number}\t{steps}");
    }
    println!("vehicles moved\t{}", counts.moved);
    println!("of them to a zero\t{}", counts.zeros);
    println!("steps\t{}", counts.steps);
    println!("differences\t{}", counts.differences);
}
