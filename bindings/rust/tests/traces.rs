//! A step of vehicles: obstacles, signs of zeros, and what is declined.

use plancheck::{step_vehicles, Refusal};

fn refusal(number: u32) -> Refusal {
    Refusal {
        number,
        line: 0,
        item: 0,
    }
}

#[test]
fn obstacles() {
    let mut places = [10.0, 5.0, 4.0];
    assert_eq!(step_vehicles(&mut places, &[3.0, 10.0, 1.0], &[12.0, 3.0], 2.0), Ok(()));
    assert_eq!(places, [12.0, 8.0, 4.0]);
}

#[test]
fn a_sum_is_rounded_once() {
    let mut places = [0.1];
    assert_eq!(step_vehicles(&mut places, &[0.2], &[], 0.0), Ok(()));
    assert_eq!(places[0].to_bits(), 0x3fd3_3333_3333_3334);
}

#[test]
fn of_two_lines_at_zero_the_first_listed_is_met() {
    let zero_after = |lines: [f64; 2]| {
        let mut places = [-5.0];
        step_vehicles(&mut places, &[6.0], &lines, 0.0).unwrap();
        places[0].to_bits()
    };
    assert_eq!(zero_after([0.0, -0.0]), 0.0_f64.to_bits());
    assert_eq!(zero_after([-0.0, 0.0]), (-0.0_f64).to_bits());
}

#[test]
fn nothing_to_move() {
    assert_eq!(step_vehicles(&mut [], &[], &[], -0.0), Ok(()));
    assert_eq!(step_vehicles(&mut [], &[], &[], -1.0), Err(refusal(38)));
}

#[test]
fn a_refused_step_leaves_the_places_as_they_were() {
    let mut places = [1.0, f64::NAN];
    let bits = places.map(f64::to_bits);
    assert_eq!(step_vehicles(&mut places, &[1.0, 1.0], &[], 0.0), Err(refusal(38)));
    assert_eq!(places.map(f64::to_bits), bits);
    assert_eq!(step_vehicles(&mut places, &[1.0], &[], 0.0), Err(refusal(39)));
    assert_eq!(places.map(f64::to_bits), bits);
}

#[test]
fn limits() {
    assert_eq!(step_vehicles(&mut [0.0; 64], &[0.0; 64], &[0.0; 64], 1e6), Ok(()));
    assert_eq!(step_vehicles(&mut [0.0; 65], &[0.0; 65], &[], 0.0), Err(refusal(39)));
    assert_eq!(step_vehicles(&mut [], &[], &[0.0; 65], 0.0), Err(refusal(39)));
    let mut places = [1e6];
    assert_eq!(step_vehicles(&mut places, &[1e6], &[], 0.0), Ok(()));
    assert_eq!(places, [2e6]);
    assert_eq!(step_vehicles(&mut places, &[1e6], &[], 0.0), Err(refusal(38)));
}

#[test]
fn refusals_in_words() {
    assert_eq!(
        refusal(39).to_string(),
        "refusal 39: there are too many vehicles or lines, or not one advance for each vehicle"
    );
    assert_eq!(
        refusal(38).to_string(),
        "refusal 38: a place, advance, line or spacing is outside its limits"
    );
}
