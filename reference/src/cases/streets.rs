//! Steps of vehicles along a street: such as are known by hand, every limit, and
//! random ones; refusals 38 and 39. `street_file` says how they are kept.

use super::{refused, Random};
use crate::traces::step_vehicles;
use crate::Refusal;

/// Values at which something changes.
const SPECIAL: [f64; 18] = [
    0.0,
    -0.0,
    1e6,
    -1e6,
    1_000_000.000_000_000_1,
    -1_000_000.000_000_000_1,
    1e300,
    f64::MAX,
    f64::INFINITY,
    f64::NEG_INFINITY,
    f64::NAN,
    f64::MIN_POSITIVE,
    5e-324,
    -5e-324,
    0.1,
    0.2,
    0.3,
    1e-17,
];

/// What a step takes.
#[derive(Clone, Debug)]
pub struct Street {
    pub places: Vec<f64>,
    pub advances: Vec<f64>,
    pub red_lines: Vec<f64>,
    pub spacing: f64,
}

impl Street {
    pub fn new(places: &[f64], advances: &[f64], red_lines: &[f64], spacing: f64) -> Street {
        Street {
            places: places.to_vec(),
            advances: advances.to_vec(),
            red_lines: red_lines.to_vec(),
            spacing,
        }
    }

    /// So many vehicles and lines, all at 0.
    fn of_zeros(vehicles: usize, advances: usize, lines: usize) -> Street {
        Street::new(
            &vec![0.0; vehicles],
            &vec![0.0; advances],
            &vec![0.0; lines],
            0.0,
        )
    }
}

/// A street, with what this implementation makes of it.
pub struct StreetCase {
    /// What the case is about; not stored.
    pub name: String,
    pub street: Street,
    /// What the making of the case leads to, where it is known without a step: the
    /// answer and the places after it; not stored.
    intended: Option<(Result<(), Refusal>, Vec<f64>)>,
    pub answer: Result<(), Refusal>,
    /// The places after the step.
    pub after: Vec<f64>,
}

impl StreetCase {
    pub fn new(name: &str, street: &Street) -> StreetCase {
        let mut after = street.places.clone();
        let (advances, red_lines) = (&street.advances, &street.red_lines);
        StreetCase {
            name: name.to_string(),
            street: street.clone(),
            intended: None,
            answer: step_vehicles(&mut after, advances, red_lines, street.spacing),
            after,
        }
    }

    /// By the bits of every place, so that the signs of zeros count.
    pub fn is_as_intended(&self) -> bool {
        let bits =
            |places: &[f64]| -> Vec<u64> { places.iter().map(|place| place.to_bits()).collect() };
        let is_given = |(answer, after): &(Result<(), Refusal>, Vec<f64>)| {
            *answer == self.answer && bits(after) == bits(&self.after)
        };
        self.intended.as_ref().is_none_or(is_given)
    }
}

/// Collects streets.
struct Maker {
    random: Random,
    cases: Vec<StreetCase>,
}

impl Maker {
    fn ask(&mut self, name: &str, street: &Street, answer: Result<(), Refusal>, after: &[f64]) {
        let case = StreetCase::new(name, street);
        self.cases.push(StreetCase {
            intended: Some((answer, after.to_vec())),
            ..case
        });
    }

    fn ask_step(&mut self, name: &str, street: &Street, after: &[f64]) {
        self.ask(name, street, Ok(()), after);
    }

    fn ask_bad_step(&mut self, name: &str, street: &Street, number: u64) {
        self.ask(name, street, Err(refused(number, 0, 0)), &street.places);
    }
}

/// The stored set of streets.
pub fn stored_streets(seed: u64) -> Vec<StreetCase> {
    let mut maker = Maker {
        random: Random::new(seed),
        cases: Vec::new(),
    };
    steps(&mut maker);
    zeros(&mut maker);
    counts(&mut maker);
    values(&mut maker);
    for _ in 0..150 {
        let street = draw_street(&mut maker.random);
        let case = StreetCase::new("any step of vehicles", &street);
        maker.cases.push(case);
    }
    maker.cases
}

fn steps(maker: &mut Maker) {
    let above = 1e6_f64 + 1e6;
    for (street, after) in [
        (
            Street::new(&[10.0, 5.0, 4.0], &[3.0, 10.0, 1.0], &[12.0, 3.0], 2.0),
            vec![12.0, 8.0, 4.0],
        ),
        // The leader stands behind; at a line a vehicle stays.
        (
            Street::new(&[7.0, 9.0], &[5.0, 5.0], &[7.0], 0.0),
            vec![7.0, 9.0],
        ),
        // The leader's place before the step counts.
        (
            Street::new(&[10.0, 9.0], &[5.0, 5.0], &[], 1.0),
            vec![15.0, 9.0],
        ),
        (
            Street::new(&[10.0, 8.0, 6.0], &[9.0; 3], &[], 1.0),
            vec![19.0, 9.0, 7.0],
        ),
        // The nearest line, in whatever order; lines behind have no say.
        (
            Street::new(&[0.0], &[9.0], &[8.0, 3.0, 5.0, -1.0], 0.0),
            vec![3.0],
        ),
        (Street::new(&[0.0], &[9.0], &[9.0], 0.0), vec![9.0]),
        // Each operation is rounded once.
        (Street::new(&[0.1], &[0.2], &[], 0.0), vec![0.1 + 0.2]),
        (
            Street::new(&[0.3, 0.0], &[0.0, 1.0], &[], 0.1),
            vec![0.3, 0.3 - 0.1],
        ),
        // Results are not limited.
        (Street::new(&[1e6], &[1e6], &[], 0.0), vec![above]),
        (Street::new(&[1e6], &[0.0], &[], 0.0), vec![1e6]),
        (Street::new(&[], &[], &[], 0.0), vec![]),
    ] {
        maker.ask_step("step worked out by hand", &street, &after);
    }
}

/// Only the sign of a zero can depend on the order of equal obstacles.
fn zeros(maker: &mut Maker) {
    for (advance, lines, after) in [
        (6.0, vec![0.0, -0.0], 0.0),
        (6.0, vec![-0.0, 0.0], -0.0),
        (5.0, vec![-0.0], 0.0),
    ] {
        let street = Street::new(&[-5.0], &[advance], &lines, 0.0);
        maker.ask_step("signs of zeros", &street, &[after]);
    }
    let street = Street::new(&[-0.0], &[0.0], &[], -0.0);
    maker.ask_step("signs of zeros", &street, &[-0.0]);
    let street = Street::new(&[-0.0, -5.0], &[0.0, 6.0], &[0.0], 0.0);
    maker.ask_step("signs of zeros", &street, &[-0.0, -0.0]);
}

fn counts(maker: &mut Maker) {
    for (vehicles, advances, lines, number) in [
        (64, 64, 64, None),
        (0, 0, 64, None),
        (65, 65, 0, Some(39)),
        (0, 0, 65, Some(39)),
        (1, 0, 0, Some(39)),
        (0, 1, 0, Some(39)),
        (3, 4, 1, Some(39)),
        (65, 64, 0, Some(39)),
    ] {
        let street = Street::of_zeros(vehicles, advances, lines);
        match number {
            None => maker.ask_step("greatest counts", &street, &vec![0.0; vehicles]),
            Some(number) => maker.ask_bad_step("39: counts", &street, number),
        }
    }
    // Before any value is looked at.
    let street = Street::new(&[f64::NAN], &[], &[f64::INFINITY], -1.0);
    maker.ask_bad_step("39: before 38", &street, 39);
}

/// Every value at its limits and past them; a refused step keeps the places.
fn values(maker: &mut Maker) {
    let good = Street::new(&[4.0, 1.0], &[1.0, 1.0], &[9.0], 1.0);
    let further = 1e6_f64.next_up();
    let bad = [
        further,
        -further,
        f64::INFINITY,
        f64::NEG_INFINITY,
        f64::NAN,
        f64::MAX,
    ];
    let negative = [-5e-324, -1.0, -1e6];
    let change = |maker: &mut Maker, value: f64, is_distance: bool| {
        for kind in 0..4 {
            let mut street = good.clone();
            match kind {
                0 => street.places[1] = value,
                1 => street.red_lines[0] = value,
                2 => street.advances[1] = value,
                _ => street.spacing = value,
            }
            if kind >= 2 || !is_distance {
                maker.ask_bad_step("38: value", &street, 38);
            }
        }
    };
    for value in bad {
        change(maker, value, false);
    }
    for value in negative {
        change(maker, value, true);
    }
    let street = Street::new(&[1e6, -1e6], &[-0.0, 1e6], &[-1e6, 1e6], -0.0);
    maker.ask_step("values at their limits", &street, &[1e6, -1e6]);
    let street = Street::new(&[1e6, -1e6], &[-0.0, 1e6], &[1e6], 1e6);
    maker.ask_step("values at their limits", &street, &[1e6, 0.0]);
    maker.ask_bad_step(
        "38: spacing without vehicles",
        &Street::new(&[], &[], &[], -1.0),
        38,
    );
    // The first vehicle could move; nothing does.
    let street = Street::new(&[4.0, f64::NAN], &[1.0, 1.0], &[], 1.0);
    maker.ask_bad_step("38: places stay", &street, 38);
}

/// Mostly a few vehicles and lines with good values; now and then a count or a
/// value that is near a limit or past it.
pub fn draw_street(random: &mut Random) -> Street {
    let vehicles = draw_count(random, 9);
    let lines = draw_count(random, 6);
    let bad = random.pick(&[0, 0, 0, 1, 8, 40]);
    let mut places: Vec<f64> = (0..vehicles).map(|_| draw_value(random, bad)).collect();
    if random.chance(50) {
        places.sort_by(|a, b| b.total_cmp(a));
    }
    let advances = if random.chance(97) {
        vehicles
    } else {
        random.index(vehicles + 2)
    };
    let mut red_lines: Vec<f64> = (0..lines).map(|_| draw_value(random, bad)).collect();
    if !places.is_empty() && !red_lines.is_empty() && random.chance(40) {
        let line = random.index(red_lines.len());
        red_lines[line] = random.pick(&places);
    }
    Street {
        advances: (0..advances).map(|_| draw_distance(random, bad)).collect(),
        spacing: draw_distance(random, bad),
        places,
        red_lines,
    }
}

fn draw_count(random: &mut Random, most: usize) -> usize {
    if random.chance(90) {
        random.index(most + 1)
    } else {
        random.pick(&[0, 1, 63, 64, 65, 66])
    }
}

/// On a small grid, so that ties and zeros are met; or anywhere on a street, near
/// or far.
fn draw_value(random: &mut Random, bad: u64) -> f64 {
    if random.chance(bad) {
        return random.pick(&SPECIAL);
    }
    let fraction = random.draw() as f64 / u64::MAX as f64;
    let sign = random.pick(&[1.0, -1.0]);
    sign * match random.index(4) {
        0 => random.index(6) as f64,
        1 => random.index(40) as f64 / 10.0,
        2 => 30.0 * fraction,
        _ => 1e6 * fraction,
    }
}

/// A value that is not negative, but for a bad one now and then.
fn draw_distance(random: &mut Random, bad: u64) -> f64 {
    let value = draw_value(random, bad);
    if random.chance(bad) {
        value
    } else {
        value.abs()
    }
}
