//! Time-distance traces: one step of vehicles along a street, in metres.

use crate::Refusal;

const MOST: usize = 64;
const FURTHEST: f64 = 1_000_000.0;

/// Refusals 39 and 38. The first vehicle leads; a refused step leaves the
/// places as they were.
pub fn step_vehicles(
    places: &mut [f64],
    advances: &[f64],
    red_lines: &[f64],
    spacing: f64,
) -> Result<(), Refusal> {
    if places.len() > MOST || red_lines.len() > MOST || advances.len() != places.len() {
        return Err(refused(39));
    }
    let mut distances = advances.iter().chain([&spacing]);
    let mut points = places.iter().chain(red_lines);
    if !distances.all(|&distance| is_distance(distance)) || !points.all(|&point| is_point(point)) {
        return Err(refused(38));
    }
    let last = places.to_vec();
    for (index, place) in places.iter_mut().enumerate() {
        let leader = index.checked_sub(1).map(|before| last[before]);
        let stops = stops_of(last[index], leader, red_lines, spacing);
        let target = cut(last[index] + advances[index], &stops);
        if target > last[index] {
            *place = target;
        }
    }
    Ok(())
}

fn is_point(value: f64) -> bool {
    value.is_finite() && value.abs() <= FURTHEST
}

/// Minus zero is not negative.
fn is_distance(value: f64) -> bool {
    is_point(value) && value >= 0.0
}

/// Where a vehicle has to stop: one spacing behind its leader's last place, and
/// at each red line at or ahead of it.
fn stops_of(place: f64, leader: Option<f64>, red_lines: &[f64], spacing: f64) -> Vec<f64> {
    let behind_leader = leader.map(|leader| leader - spacing);
    let lines = red_lines.iter().copied().filter(|&line| line >= place);
    behind_leader.into_iter().chain(lines).collect()
}

/// The target, or the nearest stop that is nearer; of equal ones the first.
fn cut(target: f64, stops: &[f64]) -> f64 {
    let nearest = |nearest: f64, &stop: &f64| if stop < nearest { stop } else { nearest };
    stops.iter().fold(target, nearest)
}

fn refused(number: u64) -> Refusal {
    Refusal {
        number,
        line: 0,
        item: 0,
    }
}

#[cfg(test)]
mod tests {
    use super::*;

    fn after(places: &[f64], advances: &[f64], red_lines: &[f64], spacing: f64) -> Vec<f64> {
        let mut places = places.to_vec();
        step_vehicles(&mut places, advances, red_lines, spacing).unwrap();
        places
    }

    fn number(places: &[f64], advances: &[f64], red_lines: &[f64], spacing: f64) -> u64 {
        let mut places = places.to_vec();
        match step_vehicles(&mut places, advances, red_lines, spacing) {
            Ok(()) => 0,
            Err(refusal) => refusal.number,
        }
    }

    #[test]
    fn obstacles() {
        assert_eq!(
            after(&[10.0, 5.0, 4.0], &[3.0, 10.0, 1.0], &[12.0, 3.0], 2.0),
            [12.0, 8.0, 4.0]
        );
        // The leader may stand behind; at a line a vehicle stays.
        assert_eq!(after(&[7.0, 9.0], &[5.0, 5.0], &[7.0], 0.0), [7.0, 9.0]);
    }

    #[test]
    fn signs_of_zeros() {
        let bits = |places: Vec<f64>| places[0].to_bits();
        let plus = 0.0_f64.to_bits();
        let minus = (-0.0_f64).to_bits();
        assert_eq!(bits(after(&[-5.0], &[6.0], &[0.0, -0.0], 0.0)), plus);
        assert_eq!(bits(after(&[-5.0], &[6.0], &[-0.0, 0.0], 0.0)), minus);
        assert_eq!(bits(after(&[-5.0], &[5.0], &[-0.0], 0.0)), plus);
        assert_eq!(bits(after(&[-0.0], &[0.0], &[], -0.0)), minus);
    }

    #[test]
    fn refusals() {
        assert_eq!(number(&[], &[], &[], 0.0), 0);
        assert_eq!(number(&[0.0; 64], &[0.0; 64], &[0.0; 64], 0.0), 0);
        assert_eq!(number(&[0.0; 65], &[0.0; 65], &[], 0.0), 39);
        assert_eq!(number(&[], &[], &[0.0; 65], 0.0), 39);
        assert_eq!(number(&[f64::NAN], &[], &[], 0.0), 39);
        assert_eq!(number(&[], &[], &[], -1.0), 38);
        assert_eq!(number(&[1e6], &[1e6], &[-1e6], -0.0), 0);
        assert_eq!(number(&[f64::NAN], &[0.0], &[], 0.0), 38);
        assert_eq!(number(&[0.0], &[f64::INFINITY], &[], 0.0), 38);
        assert_eq!(number(&[0.0], &[0.0], &[1e6_f64.next_up()], 0.0), 38);
        assert_eq!(number(&[0.0], &[-5e-324], &[], 0.0), 38);
    }
}
