//! The names of the refusals: those of the header, with the items of the table in `docs/REFUSALS.md`.

use plancheck::{Reason, Refusal, Text};
use std::collections::BTreeMap;

const HEADER: &str = include_str!("../../../include/plancheck.h");
const TABLE: &str = include_str!("../../../docs/REFUSALS.md");

/// The names and numbers of the header's enum, without the one that stands for no refusal.
fn header_names() -> BTreeMap<u32, String> {
    let (_, numbers) = HEADER.split_once("enum plancheck_number {").unwrap();
    let (numbers, _) = numbers.split_once("};").unwrap();
    let names = numbers.lines().filter_map(|line| {
        let (name, number) = line.trim().strip_prefix("PLANCHECK_")?.split_once(" = ")?;
        Some((number.trim_end_matches(',').parse().unwrap(), name.to_string()))
    });
    names.filter(|&(number, _)| number != 0).collect()
}

/// `EarlyDeparture` as `EARLY_DEPARTURE`.
fn in_capitals(name: &str) -> String {
    let mut capitals = String::new();
    for letter in name.chars() {
        if letter.is_uppercase() && !capitals.is_empty() {
            capitals.push('_');
        }
        capitals.push(letter.to_ascii_uppercase());
    }
    capitals
}

#[test]
fn names_and_numbers_are_those_of_the_header() {
    let names = Reason::ALL
        .iter()
        .map(|reason| (reason.number(), in_capitals(&format!("{reason:?}"))));
    assert_eq!(names.collect::<BTreeMap<_, _>>(), header_names());
}

#[test]
fn items_are_those_of_the_table() {
    let rows = TABLE.split("## What to do").next().unwrap().lines().filter_map(|line| {
        let mut cells = line.strip_prefix("| ")?.split(" | ");
        Some((cells.next()?.parse::<u32>().ok()?, cells.next()?))
    });
    let table: BTreeMap<u32, &str> = rows.collect();
    for reason in Reason::ALL {
        let kind = reason.item_kind().map_or("0".to_string(), |kind| kind.to_string());
        assert_eq!(table.get(&reason.number()), Some(&kind.as_str()), "{reason:?}");
    }
    assert_eq!(table.len(), Reason::ALL.len());
}

#[test]
fn a_number_and_its_name() {
    for &reason in Reason::ALL {
        assert_eq!(Reason::from_number(reason.number()), Some(reason));
    }
    assert_eq!(Reason::from_number(0), None);
    assert_eq!(Reason::from_number(7), None);
    assert_eq!(Reason::from_number(u32::MAX), None);
    assert_eq!(Reason::SignalMask.text(), Some(Text::Plan));
}

#[test]
fn a_number_of_a_later_library() {
    let refusal = Refusal {
        number: 1000,
        line: 3,
        item: 4,
    };
    assert_eq!(
        (refusal.reason(), refusal.text(), refusal.item_kind()),
        (None, None, None)
    );
    assert_eq!(
        refusal.to_string(),
        "refusal 1000, line 3, item 4: the number is unknown"
    );
}
