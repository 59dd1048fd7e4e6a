//! The limits of the crate are those of the header.

const HEADER: &str = include_str!("../../../include/plancheck.h");

fn header_number(name: &str) -> usize {
    let definition = format!("#define PLANCHECK_{name} ");
    let value = HEADER.lines().find_map(|line| line.strip_prefix(definition.as_str()));
    value.unwrap_or_else(|| panic!("{name}")).parse().unwrap()
}

#[test]
fn limits_are_those_of_the_header() {
    for (name, limit) in [
        ("MAX_LINKS", plancheck::MAX_LINKS),
        ("MAX_SIGNALS", plancheck::MAX_SIGNALS),
        ("MAX_MOVEMENTS", plancheck::MAX_MOVEMENTS),
        ("MAX_STEPS", plancheck::MAX_STEPS),
        ("MAX_TRAMS", plancheck::MAX_TRAMS),
        ("MAX_PAST_STEPS", plancheck::MAX_PAST_STEPS),
        ("MAX_CELLS", plancheck::MAX_CELLS),
        ("MAX_DEMANDS", plancheck::MAX_DEMANDS),
        ("MAX_VEHICLES", plancheck::MAX_VEHICLES),
        ("MAX_RED_LINES", plancheck::MAX_RED_LINES),
        ("NETWORK_TEXT_MAX", plancheck::MAX_NETWORK_TEXT_LEN),
        ("PLAN_TEXT_MAX", plancheck::MAX_PLAN_TEXT_LEN),
        ("WRITTEN_PLAN_MAX", plancheck::MAX_WRITTEN_PLAN_LEN),
    ] {
        assert_eq!(limit, header_number(name), "{name}");
    }
}
