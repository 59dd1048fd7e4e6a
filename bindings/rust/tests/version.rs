//! The crate, the header and the library tell one version.

use plancheck::{library_version, Version};

const HEADER: &str = include_str!("../../../include/plancheck.h");

fn header_number(name: &str) -> &str {
    let definition = format!("#define PLANCHECK_VERSION_{name} ");
    HEADER
        .lines()
        .find_map(|line| line.strip_prefix(definition.as_str()))
        .unwrap()
}

#[test]
fn header_and_crate() {
    assert_eq!(header_number("MAJOR"), env!("CARGO_PKG_VERSION_MAJOR"));
    assert_eq!(header_number("MINOR"), env!("CARGO_PKG_VERSION_MINOR"));
    assert_eq!(header_number("PATCH"), env!("CARGO_PKG_VERSION_PATCH"));
}

#[test]
fn library_and_crate() {
    let Version { major, minor, patch } = library_version();
    assert_eq!(format!("{major}.{minor}.{patch}"), env!("CARGO_PKG_VERSION"));
}
