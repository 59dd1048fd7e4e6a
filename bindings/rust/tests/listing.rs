//! Plans from listings, and what is declined.

use plancheck::{plan_from_listing, Refusal, MAX_WRITTEN_PLAN_LEN};

const NETWORK: &[u8] = include_bytes!("../../../examples/listing/network.tsv");
const LISTING: &[u8] = include_bytes!("../../../examples/listing/listing.txt");
const PLAN: &[u8] = include_bytes!("../../../examples/listing/plan.tsv");

fn refused(listing: &str) -> Refusal {
    let mut plan = vec![7; MAX_WRITTEN_PLAN_LEN];
    let refusal = plan_from_listing(NETWORK, listing.as_bytes(), &mut plan).unwrap_err();
    assert!(plan.iter().all(|&byte| byte == 7));
    refusal
}

fn refusal(number: u32, line: u32) -> Refusal {
    Refusal { number, line, item: 0 }
}

fn written(listing: &str) -> String {
    let mut plan = vec![7; MAX_WRITTEN_PLAN_LEN];
    let length = plan_from_listing(NETWORK, listing.as_bytes(), &mut plan).unwrap();
    assert!(plan[length..].iter().all(|&byte| byte == 7));
    plan.truncate(length);
    String::from_utf8(plan).unwrap()
}

#[test]
fn the_example() {
    let listing = core::str::from_utf8(LISTING).unwrap();
    assert_eq!(written(listing).as_bytes(), PLAN);
}

#[test]
fn an_empty_listing_gives_lines_of_zeros() {
    assert_eq!(written(""), "P\t0\t0\t0\t0\t0\t0\n".repeat(4));
}

#[test]
fn a_buffer_of_just_the_length_and_one_byte_short() {
    let mut plan = vec![7; PLAN.len()];
    assert_eq!(plan_from_listing(NETWORK, LISTING, &mut plan), Ok(PLAN.len()));
    assert_eq!(plan, PLAN);
    let mut short = vec![7; PLAN.len() - 1];
    assert_eq!(plan_from_listing(NETWORK, LISTING, &mut short), Err(refusal(24, 0)));
    assert!(short.iter().all(|&byte| byte == 7));
}

#[test]
fn malformed_and_unknown() {
    assert_eq!(refused("i_1_1 0.5\ni_3_1 0.5\n"), refusal(22, 2));
    assert_eq!(refused("i_4294967297_1 0.5\n"), refusal(22, 1));
    assert_eq!(refused("i_01_1 0.5\n"), refusal(22, 1));
    assert_eq!(refused("p_1_1_1 0.5\n"), refusal(22, 1));
    assert_eq!(refused("i_1_1 0\ni_1_1 0\n"), refusal(22, 2));
    assert_eq!(refused("i_1_1 0.5"), refusal(22, 1));
}

#[test]
fn volumes() {
    assert_eq!(refused("i_1_1 0.00005\nx\n"), refusal(23, 1));
    assert_eq!(refused("i_1_1 429496.7296\n"), refusal(23, 1));
    assert!(written("i_1_1 429496.7295\n").starts_with("P\t0\t4294967295\t"));
}

#[test]
fn in_words() {
    assert_eq!(
        refusal(24, 0).to_string(),
        "refusal 24: the buffer is shorter than the plan text"
    );
    assert_eq!(
        refusal(23, 3).to_string(),
        "refusal 23, listing line 3: a volume is not a whole number of thousandths of a vehicle, or is too large"
    );
}
