//! The calls of the C library on slices, with all that they give.

use crate::declarations::{
    self, ComparisonResult, CountsResult, LinkResult, NetworkResult, PlanResult, TextResult,
};

// SAFETY of all: a slice gives an aligned pointer that is not null, readable (and, where it is mutable, writable) for its length, and
// no other reference reaches what a mutable one does. The header asks for no more.

pub fn check_network(network: &[u8]) -> NetworkResult {
    unsafe { declarations::plancheck_check_network(network.as_ptr(), network.len()) }
}

pub fn network_counts(network: &[u8]) -> CountsResult {
    unsafe { declarations::plancheck_network_counts(network.as_ptr(), network.len()) }
}

pub fn check_plan(network: &[u8], plan: &[u8], ledger: &mut [u32]) -> PlanResult {
    unsafe {
        declarations::plancheck_check_plan(
            network.as_ptr(),
            network.len(),
            plan.as_ptr(),
            plan.len(),
            ledger.as_mut_ptr(),
            ledger.len(),
        )
    }
}

pub fn link_state(network: &[u8], ledger: &[u32], boundary: u32, link: u32) -> LinkResult {
    unsafe {
        declarations::plancheck_link_state(
            network.as_ptr(),
            network.len(),
            ledger.as_ptr(),
            ledger.len(),
            boundary,
            link,
        )
    }
}

pub fn plan_from_listing(network: &[u8], listing: &[u8], plan: &mut [u8]) -> TextResult {
    unsafe {
        declarations::plancheck_plan_from_listing(
            network.as_ptr(),
            network.len(),
            listing.as_ptr(),
            listing.len(),
            plan.as_mut_ptr(),
            plan.len(),
        )
    }
}

pub fn check_sheet(network: &[u8], plan: &[u8], sheet: &[u8], ledger: &mut [u32]) -> PlanResult {
    unsafe {
        declarations::plancheck_check_sheet(
            network.as_ptr(),
            network.len(),
            plan.as_ptr(),
            plan.len(),
            sheet.as_ptr(),
            sheet.len(),
            ledger.as_mut_ptr(),
            ledger.len(),
        )
    }
}

pub fn plan_from_sheet(network: &[u8], sheet: &[u8], plan: &mut [u8]) -> TextResult {
    unsafe {
        declarations::plancheck_plan_from_sheet(
            network.as_ptr(),
            network.len(),
            sheet.as_ptr(),
            sheet.len(),
            plan.as_mut_ptr(),
            plan.len(),
        )
    }
}

pub fn compare_plans(
    network: &[u8],
    plans: [&[u8]; 2],
    ledgers: [&mut [u32]; 2],
) -> ComparisonResult {
    let [first_ledger, second_ledger] = ledgers;
    unsafe {
        declarations::plancheck_compare_plans(
            network.as_ptr(),
            network.len(),
            plans[0].as_ptr(),
            plans[0].len(),
            plans[1].as_ptr(),
            plans[1].len(),
            first_ledger.as_mut_ptr(),
            first_ledger.len(),
            second_ledger.as_mut_ptr(),
            second_ledger.len(),
        )
    }
}

pub fn carry_on(
    network: &[u8],
    boundary: u32,
    plan: &[u8],
    ledger: &mut [u32],
    carried: &mut [u8],
) -> TextResult {
    unsafe {
        declarations::plancheck_carry_on(
            network.as_ptr(),
            network.len(),
            boundary,
            plan.as_ptr(),
            plan.len(),
            ledger.as_mut_ptr(),
            ledger.len(),
            carried.as_mut_ptr(),
            carried.len(),
        )
    }
}
