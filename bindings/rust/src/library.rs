//! The calls of the C library, as `include/plancheck.h` declares them. `reference/differential` takes them from here.

#[repr(C)]
#[derive(Clone, Copy, Debug, PartialEq, Eq)]
pub struct NetworkResult {
    pub number: u32,
    pub line: u32,
    pub item: u32,
}

#[repr(C)]
#[derive(Clone, Copy, Debug, PartialEq, Eq)]
pub struct CountsResult {
    pub number: u32,
    pub line: u32,
    pub item: u32,
    pub links: u32,
    pub signals: u32,
    pub movements: u32,
    pub steps: u32,
    pub trams: u32,
    pub past: u32,
}

#[repr(C)]
#[derive(Clone, Copy, Debug, PartialEq, Eq)]
pub struct VersionResult {
    pub major: u32,
    pub minor: u32,
    pub patch: u32,
}

#[repr(C)]
#[derive(Clone, Copy, Debug, PartialEq, Eq)]
pub struct PlanResult {
    pub number: u32,
    pub line: u32,
    pub item: u32,
    pub admitted: u64,
    pub let_out: u64,
    pub inside: u64,
    pub doubled_time: u64,
}

#[repr(C)]
#[derive(Clone, Copy, Debug, PartialEq, Eq)]
pub struct LinkResult {
    pub number: u32,
    pub line: u32,
    pub item: u32,
    pub queued: u32,
    pub in_transit: u32,
}

#[repr(C)]
#[derive(Clone, Copy, Debug, PartialEq, Eq)]
pub struct CellsResult {
    pub number: u32,
    pub line: u32,
    pub item: u32,
    pub cells: u32,
    pub flow_in: u64,
    pub flow_out: u64,
    pub volumes: [u32; 64],
}

#[repr(C)]
#[derive(Clone, Copy, Debug, PartialEq, Eq)]
pub struct TextResult {
    pub number: u32,
    pub line: u32,
    pub item: u32,
    pub length: usize,
}

#[repr(C)]
#[derive(Clone, Copy, Debug, PartialEq, Eq)]
pub struct ComparisonResult {
    pub number: u32,
    pub line: u32,
    pub item: u32,
    pub plan: u32,
    pub order: u32,
    pub gap: i64,
}

#[repr(C)]
#[derive(Clone, Copy, Debug, PartialEq, Eq)]
pub struct SplitResult {
    pub number: u32,
    pub line: u32,
    pub item: u32,
    pub network_1: usize,
    pub plan_1: usize,
    pub network_2: usize,
    pub plan_2: usize,
}

extern "C" {
    pub fn plancheck_version() -> VersionResult;

    pub fn plancheck_check_network(network: *const u8, network_len: usize) -> NetworkResult;

    pub fn plancheck_network_counts(network: *const u8, network_len: usize) -> CountsResult;

    pub fn plancheck_check_plan(
        network: *const u8,
        network_len: usize,
        plan: *const u8,
        plan_len: usize,
        ledger: *mut u32,
        ledger_len: usize,
    ) -> PlanResult;

    pub fn plancheck_link_state(
        network: *const u8,
        network_len: usize,
        ledger: *const u32,
        ledger_len: usize,
        boundary: u32,
        link: u32,
    ) -> LinkResult;

    pub fn plancheck_plan_from_listing(
        network: *const u8,
        network_len: usize,
        listing: *const u8,
        listing_len: usize,
        plan: *mut u8,
        plan_len: usize,
    ) -> TextResult;

    pub fn plancheck_carry_on(
        network: *const u8,
        network_len: usize,
        boundary: u32,
        plan: *const u8,
        plan_len: usize,
        ledger: *mut u32,
        ledger_len: usize,
        carried: *mut u8,
        carried_len: usize,
    ) -> TextResult;

    pub fn plancheck_check_sheet(
        network: *const u8,
        network_len: usize,
        plan: *const u8,
        plan_len: usize,
        sheet: *const u8,
        sheet_len: usize,
        ledger: *mut u32,
        ledger_len: usize,
    ) -> PlanResult;

    pub fn plancheck_plan_from_sheet(
        network: *const u8,
        network_len: usize,
        sheet: *const u8,
        sheet_len: usize,
        plan: *mut u8,
        plan_len: usize,
    ) -> TextResult;

    pub fn plancheck_compare_plans(
        network: *const u8,
        network_len: usize,
        first: *const u8,
        first_len: usize,
        second: *const u8,
        second_len: usize,
        first_ledger: *mut u32,
        first_ledger_len: usize,
        second_ledger: *mut u32,
        second_ledger_len: usize,
    ) -> ComparisonResult;

    pub fn plancheck_split(
        network: *const u8,
        network_len: usize,
        plan: *const u8,
        plan_len: usize,
        first_half: u32,
        network_1: *mut u8,
        network_1_len: usize,
        plan_1: *mut u8,
        plan_1_len: usize,
        network_2: *mut u8,
        network_2_len: usize,
        plan_2: *mut u8,
        plan_2_len: usize,
    ) -> SplitResult;

    pub fn plancheck_run_cells(corridor: *const u8, corridor_len: usize) -> CellsResult;

    pub fn plancheck_step_vehicles(
        places: *mut f64,
        places_len: usize,
        advances: *const f64,
        advances_len: usize,
        red_lines: *const f64,
        red_lines_len: usize,
        spacing: f64,
    ) -> NetworkResult;
}
