//! A ledger read by boundary and link.

use plancheck::{check_plan, required_ledger_len, Rows, Volumes};

const NETWORK: &[u8] = include_bytes!("../../../examples/corridor/network.tsv");
const PLAN: &[u8] = include_bytes!("../../../examples/corridor/plan.tsv");

#[test]
fn rows_of_the_corridor() {
    let mut ledger = [0; required_ledger_len(2, 4)];
    check_plan(NETWORK, PLAN, &mut ledger).unwrap();
    let rows = Rows::new(&ledger, 2, 4);
    let volumes = |entered, left| Volumes { entered, left };
    assert_eq!(rows.at(2, 1), Some(volumes(5000, 3000)));
    assert_eq!(rows.at(2, 1).unwrap().held(), 2000);
    assert!(rows.of_boundary(3).eq([volumes(5000, 5000), volumes(5000, 3000)]));
    assert!(rows.of_link(2).map(|at| at.left).eq([0, 0, 0, 3000, 5000]));
}

#[test]
fn boundaries_and_links_that_do_not_exist() {
    let ledger = [1; required_ledger_len(2, 4)];
    let rows = Rows::new(&ledger, 2, 4);
    for (boundary, link) in [(5, 1), (0, 0), (0, 3), (usize::MAX, 1), (0, usize::MAX)] {
        assert_eq!(rows.at(boundary, link), None);
    }
    assert_eq!(rows.of_boundary(5).count(), 0);
    assert_eq!(rows.of_link(3).count(), 0);
}

#[test]
fn a_ledger_that_is_too_short_has_the_rows_that_are_there() {
    let ledger = [1; 7];
    let rows = Rows::new(&ledger, 2, 4);
    assert_eq!(rows.of_link(1).count(), 2);
    assert_eq!(rows.of_link(2).count(), 1);
    assert_eq!(
        Rows::new(&ledger, usize::MAX, usize::MAX).at(usize::MAX, usize::MAX),
        None
    );
}

#[test]
fn a_ledger_of_something_else_holds_nothing_below_0() {
    assert_eq!(Rows::new(&[3, 5], 1, 0).at(0, 1).unwrap().held(), 0);
}

#[test]
fn rows_of_counts() {
    let counts = plancheck::network_counts(NETWORK).unwrap();
    let mut ledger = vec![0; counts.required_ledger_len()];
    check_plan(NETWORK, PLAN, &mut ledger).unwrap();
    let rows = Rows::of(&ledger, &counts);
    for boundary in 0..=counts.steps {
        assert!(rows
            .of_boundary(boundary)
            .eq(Rows::new(&ledger, 2, 4).of_boundary(boundary)));
    }
    assert_eq!(
        rows.at(4, 2),
        Some(Volumes {
            entered: 5000,
            left: 5000
        })
    );
    assert_eq!((rows.at(5, 1), rows.at(0, 3)), (None, None));
}
