//! Comparisons of plans, and what is declined.

use plancheck::{
    check_plan, compare_plans, required_ledger_len, Comparison, ComparisonRefusal, Order, Refusal, Refused,
};

const NETWORK: &[u8] = include_bytes!("../../../examples/corridor/network.tsv");
const PLAN: &[u8] = include_bytes!("../../../examples/corridor/plan.tsv");
const LEDGER_LEN: usize = required_ledger_len(2, 4);

/// A plan of the corridor by what it admits in step 1, moves in steps 2 and 3, and lets out in steps 3 and 4.
fn plan(admitted: u32, moved: [u32; 2], let_out: [u32; 2]) -> String {
    format!(
        "P\t1\t{admitted}\t0\t0\t0\t0\nP\t1\t0\t0\t0\t0\t{}\nP\t1\t0\t0\t0\t{}\t{}\nP\t2\t0\t0\t0\t{}\t0\n",
        moved[0], let_out[0], moved[1], let_out[1]
    )
}

fn compared(first: &[u8], second: &[u8]) -> Comparison {
    let (mut one, mut other) = ([7; LEDGER_LEN], [7; LEDGER_LEN]);
    let comparison = compare_plans(NETWORK, first, second, &mut one, &mut other).unwrap();
    for (text, ledger) in [(first, one), (second, other)] {
        let mut checked = [7; LEDGER_LEN];
        check_plan(NETWORK, text, &mut checked).unwrap();
        assert_eq!(ledger, checked);
    }
    comparison
}

/// The order and the gap, whichever of the two plans comes first.
fn holds(first: &str, second: &str, order: Order, gap: i64) {
    let swapped = match order {
        Order::Ahead => Order::Behind,
        Order::Behind => Order::Ahead,
        other => other,
    };
    assert_eq!(compared(first.as_bytes(), second.as_bytes()), Comparison { order, gap });
    assert_eq!(
        compared(second.as_bytes(), first.as_bytes()),
        Comparison {
            order: swapped,
            gap: -gap
        }
    );
}

#[test]
fn the_orders() {
    let corridor = core::str::from_utf8(PLAN).unwrap();
    let at_last = plan(5000, [3000, 2000], [0, 5000]);
    let idle = plan(0, [0, 0], [0, 0]);
    holds(corridor, &plan(5000, [5000, 0], [3000, 2000]), Order::Equal, 0);
    holds(&idle, &plan(5000, [0, 0], [0, 0]), Order::Equal, 0);
    holds(corridor, &idle, Order::Ahead, -110_000);
    holds(corridor, &at_last, Order::Ahead, -60_000);
    holds(&plan(5000, [3000, 0], [3000, 0]), &at_last, Order::Crossing, -40_000);
    holds(
        &plan(5000, [3000, 2000], [1000, 0]),
        &plan(5000, [3000, 2000], [0, 3000]),
        Order::Crossing,
        0,
    );
}

#[test]
fn an_empty_plan_lets_nothing_out() {
    let network = b"N\t1\t0\t0\t2\t0\t0\nQ\t60000\t10\t500\t0\t0\t5000\t0\nS\t10\t0\nS\t10\t0\n";
    let (mut one, mut other) = ([7; 6], [7; 6]);
    assert_eq!(
        compare_plans(network, b"P\t0\t3000\nP\t0\t0\n", b"", &mut one, &mut other),
        Ok(Comparison {
            order: Order::Ahead,
            gap: -90_000
        })
    );
    assert_eq!(other, [5000, 0, 5000, 0, 5000, 0]);
}

fn refusal(of: Refused, number: u32, line: u32, item: u32) -> ComparisonRefusal {
    ComparisonRefusal {
        of,
        refusal: Refusal { number, line, item },
    }
}

#[test]
fn the_first_plan_is_judged_whole_before_the_second() {
    let mut one = [7; LEDGER_LEN];
    let mut short = [7; LEDGER_LEN - 1];
    let late = core::str::from_utf8(PLAN).unwrap().replace("P\t2", "P\t1");
    assert_eq!(
        compare_plans(NETWORK, late.as_bytes(), b"x", &mut one, &mut short),
        Err(refusal(Refused::First, 13, 4, 1))
    );
    assert_eq!(short, [7; LEDGER_LEN - 1]);
    assert_eq!(
        compare_plans(NETWORK, PLAN, b"x", &mut one, &mut short),
        Err(refusal(Refused::Second, 8, 0, 0))
    );
    assert_eq!(short, [7; LEDGER_LEN - 1]);
    assert_eq!(
        compare_plans(NETWORK, PLAN, PLAN, &mut short, &mut one),
        Err(refusal(Refused::First, 8, 0, 0))
    );
}

#[test]
fn the_network_comes_first() {
    let told = compare_plans(b"N\t0\t0\t0\t1\t0\t0\n", b"x", b"x", &mut [], &mut []);
    assert_eq!(told, Err(refusal(Refused::Network, 2, 1, 0)));
}

#[test]
fn a_refused_second_plan_leaves_the_rows_that_passed() {
    let (mut one, mut other) = ([7; LEDGER_LEN], [7; LEDGER_LEN]);
    let told = compare_plans(NETWORK, PLAN, b"P\t3\t0\t0\t0\t0\t0\n", &mut one, &mut other);
    assert_eq!(told, Err(refusal(Refused::Second, 10, 1, 1)));
    assert_eq!(one[16..], [5000, 5000, 5000, 5000]);
    assert_eq!(other[..4], [0; 4]);
    assert_eq!(other[4..], [7; LEDGER_LEN - 4]);
}

#[test]
fn a_refusal_in_words() {
    assert_eq!(
        refusal(Refused::Second, 17, 1, 2).to_string(),
        "second plan: refusal 17, plan line 1, link 2: more has left than has arrived"
    );
}
