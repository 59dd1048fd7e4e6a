//! Which of two plans is ahead, by all vehicles let out up to each boundary.

use crate::network::Network;
use crate::plan::{self, Judged};
use crate::{Comparison, Order, Refusal, RefusedPlan};

/// The network's refusals, then those of the first plan, then those of the
/// second, each with its own ledger.
pub fn compare(
    network_text: &[u8],
    plans: [&[u8]; 2],
    ledgers: [&mut [u32]; 2],
) -> Result<Comparison, RefusedPlan> {
    let of_plan = |plan: u64| move |refusal: Refusal| RefusedPlan { refusal, plan };
    let network = Network::read(network_text).map_err(of_plan(0))?;
    let [first_ledger, second_ledger] = ledgers;
    let first = plan::judge(&network, plans[0], first_ledger).map_err(of_plan(1))?;
    let second = plan::judge(&network, plans[1], second_ledger).map_err(of_plan(2))?;
    let time = |judged: &Judged| plan::totals(&network, judged).doubled_time as i64;
    Ok(Comparison {
        order: order(&let_out(&first), &let_out(&second)),
        gap: time(&first) - time(&second),
    })
}

/// All vehicles let out in steps 1 to n, for each boundary n from 1 on: at
/// boundary 0 there are none.
fn let_out(judged: &Judged) -> Vec<u64> {
    let mut sum = 0;
    let steps = judged.steps.iter();
    let curve = steps.map(|step| {
        sum += step.let_out.iter().sum::<u64>();
        sum
    });
    curve.collect()
}

fn order(first: &[u64], second: &[u64]) -> Order {
    let mut boundaries = first.iter().zip(second);
    let first_is_more = boundaries.any(|(first, second)| first > second);
    let mut boundaries = first.iter().zip(second);
    let second_is_more = boundaries.any(|(first, second)| second > first);
    match (first_is_more, second_is_more) {
        (true, false) => Order::Ahead,
        (false, true) => Order::Behind,
        (false, false) => Order::Equal,
        (true, true) => Order::Crossing,
    }
}
