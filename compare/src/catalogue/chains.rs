//! Inputs whose chains are long, and full tables. The tables are those of `ladders.rs`, and drawn
//! ones; settings to be accepted are the planner's.

use super::builders::{accept, network, plan_roomy, planned};
use crate::inputs::{spread_calls, Input, Random};
use crate::ladders::{calls_of_pairs, ladder, largest_ladder, path, LARGEST_TIGHT};
use crate::Network;

/// Chains from short to the longest, single chains of more than a hundred calls among them, and
/// full tables.
pub fn long_chains() -> Vec<Input> {
    let mut random = Random::seeded(64);
    let shuffled = spread_calls(&mut random, LARGEST_TIGHT, Network::MOST_ROWS);
    let nearly_full = spread_calls(&mut random, network(8, 8, 16), 127);
    let mut list = vec![
        // One chain over a path: three modules to the largest number.
        plan_roomy(network(2, 2, 3), &calls_of_pairs(&path(3))),
        plan_roomy(network(2, 2, 4), &calls_of_pairs(&path(4))),
        plan_roomy(network(2, 2, 33), &calls_of_pairs(&path(33))),
        plan_roomy(network(2, 2, 64), &calls_of_pairs(&path(64))),
        // Chains that grow.
        plan_roomy(network(2, 2, 4), &calls_of_pairs(&ladder(4))),
        plan_roomy(network(2, 2, 7), &calls_of_pairs(&ladder(7))),
        plan_roomy(network(2, 2, 31), &calls_of_pairs(&ladder(31))),
        plan_roomy(network(2, 2, 64), &calls_of_pairs(&ladder(64))),
        // 1,024 rows, and one row less than full; then accepted.
        plan_roomy(LARGEST_TIGHT, &largest_ladder()),
        plan_roomy(LARGEST_TIGHT, &shuffled),
        plan_roomy(network(8, 8, 16), &nearly_full),
        accept(
            LARGEST_TIGHT,
            &largest_ladder(),
            &planned(LARGEST_TIGHT, &largest_ladder()),
        ),
    ];
    // Full tables of networks where m equals r, is the larger, and is the smaller.
    for net in [network(3, 3, 3), network(4, 4, 2), network(5, 5, 9)] {
        let full = spread_calls(&mut random, net, net.n * net.r);
        list.push(plan_roomy(net, &full));
    }
    list
}
