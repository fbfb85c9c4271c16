//! Histories of adds and drops, by Plain and Swift.

use compare::history::{compare_history, histories, Events};
use compare::inputs::Entry;
use compare::plain::Plain;
use compare::swift::Swift;
use compare::Network;

/// Only the small ones where the code is compiled without speed.
const MOST_ENDS: usize = if cfg!(debug_assertions) { 50 } else { 1024 };

/// All histories, each with its network.
fn all_events() -> Vec<(Network, Events)> {
    histories()
        .into_iter()
        .filter(|(net, _, _)| net.n * net.r <= MOST_ENDS)
        .map(|(net, seed, changes)| {
            let events = compare_history(&Plain, &Swift, net, seed, changes);
            (
                net,
                events.expect("both answer alike, and as the history says"),
            )
        })
        .collect()
}

#[test]
fn tables_are_what_their_histories_say() {
    let all = all_events();
    for (net, events) in &all {
        println!(
            "{:?}: {} adds, {} refused, {} moved, up to {} by one, {} taken again, up to {} calls",
            net,
            events.adds,
            events.refused,
            events.moved,
            events.longest_chain,
            events.taken_again,
            events.most_calls
        );
        assert_eq!(events.adds, events.drops);
        assert!(events.adds > 100);
        assert!(events.refused > 20);
        assert!(events.taken_again > 0);
        // As many calls as all modules take, unless a few channels are left that no call can join.
        let most = net.r * net.n.min(net.m);
        assert!(events.most_calls <= most);
        if net.m >= net.n {
            assert_eq!(events.most_calls, most);
        }
        // With this many centrals a common one is always free.
        if net.m >= 2 * net.n - 1 {
            assert_eq!(events.moved, 0);
        }
    }
    let total =
        |count: fn(&Events) -> usize| all.iter().map(|(_, events)| count(events)).sum::<usize>();
    assert!(total(|events| events.moved) > 1000);
    assert!(total(|events| events.taken_again) > 500);
    for number in [2, 4, 5, 6, 8] {
        let given = all
            .iter()
            .map(|(_, events)| events.coverage.count(Entry::Add, number));
        assert!(given.sum::<usize>() > 20, "{}", number);
    }
    for number in [4, 17] {
        let given = all
            .iter()
            .map(|(_, events)| events.coverage.count(Entry::Drop, number));
        assert!(given.sum::<usize>() > 100, "{}", number);
    }
}
