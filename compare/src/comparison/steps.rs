//! Every small input that adds a call or drops one.

use super::{networks, strings, tight_and_spare, Both, Difference};
use crate::inputs::{filled, Input, Running};
use crate::ladders::Placed;
use crate::{Network, CALL_BYTES, MOVED_BYTES, SETTING_BYTES};

pub(super) fn compare_steps(both: &mut Both) -> Result<(), Difference> {
    step_from_one_row(both)?;
    for net in [tight_and_spare(2, 2, 3), tight_and_spare(3, 2, 3)].concat() {
        step_from_lawful(both, net)?;
    }
    step_from_lawful(both, Network::of_sizes(3, 3, 2))?;
    step_from_lawful(both, Network::of_sizes(4, 3, 3))?;
    try_rooms(both)?;
    try_lengths(both)
}

/// An add with two bytes beyond each room that it needs.
fn add_input(given: &Running, call: &[u8]) -> Input {
    let rows = given.count() + 1;
    Input::Add {
        net: given.net,
        calls: given.calls.clone(),
        settings: given.settings.clone(),
        call: call.to_vec(),
        calls_after: filled(CALL_BYTES * rows + 2),
        settings_after: filled(SETTING_BYTES * rows + 2),
        moved_rows: filled(MOVED_BYTES * (rows - 1) + 2),
    }
}

/// A drop with two bytes beyond each room that it needs.
fn drop_input(given: &Running, row: usize) -> Input {
    let left = given.count().saturating_sub(1);
    Input::Drop {
        net: given.net,
        calls: given.calls.clone(),
        settings: given.settings.clone(),
        row,
        calls_after: filled(CALL_BYTES * left + 2),
        settings_after: filled(SETTING_BYTES * left + 2),
    }
}

/// Every network with sizes up to 2 and a cycle around the larger of r and m: to no row every call
/// with numbers up to 2, and to one row, with numbers up to 1 in its call and its settings, every
/// call with numbers up to 1; both are dropped too.
fn step_from_one_row(both: &mut Both) -> Result<(), Difference> {
    for net in networks(2) {
        let empty = Running::on_centrals(net, Vec::new(), &[]);
        both.compare(drop_input(&empty, 0))?;
        for call in strings(CALL_BYTES, 2) {
            both.compare(add_input(&empty, &call))?;
        }
        for calls in strings(CALL_BYTES, 1) {
            for settings in strings(SETTING_BYTES, 1) {
                let given = Running {
                    net,
                    calls: calls.clone(),
                    settings,
                };
                for row in 0..2 {
                    both.compare(drop_input(&given, row))?;
                }
                for call in strings(CALL_BYTES, 1) {
                    both.compare(add_input(&given, &call))?;
                }
            }
        }
    }
    Ok(())
}

/// Every choice of lawful settings of a network, every second one with its rows the other way
/// round: a call added between any two modules, on the next channel of either, which may be
/// outside; and one row dropped, each in its turn and then one that isn't there.
fn step_from_lawful(both: &mut Both, net: Network) -> Result<(), Difference> {
    for (turn, mut placed) in placements(net.m, net.r).into_iter().enumerate() {
        if turn % 2 == 1 {
            placed.reverse();
        }
        for modules in strings(2, net.r as u8 - 1) {
            let new = (usize::from(modules[0]), usize::from(modules[1]));
            let (given, call) = Running::with_new_pair(net, &placed, new);
            both.compare(add_input(&given, &call))?;
        }
        let (given, _) = Running::with_new_pair(net, &placed, (0, 0));
        both.compare(drop_input(&given, turn % (placed.len() + 1)))?;
    }
    Ok(())
}

/// Every way to place calls on centrals with no two of them at one module on one central.
fn placements(centrals: usize, modules: usize) -> Vec<Vec<Placed>> {
    let of_one = pairings(modules, 0, &[]);
    let mut placements = vec![Vec::new()];
    for central in 0..centrals {
        placements = placements
            .iter()
            .flat_map(|placed| {
                of_one
                    .iter()
                    .map(move |pairs| with_central(placed, pairs, central))
            })
            .collect();
    }
    placements
}

fn with_central(placed: &[Placed], pairs: &[(usize, usize)], central: usize) -> Vec<Placed> {
    let more = pairs
        .iter()
        .map(|&(input, output)| (input, output, central));
    placed.iter().copied().chain(more).collect()
}

/// Every way to pair some input modules from one on with output modules of their own, after these
/// pairs.
fn pairings(modules: usize, input: usize, pairs: &[(usize, usize)]) -> Vec<Vec<(usize, usize)>> {
    if input == modules {
        return vec![pairs.to_vec()];
    }
    let mut list = pairings(modules, input + 1, pairs);
    for output in (0..modules).filter(|&output| pairs.iter().all(|pair| pair.1 != output)) {
        let longer = [pairs, &[(input, output)]].concat();
        list.extend(pairings(modules, input + 1, &longer));
    }
    list
}

/// The first three rows of case 4, and the call that moves two of them.
fn case_4() -> (Running, [u8; CALL_BYTES]) {
    let net = Network::of_sizes(2, 2, 3);
    let calls = vec![0, 0, 0, 0, 0, 1, 1, 0, 1, 0, 2, 0];
    (Running::on_centrals(net, calls, &[0, 1, 0]), [1, 1, 1, 1])
}

/// Rooms of every length up to what is needed and one beyond: for an add that moves two rows and
/// for a drop.
fn try_rooms(both: &mut Both) -> Result<(), Difference> {
    let (given, call) = case_4();
    let Running {
        net,
        calls,
        settings,
    } = &given;
    for calls_room in 0..=17 {
        for settings_room in 0..=13 {
            for moved_room in 0..=7 {
                both.compare(Input::Add {
                    net: *net,
                    calls: calls.clone(),
                    settings: settings.clone(),
                    call: call.to_vec(),
                    calls_after: filled(calls_room),
                    settings_after: filled(settings_room),
                    moved_rows: filled(moved_room),
                })?;
            }
            for row in 0..=3 {
                both.compare(Input::Drop {
                    net: *net,
                    calls: calls.clone(),
                    settings: settings.clone(),
                    row,
                    calls_after: filled(calls_room),
                    settings_after: filled(settings_room),
                })?;
            }
        }
    }
    Ok(())
}

/// Calls of up to 12 bytes, and rows that would be there if they were cut to 8, 16 or 32 bits.
fn try_lengths(both: &mut Both) -> Result<(), Difference> {
    let (given, call) = case_4();
    for length in 0..=3 * CALL_BYTES {
        let long = call.repeat(3);
        both.compare(add_input(&given, &long[..length]))?;
    }
    for low in 0..=4 {
        for high in [0, 1 << 8, 1 << 16, 1 << 32, 1 << 63, usize::MAX - 4] {
            both.compare(drop_input(&given, low + high))?;
        }
    }
    Ok(())
}
