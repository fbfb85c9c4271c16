//! Inputs that add a call or drop one: of the documents' tables, at the limits, with chains of many
//! lengths, from settings that no planner gives, and short histories. The tables are written out
//! here, or those of `ladders.rs`, or drawn; each step of a history begins at what `plain.rs` wrote
//! in the one before.

use super::builders::{
    add, add_roomy, drop_roomy, drop_row, network, room_to_add, room_to_drop, running,
};
use super::from_documents::{CASE_3, CASE_4, EIGHT_MODULES, TABLE_ONE};
use crate::inputs::{draw_running, draw_thread, spread_calls, Input, Random, Running};
use crate::ladders::{
    largest_ladder, largest_thread, thread, thread_modules, thread_pair, LARGEST_SPARE,
    LARGEST_TIGHT, LONGEST_THREAD,
};
use crate::plain::Plain;
use crate::{Entries, Network, CALL_BYTES, MOVED_BYTES, SETTING_BYTES};

/// All of them.
pub fn steps() -> Vec<Input> {
    [
        documents(),
        worked(),
        sizes_and_cycles(),
        lengths_and_rows(),
        rooms(),
        most_rows(),
        threads(),
        drawn_threads(),
        other_makers(),
        histories(),
    ]
    .concat()
}

// Tables of the documents.

/// Each call of a table added to the planner's settings of those before it.
fn each_added(net: Network, calls: &[u8]) -> Vec<Input> {
    (0..calls.len() / CALL_BYTES)
        .map(|row| {
            let (before, rest) = calls.split_at(CALL_BYTES * row);
            add_roomy(&running(net, before), &rest[..CALL_BYTES])
        })
        .collect()
}

/// Each row of a table dropped from the planner's settings, and the row after the last.
fn each_dropped(net: Network, calls: &[u8]) -> Vec<Input> {
    let given = running(net, calls);
    (0..=given.count())
        .map(|row| drop_roomy(&given, row))
        .collect()
}

/// Cases 3 and 4, call by call, Table I of document 004 and a table with ten calls moved.
fn documents() -> Vec<Input> {
    [
        each_added(network(2, 2, 2), &CASE_3),
        each_dropped(network(2, 2, 2), &CASE_3),
        each_added(network(2, 2, 3), &CASE_4),
        each_added(network(2, 2, 3).with_cycle(5), &CASE_4),
        each_dropped(network(2, 2, 3), &CASE_4),
        each_added(network(2, 2, 8), &EIGHT_MODULES),
        each_dropped(network(2, 2, 8), &EIGHT_MODULES),
        vec![
            add_roomy(
                &running(network(4, 4, 3), &TABLE_ONE[..44]),
                &TABLE_ONE[44..],
            ),
            drop_roomy(&running(network(4, 4, 3), &TABLE_ONE), 5),
        ],
    ]
    .concat()
}

/// Answers worked out by hand, in the tests.
fn worked() -> Vec<Input> {
    let net = network(2, 2, 2);
    let two = [0, 0, 0, 0, 1, 0, 1, 0];
    let on = |centrals: &[usize]| {
        Running::on_centrals(net, two[..CALL_BYTES * centrals.len()].to_vec(), centrals)
    };
    let one_central = network(2, 1, 2);
    vec![
        // On the upper central, which no planner chooses: the lower is free.
        add_roomy(&on(&[1]), &[0, 1, 0, 1]),
        // Rows on both: the chain is row 0, whichever of a and b is lower.
        add_roomy(&on(&[0, 1]), &[1, 1, 0, 1]),
        add_roomy(&on(&[1, 0]), &[1, 1, 0, 1]),
        // The same two rows, and the other way across: the chain is row 1.
        add_roomy(&on(&[0, 1]), &[0, 1, 1, 1]),
        add_roomy(&on(&[1, 0]), &[0, 1, 1, 1]),
        // Both on the same central: no chain.
        add_roomy(&on(&[1, 1]), &[1, 1, 0, 1]),
        // One central: what is free, and 8 at either side.
        add_roomy(&running(one_central, &[0, 0, 0, 0]), &[1, 0, 1, 0]),
        add_roomy(&running(one_central, &[0, 0, 0, 0]), &[0, 1, 1, 0]),
        add_roomy(&running(one_central, &[0, 0, 0, 0]), &[1, 0, 0, 1]),
        // The only row dropped, and none to drop.
        drop_roomy(&on(&[1]), 0),
        drop_roomy(&on(&[]), 0),
    ]
}

// Limits.

/// Networks at the limits and outside them, with the larger of r and m for a cycle and with others.
fn sizes_and_cycles() -> Vec<Input> {
    let mut networks = vec![
        network(0, 1, 1),
        network(1, 0, 1),
        network(1, 1, 0),
        network(16, 32, 64),
        network(17, 32, 64),
        network(16, 33, 64),
        network(16, 32, 65),
        network((1 << 32) + 2, 2, 2),
        network(2, (1 << 32) + 2, 2).with_cycle(64),
        network(2, 2, usize::MAX),
    ];
    for cycle in [0, 2, 3, 4, 64, 65, (1 << 8) + 3, (1 << 32) + 3] {
        networks.push(network(2, 2, 3).with_cycle(cycle));
    }
    let mut list = Vec::new();
    for net in networks {
        let given = Running {
            net,
            calls: vec![0, 0, 0, 0],
            settings: vec![0, 0, 0],
        };
        list.push(add_roomy(&given, &[0, 1, 0, 1]));
        list.push(drop_roomy(&given, 0));
    }
    // Settings by one cycle, with another.
    let net = network(2, 3, 3).with_cycle(4);
    let given = Running::on_centrals(net, vec![2, 0, 2, 0], &[2]);
    for cycle in [3, 4, 5] {
        let given = Running {
            net: net.with_cycle(cycle),
            ..given.clone()
        };
        list.push(add_roomy(&given, &[2, 1, 2, 1]));
        list.push(drop_roomy(&given, 0));
    }
    list
}

/// New calls of several lengths, settings and calls that are no whole rows, and rows that are there
/// and that aren't.
fn lengths_and_rows() -> Vec<Input> {
    let given = running(network(2, 2, 3), &CASE_4[..12]);
    let mut list = Vec::new();
    for length in [0, 1, 3, 4, 5, 8] {
        let call = [&CASE_4[12..], &CASE_4[12..]].concat();
        list.push(add_roomy(&given, &call[..length]));
        let none = running(network(2, 2, 3), &[]);
        list.push(add_roomy(&none, &call[..length]));
    }
    for surplus in 1..=3 {
        let mut longer = given.clone();
        longer.calls.extend(&CASE_4[12..12 + surplus]);
        list.push(add_roomy(&longer, &CASE_4[12..]));
        list.push(drop_roomy(&longer, 0));
    }
    for length in [0, 6, 8, 10, 12] {
        let mut other = given.clone();
        other.settings.resize(length, 0);
        list.push(add_roomy(&other, &CASE_4[12..]));
        list.push(drop_roomy(&other, 0));
    }
    let rows = [
        2,
        3,
        4,
        256,
        1 << 16,
        1 << 32,
        (1 << 32) + 2,
        1 << 63,
        usize::MAX,
    ];
    for row in rows {
        list.push(drop_roomy(&given, row));
    }
    list
}

/// Each room exact, and one byte less, for an add that moves two of three rows, for one that moves
/// none, and for a drop; and no room at all.
fn rooms() -> Vec<Input> {
    let given = running(network(2, 2, 3), &CASE_4[..12]);
    let exact = room_to_add(&given);
    let mut list = Vec::new();
    for call in [&CASE_4[12..], &[2, 0, 0, 1]] {
        list.push(add(&given, call, exact));
        for room in 0..exact.len() {
            let mut short = exact;
            short[room] -= 1;
            list.push(add(&given, call, short));
            short[room] = 0;
            list.push(add(&given, call, short));
        }
        // Room for the rows that move, and not for all.
        list.push(add(&given, call, [exact[0], exact[1], 2 * MOVED_BYTES]));
    }
    let exact = room_to_drop(&given);
    list.push(drop_row(&given, 1, exact));
    for room in 0..exact.len() {
        let mut short = exact;
        short[room] -= 1;
        list.push(drop_row(&given, 1, short));
        short[room] = 0;
        list.push(drop_row(&given, 3, short));
    }
    // A table without rows has no rows to move, and one row leaves none.
    let none = running(network(2, 2, 3), &[]);
    list.push(add(&none, &CASE_4[..4], [4, 3, 0]));
    list.push(add(&none, &CASE_4[..4], [3, 3, 0]));
    list.push(drop_row(
        &running(network(2, 2, 3), &CASE_4[..4]),
        0,
        [0, 0],
    ));
    list
}

/// 1,023 calls and the last that there can be: with the longest chain, whose rows have a high byte,
/// and without one; with a byte of room too few; with an end in use; 1,024 calls and one more; and
/// of these the first dropped, the last, and the one after it.
fn most_rows() -> Vec<Input> {
    let (threaded, last) = Running::with_new_pair(
        LARGEST_SPARE,
        &largest_thread(),
        thread_pair(LONGEST_THREAD),
    );
    let calls = largest_ladder();
    let tight = running(LARGEST_TIGHT, &calls[..CALL_BYTES * 1023]);
    let full = running(LARGEST_TIGHT, &calls);
    let exact = room_to_add(&tight);
    vec![
        add(&threaded, &last, exact),
        add(&tight, &calls[CALL_BYTES * 1023..], exact),
        add(&threaded, &last, [exact[0], exact[1], exact[2] - 1]),
        add(&tight, &calls[..CALL_BYTES], exact),
        add(&full, &calls[..CALL_BYTES], [0; 3]),
        drop_row(&full, 0, room_to_drop(&full)),
        drop_row(&full, 1023, room_to_drop(&full)),
        drop_row(&full, 1024, [0; 2]),
        drop_row(&full, 1023, [0; 2]),
    ]
}

// Chains.

/// The shelf of a thread, with as many modules as it takes, and the call that needs it.
fn thread_shelf(length: usize, a: usize, b: usize, spare: usize) -> (Running, Vec<u8>) {
    let net = network(2, 2, thread_modules(length));
    let net = net.with_cycle(net.cycle() + spare);
    Running::with_new_pair(net, &thread(length, a, b), thread_pair(length))
}

/// Threads of many lengths, with a below b, and a spare wavelength, and with b below a; and the
/// longest.
fn threads() -> Vec<Input> {
    let mut list = Vec::new();
    for length in [1, 2, 3, 4, 5, 6, 7, 20, 61] {
        for (a, b) in [(0, 1), (1, 0)] {
            let (given, call) = thread_shelf(length, a, b, b);
            list.push(add_roomy(&given, &call));
        }
    }
    for length in [LONGEST_THREAD - 1, LONGEST_THREAD] {
        let (given, call) = thread_shelf(length, 1, 0, 0);
        list.push(add_roomy(&given, &call));
    }
    list
}

/// The first of these shelves that have no more calls than asked for, each with its call added.
fn small_shelves(
    shelves: impl Iterator<Item = (Running, Vec<u8>)>,
    most_calls: usize,
    count: usize,
) -> Vec<Input> {
    shelves
        .filter(|(given, _)| given.count() <= most_calls)
        .take(count)
        .map(|(given, call)| add_roomy(&given, &call))
        .collect()
}

/// Threads among other calls, on other centrals too, in drawn order.
fn drawn_threads() -> Vec<Input> {
    let mut random = Random::seeded(152);
    let shelves = std::iter::repeat_with(|| draw_thread(&mut random));
    small_shelves(shelves, 40, 30)
}

/// Shelves whose settings the planner doesn't give: a call from the first free inlet to the last free
/// outlet of each, where there are such, and a row dropped.
fn other_makers() -> Vec<Input> {
    let mut random = Random::seeded(153);
    let mut list = Vec::new();
    while list.len() < 60 {
        let given = draw_running(&mut random);
        let [inlets, outlets] = [0, 2].map(|side| given.free_ends(side));
        let is_planned = given.settings == running(given.net, &given.calls).settings;
        if let (Some(inlet), Some(outlet)) = (inlets.first(), outlets.last()) {
            if !is_planned && given.count() <= 30 {
                list.push(add_roomy(&given, &[*inlet, *outlet].concat()));
                list.push(drop_roomy(&given, given.count() / 2));
            }
        }
    }
    list
}

// Histories.

/// What an add or a drop wrote, from the shelf it was given.
fn after(given: &Running, input: &Input) -> Running {
    let mut after = given.clone();
    match input.clone() {
        Input::Add {
            call,
            mut calls_after,
            mut settings_after,
            mut moved_rows,
            ..
        } => {
            let rooms = [&mut calls_after[..], &mut settings_after, &mut moved_rows];
            let answer = Plain.add(given.net, &given.calls, &given.settings, &call, rooms);
            if answer.number == 0 {
                after.calls = calls_after[..CALL_BYTES * answer.row].to_vec();
                after.settings = settings_after[..SETTING_BYTES * answer.row].to_vec();
            }
        }
        Input::Drop {
            row,
            mut calls_after,
            mut settings_after,
            ..
        } => {
            let rooms = [&mut calls_after[..], &mut settings_after];
            let answer = Plain.drop(given.net, &given.calls, &given.settings, row, rooms);
            if answer.number == 0 {
                after.calls = calls_after[..CALL_BYTES * answer.row].to_vec();
                after.settings = settings_after[..SETTING_BYTES * answer.row].to_vec();
            }
        }
        _ => {}
    }
    after
}

/// A full table call by call, or as much of it as isn't refused; then some calls dropped and added
/// again.
fn history(net: Network, seed: u64) -> Vec<Input> {
    let mut random = Random::seeded(seed);
    let calls = spread_calls(&mut random, net, net.n * net.r);
    let mut given = running(net, &[]);
    let mut list = Vec::new();
    for call in calls.chunks_exact(CALL_BYTES) {
        let input = add_roomy(&given, call);
        given = after(&given, &input);
        list.push(input);
    }
    for _ in 0..4 {
        let row = random.below(given.count());
        let call = given.calls[CALL_BYTES * row..CALL_BYTES * (row + 1)].to_vec();
        let input = drop_roomy(&given, row);
        given = after(&given, &input);
        list.push(input);
        let input = add_roomy(&given, &call);
        given = after(&given, &input);
        list.push(input);
    }
    list
}

/// Short histories: tight, with a spare wavelength, and with fewer centrals than channels, where
/// calls are refused in between.
fn histories() -> Vec<Input> {
    [
        history(network(2, 2, 3), 1),
        history(network(2, 2, 3).with_cycle(4), 2),
        history(network(3, 3, 3), 3),
        history(network(3, 2, 2), 4),
        history(network(2, 1, 3), 5),
    ]
    .concat()
}

#[cfg(test)]
mod tests {
    use super::*;
    use crate::comparison::answer_of;

    /// The numbers of an answer, and the rooms.
    fn answer(input: &Input) -> (Vec<usize>, Vec<u8>) {
        let (answer, rooms) = answer_of(&Plain, input);
        (answer.numbers(), rooms)
    }

    /// The centrals that an add writes, and the rows that it moves.
    fn added(input: &Input) -> (Vec<u8>, Vec<u8>) {
        let (numbers, rooms) = answer(input);
        assert_eq!(numbers[0], 0);
        let settings_at = CALL_BYTES * numbers[1] + 1;
        let moved_at = settings_at + SETTING_BYTES * numbers[1] + 1;
        let centrals = rooms[settings_at..moved_at - 1]
            .chunks_exact(SETTING_BYTES)
            .map(|setting| setting[1])
            .collect();
        (
            centrals,
            rooms[moved_at..moved_at + MOVED_BYTES * numbers[2]].to_vec(),
        )
    }

    #[test]
    fn small_steps_are_as_worked_out() {
        let inputs = worked();
        let owed: [(&[u8], &[u8]); 7] = [
            (&[1, 0], &[]),
            (&[1, 1, 0], &[0, 0]),
            (&[0, 0, 1], &[0, 0]),
            (&[0, 0, 1], &[0, 1]),
            (&[1, 1, 0], &[0, 1]),
            (&[1, 1, 0], &[]),
            (&[0, 0], &[]),
        ];
        for (input, (centrals, moved)) in inputs.iter().zip(owed) {
            assert_eq!(added(input), (centrals.to_vec(), moved.to_vec()));
        }
        let numbers: Vec<Vec<usize>> = inputs[7..].iter().map(|input| answer(input).0).collect();
        assert_eq!(numbers[..2], [[8, 1, 0], [8, 1, 0]]);
        assert_eq!(numbers[2..], [[0, 0], [17, 0]]);
    }

    #[test]
    fn calls_of_the_documents_are_added_as_they_are_planned() {
        let moved: Vec<usize> = each_added(network(2, 2, 3), &CASE_4)
            .iter()
            .map(|input| answer(input).0[2])
            .collect();
        assert_eq!(moved, [0, 0, 0, 2]);
        let moved = each_added(network(2, 2, 8), &EIGHT_MODULES);
        assert_eq!(
            moved.iter().map(|input| answer(input).0[2]).sum::<usize>(),
            10
        );
    }

    #[test]
    fn most_rows_are_reached_and_not_passed() {
        let numbers: Vec<Vec<usize>> = most_rows().iter().map(|input| answer(input).0).collect();
        assert_eq!(numbers[0], [0, 1024, 125]);
        assert_eq!(numbers[1], [0, 1024, 0]);
        assert_eq!(numbers[2..5], [[4, 0, 0], [6, 1023, 0], [3, 0, 0]]);
        assert_eq!(numbers[5..], [[0, 1023], [0, 1023], [17, 0], [4, 0]]);
    }

    #[test]
    fn threads_move_as_many_as_they_are_long() {
        let moved: Vec<usize> = threads().iter().map(|input| answer(input).0[2]).collect();
        let lengths = [1, 2, 3, 4, 5, 6, 7, 20, 61]
            .map(|length| [length; 2])
            .concat();
        assert_eq!(moved, [&lengths[..], &[124, 125]].concat());
        assert!(drawn_threads().iter().all(|input| answer(input).0[2] > 0));
    }
}
