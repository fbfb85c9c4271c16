//! Independent checks of a call added and a call dropped, by the plain implementation: against its
//! planner, against the light, and against the choice rule read off the table before.

use compare::inputs::{drawn_of_tables, drawn_steps, setting_of, Input, Running};
use compare::ladders::{
    largest_thread, thread, thread_modules, thread_pair, LARGEST_SPARE, LONGEST_THREAD,
};
use compare::light::lawful;
use compare::plain::Plain;
use compare::swift::Swift;
use compare::{Entries, Network, Planned};

/// Fewer inputs where the code is compiled without speed.
const DRAWN: usize = if cfg!(debug_assertions) {
    3_000
} else {
    60_000
};

/// An add with room for all: the answer, the settings, and the rows moved.
fn add(
    entries: &dyn Entries,
    net: Network,
    given: [&[u8]; 2],
    call: &[u8],
) -> (Planned, Vec<u8>, Vec<usize>) {
    let rows = given[0].len() / 4 + 1;
    let mut rooms = [4, 3, 2].map(|bytes| vec![0; bytes * rows]);
    let [calls_after, settings_after, moved_rows] = &mut rooms;
    let lent = [&mut calls_after[..], settings_after, moved_rows];
    let answer = entries.add(net, given[0], given[1], call, lent);
    let [_, settings, moved] = rooms;
    let moved_rows = moved[..2 * answer.moved]
        .chunks_exact(2)
        .map(|two| 256 * usize::from(two[0]) + usize::from(two[1]))
        .collect();
    (answer, settings, moved_rows)
}

/// Calls added one after the other to an empty table get the planner's settings, and as many are
/// moved.
#[test]
fn adds_from_an_empty_table_are_the_planner() {
    let mut moved = 0;
    for input in drawn_of_tables(31).take(DRAWN / 2) {
        if let Input::Plan { net, calls, .. } = input {
            let mut planned = vec![0; 3 * (calls.len() / 4)];
            let owed = Plain.plan(net, &calls, &mut planned);
            if owed.number != 0 || calls.len() > 4 * 60 {
                continue;
            }
            let mut settings = Vec::new();
            let mut moved_here = 0;
            for row in 0..calls.len() / 4 {
                let (before, call) = calls[..4 * row + 4].split_at(4 * row);
                let (answer, after, _) = add(&Plain, net, [before, &settings], call);
                assert_eq!((answer.number, answer.row), (0, row + 1));
                moved_here += answer.moved;
                settings = after;
            }
            assert_eq!((settings, moved_here), (planned, owed.moved));
            moved += moved_here;
        }
    }
    assert!(moved > DRAWN / 50);
}

// One step, read off the table before.

/// The centrals in use at a module of one side.
fn used(side: usize, module: u8, calls: &[u8], settings: &[u8]) -> Vec<usize> {
    calls
        .chunks_exact(4)
        .zip(settings.chunks_exact(3))
        .filter(|(call, _)| call[side] == module)
        .map(|(_, setting)| usize::from(setting[1]))
        .collect()
}

fn lowest_outside(net: Network, used: &[usize]) -> Option<usize> {
    (0..net.m).find(|central| !used.contains(central))
}

/// Rows that did not move keep their settings; rows that moved change between a and b, one after
/// the other, and each shares a module with the next, input and output in turn, from the new call's
/// output module on. The new call is on the lowest common free central, or on a.
fn assert_step(net: Network, given: [&[u8]; 2], call: &[u8]) -> usize {
    let [calls, settings] = given;
    let (answer, after, moved) = add(&Plain, net, given, call);
    let count = calls.len() / 4;
    assert_eq!((answer.number, answer.row), (0, count + 1));
    for row in (0..count).filter(|row| !moved.contains(row)) {
        assert_eq!(after[3 * row..3 * row + 3], settings[3 * row..3 * row + 3]);
    }
    let at_input = used(0, call[0], calls, settings);
    let at_output = used(2, call[2], calls, settings);
    let central = usize::from(after[3 * count + 1]);
    if let Some(common) = lowest_outside(net, &[at_input.clone(), at_output.clone()].concat()) {
        assert_eq!((central, moved.len()), (common, 0));
        return 0;
    }
    let a = lowest_outside(net, &at_input).expect("one is free");
    let b = lowest_outside(net, &at_output).expect("one is free");
    assert_eq!(central, a);
    let mut module = call[2];
    for (place, &row) in moved.iter().enumerate() {
        let (side, from, to) = if place % 2 == 0 { (2, a, b) } else { (0, b, a) };
        assert_eq!(calls[4 * row + side], module);
        assert_eq!(usize::from(settings[3 * row + 1]), from);
        assert_eq!(usize::from(after[3 * row + 1]), to);
        module = calls[4 * row + 2 - side];
    }
    // None continues the chain.
    let (side, next) = if moved.len() % 2 == 0 { (2, a) } else { (0, b) };
    assert!(!used(side, module, calls, settings).contains(&next));
    moved.len()
}

/// How often adds were seen: without a chain, with one of 1, 2, up to 10, up to 100 and more calls.
fn kind_of(moved: usize) -> usize {
    match moved {
        0 => 0,
        1 => 1,
        2 => 2,
        3..=10 => 3,
        11..=100 => 4,
        _ => 5,
    }
}

#[test]
fn drawn_adds_are_single_steps_and_lawful() {
    let mut kinds = [0; 6];
    let mut not_the_planners = 0;
    let mut with_spare_ports = 0;
    for input in drawn_steps(32).take(DRAWN / 2) {
        if let Input::Add {
            net,
            calls,
            settings,
            call,
            ..
        } = input
        {
            let (answer, after, _) = add(&Plain, net, [&calls, &settings], &call);
            if answer.number != 0 {
                continue;
            }
            kinds[kind_of(assert_step(net, [&calls, &settings], &call))] += 1;
            let calls_after = [calls.clone(), call].concat();
            assert!(calls.len() > 4 * 200 || lawful(net, &calls_after, &after));
            let mut planned = vec![0; settings.len()];
            Plain.plan(net, &calls, &mut planned);
            not_the_planners += usize::from(planned != settings);
            with_spare_ports += usize::from(net.cycle() > net.least_cycle());
        }
    }
    println!("{:?}, {} {}", kinds, not_the_planners, with_spare_ports);
    assert!(
        kinds.iter().all(|&count| count > DRAWN / 300),
        "{:?}",
        kinds
    );
    assert!(not_the_planners > DRAWN / 10, "{}", not_the_planners);
    assert!(with_spare_ports > DRAWN / 20, "{}", with_spare_ports);
}

#[test]
fn drawn_drops_leave_lawful_settings() {
    let mut dropped = 0;
    for input in drawn_steps(33).take(DRAWN / 2) {
        if let Input::Drop {
            net,
            calls,
            settings,
            row,
            mut calls_after,
            mut settings_after,
        } = input
        {
            let rooms = [&mut calls_after[..], &mut settings_after];
            let answer = Plain.drop(net, &calls, &settings, row, rooms);
            if answer.number == 0 && answer.row < 200 {
                let left = answer.row;
                assert_eq!(calls_after[..4 * row], calls[..4 * row]);
                assert_eq!(calls_after[4 * row..4 * left], calls[4 * row + 4..]);
                assert_eq!(settings_after[..3 * row], settings[..3 * row]);
                assert_eq!(settings_after[3 * row..3 * left], settings[3 * row + 3..]);
                assert!(lawful(
                    net,
                    &calls_after[..4 * left],
                    &settings_after[..3 * left]
                ));
                dropped += 1;
            }
        }
    }
    assert!(dropped > DRAWN / 30, "{}", dropped);
}

/// The centrals that an add chooses, and the rows it moves, are the same with any cycle.
#[test]
fn adds_do_not_depend_on_the_cycle() {
    let mut compared = 0;
    for input in drawn_steps(34).take(DRAWN / 2) {
        if let Input::Add {
            net,
            calls,
            settings,
            call,
            ..
        } = input
        {
            let (answer, after, moved) = add(&Plain, net, [&calls, &settings], &call);
            if answer.number != 0 || net.cycle() == net.least_cycle() {
                continue;
            }
            let by_sizes = net.with_cycle(net.least_cycle());
            let settings = settings_of(by_sizes, &calls, &settings);
            let other = add(&Plain, by_sizes, [&calls, &settings], &call);
            let calls_after = [calls, call].concat();
            let owed = settings_of(by_sizes, &calls_after, &after);
            assert_eq!(other, (answer, owed, moved));
            compared += 1;
        }
    }
    assert!(compared > DRAWN / 20, "{}", compared);
}

/// The settings that calls need on the centrals of other settings.
fn settings_of(net: Network, calls: &[u8], settings: &[u8]) -> Vec<u8> {
    calls
        .chunks_exact(4)
        .zip(settings.chunks_exact(3))
        .flat_map(|(call, setting)| setting_of(net, call, usize::from(setting[1])))
        .collect()
}

// Threads.

/// The chain of the call at the end of a thread is the thread, whichever of the two centrals is
/// lower.
#[test]
fn threads_are_as_long_as_asked_for() {
    for length in 1..=LONGEST_THREAD {
        for (a, b) in [(0, 1), (1, 0)] {
            let net = Network::of_sizes(2, 2, thread_modules(length));
            let placed = thread(length, a, b);
            let (given, call) = Running::with_new_pair(net, &placed, thread_pair(length));
            let given = [&given.calls[..], &given.settings];
            for entries in [&Plain as &dyn Entries, &Swift] {
                let (answer, _, moved) = add(entries, net, given, &call);
                assert_eq!((answer.number, answer.moved), (0, length));
                assert_eq!(moved, (0..length).collect::<Vec<usize>>());
            }
        }
    }
    assert_eq!(thread_modules(LONGEST_THREAD), Network::MOST_MODULES);
}

/// The longest thread stands at the end of 1,023 calls, before the call at its own end.
#[test]
fn the_last_call_of_all_can_need_the_longest_chain() {
    let pair = thread_pair(LONGEST_THREAD);
    let (given, call) = Running::with_new_pair(LARGEST_SPARE, &largest_thread(), pair);
    assert_eq!(given.count(), 1023);
    for entries in [&Plain as &dyn Entries, &Swift] {
        let shelf = [&given.calls[..], &given.settings];
        let (answer, _, moved) = add(entries, LARGEST_SPARE, shelf, &call);
        assert_eq!((answer.number, answer.row, answer.moved), (0, 1024, 125));
        assert_eq!(moved, (897..1022).collect::<Vec<usize>>());
    }
}
