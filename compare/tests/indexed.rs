//! The planner in C: the bench table of document 01; and against the plain planner, by number, row,
//! moved count and every byte of the room and around it, on stored inputs, among them the ladders, on
//! drawn ones and on every small one.

use compare::catalogue::stored_inputs;
use compare::comparison::small_plans;
use compare::indexed::Planner;
use compare::inputs::{
    drawn, drawn_of_tables, filled, settings_length, spread_calls, Input, Random,
};
use compare::plain::Plain;
use compare::stored_form::Stored;
use compare::{Entries, Network, Planned};

/// Fewer inputs where the code is compiled without speed.
const DRAWN: usize = if cfg!(debug_assertions) {
    3_000
} else {
    60_000
};

/// Bytes on each side of a room.
const GUARD: usize = 37;

/// The answer of both planners, which have to leave the same bytes in the room and around it.
fn answer_of_both(net: Network, calls: &[u8], room: &[u8]) -> Planned {
    let guard = filled(GUARD);
    let mut owed = [&guard, room, &guard].concat();
    let mut written = owed.clone();
    let lent = GUARD..GUARD + room.len();
    let answer = Plain.plan(net, calls, &mut owed[lent.clone()]);
    let other = Planner::INDEXED.plan(net, calls, &mut written[lent]);
    assert_eq!(other, answer, "{:?} {:?}", net, calls);
    assert!(written == owed, "{:?} {:?}", net, calls);
    answer
}

/// What was seen of many answers.
#[derive(Default)]
struct Seen {
    /// How often each number was given.
    numbers: [usize; 9],
    /// How often calls were moved, and where there are 32 centrals how often a table was planned.
    moving: usize,
    with_all_centrals: usize,
}

impl Seen {
    /// Compares on those inputs that are the planner's.
    fn compare(inputs: impl Iterator<Item = Input>) -> Seen {
        let mut seen = Seen::default();
        for input in inputs {
            if let Input::Plan {
                net,
                calls,
                settings,
            } = input
            {
                let answer = answer_of_both(net, &calls, &settings);
                seen.numbers[answer.number] += 1;
                seen.moving += usize::from(answer.moved > 0);
                seen.with_all_centrals += usize::from(answer.number == 0 && net.m == 32);
            }
        }
        seen
    }

    fn assert_least(&self, least: usize) {
        let Seen {
            numbers,
            moving,
            with_all_centrals,
        } = self;
        println!("{:?}, {} {}", numbers, moving, with_all_centrals);
        assert!(numbers.iter().all(|&count| count >= least));
        assert!(*moving >= least && *with_all_centrals >= least);
    }
}

/// The cases of the bench table that are the planner's, with the answers as they stand in document 01.
#[test]
fn the_bench_table_is_answered_as_it_stands() {
    let case_3 = [0, 0, 0, 0, 1, 0, 1, 0, 1, 1, 0, 1, 0, 1, 1, 1];
    let case_4 = [0, 0, 0, 0, 0, 1, 1, 0, 1, 0, 2, 0, 1, 1, 1, 1];
    let case_5 = [0, 0, 0, 0, 0, 1, 0, 1];
    let settings_3 = [0, 0, 0, 1, 0, 1, 0, 1, 1, 1, 1, 0];
    let settings_4 = [1, 1, 1, 0, 0, 1, 1, 0, 2, 2, 1, 2];
    assert_answer((1, 1, 1), &[], 0, [0, 0, 0], &[]);
    assert_answer((1, 1, 1), &[0; 4], 3, [0, 1, 0], &[0, 0, 0]);
    assert_answer((2, 2, 2), &case_3, 12, [0, 4, 0], &settings_3);
    assert_answer((2, 2, 2), &case_3, 11, [4, 0, 0], &[]);
    assert_answer((2, 2, 3), &case_4, 12, [0, 4, 2], &settings_4);
    assert_answer((2, 1, 1), &case_5, 6, [8, 1, 0], &[]);
    assert_answer((2, 2, 1), &case_5, 6, [0, 2, 0], &[0, 0, 0, 1, 1, 1]);
    assert_answer((2, 2, 1), &[0, 0, 0, 0, 0, 0, 0, 1], 6, [6, 1, 0], &[]);
    assert_answer((2, 2, 1), &[0, 0, 0, 0, 0, 1, 0, 0], 6, [7, 1, 0], &[]);
    assert_answer((1, 1, 1), &[1, 0, 0, 0], 3, [5, 0, 0], &[]);
    assert_answer((1, 32, 1), &[], 0, [0, 0, 0], &[]);
    assert_answer((1, 33, 1), &[], 0, [1, 0, 0], &[]);
}

/// Number, row and moved count, and what is written to so many bytes of room.
fn assert_answer(
    (n, m, r): (usize, usize, usize),
    calls: &[u8],
    room: usize,
    [number, row, moved]: [usize; 3],
    written: &[u8],
) {
    let mut settings = filled(room);
    let answer = Planner::INDEXED.plan(Network::of_sizes(n, m, r), calls, &mut settings);
    assert_eq!(answer, Planned { number, row, moved });
    assert_eq!(settings[..written.len()], *written);
    assert_eq!(settings[written.len()..], filled(room)[written.len()..]);
}

#[test]
fn stored_inputs_are_answered_alike() {
    let inputs = stored_inputs()
        .into_iter()
        .filter_map(|stored| match stored {
            Stored::Input(input) => Some(input),
            Stored::List { .. } => None,
        });
    Seen::compare(inputs).assert_least(3);
}

#[test]
fn drawn_inputs_are_answered_alike() {
    let inputs = drawn_of_tables(71).take(DRAWN).chain(drawn(1).take(DRAWN));
    Seen::compare(inputs).assert_least(DRAWN / 3000);
}

#[test]
fn small_inputs_are_answered_alike() {
    let seen = Seen::compare(small_plans());
    assert!(seen.moving > 1000, "{}", seen.moving);
    for number in [0, 1, 5, 6, 7, 8] {
        assert!(seen.numbers[number] > 1000, "{}", number);
    }
}

/// Full tables in drawn order, from those whose chains are many to those that have no chain.
#[test]
fn full_tables_are_answered_alike() {
    let mut random = Random::seeded(72);
    for m in [16, 17, 20, 31, 32] {
        for (n, r) in [(16, 64), (16, 16), (8, 64), (2, 64), (16, 1)] {
            let net = Network::of_sizes(n, m, r);
            let calls = spread_calls(&mut random, net, n * r);
            let answer = answer_of_both(net, &calls, &filled(settings_length(&calls)));
            assert_eq!((answer.number, answer.row), (0, n * r));
        }
    }
}
