//! The plain implementation on the bench table and on the example file of document 01, with the
//! answers as they stand there; then on the same example in a file that tells the cycle, and on single
//! calls added and dropped, whose answers follow from the bench table or are worked out by hand.

use compare::plain::{listing, read_taking, Plain};
use compare::{Entries, Kind, Network, Planned, Told, Verdict, LONGEST_FILE};

const CASE_3: [u8; 16] = [0, 0, 0, 0, 1, 0, 1, 0, 1, 1, 0, 1, 0, 1, 1, 1];
const CASE_4: [u8; 16] = [0, 0, 0, 0, 0, 1, 1, 0, 1, 0, 2, 0, 1, 1, 1, 1];

fn network(n: usize, m: usize, r: usize) -> Network {
    Network::of_sizes(n, m, r)
}

/// A success of the planner: the settings, and the moved count. Two bytes beyond them keep their
/// values.
fn assert_planned(net: Network, calls: &[u8], owed: &[u8], moved: usize) {
    let mut settings = vec![77; owed.len() + 2];
    let answer = Plain.plan(net, calls, &mut settings);
    let row = calls.len() / 4;
    assert_eq!(
        answer,
        Planned {
            number: 0,
            row,
            moved
        }
    );
    assert_eq!(settings[..owed.len()], *owed);
    assert_eq!(settings[owed.len()..], [77, 77]);
}

/// A refusal of the planner, which leaves the room as it is.
fn assert_refused(net: Network, calls: &[u8], room: usize, number: usize, row: usize) {
    let mut settings = vec![77; room];
    let answer = Plain.plan(net, calls, &mut settings);
    assert_eq!(
        answer,
        Planned {
            number,
            row,
            moved: 0
        }
    );
    assert_eq!(settings, vec![77; room]);
}

fn assert_verdict(net: Network, calls: &[u8], settings: &[u8], number: usize, row: usize) {
    assert_eq!(Plain.accept(net, calls, settings), Verdict { number, row });
}

#[test]
fn cases_1_to_4_are_planned() {
    assert_planned(network(1, 1, 1), &[], &[], 0);
    assert_planned(network(1, 1, 1), &[0, 0, 0, 0], &[0, 0, 0], 0);
    let owed = [0, 0, 0, 1, 0, 1, 0, 1, 1, 1, 1, 0];
    assert_planned(network(2, 2, 2), &CASE_3, &owed, 0);
    let owed = [1, 1, 1, 0, 0, 1, 1, 0, 2, 2, 1, 2];
    assert_planned(network(2, 2, 3), &CASE_4, &owed, 2);
}

#[test]
fn cases_5_to_8_are_refused() {
    let calls = [0, 0, 0, 0, 0, 1, 0, 1];
    assert_refused(network(2, 1, 1), &calls, 6, 8, 1);
    assert_planned(network(2, 2, 1), &calls, &[0, 0, 0, 1, 1, 1], 0);
    assert_refused(network(2, 2, 1), &[0, 0, 0, 0, 0, 0, 0, 1], 6, 6, 1);
    assert_refused(network(2, 2, 1), &[0, 0, 0, 0, 0, 1, 0, 0], 6, 7, 1);
    assert_refused(network(1, 1, 1), &[1, 0, 0, 0], 3, 5, 0);
}

#[test]
fn cases_9_to_11_are_judged() {
    let net = network(2, 2, 2);
    let calls = [0, 0, 1, 0];
    assert_verdict(net, &calls, &[1, 1, 0], 0, 1);
    assert_verdict(net, &calls, &[2, 1, 0], 9, 0);
    assert_verdict(net, &calls, &[1, 0, 0], 10, 0);
    assert_verdict(net, &calls, &[1, 1, 1], 11, 0);
    let calls = [0, 0, 0, 0, 0, 1, 1, 0];
    assert_verdict(net, &calls, &[0, 0, 0, 0, 0, 1], 12, 1);
    let calls = [0, 0, 0, 0, 1, 0, 0, 1];
    assert_verdict(net, &calls, &[0, 0, 0, 1, 0, 0], 13, 1);
}

#[test]
fn case_12_is_about_limits_and_room() {
    assert_planned(network(1, 32, 1), &[], &[], 0);
    assert_refused(network(1, 33, 1), &[], 0, 1, 0);
    let mut settings = [77; 12];
    let answer = Plain.plan(network(2, 2, 2), &CASE_3, &mut settings);
    assert_eq!(answer.number, 0);
    assert_refused(network(2, 2, 2), &CASE_3, 11, 4, 0);
}

#[test]
fn example_file_is_read_and_written() {
    let trailer = [2, 2, 3, 1, 0, 4, 0, 0, 0, 0x10, 0x41, 0x57];
    let file = [&CASE_4[..], &trailer].concat();
    let owed = Told {
        number: 0,
        row: 4,
        n: 2,
        m: 2,
        r: 3,
        w: 3,
        kind: 1,
        count: 4,
        note_at: 0,
        calls_at: 0,
        settings_at: 16,
    };
    assert_eq!(Plain.read(&file), owed);
    let mut out = vec![0; file.len()];
    let answer = Plain.write_calls(network(2, 2, 3), &[], &CASE_4, &[], &mut out);
    assert_eq!(answer, Verdict { number: 0, row: 4 });
    assert_eq!(out, file);
}

#[test]
fn example_file_is_listed() {
    let trailer = [2, 2, 3, 1, 0, 4, 0, 0, 0, 0x10, 0x41, 0x57];
    let text = listing(&[&CASE_4[..], &trailer].concat());
    let owed = "2 2 3 4 2\n\
                0 0 0 1 1 1 0 0\n\
                1 0 1 0 0 1 1 0\n\
                2 1 0 1 0 2 2 0\n\
                3 1 1 2 1 2 1 1\n";
    assert_eq!(text, owed.as_bytes());
}

#[test]
fn files_longer_than_the_longest_are_too_long() {
    assert_eq!(LONGEST_FILE, 7437);
    assert_eq!(listing(&[0; 7435]), b"refused 14 row 0\n");
    assert_eq!(listing(&[0; 7437]), b"refused 14 row 0\n");
    assert_eq!(listing(&[0; 7438]), b"too long\n");
}

// Files that tell the cycle.

/// Case 4 of the bench table as a file of kind 3 with five wavelengths, and its trailer.
const TRAILER_BY_FIVE: [u8; 14] = [5, 0, 2, 2, 3, 3, 0, 4, 0, 0, 0, 0x10, 0x41, 0x57];

fn case_4_by_five() -> Vec<u8> {
    [&CASE_4[..], &TRAILER_BY_FIVE].concat()
}

const FIVE_TOLD: Told = Told {
    number: 0,
    row: 4,
    n: 2,
    m: 2,
    r: 3,
    w: 5,
    kind: 3,
    count: 4,
    note_at: 0,
    calls_at: 0,
    settings_at: 16,
};

/// A refused read tells zero for all but number and row.
fn refused_read(number: usize) -> Told {
    Told {
        number,
        ..Told::default()
    }
}

#[test]
fn case_4_by_five_is_written_and_read() {
    let net = network(2, 2, 3).with_cycle(5);
    let mut out = [77; 32];
    let answer = Plain.write_calls_with_cycle(net, &[], &CASE_4, &[], &mut out);
    assert_eq!(answer, Verdict { number: 0, row: 4 });
    assert_eq!(out[..30], case_4_by_five());
    assert_eq!(out[30..], [77, 77]);
    assert_eq!(Plain.read(&out[..30]), FIVE_TOLD);
    assert_eq!(Plain.read(&TRAILER_BY_FIVE[1..]), refused_read(14));
    assert_eq!(Plain.read(&TRAILER_BY_FIVE), refused_read(15));
    let answer = Plain.write_calls_with_cycle(net, &[], &CASE_4, &[], &mut out[..29]);
    assert_eq!(answer, Verdict { number: 4, row: 0 });
}

/// The cycle is not printed, and the settings are those of the example, since no sum goes beyond its
/// three wavelengths.
#[test]
fn case_4_by_five_is_listed() {
    let trailer = [2, 2, 3, 1, 0, 4, 0, 0, 0, 0x10, 0x41, 0x57];
    let example = [&CASE_4[..], &trailer].concat();
    assert_eq!(listing(&case_4_by_five()), listing(&example));
}

/// The reader of the first issue reads the example file and refuses the other.
#[test]
fn the_first_issue_meets_new_kinds_with_14() {
    let trailer = [2, 2, 3, 1, 0, 4, 0, 0, 0, 0x10, 0x41, 0x57];
    let example = [&CASE_4[..], &trailer].concat();
    assert_eq!(read_taking(&Kind::OLD, &example), Plain.read(&example));
    assert_eq!(read_taking(&Kind::OLD, &case_4_by_five()), refused_read(14));
}

#[test]
fn the_example_file_is_converted_there_and_back() {
    let trailer = [2, 2, 3, 1, 0, 4, 0, 0, 0, 0x10, 0x41, 0x57];
    let example = [&CASE_4[..], &trailer].concat();
    let mut new = [77; 31];
    let answer = Plain.convert_to_new(&example, &mut new);
    assert_eq!(answer, Verdict { number: 0, row: 4 });
    let owed = [3, 0, 2, 2, 3, 3, 0, 4, 0, 0, 0, 0x10, 0x41, 0x57, 77];
    assert_eq!(new, [&CASE_4[..], &owed].concat()[..]);
    let mut old = [77; 29];
    let answer = Plain.convert_to_old(&new[..30], &mut old);
    assert_eq!(answer, Verdict { number: 0, row: 4 });
    assert_eq!(old, [&example[..], &[77]].concat()[..]);
}

/// A conversion that is refused, which leaves its room as it is.
fn assert_not_converted(
    convert: impl Fn(&[u8], &mut [u8]) -> Verdict,
    file: &[u8],
    room: usize,
    number: usize,
) {
    let mut out = vec![77; room];
    assert_eq!(convert(file, &mut out), Verdict { number, row: 0 });
    assert_eq!(out, vec![77; room]);
}

#[test]
fn conversions_are_refused() {
    let to_new = |file: &[u8], out: &mut [u8]| Plain.convert_to_new(file, out);
    let to_old = |file: &[u8], out: &mut [u8]| Plain.convert_to_old(file, out);
    let by_five = case_4_by_five();
    // 14 for a kind that isn't taken; 18 before 4.
    assert_not_converted(to_new, &by_five, 40, 14);
    assert_not_converted(to_old, &by_five, 28, 18);
    assert_not_converted(to_old, &by_five, 0, 18);
    // 4, by a byte.
    let mut by_three = by_five;
    by_three[16] = 3;
    assert_not_converted(to_old, &by_three, 27, 4);
    // 1 before 18: W below r, and above 64.
    for cycle in [2, 65] {
        by_three[16] = cycle;
        assert_not_converted(to_old, &by_three, 28, 1);
    }
    // 14 before 1: the spare byte.
    by_three[17] = 1;
    assert_not_converted(to_old, &by_three, 28, 14);
    assert_eq!(Plain.read(&by_three), refused_read(14));
}

// Single calls.

/// An add with room for all and two bytes beyond each room, which keep their values: the answer, and
/// what is written to each room.
fn added(net: Network, calls: &[u8], settings: &[u8], call: &[u8]) -> (Planned, [Vec<u8>; 3]) {
    let count = calls.len() / 4;
    let mut rooms = [4 * (count + 1), 3 * (count + 1), 2 * count].map(|room| vec![77; room + 2]);
    let [calls_after, settings_after, moved_rows] = &mut rooms;
    let answer = Plain.add(
        net,
        calls,
        settings,
        call,
        [calls_after, settings_after, moved_rows],
    );
    let written = match answer.number {
        0 => [4 * (count + 1), 3 * (count + 1), 2 * answer.moved],
        _ => [0; 3],
    };
    for (room, written) in rooms.iter_mut().zip(written) {
        assert!(room[written..].iter().all(|&byte| byte == 77));
        room.truncate(written);
    }
    (answer, rooms)
}

fn assert_added(
    net: Network,
    given: [&[u8]; 2],
    call: &[u8],
    owed_settings: &[u8],
    owed_moved: &[u8],
) {
    let [calls, settings] = given;
    let (answer, rooms) = added(net, calls, settings, call);
    let owed = Planned {
        number: 0,
        row: calls.len() / 4 + 1,
        moved: owed_moved.len() / 2,
    };
    assert_eq!(answer, owed);
    assert_eq!(rooms[0], [calls, call].concat());
    assert_eq!(rooms[1], owed_settings);
    assert_eq!(rooms[2], owed_moved);
}

fn assert_add_refused(net: Network, given: [&[u8]; 2], call: &[u8], number: usize, row: usize) {
    let (answer, _) = added(net, given[0], given[1], call);
    let owed = Planned {
        number,
        row,
        moved: 0,
    };
    assert_eq!(answer, owed);
}

/// The last call of case 4 moves rows 1 and 0, in this order.
#[test]
fn the_last_call_of_case_4_is_added() {
    let net = network(2, 2, 3);
    let before = [0, 0, 0, 1, 1, 2, 1, 0, 2];
    let owed = [1, 1, 1, 0, 0, 1, 1, 0, 2, 2, 1, 2];
    assert_planned(net, &CASE_4[..12], &before, 0);
    assert_added(
        net,
        [&CASE_4[..12], &before],
        &CASE_4[12..],
        &owed,
        &[0, 1, 0, 0],
    );
}

/// From settings on the upper central, which no planner would give, the lower is the common free one.
#[test]
fn an_add_begins_at_the_settings_given() {
    let net = network(2, 2, 2);
    assert_added(
        net,
        [&[0, 0, 0, 0], &[1, 1, 1]],
        &[0, 1, 0, 1],
        &[1, 1, 1, 0, 0, 0],
        &[],
    );
    // Input module 1 is on central 1 and output module 0 on central 0: row 0 makes room.
    assert_added(
        net,
        [&[0, 0, 0, 0, 1, 0, 1, 0], &[0, 0, 0, 0, 1, 0]],
        &[1, 1, 0, 1],
        &[1, 1, 1, 0, 1, 0, 1, 0, 0],
        &[0, 0],
    );
}

#[test]
fn new_calls_are_refused_with_the_row_of_the_new_call() {
    let net = network(2, 1, 2);
    let given: [&[u8]; 2] = [&[0, 0, 0, 0], &[0, 0, 0]];
    assert_add_refused(net, given, &[], 2, 0);
    assert_add_refused(net, given, &[1, 0, 1, 0, 0], 2, 0);
    assert_add_refused(net, given, &[1, 2, 1, 0], 5, 1);
    assert_add_refused(net, given, &[0, 0, 1, 0], 6, 1);
    assert_add_refused(net, given, &[1, 0, 0, 0], 7, 1);
    assert_add_refused(net, given, &[0, 1, 1, 0], 8, 1);
    assert_add_refused(net, given, &[1, 0, 0, 1], 8, 1);
    // What is given comes first.
    assert_add_refused(net, [&[0, 0, 0, 0], &[1, 0, 1]], &[], 10, 0);
    assert_add_refused(net, [&[0, 0, 2, 0], &[0, 0, 0]], &[], 5, 0);
}

/// K moved rows have to have room, however many there will be.
#[test]
fn rooms_of_an_add_are_for_all_rows() {
    let net = network(2, 2, 2);
    for short in 0..3 {
        let mut lengths = [8, 6, 2];
        lengths[short] -= 1;
        let mut rooms = lengths.map(|room| vec![77; room]);
        let [calls_after, settings_after, moved_rows] = &mut rooms;
        let answer = Plain.add(
            net,
            &[0, 0, 0, 0],
            &[0, 0, 0],
            &[1, 0, 1, 0],
            [calls_after, settings_after, moved_rows],
        );
        let owed = Planned {
            number: 4,
            row: 0,
            moved: 0,
        };
        assert_eq!(answer, owed);
        assert_eq!(rooms, lengths.map(|room| vec![77; room]));
    }
}

/// A drop of one row of case 3, with a byte beyond either room.
fn drop_of_case_3(row: usize) -> (Verdict, [Vec<u8>; 2]) {
    let settings = [0, 0, 0, 1, 0, 1, 0, 1, 1, 1, 1, 0];
    let mut rooms = [13, 10].map(|room| vec![77; room]);
    let [calls_after, settings_after] = &mut rooms;
    let answer = Plain.drop(
        network(2, 2, 2),
        &CASE_3,
        &settings,
        row,
        [calls_after, settings_after],
    );
    (answer, rooms)
}

#[test]
fn later_rows_close_up_after_a_drop() {
    let (answer, [calls, settings]) = drop_of_case_3(1);
    assert_eq!(answer, Verdict { number: 0, row: 3 });
    assert_eq!(calls, [0, 0, 0, 0, 1, 1, 0, 1, 0, 1, 1, 1, 77]);
    assert_eq!(settings, [0, 0, 0, 0, 1, 1, 1, 1, 0, 77]);
    let (answer, [calls, settings]) = drop_of_case_3(3);
    assert_eq!(answer, Verdict { number: 0, row: 3 });
    assert_eq!(calls, [0, 0, 0, 0, 1, 0, 1, 0, 1, 1, 0, 1, 77]);
    assert_eq!(settings, [0, 0, 0, 1, 0, 1, 0, 1, 1, 77]);
}

#[test]
fn rows_that_are_not_there_are_not_dropped() {
    for row in [4, 5, 1 << 16, 1 << 32, usize::MAX] {
        let (answer, rooms) = drop_of_case_3(row);
        assert_eq!(answer, Verdict { number: 17, row: 0 });
        assert_eq!(rooms, [13, 10].map(|room| vec![77; room]));
    }
    // 17 before 4, and 4.
    let given = ([0, 0, 0, 0, 1, 0, 1, 0], [0, 0, 0, 1, 0, 1]);
    for (row, number) in [(2, 17), (1, 4)] {
        let answer = Plain.drop(
            network(2, 2, 2),
            &given.0,
            &given.1,
            row,
            [&mut [0; 4], &mut [0; 2]],
        );
        assert_eq!(answer, Verdict { number, row: 0 });
    }
}
