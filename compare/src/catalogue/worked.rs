//! Inputs whose answers can be worked out by hand, and in the tests those answers. The inputs are
//! written out here, many of them of case 4 and the example file.

use super::builders::{
    accept, network, plan, planned, read, read_of, write, write_calls, write_planned,
};
use super::from_documents::{example_file, CASE_4};
use crate::inputs::{filled, settings_length, Input};
use crate::{Kind, Network, CALL_BYTES, LONGEST_NOTE, MARK, SETTING_BYTES, TRAILER_BYTES};

/// Small inputs of every entry, with answers worked out by hand: most have two faults or more, of
/// which the first in the document's order is told.
pub fn worked() -> Vec<Input> {
    [plans(), acceptances(), reads(), writes()].concat()
}

fn plans() -> Vec<Input> {
    vec![
        // 1 before 2; 2 before 4; 4 before 5.
        plan(network(0, 1, 1), &[0], 0),
        plan(network(1, 1, 1), &[9, 9, 9], 0),
        plan(network(1, 1, 1), &[9, 9, 9, 9], 2),
        // 7 in row 2 before 8 in row 1.
        plan(network(2, 1, 2), &[0, 0, 0, 0, 0, 1, 0, 1, 1, 0, 0, 0], 9),
        // One central for two calls, with a byte of room to spare.
        plan(network(2, 1, 2), &[0, 1, 1, 0, 1, 1, 0, 0], 7),
    ]
}

fn acceptances() -> Vec<Input> {
    let one = network(1, 1, 1);
    let two = network(2, 2, 2);
    let case_4 = network(2, 2, 3);
    let too_many = [0; CALL_BYTES * (Network::MOST_ROWS + 1)];
    let outside_first = [9, 9, 9, 0, 0, 0, 0, 0, 0];
    vec![
        // 1 before 2. Lengths that are no whole rows, or not those of the calls.
        accept(network(0, 0, 0), &[0], &[]),
        accept(one, &[0, 0, 0], &[]),
        accept(one, &[0, 0, 0, 0], &[0, 0]),
        accept(one, &[], &[0]),
        // 2 before 3; 3.
        accept(one, &too_many, &[]),
        accept(one, &too_many, &[0; SETTING_BYTES * 1025]),
        // 5 in row 2 before 6 and 7 in row 1, and before 9 in row 0.
        accept(two, &[0, 0, 0, 0, 0, 0, 0, 0, 0, 2, 0, 0], &outside_first),
        // 6 in row 2 before 7 in row 1.
        accept(two, &[0, 0, 0, 0, 1, 0, 0, 0, 1, 0, 1, 0], &outside_first),
        // 7 in row 1 before 9 in row 0.
        accept(two, &[0, 0, 0, 0, 1, 0, 0, 0, 1, 1, 1, 0], &outside_first),
        // 13 in row 1 before 9 in row 2.
        accept(
            two,
            &[0, 0, 0, 0, 1, 0, 0, 1, 1, 1, 1, 0],
            &[0, 0, 0, 1, 0, 0, 9, 9, 9],
        ),
        // An overfull table is refused by 12, and by 13, but never by 8.
        accept(
            network(2, 1, 1),
            &[0, 0, 0, 0, 0, 1, 0, 1],
            &[0, 0, 0, 0, 0, 0],
        ),
        accept(
            network(2, 1, 2),
            &[0, 0, 0, 0, 1, 0, 0, 1],
            &[0, 0, 0, 1, 0, 0],
        ),
        // Accepted: the planner's settings of case 4, and no calls at all.
        accept(case_4, &CASE_4, &planned(case_4, &CASE_4)),
        accept(one, &[], &[]),
    ]
}

/// The example file with one byte of its trailer changed.
fn example_with(place: usize, byte: u8) -> Vec<u8> {
    let mut file = example_file();
    let trailer_at = file.len() - TRAILER_BYTES;
    file[trailer_at + place] = byte;
    file
}

/// A trailer alone, with its numbers as given.
fn trailer(sizes_and_kind: [u8; 4], count: u16, settings: u16, calls: u16) -> Vec<u8> {
    let mut file = sizes_and_kind.to_vec();
    for number in [count, settings, calls] {
        file.extend(number.to_be_bytes());
    }
    file.extend(MARK);
    file
}

fn reads() -> Vec<Input> {
    let case_4 = network(2, 2, 3);
    let two = network(2, 2, 2);
    let example = example_file();
    let trailer_at = example.len() - TRAILER_BYTES;
    vec![
        // The example, without a note, with the longest, and with one too long; then planned.
        read(example.clone()),
        read([filled(LONGEST_NOTE), example.clone()].concat()),
        read([filled(LONGEST_NOTE + 1), example.clone()].concat()),
        read_of(
            Kind::Planned,
            case_4,
            &[],
            &CASE_4,
            &planned(case_4, &CASE_4),
        ),
        // No note and no rows, planned.
        read(trailer([1, 1, 1, 2], 0, 0, 0)),
        // 14: nothing, a trailer less its first byte, either byte of the mark, kinds.
        read(Vec::new()),
        read(example[trailer_at + 1..].to_vec()),
        read(example_with(10, 0x42)),
        read(example_with(11, 0x56)),
        read(example_with(3, 0)),
        read(example_with(3, 3)),
        // 14 before 1; 1 before 3; 3 before 15.
        read(trailer([0, 1, 1, 3], 0, 0, 0)),
        read(trailer([17, 1, 1, 1], 1025, 0, 4100)),
        read(trailer([1, 1, 1, 1], 1025, 0, 0)),
        // 15: settings where there are none, the low byte first, and calls that aren't there.
        read(example_with(7, 12)),
        read(
            [
                &example[..trailer_at],
                &[2, 2, 3, 1, 0, 4, 0, 0, 0x10, 0, MARK[0], MARK[1]],
            ]
            .concat(),
        ),
        read(example[trailer_at..].to_vec()),
        // 5, 6 and 7 in row 1, of calls only.
        read_of(Kind::Calls, two, &[], &[0, 0, 0, 0, 0, 2, 1, 0], &[]),
        read_of(Kind::Calls, two, &[], &[0, 0, 0, 0, 0, 0, 1, 0], &[]),
        read_of(Kind::Calls, two, &[], &[0, 0, 0, 0, 0, 1, 0, 0], &[]),
        // 12 in row 1 of a planned file: case 10.
        read_of(
            Kind::Planned,
            two,
            &[],
            &[0, 0, 0, 0, 0, 1, 1, 0],
            &[0, 0, 0, 0, 0, 1],
        ),
    ]
}

/// A call of the writer of a kind; the planned one is given 3 zero bytes for each whole call row.
fn write_zeros(kind: Kind, net: Network, note: &[u8], calls: &[u8], room: usize) -> Input {
    let length = if kind.has_settings() {
        settings_length(calls)
    } else {
        0
    };
    write(kind, net, [note, calls, &vec![0; length]], room)
}

fn writes() -> Vec<Input> {
    let case_4 = network(2, 2, 3);
    let two = network(2, 2, 2);
    let one = network(1, 1, 1);
    let settings = planned(case_4, &CASE_4);
    let mut list = vec![
        // The example: room that is exact, one byte short, and three bytes long.
        write_calls(case_4, &[], &CASE_4, 28),
        write_calls(case_4, &[], &CASE_4, 27),
        write_calls(case_4, &[], &CASE_4, 31),
        // Planned: room that is exact, and one byte short; another file with three bytes beyond.
        write_planned(case_4, &[9], &CASE_4, &settings, 41),
        write_planned(case_4, &[9], &CASE_4, &settings, 40),
        write_planned(two, &[5, 6], &[0, 0, 1, 0], &[1, 1, 0], 24),
        // Settings for the writer that takes none, none for the writer that takes some, and settings
        // refused by 11.
        write(Kind::Calls, two, [&[5, 6], &[0, 0, 1, 0], &[1, 1, 0]], 24),
        write_planned(two, &[5, 6], &[0, 0, 1, 0], &[], 24),
        write_planned(two, &[5, 6], &[0, 0, 1, 0], &[1, 1, 1], 24),
    ];
    let too_many = [0; CALL_BYTES * (Network::MOST_ROWS + 1)];
    let too_many_and_a_byte = [0; CALL_BYTES * (Network::MOST_ROWS + 1) + 1];
    let note = filled(LONGEST_NOTE + 1);
    for kind in [Kind::Calls, Kind::Planned] {
        list.extend([
            // 1 before 2; 2 before 3; 3 before 16; 16 before 4; 4 before 5.
            write_zeros(kind, network(0, 1, 1), &[], &[0], 0),
            write_zeros(kind, one, &[], &too_many_and_a_byte, 0),
            write_zeros(kind, one, &note, &too_many, 0),
            write_zeros(kind, one, &note, &[], 0),
            write_zeros(kind, one, &[], &[9, 9, 9, 9], 0),
        ]);
    }
    list
}

#[cfg(test)]
mod tests {
    use super::*;
    use crate::comparison::answer_of;
    use crate::plain::Plain;

    fn assert_answered(inputs: &[Input], owed: &[(usize, usize)]) {
        assert_eq!(inputs.len(), owed.len());
        for (input, owed) in inputs.iter().zip(owed) {
            let (answer, _) = answer_of(&Plain, input);
            assert_eq!((answer.number(), answer.row()), *owed, "{:?}", input);
        }
    }

    #[test]
    fn plans_and_acceptances_are_as_worked_out() {
        assert_answered(&plans(), &[(1, 0), (2, 0), (4, 0), (7, 2), (0, 2)]);
        let (_, room) = answer_of(&Plain, &plans()[4]);
        assert_eq!(room, [&[0, 0, 1, 1, 0, 0], &filled(7)[6..]].concat());
        let owed = [
            (1, 0),
            (2, 0),
            (2, 0),
            (2, 0),
            (2, 0),
            (3, 0),
            (5, 2),
            (6, 2),
            (7, 1),
            (13, 1),
            (12, 1),
            (13, 1),
            (0, 4),
            (0, 0),
        ];
        assert_answered(&acceptances(), &owed);
    }

    #[test]
    fn reads_are_as_worked_out() {
        let read = [(0, 4), (0, 4), (15, 0), (0, 4), (0, 0)];
        let no_trailer = [(14, 0); 6];
        let orders = [(14, 0), (1, 0), (3, 0)];
        let distances = [(15, 0); 3];
        let rows = [(5, 1), (6, 1), (7, 1), (12, 1)];
        let owed = [&read[..], &no_trailer, &orders, &distances, &rows].concat();
        assert_answered(&reads(), &owed);
    }

    #[test]
    fn writes_are_as_worked_out() {
        let rooms = [(0, 4), (4, 0), (0, 4), (0, 4), (4, 0), (0, 1)];
        let settings = [(2, 0), (2, 0), (11, 0)];
        let orders = [(1, 0), (2, 0), (3, 0), (16, 0), (4, 0)];
        let owed = [&rooms[..], &settings, &orders, &orders].concat();
        assert_answered(&writes(), &owed);
        let (_, room) = answer_of(&Plain, &writes()[5]);
        let file = [
            5, 6, 0, 0, 1, 0, 1, 1, 0, 2, 2, 2, 2, 0, 1, 0, 3, 0, 7, 0x41, 0x57,
        ];
        assert_eq!(room, [&file, &filled(24)[21..]].concat());
    }
}
