//! Files that tell the cycle, as request 3 of document 02 has them: written, read, and converted to
//! and fro, whole and damaged. They are laid out by `inputs.rs`, and case 4 is written out here.

use super::builders::{convert_to_new, convert_to_old, network, planned, read, read_of, write};
use super::cycles::{BY_THREE, BY_TWO};
use super::from_documents::{example_file, CASE_3, CASE_4};
use crate::inputs::{converted_length, file_of, filled, with_kind_byte, Input};
use crate::ladders::{largest_ladder, LARGEST_TIGHT};
use crate::{Kind, Network, CYCLE_BYTES, LONGEST_NOTE, TRAILER_BYTES};

/// Files of kinds 3 and 4 and those that they are converted from.
pub fn files_with_cycle() -> Vec<Input> {
    [
        case_4(),
        case_3(),
        cycles_at_limits(),
        spare_bytes(),
        lengths(),
        kinds(),
        changed_trailers(),
        distances(),
        notes(),
        rooms(),
        round_trips(),
        longest(),
    ]
    .concat()
}

/// The calls of case 4 as a file of kind 3, without a note and with five wavelengths.
pub fn case_4_by_five() -> Vec<u8> {
    let trailer = [5, 0, 2, 2, 3, 3, 0, 4, 0, 0, 0, 0x10, 0x41, 0x57];
    [&CASE_4[..], &trailer].concat()
}

/// The file of a kind with these rows, without settings if it has none.
fn file_with(kind: Kind, net: Network, note: &[u8], calls: &[u8], settings: &[u8]) -> Vec<u8> {
    let settings = if kind.has_settings() { settings } else { &[] };
    file_of(kind, net, note, calls, settings)
}

/// The conversion that takes files of a kind, with so many bytes of room.
fn convert(kind: Kind, file: &[u8], room: usize) -> Input {
    if kind.tells_cycle() {
        convert_to_old(file, room)
    } else {
        convert_to_new(file, room)
    }
}

/// The conversion that takes files of a kind, with just the room that it needs.
fn convert_exactly(kind: Kind, file: &[u8]) -> Input {
    convert(kind, file, converted_length(kind, file))
}

/// Case 4 with five wavelengths and with three.
fn case_4() -> Vec<Input> {
    let three = network(2, 2, 3);
    let five = three.with_cycle(5);
    let by_five = case_4_by_five();
    let by_three = file_of(Kind::CallsWithCycle, three, &[], &CASE_4, &[]);
    let settings = planned(five, &CASE_4);
    let last_13 = by_five[by_five.len() - 13..].to_vec();
    let calls = [&[][..], &CASE_4, &[]];
    let planned = [&[][..], &CASE_4, &settings];
    vec![
        write(Kind::CallsWithCycle, five, calls, 30),
        write(Kind::CallsWithCycle, five, calls, 33),
        write(Kind::CallsWithCycle, five, calls, 29),
        // Room for the shorter trailer alone.
        write(Kind::CallsWithCycle, five, calls, 28),
        write(Kind::PlannedWithCycle, five, planned, 42),
        write(Kind::PlannedWithCycle, five, planned, 40),
        // Settings for the writer that takes none, and none for the writer that takes some.
        write(Kind::CallsWithCycle, five, planned, 42),
        write(Kind::PlannedWithCycle, five, calls, 42),
        read(by_five.clone()),
        read(last_13),
        read_of(Kind::PlannedWithCycle, five, &[9], &CASE_4, &settings),
        // The cycle would be lost; that comes before the room.
        convert_to_old(&by_five, 28),
        convert_to_old(&by_five, 0),
        convert_to_new(&by_five, 32),
        // With three it is not, and there and back is the example file.
        convert_to_old(&by_three, 28),
        convert_to_old(&by_three, 27),
        convert_to_new(&example_file(), 30),
        convert_to_new(&example_file(), 29),
        convert_to_old(&example_file(), 28),
    ]
}

/// Case 3 with two wavelengths and with three: settings by either are right with it alone.
fn case_3() -> Vec<Input> {
    let two = network(2, 2, 2);
    let mut list = Vec::new();
    for net in [two, two.with_cycle(3)] {
        for settings in [&BY_TWO, &BY_THREE] {
            let kind = Kind::PlannedWithCycle;
            list.push(write(kind, net, [&[], &CASE_3, settings], 42));
            list.push(read_of(kind, net, &[], &CASE_3, settings));
            let file = file_of(kind, net, &[], &CASE_3, settings);
            list.push(convert_to_old(&file, 40));
        }
    }
    list
}

/// Each W at its limits, below and above, with a row that would be right by any cycle: calls only to
/// be read, and planned to be converted.
fn cycles_at_limits() -> Vec<Input> {
    let mut list = Vec::new();
    for net in [network(2, 2, 3), network(2, 3, 2), network(16, 32, 64)] {
        let larger = net.least_cycle();
        let mut cycles = vec![0, net.r - 1, net.m - 1, larger, larger + 1, 63, 64, 65, 255];
        cycles.sort_unstable();
        cycles.dedup();
        for cycle in cycles {
            let net = net.with_cycle(cycle);
            let [calls, planned] =
                Kind::NEW.map(|kind| file_with(kind, net, &[], &[0, 0, 0, 0], &[0, 0, 0]));
            list.push(read(calls));
            list.push(convert_exactly(Kind::PlannedWithCycle, &planned));
        }
    }
    list
}

/// A small file of each kind: two rows, and a note.
fn small_file(kind: Kind) -> Vec<u8> {
    let calls = [0, 0, 0, 0, 1, 0, 1, 0];
    file_with(kind, network(2, 2, 3), &[5, 6], &calls, &[0, 0, 0, 1, 0, 1])
}

/// Spare bytes that are not zero, and W and the zero in the place of each other.
fn spare_bytes() -> Vec<Input> {
    let mut list = Vec::new();
    for kind in Kind::NEW {
        let file = small_file(kind);
        let spare_at = file.len() - TRAILER_BYTES - 1;
        for two in [[3, 1], [3, 128], [3, 255], [0, 3]] {
            let mut other = file.clone();
            other[spare_at - 1..spare_at + 1].copy_from_slice(&two);
            list.push(convert_exactly(kind, &other));
            list.push(read(other));
        }
    }
    list
}

/// The last bytes of files, up to one more than their trailer, and files less a byte at either end.
fn lengths() -> Vec<Input> {
    let mut list = Vec::new();
    let case_4 = case_4_by_five();
    for length in 0..=15 {
        list.push(read(case_4[case_4.len() - length..].to_vec()));
    }
    for kind in Kind::NEW {
        // Without rows, whole and less a byte or two.
        let file = file_of(kind, network(1, 1, 1).with_cycle(2), &[], &[], &[]);
        for cut in 0..=CYCLE_BYTES {
            list.push(read(file[cut..].to_vec()));
            list.push(convert_to_old(&file[cut..], TRAILER_BYTES));
        }
        let file = small_file(kind);
        for part in [&file[1..], &file[2..], &file[..file.len() - 1]] {
            list.push(read(part.to_vec()));
            list.push(convert_to_old(part, file.len()));
        }
    }
    list
}

/// Files of each kind with the byte of another, also of none, so that two bytes are missing or too
/// many; and whole files of each kind, and those with the byte of the kind that they are converted
/// to, for both conversions.
fn kinds() -> Vec<Input> {
    let mut list = Vec::new();
    for kind in Kind::ALL {
        let file = small_file(kind);
        for byte in [0, 1, 2, 3, 4, 5, 255] {
            list.push(read(with_kind_byte(file.clone(), byte)));
        }
        for byte in [kind, kind.converted()].map(|kind| kind as u8) {
            let other = with_kind_byte(file.clone(), byte);
            list.push(convert_to_new(&other, file.len() + CYCLE_BYTES));
            list.push(convert_to_old(&other, file.len()));
        }
    }
    list
}

/// Files with each byte of the trailer one higher.
fn changed_trailers() -> Vec<Input> {
    let mut list = Vec::new();
    for kind in Kind::NEW {
        let file = small_file(kind);
        for place in file.len() - kind.trailer_bytes()..file.len() {
            let mut damaged = file.clone();
            damaged[place] = damaged[place].wrapping_add(1);
            list.push(read(damaged));
        }
    }
    list
}

/// Distances that count from the last twelve bytes, with rows and without; K of 1,025, which the file
/// doesn't hold, with a mark that is wrong, with a W that is, and with neither.
fn distances() -> Vec<Input> {
    let mut list = Vec::new();
    for kind in Kind::NEW {
        let empty = file_of(kind, network(2, 2, 3), &[], &[], &[]);
        for file in [small_file(kind), empty] {
            let mut longer = file.clone();
            let twelve_at = file.len() - TRAILER_BYTES;
            longer[twelve_at + 9] += CYCLE_BYTES as u8;
            if kind.has_settings() {
                longer[twelve_at + 7] += CYCLE_BYTES as u8;
            }
            list.push(read(longer));
        }
    }
    for kind in Kind::ALL {
        let claimed = claimed_rows(kind);
        let mut without_mark = claimed.clone();
        let mut outside = claimed.clone();
        let length = claimed.len();
        without_mark[length - 1] ^= 1;
        outside[length - TRAILER_BYTES] = 17;
        for file in [claimed, without_mark, outside] {
            list.push(convert_exactly(kind, &file));
            if kind.tells_cycle() {
                list.push(read(file));
            }
        }
    }
    list
}

/// A trailer alone that tells 1,025 rows, with distances as stated for so many.
fn claimed_rows(kind: Kind) -> Vec<u8> {
    let mut file = file_of(kind, network(2, 2, 3), &[], &[], &[]);
    let [settings, calls]: [u16; 2] = if kind.has_settings() {
        [3075, 7175]
    } else {
        [0, 4100]
    };
    let twelve_at = file.len() - TRAILER_BYTES;
    for (place, number) in [(4, 1025), (6, settings), (8, calls)] {
        let at = twelve_at + place;
        file[at..at + 2].copy_from_slice(&number.to_be_bytes());
    }
    file
}

/// Notes around 255 bytes: the two bytes of the longer trailer do not belong to the note.
fn notes() -> Vec<Input> {
    let net = network(2, 2, 3).with_cycle(4);
    let mut list = Vec::new();
    for kind in Kind::NEW {
        for length in [1, 253, 254, 255, 256, 257, 258] {
            list.push(read(file_of(kind, net, &filled(length), &[], &[])));
        }
        for length in [255, 256] {
            let room = length + kind.trailer_bytes();
            list.push(write(kind, net, [&filled(length), &[], &[]], room));
        }
    }
    list
}

/// Conversions with no room, with a byte too few, with just enough, and with more; with a cycle that
/// would be lost, with no room and with enough.
fn rooms() -> Vec<Input> {
    let mut list = Vec::new();
    for kind in Kind::ALL {
        let file = small_file(kind);
        let needed = converted_length(kind, &file);
        for room in [0, needed - 1, needed, needed + 3] {
            list.push(convert(kind, &file, room));
        }
        if kind.tells_cycle() {
            let mut other = file.clone();
            let cycle_at = file.len() - kind.trailer_bytes();
            other[cycle_at] = 4;
            for room in [0, needed - 1, needed, needed + 3] {
                list.push(convert(kind, &other, room));
            }
        }
    }
    list
}

/// No rows, with notes of 0 and 255 bytes and W at its limits: written, read and converted. Where W
/// is the larger of r and m, the other kinds are converted too.
fn round_trips() -> Vec<Input> {
    let of_sizes = network(2, 3, 2);
    let mut list = Vec::new();
    for note in [0, LONGEST_NOTE].map(filled) {
        for kind in Kind::NEW {
            for net in [of_sizes, of_sizes.with_cycle(64)] {
                let file = file_of(kind, net, &note, &[], &[]);
                list.push(write(kind, net, [&note, &[], &[]], file.len() + 1));
                list.push(convert_exactly(kind, &file));
                list.push(read(file));
            }
            let old = file_of(kind.converted(), of_sizes, &note, &[], &[]);
            list.push(convert_exactly(kind.converted(), &old));
        }
    }
    list
}

/// The longest file of each new kind, with 1,024 rows and a note of 255 bytes: written and read; and
/// the longest of every kind converted. Both limits of W are 64.
fn longest() -> Vec<Input> {
    let net = LARGEST_TIGHT;
    let note = filled(LONGEST_NOTE);
    let calls = largest_ladder();
    let settings = planned(net, &calls);
    let mut list = Vec::new();
    for kind in Kind::ALL {
        let file = file_with(kind, net, &note, &calls, &settings);
        list.push(convert_exactly(kind, &file));
        if kind.tells_cycle() {
            let settings: &[u8] = if kind.has_settings() { &settings } else { &[] };
            list.push(write(kind, net, [&note, &calls, settings], file.len()));
            list.push(read(file));
        }
    }
    list
}

#[cfg(test)]
mod tests {
    use super::*;
    use crate::comparison::answer_of;
    use crate::plain::Plain;

    fn assert_answered(inputs: &[Input], owed: &[(usize, usize)]) {
        assert_eq!(inputs.len(), owed.len());
        for (input, owed) in inputs.iter().zip(owed) {
            let (answer, _) = answer_of(&Plain, input);
            assert_eq!((answer.number(), answer.row()), *owed, "{:?}", input);
        }
    }

    fn numbers_of(inputs: &[Input]) -> Vec<usize> {
        inputs
            .iter()
            .map(|input| answer_of(&Plain, input).0.number())
            .collect()
    }

    #[test]
    fn case_4_is_as_worked_out() {
        let written = [(0, 4), (0, 4), (4, 0), (4, 0), (0, 4), (4, 0)];
        let settings = [(2, 0), (2, 0)];
        let read = [(0, 4), (14, 0), (0, 4)];
        let by_five = [(18, 0), (18, 0), (14, 0)];
        let by_three = [(0, 4), (4, 0), (0, 4), (4, 0), (14, 0)];
        let owed = [&written[..], &settings, &read, &by_five, &by_three].concat();
        let inputs = case_4();
        assert_answered(&inputs, &owed);
        let room = |at: usize| answer_of(&Plain, &inputs[at]).1;
        assert_eq!(room(0), case_4_by_five());
        assert_eq!(room(1), [&case_4_by_five()[..], &filled(33)[30..]].concat());
        assert_eq!(room(14), example_file());
        let (told, _) = answer_of(&Plain, &inputs[8]);
        assert_eq!(told.numbers(), [0, 4, 2, 2, 3, 5, 3, 4, 0, 0, 16]);
    }

    #[test]
    fn settings_are_judged_by_the_cycle_told() {
        let by_two = [(0, 4), (0, 4), (0, 4), (9, 2), (9, 2), (9, 2)];
        let by_three = [(10, 2), (10, 2), (10, 2), (0, 4), (0, 4), (18, 0)];
        assert_answered(&case_3(), &[by_two, by_three].concat());
    }

    /// By each W in turn: read as kind 3, converted as kind 4.
    #[test]
    fn cycles_are_limited_by_both_sizes_and_64() {
        let outside = [1, 1];
        let larger = [0, 0];
        let above = [0, 18];
        // 0, 1, 2, 3, 4, 63, 64, 65, 255, for both of the first two networks.
        let small = [
            outside, outside, outside, larger, above, above, above, outside, outside,
        ];
        // 0, 31, 63, 64, 65, 255.
        let large = [outside, outside, outside, larger, outside, outside];
        let owed = [&small[..], &small, &large].concat().concat();
        assert_eq!(numbers_of(&cycles_at_limits()), owed);
    }

    #[test]
    fn spare_bytes_have_to_be_zero() {
        assert!(numbers_of(&spare_bytes())
            .iter()
            .all(|&number| number == 14));
    }

    #[test]
    fn files_have_to_be_as_long_as_their_trailer() {
        let numbers = numbers_of(&lengths());
        assert_eq!(numbers[..16], [[14; 14].as_slice(), &[15, 15]].concat());
        let without_rows = [0, 18, 14, 14, 14, 14];
        // Less a byte of the note, less both, and without the end of the mark.
        let less = [0, 0, 0, 0, 14, 14];
        assert_eq!(numbers[16..22], without_rows);
        assert_eq!(numbers[22..28], less);
        assert_eq!(numbers[28..34], without_rows);
        assert_eq!(numbers[34..], less);
    }

    /// A file is read by its own kind alone: as another it lacks the spare byte's zero, or its
    /// distances are not as stated.
    #[test]
    fn kinds_are_not_taken_for_one_another() {
        let numbers = numbers_of(&kinds());
        for (kind, numbers) in Kind::ALL.into_iter().zip(numbers.chunks_exact(11)) {
            let (read, converted) = numbers.split_at(7);
            for (byte, &number) in [0, 1, 2, 3, 4, 5, 255].into_iter().zip(read) {
                assert_eq!(number == 0, byte == kind.number(), "{:?} {}", kind, byte);
                if !(1..=4).contains(&byte) {
                    assert_eq!(number, 14);
                }
            }
            // As it is, and with the byte of the kind that it is converted to; to new and to old.
            let [own_to_new, own_to_old, other_to_new, other_to_old] =
                [0, 1, 2, 3].map(|at| converted[at]);
            if kind.tells_cycle() {
                assert_eq!([own_to_new, own_to_old, other_to_old], [14, 0, 14]);
                assert_ne!(other_to_new, 0);
            } else {
                assert_eq!([own_to_new, own_to_old, other_to_new], [0, 14, 14]);
                assert_ne!(other_to_old, 0);
            }
        }
    }

    #[test]
    fn distances_count_from_the_longer_trailer() {
        let numbers = numbers_of(&distances());
        assert_eq!(numbers[..4], [15; 4]);
        // K, the mark, n: converted from each kind, and read if it tells the cycle.
        let converted = [3, 14, 1];
        let both = [3, 3, 14, 14, 1, 1];
        assert_eq!(numbers[4..7], converted);
        assert_eq!(numbers[7..10], converted);
        assert_eq!(numbers[10..16], both);
        assert_eq!(numbers[16..], both);
    }

    #[test]
    fn notes_have_up_to_255_bytes() {
        let of_kind = [0, 0, 0, 0, 15, 15, 15, 0, 16];
        assert_eq!(numbers_of(&notes()), [of_kind, of_kind].concat());
    }

    #[test]
    fn rooms_come_after_the_cycle() {
        let tried = [4, 4, 0, 0];
        let lost = [18; 4];
        let owed = [tried, tried, tried, lost, tried, lost].concat();
        assert_eq!(numbers_of(&rooms()), owed);
    }

    /// Written, converted and read with the larger of r and m and with 64, then converted from the
    /// old kind.
    #[test]
    fn files_without_rows_go_there_and_back() {
        let of_kind = [0, 0, 0, 0, 18, 0, 0];
        assert_eq!(numbers_of(&round_trips()), of_kind.repeat(4));
    }

    #[test]
    fn longest_files_go_there_and_back() {
        let inputs = longest();
        assert_eq!(numbers_of(&inputs), [0; 8]);
        let rooms: Vec<Vec<u8>> = inputs
            .iter()
            .map(|input| answer_of(&Plain, input).1)
            .collect();
        let lengths: Vec<usize> = rooms.iter().map(Vec::len).collect();
        assert_eq!(lengths, [4365, 7437, 4363, 4365, 0, 7435, 7437, 0]);
        // What one conversion makes is what the other is given.
        for (input, made) in [(0, 2), (1, 5), (2, 0), (5, 1)] {
            let given = match &inputs[input] {
                Input::ConvertToNew { file, .. } | Input::ConvertToOld { file, .. } => file,
                other => panic!("{:?} is no conversion", other.entry()),
            };
            assert_eq!(rooms[made], *given);
        }
    }
}
