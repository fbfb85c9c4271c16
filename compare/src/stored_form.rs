//! How an input and its answer are stored. The answers are those of `plain.rs`, given by way of
//! `comparison.rs`; which inputs are stored is the matter of `catalogue.rs`.
//!
//! An input has a head of 53 bytes: the entry by one byte; n, m, r, w and the row to be dropped by
//! eight bytes each; the lengths of note, calls, settings, room, second room and third room by two
//! bytes each; all with the high byte first. The bytes of these six follow. The entries are 0 plan,
//! 1 accept, 2 read, 3 write_calls, 4 write_planned, 5 list, 6 add, 7 drop, 8 write_calls_with_cycle,
//! 9 write_planned_with_cycle, 10 convert_to_new and 11 convert_to_old. The row is 0 where none is to
//! be dropped. A file to be read, converted or listed stands in the place of the calls, and has
//! zeros for the network; the settings that the planner is to write stand in the place of the room.
//! The call to be added stands in the place of the note, and the rooms of an add and of a drop are
//! those for the calls, for the settings and for the rows moved.
//!
//! The answer is a line: the numbers, each with a space after it, then the bytes of the rooms as
//! they are afterwards, one room after the other, by two hexadecimal digits each. The numbers of a
//! read are number, row, n, m, r, w, kind, K, and where note, calls and settings begin. For a file
//! to be listed the numbers are the length of the text and how many bytes of its buffer beyond the
//! text were changed, which is always 0, and the bytes are those of the text.

use crate::comparison::answer_of;
use crate::inputs::{Entry, Input};
use crate::plain::{listing, Plain};
use crate::Network;
use std::fmt::Write;

/// A stored input: of one of the eleven entries, or a file for the listing program, which is no entry.
#[derive(Clone, PartialEq, Eq, Debug)]
pub enum Stored {
    Input(Input),
    List { file: Vec<u8> },
}

/// The listing program's number among the entries of stored inputs.
const LIST: u8 = 5;

/// An entry's number among the entries of stored inputs.
fn number_of(entry: Entry) -> u8 {
    match entry {
        Entry::Plan => 0,
        Entry::Accept => 1,
        Entry::Read => 2,
        Entry::WriteCalls => 3,
        Entry::WritePlanned => 4,
        Entry::Add => 6,
        Entry::Drop => 7,
        Entry::WriteCallsWithCycle => 8,
        Entry::WritePlannedWithCycle => 9,
        Entry::ConvertToNew => 10,
        Entry::ConvertToOld => 11,
    }
}

/// The head's entry, network and row, and the six parts of an input in their stored order.
struct Parts<'a> {
    entry: u8,
    net: Network,
    row: usize,
    note: &'a [u8],
    calls: &'a [u8],
    settings: &'a [u8],
    rooms: [&'a [u8]; 3],
}

/// The parts of an entry and its network, with row 0, all six without bytes.
fn no_bytes(entry: u8, net: Network) -> Parts<'static> {
    Parts {
        entry,
        net,
        row: 0,
        note: &[],
        calls: &[],
        settings: &[],
        rooms: [&[]; 3],
    }
}

/// A file alone, in the place of the calls.
fn parts_of_file(entry: u8, file: &[u8]) -> Parts<'_> {
    Parts {
        calls: file,
        ..no_bytes(entry, Network::of_sizes(0, 0, 0))
    }
}

fn parts_of(stored: &Stored) -> Parts<'_> {
    let input = match stored {
        Stored::Input(input) => input,
        Stored::List { file } => return parts_of_file(LIST, file),
    };
    let entry = number_of(input.entry());
    match input {
        Input::Plan {
            net,
            calls,
            settings,
        } => Parts {
            calls,
            rooms: [settings, &[], &[]],
            ..no_bytes(entry, *net)
        },
        Input::Accept {
            net,
            calls,
            settings,
        } => Parts {
            calls,
            settings,
            ..no_bytes(entry, *net)
        },
        Input::Read { file } => parts_of_file(entry, file),
        Input::Write {
            net,
            note,
            calls,
            settings,
            out,
            ..
        } => Parts {
            note,
            calls,
            settings,
            rooms: [out, &[], &[]],
            ..no_bytes(entry, *net)
        },
        Input::Add {
            net,
            calls,
            settings,
            call,
            calls_after,
            settings_after,
            moved_rows,
        } => Parts {
            note: call,
            calls,
            settings,
            rooms: [calls_after, settings_after, moved_rows],
            ..no_bytes(entry, *net)
        },
        Input::Drop {
            net,
            calls,
            settings,
            row,
            calls_after,
            settings_after,
        } => Parts {
            row: *row,
            calls,
            settings,
            rooms: [calls_after, settings_after, &[]],
            ..no_bytes(entry, *net)
        },
        Input::ConvertToNew { file, out } | Input::ConvertToOld { file, out } => Parts {
            rooms: [out, &[], &[]],
            ..parts_of_file(entry, file)
        },
    }
}

/// The bytes of a stored input; none where a length doesn't fit two bytes. Sizes, cycle and row are
/// stored whole.
pub fn stored_input(stored: &Stored) -> Option<Vec<u8>> {
    let parts = parts_of(stored);
    let net = parts.net;
    let mut bytes = vec![parts.entry];
    for number in [net.n, net.m, net.r, net.w, parts.row] {
        bytes.extend((number as u64).to_be_bytes());
    }
    let [room, second_room, third_room] = parts.rooms;
    let contents = [
        parts.note,
        parts.calls,
        parts.settings,
        room,
        second_room,
        third_room,
    ];
    for content in contents {
        bytes.extend(u16::try_from(content.len()).ok()?.to_be_bytes());
    }
    bytes.extend(contents.concat());
    Some(bytes)
}

/// The line that answers an input, by the plain implementation.
pub fn stored_answer(stored: &Stored) -> String {
    match stored {
        Stored::Input(input) => {
            let (answer, rooms) = answer_of(&Plain, input);
            answer_line(&answer.numbers(), &rooms)
        }
        Stored::List { file } => {
            let text = listing(file);
            answer_line(&[text.len(), 0], &text)
        }
    }
}

fn answer_line(numbers: &[usize], bytes: &[u8]) -> String {
    let mut line = String::new();
    for number in numbers {
        write!(line, "{} ", number).expect("a string takes all that is written");
    }
    for byte in bytes {
        write!(line, "{:02x}", byte).expect("a string takes all that is written");
    }
    line.push('\n');
    line
}

/// Both files of these inputs: the inputs themselves, and the lines of their answers. Inputs that
/// can't be stored are left out.
pub fn stored_files(inputs: &[Stored]) -> (Vec<u8>, String) {
    let mut questions = Vec::new();
    let mut answers = String::new();
    for stored in inputs {
        if let Some(bytes) = stored_input(stored) {
            questions.extend(bytes);
            answers.push_str(&stored_answer(stored));
        }
    }
    (questions, answers)
}

#[cfg(test)]
mod tests {
    use super::*;
    use crate::Kind;

    #[test]
    fn heads_hold_whole_sizes_and_cycles() {
        let input = Input::Write {
            kind: Kind::Planned,
            net: Network::of_sizes(3, 1 << 63, 65_537).with_cycle((1 << 32) + 5),
            note: vec![7],
            calls: vec![8; 258],
            settings: vec![],
            out: vec![9, 10],
        };
        let bytes = stored_input(&Stored::Input(input)).expect("every length fits two bytes");
        let head = [
            4, 0, 0, 0, 0, 0, 0, 0, 3, 128, 0, 0, 0, 0, 0, 0, 0, 0, 0, 0, 0, 0, 1, 0, 1, 0, 0, 0,
            1, 0, 0, 0, 5, 0, 0, 0, 0, 0, 0, 0, 0, 0, 1, 1, 2, 0, 0, 0, 2, 0, 0, 0, 0,
        ];
        assert_eq!(bytes[..53], head);
        assert_eq!(bytes[53..], [&[7][..], &[8; 258], &[9, 10]].concat());
    }

    #[test]
    fn new_calls_stand_in_the_place_of_the_note() {
        let stored = Stored::Input(Input::Add {
            net: Network::of_sizes(1, 1, 1),
            calls: vec![],
            settings: vec![],
            call: vec![0, 0, 0, 0],
            calls_after: vec![7; 4],
            settings_after: vec![8; 4],
            moved_rows: vec![9],
        });
        let bytes = stored_input(&stored).expect("every length fits two bytes");
        assert_eq!((bytes[0], &bytes[33..41]), (6, &[0; 8][..]));
        assert_eq!(bytes[41..53], [0, 4, 0, 0, 0, 0, 0, 4, 0, 4, 0, 1]);
        assert_eq!(bytes[53..], [0, 0, 0, 0, 7, 7, 7, 7, 8, 8, 8, 8, 9]);
        assert_eq!(stored_answer(&stored), "0 1 0 000000000000000809\n");
    }

    #[test]
    fn rows_to_be_dropped_are_stored_whole() {
        let stored = Stored::Input(Input::Drop {
            net: Network::of_sizes(1, 1, 1),
            calls: vec![0, 0, 0, 0],
            settings: vec![0, 0, 0],
            row: (1 << 63) + (1 << 32),
            calls_after: vec![7],
            settings_after: vec![8, 9],
        });
        let bytes = stored_input(&stored).expect("every length fits two bytes");
        assert_eq!(
            (bytes[0], &bytes[33..41]),
            (7, &[128, 0, 0, 1, 0, 0, 0, 0][..])
        );
        assert_eq!(bytes[41..53], [0, 0, 0, 4, 0, 3, 0, 1, 0, 2, 0, 0]);
        assert_eq!(bytes[53..], [0, 0, 0, 0, 0, 0, 0, 7, 8, 9]);
        assert_eq!(stored_answer(&stored), "17 0 070809\n");
    }

    /// A file without rows: read, written and converted.
    #[test]
    fn files_that_tell_the_cycle_are_stored() {
        let file = vec![2, 0, 1, 1, 1, 3, 0, 0, 0, 0, 0, 0, 0x41, 0x57];
        let read = Stored::Input(Input::Read { file: file.clone() });
        assert_eq!(stored_answer(&read), "0 0 1 1 1 2 3 0 0 0 0 \n");
        let write = Stored::Input(Input::Write {
            kind: Kind::CallsWithCycle,
            net: Network::of_sizes(1, 1, 1).with_cycle(2),
            note: vec![],
            calls: vec![],
            settings: vec![],
            out: vec![9; 15],
        });
        let bytes = stored_input(&write).expect("every length fits two bytes");
        assert_eq!(bytes[0], 8);
        assert_eq!(
            stored_answer(&write),
            "0 0 020001010103000000000000415709\n"
        );
        for (to_new, number) in [(true, 10), (false, 11)] {
            let (file, out) = (file.clone(), vec![7, 8]);
            let input = if to_new {
                Input::ConvertToNew { file, out }
            } else {
                Input::ConvertToOld { file, out }
            };
            let bytes = stored_input(&Stored::Input(input)).expect("every length fits two bytes");
            assert_eq!(bytes[..41], [&[number][..], &[0; 40]].concat());
            assert_eq!(bytes[41..53], [0, 0, 0, 14, 0, 0, 0, 2, 0, 0, 0, 0]);
            assert_eq!(
                bytes[53..67],
                [2, 0, 1, 1, 1, 3, 0, 0, 0, 0, 0, 0, 0x41, 0x57]
            );
            assert_eq!(bytes[67..], [7, 8]);
        }
    }

    #[test]
    fn files_to_be_listed_stand_in_the_place_of_the_calls() {
        let stored = Stored::List { file: vec![6] };
        let bytes = stored_input(&stored).expect("every length fits two bytes");
        assert_eq!(bytes[..41], [&[5][..], &[0; 40]].concat());
        assert_eq!(bytes[41..], [0, 0, 0, 1, 0, 0, 0, 0, 0, 0, 0, 0, 6]);
        let text = b"refused 14 row 0\n";
        let digits: String = text.iter().map(|byte| format!("{:02x}", byte)).collect();
        assert_eq!(stored_answer(&stored), format!("17 0 {}\n", digits));
    }
}
