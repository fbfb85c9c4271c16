//! Files for the listing program, first those of kinds 1 and 2, then those that tell the cycle. They
//! are laid out by `inputs.rs`, of tables that other groups have too, and the refused ones are made by
//! `faulty.rs`.

use super::builders::{network, planned};
use super::cycles::{BY_THREE, BY_TWO};
use super::from_documents::{example_file, CASE_3, CASE_4, TABLE_ONE};
use super::with_cycle::case_4_by_five;
use crate::faulty::{input_with, Fault};
use crate::inputs::{file_of, filled, setting_of, Input};
use crate::ladders::{largest_ladder, LARGEST_TIGHT};
use crate::refusals::Asked;
use crate::{Kind, Network, CALL_BYTES, CYCLE_BYTES, LONGEST_FILE, LONGEST_NOTE};

/// Files of kinds 1 and 2 that are listed, small and large; each refusal, by the reader and by the
/// planner; and files around the greatest length.
pub fn listed_files() -> Vec<Vec<u8>> {
    [
        small_files(),
        counts_of_more_digits(),
        large_files(),
        refused_files(),
    ]
    .concat()
}

/// Files that tell the cycle: listed, small and large; refused by the reader and by the planner; and
/// files around the greatest length.
pub fn listed_with_cycle() -> Vec<Vec<u8>> {
    [
        small_with_cycle(),
        longest_with_cycle(),
        refused_with_cycle(),
    ]
    .concat()
}

fn calls_file(net: Network, calls: &[u8]) -> Vec<u8> {
    file_of(Kind::Calls, net, &[], calls, &[])
}

fn small_files() -> Vec<Vec<u8>> {
    let table_one = network(4, 4, 3);
    vec![
        example_file(),
        // Nothing at all, and one byte.
        Vec::new(),
        vec![0x57],
        // Planned, with a note of one byte.
        file_of(
            Kind::Planned,
            network(2, 2, 2),
            &[7],
            &[0, 0, 1, 0],
            &[1, 1, 0],
        ),
        // Refused by the planner: an overfull table.
        calls_file(network(2, 1, 1), &[0, 0, 0, 0, 0, 1, 0, 1]),
        // The largest sizes, without calls, of kinds 1 and 2.
        calls_file(network(16, 32, 64), &[]),
        file_of(Kind::Planned, network(16, 32, 64), &[], &[], &[]),
        // Document 004, Table I, with its settings.
        file_of(
            Kind::Planned,
            table_one,
            b"Table I",
            &TABLE_ONE,
            &planned(table_one, &TABLE_ONE),
        ),
    ]
}

/// Numbers of rows for which K, or the last row, is the first number of its digits, and those before.
const COUNTS: [usize; 9] = [9, 10, 11, 99, 100, 101, 999, 1000, 1001];

/// So many first rows of a full table.
fn counts_of_more_digits() -> Vec<Vec<u8>> {
    let calls = largest_ladder();
    COUNTS
        .iter()
        .map(|count| calls_file(LARGEST_TIGHT, &calls[..CALL_BYTES * count]))
        .collect()
}

/// The largest network, every channel in use, each row on a central of two digits: with the longest
/// note the longest file, and nearly the longest text.
fn longest_file(kind: Kind) -> Vec<u8> {
    let net = network(16, 32, 64);
    let mut calls = Vec::new();
    let mut settings = Vec::new();
    for module in 0..64 {
        for channel in 0..16 {
            let call = [module, channel, (module + channel) % 64, channel];
            calls.extend(call);
            settings.extend(setting_of(net, &call, 16 + usize::from(channel)));
        }
    }
    file_of(kind, net, &filled(LONGEST_NOTE), &calls, &settings)
}

/// Bytes of the longest file that tells no cycle.
const LONGEST_OF_OLD: usize = LONGEST_FILE - CYCLE_BYTES;

/// Full tables, calls only and planned; the longest file of kind 2 with one byte in front, which is
/// not too long, but its note is; with many bytes; and bytes without a trailer, as many as that file
/// has and one more.
fn large_files() -> Vec<Vec<u8>> {
    let longest = longest_file(Kind::Planned);
    let beyond = 8000 - longest.len();
    vec![
        calls_file(LARGEST_TIGHT, &largest_ladder()),
        longest.clone(),
        [filled(1), longest.clone()].concat(),
        [filled(beyond), longest].concat(),
        vec![0; LONGEST_OF_OLD],
        vec![0; LONGEST_OF_OLD + 1],
    ]
}

/// Each refusal of the reader, for kinds 1 and 2, in each way that it is made.
fn refused_files() -> Vec<Vec<u8>> {
    let mut list = Vec::new();
    for asked in [Asked::Read(Kind::Calls), Asked::Read(Kind::Planned)] {
        for &number in asked.order() {
            for &way in asked.ways(number) {
                if let Input::Read { file } = input_with(asked, &[Fault { number, way }]) {
                    list.push(file);
                }
            }
        }
    }
    list
}

fn small_with_cycle() -> Vec<Vec<u8>> {
    let by_three = network(2, 2, 2).with_cycle(3);
    let case_4 = network(2, 2, 3);
    let planned_case_4 = planned(case_4, &CASE_4);
    let overfull = [0, 0, 0, 0, 0, 1, 0, 1];
    let example = case_4_by_five();
    vec![
        example.clone(),
        // The same with W the larger of r and m, calls only and planned.
        file_of(Kind::CallsWithCycle, case_4, &[7], &CASE_4, &[]),
        file_of(
            Kind::PlannedWithCycle,
            case_4,
            &[],
            &CASE_4,
            &planned_case_4,
        ),
        // Case 3 with three wavelengths: planned by them, and accepted by them.
        file_of(Kind::CallsWithCycle, by_three, &[], &CASE_3, &[]),
        file_of(Kind::PlannedWithCycle, by_three, &[], &CASE_3, &BY_THREE),
        file_of(Kind::PlannedWithCycle, by_three, &[], &CASE_3, &BY_TWO),
        // The most wavelengths, and one more.
        file_of(
            Kind::CallsWithCycle,
            network(1, 1, 1).with_cycle(64),
            &[],
            &[],
            &[],
        ),
        file_of(
            Kind::CallsWithCycle,
            network(1, 1, 1).with_cycle(65),
            &[],
            &[],
            &[],
        ),
        // Refused by the planner: an overfull table.
        file_of(
            Kind::CallsWithCycle,
            network(2, 1, 1).with_cycle(2),
            &[],
            &overfull,
            &[],
        ),
        // The example's last 13 bytes, and its trailer alone.
        example[example.len() - 13..].to_vec(),
        example[example.len() - 14..].to_vec(),
    ]
}

/// The longest file of kind 4, and one byte more; bytes without a trailer, as many as that file has
/// and one more; and the longest file of kind 2 with two bytes in front, which is not too long, but
/// its note is.
fn longest_with_cycle() -> Vec<Vec<u8>> {
    let longest = longest_file(Kind::PlannedWithCycle);
    vec![
        longest.clone(),
        [filled(1), longest].concat(),
        vec![0; LONGEST_FILE],
        vec![0; LONGEST_FILE + 1],
        [filled(2), longest_file(Kind::Planned)].concat(),
    ]
}

/// Each refusal of the reader but 3, for kinds 3 and 4.
fn refused_with_cycle() -> Vec<Vec<u8>> {
    let mut list = Vec::new();
    for kind in Kind::NEW {
        let asked = Asked::Read(kind);
        for &number in asked.order().iter().filter(|&&number| number != 3) {
            for &way in asked.ways_in_pairs(number) {
                if let Input::Read { file } = input_with(asked, &[Fault { number, way }]) {
                    list.push(file);
                }
            }
        }
    }
    list
}

#[cfg(test)]
mod tests {
    use super::*;
    use crate::plain::listing;

    fn text_of(file: &[u8]) -> String {
        String::from_utf8(listing(file)).expect("a listing is plain text")
    }

    /// The first line and the last, and how many there are.
    fn outline(file: &[u8]) -> (String, String, usize) {
        let text = text_of(file);
        let lines: Vec<&str> = text.lines().collect();
        (
            lines[0].to_string(),
            lines[lines.len() - 1].to_string(),
            lines.len(),
        )
    }

    #[test]
    fn small_files_are_listed() {
        let texts: Vec<String> = small_files().iter().map(|file| text_of(file)).collect();
        let owed = [
            "2 2 3 4 2\n0 0 0 1 1 1 0 0\n1 0 1 0 0 1 1 0\n2 1 0 1 0 2 2 0\n3 1 1 2 1 2 1 1\n",
            "refused 14 row 0\n",
            "refused 14 row 0\n",
            "2 2 2 1 -\n0 0 0 1 1 0 1 0\n",
            "refused 8 row 1\n",
            "16 32 64 0 0\n",
            "16 32 64 0 -\n",
        ];
        assert_eq!(texts[..7], owed);
        assert!(texts[7].starts_with("4 4 3 12 -\n0 0 0 0 0 0 0 0\n1 0 1 1 1 2 1 0\n"));
        assert!(texts[7].ends_with("10 2 2 0 2 3 1 2\n11 2 3 1 3 0 1 3\n"));
    }

    #[test]
    fn counts_and_rows_have_as_many_digits_as_they_need() {
        for (file, count) in counts_of_more_digits().iter().zip(COUNTS) {
            let (first, last, lines) = outline(file);
            assert!(first.starts_with(&format!("16 16 64 {} ", count)));
            assert!(last.starts_with(&format!("{} ", count - 1)));
            assert_eq!(lines, count + 1);
        }
    }

    #[test]
    fn large_files_are_listed_unless_they_are_too_long() {
        let files = large_files();
        let lengths: Vec<usize> = files.iter().map(Vec::len).collect();
        assert_eq!(lengths, [4108, 7435, 7436, 8000, 7435, 7436]);
        let (first, last, lines) = outline(&files[0]);
        assert_eq!((&first[..], lines), ("16 16 64 1024 2646", 1025));
        assert!(last.starts_with("1023 0 "));
        let (first, last, lines) = outline(&files[1]);
        assert_eq!((&first[..], lines), ("16 32 64 1024 -", 1025));
        assert_eq!(last, "1023 63 15 30 31 45 14 15");
        assert_eq!(text_of(&files[2]), "refused 15 row 0\n");
        assert_eq!(text_of(&files[3]), "too long\n");
        assert_eq!(text_of(&files[4]), "refused 14 row 0\n");
        assert_eq!(text_of(&files[5]), "refused 14 row 0\n");
    }

    #[test]
    fn every_refusal_of_the_reader_is_told() {
        let texts: Vec<String> = refused_files().iter().map(|file| text_of(file)).collect();
        for number in [14, 1, 3, 15, 5, 6, 7, 9, 10, 11, 12, 13] {
            let refused = format!("refused {} row ", number);
            assert!(texts.iter().any(|text| text.starts_with(&refused)));
        }
        assert!(texts.iter().all(|text| text.starts_with("refused ")));
    }

    #[test]
    fn small_files_that_tell_the_cycle_are_listed() {
        let texts: Vec<String> = small_with_cycle()
            .iter()
            .map(|file| text_of(file))
            .collect();
        let case_4 = text_of(&example_file());
        assert_eq!(texts[..2], [case_4.clone(), case_4.clone()]);
        assert_eq!(texts[2], case_4.replacen("4 2\n", "4 -\n", 1));
        let rows = "0 0 0 0 0 0 0 0\n1 1 0 1 0 1 1 0\n2 1 1 2 1 1 0 1\n3 0 1 1 1 2 1 1\n";
        let owed = [
            &format!("2 2 2 4 0\n{}", rows)[..],
            &format!("2 2 2 4 -\n{}", rows),
            "refused 10 row 2\n",
            "1 1 1 0 0\n",
            "refused 1 row 0\n",
            "refused 8 row 1\n",
            "refused 14 row 0\n",
            "refused 15 row 0\n",
        ];
        assert_eq!(texts[3..], owed);
    }

    #[test]
    fn longest_files_that_tell_the_cycle_are_listed() {
        let files = longest_with_cycle();
        let lengths: Vec<usize> = files.iter().map(Vec::len).collect();
        assert_eq!(lengths, [7437, 7438, 7437, 7438, 7437]);
        assert_eq!(text_of(&files[0]), text_of(&longest_file(Kind::Planned)));
        let texts: Vec<String> = files[1..].iter().map(|file| text_of(file)).collect();
        let owed = [
            "too long\n",
            "refused 14 row 0\n",
            "too long\n",
            "refused 15 row 0\n",
        ];
        assert_eq!(texts, owed);
    }

    #[test]
    fn refusals_of_files_that_tell_the_cycle_are_told() {
        let files = refused_with_cycle();
        let texts: Vec<String> = files.iter().map(|file| text_of(file)).collect();
        for number in [14, 1, 15, 5, 6, 7, 9, 10, 11, 12, 13] {
            let refused = format!("refused {} row ", number);
            assert!(texts.iter().any(|text| text.starts_with(&refused)));
        }
        assert!(texts.iter().all(|text| text.starts_with("refused ")));
    }
}
