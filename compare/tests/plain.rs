//! Independent checks of the plain implementation: the moved count is counted from outside, the choice
//! of centrals doesn't depend on the cycle, and files go to and fro. What the light does is checked in
//! `light.rs`.

use compare::inputs::{drawn_of_files, drawn_of_tables, with_kind_byte, Input};
use compare::ladders::{calls_of_pairs, ladder, largest_ladder, path, LARGEST_TIGHT};
use compare::plain::{chain_lengths, listing, read_taking, Plain};
use compare::{Entries, Kind, Network, Planned, Told};

/// Fewer inputs where the code is compiled without speed.
const DRAWN: usize = if cfg!(debug_assertions) {
    3_000
} else {
    60_000
};

// The moved count.

/// Plans a table without its last row, and counts the earlier rows on another central: summed over
/// all tables that begin this one, these are the calls moved.
fn moved_from_outside(net: Network, calls: &[u8]) -> usize {
    let mut moved = 0;
    let mut before: Vec<u8> = Vec::new();
    for count in 1..=calls.len() / 4 {
        let mut after = vec![0; 3 * count];
        Plain.plan(net, &calls[..4 * count], &mut after);
        moved += before
            .chunks_exact(3)
            .zip(after.chunks_exact(3))
            .filter(|(old, new)| old != new)
            .count();
        before = after;
    }
    moved
}

#[test]
fn moved_counts_the_rows_that_change() {
    let mut counted = 0;
    for input in drawn_of_tables(13).take(DRAWN) {
        if let Input::Plan { net, calls, .. } = input {
            let mut settings = vec![0; 3 * (calls.len() / 4)];
            let answer = Plain.plan(net, &calls, &mut settings);
            if answer.number == 0 && calls.len() <= 4 * 60 {
                assert_eq!(answer.moved, moved_from_outside(net, &calls));
                counted += answer.moved;
            }
        }
    }
    assert!(counted > DRAWN / 50);
}

#[test]
fn chains_are_long_where_they_are_meant_to_be() {
    let net = Network::of_sizes(2, 2, 64);
    assert_eq!(chain_lengths(net, &calls_of_pairs(&path(64))), [124]);
    let growing = chain_lengths(net, &calls_of_pairs(&ladder(64)));
    assert_eq!(growing.len(), 42);
    assert!(growing.windows(2).all(|two| two[0] < two[1]));
    assert_eq!(growing[41], 125);
    assert_eq!(chain_lengths(LARGEST_TIGHT, &largest_ladder()), growing);
}

// The cycle.

/// The planner's answer, and the centrals that it writes.
fn plan_centrals(net: Network, calls: &[u8]) -> (Planned, Vec<u8>) {
    let mut settings = vec![0; 3 * (calls.len() / 4)];
    let answer = Plain.plan(net, calls, &mut settings);
    (answer, settings.chunks_exact(3).map(|row| row[1]).collect())
}

/// With any cycle within its limits the planner answers as by the three sizes alone, and chooses the
/// same centrals.
#[test]
fn centrals_do_not_depend_on_the_cycle() {
    let mut compared = 0;
    for input in drawn_of_tables(16).take(DRAWN) {
        if let Input::Plan { net, calls, .. } = input {
            let least = net.least_cycle();
            if net.cycle() > least && net.cycle() <= Network::MOST_WAVELENGTHS {
                let by_sizes = plan_centrals(net.with_cycle(least), &calls);
                assert_eq!(plan_centrals(net, &calls), by_sizes);
                compared += 1;
            }
        }
    }
    assert!(compared > DRAWN / 20, "{}", compared);
}

/// The writer of files of kind 1 answers with any cycle within its limits as with the larger of r and
/// m, but for 18 where it would have written.
#[test]
fn another_cycle_is_refused_in_place_of_writing_calls() {
    let mut refused = 0;
    for input in drawn_of_tables(17).take(DRAWN) {
        if let Input::Write {
            kind: Kind::Calls,
            net,
            note,
            calls,
            settings,
            mut out,
        } = input
        {
            let by_sizes = net.with_cycle(net.least_cycle());
            let answer = Plain.write_calls(net, &note, &calls, &settings, &mut out);
            let other = Plain.write_calls(by_sizes, &note, &calls, &settings, &mut out);
            match answer.number {
                1 => {}
                18 => {
                    assert!(net != by_sizes && answer.row == 0 && other.number == 0);
                    refused += 1;
                }
                _ => assert_eq!(answer, other),
            }
        }
    }
    assert!(refused > DRAWN / 200, "{}", refused);
}

/// The writer of files of kind 2 refuses settings just as acceptance does with the cycle as given, and
/// by 18 only what acceptance passes. It writes only with the larger of r and m.
#[test]
fn another_cycle_is_refused_after_the_settings() {
    let mut refused = 0;
    for input in drawn_of_tables(18).take(DRAWN) {
        if let Input::Write {
            kind: Kind::Planned,
            net,
            note,
            calls,
            settings,
            mut out,
        } = input
        {
            let answer = Plain.write_planned(net, &note, &calls, &settings, &mut out);
            let accepted = Plain.accept(net, &calls, &settings);
            match answer.number {
                0 => assert_eq!(net.cycle(), net.least_cycle()),
                9..=13 => assert_eq!(answer, accepted),
                18 => {
                    assert!(net.cycle() > net.least_cycle() && answer.row == 0);
                    assert_eq!(accepted.number, 0);
                    refused += 1;
                }
                _ => {}
            }
        }
    }
    assert!(refused > DRAWN / 200, "{}", refused);
}

// Files.

/// The kind that a file is told to have.
fn kind_of(told: &Told) -> Kind {
    Kind::ALL[told.kind - 1]
}

fn network_of(told: &Told) -> Network {
    Network {
        n: told.n,
        m: told.m,
        r: told.r,
        w: told.w,
    }
}

/// The note, the calls and the settings of a file that is read.
fn parts_of<'a>(file: &'a [u8], told: &Told) -> [&'a [u8]; 3] {
    let trailer_at = file.len() - kind_of(told).trailer_bytes();
    [
        &file[told.note_at..told.calls_at],
        &file[told.calls_at..told.settings_at],
        &file[told.settings_at..trailer_at],
    ]
}

/// Drawn files of all kinds that are read, and what they tell.
fn files_read(seed: u64, count: usize) -> impl Iterator<Item = (Vec<u8>, Told)> {
    drawn_of_files(seed).take(count).filter_map(|input| {
        let file = match input {
            Input::Read { file }
            | Input::ConvertToNew { file, .. }
            | Input::ConvertToOld { file, .. } => file,
            _ => return None,
        };
        let told = Plain.read(&file);
        Some((file, told)).filter(|_| told.number == 0)
    })
}

#[test]
fn files_read_and_written_again_are_the_same() {
    let mut read = [0; 4];
    for (file, told) in files_read(14, DRAWN / 2) {
        let mut out = vec![0; file.len()];
        let parts = parts_of(&file, &told);
        let answer = Plain.write(kind_of(&told), network_of(&told), parts, &mut out);
        assert_eq!((answer.number, answer.row), (0, told.count));
        assert_eq!(out, file);
        read[told.kind - 1] += 1;
    }
    assert!(read.iter().all(|&count| count > DRAWN / 100), "{:?}", read);
}

/// A file written and read tells what was written, whatever the kind.
#[test]
fn files_written_and_read_tell_what_was_written() {
    let mut written = [0; 4];
    let drawn = drawn_of_tables(15).zip(drawn_of_files(15));
    for input in drawn.take(DRAWN / 2).flat_map(|(one, other)| [one, other]) {
        if let Input::Write {
            kind,
            net,
            note,
            calls,
            settings,
            mut out,
        } = input
        {
            let parts = [&note[..], &calls, &settings];
            if Plain.write(kind, net, parts, &mut out).number == 0 {
                let length = parts.concat().len() + kind.trailer_bytes();
                let told = Plain.read(&out[..length]);
                let owed = Told {
                    number: 0,
                    row: calls.len() / 4,
                    n: net.n,
                    m: net.m,
                    r: net.r,
                    w: net.w,
                    kind: kind.number(),
                    count: calls.len() / 4,
                    note_at: 0,
                    calls_at: note.len(),
                    settings_at: note.len() + calls.len(),
                };
                assert_eq!(told, owed);
                assert_eq!(parts_of(&out[..length], &told), parts);
                written[told.kind - 1] += 1;
            }
        }
    }
    assert!(
        written.iter().all(|&count| count > DRAWN / 200),
        "{:?}",
        written
    );
}

/// The conversion that takes files of a kind, with room for so many bytes.
fn converted(kind: Kind, file: &[u8], room: usize) -> (usize, Vec<u8>) {
    let mut out = vec![77; room];
    let answer = if kind.tells_cycle() {
        Plain.convert_to_old(file, &mut out)
    } else {
        Plain.convert_to_new(file, &mut out)
    };
    (answer.number, out)
}

/// Files go there and back where the old file has a place for the cycle, and tell the same on both
/// sides but for the kind; where it has none they are refused by 18, and before that by nothing.
#[test]
fn files_converted_there_and_back_are_the_same() {
    let mut seen = [0; 4];
    let mut lost = 0;
    for (file, told) in files_read(19, DRAWN / 2) {
        let kind = kind_of(&told);
        let trailer_at = file.len() - kind.trailer_bytes();
        let length = trailer_at + kind.converted().trailer_bytes();
        let (number, other) = converted(kind, &file, length);
        if told.w != told.r.max(told.m) {
            assert_eq!((number, converted(kind, &file, 0).0), (18, 18));
            lost += 1;
            continue;
        }
        assert_eq!(number, 0);
        assert_eq!(converted(kind, &file, length - 1).0, 4);
        assert_eq!(converted(kind.converted(), &other, file.len()), (0, file));
        let owed = Told {
            kind: kind.converted().number(),
            ..told
        };
        assert_eq!(Plain.read(&other), owed);
        seen[told.kind - 1] += 1;
    }
    assert!(seen.iter().all(|&count| count > DRAWN / 200), "{:?}", seen);
    assert!(lost > DRAWN / 100, "{}", lost);
}

/// A conversion answers what the reader answers, but 14 to kinds that it doesn't take, and 18 and 4
/// to what the reader reads.
#[test]
fn conversions_refuse_as_the_reader_does() {
    for input in drawn_of_files(20).take(DRAWN / 2) {
        let (file, taken, answer) = match input {
            Input::ConvertToNew { file, mut out } => {
                let answer = Plain.convert_to_new(&file, &mut out);
                (file, Kind::OLD, answer)
            }
            Input::ConvertToOld { file, mut out } => {
                let answer = Plain.convert_to_old(&file, &mut out);
                (file, Kind::NEW, answer)
            }
            _ => continue,
        };
        let told = Plain.read(&file);
        let has_kind_of = |kind: Kind| file.len() >= 12 && file[file.len() - 9] == kind as u8;
        if !taken.into_iter().any(has_kind_of) {
            assert_eq!((answer.number, answer.row), (14, 0));
        } else if told.number != 0 {
            assert_eq!((answer.number, answer.row), (told.number, told.row));
        } else {
            assert!([0, 4, 18].contains(&answer.number));
            assert_eq!(answer.row, if answer.number == 0 { told.count } else { 0 });
        }
    }
}

/// The reader of the first issue tells nothing of files of kinds 3 and 4, whole or damaged, and of
/// others what the reader tells.
#[test]
fn the_first_issue_shows_nothing_of_new_kinds() {
    let none = Told {
        number: 14,
        ..Told::default()
    };
    let mut shown = 0;
    let mut hidden = 0;
    let mut assert_shown = |file: &[u8]| {
        let told = read_taking(&Kind::OLD, file);
        let is_new = file.len() >= 12 && [3, 4].contains(&file[file.len() - 9]);
        if is_new {
            assert_eq!(told, none);
            hidden += 1;
        } else {
            assert_eq!(told, Plain.read(file));
            shown += 1;
        }
    };
    for input in drawn_of_files(24).take(DRAWN / 2) {
        match input {
            Input::Read { file }
            | Input::ConvertToNew { file, .. }
            | Input::ConvertToOld { file, .. } => {
                assert_shown(&file);
                if file.len() >= 12 {
                    assert_shown(&with_kind_byte(file.clone(), 3));
                    assert_shown(&with_kind_byte(file, 4));
                }
            }
            Input::Write {
                kind,
                net,
                note,
                calls,
                settings,
                mut out,
            } => {
                let parts = [&note[..], &calls, &settings];
                if Plain.write(kind, net, parts, &mut out).number == 0 {
                    let length = parts.concat().len() + kind.trailer_bytes();
                    assert_shown(&out[..length]);
                }
            }
            _ => {}
        }
    }
    assert!(
        shown > DRAWN / 40 && hidden > DRAWN / 8,
        "{} {}",
        shown,
        hidden
    );
}

/// A file that is converted is listed as it was.
#[test]
fn converted_files_are_listed_alike() {
    let mut listed = 0;
    for (file, told) in files_read(25, DRAWN / 10) {
        let kind = kind_of(&told);
        let length = file.len() - kind.trailer_bytes() + kind.converted().trailer_bytes();
        let (number, other) = converted(kind, &file, length);
        if number == 0 {
            assert_eq!(listing(&other), listing(&file));
            listed += 1;
        }
    }
    assert!(listed > DRAWN / 100, "{}", listed);
}

/// A file of calls only is listed with the settings that the planner gives them by the cycle told,
/// and a planned file with its own; the cycle itself is not printed.
#[test]
fn listings_have_the_settings_of_the_cycle_told() {
    let mut by_another_cycle = 0;
    for (file, told) in files_read(26, DRAWN / 5) {
        let net = network_of(&told);
        let [_, calls, settings] = parts_of(&file, &told);
        let mut planned = vec![0; 3 * told.count];
        let (settings, moved) = if kind_of(&told).has_settings() {
            (settings, "-".to_string())
        } else {
            let answer = Plain.plan(net, calls, &mut planned);
            if answer.number != 0 {
                continue;
            }
            (&planned[..], answer.moved.to_string())
        };
        let mut text = format!("{} {} {} {} {}\n", net.n, net.m, net.r, told.count, moved);
        let rows = calls.chunks_exact(4).zip(settings.chunks_exact(3));
        for (row, (call, setting)) in rows.enumerate() {
            let numbers = [
                call[0], call[1], setting[0], setting[1], setting[2], call[2], call[3],
            ];
            let words: Vec<String> = numbers.iter().map(u8::to_string).collect();
            text.push_str(&format!("{} {}\n", row, words.join(" ")));
        }
        assert_eq!(listing(&file), text.as_bytes());
        by_another_cycle += usize::from(net.w != net.r.max(net.m));
    }
    assert!(by_another_cycle > DRAWN / 200, "{}", by_another_cycle);
}
