//! Files of all kinds at their limits, by Plain and Swift: written, read, and there and back both ways;
//! and what the drawn files are.

use compare::comparison::{answer_of_both, compare_all};
use compare::inputs::{drawn_of_files, file_of, filled, settings_length, Input};
use compare::ladders::{largest_ladder, LARGEST_TIGHT};
use compare::plain::Plain;
use compare::swift::Swift;
use compare::{Entries, Kind, Network, LONGEST_FILE};

/// Fewer inputs where the code is compiled without speed.
const DRAWN: usize = if cfg!(debug_assertions) {
    20_000
} else {
    60_000
};

/// The network and the calls of the first files: no rows and all that there can be, with a cycle that
/// is the larger of r and m, and with 64, where it can be another.
fn networks_and_calls() -> Vec<(Network, Vec<u8>)> {
    let small = Network::of_sizes(2, 3, 2);
    let nearly = Network::of_sizes(16, 16, 63);
    let most_of_nearly: Vec<u8> = (0..63u8)
        .flat_map(|module| (0..16).map(move |channel| (module, channel)))
        .flat_map(|(module, channel)| [module, channel, (module + channel) % 63, channel])
        .collect();
    vec![
        (small, Vec::new()),
        (small.with_cycle(64), Vec::new()),
        (LARGEST_TIGHT, Vec::new()),
        (LARGEST_TIGHT, largest_ladder()),
        (nearly, most_of_nearly.clone()),
        (nearly.with_cycle(64), most_of_nearly),
    ]
}

/// Written, read and converted, with room for just what is needed, for every kind. That the files go
/// there and back is a part of each comparison.
#[test]
fn files_at_their_limits_go_there_and_back() {
    let mut longest = 0;
    for (net, calls) in networks_and_calls() {
        let mut planned = vec![0; settings_length(&calls)];
        assert_eq!(Plain.plan(net, &calls, &mut planned).number, 0);
        for note in [0, 255].map(filled) {
            for kind in Kind::ALL {
                let settings: &[u8] = if kind.has_settings() { &planned } else { &[] };
                let file = file_of(kind, net, &note, &calls, settings);
                longest = longest.max(file.len());
                assert_written(kind, net, [&note, &calls, settings], &file);
                let has_place = kind.tells_cycle() || net.cycle() == net.least_cycle();
                if has_place {
                    assert_converted(kind, net, &file);
                }
            }
        }
    }
    assert_eq!(longest, LONGEST_FILE);
}

/// The file is written where it has a place for the cycle, and otherwise refused by 18.
fn assert_written(kind: Kind, net: Network, parts: [&[u8]; 3], file: &[u8]) {
    let [note, calls, settings] = parts.map(<[u8]>::to_vec);
    let input = Input::Write {
        kind,
        net,
        note,
        calls,
        settings,
        out: filled(file.len()),
    };
    let seen = compare_all(&Plain, &Swift, &input).expect("both answer alike");
    let has_place = kind.tells_cycle() || net.cycle() == net.least_cycle();
    assert_eq!(seen.number, if has_place { 0 } else { 18 });
    let (_, room) = answer_of_both(&Plain, &Swift, &input).expect("both answer alike");
    if has_place {
        assert_eq!(room, file);
    }
}

/// The file is read, and converted where the cycle is not lost.
fn assert_converted(kind: Kind, net: Network, file: &[u8]) {
    let file = file.to_vec();
    let read = Input::Read { file: file.clone() };
    let seen = compare_all(&Plain, &Swift, &read).expect("both answer alike");
    assert_eq!(seen.number, 0);
    let front = file.len() - kind.trailer_bytes();
    let out = filled(front + kind.converted().trailer_bytes());
    let input = if kind.tells_cycle() {
        Input::ConvertToOld { file, out }
    } else {
        Input::ConvertToNew { file, out }
    };
    let seen = compare_all(&Plain, &Swift, &input).expect("both answer alike");
    let is_lost = net.cycle() != net.least_cycle();
    assert_eq!(seen.number, if is_lost { 18 } else { 0 });
}

/// Drawn files have every length around the trailers, every kind and those that there aren't, each
/// with two bytes too few and too many, each W at its limits, and spare bytes; rooms are none, a byte
/// too short, exact and longer.
#[test]
fn drawn_files_are_of_all_sorts() {
    let mut lengths = [0; 16];
    let mut kinds = [0; 256];
    let mut cycles = [0; 256];
    let mut at_sizes = [0; 4];
    let mut spares = [0; 3];
    let mut rooms = [0; 4];
    for input in drawn_of_files(3).take(DRAWN) {
        let (file, room) = match input {
            Input::Read { file } => (file, None),
            Input::ConvertToNew { file, out } => {
                let needed = file.len() + 2;
                (file, Some((out.len(), needed)))
            }
            Input::ConvertToOld { file, out } => {
                let needed = file.len().saturating_sub(2);
                (file, Some((out.len(), needed)))
            }
            _ => continue,
        };
        if let Some((room, needed)) = room {
            rooms[0] += usize::from(room == 0);
            rooms[1] += usize::from(room + 1 == needed);
            rooms[2] += usize::from(room == needed);
            rooms[3] += usize::from(room > needed);
        }
        if let Some(count) = lengths.get_mut(file.len()) {
            *count += 1;
        }
        if file.len() < 14 {
            continue;
        }
        let trailer = &file[file.len() - 14..];
        kinds[usize::from(trailer[5])] += 1;
        if trailer[5] == 3 || trailer[5] == 4 {
            let [w, spare, m, r] = [trailer[0], trailer[1], trailer[3], trailer[4]];
            cycles[usize::from(w)] += 1;
            at_sizes[0] += usize::from(w.checked_add(1) == Some(r));
            at_sizes[1] += usize::from(w.checked_add(1) == Some(m));
            at_sizes[2] += usize::from(w == r.max(m));
            at_sizes[3] += usize::from(w > r.max(m));
            spares[0] += usize::from(spare == 0);
            spares[1] += usize::from(spare == 1);
            spares[2] += usize::from(spare == 255);
        }
    }
    assert!(lengths.iter().all(|&count| count > 0), "{:?}", lengths);
    for kind in [0, 1, 2, 3, 4, 5, 255] {
        assert!(kinds[kind] > 10, "{} {}", kind, kinds[kind]);
    }
    for cycle in [0, 63, 64, 65, 255] {
        assert!(cycles[cycle] > 0, "{}", cycle);
    }
    assert!(at_sizes.iter().all(|&count| count > 10), "{:?}", at_sizes);
    assert!(spares.iter().all(|&count| count > 10), "{:?}", spares);
    assert!(rooms.iter().all(|&count| count > 100), "{:?}", rooms);
}
