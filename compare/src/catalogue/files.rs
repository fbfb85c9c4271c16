//! Files of kinds 1 and 2, written and read, and damaged ones. The files are laid out by `inputs.rs`;
//! the settings in them are the planner's.

use super::builders::{network, planned, read, read_of, write_calls, write_planned};
use super::from_documents::{example_file, CASE_4};
use crate::inputs::{file_of, filled, setting_of, with_kind_byte, Input};
use crate::ladders::{largest_ladder, LARGEST_TIGHT};
use crate::{Kind, Network, CALL_BYTES, LONGEST_NOTE, MARK, SETTING_BYTES, TRAILER_BYTES};

/// Files of kinds 1 and 2 with notes of 0, 1 and 255 bytes, without rows, with few, and the longest,
/// read and written.
pub fn files() -> Vec<Input> {
    let mut list = vec![read(example_file())];
    let net = network(2, 2, 3);
    for note_length in [0, 1, LONGEST_NOTE] {
        let note = filled(note_length);
        for calls in [&[][..], &CASE_4[..]] {
            add_files(&mut list, net, &note, calls, 3);
        }
    }
    add_files(
        &mut list,
        LARGEST_TIGHT,
        &filled(LONGEST_NOTE),
        &largest_ladder(),
        0,
    );
    // An overfull table is no fault of a file: neither of these kinds gives 8.
    let overfull = [0, 0, 0, 0, 0, 1, 1, 0];
    list.push(read_of(Kind::Calls, network(2, 1, 2), &[], &overfull, &[]));
    let settings = [0, 0, 0, 0, 0, 1];
    list.push(read_of(
        Kind::Planned,
        network(2, 1, 2),
        &[],
        &overfull,
        &settings,
    ));
    list.push(write_calls(network(2, 1, 2), &[], &overfull, 20));
    list.push(write_planned(
        network(2, 1, 2),
        &[],
        &overfull,
        &settings,
        26,
    ));
    // Notes too long for the writers.
    for note_length in [256, 257, 511] {
        let note = filled(note_length);
        list.push(write_calls(net, &note, &CASE_4, 600));
        list.push(write_planned(
            net,
            &note,
            &CASE_4,
            &planned(net, &CASE_4),
            600,
        ));
    }
    list
}

/// Adds the files of kinds 1 and 2 of a call table, read, and written with so much room beyond what is
/// needed.
fn add_files(list: &mut Vec<Input>, net: Network, note: &[u8], calls: &[u8], beyond: usize) {
    let settings = planned(net, calls);
    let calls_file = file_of(Kind::Calls, net, note, calls, &[]);
    let planned_file = file_of(Kind::Planned, net, note, calls, &settings);
    list.push(write_calls(net, note, calls, calls_file.len() + beyond));
    list.push(write_planned(
        net,
        note,
        calls,
        &settings,
        planned_file.len() + beyond,
    ));
    list.push(read(calls_file));
    list.push(read(planned_file));
}

/// Damaged files: cut at either end, each byte of the trailer changed, notes around 255 bytes,
/// kinds and counts that do not fit.
pub fn damaged_files() -> Vec<Input> {
    let net = network(2, 2, 3);
    let settings = planned(net, &CASE_4);
    let mut list = Vec::new();
    for file in [
        file_of(Kind::Calls, net, &[1, 2], &CASE_4, &[]),
        file_of(Kind::Planned, net, &[1, 2], &CASE_4, &settings),
    ] {
        add_cut_files(&mut list, &file);
        add_changed_trailers(&mut list, &file);
    }
    for note_length in [254, 255, 256, 257] {
        let note = filled(note_length);
        list.push(read_of(Kind::Calls, net, &note, &CASE_4, &[]));
        list.push(read_of(Kind::Planned, net, &note, &CASE_4, &settings));
    }
    // A kind that isn't one, with sizes or K wrong as well: 14 comes first. And kind 3 without its two
    // bytes, so that the last two of the calls stand in their place: W and a spare byte of 1, or W of
    // 0 and a zero.
    for kind in [0, 3] {
        for (net, calls) in [
            (net, &CASE_4[..]),
            (network(0, 2, 3), &CASE_4),
            (net, &[0; 4 * 1025]),
        ] {
            let file = file_of(Kind::Calls, net, &[], calls, &[]);
            list.push(read(with_kind_byte(file, kind)));
        }
    }
    // K of 1,025 and distances that are as stated for it, which the file doesn't hold: 3 comes
    // before 15.
    list.push(read(vec![2, 2, 3, 1, 4, 1, 0, 0, 16, 4, MARK[0], MARK[1]]));
    // K of 1,024 and distances that are as stated for it, which the file doesn't hold.
    list.push(read(vec![2, 2, 3, 1, 4, 0, 0, 0, 16, 0, MARK[0], MARK[1]]));
    // Settings rows that stand before the call rows: the calls are read where the settings stand.
    let turned = [&settings[..], &CASE_4].concat();
    list.push(read_of(
        Kind::Planned,
        net,
        &[],
        &turned[..16],
        &turned[16..],
    ));
    // The right settings of each call, but in another order of rows.
    let mut exchanged = settings.clone();
    exchanged.rotate_left(SETTING_BYTES);
    list.push(read_of(Kind::Planned, net, &[], &CASE_4, &exchanged));
    // Each row arrives, but all of one input module go through one central.
    let alike: Vec<u8> = CASE_4
        .chunks_exact(CALL_BYTES)
        .flat_map(|call| setting_of(net, call, 0))
        .collect();
    list.push(read_of(Kind::Planned, net, &[], &CASE_4, &alike));
    list
}

/// Adds a file cut at either end: around nothing, around the trailer, and by one byte.
fn add_cut_files(list: &mut Vec<Input>, file: &[u8]) {
    let length = file.len();
    for kept in [0, 1, 11, 12, 13, length - 1] {
        list.push(read(file[..kept].to_vec()));
        list.push(read(file[length - kept..].to_vec()));
    }
}

/// Adds a file with each byte of its trailer one higher, one lower, 0 and 255.
fn add_changed_trailers(list: &mut Vec<Input>, file: &[u8]) {
    for place in file.len() - TRAILER_BYTES..file.len() {
        let byte = file[place];
        for changed in [byte.wrapping_add(1), byte.wrapping_sub(1), 0, 255] {
            let mut damaged = file.to_vec();
            damaged[place] = changed;
            list.push(read(damaged));
        }
    }
}
