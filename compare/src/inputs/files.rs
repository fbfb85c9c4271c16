//! Drawn files of all four kinds, whole and damaged, to be read and to be converted.

use super::{
    converted_length, damage_file, draw_note, draw_room, draw_settings, draw_table, file_of,
    made_settings, setting_of, Cycles, Input, Random, CALLS_DISTANCE_AT, KIND_AT,
    SETTINGS_DISTANCE_AT,
};
use crate::{Kind, Network, CYCLE_BYTES, LONGEST_NOTE, TRAILER_BYTES};

/// Draws a file of any kind to be read.
pub fn draw_read(random: &mut Random) -> Input {
    let kind = random.pick(&[
        Kind::Calls,
        Kind::Planned,
        Kind::CallsWithCycle,
        Kind::CallsWithCycle,
        Kind::PlannedWithCycle,
        Kind::PlannedWithCycle,
    ]);
    Input::Read {
        file: draw_file(random, kind),
    }
}

/// Draws a file of kind 1 or 2, most of the time, and room for the file that it is converted to.
pub fn draw_convert_to_new(random: &mut Random) -> Input {
    let (file, out) = draw_file_and_room(random, Kind::OLD);
    Input::ConvertToNew { file, out }
}

/// Draws a file of kind 3 or 4, most of the time, and room for the file that it is converted to.
pub fn draw_convert_to_old(random: &mut Random) -> Input {
    let (file, out) = draw_file_and_room(random, Kind::NEW);
    Input::ConvertToOld { file, out }
}

fn draw_file_and_room(random: &mut Random, taken: [Kind; 2]) -> (Vec<u8>, Vec<u8>) {
    let kind = random.pick(&taken);
    let given = if random.once_in(8) {
        kind.converted()
    } else {
        kind
    };
    let file = draw_file(random, given);
    let room = draw_room(random, converted_length(kind, &file));
    (file, room)
}

/// A file of a kind with or without faults in its rows, then damaged one time of three; now and then
/// one of about the greatest length.
fn draw_file(random: &mut Random, kind: Kind) -> Vec<u8> {
    if random.once_in(400) {
        return draw_longest(random, kind);
    }
    let cycles = if kind.tells_cycle() {
        Cycles::Drawn
    } else {
        Cycles::OfSizes
    };
    let table = draw_table(random, cycles);
    let note = draw_note(random);
    let settings = match kind.has_settings() {
        false => Vec::new(),
        true if random.once_in(2) => made_settings(random, &table),
        true => draw_settings(random, &table),
    };
    let mut file = file_of(kind, table.net, &note, &table.calls, &settings);
    if random.once_in(3) {
        damage_any(random, kind, table.net, &mut file);
    }
    file
}

/// The longest file of a kind, as it is or with up to three bytes more before its note. Every channel
/// is in use, each call on the central of its channel or 16 above.
fn draw_longest(random: &mut Random, kind: Kind) -> Vec<u8> {
    let net = Network::of_sizes(16, 32, 64);
    let surplus = random.pick(&[0, 0, 1, 2, 3]);
    let note = random.bytes(LONGEST_NOTE + surplus);
    let above = random.pick(&[0, 16]);
    let mut calls = Vec::new();
    let mut settings = Vec::new();
    for module in random.order(net.r) {
        for channel in 0..net.n {
            let output = (module + channel) % net.r;
            let call = [module, channel, output, channel].map(|number| number as u8);
            calls.extend(call);
            settings.extend(setting_of(net, &call, above + channel));
        }
    }
    if !kind.has_settings() {
        settings.clear();
    }
    file_of(kind, net, &note, &calls, &settings)
}

/// Damages what is alike in all kinds, what tells the cycle, the kind, or the length.
fn damage_any(random: &mut Random, kind: Kind, net: Network, file: &mut Vec<u8>) {
    match random.below(6) {
        0 | 1 => damage_file(random, file),
        2 => change_kind(random, net, file),
        3 => cut(random, file),
        _ if kind.tells_cycle() => damage_cycle(random, kind, net, file),
        _ => change_kind(random, net, file),
    }
}

/// Another W, around each of its limits, another spare byte, or both in the place of the other; or
/// distances that count from the last twelve bytes.
fn damage_cycle(random: &mut Random, kind: Kind, net: Network, file: &mut [u8]) {
    let twelve_at = file.len() - TRAILER_BYTES;
    let cycle_at = twelve_at - CYCLE_BYTES;
    match random.below(8) {
        0..=3 => file[cycle_at] = draw_cycle_byte(random, net),
        4 | 5 => file[cycle_at + 1] = random.pick(&[1, 255, net.w as u8]),
        6 => file.swap(cycle_at, cycle_at + 1),
        _ => {
            if kind.has_settings() {
                lengthen_distance(file, twelve_at + SETTINGS_DISTANCE_AT);
            }
            lengthen_distance(file, twelve_at + CALLS_DISTANCE_AT);
        }
    }
}

/// A W at one of its limits, one below or above, or of any value.
fn draw_cycle_byte(random: &mut Random, net: Network) -> u8 {
    let any = usize::from(random.byte());
    let larger = net.least_cycle();
    random.pick(&[
        0,
        net.r - 1,
        net.r,
        net.m - 1,
        net.m,
        larger,
        larger + 1,
        63,
        64,
        65,
        255,
        any,
    ]) as u8
}

/// Counts a distance from the last twelve bytes of a file that tells the cycle.
fn lengthen_distance(file: &mut [u8], at: usize) {
    let distance = u16::from_be_bytes([file[at], file[at + 1]]);
    let longer = distance.wrapping_add(CYCLE_BYTES as u16);
    file[at..at + 2].copy_from_slice(&longer.to_be_bytes());
}

/// Another kind, and now and then two bytes put before the last twelve, or taken from there.
fn change_kind(random: &mut Random, net: Network, file: &mut Vec<u8>) {
    let twelve_at = file.len() - TRAILER_BYTES;
    file[twelve_at + KIND_AT] = random.pick(&[0, 1, 2, 3, 4, 5, 255]);
    match random.below(3) {
        0 => drop(file.splice(twelve_at..twelve_at, [net.w as u8, 0])),
        1 => drop(file.drain(twelve_at.saturating_sub(CYCLE_BYTES)..twelve_at)),
        _ => {}
    }
}

/// Takes bytes from the front until few are left, around the length of a trailer, or takes a few
/// bytes from either end.
fn cut(random: &mut Random, file: &mut Vec<u8>) {
    let length = file.len();
    let few = random.between(1, 3);
    match random.below(3) {
        0 => {
            let kept = random.between(0, TRAILER_BYTES + CYCLE_BYTES + 1);
            drop(file.drain(..length.saturating_sub(kept)));
        }
        1 => drop(file.drain(..few)),
        _ => file.truncate(length - few),
    }
}
