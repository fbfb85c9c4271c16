//! Drawn inputs that add a call or drop one. Most shelves run; others are tables with faults.

use super::running::{draw_gaps, draw_running, draw_thread, Running};
use super::{
    call_of, damage_setting, draw_calls_length, draw_numbers, draw_room, draw_settings,
    draw_settings_length, draw_table, draw_too_many, spoil_calls, CallTable, Cycles, Input, Random,
};
use crate::{CALL_BYTES, MOVED_BYTES, SETTING_BYTES};

/// Draws an input that adds a call.
pub fn draw_add(random: &mut Random) -> Input {
    let (shelf, call) = if random.once_in(3) {
        draw_thread(random)
    } else {
        let shelf = draw_shelf(random);
        let call = draw_new_call(random, &shelf);
        (shelf, call)
    };
    let call = draw_call_length(random, call);
    let given = draw_given(random, shelf);
    let count = given.count();
    let needed = [
        CALL_BYTES * (count + 1),
        SETTING_BYTES * (count + 1),
        MOVED_BYTES * count,
    ];
    let [calls_after, settings_after, moved_rows] = draw_rooms(random, needed);
    Input::Add {
        net: given.net,
        calls: given.calls,
        settings: given.settings,
        call,
        calls_after,
        settings_after,
        moved_rows,
    }
}

/// Draws an input that drops a call.
pub fn draw_drop(random: &mut Random) -> Input {
    let shelf = draw_running(random);
    let given = draw_given(random, shelf);
    let count = given.count();
    let left = count.saturating_sub(1);
    let [calls_after, settings_after] =
        draw_rooms(random, [CALL_BYTES * left, SETTING_BYTES * left]);
    Input::Drop {
        net: given.net,
        row: draw_row(random, count),
        calls: given.calls,
        settings: given.settings,
        calls_after,
        settings_after,
    }
}

// What is given.

/// A shelf that runs, for one more call. One without a free inlet loses rows, most of the time.
fn draw_shelf(random: &mut Random) -> Running {
    let shelf = draw_running(random);
    if shelf.free_ends(0).is_empty() && !random.once_in(6) {
        draw_gaps(random, shelf)
    } else {
        shelf
    }
}

/// The shelf as it is, three times of four. Otherwise it is spoilt, so that acceptance may refuse
/// it: by its numbers, its calls, its settings or the lengths of these, or it is another table
/// altogether.
fn draw_given(random: &mut Random, shelf: Running) -> Running {
    if !random.once_in(4) {
        return shelf;
    }
    if random.once_in(4) {
        return draw_other_table(random);
    }
    let mut table = CallTable {
        net: shelf.net,
        calls: shelf.calls,
    };
    let mut settings = shelf.settings;
    let count = table.calls.len() / CALL_BYTES;
    match random.below(4) {
        0 => spoil_calls(random, &mut table),
        1 | 2 if count > 0 => {
            for _ in 0..random.between(1, 2) {
                let row = random.below(count);
                damage_setting(random, &table, &mut settings, row);
            }
        }
        _ => table.net = draw_numbers(random, Cycles::Drawn, table.net),
    }
    Running {
        net: table.net,
        calls: draw_calls_length(random, table.calls),
        settings: draw_settings_length(random, settings),
    }
}

/// A table as it is drawn for acceptance, or with too many rows. Its settings need not be lawful.
fn draw_other_table(random: &mut Random) -> Running {
    let table = if random.once_in(8) {
        draw_too_many(random)
    } else {
        draw_table(random, Cycles::Drawn)
    };
    let settings = draw_settings(random, &table);
    Running {
        net: draw_numbers(random, Cycles::Drawn, table.net),
        calls: table.calls,
        settings,
    }
}

// What is asked for.

/// A call from a free inlet to a free outlet at modules that can take one more, three times of four
/// and where there are such; otherwise one with an end of another call, with one at a full module,
/// with any ends of the network, or with a number outside.
fn draw_new_call(random: &mut Random, shelf: &Running) -> Vec<u8> {
    let net = shelf.net;
    let ends = net.n * net.r;
    let any = call_of(net, random.below(ends), random.below(ends));
    let [inlets, outlets] = [0, 2].map(|side| shelf.free_ends(side));
    if inlets.is_empty() || outlets.is_empty() {
        return any.to_vec();
    }
    let mut call = [random.pick(&inlets), random.pick(&outlets)].concat();
    if !random.once_in(4) {
        return call;
    }
    let side = random.pick(&[0, 2]);
    let at_full = shelf.ends_at_full(side);
    if !at_full.is_empty() && random.once_in(2) {
        call[side..side + 2].copy_from_slice(&random.pick(&at_full));
        return call;
    }
    match random.below(4) {
        0 if shelf.count() > 0 => {
            let used = CALL_BYTES * random.below(shelf.count()) + side;
            call[side..side + 2].copy_from_slice(&shelf.calls[used..used + 2]);
        }
        1 => call[side] = random.pick(&[net.r as u8, 255]),
        2 => call[side + 1] = random.pick(&[net.n as u8, 255]),
        _ => call = any.to_vec(),
    }
    call
}

/// The call as it is, most of the time; otherwise shorter or longer, also by a whole row or by so
/// much that its length would do if cut to 16 bits.
fn draw_call_length(random: &mut Random, mut call: Vec<u8>) -> Vec<u8> {
    if random.once_in(25) {
        let length = random.pick(&[0, 1, 2, 3, 5, 6, 7, 8, 65_540]);
        call.resize(length, 0);
    }
    call
}

/// A row of the table, most of the time; otherwise one that isn't there, also such that it would be
/// if cut to 8, 16 or 32 bits.
fn draw_row(random: &mut Random, count: usize) -> usize {
    if count == 0 {
        return random.pick(&[0, 1, usize::MAX]);
    }
    let row = random.below(count);
    if !random.once_in(4) {
        return random.pick(&[row, row, 0, count - 1]);
    }
    random.pick(&[
        count,
        count + 1,
        row + (1 << 8),
        row + (1 << 16),
        row + (1 << 32),
        row + (1 << 63),
        usize::MAX,
    ])
}

/// Rooms that do, half of the time; otherwise each of them drawn by itself.
fn draw_rooms<const COUNT: usize>(random: &mut Random, needed: [usize; COUNT]) -> [Vec<u8>; COUNT] {
    if random.once_in(2) {
        needed.map(|needed| draw_room(random, needed))
    } else {
        let surplus = random.pick(&[0, 0, 1, 7]);
        needed.map(|needed| random.bytes(needed + surplus))
    }
}
