//! Short ways to write an input down. Rooms are filled and files laid out by `inputs.rs`; settings
//! that are right are asked of the planner of `plain.rs`.

use crate::inputs::{file_of, filled, settings_length, Input, Running};
use crate::plain::Plain;
use crate::{Entries, Kind, Network, CALL_BYTES, MOVED_BYTES, SETTING_BYTES};

/// The network of three sizes alone.
pub fn network(n: usize, m: usize, r: usize) -> Network {
    Network::of_sizes(n, m, r)
}

/// A call of the planner with so many bytes of room.
pub fn plan(net: Network, calls: &[u8], room: usize) -> Input {
    Input::Plan {
        net,
        calls: calls.to_vec(),
        settings: filled(room),
    }
}

/// A call of the planner with room for its settings and two bytes more, which have to keep their
/// values.
pub fn plan_roomy(net: Network, calls: &[u8]) -> Input {
    plan(net, calls, settings_length(calls) + 2)
}

pub fn accept(net: Network, calls: &[u8], settings: &[u8]) -> Input {
    Input::Accept {
        net,
        calls: calls.to_vec(),
        settings: settings.to_vec(),
    }
}

pub fn read(file: Vec<u8>) -> Input {
    Input::Read { file }
}

/// A call of the reader with a file of these parts.
pub fn read_of(kind: Kind, net: Network, note: &[u8], calls: &[u8], settings: &[u8]) -> Input {
    read(file_of(kind, net, note, calls, settings))
}

/// A call of the writer of a kind with note, calls and settings, and so many bytes of room.
pub fn write(kind: Kind, net: Network, parts: [&[u8]; 3], room: usize) -> Input {
    let [note, calls, settings] = parts.map(<[u8]>::to_vec);
    Input::Write {
        kind,
        net,
        note,
        calls,
        settings,
        out: filled(room),
    }
}

/// A call of the writer of files of kind 1, given no settings, with so many bytes of room.
pub fn write_calls(net: Network, note: &[u8], calls: &[u8], room: usize) -> Input {
    write(Kind::Calls, net, [note, calls, &[]], room)
}

/// A call of the writer of files of kind 2 with so many bytes of room.
pub fn write_planned(
    net: Network,
    note: &[u8],
    calls: &[u8],
    settings: &[u8],
    room: usize,
) -> Input {
    write(Kind::Planned, net, [note, calls, settings], room)
}

/// A call of the conversion to new files with so many bytes of room.
pub fn convert_to_new(file: &[u8], room: usize) -> Input {
    Input::ConvertToNew {
        file: file.to_vec(),
        out: filled(room),
    }
}

/// A call of the conversion to old files with so many bytes of room.
pub fn convert_to_old(file: &[u8], room: usize) -> Input {
    Input::ConvertToOld {
        file: file.to_vec(),
        out: filled(room),
    }
}

/// The planner's settings of calls that it doesn't refuse.
pub fn planned(net: Network, calls: &[u8]) -> Vec<u8> {
    let mut settings = vec![0; settings_length(calls)];
    Plain.plan(net, calls, &mut settings);
    settings
}

/// The calls with the planner's settings.
pub fn running(net: Network, calls: &[u8]) -> Running {
    Running {
        net,
        calls: calls.to_vec(),
        settings: planned(net, calls),
    }
}

/// An add with so many bytes for the calls, for the settings and for the rows moved.
pub fn add(given: &Running, call: &[u8], rooms: [usize; 3]) -> Input {
    let [calls_after, settings_after, moved_rows] = rooms.map(filled);
    Input::Add {
        net: given.net,
        calls: given.calls.clone(),
        settings: given.settings.clone(),
        call: call.to_vec(),
        calls_after,
        settings_after,
        moved_rows,
    }
}

/// The room that an add needs for the calls, for the settings and for the rows moved.
pub fn room_to_add(given: &Running) -> [usize; 3] {
    let count = given.count();
    [
        CALL_BYTES * (count + 1),
        SETTING_BYTES * (count + 1),
        MOVED_BYTES * count,
    ]
}

/// An add with a byte beyond each room that it needs, which has to keep its value.
pub fn add_roomy(given: &Running, call: &[u8]) -> Input {
    add(given, call, room_to_add(given).map(|room| room + 1))
}

/// A drop with so many bytes for the calls and for the settings.
pub fn drop_row(given: &Running, row: usize, rooms: [usize; 2]) -> Input {
    let [calls_after, settings_after] = rooms.map(filled);
    Input::Drop {
        net: given.net,
        calls: given.calls.clone(),
        settings: given.settings.clone(),
        row,
        calls_after,
        settings_after,
    }
}

/// The room that a drop needs for the calls and for the settings.
pub fn room_to_drop(given: &Running) -> [usize; 2] {
    let left = given.count().saturating_sub(1);
    [CALL_BYTES * left, SETTING_BYTES * left]
}

/// A drop with a byte beyond each room that it needs, which has to keep its value.
pub fn drop_roomy(given: &Running, row: usize) -> Input {
    drop_row(given, row, room_to_drop(given).map(|room| room + 1))
}
