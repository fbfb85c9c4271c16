//! Every small file: written, read and converted.

use super::{networks, networks_of_sizes, strings, write_input, Both, Difference};
use crate::inputs::{converted_length, file_of, filled, setting_of, with_kind_byte, Input};
use crate::{Kind, Network, CALL_BYTES, CYCLE_BYTES, SETTING_BYTES, TRAILER_BYTES};

pub(super) fn compare_files(both: &mut Both) -> Result<(), Difference> {
    write_one_row(both)?;
    read_one_row(both)?;
    damage_files(both)?;
    change_kinds(both)?;
    try_cycle_bytes(both)?;
    try_rooms(both)
}

/// Reads a file and converts it both ways, with two bytes of room beyond what is needed.
fn compare_file(both: &mut Both, file: &[u8]) -> Result<(), Difference> {
    both.compare(Input::Read {
        file: file.to_vec(),
    })?;
    convert_both_ways(both, file, 2)
}

/// Converts a file both ways, with so many bytes of room beyond what is needed.
fn convert_both_ways(both: &mut Both, file: &[u8], beyond: usize) -> Result<(), Difference> {
    both.compare(Input::ConvertToNew {
        file: file.to_vec(),
        out: filled(converted_length(Kind::Calls, file) + beyond),
    })?;
    both.compare(Input::ConvertToOld {
        file: file.to_vec(),
        out: filled(converted_length(Kind::CallsWithCycle, file) + beyond),
    })
}

/// Every network with sizes up to 2 and a cycle around the larger of r and m, one row with numbers up
/// to 2: written as each kind.
fn write_one_row(both: &mut Both) -> Result<(), Difference> {
    for net in networks(2) {
        for calls in strings(CALL_BYTES, 2) {
            for kind in [Kind::Calls, Kind::CallsWithCycle] {
                both.compare(write_input(kind, net, &calls, &[]))?;
            }
            for settings in strings(SETTING_BYTES, 2) {
                for kind in [Kind::Planned, Kind::PlannedWithCycle] {
                    both.compare(write_input(kind, net, &calls, &settings))?;
                }
            }
        }
    }
    Ok(())
}

/// Every three sizes up to 2, where the file tells the cycle with cycles around the larger of r and
/// m, one row with numbers up to 2: read as each kind, and converted if it can be.
fn read_one_row(both: &mut Both) -> Result<(), Difference> {
    let note = filled(1);
    for kind in Kind::ALL {
        let networks = if kind.tells_cycle() {
            networks(2)
        } else {
            networks_of_sizes(2)
        };
        let settings: Vec<Vec<u8>> = if kind.has_settings() {
            strings(SETTING_BYTES, 2).collect()
        } else {
            vec![Vec::new()]
        };
        for net in networks {
            for calls in strings(CALL_BYTES, 2) {
                for settings in &settings {
                    both.compare(Input::Read {
                        file: file_of(kind, net, &note, &calls, settings),
                    })?;
                }
            }
        }
    }
    Ok(())
}

/// Two files of each kind, without rows and with two, the cycle as it is by the sizes.
fn two_of_each_kind() -> Vec<(Kind, Vec<u8>)> {
    let net = Network::of_sizes(2, 2, 2);
    let calls = [0, 0, 0, 0, 1, 0, 1, 0];
    let settings = [0, 0, 0, 1, 0, 1];
    let mut files = Vec::new();
    for kind in Kind::ALL {
        let settings: &[u8] = if kind.has_settings() { &settings } else { &[] };
        files.push((kind, file_of(kind, net, &[], &[], &[])));
        files.push((kind, file_of(kind, net, &[7, 8, 9], &calls, settings)));
    }
    files
}

/// Two files of each kind: every value of every byte, and every cut at either end.
fn damage_files(both: &mut Both) -> Result<(), Difference> {
    for (_, file) in two_of_each_kind() {
        for place in 0..file.len() {
            for byte in 0..=255 {
                let mut damaged = file.clone();
                damaged[place] = byte;
                compare_file(both, &damaged)?;
            }
        }
        for cut in 0..=file.len() {
            compare_file(both, &file[..cut])?;
            compare_file(both, &file[cut..])?;
        }
    }
    Ok(())
}

/// Two files of each kind with every kind, with two bytes more before the last twelve, with two less,
/// and as they are.
fn change_kinds(both: &mut Both) -> Result<(), Difference> {
    for (_, file) in two_of_each_kind() {
        let (front, twelve) = file.split_at(file.len() - TRAILER_BYTES);
        let less = &front[..front.len().saturating_sub(CYCLE_BYTES)];
        let fronts = [
            front.to_vec(),
            less.to_vec(),
            [front, &[2, 0]].concat(),
            [front, &[0, 2]].concat(),
            [front, &[9, 9]].concat(),
        ];
        for front in fronts {
            for byte in 0..=255 {
                let changed = with_kind_byte([&front, twelve].concat(), byte);
                compare_file(both, &changed)?;
            }
        }
    }
    Ok(())
}

/// Four networks with every W, a zero behind it and some other bytes: the last call that there can
/// be, with the settings that it needs on the last central by this W and by the larger of r and m.
fn try_cycle_bytes(both: &mut Both) -> Result<(), Difference> {
    for (n, m, r) in [(1, 1, 1), (2, 2, 3), (2, 3, 2), (16, 32, 64)] {
        let of_sizes = Network::of_sizes(n, m, r);
        let [module, channel] = [(r - 1) as u8, (n - 1) as u8];
        let call = [module, channel, module, channel];
        for cycle in 0..=255 {
            let net = of_sizes.with_cycle(cycle);
            let by_cycle = setting_of(of_sizes.with_cycle(cycle.max(1)), &call, m - 1);
            let files = [
                file_of(Kind::CallsWithCycle, net, &[5], &call, &[]),
                file_of(Kind::PlannedWithCycle, net, &[5], &call, &by_cycle),
                file_of(
                    Kind::PlannedWithCycle,
                    net,
                    &[],
                    &call,
                    &setting_of(of_sizes, &call, m - 1),
                ),
            ];
            for mut file in files {
                let spare_at = file.len() - TRAILER_BYTES - 1;
                for spare in [0, 1, 128, 255] {
                    file[spare_at] = spare;
                    compare_file(both, &file)?;
                }
            }
        }
    }
    Ok(())
}

/// Files of each kind with notes around 255 bytes, converted with rooms of every length around what
/// is needed. The cycle of some is above the larger of r and m.
fn try_rooms(both: &mut Both) -> Result<(), Difference> {
    let of_sizes = Network::of_sizes(2, 2, 2);
    let calls = [0, 0, 0, 0, 1, 0, 1, 0];
    let settings = [0, 0, 0, 1, 0, 1];
    for kind in Kind::ALL {
        let settings: &[u8] = if kind.has_settings() { &settings } else { &[] };
        for net in [of_sizes, of_sizes.with_cycle(3)] {
            for note in [0, 1, 253, 254, 255, 256, 257, 258] {
                let file = file_of(kind, net, &filled(note), &calls, settings);
                compare_file(both, &file)?;
                for room in 0..=file.len() + 4 {
                    both.compare(Input::ConvertToNew {
                        file: file.clone(),
                        out: filled(room),
                    })?;
                    both.compare(Input::ConvertToOld {
                        file: file.clone(),
                        out: filled(room),
                    })?;
                }
            }
        }
    }
    Ok(())
}
