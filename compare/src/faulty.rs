//! Inputs made to have named faults, so that the answer shows which refusal is tried first. They are
//! made of the parts of `inputs.rs`, and the faults are named by the numbers of `refusals.rs`.
//!
//! A fault that is sought in rows is made by a few rows at modules of their own, so the faults of
//! one input do not touch each other, and the order of these groups of rows is the order in which
//! the faults stand in the table.
//!
//! Inputs for single calls, with faults of what is given and of the step itself, are made in
//! `faulty/steps.rs`.

mod steps;

pub use steps::{step_with, step_with_in_one_row};

use crate::inputs::{converted_length, file_of, filled, setting_of, with_kind_byte, Input};
use crate::refusals::Asked;
use crate::{Kind, Network, CALL_BYTES, CYCLE_BYTES, LONGEST_NOTE, SETTING_BYTES, TRAILER_BYTES};

/// The ways of 1 that are made by n, by a cycle above 64, by one below r, and by one below m.
const BY_CHANNELS: usize = 0;
const BY_CYCLE_ABOVE: usize = 1;
const BY_CYCLE_BELOW_MODULES: usize = 2;
const BY_CYCLE_BELOW_CENTRALS: usize = 3;

/// The ways of 14 that are made by either byte of the mark, by the spare byte, by the kind that there
/// isn't after the others, by a file one byte shorter than its trailer, and for conversions by a
/// whole file of the kind that they make.
const BY_MARK: usize = 0;
const BY_MARK_END: usize = 1;
const BY_SPARE_BYTE: usize = 2;
const BY_KIND: usize = 3;
const BY_SHORT_FILE: usize = 4;
const BY_KIND_MADE: usize = 5;

/// The ways of 15 that are made by the note, and by either distance.
const BY_NOTE: usize = 0;
const BY_SETTINGS_DISTANCE: usize = 1;
const BY_CALLS_DISTANCE: usize = 2;

/// The kind that there isn't after the others.
const NO_KIND: u8 = 5;

impl Asked {
    /// The ways in which a fault is made for this entry.
    pub fn ways(self, number: usize) -> &'static [usize] {
        match (number, self) {
            (1, Asked::Read(kind) | Asked::Write(kind) | Asked::Convert(kind))
                if kind.tells_cycle() =>
            {
                &[
                    BY_CHANNELS,
                    BY_CYCLE_ABOVE,
                    BY_CYCLE_BELOW_MODULES,
                    BY_CYCLE_BELOW_CENTRALS,
                ]
            }
            (2, Asked::Plan) => &[0],
            // By a byte too many of the calls, or of the settings.
            (2, _) => &[0, 1],
            // By x, by y, by the central.
            (9, _) => &[0, 1, 2],
            (14, Asked::Convert(kind)) if kind.tells_cycle() => &[
                BY_MARK,
                BY_MARK_END,
                BY_SPARE_BYTE,
                BY_KIND,
                BY_SHORT_FILE,
                BY_KIND_MADE,
            ],
            (14, Asked::Convert(_)) => &[BY_MARK, BY_MARK_END, BY_KIND, BY_KIND_MADE],
            (14, Asked::Read(kind)) if kind.tells_cycle() => {
                &[BY_MARK, BY_MARK_END, BY_SPARE_BYTE, BY_KIND, BY_SHORT_FILE]
            }
            (14, _) => &[BY_MARK, BY_MARK_END],
            (15, _) => &[BY_NOTE, BY_SETTINGS_DISTANCE, BY_CALLS_DISTANCE],
            _ => &[0],
        }
    }

    /// The ways in which a fault is made together with others of a file of kind 3 or 4, or of a
    /// conversion: those that are new with such files where there are some, and otherwise the one
    /// with the fewest bytes.
    pub fn ways_in_pairs(self, number: usize) -> &'static [usize] {
        match (number, self) {
            (1, Asked::Convert(kind) | Asked::Read(kind) | Asked::Write(kind))
                if kind.tells_cycle() =>
            {
                &[BY_CYCLE_ABOVE]
            }
            (14, Asked::Convert(kind)) if kind.tells_cycle() => &[BY_SPARE_BYTE, BY_KIND_MADE],
            (14, Asked::Convert(_)) => &[BY_MARK, BY_KIND_MADE],
            (14, _) => &[BY_SPARE_BYTE],
            (15, _) => &[BY_CALLS_DISTANCE],
            _ => &[0],
        }
    }
}

/// A fault to be made, and the way to make it.
#[derive(Clone, Copy, PartialEq, Eq, Debug)]
pub struct Fault {
    pub number: usize,
    pub way: usize,
}

impl Fault {
    /// Whether the fault is a cycle outside its limits, which is never the larger of r and m.
    pub fn is_of_cycle(self) -> bool {
        self.number == 1 && self.way != BY_CHANNELS
    }

    /// Whether the fault is a whole file of a kind that a conversion makes but doesn't take, so that
    /// there is nothing to be said of its room, and no cycle that is lost.
    pub fn is_of_kind_made(self) -> bool {
        self.number == 14 && self.way == BY_KIND_MADE
    }
}

/// An input that has the given faults; those sought in rows stand in the table in the order given.
pub fn input_with(asked: Asked, faults: &[Fault]) -> Input {
    let mut draft = Draft::new(asked, faults);
    for fault in faults {
        draft.add_rows_for(*fault);
    }
    draft.finish()
}

/// An input with all the given faults of 9 to 13 in one row, and with others that are not sought in
/// rows.
pub fn input_with_in_one_row(asked: Asked, numbers: &[usize], others: &[Fault]) -> Input {
    let mut draft = Draft::new(asked, others);
    draft.add_one_row_with(numbers);
    draft.finish()
}

/// A network whose n or cycle is outside its limits where 1 is wished, and whose cycle is one above
/// the larger of r and m where 18 is. For 3 it is large enough for 1,024 rows without fault, or, with
/// 18 as well, as large as the limit of the cycle allows.
fn network_for(faults: &[Fault]) -> Network {
    let wished = |number: usize| faults.iter().any(|fault| fault.number == number);
    let cycle = faults
        .iter()
        .find(|fault| fault.is_of_cycle())
        .map(|fault| fault.way);
    if let Some(way) = cycle {
        return match way {
            BY_CYCLE_BELOW_MODULES => Network::of_sizes(3, 2, 8).with_cycle(7),
            BY_CYCLE_BELOW_CENTRALS => Network::of_sizes(3, 9, 8).with_cycle(8),
            _ => Network::of_sizes(3, 2, 8).with_cycle(Network::MOST_WAVELENGTHS + 1),
        };
    }
    let most_modules = if wished(18) { 63 } else { 64 };
    let net = match (wished(1), wished(3)) {
        (false, false) => Network::of_sizes(3, 2, 8),
        (true, false) => Network::of_sizes(17, 2, 8),
        (true, true) => Network::of_sizes(17, 32, most_modules),
        (false, true) => Network::of_sizes(16, if wished(8) { 15 } else { 32 }, most_modules),
    };
    if wished(18) {
        net.with_cycle(net.cycle() + 1)
    } else {
        net
    }
}

/// A table under construction, with the faults that are made when it is finished.
struct Draft {
    asked: Asked,
    faults: Vec<Fault>,
    net: Network,
    calls: Vec<u8>,
    settings: Vec<u8>,
    inputs_used: u8,
    outputs_used: u8,
}

impl Draft {
    /// A draft with one sound row.
    fn new(asked: Asked, faults: &[Fault]) -> Draft {
        let mut draft = Draft {
            asked,
            faults: faults.to_vec(),
            net: network_for(faults),
            calls: Vec::new(),
            settings: Vec::new(),
            inputs_used: 0,
            outputs_used: 0,
        };
        let sound = [draft.fresh_input(), 0, draft.fresh_output(), 0];
        draft.add_row(sound, 0);
        draft
    }

    fn wishes(&self, number: usize) -> bool {
        self.faults.iter().any(|fault| fault.number == number)
    }

    fn wishes_way(&self, number: usize, way: usize) -> bool {
        self.faults.contains(&Fault { number, way })
    }

    fn fresh_input(&mut self) -> u8 {
        self.inputs_used += 1;
        self.inputs_used - 1
    }

    fn fresh_output(&mut self) -> u8 {
        self.outputs_used += 1;
        self.outputs_used - 1
    }

    /// Adds a call with the settings row that it needs on a central.
    fn add_row(&mut self, call: [u8; CALL_BYTES], central: usize) {
        self.calls.extend(call);
        self.settings.extend(setting_of(self.net, &call, central));
    }

    /// The settings row added last.
    fn last_setting(&mut self) -> &mut [u8] {
        let at = self.settings.len() - SETTING_BYTES;
        &mut self.settings[at..]
    }

    /// Adds the rows of a fault that is sought in rows; nothing for another fault.
    fn add_rows_for(&mut self, fault: Fault) {
        match fault.number {
            5 => self.add_number_outside(),
            6 => self.add_repeated_inlet(),
            7 => self.add_repeated_outlet(),
            8 => self.add_full_module_and_one_more(),
            9 => self.add_setting_outside(fault.way),
            10..=13 => self.add_one_row_with(&[fault.number]),
            _ => {}
        }
    }

    fn add_number_outside(&mut self) {
        let call = [self.fresh_input(), self.net.n as u8, self.fresh_output(), 0];
        self.add_row(call, 0);
    }

    fn add_repeated_inlet(&mut self) {
        let input = self.fresh_input();
        for central in 0..2 {
            let call = [input, 0, self.fresh_output(), 0];
            self.add_row(call, central);
        }
    }

    fn add_repeated_outlet(&mut self) {
        let output = self.fresh_output();
        for central in 0..2 {
            let call = [self.fresh_input(), 0, output, 0];
            self.add_row(call, central);
        }
    }

    fn add_full_module_and_one_more(&mut self) {
        let input = self.fresh_input();
        for channel in 0..=self.net.m {
            let call = [input, channel as u8, self.fresh_output(), 0];
            self.add_row(call, channel);
        }
    }

    /// A wavelength that is right but for a whole cycle, or a central that is the first there
    /// isn't, with the wavelengths that it would need: 9 holds, 10 and 11 do not.
    fn add_setting_outside(&mut self, way: usize) {
        let call = [self.fresh_input(), 0, self.fresh_output(), 0];
        let cycle = self.net.cycle() as u8;
        if way == 2 {
            self.add_row(call, self.net.m);
        } else {
            self.add_row(call, 0);
            self.last_setting()[2 * way] += cycle;
        }
    }

    /// One row with all the given faults of 9 to 13, after the sound rows that 12 and 13 need.
    /// Every two of the five can hold of one row: 9 by a wavelength a cycle too high, which changes
    /// no port; 10 by x, 11 by y; 12 and 13 by rows before it that share only the input module or
    /// only the output module.
    fn add_one_row_with(&mut self, numbers: &[usize]) {
        let wished = |number: usize| numbers.contains(&number);
        let cycle = self.net.cycle() as u8;
        let call = [self.fresh_input(), 1, self.fresh_output(), 1];
        if wished(12) {
            let earlier = [call[0], 0, self.fresh_output(), 0];
            self.add_row(earlier, 0);
        }
        if wished(13) {
            let earlier = [self.fresh_input(), 0, call[2], 0];
            self.add_row(earlier, 0);
        }
        self.add_row(call, 0);
        let setting = self.last_setting();
        if wished(10) {
            setting[0] = (setting[0] + 1) % cycle;
        }
        if wished(11) {
            setting[2] = (setting[2] + 1) % cycle;
        }
        if wished(9) {
            setting[if wished(11) { 2 } else { 0 }] += cycle;
        }
    }

    /// Fills the table up to 1,025 rows: with sound rows at free inlets and outlets, on centrals
    /// that no other row uses, and where these run out with rows that have numbers outside. With
    /// sizes inside their limits there are at most 1,024 inlets, so 1,025 rows always have 5, or
    /// else 6 and 7.
    fn fill_beyond_most(&mut self) {
        let ends: Vec<[u8; CALL_BYTES]> = self
            .calls
            .chunks_exact(CALL_BYTES)
            .map(|call| [call[0], call[1], call[2], call[3]])
            .collect();
        let most = CALL_BYTES * (Network::MOST_ROWS + 1);
        for channel in 0..self.net.n {
            for input in 0..self.net.r {
                let output = (input + channel) % self.net.r;
                let call = [input as u8, channel as u8, output as u8, channel as u8];
                let is_free = ends
                    .iter()
                    .all(|other| other[..2] != call[..2] && other[2..] != call[2..]);
                if is_free && self.calls.len() < most {
                    self.add_row(call, 15 + channel);
                }
            }
        }
        let mut outside = self.net.r as u8;
        while self.calls.len() < most {
            self.add_row([outside, 0, outside, 0], 2);
            outside += 1;
        }
    }

    fn finish(mut self) -> Input {
        if self.wishes(3) {
            self.fill_beyond_most();
        }
        match self.asked {
            Asked::Plan => self.finish_plan(),
            Asked::Accept => self.finish_accept(),
            Asked::Read(kind) => Input::Read {
                file: self.file(kind),
            },
            Asked::Write(kind) => self.finish_write(kind),
            Asked::Convert(kind) => self.finish_convert(kind),
        }
    }

    fn finish_plan(mut self) -> Input {
        let room = self.room(self.settings.len());
        if self.wishes(2) {
            self.calls.push(0);
        }
        Input::Plan {
            net: self.net,
            calls: self.calls,
            settings: room,
        }
    }

    fn finish_accept(mut self) -> Input {
        self.spoil_lengths();
        Input::Accept {
            net: self.net,
            calls: self.calls,
            settings: self.settings,
        }
    }

    fn finish_write(mut self, kind: Kind) -> Input {
        if !kind.has_settings() {
            self.settings.clear();
        }
        let note = self.note();
        let length = note.len() + self.calls.len() + self.settings.len() + kind.trailer_bytes();
        let room = self.room(length);
        self.spoil_lengths();
        Input::Write {
            kind,
            net: self.net,
            note,
            calls: self.calls,
            settings: self.settings,
            out: room,
        }
    }

    fn finish_convert(self, kind: Kind) -> Input {
        let given = if self.wishes_way(14, BY_KIND_MADE) {
            kind.converted()
        } else {
            kind
        };
        let file = self.file(given);
        let out = self.room(converted_length(kind, &file));
        if kind.tells_cycle() {
            Input::ConvertToOld { file, out }
        } else {
            Input::ConvertToNew { file, out }
        }
    }

    /// A file of the rows, with the faults that its trailer has.
    fn file(&self, kind: Kind) -> Vec<u8> {
        let note = self.note();
        let settings: &[u8] = if kind.has_settings() {
            &self.settings
        } else {
            &[]
        };
        let mut file = file_of(kind, self.net, &note, &self.calls, settings);
        let twelve_at = file.len() - TRAILER_BYTES;
        let spoilt_places = [
            (15, BY_SETTINGS_DISTANCE, twelve_at + 7),
            (15, BY_CALLS_DISTANCE, twelve_at + 9),
            (14, BY_MARK, twelve_at + 10),
            (14, BY_MARK_END, twelve_at + 11),
            (14, BY_SPARE_BYTE, twelve_at - 1),
        ];
        for (number, way, place) in spoilt_places {
            if self.wishes_way(number, way) {
                file[place] ^= 1;
            }
        }
        if self.wishes_way(14, BY_KIND) {
            file = with_kind_byte(file, NO_KIND);
        }
        if self.wishes_way(14, BY_SHORT_FILE) {
            file = file.split_off(twelve_at - CYCLE_BYTES + 1);
        }
        file
    }

    /// Adds a byte to the calls or to the settings where 2 is wished.
    fn spoil_lengths(&mut self) {
        if self.wishes_way(2, 0) {
            self.calls.push(0);
        }
        if self.wishes_way(2, 1) {
            self.settings.push(0);
        }
    }

    /// A note of two bytes, or one byte too long where 16 is wished, or 15 by its note.
    fn note(&self) -> Vec<u8> {
        if self.wishes(16) || self.wishes_way(15, BY_NOTE) {
            filled(LONGEST_NOTE + 1)
        } else {
            filled(2)
        }
    }

    /// A room as long as needed, or one byte less where 4 is wished. With 1,025 rows and 18, and with
    /// 1,025 rows for an entry of new files, there is no room at all, which is 4 as well, so that
    /// these inputs are short.
    fn room(&self, needed: usize) -> Vec<u8> {
        let is_of_new = Asked::OF_NEW_FILES.contains(&self.asked);
        if self.wishes(3) && (self.wishes(18) || is_of_new) {
            return Vec::new();
        }
        filled(if self.wishes(4) { needed - 1 } else { needed })
    }
}
