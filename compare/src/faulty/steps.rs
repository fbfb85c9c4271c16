//! Inputs for single calls with named faults: of what is given, made as for acceptance, and of the
//! step itself.

use super::{Draft, Fault};
use crate::inputs::{filled, setting_of, Input};
use crate::refusals::{Asked, Step};
use crate::{Network, CALL_BYTES, MOVED_BYTES, SETTING_BYTES};

impl Step {
    /// In how many ways a fault of the step itself is made.
    pub fn ways(self, number: usize) -> usize {
        match (self, number) {
            // By a byte too many, and by one too few.
            (Step::Add, 2) => 2,
            // By each room.
            (Step::Add, 4) => 3,
            (Step::Drop, 4) => 2,
            // By each number of the new call.
            (Step::Add, 5) => 4,
            // By the input module, and by the output module.
            (Step::Add, 8) => 2,
            // By K, by a row that would be there if cut to 32 bits, and by the highest number.
            (Step::Drop, 17) => 3,
            _ => 1,
        }
    }
}

/// An input with the given faults of what is given and of the step itself. Faults of what is given
/// that are sought in rows stand in the table in the order given.
pub fn step_with(step: Step, given: &[Fault], own: &[Fault]) -> Input {
    if own.iter().any(|fault| fault.number == 3) {
        return StepDraft::of_most_rows(given, own).finish(step);
    }
    let mut draft = Draft::new(Asked::Accept, given);
    let has_too_many = draft.wishes(3);
    if has_too_many && own.iter().any(|fault| fault.number == 8) {
        draft.net.m = 15;
    }
    for fault in given {
        draft.add_rows_for(*fault);
    }
    let mut draft = StepDraft::new(draft, own);
    if has_too_many {
        draft.given.fill_beyond_most();
    }
    draft.finish(step)
}

/// An input with all the given faults of 9 to 13 in one row of what is given.
pub fn step_with_in_one_row(step: Step, numbers: &[usize]) -> Input {
    let mut draft = Draft::new(Asked::Accept, &[]);
    draft.add_one_row_with(numbers);
    StepDraft::new(draft, &[]).finish(step)
}

/// What is given, and the faults of the step itself.
struct StepDraft {
    given: Draft,
    own: Vec<Fault>,
    call: [u8; CALL_BYTES],
}

impl StepDraft {
    /// One more sound row, so that a drop leaves one, and a new call with its own faults of 5 to 8,
    /// between modules of its own but for an inlet or an outlet that is that of row 0. A module
    /// that is to be full gets as many rows as there are centrals.
    fn new(mut given: Draft, own: &[Fault]) -> StepDraft {
        let sound = [given.fresh_input(), 0, given.fresh_output(), 0];
        given.add_row(sound, 1);
        let mut draft = StepDraft {
            given,
            own: own.to_vec(),
            call: [0; CALL_BYTES],
        };
        if !draft.wishes(6) {
            draft.call[0] = draft.given.fresh_input();
        }
        if !draft.wishes(7) {
            draft.call[2] = draft.given.fresh_output();
        }
        if draft.wishes_way(8, 0) && !draft.given.wishes(3) {
            draft.fill_input_module();
        }
        if draft.wishes_way(8, 1) && !draft.given.wishes(3) {
            draft.fill_output_module();
        }
        draft.spoil_numbers();
        draft
    }

    fn wishes(&self, number: usize) -> bool {
        self.own.iter().any(|fault| fault.number == number)
    }

    fn wishes_way(&self, number: usize, way: usize) -> bool {
        self.own.contains(&Fault { number, way })
    }

    /// Fills the new call's input module, where row 0 is on central 0 if it is there.
    fn fill_input_module(&mut self) {
        let has_row_0 = self.wishes(6);
        for central in usize::from(has_row_0)..self.given.net.m {
            let output = self.given.fresh_output();
            self.given
                .add_row([self.call[0], central as u8, output, 0], central);
        }
        if !has_row_0 {
            self.call[1] = self.given.net.m as u8;
        }
    }

    /// Fills the new call's output module, where row 0 is on central 0 if it is there.
    fn fill_output_module(&mut self) {
        let has_row_0 = self.wishes(7);
        for central in usize::from(has_row_0)..self.given.net.m {
            let input = self.given.fresh_input();
            self.given
                .add_row([input, 0, self.call[2], central as u8], central);
        }
        if !has_row_0 {
            self.call[3] = self.given.net.m as u8;
        }
    }

    /// Makes a number of the new call the first that there isn't, where 5 is wished.
    fn spoil_numbers(&mut self) {
        let Network { n, r, .. } = self.given.net;
        for (place, limit) in [r, n, r, n].into_iter().enumerate() {
            if self.wishes_way(5, place) {
                self.call[place] = limit as u8;
            }
        }
    }

    /// 1,024 rows that are lawful but for one given fault at most, and a new call whose ends are in
    /// use.
    fn of_most_rows(given: &[Fault], own: &[Fault]) -> StepDraft {
        let mut draft = Draft::new(Asked::Accept, given);
        let wishes_8 = own.iter().any(|fault| fault.number == 8);
        let channels = if draft.wishes(1) { 17 } else { 16 };
        draft.net = Network::of_sizes(channels, if wishes_8 { 16 } else { 32 }, 64);
        draft.calls.clear();
        draft.settings.clear();
        for input in 0..64 {
            for channel in 0..16 {
                let call = [input, channel, (input + channel) % 64, channel];
                draft.add_row(call, usize::from(channel));
            }
        }
        for fault in given {
            spoil_most_rows(&mut draft, fault.number);
        }
        let mut draft = StepDraft {
            given: draft,
            own: own.to_vec(),
            call: [0; CALL_BYTES],
        };
        draft.spoil_numbers();
        draft
    }

    fn finish(mut self, step: Step) -> Input {
        let count = self.given.calls.len() / CALL_BYTES;
        self.given.spoil_lengths();
        match step {
            Step::Add => self.finish_add(count),
            Step::Drop => self.finish_drop(count),
        }
    }

    fn finish_add(self, count: usize) -> Input {
        let rows = count + 1;
        let mut call = self.call.to_vec();
        if self.wishes_way(2, 0) {
            call.push(0);
        }
        if self.wishes_way(2, 1) {
            call.pop();
        }
        Input::Add {
            calls_after: self.room(0, CALL_BYTES * rows),
            settings_after: self.room(1, SETTING_BYTES * rows),
            moved_rows: self.room(2, MOVED_BYTES * count),
            net: self.given.net,
            calls: self.given.calls,
            settings: self.given.settings,
            call,
        }
    }

    fn finish_drop(self, count: usize) -> Input {
        let left = count - 1;
        let row = match self.own.iter().find(|fault| fault.number == 17) {
            Some(Fault { way: 0, .. }) => count,
            Some(Fault { way: 1, .. }) => 1 << 32,
            Some(_) => usize::MAX,
            None => left / 2,
        };
        Input::Drop {
            calls_after: self.room(0, CALL_BYTES * left),
            settings_after: self.room(1, SETTING_BYTES * left),
            net: self.given.net,
            calls: self.given.calls,
            settings: self.given.settings,
            row,
        }
    }

    /// A room as long as needed, or one byte less where 4 is wished by it. With 1,024 rows or more
    /// there is no room at all, which is 4 as well, so that these inputs are short.
    fn room(&self, way: usize, needed: usize) -> Vec<u8> {
        if self.wishes(3) || self.given.wishes(3) {
            return Vec::new();
        }
        let is_short = self.wishes_way(4, way);
        filled(needed - usize::from(is_short))
    }
}

/// The place in the table of 1,024 rows of the call from a channel of an input module.
fn row_from(input: usize, channel: usize) -> usize {
    16 * input + channel
}

/// Puts one fault of what is given into the table of 1,024 rows: into a row from input module 40, or
/// into a later one to the same output module.
fn spoil_most_rows(draft: &mut Draft, number: usize) {
    let early = row_from(40, 3);
    let spoilt = row_from(40, 9);
    let same_output = row_from(46, 3);
    let cycle = draft.net.cycle() as u8;
    let setting = SETTING_BYTES * spoilt;
    match number {
        5 => draft.calls[CALL_BYTES * spoilt + 1] = draft.net.n as u8,
        6 => draft.calls[CALL_BYTES * spoilt + 1] = 3,
        7 => draft.calls[CALL_BYTES * same_output + 3] = 9,
        9 => draft.settings[setting] += cycle,
        10 => draft.settings[setting] = (draft.settings[setting] + 1) % cycle,
        11 => draft.settings[setting + 2] = (draft.settings[setting + 2] + 1) % cycle,
        12 => put_on_spare_central(draft, [early, spoilt]),
        13 => put_on_spare_central(draft, [spoilt, same_output]),
        _ => {}
    }
}

/// Puts two rows on a central that no row uses.
fn put_on_spare_central(draft: &mut Draft, rows: [usize; 2]) {
    for row in rows {
        let setting = setting_of(draft.net, &draft.calls[CALL_BYTES * row..], 16);
        draft.settings[SETTING_BYTES * row..SETTING_BYTES * (row + 1)].copy_from_slice(&setting);
    }
}
