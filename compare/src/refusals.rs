//! Which refusals apply to an input, each judged by its own sentence of document 01 or of requests
//! 1, 2 and 3 of document 02, and which of them is owed by the order of the entry. This is a judgement
//! of its own beside `plain.rs`, of which it uses nothing: it leans on the forms of `inputs.rs` and
//! on the constants of the package.

use crate::inputs::Input;
use crate::{
    Kind, Network, Refusal, CALL_BYTES, CYCLE_BYTES, LONGEST_NOTE, MARK, MOVED_BYTES,
    SETTING_BYTES, TRAILER_BYTES,
};

// The order of refusals.

/// The entries for whole tables and for files: the reader and the conversions once for each kind of
/// file that they take, and the writer of each kind.
#[derive(Clone, Copy, PartialEq, Eq, Debug)]
pub enum Asked {
    Plan,
    Accept,
    Read(Kind),
    Write(Kind),
    Convert(Kind),
}

impl Asked {
    /// The entries that deal with no file of kind 3 or 4.
    pub const OF_TABLES: [Asked; 6] = [
        Asked::Plan,
        Asked::Accept,
        Asked::Read(Kind::Calls),
        Asked::Read(Kind::Planned),
        Asked::Write(Kind::Calls),
        Asked::Write(Kind::Planned),
    ];

    /// The entries that read, write or make a file of kind 3 or 4, or make another of it.
    pub const OF_NEW_FILES: [Asked; 8] = [
        Asked::Read(Kind::CallsWithCycle),
        Asked::Read(Kind::PlannedWithCycle),
        Asked::Write(Kind::CallsWithCycle),
        Asked::Write(Kind::PlannedWithCycle),
        Asked::Convert(Kind::Calls),
        Asked::Convert(Kind::Planned),
        Asked::Convert(Kind::CallsWithCycle),
        Asked::Convert(Kind::PlannedWithCycle),
    ];

    /// The refusals that the entry can give, in the documents' order.
    pub fn order(self) -> &'static [usize] {
        match self {
            Asked::Plan => &[1, 2, 3, 4, 5, 6, 7, 8],
            Asked::Accept => &[1, 2, 3, 5, 6, 7, 9, 10, 11, 12, 13],
            Asked::Read(Kind::Calls | Kind::CallsWithCycle) => &[14, 1, 3, 15, 5, 6, 7],
            Asked::Read(Kind::Planned | Kind::PlannedWithCycle) => {
                &[14, 1, 3, 15, 5, 6, 7, 9, 10, 11, 12, 13]
            }
            Asked::Write(Kind::Calls) => &[1, 2, 3, 16, 4, 5, 6, 7, 18],
            Asked::Write(Kind::Planned) => &[1, 2, 3, 16, 4, 5, 6, 7, 9, 10, 11, 12, 13, 18],
            Asked::Write(Kind::CallsWithCycle) => &[1, 2, 3, 16, 4, 5, 6, 7],
            Asked::Write(Kind::PlannedWithCycle) => &[1, 2, 3, 16, 4, 5, 6, 7, 9, 10, 11, 12, 13],
            // 18 comes before 4 for these two too, but no file of theirs has it.
            Asked::Convert(Kind::Calls) => &[14, 1, 3, 15, 5, 6, 7, 4],
            Asked::Convert(Kind::Planned) => &[14, 1, 3, 15, 5, 6, 7, 9, 10, 11, 12, 13, 4],
            Asked::Convert(Kind::CallsWithCycle) => &[14, 1, 3, 15, 5, 6, 7, 18, 4],
            Asked::Convert(Kind::PlannedWithCycle) => {
                &[14, 1, 3, 15, 5, 6, 7, 9, 10, 11, 12, 13, 18, 4]
            }
        }
    }
}

/// The entries for single calls. Acceptance of what is given comes first for both.
#[derive(Clone, Copy, PartialEq, Eq, Debug)]
pub enum Step {
    Add,
    Drop,
}

impl Step {
    pub const ALL: [Step; 2] = [Step::Add, Step::Drop];

    /// The refusals that the entry can give when acceptance has none, in the document's order.
    pub fn order(self) -> &'static [usize] {
        match self {
            Step::Add => &[2, 3, 4, 5, 6, 7, 8],
            Step::Drop => &[17, 4],
        }
    }
}

/// Whether a refusal tells a row.
pub fn is_sought_in_rows(number: usize) -> bool {
    (5..=13).contains(&number)
}

/// Whether a refusal is one of those that each row is tried for in turn.
fn is_of_settings(number: usize) -> bool {
    (9..=13).contains(&number)
}

/// The answer that is owed when these refusals apply: the first in the entry's order, but of 9 to
/// 13, which have one turn together, the one in the lowest row, and in one row the lowest number.
pub fn first_in_order(order: &[usize], applying: &[Refusal]) -> Option<Refusal> {
    let turn_of = |number: usize| {
        order
            .iter()
            .position(|&other| other == number || is_of_settings(other) && is_of_settings(number))
    };
    applying
        .iter()
        .filter(|refusal| order.contains(&refusal.number))
        .min_by_key(|refusal| (turn_of(refusal.number), refusal.row, refusal.number))
        .copied()
}

/// The answer that is owed to an input by all refusals that apply to it.
pub fn owed_refusal(input: &Input) -> Option<Refusal> {
    let applying = applying_refusals(input);
    let owed_by = |asked: Asked| first_in_order(asked.order(), &applying);
    let owed_after_acceptance = |step: Step| {
        owed_by(Asked::Accept)
            .or_else(|| first_in_order(step.order(), &applying_after_acceptance(input)))
    };
    match input {
        Input::Plan { .. } => owed_by(Asked::Plan),
        Input::Accept { .. } => owed_by(Asked::Accept),
        // A file of calls only never has those that come in addition.
        Input::Read { .. } => owed_by(Asked::Read(Kind::PlannedWithCycle)),
        Input::Write { kind, .. } => owed_by(Asked::Write(*kind)),
        Input::Add { .. } => owed_after_acceptance(Step::Add),
        Input::Drop { .. } => owed_after_acceptance(Step::Drop),
        Input::ConvertToNew { .. } => owed_by(Asked::Convert(Kind::Planned)),
        Input::ConvertToOld { .. } => owed_by(Asked::Convert(Kind::PlannedWithCycle)),
    }
}

// The refusals of each entry.

/// All refusals that apply to an input, each judged by its own sentence alone, as if no other were
/// tried before it; for a single call those of acceptance of what is given. One is left out only
/// where it can't be judged: rows and distances of a file without a trailer or without a known
/// kind, rows that a file doesn't hold, 9 to 13 where the cycle is 0, and the room of a conversion
/// for a file of a kind that it doesn't take.
pub fn applying_refusals(input: &Input) -> Vec<Refusal> {
    match input {
        Input::Plan {
            net,
            calls,
            settings,
        } => of_plan(*net, calls, settings.len()),
        Input::Accept {
            net,
            calls,
            settings,
        }
        | Input::Add {
            net,
            calls,
            settings,
            ..
        }
        | Input::Drop {
            net,
            calls,
            settings,
            ..
        } => of_accept(*net, calls, settings),
        Input::Read { file } => of_file(file, &[1, 2, 3, 4]),
        Input::Write {
            kind,
            net,
            note,
            calls,
            settings,
            out,
        } => of_write(*kind, *net, [note, calls, settings], out.len()),
        Input::ConvertToNew { file, out } => of_conversion(file, &[1, 2], out.len()),
        Input::ConvertToOld { file, out } => of_conversion(file, &[3, 4], out.len()),
    }
}

/// All refusals of a single call that apply besides those of what is given, each judged by its own
/// sentence alone; none for a whole table. 5 to 8 are left out where there are no 4 bytes to be
/// judged.
pub fn applying_after_acceptance(input: &Input) -> Vec<Refusal> {
    match input {
        Input::Add {
            net,
            calls,
            call,
            calls_after,
            settings_after,
            moved_rows,
            ..
        } => {
            let rooms = [calls_after.len(), settings_after.len(), moved_rows.len()];
            of_add(*net, calls, call, rooms)
        }
        Input::Drop {
            calls,
            row,
            calls_after,
            settings_after,
            ..
        } => of_drop(calls, *row, [calls_after.len(), settings_after.len()]),
        _ => Vec::new(),
    }
}

fn of_add(net: Network, calls: &[u8], call: &[u8], rooms: [usize; 3]) -> Vec<Refusal> {
    let count = calls.len() / CALL_BYTES;
    let mut list = Vec::new();
    add_if(&mut list, 2, call.len() != CALL_BYTES);
    add_if(&mut list, 3, count >= Network::MOST_ROWS);
    let needed = [
        CALL_BYTES * (count + 1),
        SETTING_BYTES * (count + 1),
        MOVED_BYTES * count,
    ];
    let is_short = rooms
        .iter()
        .zip(needed)
        .any(|(&room, needed)| room < needed);
    add_if(&mut list, 4, is_short);
    if call.len() >= CALL_BYTES {
        add_new_call_refusals(&mut list, net, calls, &call[..CALL_BYTES]);
    }
    list
}

/// 5 to 8 of a new call, with the row that it would have.
fn add_new_call_refusals(list: &mut Vec<Refusal>, net: Network, calls: &[u8], call: &[u8]) {
    let rows = rows_of(calls, CALL_BYTES);
    let mut add = |number: usize, applies: bool| {
        if applies {
            list.push(Refusal {
                number,
                row: rows.len(),
            });
        }
    };
    let limits = [net.r, net.n, net.r, net.n];
    let is_outside = call
        .iter()
        .zip(limits)
        .any(|(&number, limit)| usize::from(number) >= limit);
    let has_same = |from: usize, to: usize| {
        rows.iter()
            .filter(|row| row[from..to] == call[from..to])
            .count()
    };
    add(5, is_outside);
    add(6, has_same(0, 2) > 0);
    add(7, has_same(2, 4) > 0);
    add(8, has_same(0, 1) >= net.m || has_same(2, 3) >= net.m);
}

fn of_drop(calls: &[u8], row: usize, rooms: [usize; 2]) -> Vec<Refusal> {
    let count = calls.len() / CALL_BYTES;
    let left = count.saturating_sub(1);
    let mut list = Vec::new();
    add_if(&mut list, 17, row >= count);
    let is_short = rooms[0] < CALL_BYTES * left || rooms[1] < SETTING_BYTES * left;
    add_if(&mut list, 4, is_short);
    list
}

fn of_plan(net: Network, calls: &[u8], room: usize) -> Vec<Refusal> {
    let count = calls.len() / CALL_BYTES;
    let mut list = Vec::new();
    add_if(&mut list, 1, sizes_are_outside(net));
    add_if(&mut list, 2, calls.len() % CALL_BYTES != 0);
    add_if(&mut list, 3, count > Network::MOST_ROWS);
    add_if(&mut list, 4, room < SETTING_BYTES * count);
    add_call_refusals(&mut list, net, calls);
    add_module_refusal(&mut list, net, calls);
    list
}

fn of_accept(net: Network, calls: &[u8], settings: &[u8]) -> Vec<Refusal> {
    let count = calls.len() / CALL_BYTES;
    let mut list = Vec::new();
    add_if(&mut list, 1, sizes_are_outside(net));
    let not_whole = calls.len() % CALL_BYTES != 0 || settings.len() != SETTING_BYTES * count;
    add_if(&mut list, 2, not_whole);
    add_if(&mut list, 3, count > Network::MOST_ROWS);
    add_call_refusals(&mut list, net, calls);
    add_setting_refusals(&mut list, net, calls, settings);
    list
}

fn of_calls_alone(net: Network, calls: &[u8], settings: &[u8]) -> Vec<Refusal> {
    let count = calls.len() / CALL_BYTES;
    let mut list = Vec::new();
    add_if(&mut list, 1, sizes_are_outside(net));
    let not_whole = calls.len() % CALL_BYTES != 0 || !settings.is_empty();
    add_if(&mut list, 2, not_whole);
    add_if(&mut list, 3, count > Network::MOST_ROWS);
    add_call_refusals(&mut list, net, calls);
    list
}

fn of_write(kind: Kind, net: Network, parts: [&[u8]; 3], room: usize) -> Vec<Refusal> {
    let [note, calls, settings] = parts;
    let count = calls.len() / CALL_BYTES;
    let (mut list, row_bytes) = match kind {
        Kind::Calls | Kind::CallsWithCycle => (of_calls_alone(net, calls, settings), CALL_BYTES),
        Kind::Planned | Kind::PlannedWithCycle => {
            (of_accept(net, calls, settings), CALL_BYTES + SETTING_BYTES)
        }
    };
    add_if(&mut list, 16, note.len() > LONGEST_NOTE);
    let needed = note.len() + row_bytes * count + TRAILER_BYTES;
    match kind {
        Kind::Calls | Kind::Planned => {
            add_if(&mut list, 4, room < needed);
            add_if(&mut list, 18, has_no_place_in_files(net));
        }
        Kind::CallsWithCycle | Kind::PlannedWithCycle => {
            add_if(&mut list, 4, room < needed + CYCLE_BYTES);
        }
    }
    list
}

/// Those of a reader that takes files of these kinds.
fn of_file(file: &[u8], taken: &[u8]) -> Vec<Refusal> {
    let mut list = Vec::new();
    let last = match LastBytes::of(file) {
        Some(last) => last,
        None => {
            add_if(&mut list, 14, true);
            return list;
        }
    };
    let lacks_trailer = last.twelve[10..] != MARK
        || !taken.contains(&last.kind())
        || last.is_short
        || last.two.map_or(false, |[_, spare]| spare != 0);
    let net = last.net();
    let count = last.number_at(4);
    add_if(&mut list, 14, lacks_trailer);
    add_if(&mut list, 1, sizes_are_outside(net));
    add_if(&mut list, 3, count > Network::MOST_ROWS);
    if last.is_short || !(1..=4).contains(&last.kind()) {
        return list;
    }
    let is_planned = last.kind() % 2 == 0;
    let calls_length = CALL_BYTES * count;
    let settings_length = if is_planned { SETTING_BYTES * count } else { 0 };
    let rows_length = calls_length + settings_length;
    let body = last.body;
    let distances = [last.number_at(6), last.number_at(8)];
    let not_as_stated = distances != [settings_length, rows_length];
    let not_held = distances[1] > body.len();
    let note_too_long = distances[1] + LONGEST_NOTE < body.len();
    add_if(&mut list, 15, not_as_stated || not_held || note_too_long);
    if rows_length <= body.len() {
        let calls_at = body.len() - rows_length;
        let (calls, settings) = body[calls_at..].split_at(calls_length);
        add_call_refusals(&mut list, net, calls);
        if is_planned {
            add_setting_refusals(&mut list, net, calls, settings);
        }
    }
    list
}

/// Those of a conversion that takes files of these kinds: to new ones it adds two bytes, to old ones
/// it takes two away.
fn of_conversion(file: &[u8], taken: &[u8], room: usize) -> Vec<Refusal> {
    let mut list = of_file(file, taken);
    if let Some(last) = LastBytes::of(file) {
        if taken.contains(&last.kind()) && !last.is_short {
            add_if(&mut list, 18, has_no_place_in_files(last.net()));
            let has_two = last.two.is_some();
            let is_short = if has_two {
                room + CYCLE_BYTES < file.len()
            } else {
                room < file.len() + CYCLE_BYTES
            };
            add_if(&mut list, 4, is_short);
        }
    }
    list
}

/// The last twelve bytes of a file; for a kind that has them, the two bytes before these, unless the
/// file is too short; and all that stands before.
struct LastBytes<'a> {
    body: &'a [u8],
    two: Option<[u8; CYCLE_BYTES]>,
    twelve: &'a [u8],
    is_short: bool,
}

impl<'a> LastBytes<'a> {
    /// None of a file under twelve bytes.
    fn of(file: &'a [u8]) -> Option<LastBytes<'a>> {
        let front_length = file.len().checked_sub(TRAILER_BYTES)?;
        let (front, twelve) = file.split_at(front_length);
        let has_two = twelve[3] == 3 || twelve[3] == 4;
        let (body, two) = match front {
            [body @ .., w, spare] if has_two => (body, Some([*w, *spare])),
            _ => (front, None),
        };
        Some(LastBytes {
            body,
            two,
            twelve,
            is_short: has_two && two.is_none(),
        })
    }

    fn kind(&self) -> u8 {
        self.twelve[3]
    }

    fn number_at(&self, at: usize) -> usize {
        usize::from(u16::from_be_bytes([self.twelve[at], self.twelve[at + 1]]))
    }

    /// The three sizes, with W where it stands, or else with the larger of r and m.
    fn net(&self) -> Network {
        let [n, m, r] = [0, 1, 2].map(|at| usize::from(self.twelve[at]));
        let of_sizes = Network::of_sizes(n, m, r);
        match self.two {
            Some([w, _]) => of_sizes.with_cycle(usize::from(w)),
            None => of_sizes,
        }
    }
}

// Single refusals.

/// Adds a refusal that tells row 0, if it applies.
fn add_if(list: &mut Vec<Refusal>, number: usize, applies: bool) {
    if applies {
        list.push(Refusal { number, row: 0 });
    }
}

/// Adds a refusal with the first row that is at fault, if one is.
fn add_first_row(
    list: &mut Vec<Refusal>,
    number: usize,
    count: usize,
    at_fault: impl Fn(usize) -> bool,
) {
    if let Some(row) = (0..count).find(|&row| at_fault(row)) {
        list.push(Refusal { number, row });
    }
}

fn sizes_are_outside(net: Network) -> bool {
    let outside_limits = [
        (net.n, Network::MOST_CHANNELS),
        (net.m, Network::MOST_CENTRALS),
        (net.r, Network::MOST_MODULES),
    ]
    .iter()
    .any(|&(size, most)| size == 0 || size > most);
    outside_limits || net.w < net.r || net.w < net.m || net.w > Network::MOST_WAVELENGTHS
}

/// Whether a file of kind 1 or 2 would be read with another cycle.
fn has_no_place_in_files(net: Network) -> bool {
    net != Network::of_sizes(net.n, net.m, net.r)
}

/// Whole rows of so many bytes.
fn rows_of(bytes: &[u8], length: usize) -> Vec<&[u8]> {
    bytes.chunks_exact(length).collect()
}

/// 5, 6 and 7.
fn add_call_refusals(list: &mut Vec<Refusal>, net: Network, calls: &[u8]) {
    let rows = rows_of(calls, CALL_BYTES);
    let is_outside = |number: u8, limit: usize| usize::from(number) >= limit;
    add_first_row(list, 5, rows.len(), |row| {
        is_outside(rows[row][0], net.r)
            || is_outside(rows[row][1], net.n)
            || is_outside(rows[row][2], net.r)
            || is_outside(rows[row][3], net.n)
    });
    add_first_row(list, 6, rows.len(), |row| {
        (0..row).any(|earlier| rows[earlier][..2] == rows[row][..2])
    });
    add_first_row(list, 7, rows.len(), |row| {
        (0..row).any(|earlier| rows[earlier][2..] == rows[row][2..])
    });
}

/// 8.
fn add_module_refusal(list: &mut Vec<Refusal>, net: Network, calls: &[u8]) {
    let rows = rows_of(calls, CALL_BYTES);
    add_first_row(list, 8, rows.len(), |row| {
        [0, 2].iter().any(|&side| {
            let same_module = (0..=row).filter(|&other| rows[other][side] == rows[row][side]);
            same_module.count() > net.m
        })
    });
}

/// 9 to 13, of the rows that have both a call and settings.
fn add_setting_refusals(list: &mut Vec<Refusal>, net: Network, calls: &[u8], settings: &[u8]) {
    let cycle = net.cycle();
    if cycle == 0 {
        return;
    }
    let calls = rows_of(calls, CALL_BYTES);
    let settings = rows_of(settings, SETTING_BYTES);
    let count = calls.len().min(settings.len());
    let remainder = |from: u8, less: u8| {
        (i128::from(from) - i128::from(less)).rem_euclid(cycle as i128) as usize
    };
    add_first_row(list, 9, count, |row| {
        usize::from(settings[row][0]) >= cycle
            || usize::from(settings[row][2]) >= cycle
            || usize::from(settings[row][1]) >= net.m
    });
    add_first_row(list, 10, count, |row| {
        remainder(settings[row][0], calls[row][0]) != usize::from(settings[row][1])
    });
    add_first_row(list, 11, count, |row| {
        remainder(settings[row][2], settings[row][1]) != usize::from(calls[row][2])
    });
    for (number, side) in [(12, 0), (13, 2)] {
        add_first_row(list, number, count, |row| {
            (0..row).any(|earlier| {
                calls[earlier][side] == calls[row][side] && settings[earlier][1] == settings[row][1]
            })
        });
    }
}
