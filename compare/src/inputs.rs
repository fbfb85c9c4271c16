//! Inputs of the eleven entries: what they are, the parts that they are made of, and drawn ones, the
//! same for the same seed. Of `plain.rs` only the planner is used, for drawn settings that are right.
//! Inputs for single calls are drawn in `inputs/steps.rs`, on shelves drawn in `inputs/running.rs`;
//! files of all kinds, to be read and converted, and what writes those that tell the cycle, in
//! `inputs/files.rs`.

mod files;
mod running;
mod steps;

pub use running::{draw_running, draw_thread, Running};

use crate::ladders::{calls_of_pairs, path, rounds_and_ladder};
use crate::plain::Plain;
use crate::{Entries, Kind, Network, CALL_BYTES, LONGEST_NOTE, MARK, SETTING_BYTES, TRAILER_BYTES};

/// The entries. Their numbers in stored inputs are those of `stored_form.rs`.
#[derive(Clone, Copy, PartialEq, Eq, Debug)]
pub enum Entry {
    Plan,
    Accept,
    Read,
    WriteCalls,
    WritePlanned,
    Add,
    Drop,
    WriteCallsWithCycle,
    WritePlannedWithCycle,
    ConvertToNew,
    ConvertToOld,
}

impl Entry {
    pub const ALL: [Entry; 11] = [
        Entry::Plan,
        Entry::Accept,
        Entry::Read,
        Entry::WriteCalls,
        Entry::WritePlanned,
        Entry::Add,
        Entry::Drop,
        Entry::WriteCallsWithCycle,
        Entry::WritePlannedWithCycle,
        Entry::ConvertToNew,
        Entry::ConvertToOld,
    ];

    /// The writer of a kind.
    pub const fn writer_of(kind: Kind) -> Entry {
        match kind {
            Kind::Calls => Entry::WriteCalls,
            Kind::Planned => Entry::WritePlanned,
            Kind::CallsWithCycle => Entry::WriteCallsWithCycle,
            Kind::PlannedWithCycle => Entry::WritePlannedWithCycle,
        }
    }
}

/// An input of one entry, with the bytes that a buffer to be written holds before.
#[derive(Clone, PartialEq, Eq, Debug)]
pub enum Input {
    Plan {
        net: Network,
        calls: Vec<u8>,
        settings: Vec<u8>,
    },
    Accept {
        net: Network,
        calls: Vec<u8>,
        settings: Vec<u8>,
    },
    Read {
        file: Vec<u8>,
    },
    Write {
        kind: Kind,
        net: Network,
        note: Vec<u8>,
        calls: Vec<u8>,
        settings: Vec<u8>,
        out: Vec<u8>,
    },
    Add {
        net: Network,
        calls: Vec<u8>,
        settings: Vec<u8>,
        call: Vec<u8>,
        calls_after: Vec<u8>,
        settings_after: Vec<u8>,
        moved_rows: Vec<u8>,
    },
    Drop {
        net: Network,
        calls: Vec<u8>,
        settings: Vec<u8>,
        row: usize,
        calls_after: Vec<u8>,
        settings_after: Vec<u8>,
    },
    ConvertToNew {
        file: Vec<u8>,
        out: Vec<u8>,
    },
    ConvertToOld {
        file: Vec<u8>,
        out: Vec<u8>,
    },
}

impl Input {
    pub fn entry(&self) -> Entry {
        match self {
            Input::Plan { .. } => Entry::Plan,
            Input::Accept { .. } => Entry::Accept,
            Input::Read { .. } => Entry::Read,
            Input::Write { kind, .. } => Entry::writer_of(*kind),
            Input::Add { .. } => Entry::Add,
            Input::Drop { .. } => Entry::Drop,
            Input::ConvertToNew { .. } => Entry::ConvertToNew,
            Input::ConvertToOld { .. } => Entry::ConvertToOld,
        }
    }
}

// The parts of an input.

/// The call row from an inlet to an outlet, both by number: module by module, channel by channel.
pub fn call_of(net: Network, inlet: usize, outlet: usize) -> [u8; CALL_BYTES] {
    [
        (inlet / net.n) as u8,
        (inlet % net.n) as u8,
        (outlet / net.n) as u8,
        (outlet % net.n) as u8,
    ]
}

/// The settings row that a call needs on a central.
pub fn setting_of(net: Network, call: &[u8], central: usize) -> [u8; SETTING_BYTES] {
    let cycle = net.cycle();
    [
        ((usize::from(call[0]) + central) % cycle) as u8,
        central as u8,
        ((central + usize::from(call[2])) % cycle) as u8,
    ]
}

/// Bytes of the settings of a call table: 3 for each whole call row.
pub fn settings_length(calls: &[u8]) -> usize {
    SETTING_BYTES * (calls.len() / CALL_BYTES)
}

/// A file as the document lays it out, without any check; numbers too large for their bytes are
/// cut.
pub fn file_of(kind: Kind, net: Network, note: &[u8], calls: &[u8], settings: &[u8]) -> Vec<u8> {
    let count = calls.len() / CALL_BYTES;
    let settings_distance = settings.len();
    let calls_distance = calls.len() + settings.len();
    let mut file = [note, calls, settings].concat();
    if kind.tells_cycle() {
        file.extend([net.w as u8, 0]);
    }
    file.extend([net.n as u8, net.m as u8, net.r as u8, kind as u8]);
    for number in [count, settings_distance, calls_distance] {
        file.extend([(number >> 8) as u8, number as u8]);
    }
    file.extend(MARK);
    file
}

/// Bytes of the file of a kind with this note, these calls and these settings, which count only where
/// the kind has some.
pub fn file_length(kind: Kind, note: &[u8], calls: &[u8], settings: &[u8]) -> usize {
    let rows = if kind.has_settings() {
        calls.len() + settings.len()
    } else {
        calls.len()
    };
    note.len() + rows + kind.trailer_bytes()
}

/// The file with another byte in the place of its kind, which is the same in all files.
pub fn with_kind_byte(mut file: Vec<u8>, byte: u8) -> Vec<u8> {
    let twelve_at = file.len() - TRAILER_BYTES;
    file[twelve_at + KIND_AT] = byte;
    file
}

/// Bytes of the file that one of this kind is converted to.
pub fn converted_length(kind: Kind, file: &[u8]) -> usize {
    (file.len() + kind.converted().trailer_bytes()).saturating_sub(kind.trailer_bytes())
}

/// So many bytes, each filled by its place, so that a byte that is written is seen.
pub fn filled(length: usize) -> Vec<u8> {
    (0..length).map(|place| (place * 37 + 163) as u8).collect()
}

// Drawn inputs.

/// A small source of drawn numbers (splitmix64).
pub struct Random {
    state: u64,
}

impl Random {
    pub fn seeded(seed: u64) -> Random {
        Random { state: seed }
    }

    pub fn number(&mut self) -> u64 {
        self.state = self.state.wrapping_add(0x9E37_79B9_7F4A_7C15);
        let mut mixed = self.state;
        mixed = (mixed ^ (mixed >> 30)).wrapping_mul(0xBF58_476D_1CE4_E5B9);
        mixed = (mixed ^ (mixed >> 27)).wrapping_mul(0x94D0_49BB_1331_11EB);
        mixed ^ (mixed >> 31)
    }

    /// A number below the limit, which is above 0.
    pub fn below(&mut self, limit: usize) -> usize {
        (self.number() % limit as u64) as usize
    }

    /// A number from the lowest to the highest, both possible.
    pub fn between(&mut self, lowest: usize, highest: usize) -> usize {
        lowest + self.below(highest - lowest + 1)
    }

    pub fn byte(&mut self) -> u8 {
        self.number() as u8
    }

    /// True once in so many times.
    pub fn once_in(&mut self, times: usize) -> bool {
        self.below(times) == 0
    }

    pub fn bytes(&mut self, length: usize) -> Vec<u8> {
        (0..length).map(|_| self.byte()).collect()
    }

    pub fn pick<T: Copy>(&mut self, from: &[T]) -> T {
        from[self.below(from.len())]
    }

    pub fn shuffle<T>(&mut self, list: &mut [T]) {
        for place in (1..list.len()).rev() {
            list.swap(place, self.below(place + 1));
        }
    }

    /// The numbers below the limit in drawn order.
    pub fn order(&mut self, limit: usize) -> Vec<usize> {
        let mut order: Vec<usize> = (0..limit).collect();
        self.shuffle(&mut order);
        order
    }
}

/// Which cycles networks have: that of their three sizes alone, or drawn ones.
#[derive(Clone, Copy, PartialEq, Eq, Debug)]
enum Cycles {
    OfSizes,
    Drawn,
}

/// Inputs drawn one after the other, without end.
pub fn drawn(seed: u64) -> impl Iterator<Item = Input> {
    let mut random = Random::seeded(seed);
    std::iter::repeat_with(move || draw(&mut random))
}

/// Inputs of the entries for whole tables, drawn one after the other, without end.
pub fn drawn_of_tables(seed: u64) -> impl Iterator<Item = Input> {
    let mut random = Random::seeded(seed);
    std::iter::repeat_with(move || draw_of_table(&mut random, Cycles::Drawn))
}

/// The same, all with the larger of r and m for a cycle.
pub fn drawn_of_sizes(seed: u64) -> impl Iterator<Item = Input> {
    let mut random = Random::seeded(seed);
    std::iter::repeat_with(move || draw_of_table(&mut random, Cycles::OfSizes))
}

/// Inputs that add a call or drop one, drawn one after the other, without end.
pub fn drawn_steps(seed: u64) -> impl Iterator<Item = Input> {
    let mut random = Random::seeded(seed);
    std::iter::repeat_with(move || draw_step(&mut random))
}

/// Inputs that read or convert a file of any kind, or write one that tells the cycle, drawn one after
/// the other, without end.
pub fn drawn_of_files(seed: u64) -> impl Iterator<Item = Input> {
    let mut random = Random::seeded(seed);
    std::iter::repeat_with(move || draw_of_file(&mut random))
}

/// Draws an input of any of the eleven entries.
pub fn draw(random: &mut Random) -> Input {
    match random.below(10) {
        0..=2 => draw_step(random),
        3..=6 => draw_of_table(random, Cycles::Drawn),
        _ => draw_of_file(random),
    }
}

/// Draws an input that adds a call, three times of four, or drops one.
fn draw_step(random: &mut Random) -> Input {
    if random.once_in(4) {
        steps::draw_drop(random)
    } else {
        steps::draw_add(random)
    }
}

/// Draws an input of planner, acceptance or reader, or of a writer of kind 1 or 2.
fn draw_of_table(random: &mut Random, cycles: Cycles) -> Input {
    match random.below(10) {
        0..=2 => draw_plan(random, cycles),
        3 | 4 => draw_accept(random, cycles),
        5 | 6 => draw_read(random, cycles),
        7 => draw_write_calls(random, cycles, Kind::Calls),
        _ => draw_write_planned(random, cycles, Kind::Planned),
    }
}

/// Draws an input of the reader or of either conversion, or of a writer of kind 3 or 4.
fn draw_of_file(random: &mut Random) -> Input {
    match random.below(12) {
        0..=2 => files::draw_read(random),
        3 | 4 => files::draw_convert_to_new(random),
        5..=7 => files::draw_convert_to_old(random),
        8 | 9 => draw_write_calls(random, Cycles::Drawn, Kind::CallsWithCycle),
        _ => draw_write_planned(random, Cycles::Drawn, Kind::PlannedWithCycle),
    }
}

fn draw_plan(random: &mut Random, cycles: Cycles) -> Input {
    let table = draw_table(random, cycles);
    let calls = draw_calls_length(random, table.calls);
    let needed = settings_length(&calls);
    Input::Plan {
        net: draw_numbers(random, cycles, table.net),
        calls,
        settings: draw_room(random, needed),
    }
}

fn draw_accept(random: &mut Random, cycles: Cycles) -> Input {
    let table = draw_table(random, cycles);
    let settings = draw_settings(random, &table);
    Input::Accept {
        net: draw_numbers(random, cycles, table.net),
        calls: draw_calls_length(random, table.calls),
        settings: draw_settings_length(random, settings),
    }
}

/// Draws an input of a writer of calls-only files.
fn draw_write_calls(random: &mut Random, cycles: Cycles, kind: Kind) -> Input {
    let table = draw_table(random, cycles);
    let note = draw_note_to_write(random);
    let calls = draw_calls_length(random, table.calls);
    let settings = match random.below(12) {
        0 => random.bytes(1),
        1 => random.bytes(settings_length(&calls)),
        _ => Vec::new(),
    };
    let needed = file_length(kind, &note, &calls, &settings);
    Input::Write {
        kind,
        net: draw_numbers(random, cycles, table.net),
        note,
        calls,
        settings,
        out: draw_room(random, needed),
    }
}

/// Draws an input of a writer of planned files.
fn draw_write_planned(random: &mut Random, cycles: Cycles, kind: Kind) -> Input {
    let table = draw_table(random, cycles);
    let settings = draw_settings(random, &table);
    let note = draw_note_to_write(random);
    let calls = draw_calls_length(random, table.calls);
    let settings = draw_settings_length(random, settings);
    let needed = file_length(kind, &note, &calls, &settings);
    Input::Write {
        kind,
        net: draw_numbers(random, cycles, table.net),
        note,
        calls,
        settings,
        out: draw_room(random, needed),
    }
}

fn draw_read(random: &mut Random, cycles: Cycles) -> Input {
    let file = if random.once_in(30) {
        let length = random.between(0, 80);
        random.bytes(length)
    } else {
        draw_file(random, cycles)
    };
    Input::Read { file }
}

// Sizes, cycles, lengths and rooms.

/// The network with its numbers as they are, most of the time; otherwise with another cycle, or with
/// another size and the cycle of the sizes or that of before.
fn draw_numbers(random: &mut Random, cycles: Cycles, net: Network) -> Network {
    if cycles == Cycles::OfSizes {
        return draw_sizes(random, net);
    }
    match random.below(16) {
        0 | 1 => net.with_cycle(draw_other_cycle(random, net)),
        2..=8 => draw_sizes(random, net).with_cycle(net.cycle()),
        _ => draw_sizes(random, net),
    }
}

/// Half of the time the larger of r and m; otherwise a cycle within its limits that leaves spare
/// ports: by one or by two, or up to the most.
fn draw_cycle(random: &mut Random, net: Network) -> usize {
    let least = net.least_cycle();
    let most = Network::MOST_WAVELENGTHS;
    match random.below(8) {
        0..=3 => least,
        4 => most.min(least + 1),
        5 => most.min(least + 2),
        6 => random.between(least, most),
        _ => random.pick(&[most - 1, most]).max(least),
    }
}

/// A cycle below, at or above each of its limits, a huge one, or one that would be right if cut to 8,
/// 16 or 32 bits. Most are refused; the others are not those that the settings were made for.
fn draw_other_cycle(random: &mut Random, net: Network) -> usize {
    let small = random.between(net.least_cycle(), Network::MOST_WAVELENGTHS);
    random.pick(&[
        net.r - 1,
        net.r,
        net.r + 1,
        net.m - 1,
        net.m,
        net.m + 1,
        net.least_cycle(),
        0,
        63,
        64,
        65,
        1 << 32,
        usize::MAX,
        small + (1 << 8),
        small + (1 << 16),
        small + (1 << 32),
        net.cycle() + (1 << 32),
        net.cycle() + (1 << 63),
    ])
}

/// Nine times of ten the network itself; otherwise one of its sizes is at a limit, over it, huge, or
/// such that it would be right if cut to 8, 16 or 32 bits, and its cycle is the larger of r and m.
fn draw_sizes(random: &mut Random, net: Network) -> Network {
    if !random.once_in(10) {
        return net;
    }
    let size = random.below(3);
    let right = [net.n, net.m, net.r][size];
    let other = random.pick(&[
        0,
        16,
        17,
        32,
        33,
        64,
        65,
        255,
        256,
        257,
        65_537,
        usize::MAX,
        right + (1 << 8),
        right + (1 << 16),
        right + (1 << 32),
        right + (1 << 63),
    ]);
    match size {
        0 => Network::of_sizes(other, net.m, net.r),
        1 => Network::of_sizes(net.n, other, net.r),
        _ => Network::of_sizes(net.n, net.m, other),
    }
}

/// The bytes as they are; now and then up to so many more, or fewer.
fn draw_length(random: &mut Random, mut bytes: Vec<u8>, most: usize) -> Vec<u8> {
    if random.once_in(20) {
        let difference = random.between(1, most);
        if random.once_in(2) {
            bytes.extend(random.bytes(difference));
        } else {
            bytes.truncate(bytes.len().saturating_sub(difference));
        }
    }
    bytes
}

/// Now and then some bytes more or fewer than whole rows.
fn draw_calls_length(random: &mut Random, calls: Vec<u8>) -> Vec<u8> {
    draw_length(random, calls, CALL_BYTES - 1)
}

/// Now and then some bytes more or fewer than 3 for each call.
fn draw_settings_length(random: &mut Random, settings: Vec<u8>) -> Vec<u8> {
    draw_length(random, settings, SETTING_BYTES + 1)
}

/// A room that is exact, one less, more, none, or so large that its length would not do if cut to
/// 16 bits.
fn draw_room(random: &mut Random, needed: usize) -> Vec<u8> {
    let length = match random.below(40) {
        0..=19 => needed,
        20..=22 => needed.saturating_sub(1),
        23..=36 => needed + random.between(1, 40),
        37 | 38 => 0,
        _ if random.once_in(4) => 65_536 + random.below(needed + 1),
        _ => needed + 1000,
    };
    random.bytes(length)
}

/// A note of 0, 1, any allowed, or 255 bytes; now and then one that may not be written.
fn draw_note_to_write(random: &mut Random) -> Vec<u8> {
    if !random.once_in(12) {
        return draw_note(random);
    }
    let length = match random.below(8) {
        0..=3 => LONGEST_NOTE + 1,
        4 => 257,
        5 => 512,
        6 => random.between(256, 900),
        _ => 65_536 + random.below(3),
    };
    random.bytes(length)
}

fn draw_note(random: &mut Random) -> Vec<u8> {
    let length = match random.below(8) {
        0..=2 => 0,
        3 => 1,
        4 => LONGEST_NOTE,
        5 => random.between(0, LONGEST_NOTE),
        _ => random.between(0, 20),
    };
    random.bytes(length)
}

// Call tables.

/// A network within its limits and the bytes of a call table for it, with or without fault.
struct CallTable {
    net: Network,
    calls: Vec<u8>,
}

/// Draws a table of any kind, and the cycle of its network.
fn draw_table(random: &mut Random, cycles: Cycles) -> CallTable {
    let table = draw_table_of_sizes(random);
    match cycles {
        Cycles::OfSizes => table,
        Cycles::Drawn => draw_table_cycle(random, table),
    }
}

/// The table with a drawn cycle of its network. Where there are too many rows the network may lose a
/// module, so that a cycle above the larger of r and m is within its limits there too.
fn draw_table_cycle(random: &mut Random, table: CallTable) -> CallTable {
    let mut net = table.net;
    if table.calls.len() > CALL_BYTES * Network::MOST_ROWS && random.once_in(2) {
        net.r -= 1;
    }
    CallTable {
        net: net.with_cycle(draw_cycle(random, net)),
        ..table
    }
}

/// Draws a table of any kind; most are small.
fn draw_table_of_sizes(random: &mut Random) -> CallTable {
    match random.below(200) {
        0 => draw_largest(random),
        1 => draw_too_many(random),
        2 => draw_largest_ladder(random),
        3..=6 => draw_full(random),
        7..=12 => draw_ladder(random),
        13..=15 => draw_path(random),
        16..=29 => draw_overfull(random),
        30..=36 => draw_random_bytes(random),
        37..=80 => {
            let mut table = draw_sound(random);
            spoil_calls(random, &mut table);
            table
        }
        81..=110 => draw_small_full(random),
        _ => draw_sound(random),
    }
}

fn draw_small_network(random: &mut Random) -> Network {
    Network::of_sizes(
        random.between(1, 4),
        random.between(1, 5),
        random.between(1, 6),
    )
}

fn draw_network(random: &mut Random) -> Network {
    if !random.once_in(4) {
        return draw_small_network(random);
    }
    Network::of_sizes(
        random.between(1, Network::MOST_CHANNELS),
        random.between(1, Network::MOST_CENTRALS),
        random.between(1, Network::MOST_MODULES),
    )
}

/// Distinct inlets to distinct outlets, well spread: up to 30 of them.
fn draw_sound(random: &mut Random) -> CallTable {
    let net = draw_network(random);
    let most = (net.n * net.r).min(30);
    let wanted = random.between(0, most);
    CallTable {
        net,
        calls: spread_calls(random, net, wanted),
    }
}

/// So many distinct inlets to distinct outlets, in drawn order.
pub fn spread_calls(random: &mut Random, net: Network, wanted: usize) -> Vec<u8> {
    let inlets = random.order(net.n * net.r);
    let outlets = random.order(net.n * net.r);
    inlets
        .iter()
        .zip(&outlets)
        .take(wanted)
        .flat_map(|(&inlet, &outlet)| call_of(net, inlet, outlet))
        .collect()
}

/// Every inlet, or nearly every, of a small network with hardly a central to spare: chains are
/// frequent.
fn draw_small_full(random: &mut Random) -> CallTable {
    let n = random.between(1, 4);
    let net = Network::of_sizes(n, n + random.pick(&[0, 0, 0, 1]), random.between(1, 8));
    draw_dense(random, net)
}

/// Every inlet, or nearly every, of a network that may be larger.
fn draw_full(random: &mut Random) -> CallTable {
    let n = random.between(1, Network::MOST_CHANNELS);
    let net = Network::of_sizes(n, n + random.pick(&[0, 0, 1, 5]), random.between(1, 40));
    draw_dense(random, net)
}

/// Three quarters to all inlets, in one of several row orders.
fn draw_dense(random: &mut Random, net: Network) -> CallTable {
    let inlets = net.n * net.r;
    let wanted = if random.once_in(2) {
        inlets
    } else {
        random.between(inlets - inlets / 4, inlets)
    };
    let calls = spread_calls(random, net, wanted);
    CallTable {
        net,
        calls: draw_row_order(random, calls),
    }
}

/// The rows as they stand, or sorted by input module, or by output module downwards, or by channel,
/// or by input module and then even rows first.
fn draw_row_order(random: &mut Random, calls: Vec<u8>) -> Vec<u8> {
    let mut rows: Vec<&[u8]> = calls.chunks_exact(CALL_BYTES).collect();
    match random.below(5) {
        0 => rows.sort_by_key(|row| row[0]),
        1 => rows.sort_by_key(|row| 255 - row[2]),
        2 => rows.sort_by_key(|row| row[1]),
        3 => {
            rows.sort_by_key(|row| row[0]);
            let (even, odd): (Vec<usize>, Vec<usize>) =
                (0..rows.len()).partition(|row| row % 2 == 0);
            rows = even.into_iter().chain(odd).map(|row| rows[row]).collect();
        }
        _ => {}
    }
    rows.concat()
}

/// The most channels and the most modules, 1,023 or 1,024 calls.
fn draw_largest(random: &mut Random) -> CallTable {
    let net = Network::of_sizes(16, random.pick(&[16, 17, 32]), 64);
    let wanted = random.between(Network::MOST_ROWS - 1, Network::MOST_ROWS);
    let calls = spread_calls(random, net, wanted);
    CallTable {
        net,
        calls: draw_row_order(random, calls),
    }
}

/// More than 1,024 rows; now and then so many that K would do if cut to 16 bits, or to 8.
fn draw_too_many(random: &mut Random) -> CallTable {
    let net = Network::of_sizes(16, 32, 64);
    let count = match random.below(12) {
        0 => 65_536 + random.below(3),
        1 => 1280,
        2 => random.between(1026, 1400),
        _ => 1025,
    };
    let mut calls = spread_calls(random, net, Network::MOST_ROWS);
    while calls.len() < CALL_BYTES * count {
        let again = calls.clone();
        calls.extend(again);
    }
    calls.truncate(CALL_BYTES * count);
    CallTable { net, calls }
}

/// One module of either side has more calls than there are centrals.
fn draw_overfull(random: &mut Random) -> CallTable {
    let n = random.between(2, 6);
    let net = Network::of_sizes(n, random.between(1, n - 1), random.between(1, 6));
    let full = spread_calls(random, net, net.n * net.r);
    let module = random.below(net.r);
    let side = if random.once_in(2) { 0 } else { 2 };
    let mut rows: Vec<&[u8]> = full
        .chunks_exact(CALL_BYTES)
        .filter(|row| usize::from(row[side]) == module)
        .take(net.m + 1)
        .collect();
    let further = random.between(0, 4);
    let others: Vec<&[u8]> = full
        .chunks_exact(CALL_BYTES)
        .filter(|row| !rows.contains(row))
        .take(further)
        .collect();
    rows.extend(others);
    random.shuffle(&mut rows);
    CallTable {
        net,
        calls: rows.concat(),
    }
}

/// Bytes of any value, or small ones; not always whole rows.
fn draw_random_bytes(random: &mut Random) -> CallTable {
    let length = random.between(0, 60);
    let limit = random.pick(&[2, 4, 64, 256]);
    CallTable {
        net: draw_network(random),
        calls: (0..length).map(|_| random.below(limit) as u8).collect(),
    }
}

/// Puts one or two faults into a table: a number outside, a repeated inlet, a repeated outlet.
fn spoil_calls(random: &mut Random, table: &mut CallTable) {
    let count = table.calls.len() / CALL_BYTES;
    if count < 2 {
        return;
    }
    for _ in 0..random.between(1, 2) {
        let row = CALL_BYTES * random.below(count);
        let other = CALL_BYTES * random.below(count);
        match random.below(3) {
            0 => {
                let place = random.below(CALL_BYTES);
                let limit = if place % 2 == 0 {
                    table.net.r
                } else {
                    table.net.n
                };
                table.calls[row + place] = random.pick(&[limit as u8, 255]);
            }
            1 => table.calls.copy_within(other..other + 2, row),
            _ => table.calls.copy_within(other + 2..other + 4, row + 2),
        }
    }
}

// Ladders and paths.

fn draw_rounds_and_ladder(random: &mut Random, rounds: usize, modules: usize) -> CallTable {
    let inputs = random.order(modules);
    let outputs = random.order(modules);
    CallTable {
        net: Network::of_sizes(rounds + 2, rounds + 2, modules),
        calls: rounds_and_ladder(rounds, &inputs, &outputs),
    }
}

/// A ladder after few rounds or none.
fn draw_ladder(random: &mut Random) -> CallTable {
    let modules = 1 + 3 * random.between(1, 21);
    let rounds = random.pick(&[0, 0, 0, 1, 2]);
    draw_rounds_and_ladder(random, rounds, modules)
}

/// A ladder after as many rounds as the largest network takes: 1,024 calls.
fn draw_largest_ladder(random: &mut Random) -> CallTable {
    draw_rounds_and_ladder(random, 14, 64)
}

/// A path and the call that joins its ends.
fn draw_path(random: &mut Random) -> CallTable {
    let modules = random.between(3, Network::MOST_MODULES);
    CallTable {
        net: Network::of_sizes(random.pick(&[2, 3]), 2, modules),
        calls: calls_of_pairs(&path(modules)),
    }
}

// Settings.

/// The planner's settings where it gives some, otherwise guessed ones.
fn made_settings(random: &mut Random, table: &CallTable) -> Vec<u8> {
    let mut settings = vec![0; settings_length(&table.calls)];
    if Plain.plan(table.net, &table.calls, &mut settings).number != 0 {
        settings = guessed_settings(random, table);
    }
    settings
}

/// Settings that are made, then damaged in no row, in one, or in two, or twice in one row.
fn draw_settings(random: &mut Random, table: &CallTable) -> Vec<u8> {
    let count = table.calls.len() / CALL_BYTES;
    let mut settings = made_settings(random, table);
    if count == 0 || random.once_in(3) {
        return settings;
    }
    let first = random.below(count);
    damage_setting(random, table, &mut settings, first);
    match random.below(3) {
        0 => damage_setting(random, table, &mut settings, first),
        1 => {
            let second = random.below(count);
            damage_setting(random, table, &mut settings, second);
        }
        _ => {}
    }
    settings
}

/// Each call through a drawn central.
fn guessed_settings(random: &mut Random, table: &CallTable) -> Vec<u8> {
    table
        .calls
        .chunks_exact(CALL_BYTES)
        .flat_map(|call| setting_of(table.net, call, random.below(table.net.m)))
        .collect()
}

/// Damages a settings row so that one of 9 to 13 is likely to hold of it.
fn damage_setting(random: &mut Random, table: &CallTable, settings: &mut [u8], row: usize) {
    let cycle = table.net.cycle();
    if cycle > table.net.least_cycle() && random.once_in(2) {
        return mislead_light(random, table, settings, row);
    }
    let setting = &mut settings[SETTING_BYTES * row..SETTING_BYTES * (row + 1)];
    match random.below(8) {
        0 => setting[random.below(SETTING_BYTES)] = random.byte(),
        1 => setting[0] = ((usize::from(setting[0]) + 1) % cycle) as u8,
        2 => setting[2] = ((usize::from(setting[2]) + 1) % cycle) as u8,
        3 => {
            let place = random.pick(&[0, 2]);
            setting[place] = setting[place].saturating_add(cycle as u8);
        }
        4 => setting[1] = random.pick(&[table.net.m as u8, 255]),
        5 => borrow_central(random, table, settings, row, 0),
        6 => borrow_central(random, table, settings, row, 2),
        _ => {
            let call = &table.calls[CALL_BYTES * row..];
            let central = random.below(table.net.m);
            setting.copy_from_slice(&setting_of(table.net, call, central));
        }
    }
}

/// Sends the light of a row to a spare port, or to where it would arrive if the remainder were taken
/// by the larger of r and m: at the first grating or at the second. The cycle is above that larger.
fn mislead_light(random: &mut Random, table: &CallTable, settings: &mut [u8], row: usize) {
    let net = table.net;
    let least = net.least_cycle();
    let setting = &mut settings[SETTING_BYTES * row..SETTING_BYTES * (row + 1)];
    let [input, output] = [0, 2].map(|side| usize::from(table.calls[CALL_BYTES * row + side]));
    let central = usize::from(setting[1]);
    let (place, wavelength) = match random.below(6) {
        0 => (0, input + random.between(net.m, net.cycle() - 1)),
        1 => (2, central + random.between(net.r, net.cycle() - 1)),
        2 => (0, (input + central) % least),
        3 => (0, (input + central) % least + least),
        4 => (2, (central + output) % least),
        _ => (2, (central + output) % least + least),
    };
    setting[place] = (wavelength % net.cycle()) as u8;
}

/// Puts a row on the central of an earlier row at the same module of one side, if there is one. The
/// wavelengths are kept or set right.
fn borrow_central(
    random: &mut Random,
    table: &CallTable,
    settings: &mut [u8],
    row: usize,
    side: usize,
) {
    let call = &table.calls[CALL_BYTES * row..CALL_BYTES * (row + 1)];
    let earlier = table
        .calls
        .chunks_exact(CALL_BYTES)
        .take(row)
        .position(|other| other[side] == call[side]);
    if let Some(other) = earlier {
        let central = settings[SETTING_BYTES * other + 1];
        settings[SETTING_BYTES * row + 1] = central;
        if !random.once_in(4) {
            let right = setting_of(table.net, call, usize::from(central));
            settings[SETTING_BYTES * row..SETTING_BYTES * (row + 1)].copy_from_slice(&right);
        }
    }
}

// Files.

/// A file of kind 1 or 2 with or without faults in its rows, then damaged half of the time. Settings
/// may be for another cycle than the one that the file is read with.
fn draw_file(random: &mut Random, cycles: Cycles) -> Vec<u8> {
    let table = draw_table(random, cycles);
    let note = draw_note(random);
    let mut file = if random.once_in(2) {
        file_of(Kind::Calls, table.net, &note, &table.calls, &[])
    } else {
        let settings = draw_settings(random, &table);
        file_of(Kind::Planned, table.net, &note, &table.calls, &settings)
    };
    if random.once_in(2) {
        damage_file(random, &mut file);
    }
    file
}

/// Places in the last twelve bytes of a trailer.
const KIND_AT: usize = 3;
const COUNT_AT: usize = 4;
const SETTINGS_DISTANCE_AT: usize = 6;
const CALLS_DISTANCE_AT: usize = 8;
const MARK_AT: usize = 10;

/// Cuts a file, changes one of its last twelve bytes or two, or puts bytes before it or after it.
fn damage_file(random: &mut Random, file: &mut Vec<u8>) {
    let length = file.len();
    let trailer_at = length - TRAILER_BYTES;
    match random.below(12) {
        0 => file.truncate(random.below(length + 1)),
        1 => drop(file.drain(..random.below(length + 1))),
        2 => file[trailer_at + random.below(TRAILER_BYTES)] = random.byte(),
        3 => step_number(random, file, trailer_at + SETTINGS_DISTANCE_AT),
        4 => step_number(random, file, trailer_at + CALLS_DISTANCE_AT),
        5 => step_number(random, file, trailer_at + COUNT_AT),
        6 => file[trailer_at + KIND_AT] = random.pick(&[0, 1, 2, 3, 255]),
        7 => file[trailer_at + MARK_AT + random.below(2)] ^= 1 << random.below(8),
        8 => file[trailer_at + random.below(3)] = random.pick(&[0, 1, 16, 17, 32, 33, 64, 65, 255]),
        9 => lengthen_note(random, file),
        10 => {
            file[trailer_at + COUNT_AT] = random.pick(&[4, 5, 255]);
            file[trailer_at + COUNT_AT + 1] = random.pick(&[0, 1, 255]);
        }
        _ => {
            let surplus = random.between(1, 4);
            let bytes = random.bytes(surplus);
            file.extend(bytes);
        }
    }
}

/// One more or one less, with a carry between the two bytes; past either end it starts anew at the
/// other.
fn step_number(random: &mut Random, file: &mut [u8], at: usize) {
    let number = u16::from_be_bytes([file[at], file[at + 1]]);
    let stepped = if random.once_in(2) {
        number.wrapping_add(1)
    } else {
        number.wrapping_sub(1)
    };
    file[at..at + 2].copy_from_slice(&stepped.to_be_bytes());
}

/// Puts so many bytes before a file that its note is too long, or just not if it had none.
fn lengthen_note(random: &mut Random, file: &mut Vec<u8>) {
    let surplus = random.pick(&[255, 256, 257, 512]);
    let mut longer = random.bytes(surplus);
    longer.append(file);
    *file = longer;
}
