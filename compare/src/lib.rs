//! Independent answers to the eleven entries of the shelf's control, the text of its listing program,
//! and the means to compare two implementations of the entries.
//!
//! Every answer here is written from the documents alone: the sentences of the scope document 01, its
//! table of numbers and its bench table, and of document 02 request 1, by which the gratings have a
//! cycle of their own, request 2, by which single calls are added and dropped, and request 3, by
//! which plan files have the cycle in them.
//!
//! Answers: `plain.rs`, and for speed `swift.rs`; of the planner alone, in C with an index,
//! `indexed.rs`. Judgements beside them: `light.rs` and `refusals.rs`. Inputs: `inputs.rs`,
//! `ladders.rs` and `faulty.rs`. Stored inputs: which, in `catalogue.rs`, and how, in
//! `stored_form.rs`. The library, and the comparison: `library.rs`, `functions.rs`, `comparison.rs`
//! and `history.rs`. Time and stack: `tables.rs` and `stack.rs`.

pub mod catalogue;
pub mod comparison;
pub mod faulty;
#[cfg(feature = "library")]
pub mod functions;
pub mod history;
pub mod indexed;
pub mod inputs;
pub mod ladders;
#[cfg(feature = "library")]
pub mod library;
pub mod light;
pub mod plain;
pub mod refusals;
pub mod stack;
pub mod stored_form;
pub mod swift;
pub mod tables;

/// The three sizes: n channels of each module, m centrals, r input modules and as many output
/// modules. And w, the cycle of both gratings, by which every remainder and every limit of
/// wavelengths is taken.
#[derive(Clone, Copy, PartialEq, Eq, Debug)]
#[repr(C)]
pub struct Network {
    pub n: usize,
    pub m: usize,
    pub r: usize,
    pub w: usize,
}

impl Network {
    /// The largest n.
    pub const MOST_CHANNELS: usize = 16;
    /// The largest m.
    pub const MOST_CENTRALS: usize = 32;
    /// The largest r.
    pub const MOST_MODULES: usize = 64;
    /// The largest w.
    pub const MOST_WAVELENGTHS: usize = 64;
    /// The largest K.
    pub const MOST_ROWS: usize = 1024;

    /// The network of three sizes alone, whose cycle is the larger of r and m: that of a file of kind
    /// 1 or 2, and of the bench table.
    pub const fn of_sizes(n: usize, m: usize, r: usize) -> Network {
        let w = if r < m { m } else { r };
        Network { n, m, r, w }
    }

    /// The network of the same sizes with another cycle.
    pub const fn with_cycle(self, w: usize) -> Network {
        Network { w, ..self }
    }

    /// The number of wavelengths inside the shelf: w.
    pub const fn cycle(&self) -> usize {
        self.w
    }

    /// The least cycle that reaches all modules and all centrals: the larger of r and m.
    pub const fn least_cycle(&self) -> usize {
        Network::of_sizes(self.n, self.m, self.r).w
    }
}

/// Bytes of a call row: input module, its channel, output module, its channel.
pub const CALL_BYTES: usize = 4;
/// Bytes of a settings row: wavelength, central, wavelength.
pub const SETTING_BYTES: usize = 3;
/// Bytes of a row's number, as an add tells the rows that it moved.
pub const MOVED_BYTES: usize = 2;
/// Bytes of the trailer of a plan file that tells no cycle, and of the last part of every trailer.
pub const TRAILER_BYTES: usize = 12;
/// Bytes at the front of the trailer of a plan file that tells the cycle: W and a zero.
pub const CYCLE_BYTES: usize = 2;
/// The longest note of a plan file.
pub const LONGEST_NOTE: usize = 255;
/// The last two bytes of a plan file.
pub const MARK: [u8; 2] = [0x41, 0x57];
/// Bytes of the longest plan file: the longest note, the most rows of calls and of settings, and the
/// longer trailer.
pub const LONGEST_FILE: usize =
    LONGEST_NOTE + (CALL_BYTES + SETTING_BYTES) * Network::MOST_ROWS + TRAILER_BYTES + CYCLE_BYTES;

/// The kinds of plan file, by their numbers. A kind is two facts: whether the file has settings, and
/// whether it tells the cycle.
#[derive(Clone, Copy, PartialEq, Eq, Debug)]
pub enum Kind {
    Calls = 1,
    Planned = 2,
    CallsWithCycle = 3,
    PlannedWithCycle = 4,
}

impl Kind {
    pub const ALL: [Kind; 4] = [
        Kind::Calls,
        Kind::Planned,
        Kind::CallsWithCycle,
        Kind::PlannedWithCycle,
    ];
    /// The kinds of the first issue, which tell no cycle.
    pub const OLD: [Kind; 2] = [Kind::Calls, Kind::Planned];
    /// The kinds that tell the cycle.
    pub const NEW: [Kind; 2] = [Kind::CallsWithCycle, Kind::PlannedWithCycle];

    pub const fn number(self) -> usize {
        self as usize
    }

    pub const fn has_settings(self) -> bool {
        matches!(self, Kind::Planned | Kind::PlannedWithCycle)
    }

    pub const fn tells_cycle(self) -> bool {
        matches!(self, Kind::CallsWithCycle | Kind::PlannedWithCycle)
    }

    /// Bytes of the trailer.
    pub const fn trailer_bytes(self) -> usize {
        if self.tells_cycle() {
            TRAILER_BYTES + CYCLE_BYTES
        } else {
            TRAILER_BYTES
        }
    }

    /// What a file of this kind is converted to.
    pub const fn converted(self) -> Kind {
        match self {
            Kind::Calls => Kind::CallsWithCycle,
            Kind::Planned => Kind::PlannedWithCycle,
            Kind::CallsWithCycle => Kind::Calls,
            Kind::PlannedWithCycle => Kind::Planned,
        }
    }
}

/// The highest number of a refusal.
pub const HIGHEST_NUMBER: usize = 18;

/// A refusal: its number, and the row it tells.
#[derive(Clone, Copy, PartialEq, Eq, Debug)]
pub struct Refusal {
    pub number: usize,
    pub row: usize,
}

/// The answer of acceptance, of a drop, of the four writers and of both conversions.
#[derive(Clone, Copy, PartialEq, Eq, Default, Debug)]
#[repr(C)]
pub struct Verdict {
    pub number: usize,
    pub row: usize,
}

/// The answer of the planner and of an add.
#[derive(Clone, Copy, PartialEq, Eq, Default, Debug)]
#[repr(C)]
pub struct Planned {
    pub number: usize,
    pub row: usize,
    pub moved: usize,
}

/// The answer of the reader. All but number and row are 0 where the file is refused. Where the file
/// has no place for the cycle, it is the larger of r and m.
#[derive(Clone, Copy, PartialEq, Eq, Default, Debug)]
#[repr(C)]
pub struct Told {
    pub number: usize,
    pub row: usize,
    pub n: usize,
    pub m: usize,
    pub r: usize,
    pub w: usize,
    pub kind: usize,
    pub count: usize,
    pub note_at: usize,
    pub calls_at: usize,
    pub settings_at: usize,
}

/// The eleven entries. Numbers of any size and slices of any length and content are answered.
pub trait Entries {
    /// Plans a call table, and writes its settings to the first 3K bytes of `settings`.
    fn plan(&self, net: Network, calls: &[u8], settings: &mut [u8]) -> Planned;

    /// Judges given settings of a call table.
    fn accept(&self, net: Network, calls: &[u8], settings: &[u8]) -> Verdict;

    /// Reads a plan file of any kind.
    fn read(&self, file: &[u8]) -> Told;

    /// Writes a calls-only file of kind 1; the settings given have to be of no bytes.
    fn write_calls(
        &self,
        net: Network,
        note: &[u8],
        calls: &[u8],
        settings: &[u8],
        out: &mut [u8],
    ) -> Verdict;

    /// Writes a planned file of kind 2.
    fn write_planned(
        &self,
        net: Network,
        note: &[u8],
        calls: &[u8],
        settings: &[u8],
        out: &mut [u8],
    ) -> Verdict;

    /// Writes a calls-only file that tells the cycle, of kind 3; the settings given have to be of no
    /// bytes.
    fn write_calls_with_cycle(
        &self,
        net: Network,
        note: &[u8],
        calls: &[u8],
        settings: &[u8],
        out: &mut [u8],
    ) -> Verdict;

    /// Writes a planned file that tells the cycle, of kind 4.
    fn write_planned_with_cycle(
        &self,
        net: Network,
        note: &[u8],
        calls: &[u8],
        settings: &[u8],
        out: &mut [u8],
    ) -> Verdict;

    /// Converts a file of kind 1 or 2 to one of kind 3 or 4, in the first bytes of `out`.
    fn convert_to_new(&self, file: &[u8], out: &mut [u8]) -> Verdict;

    /// Converts a file of kind 3 or 4 to one of kind 1 or 2, in the first bytes of `out`.
    fn convert_to_old(&self, file: &[u8], out: &mut [u8]) -> Verdict;

    /// Adds a call to lawful settings by one step of the choice rule. The rooms are for the calls
    /// with the new one last, for the settings of all rows, and for the rows moved, in chain order:
    /// what is written are the first 4(K+1) and 3(K+1) bytes, and 2 for each row moved.
    fn add(
        &self,
        net: Network,
        calls: &[u8],
        settings: &[u8],
        call: &[u8],
        rooms: [&mut [u8]; 3],
    ) -> Planned;

    /// Drops a row. The rooms are for the calls and the settings of the rows that are left: what is
    /// written are the first 4(K−1) and 3(K−1) bytes.
    fn drop(
        &self,
        net: Network,
        calls: &[u8],
        settings: &[u8],
        row: usize,
        rooms: [&mut [u8]; 2],
    ) -> Verdict;

    /// Writes a file of note, calls and settings by the writer of its kind.
    fn write(&self, kind: Kind, net: Network, parts: [&[u8]; 3], out: &mut [u8]) -> Verdict {
        let [note, calls, settings] = parts;
        match kind {
            Kind::Calls => self.write_calls(net, note, calls, settings, out),
            Kind::Planned => self.write_planned(net, note, calls, settings, out),
            Kind::CallsWithCycle => self.write_calls_with_cycle(net, note, calls, settings, out),
            Kind::PlannedWithCycle => {
                self.write_planned_with_cycle(net, note, calls, settings, out)
            }
        }
    }
}
