//! Careless implementations of files that tell the cycle and of conversions, each with one error, that
//! the comparison has to tell from the plain one: on drawn inputs, on stored ones, and many of them by
//! what is said of files there and back alone. And careless listings, found in the same way.

use compare::catalogue::stored_inputs;
use compare::comparison::{answer_of, compare_all};
use compare::inputs::{drawn, drawn_of_files, file_of, with_kind_byte, Input};
use compare::plain::{listing, read_taking, Plain};
use compare::stored_form::Stored;
use compare::{Entries, Kind, Network, Planned, Told, Verdict};

/// More inputs than these are not drawn to find an error.
const DRAWN: usize = 20_000;

/// The plain implementation with one error.
#[derive(Clone, Copy, PartialEq, Eq, Debug)]
enum Careless {
    /// W and the zero stand in the place of each other, written and read.
    ExchangesCycleAndZero,
    /// Distances count from the last twelve bytes, written and read.
    CountsFromTwelve,
    /// Every trailer has 14 bytes, the old ones with W and a zero too.
    LengthensOldTrailers,

    /// The spare byte is ignored.
    IgnoresSpareByte,
    /// The larger of r and m is taken for W.
    TakesLarger,
    /// A file of kind 3 or 4 under 14 bytes is refused by 15.
    TakesShort,
    /// A W above 64 is let through.
    LetsAbove,
    /// A W below r is let through.
    LetsBelowModules,
    /// A W below m is let through.
    LetsBelowCentrals,
    /// No limit of W is tested.
    LetsAnyCycle,
    /// A W outside its limits is refused by 14.
    GivesCycleInTrailersPlace,
    /// A W outside its limits is refused after 3 and 15.
    TestsCycleLate,
    /// Kind 5 is read as kind 3.
    TakesKindFive,
    /// Kind 4 is not read.
    LacksKindFour,
    /// W is told as 0 for kinds 1 and 2.
    TellsNoCycle,
    /// W is told of a refused file.
    TellsCycleOfRefused,
    /// The two bytes of the longer trailer are counted with the note.
    CountsTwoToNote,
    /// Of files that tell the cycle the note may have two bytes more.
    AllowsLongerNote,
    /// The settings of kind 4 are not judged.
    AcceptsAnySettings,

    /// Writers of kinds 3 and 4 give 18.
    RefusesOtherCycle,
    /// Writers of kinds 3 and 4 write the larger of r and m for W.
    WritesLarger,
    /// Writers of kinds 3 and 4 ask for room for the shorter trailer, and write what has room.
    AsksForShorterTrailer,

    /// Conversions drop the note.
    DropsNote,
    /// The conversion to old files zeroes the note.
    ZeroesNoteToOld,
    /// Conversions give 4 before 18.
    RoomBeforeCycle,
    /// Conversions give 4 before all that the reader refuses but 14.
    RoomBeforeReading,
    /// The conversion to old files gives 18 before the refusals of rows.
    CycleBeforeRows,
    /// Conversions judge the kind after all that the reader refuses.
    KindLast,
    /// The conversion to new files takes kind 3 and 4, which it leaves as they are.
    TakesNewToNew,
    /// The conversion to old files takes kind 1 and 2, which it leaves as they are.
    TakesOldToOld,
    /// The conversion to old files forgets 18.
    ForgetsCycle,
    /// The conversion to new files gives 18 where m is above r.
    ComparesCycleWithModules,
    /// Conversions keep the kind's byte.
    KeepsKind,
    /// The conversion to new files adds two to the distances.
    LengthensDistances,
    /// The conversion to new files writes r for W.
    WritesModulesForCycle,
    /// Conversions ask for one byte more than they need.
    AsksForOneMore,
    /// Conversions ask for as much room as the file has.
    AsksForFileLength,
    /// Conversions that are refused by 4 have written the front of the file.
    WritesWhatHasRoom,
    /// Conversions zero the bytes beyond the file.
    ClearsBeyond,
    /// Conversions tell the length of the file that they make.
    TellsLength,
}

const OF_FORM: [Careless; 3] = [
    Careless::ExchangesCycleAndZero,
    Careless::CountsFromTwelve,
    Careless::LengthensOldTrailers,
];

const OF_READER: [Careless; 16] = [
    Careless::IgnoresSpareByte,
    Careless::TakesLarger,
    Careless::TakesShort,
    Careless::LetsAbove,
    Careless::LetsBelowModules,
    Careless::LetsBelowCentrals,
    Careless::LetsAnyCycle,
    Careless::GivesCycleInTrailersPlace,
    Careless::TestsCycleLate,
    Careless::TakesKindFive,
    Careless::LacksKindFour,
    Careless::TellsNoCycle,
    Careless::TellsCycleOfRefused,
    Careless::CountsTwoToNote,
    Careless::AllowsLongerNote,
    Careless::AcceptsAnySettings,
];

const OF_WRITERS: [Careless; 3] = [
    Careless::RefusesOtherCycle,
    Careless::WritesLarger,
    Careless::AsksForShorterTrailer,
];

const OF_CONVERSIONS: [Careless; 18] = [
    Careless::DropsNote,
    Careless::ZeroesNoteToOld,
    Careless::RoomBeforeCycle,
    Careless::RoomBeforeReading,
    Careless::CycleBeforeRows,
    Careless::KindLast,
    Careless::TakesNewToNew,
    Careless::TakesOldToOld,
    Careless::ForgetsCycle,
    Careless::ComparesCycleWithModules,
    Careless::KeepsKind,
    Careless::LengthensDistances,
    Careless::WritesModulesForCycle,
    Careless::AsksForOneMore,
    Careless::AsksForFileLength,
    Careless::WritesWhatHasRoom,
    Careless::ClearsBeyond,
    Careless::TellsLength,
];

// Files by their bytes.

/// The place of the last twelve bytes, if the file has so many.
fn twelve_at(file: &[u8]) -> Option<usize> {
    file.len().checked_sub(12)
}

/// The kind's byte; 0, which is no kind, where there is none.
fn kind_byte(file: &[u8]) -> u8 {
    twelve_at(file).map_or(0, |at| file[at + 3])
}

/// The place of W in a file of kind 3 or 4 that is long enough.
fn cycle_at(file: &[u8]) -> Option<usize> {
    let at = file.len().checked_sub(14)?;
    Some(at).filter(|_| [3, 4].contains(&kind_byte(file)))
}

/// m, r and W of a file of kind 3 or 4.
fn sizes_of(file: &[u8], cycle_at: usize) -> [usize; 3] {
    [file[cycle_at + 3], file[cycle_at + 4], file[cycle_at]].map(usize::from)
}

/// The file with another W.
fn with_cycle(file: &[u8], cycle_at: usize, cycle: usize) -> Vec<u8> {
    let mut other = file.to_vec();
    other[cycle_at] = cycle as u8;
    other
}

/// The file with so many added to both distances of a planned file, or to that of the calls alone.
fn with_distances_by(file: &[u8], by: i16) -> Vec<u8> {
    let mut other = file.to_vec();
    if let Some(at) = twelve_at(file) {
        let is_planned = kind_byte(file) % 2 == 0;
        let places = if is_planned { &[6, 8][..] } else { &[8] };
        for place in places {
            let place = at + place;
            let distance = i16::from_be_bytes([file[place], file[place + 1]]);
            let changed = distance.wrapping_add(by).to_be_bytes();
            other[place..place + 2].copy_from_slice(&changed);
        }
    }
    other
}

/// Exchanges two bytes.
fn with_exchanged(file: &[u8], at: usize) -> Vec<u8> {
    let mut other = file.to_vec();
    other.swap(at, at + 1);
    other
}

fn verdict(number: usize, row: usize) -> Verdict {
    Verdict { number, row }
}

/// Writes bytes to the front of a room and tells K, or refuses by 4.
fn write_front(out: &mut [u8], bytes: &[u8], count: usize) -> Verdict {
    if out.len() < bytes.len() {
        return verdict(4, 0);
    }
    out[..bytes.len()].copy_from_slice(bytes);
    verdict(0, count)
}

/// The length of the file that a whole file is converted to.
fn converted_length(file: &[u8]) -> usize {
    match cycle_at(file) {
        Some(_) => file.len() - 2,
        None => file.len() + 2,
    }
}

impl Careless {
    /// The file that the plain reader is given in place of the one asked about.
    fn given(self, file: &[u8]) -> Vec<u8> {
        if self == Careless::TakesKindFive && kind_byte(file) == 5 {
            return with_kind_byte(file.to_vec(), 3);
        }
        if self == Careless::LacksKindFour && kind_byte(file) == 4 {
            return with_kind_byte(file.to_vec(), 9);
        }
        let at = match cycle_at(file) {
            Some(at) => at,
            None => return self.given_old(file),
        };
        let [m, r, w] = sizes_of(file, at);
        let larger = m.max(r);
        let is_let = match self {
            Careless::LetsAbove => w > 64,
            Careless::LetsBelowModules => w < r && w >= m,
            Careless::LetsBelowCentrals => w < m && w >= r,
            Careless::LetsAnyCycle | Careless::TestsCycleLate => w < larger || w > 64,
            Careless::TakesLarger => true,
            _ => false,
        };
        match self {
            _ if is_let => with_cycle(file, at, larger),
            Careless::ExchangesCycleAndZero => with_exchanged(file, at),
            Careless::CountsFromTwelve => with_distances_by(file, -2),
            Careless::IgnoresSpareByte => {
                let mut other = file.to_vec();
                other[at + 1] = 0;
                other
            }
            _ => file.to_vec(),
        }
    }

    /// The same for a file that has no place for the cycle.
    fn given_old(self, file: &[u8]) -> Vec<u8> {
        match (self, twelve_at(file)) {
            (Careless::LengthensOldTrailers, Some(at)) if at >= 2 => {
                [&file[..at - 2], &file[at..]].concat()
            }
            _ => file.to_vec(),
        }
    }

    /// What is told in place of what the plain reader tells of the file that it was given.
    fn told(self, file: &[u8], told: Told) -> Told {
        let refused = |number: usize| Told {
            number,
            ..Told::default()
        };
        let at = match cycle_at(file) {
            Some(at) => at,
            None => return self.told_old(file, told),
        };
        let [m, r, w] = sizes_of(file, at);
        let is_outside = w < m || w < r || w > 64;
        let note = told.calls_at;
        match self {
            Careless::LetsAbove
            | Careless::LetsBelowModules
            | Careless::LetsBelowCentrals
            | Careless::LetsAnyCycle
                if told.number == 0 =>
            {
                Told { w, ..told }
            }
            Careless::GivesCycleInTrailersPlace if told.number == 1 && is_outside => refused(14),
            Careless::TestsCycleLate if is_outside && ![1, 3, 14, 15].contains(&told.number) => {
                refused(1)
            }
            Careless::TellsCycleOfRefused if told.number != 0 => Told { w, ..told },
            Careless::CountsTwoToNote if told.number == 0 && note > 253 => refused(15),
            Careless::AllowsLongerNote if told.number == 15 => {
                let shorter = Plain.read(&file[2.min(at)..]);
                match shorter.calls_at {
                    254 | 255 => Told {
                        calls_at: shorter.calls_at + 2,
                        settings_at: shorter.settings_at + 2,
                        ..shorter
                    },
                    _ => told,
                }
            }
            Careless::AcceptsAnySettings if (9..=13).contains(&told.number) => {
                let count = usize::from(u16::from_be_bytes([file[at + 6], file[at + 7]]));
                Told {
                    number: 0,
                    row: count,
                    n: usize::from(file[at + 2]),
                    m,
                    r,
                    w,
                    kind: 4,
                    count,
                    note_at: 0,
                    calls_at: at - 7 * count,
                    settings_at: at - 3 * count,
                }
            }
            _ => told,
        }
    }

    /// The same for a file that has no place for the cycle.
    fn told_old(self, file: &[u8], told: Told) -> Told {
        let is_short = file.len() < 14 && [3, 4].contains(&kind_byte(file));
        match self {
            Careless::TakesShort if is_short && told.number == 14 => {
                let has_mark = file.ends_with(&[0x41, 0x57]);
                Told {
                    number: if has_mark { 15 } else { 14 },
                    ..told
                }
            }
            Careless::TellsNoCycle => Told { w: 0, ..told },
            _ => told,
        }
    }

    fn write(self, kind: Kind, net: Network, parts: [&[u8]; 3], out: &mut [u8]) -> Verdict {
        let before = out.to_vec();
        let answer = Plain.write(kind, net, parts, out);
        let length = parts.concat().len() + kind.trailer_bytes();
        if !kind.tells_cycle() {
            return self.lengthened(parts, net, &before, out, answer, length);
        }
        if self == Careless::AsksForShorterTrailer && answer.number == 4 {
            let mut longer = vec![0; length];
            let answer = Plain.write(kind, net, parts, &mut longer);
            if answer.number == 0 && out.len() + 2 >= length {
                let room = out.len();
                out.copy_from_slice(&longer[..room]);
                return answer;
            }
        }
        if answer.number != 0 {
            return answer;
        }
        let at = length - 14;
        let larger = net.r.max(net.m);
        let written = match self {
            Careless::ExchangesCycleAndZero => with_exchanged(&out[..length], at),
            Careless::CountsFromTwelve => with_distances_by(&out[..length], 2),
            Careless::WritesLarger => with_cycle(&out[..length], at, larger),
            Careless::RefusesOtherCycle if net.w != larger => {
                out.copy_from_slice(&before);
                return verdict(18, 0);
            }
            _ => return answer,
        };
        out[..length].copy_from_slice(&written);
        answer
    }

    /// What was written as an old file, with two bytes more where the trailer is to have them.
    fn lengthened(
        self,
        parts: [&[u8]; 3],
        net: Network,
        before: &[u8],
        out: &mut [u8],
        answer: Verdict,
        length: usize,
    ) -> Verdict {
        if self != Careless::LengthensOldTrailers || answer.number != 0 {
            return answer;
        }
        let twelve = out[length - 12..length].to_vec();
        out.copy_from_slice(before);
        let longer = [&parts.concat(), &[net.w as u8, 0][..], &twelve].concat();
        write_front(out, &longer, answer.row)
    }

    fn convert(self, to_new: bool, file: &[u8], out: &mut [u8]) -> Verdict {
        let plain = |file: &[u8], out: &mut [u8]| {
            if to_new {
                Plain.convert_to_new(file, out)
            } else {
                Plain.convert_to_old(file, out)
            }
        };
        let right = plain(file, &mut out.to_vec());
        let told = Plain.read(file);
        let length = converted_length(file);
        let is_short = out.len() < length;
        match self {
            Careless::RoomBeforeCycle if right.number == 18 && is_short => verdict(4, 0),
            Careless::RoomBeforeReading if ![0, 14].contains(&right.number) && is_short => {
                verdict(4, 0)
            }
            Careless::CycleBeforeRows if (5..=13).contains(&right.number) => {
                match cycle_at(file).map(|at| sizes_of(file, at)) {
                    Some([m, r, w]) if w != r.max(m) => verdict(18, 0),
                    _ => plain(file, out),
                }
            }
            Careless::KindLast if right.number == 14 && told.number != 0 => {
                verdict(told.number, told.row)
            }
            Careless::TakesNewToNew if to_new && told.number == 0 && told.kind > 2 => {
                write_front(out, file, told.count)
            }
            Careless::TakesOldToOld if !to_new && told.number == 0 && told.kind < 3 => {
                write_front(out, file, told.count)
            }
            Careless::ForgetsCycle if right.number == 18 => {
                let at = file.len() - 14;
                let old = [&file[..at], &file[at + 2..]].concat();
                let kind = kind_byte(file) - 2;
                write_front(out, &with_kind_byte(old, kind), told.count)
            }
            Careless::ComparesCycleWithModules if to_new && told.number == 0 && told.m > told.r => {
                let right = plain(file, &mut out.to_vec());
                match right.number {
                    0 | 4 => verdict(18, 0),
                    _ => right,
                }
            }
            Careless::AsksForOneMore if out.len() == length && right.number == 0 => verdict(4, 0),
            Careless::AsksForFileLength if out.len() < file.len() && right.number == 0 => {
                verdict(4, 0)
            }
            Careless::WritesWhatHasRoom if right.number == 4 => {
                let room = out.len().min(file.len());
                out[..room].copy_from_slice(&file[..room]);
                right
            }
            Careless::DropsNote if told.number == 0 => plain(&file[told.calls_at..], out),
            _ => self.convert_given(plain, file, out),
        }
    }

    /// What is converted from the file that the plain implementation is given, and then spoilt.
    fn convert_given(
        self,
        plain: impl Fn(&[u8], &mut [u8]) -> Verdict,
        file: &[u8],
        out: &mut [u8],
    ) -> Verdict {
        let told = self.read(file);
        let mut made = out.to_vec();
        let answer = plain(&self.given(file), &mut made);
        if answer.number != 0 {
            // What the reader tells is told here too, but for kinds that are not taken.
            let is_taken = answer.number != 14 || told.number == 14 || told.number == 0;
            return match told.number {
                0 => answer,
                _ if is_taken => verdict(told.number, told.row),
                _ => answer,
            };
        }
        if told.number != 0 {
            return verdict(told.number, told.row);
        }
        let length = converted_length(file);
        if made.len() < length {
            return verdict(4, 0);
        }
        let made = &mut made[..length];
        let is_new = cycle_at(file).is_none();
        let spoilt = match self {
            Careless::ExchangesCycleAndZero if is_new => with_exchanged(made, length - 14),
            Careless::CountsFromTwelve if is_new => with_distances_by(made, 2),
            Careless::LengthensDistances if is_new => with_distances_by(made, 2),
            Careless::WritesModulesForCycle if is_new => with_cycle(made, length - 14, told.r),
            Careless::KeepsKind => with_kind_byte(made.to_vec(), kind_byte(file)),
            _ => made.to_vec(),
        };
        out[..length].copy_from_slice(&spoilt);
        match self {
            Careless::ZeroesNoteToOld if !is_new => out[..told.calls_at].fill(0),
            Careless::ClearsBeyond => out[length..].fill(0),
            Careless::TellsLength => return verdict(0, length),
            _ => {}
        }
        answer
    }
}

impl Entries for Careless {
    fn plan(&self, net: Network, calls: &[u8], settings: &mut [u8]) -> Planned {
        Plain.plan(net, calls, settings)
    }

    fn accept(&self, net: Network, calls: &[u8], settings: &[u8]) -> Verdict {
        Plain.accept(net, calls, settings)
    }

    fn read(&self, file: &[u8]) -> Told {
        self.told(file, Plain.read(&self.given(file)))
    }

    fn write_calls(
        &self,
        net: Network,
        note: &[u8],
        calls: &[u8],
        settings: &[u8],
        out: &mut [u8],
    ) -> Verdict {
        Careless::write(*self, Kind::Calls, net, [note, calls, settings], out)
    }

    fn write_planned(
        &self,
        net: Network,
        note: &[u8],
        calls: &[u8],
        settings: &[u8],
        out: &mut [u8],
    ) -> Verdict {
        Careless::write(*self, Kind::Planned, net, [note, calls, settings], out)
    }

    fn write_calls_with_cycle(
        &self,
        net: Network,
        note: &[u8],
        calls: &[u8],
        settings: &[u8],
        out: &mut [u8],
    ) -> Verdict {
        let parts = [note, calls, settings];
        Careless::write(*self, Kind::CallsWithCycle, net, parts, out)
    }

    fn write_planned_with_cycle(
        &self,
        net: Network,
        note: &[u8],
        calls: &[u8],
        settings: &[u8],
        out: &mut [u8],
    ) -> Verdict {
        let parts = [note, calls, settings];
        Careless::write(*self, Kind::PlannedWithCycle, net, parts, out)
    }

    fn convert_to_new(&self, file: &[u8], out: &mut [u8]) -> Verdict {
        self.convert(true, file, out)
    }

    fn convert_to_old(&self, file: &[u8], out: &mut [u8]) -> Verdict {
        self.convert(false, file, out)
    }

    fn add(
        &self,
        net: Network,
        calls: &[u8],
        settings: &[u8],
        call: &[u8],
        rooms: [&mut [u8]; 3],
    ) -> Planned {
        Plain.add(net, calls, settings, call, rooms)
    }

    fn drop(
        &self,
        net: Network,
        calls: &[u8],
        settings: &[u8],
        row: usize,
        rooms: [&mut [u8]; 2],
    ) -> Verdict {
        Plain.drop(net, calls, settings, row, rooms)
    }
}

// What is found.

fn all_careless() -> Vec<Careless> {
    [&OF_FORM[..], &OF_READER, &OF_WRITERS, &OF_CONVERSIONS].concat()
}

#[test]
fn drawn_inputs_find_every_error() {
    for careless in all_careless() {
        let is_found = drawn(21)
            .take(DRAWN)
            .any(|input| compare_all(&Plain, &careless, &input).is_err());
        assert!(is_found, "{:?}", careless);
    }
}

/// The stored inputs for files, but for the longest, which no error needs.
fn stored_for_files() -> Vec<Input> {
    stored_inputs()
        .into_iter()
        .filter_map(|stored| match stored {
            Stored::Input(input) => Some(input),
            Stored::List { .. } => None,
        })
        .filter(|input| match input {
            Input::Read { file }
            | Input::ConvertToNew { file, .. }
            | Input::ConvertToOld { file, .. } => file.len() < 600,
            Input::Write { calls, .. } => calls.len() < 600,
            _ => false,
        })
        .collect()
}

/// The answers of stored inputs, which are numbers and rooms, find every error without more.
#[test]
fn stored_inputs_find_every_error() {
    let stored = stored_for_files();
    let right: Vec<_> = stored
        .iter()
        .map(|input| answer_of(&Plain, input))
        .collect();
    for careless in all_careless() {
        let is_found = stored
            .iter()
            .zip(&right)
            .any(|(input, right)| answer_of(&careless, input) != *right);
        assert!(is_found, "{:?}", careless);
    }
}

/// The errors that what is said of files there and back finds by itself, each with a word of the
/// sentence that is found broken. The others have nothing to do with files that are whole.
const FOUND_BY_ROUND_TRIPS: [(Careless, &str); 25] = [
    (Careless::ExchangesCycleAndZero, TRAILER),
    (Careless::CountsFromTwelve, TRAILER),
    (Careless::LengthensOldTrailers, AS_THE_FIRST),
    (Careless::IgnoresSpareByte, SAME_BYTES),
    (Careless::TakesLarger, "a file is read again"),
    (Careless::LetsAbove, SAME_BYTES),
    (Careless::LetsBelowModules, SAME_BYTES),
    (Careless::LetsBelowCentrals, SAME_BYTES),
    (Careless::LetsAnyCycle, SAME_BYTES),
    (Careless::TakesKindFive, SAME_BYTES),
    (Careless::LacksKindFour, "a file is read again"),
    (Careless::TellsNoCycle, "refused by 18"),
    (Careless::CountsTwoToNote, AS_THE_FIRST),
    (Careless::AllowsLongerNote, SAME_BYTES),
    (Careless::AcceptsAnySettings, SAME_BYTES),
    (Careless::RefusesOtherCycle, SAME_BYTES),
    (Careless::WritesLarger, "a file is read again"),
    (Careless::DropsNote, AS_THE_FIRST),
    (Careless::ZeroesNoteToOld, THERE_AND_BACK),
    (Careless::TakesNewToNew, "does not take with 14"),
    (Careless::TakesOldToOld, "does not take with 14"),
    (Careless::ForgetsCycle, "refused by 18"),
    (Careless::KeepsKind, AS_THE_FIRST),
    (Careless::LengthensDistances, AS_THE_FIRST),
    (Careless::WritesModulesForCycle, AS_THE_FIRST),
];

const TRAILER: &str = "the trailer is as stated";
const SAME_BYTES: &str = "reading then writing gives the same bytes";
const AS_THE_FIRST: &str = "reads as the first did but for the kind";
const THERE_AND_BACK: &str = "there and back gives the first file's bytes";

/// Both sides have the same error, so that only what is said of files there and back finds it.
#[test]
fn round_trips_find_errors_by_themselves() {
    for (careless, sentence) in FOUND_BY_ROUND_TRIPS {
        let is_found = drawn_of_files(23)
            .take(DRAWN / 4)
            .filter_map(|input| compare_all(&careless, &careless, &input).err())
            .any(|difference| difference.what.contains(sentence));
        assert!(is_found, "{:?}: {}", careless, sentence);
    }
}

// Listings.

/// The listing program with one error.
#[derive(Clone, Copy, PartialEq, Eq, Debug)]
enum CarelessListing {
    /// Files of kind 3 are planned by the larger of r and m.
    PlansByLarger,
    /// Files above 7,435 bytes are too long.
    LimitsByOldFile,
    /// Files of 7,438 bytes are not too long.
    TakesOneMore,
    /// W is printed after r.
    PrintsCycle,
    /// Files of kind 4 are planned.
    PlansPlanned,
    /// Kinds 3 and 4 are refused as by the first issue.
    ReadsAsFirstIssue,
}

const LISTINGS: [CarelessListing; 6] = [
    CarelessListing::PlansByLarger,
    CarelessListing::LimitsByOldFile,
    CarelessListing::TakesOneMore,
    CarelessListing::PrintsCycle,
    CarelessListing::PlansPlanned,
    CarelessListing::ReadsAsFirstIssue,
];

/// The text of a careless listing where its error can show; otherwise none.
fn careless_listing(careless: CarelessListing, file: &[u8]) -> Option<Vec<u8>> {
    let told = Plain.read(file);
    let is_new = told.number == 0 && told.kind > 2 && file.len() <= 7437;
    match careless {
        CarelessListing::PlansByLarger if is_new && told.kind == 3 => {
            let larger = told.r.max(told.m);
            Some(listing(&with_cycle(file, file.len() - 14, larger)))
        }
        CarelessListing::LimitsByOldFile if file.len() > 7435 => Some(b"too long\n".to_vec()),
        CarelessListing::TakesOneMore if file.len() == 7438 => Some(listing(&file[1..])),
        CarelessListing::PrintsCycle if is_new => {
            let text = String::from_utf8(listing(file)).expect("a listing is plain text");
            let sizes = format!("{} {} {} ", told.n, told.m, told.r);
            let with_cycle = format!("{}{} ", sizes, told.w);
            Some(text.replacen(&sizes, &with_cycle, 1).into_bytes())
        }
        CarelessListing::PlansPlanned if is_new && told.kind == 4 => {
            let net = Network::of_sizes(told.n, told.m, told.r).with_cycle(told.w);
            let calls = &file[told.calls_at..told.settings_at];
            let calls_only = file_of(Kind::CallsWithCycle, net, &[], calls, &[]);
            Some(listing(&calls_only))
        }
        CarelessListing::ReadsAsFirstIssue if is_new => {
            let told = read_taking(&Kind::OLD, file);
            Some(format!("refused {} row {}\n", told.number, told.row).into_bytes())
        }
        _ => None,
    }
}

/// Whether the error shows in the listing of a file.
fn shows(careless: CarelessListing, file: &[u8]) -> bool {
    careless_listing(careless, file).map_or(false, |text| text != listing(file))
}

#[test]
fn stored_files_find_every_careless_listing() {
    let stored = stored_inputs();
    for careless in LISTINGS {
        let is_found = stored.iter().any(|stored| match stored {
            Stored::List { file } => shows(careless, file),
            Stored::Input(_) => false,
        });
        assert!(is_found, "{:?}", careless);
    }
}

#[test]
fn drawn_files_find_every_careless_listing() {
    for careless in LISTINGS {
        let is_found = drawn_of_files(27).take(DRAWN).any(|input| match input {
            Input::Read { file }
            | Input::ConvertToNew { file, .. }
            | Input::ConvertToOld { file, .. } => shows(careless, &file),
            _ => false,
        });
        assert!(is_found, "{:?}", careless);
    }
}
