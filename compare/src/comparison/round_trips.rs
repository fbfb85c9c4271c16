//! What the documents say of files there and back, checked on what one implementation answers,
//! without any other: writing then reading gives back what was written, reading then writing the same
//! bytes; a file is converted to one that reads as it does but for the kind, and back to the first
//! file's bytes.

use super::{run, Answer};
use crate::inputs::{file_length, filled, Input};
use crate::{Entries, Kind, Network, Told, Verdict, CALL_BYTES, MARK};

/// Bytes of each room beyond what is needed.
const BEYOND: usize = 3;

/// The first sentence that is broken by an implementation on the file of an input that it has not
/// refused, or on the file that it wrote to the rooms.
pub fn broken_round_trip(
    entries: &dyn Entries,
    input: &Input,
    rooms: &[u8],
) -> Option<&'static str> {
    let told = |file: &[u8]| read(entries, file).ok_or("a file is read again");
    let checked = match input {
        Input::Read { file } => told(file).and_then(|told| check_file(entries, file, told)),
        Input::ConvertToNew { file, .. } | Input::ConvertToOld { file, .. } => {
            told(file).and_then(|told| check_conversions(entries, file, told))
        }
        Input::Write {
            kind,
            net,
            note,
            calls,
            settings,
            ..
        } => {
            let file = &rooms[..file_length(*kind, note, calls, settings)];
            told(file).and_then(|told| {
                let owed = told_of(*kind, *net, note, calls);
                ensure(
                    told == owed,
                    "writing then reading gives back what was written",
                )?;
                check_conversions(entries, file, told)
            })
        }
        _ => Ok(()),
    };
    checked.err()
}

fn ensure(holds: bool, sentence: &'static str) -> Result<(), &'static str> {
    if holds {
        Ok(())
    } else {
        Err(sentence)
    }
}

/// What a reader has to tell of a file of these parts.
fn told_of(kind: Kind, net: Network, note: &[u8], calls: &[u8]) -> Told {
    let count = calls.len() / CALL_BYTES;
    Told {
        number: 0,
        row: count,
        n: net.n,
        m: net.m,
        r: net.r,
        w: net.w,
        kind: kind.number(),
        count,
        note_at: 0,
        calls_at: note.len(),
        settings_at: note.len() + calls.len(),
    }
}

/// What the reader tells of a file that it reads.
fn read(entries: &dyn Entries, file: &[u8]) -> Option<Told> {
    let input = Input::Read {
        file: file.to_vec(),
    };
    match run(entries, &input).answer {
        Answer::Told(told) if told.number == 0 => Some(told),
        _ => None,
    }
}

/// What a file is told to hold: its kind, its network, and where its trailer begins.
struct Held {
    kind: Kind,
    net: Network,
    trailer_at: usize,
}

impl Held {
    fn new(file: &[u8], told: Told) -> Result<Held, &'static str> {
        let kind = Kind::ALL
            .into_iter()
            .find(|kind| kind.number() == told.kind)
            .ok_or("a kind is 1 to 4")?;
        Ok(Held {
            kind,
            net: Network {
                n: told.n,
                m: told.m,
                r: told.r,
                w: told.w,
            },
            trailer_at: file
                .len()
                .checked_sub(kind.trailer_bytes())
                .ok_or("a file has a trailer")?,
        })
    }

    fn has_larger_for_cycle(&self) -> bool {
        self.net.w == self.net.r.max(self.net.m)
    }

    /// The trailer that a file has of which this is told.
    fn trailer(&self, told: Told) -> Vec<u8> {
        let two = [told.w, 0];
        let numbers = [told.n, told.m, told.r, told.kind];
        let settings_distance = self.trailer_at - told.settings_at;
        let calls_distance = self.trailer_at - told.calls_at;
        let mut trailer = Vec::new();
        if self.kind.tells_cycle() {
            trailer.extend(two.map(|number| number as u8));
        }
        trailer.extend(numbers.map(|number| number as u8));
        for number in [told.count, settings_distance, calls_distance] {
            trailer.extend((number as u16).to_be_bytes());
        }
        trailer.extend(MARK);
        trailer
    }
}

/// Reading then writing, and the conversions.
fn check_file(entries: &dyn Entries, file: &[u8], told: Told) -> Result<(), &'static str> {
    let held = Held::new(file, told)?;
    let parts = [
        file.get(told.note_at..told.calls_at),
        file.get(told.calls_at..told.settings_at),
        file.get(told.settings_at..held.trailer_at),
    ];
    let [note, calls, settings] =
        parts.map(|part| part.ok_or("note, calls and settings are in the file"));
    let input = Input::Write {
        kind: held.kind,
        net: held.net,
        note: note?.to_vec(),
        calls: calls?.to_vec(),
        settings: settings?.to_vec(),
        out: filled(file.len() + BEYOND),
    };
    let again = changed(entries, &input, file.len());
    ensure(
        again == Ok((told.count, file.to_vec())),
        "reading then writing gives the same bytes",
    )?;
    ensure(
        file[held.trailer_at..] == held.trailer(told),
        "the trailer is as stated, and distances count from its start",
    )?;
    ensure(
        held.kind.tells_cycle() || held.has_larger_for_cycle(),
        "old files take W as the larger of r and m",
    )?;
    check_conversions(entries, file, told)
}

/// The conversion that takes the kind, there and back, and the one that doesn't.
fn check_conversions(entries: &dyn Entries, file: &[u8], told: Told) -> Result<(), &'static str> {
    let held = Held::new(file, told)?;
    let converted = held.kind.converted();
    let length = held.trailer_at + converted.trailer_bytes();
    let not_taken = conversion_of(converted, file, file.len());
    ensure(
        changed(entries, &not_taken, 0) == Err(verdict(14)),
        "a conversion meets a kind that it does not take with 14",
    )?;
    let there = changed(entries, &conversion_of(held.kind, file, length), length);
    if !held.has_larger_for_cycle() {
        return ensure(
            there == Err(verdict(18)),
            "a cycle that would be lost is refused by 18",
        );
    }
    let (count, other) = there.map_err(|_| "a file that can be converted is converted")?;
    ensure(count == told.count, "a conversion tells K")?;
    let owed = Told {
        kind: converted.number(),
        ..told
    };
    ensure(
        read(entries, &other) == Some(owed),
        "a converted file reads as the first did but for the kind",
    )?;
    ensure(
        other[..held.trailer_at] == file[..held.trailer_at],
        "note, calls and settings stay",
    )?;
    let back = changed(
        entries,
        &conversion_of(converted, &other, file.len()),
        file.len(),
    );
    ensure(
        back == Ok((told.count, file.to_vec())),
        "there and back gives the first file's bytes",
    )
}

fn verdict(number: usize) -> Verdict {
    Verdict { number, row: 0 }
}

/// The conversion that takes files of a kind, with room for so many bytes and some more.
fn conversion_of(kind: Kind, file: &[u8], length: usize) -> Input {
    let file = file.to_vec();
    let out = filled(length + BEYOND);
    if kind.tells_cycle() {
        Input::ConvertToOld { file, out }
    } else {
        Input::ConvertToNew { file, out }
    }
}

/// K and the bytes written by a writer or a conversion that succeeds, which are so many, or the
/// refusal. One that breaks another sentence has neither.
fn changed(
    entries: &dyn Entries,
    input: &Input,
    length: usize,
) -> Result<(usize, Vec<u8>), Verdict> {
    let outcome = run(entries, input);
    match outcome.answer {
        Answer::Verdict(verdict) if outcome.broken.is_none() => match verdict.number {
            0 => Ok((verdict.row, outcome.rooms[..length].to_vec())),
            _ => Err(verdict),
        },
        _ => Err(Verdict::default()),
    }
}
