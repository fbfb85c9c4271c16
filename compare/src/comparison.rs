//! Comparison of two implementations on one input, and on every small input. Every small file is in
//! `comparison/files.rs`, every small step in `comparison/steps.rs`; what is said of files there and
//! back is checked by `comparison/round_trips.rs`.

mod files;
mod round_trips;
mod steps;

use crate::inputs::{
    converted_length, file_length, filled, setting_of, settings_length, Entry, Input,
};
use crate::ladders::calls_of_pairs;
use crate::{
    Entries, Kind, Network, Planned, Told, Verdict, CALL_BYTES, HIGHEST_NUMBER, MOVED_BYTES,
    SETTING_BYTES,
};

/// What an entry answered.
#[derive(Clone, Copy, PartialEq, Eq, Debug)]
pub enum Answer {
    Planned(Planned),
    Verdict(Verdict),
    Told(Told),
}

impl Answer {
    pub fn number(&self) -> usize {
        match self {
            Answer::Planned(planned) => planned.number,
            Answer::Verdict(verdict) => verdict.number,
            Answer::Told(told) => told.number,
        }
    }

    pub fn row(&self) -> usize {
        match self {
            Answer::Planned(planned) => planned.row,
            Answer::Verdict(verdict) => verdict.row,
            Answer::Told(told) => told.row,
        }
    }

    /// All numbers of the answer, in their order.
    pub fn numbers(&self) -> Vec<usize> {
        match self {
            Answer::Planned(planned) => vec![planned.number, planned.row, planned.moved],
            Answer::Verdict(verdict) => vec![verdict.number, verdict.row],
            Answer::Told(told) => vec![
                told.number,
                told.row,
                told.n,
                told.m,
                told.r,
                told.w,
                told.kind,
                told.count,
                told.note_at,
                told.calls_at,
                told.settings_at,
            ],
        }
    }
}

/// The entry that was compared and the number that both gave.
#[derive(Clone, Copy, PartialEq, Eq, Debug)]
pub struct Seen {
    pub entry: Entry,
    pub number: usize,
}

/// What differs, or which sentence of the document is broken, and the input.
#[derive(Clone, Debug)]
pub struct Difference {
    pub what: String,
    pub input: Box<Input>,
}

impl Difference {
    pub fn new(what: String, input: &Input) -> Difference {
        Difference {
            what,
            input: Box::new(input.clone()),
        }
    }
}

/// How often each entry gave each number.
#[derive(Clone, Default, Debug)]
pub struct Coverage {
    counts: [[usize; HIGHEST_NUMBER + 1]; Entry::ALL.len()],
}

impl Coverage {
    pub fn add(&mut self, seen: Seen) {
        self.counts[seen.entry as usize][seen.number] += 1;
    }

    pub fn count(&self, entry: Entry, number: usize) -> usize {
        self.counts[entry as usize][number]
    }

    pub fn total(&self) -> usize {
        self.counts.iter().flatten().sum()
    }

    /// Adds all that another has counted.
    pub fn add_all(&mut self, other: &Coverage) {
        let counts = self.counts.iter_mut().flatten();
        for (count, more) in counts.zip(other.counts.iter().flatten()) {
            *count += more;
        }
    }
}

// Lent buffers.

/// The number of guard bytes on each side of a lent buffer: odd, so that buffers do not stand at
/// even places.
const GUARD: usize = 37;

/// Bytes lent to an entry, inside a larger allocation with guard bytes on both sides, and a copy of
/// all as they were.
struct Lent {
    whole: Vec<u8>,
    before: Vec<u8>,
}

impl Lent {
    fn new(bytes: &[u8]) -> Lent {
        let mut whole = Vec::with_capacity(bytes.len() + 2 * GUARD);
        whole.extend((0..GUARD).map(guard_byte));
        whole.extend(bytes);
        whole.extend((GUARD..2 * GUARD).map(guard_byte));
        Lent {
            before: whole.clone(),
            whole,
        }
    }

    fn end(&self) -> usize {
        self.whole.len() - GUARD
    }

    fn bytes(&self) -> &[u8] {
        &self.whole[GUARD..self.end()]
    }

    fn bytes_mut(&mut self) -> &mut [u8] {
        let end = self.end();
        &mut self.whole[GUARD..end]
    }

    fn is_unchanged(&self) -> bool {
        self.whole == self.before
    }

    /// Whether the guard bytes, and the bytes from a place of the buffer on, are as they were.
    fn is_unchanged_from(&self, place: usize) -> bool {
        let kept = GUARD + place;
        self.whole[..GUARD] == self.before[..GUARD] && self.whole[kept..] == self.before[kept..]
    }
}

fn guard_byte(place: usize) -> u8 {
    (place * 59 + 113) as u8
}

// One implementation on one input.

/// What came of an input: the answer, the rooms as they were left, one after the other, and the first
/// broken sentence of the document.
struct Outcome {
    answer: Answer,
    rooms: Vec<u8>,
    broken: Option<&'static str>,
}

/// The answer of an implementation, and the bytes of its rooms afterwards, one room after the other.
/// Acceptance and the reader have no room.
pub fn answer_of(entries: &dyn Entries, input: &Input) -> (Answer, Vec<u8>) {
    let outcome = run(entries, input);
    (outcome.answer, outcome.rooms)
}

fn run(entries: &dyn Entries, input: &Input) -> Outcome {
    match input {
        Input::Plan {
            net,
            calls,
            settings,
        } => {
            let lent = [Lent::new(calls)];
            let mut room = Lent::new(settings);
            let answer = entries.plan(*net, lent[0].bytes(), room.bytes_mut());
            let written = settings_length(calls);
            outcome(Answer::Planned(answer), &lent, &[(room, written)])
        }
        Input::Accept {
            net,
            calls,
            settings,
        } => {
            let lent = [Lent::new(calls), Lent::new(settings)];
            let answer = entries.accept(*net, lent[0].bytes(), lent[1].bytes());
            outcome(Answer::Verdict(answer), &lent, &[])
        }
        Input::Read { file } => {
            let lent = [Lent::new(file)];
            let answer = entries.read(lent[0].bytes());
            outcome(Answer::Told(answer), &lent, &[])
        }
        Input::Write {
            kind,
            net,
            note,
            calls,
            settings,
            out,
        } => run_writer(entries, *kind, *net, [note, calls, settings], out),
        Input::Add {
            net,
            calls,
            settings,
            call,
            calls_after,
            settings_after,
            moved_rows,
        } => {
            let rooms = [&calls_after[..], settings_after, moved_rows];
            run_add(entries, *net, [calls, settings, call], rooms)
        }
        Input::Drop {
            net,
            calls,
            settings,
            row,
            calls_after,
            settings_after,
        } => {
            let rooms = [&calls_after[..], settings_after];
            run_drop(entries, *net, [calls, settings], *row, rooms)
        }
        Input::ConvertToNew { file, out } => run_conversion(
            |file, out| entries.convert_to_new(file, out),
            Kind::Calls,
            file,
            out,
        ),
        Input::ConvertToOld { file, out } => run_conversion(
            |file, out| entries.convert_to_old(file, out),
            Kind::CallsWithCycle,
            file,
            out,
        ),
    }
}

/// Lends an add what is given and its three rooms.
fn run_add(entries: &dyn Entries, net: Network, given: [&[u8]; 3], rooms: [&[u8]; 3]) -> Outcome {
    let lent = given.map(Lent::new);
    let [calls, settings, call] = &lent;
    let [mut calls_after, mut settings_after, mut moved_rows] = rooms.map(Lent::new);
    let answer = entries.add(
        net,
        calls.bytes(),
        settings.bytes(),
        call.bytes(),
        [
            calls_after.bytes_mut(),
            settings_after.bytes_mut(),
            moved_rows.bytes_mut(),
        ],
    );
    let rows = given[0].len() / CALL_BYTES + 1;
    let rooms = [
        (calls_after, CALL_BYTES * rows),
        (settings_after, SETTING_BYTES * rows),
        (moved_rows, answer.moved.saturating_mul(MOVED_BYTES)),
    ];
    outcome(Answer::Planned(answer), &lent, &rooms)
}

/// Lends a drop what is given and its two rooms.
fn run_drop(
    entries: &dyn Entries,
    net: Network,
    given: [&[u8]; 2],
    row: usize,
    rooms: [&[u8]; 2],
) -> Outcome {
    let lent = given.map(Lent::new);
    let [calls, settings] = &lent;
    let [mut calls_after, mut settings_after] = rooms.map(Lent::new);
    let answer = entries.drop(
        net,
        calls.bytes(),
        settings.bytes(),
        row,
        [calls_after.bytes_mut(), settings_after.bytes_mut()],
    );
    let rows = (given[0].len() / CALL_BYTES).saturating_sub(1);
    let rooms = [
        (calls_after, CALL_BYTES * rows),
        (settings_after, SETTING_BYTES * rows),
    ];
    outcome(Answer::Verdict(answer), &lent, &rooms)
}

/// Lends a writer its note, calls and settings, and its room.
fn run_writer(
    entries: &dyn Entries,
    kind: Kind,
    net: Network,
    parts: [&[u8]; 3],
    out: &[u8],
) -> Outcome {
    let lent = parts.map(Lent::new);
    let mut room = Lent::new(out);
    let [note, calls, settings] = &lent;
    let answer = entries.write(
        kind,
        net,
        [note.bytes(), calls.bytes(), settings.bytes()],
        room.bytes_mut(),
    );
    let [note, calls, settings] = parts;
    let written = file_length(kind, note, calls, settings);
    outcome(Answer::Verdict(answer), &lent, &[(room, written)])
}

/// Lends a conversion its file and its room. Of the two kinds that it takes one is named, since the
/// files of both become longer, or shorter, by as much.
fn run_conversion(
    convert: impl Fn(&[u8], &mut [u8]) -> Verdict,
    taken: Kind,
    file: &[u8],
    out: &[u8],
) -> Outcome {
    let lent = [Lent::new(file)];
    let mut room = Lent::new(out);
    let answer = convert(lent[0].bytes(), room.bytes_mut());
    let written = converted_length(taken, file);
    outcome(Answer::Verdict(answer), &lent, &[(room, written)])
}

/// A room, and how many bytes of it success writes.
type Room = (Lent, usize);

fn outcome(answer: Answer, lent: &[Lent], rooms: &[Room]) -> Outcome {
    Outcome {
        answer,
        rooms: rooms
            .iter()
            .flat_map(|(room, _)| room.bytes().to_vec())
            .collect(),
        broken: broken_sentence(&answer, lent, rooms),
    }
}

/// The first sentence that a call broke, whatever was asked.
fn broken_sentence(answer: &Answer, lent: &[Lent], rooms: &[Room]) -> Option<&'static str> {
    if !lent.iter().all(Lent::is_unchanged) {
        return Some("a buffer that is only read keeps its bytes and its guard bytes");
    }
    if answer.number() > HIGHEST_NUMBER {
        return Some("a number is 0 or that of a refusal");
    }
    if answer.number() != 0 {
        if !rooms.iter().all(|(room, _)| room.is_unchanged()) {
            return Some("a refusal writes nothing anywhere");
        }
        if answer.numbers()[2..].iter().any(|&number| number != 0) {
            return Some("a refusal has moved 0, and a refused read tells zero for all");
        }
        return None;
    }
    for (room, written) in rooms {
        if room.bytes().len() < *written {
            return Some("success needs room for all that is written");
        }
        if !room.is_unchanged_from(*written) {
            return Some("bytes beyond those written keep their values");
        }
    }
    None
}

// Two implementations on one input.

/// Lets both implementations answer the input; answers, rooms and the document's sentences are
/// compared. Where a file was read, written or converted, it has to go there and back by the right
/// implementation.
pub fn compare_all(
    left: &dyn Entries,
    right: &dyn Entries,
    input: &Input,
) -> Result<Seen, Difference> {
    let (answer, rooms) = answer_of_both(left, right, input)?;
    if answer.number() == 0 {
        if let Some(sentence) = round_trips::broken_round_trip(right, input, &rooms) {
            let what = format!("right breaks: {}", sentence);
            return Err(Difference::new(what, input));
        }
    }
    Ok(Seen {
        entry: input.entry(),
        number: answer.number(),
    })
}

/// The answer that both implementations give, and the bytes of the rooms as both leave them, one room
/// after the other.
pub fn answer_of_both(
    left: &dyn Entries,
    right: &dyn Entries,
    input: &Input,
) -> Result<(Answer, Vec<u8>), Difference> {
    let at_left = run(left, input);
    let at_right = run(right, input);
    let differ = |what: String| Err(Difference::new(what, input));
    if let Some(sentence) = at_left.broken {
        return differ(format!("left breaks: {}", sentence));
    }
    if let Some(sentence) = at_right.broken {
        return differ(format!("right breaks: {}", sentence));
    }
    if at_left.answer != at_right.answer {
        return differ(format!(
            "answers: left {:?}, right {:?}",
            at_left.answer, at_right.answer
        ));
    }
    if let Some(place) = first_difference(&at_left.rooms, &at_right.rooms) {
        return differ(format!(
            "byte {} of the rooms: left {}, right {}",
            place, at_left.rooms[place], at_right.rooms[place]
        ));
    }
    Ok((at_left.answer, at_left.rooms))
}

fn first_difference(left: &[u8], right: &[u8]) -> Option<usize> {
    left.iter().zip(right).position(|(one, other)| one != other)
}

// Two implementations on every small input.

/// Two implementations under comparison, and what they have been seen to answer.
struct Both<'a> {
    left: &'a dyn Entries,
    right: &'a dyn Entries,
    coverage: Coverage,
}

impl Both<'_> {
    fn compare(&mut self, input: Input) -> Result<(), Difference> {
        self.coverage
            .add(compare_all(self.left, self.right, &input)?);
        Ok(())
    }
}

/// Compares both implementations on every small input: some hundred thousand for each of planner,
/// acceptance, adds, drops, and the entries for files.
pub fn compare_exhaustively(
    left: &dyn Entries,
    right: &dyn Entries,
) -> Result<Coverage, Difference> {
    let mut both = Both {
        left,
        right,
        coverage: Coverage::default(),
    };
    for input in small_plans() {
        both.compare(input)?;
    }
    accept_one_row(&mut both)?;
    accept_two_rows(&mut both)?;
    try_rooms(&mut both)?;
    try_cycles(&mut both)?;
    files::compare_files(&mut both)?;
    steps::compare_steps(&mut both)?;
    Ok(both.coverage)
}

/// All networks with each size from 0 to the highest, and the larger of r and m for a cycle.
fn networks_of_sizes(highest: usize) -> Vec<Network> {
    let mut networks = Vec::new();
    for n in 0..=highest {
        for m in 0..=highest {
            for r in 0..=highest {
                networks.push(Network::of_sizes(n, m, r));
            }
        }
    }
    networks
}

/// The same networks, and those without a size of 0 also with the cycle one below and one above.
fn networks(highest: usize) -> Vec<Network> {
    networks_of_sizes(highest)
        .into_iter()
        .flat_map(|net| {
            let least = net.cycle();
            let cycles = if net.n * net.m * net.r == 0 {
                least..=least
            } else {
                least - 1..=least + 1
            };
            cycles.map(move |cycle| net.with_cycle(cycle))
        })
        .collect()
}

/// The network with as few wavelengths as can be, and with one more.
fn tight_and_spare(n: usize, m: usize, r: usize) -> [Network; 2] {
    let net = Network::of_sizes(n, m, r);
    [net, net.with_cycle(net.cycle() + 1)]
}

/// All strings of so many bytes with each byte from 0 to the highest.
fn strings(length: usize, highest: u8) -> impl Iterator<Item = Vec<u8>> {
    let base = usize::from(highest) + 1;
    (0..base.pow(length as u32)).map(move |number| {
        let mut rest = number;
        let mut string = Vec::with_capacity(length);
        for _ in 0..length {
            string.push((rest % base) as u8);
            rest /= base;
        }
        string
    })
}

fn plan_input(net: Network, calls: Vec<u8>) -> Input {
    let room = filled(settings_length(&calls) + 2);
    Input::Plan {
        net,
        calls,
        settings: room,
    }
}

/// Every small input of the planner.
pub fn small_plans() -> impl Iterator<Item = Input> {
    small_tables()
        .chain(longer_tables())
        .chain(tables_of_pairs())
        .map(|(net, calls)| plan_input(net, calls))
}

/// Every network with sizes up to 2 and a cycle around the larger of r and m, every table of up to
/// two rows with numbers up to 2.
fn small_tables() -> impl Iterator<Item = (Network, Vec<u8>)> {
    networks(2).into_iter().flat_map(|net| {
        (0..=2)
            .flat_map(|rows| strings(CALL_BYTES * rows, 2))
            .map(move |calls| (net, calls))
    })
}

/// Tables of three rows, and for 2-2-2 of four, with numbers up to 1.
fn longer_tables() -> impl Iterator<Item = (Network, Vec<u8>)> {
    let of_three = networks(2).into_iter().map(|net| (net, 3));
    let of_four = tight_and_spare(2, 2, 2).into_iter().map(|net| (net, 4));
    of_three
        .chain(of_four)
        .flat_map(|(net, rows)| strings(CALL_BYTES * rows, 1).map(move |calls| (net, calls)))
}

/// Tables of four and five calls between any of three input modules and three output modules, each
/// on the next channel of its modules, with two channels and then three, and two centrals, with and
/// without a spare wavelength: chains, full modules, and one too many.
fn tables_of_pairs() -> impl Iterator<Item = (Network, Vec<u8>)> {
    let networks = [tight_and_spare(2, 2, 3), tight_and_spare(3, 2, 3)].concat();
    networks.into_iter().flat_map(|net| {
        (4..=5)
            .flat_map(|rows| strings(2 * rows, 2))
            .map(move |modules| {
                let pairs: Vec<(usize, usize)> = modules
                    .chunks_exact(2)
                    .map(|two| (usize::from(two[0]), usize::from(two[1])))
                    .collect();
                (net, calls_of_pairs(&pairs))
            })
    })
}

/// Every network with sizes up to 3 and a cycle around the larger of r and m, every row with numbers
/// up to 2, every settings row with numbers up to 3.
fn accept_one_row(both: &mut Both) -> Result<(), Difference> {
    for net in networks(3) {
        for calls in strings(CALL_BYTES, 2) {
            for settings in strings(SETTING_BYTES, 3) {
                both.compare(Input::Accept {
                    net,
                    calls: calls.clone(),
                    settings,
                })?;
            }
        }
    }
    Ok(())
}

/// 2-2-2, with and without a spare wavelength: every table of two rows with numbers up to 1, every
/// settings with numbers up to 2.
fn accept_two_rows(both: &mut Both) -> Result<(), Difference> {
    for net in tight_and_spare(2, 2, 2) {
        for calls in strings(CALL_BYTES * 2, 1) {
            for settings in strings(SETTING_BYTES * 2, 2) {
                both.compare(Input::Accept {
                    net,
                    calls: calls.clone(),
                    settings,
                })?;
            }
        }
    }
    Ok(())
}

/// A call of the writer of a kind, with a note and room for a row and two bytes more. A writer of
/// calls-only files is given no settings.
fn write_input(kind: Kind, net: Network, calls: &[u8], settings: &[u8]) -> Input {
    let settings = if kind.has_settings() { settings } else { &[] };
    let note = filled(1);
    Input::Write {
        kind,
        net,
        out: filled(file_length(kind, &note, calls, settings) + 2),
        note,
        calls: calls.to_vec(),
        settings: settings.to_vec(),
    }
}

/// Rooms of every length around what is needed, and notes around 255 bytes.
fn try_rooms(both: &mut Both) -> Result<(), Difference> {
    let net = Network::of_sizes(2, 2, 2);
    let calls = [0, 0, 0, 0, 1, 0, 1, 0];
    let settings = [0, 0, 0, 1, 0, 1];
    for room in 0..=300 {
        both.compare(Input::Plan {
            net,
            calls: calls.to_vec(),
            settings: filled(room),
        })?;
        for note in [0, 1, 254, 255, 256, 257] {
            for kind in Kind::ALL {
                let settings: &[u8] = if kind.has_settings() { &settings } else { &[] };
                both.compare(Input::Write {
                    kind,
                    net,
                    note: filled(note),
                    calls: calls.to_vec(),
                    settings: settings.to_vec(),
                    out: filled(room),
                })?;
            }
        }
    }
    Ok(())
}

/// Four networks with every cycle up to 130, and with those that would be one of these if they were
/// cut to 8, 16 or 32 bits: the last call that there can be, with the settings that it needs on the
/// last central by this cycle and by the larger of r and m, planned, judged and written.
fn try_cycles(both: &mut Both) -> Result<(), Difference> {
    let sizes = [(1, 1, 1), (2, 2, 3), (2, 3, 2), (16, 32, 64)];
    for (n, m, r) in sizes {
        let of_sizes = Network::of_sizes(n, m, r);
        let [module, channel] = [(r - 1) as u8, (n - 1) as u8];
        let calls = vec![module, channel, module, channel];
        for low in 0..=130 {
            for high in [0, 1 << 8, 1 << 16, 1 << 32, 1 << 63, usize::MAX - 130] {
                let net = of_sizes.with_cycle(low + high);
                both.compare(plan_input(net, calls.clone()))?;
                for made_for in [of_sizes, of_sizes.with_cycle(low.max(1))] {
                    let settings = setting_of(made_for, &calls, m - 1).to_vec();
                    both.compare(Input::Accept {
                        net,
                        calls: calls.clone(),
                        settings: settings.clone(),
                    })?;
                    for kind in Kind::ALL {
                        both.compare(write_input(kind, net, &calls, &settings))?;
                    }
                }
            }
        }
    }
    Ok(())
}
