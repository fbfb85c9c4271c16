//! The same answers, written for speed by the usual method. Which centrals are free at a module, and
//! which of its channels are in use, stands in one word of 32 bits each, for each module of each side;
//! the lowest free central is found by counting trailing zeros. A chain finds its next row by reading
//! the rows placed so far from row 0 up. A single call is added in one pass over the rows for what is
//! free at its two modules, and where it needs a chain in one more for the rows on the two centrals. A
//! file is converted by copying it in one piece up to its trailer. Everything stands on the stack.

use crate::{
    Entries, Kind, Network, Planned, Refusal, Told, Verdict, CALL_BYTES, CYCLE_BYTES, LONGEST_NOTE,
    MARK, MOVED_BYTES, SETTING_BYTES, TRAILER_BYTES,
};

/// The swift implementation.
pub struct Swift;

impl Entries for Swift {
    fn plan(&self, net: Network, calls: &[u8], settings: &mut [u8]) -> Planned {
        match check_plan(net, calls, settings.len()) {
            Ok(count) => Planned {
                number: 0,
                row: count,
                moved: place_all(net, calls, &mut settings[..SETTING_BYTES * count]),
            },
            Err(refusal) => into_planned(refusal),
        }
    }

    fn accept(&self, net: Network, calls: &[u8], settings: &[u8]) -> Verdict {
        into_verdict(check_accept(net, calls, settings))
    }

    fn read(&self, file: &[u8]) -> Told {
        match check_file(&Kind::ALL, file) {
            Ok(found) => Told {
                number: 0,
                row: found.count,
                n: found.net.n,
                m: found.net.m,
                r: found.net.r,
                w: found.net.w,
                kind: found.kind.number(),
                count: found.count,
                note_at: 0,
                calls_at: found.calls_at,
                settings_at: found.settings_at,
            },
            Err(refusal) => Told {
                number: refusal.number,
                row: refusal.row,
                n: 0,
                m: 0,
                r: 0,
                w: 0,
                kind: 0,
                count: 0,
                note_at: 0,
                calls_at: 0,
                settings_at: 0,
            },
        }
    }

    fn write_calls(
        &self,
        net: Network,
        note: &[u8],
        calls: &[u8],
        settings: &[u8],
        out: &mut [u8],
    ) -> Verdict {
        into_verdict(write(Kind::Calls, net, [note, calls, settings], out))
    }

    fn write_planned(
        &self,
        net: Network,
        note: &[u8],
        calls: &[u8],
        settings: &[u8],
        out: &mut [u8],
    ) -> Verdict {
        into_verdict(write(Kind::Planned, net, [note, calls, settings], out))
    }

    fn write_calls_with_cycle(
        &self,
        net: Network,
        note: &[u8],
        calls: &[u8],
        settings: &[u8],
        out: &mut [u8],
    ) -> Verdict {
        let parts = [note, calls, settings];
        into_verdict(write(Kind::CallsWithCycle, net, parts, out))
    }

    fn write_planned_with_cycle(
        &self,
        net: Network,
        note: &[u8],
        calls: &[u8],
        settings: &[u8],
        out: &mut [u8],
    ) -> Verdict {
        let parts = [note, calls, settings];
        into_verdict(write(Kind::PlannedWithCycle, net, parts, out))
    }

    fn convert_to_new(&self, file: &[u8], out: &mut [u8]) -> Verdict {
        into_verdict(convert(&Kind::OLD, file, out))
    }

    fn convert_to_old(&self, file: &[u8], out: &mut [u8]) -> Verdict {
        into_verdict(convert(&Kind::NEW, file, out))
    }

    fn add(
        &self,
        net: Network,
        calls: &[u8],
        settings: &[u8],
        call: &[u8],
        rooms: [&mut [u8]; 3],
    ) -> Planned {
        let [calls_after, settings_after, moved_rows] = rooms;
        let lengths = [calls_after.len(), settings_after.len(), moved_rows.len()];
        match check_add(net, calls, settings, call, lengths) {
            Ok(ends) => {
                append(append(calls_after, calls), call);
                let rooms = [settings_after, moved_rows];
                Planned {
                    number: 0,
                    row: calls.len() / CALL_BYTES + 1,
                    moved: place_one(net, calls, settings, call, &ends, rooms),
                }
            }
            Err(refusal) => into_planned(refusal),
        }
    }

    fn drop(
        &self,
        net: Network,
        calls: &[u8],
        settings: &[u8],
        row: usize,
        rooms: [&mut [u8]; 2],
    ) -> Verdict {
        let [calls_after, settings_after] = rooms;
        let lengths = [calls_after.len(), settings_after.len()];
        let answer = check_drop(net, calls, settings, row, lengths);
        if answer.is_ok() {
            copy_without(calls_after, calls, CALL_BYTES, row);
            copy_without(settings_after, settings, SETTING_BYTES, row);
        }
        into_verdict(answer)
    }
}

fn refuse<T>(number: usize, row: usize) -> Result<T, Refusal> {
    Err(Refusal { number, row })
}

fn into_planned(refusal: Refusal) -> Planned {
    Planned {
        number: refusal.number,
        row: refusal.row,
        moved: 0,
    }
}

fn into_verdict(answer: Result<usize, Refusal>) -> Verdict {
    match answer {
        Ok(count) => Verdict {
            number: 0,
            row: count,
        },
        Err(refusal) => Verdict {
            number: refusal.number,
            row: refusal.row,
        },
    }
}

// The entries.

/// All refusals of the planner; without one, the number of calls.
fn check_plan(net: Network, calls: &[u8], room: usize) -> Result<usize, Refusal> {
    check_sizes(net)?;
    let count = count_of(calls)?;
    check_count(count)?;
    if room < SETTING_BYTES * count {
        return refuse(4, 0);
    }
    check_calls(net, calls)?;
    check_modules(net, calls)?;
    Ok(count)
}

fn check_accept(net: Network, calls: &[u8], settings: &[u8]) -> Result<usize, Refusal> {
    check_sizes(net)?;
    let count = count_of(calls)?;
    if settings.len() != SETTING_BYTES * count {
        return refuse(2, 0);
    }
    check_count(count)?;
    check_calls(net, calls)?;
    check_settings(net, calls, settings)?;
    Ok(count)
}

/// All refusals of an add; without one, what is free at the new call's modules.
fn check_add(
    net: Network,
    calls: &[u8],
    settings: &[u8],
    call: &[u8],
    rooms: [usize; 3],
) -> Result<Ends, Refusal> {
    let count = check_accept(net, calls, settings)?;
    if call.len() != CALL_BYTES {
        return refuse(2, 0);
    }
    check_count(count + 1)?;
    if rooms[0] < CALL_BYTES * (count + 1)
        || rooms[1] < SETTING_BYTES * (count + 1)
        || rooms[2] < MOVED_BYTES * count
    {
        return refuse(4, 0);
    }
    check_new_call(net, calls, settings, call)
}

/// All refusals of a drop; without one, the number of rows that are left.
fn check_drop(
    net: Network,
    calls: &[u8],
    settings: &[u8],
    row: usize,
    rooms: [usize; 2],
) -> Result<usize, Refusal> {
    let count = check_accept(net, calls, settings)?;
    if row >= count {
        return refuse(17, 0);
    }
    let left = count - 1;
    if rooms[0] < CALL_BYTES * left || rooms[1] < SETTING_BYTES * left {
        return refuse(4, 0);
    }
    Ok(left)
}

/// Copies a table of rows of so many bytes but for one row.
fn copy_without(room: &mut [u8], table: &[u8], length: usize, row: usize) {
    let (before, rest) = table.split_at(length * row);
    append(append(room, before), &rest[length..]);
}

/// What a file that has passed all refusals of the reader tells, and where its trailer begins.
struct Found {
    net: Network,
    kind: Kind,
    count: usize,
    calls_at: usize,
    settings_at: usize,
    trailer_at: usize,
}

/// The places of W and of the zero, of the kind, K, both distances and the mark, counted from the
/// last twelve bytes of a file or from its last fourteen.
const CYCLE_AT: usize = 0;
const SPARE_AT: usize = 1;
const KIND_AT: usize = 3;
const COUNT_AT: usize = 4;
const SETTINGS_DISTANCE_AT: usize = 6;
const CALLS_DISTANCE_AT: usize = 8;
const MARK_AT: usize = 10;

/// All refusals of a reader that takes these kinds.
fn check_file(kinds: &[Kind], file: &[u8]) -> Result<Found, Refusal> {
    if file.len() < TRAILER_BYTES {
        return refuse(14, 0);
    }
    let (front, twelve) = file.split_at(file.len() - TRAILER_BYTES);
    let taken = kinds.iter().find(|&&kind| kind as u8 == twelve[KIND_AT]);
    let kind = match taken {
        Some(&kind) if twelve[MARK_AT..] == MARK => kind,
        _ => return refuse(14, 0),
    };
    let [n, m, r] = [twelve[0], twelve[1], twelve[2]].map(usize::from);
    let mut net = Network::of_sizes(n, m, r);
    let mut body = front;
    if kind.tells_cycle() {
        if front.len() < CYCLE_BYTES {
            return refuse(14, 0);
        }
        let (before, two) = front.split_at(front.len() - CYCLE_BYTES);
        if two[SPARE_AT] != 0 {
            return refuse(14, 0);
        }
        net.w = usize::from(two[CYCLE_AT]);
        body = before;
    }
    check_sizes(net)?;
    let number_at = |at: usize| two_byte_number(twelve[at], twelve[at + 1]);
    let count = number_at(COUNT_AT);
    check_count(count)?;
    let settings_bytes = settings_bytes_of(kind, count);
    let row_bytes = CALL_BYTES * count + settings_bytes;
    let as_stated = number_at(SETTINGS_DISTANCE_AT) == settings_bytes
        && number_at(CALLS_DISTANCE_AT) == row_bytes;
    let trailer_at = body.len();
    if !as_stated || row_bytes > trailer_at || trailer_at - row_bytes > LONGEST_NOTE {
        return refuse(15, 0);
    }
    let calls_at = trailer_at - row_bytes;
    let settings_at = trailer_at - settings_bytes;
    let calls = &body[calls_at..settings_at];
    check_calls(net, calls)?;
    if kind.has_settings() {
        check_settings(net, calls, &body[settings_at..])?;
    }
    Ok(Found {
        net,
        kind,
        count,
        calls_at,
        settings_at,
        trailer_at,
    })
}

/// Writes a file of these kinds as the kind that it is converted to: all before the trailer as it
/// is, W and a zero if the new file tells them, and the last twelve bytes with another kind.
fn convert(kinds: &[Kind], file: &[u8], out: &mut [u8]) -> Result<usize, Refusal> {
    let found = check_file(kinds, file)?;
    if found.net.cycle() != found.net.least_cycle() {
        return refuse(18, 0);
    }
    let kind = found.kind.converted();
    if out.len() < found.trailer_at + kind.trailer_bytes() {
        return refuse(4, 0);
    }
    let mut rest = append(out, &file[..found.trailer_at]);
    if kind.tells_cycle() {
        rest = append(rest, &[found.net.w as u8, 0]);
    }
    append(rest, &file[file.len() - TRAILER_BYTES..]);
    rest[KIND_AT] = kind as u8;
    Ok(found.count)
}

fn write(kind: Kind, net: Network, parts: [&[u8]; 3], out: &mut [u8]) -> Result<usize, Refusal> {
    let [note, calls, settings] = parts;
    check_sizes(net)?;
    let count = count_of(calls)?;
    if settings.len() != settings_bytes_of(kind, count) {
        return refuse(2, 0);
    }
    check_count(count)?;
    if note.len() > LONGEST_NOTE {
        return refuse(16, 0);
    }
    let row_bytes = calls.len() + settings.len();
    if out.len() < note.len() + row_bytes + kind.trailer_bytes() {
        return refuse(4, 0);
    }
    check_calls(net, calls)?;
    if kind.has_settings() {
        check_settings(net, calls, settings)?;
    }
    if !kind.tells_cycle() && net.cycle() != net.least_cycle() {
        return refuse(18, 0);
    }
    let mut rest = append(append(append(out, note), calls), settings);
    if kind.tells_cycle() {
        rest = append(rest, &[net.w as u8, 0]);
    }
    let [count_high, count_low] = two_bytes(count);
    let [settings_high, settings_low] = two_bytes(settings.len());
    let [calls_high, calls_low] = two_bytes(row_bytes);
    let twelve = [
        net.n as u8,
        net.m as u8,
        net.r as u8,
        kind as u8,
        count_high,
        count_low,
        settings_high,
        settings_low,
        calls_high,
        calls_low,
        MARK[0],
        MARK[1],
    ];
    append(rest, &twelve);
    Ok(count)
}

/// Copies bytes to the start of the room, and gives the room after them. The room has been checked.
fn append<'a>(room: &'a mut [u8], bytes: &[u8]) -> &'a mut [u8] {
    let (start, rest) = room.split_at_mut(bytes.len());
    start.copy_from_slice(bytes);
    rest
}

fn two_bytes(number: usize) -> [u8; 2] {
    [(number >> 8) as u8, number as u8]
}

fn two_byte_number(high: u8, low: u8) -> usize {
    usize::from(high) << 8 | usize::from(low)
}

fn settings_bytes_of(kind: Kind, count: usize) -> usize {
    if kind.has_settings() {
        SETTING_BYTES * count
    } else {
        0
    }
}

// Sizes and lengths.

fn check_sizes(net: Network) -> Result<(), Refusal> {
    let within = (1..=Network::MOST_CHANNELS).contains(&net.n)
        && (1..=Network::MOST_CENTRALS).contains(&net.m)
        && (1..=Network::MOST_MODULES).contains(&net.r)
        && (net.least_cycle()..=Network::MOST_WAVELENGTHS).contains(&net.cycle());
    if within {
        Ok(())
    } else {
        refuse(1, 0)
    }
}

fn count_of(calls: &[u8]) -> Result<usize, Refusal> {
    if calls.len() % CALL_BYTES == 0 {
        Ok(calls.len() / CALL_BYTES)
    } else {
        refuse(2, 0)
    }
}

fn check_count(count: usize) -> Result<(), Refusal> {
    if count <= Network::MOST_ROWS {
        Ok(())
    } else {
        refuse(3, 0)
    }
}

// The call table.

/// The place of the input module in a call row; its channel stands behind it.
const INPUT: usize = 0;
/// The place of the output module in a call row; its channel stands behind it.
const OUTPUT: usize = 2;

/// The channels in use at each module of a side, each by its bit, the lowest for channel 0.
type Channels = [u32; Network::MOST_MODULES];

/// One word is enough for all channels of a module.
const _: () = assert!(Network::MOST_CHANNELS <= u32::BITS as usize);

/// Takes a channel of a module; answers its bit if it was in use before, and otherwise 0.
fn take_channel(channels: &mut Channels, module: usize, channel: usize) -> u32 {
    let bit = 1 << channel;
    let used = channels[module] & bit;
    channels[module] |= bit;
    used
}

/// Refusals 5, 6 and 7. One pass ends at the first number outside, since 5 is sought over the whole
/// table before the others, and otherwise tells whether an inlet or an outlet is repeated; the first
/// such row is sought only where there is one.
fn check_calls(net: Network, calls: &[u8]) -> Result<(), Refusal> {
    let mut inlets = [0; Network::MOST_MODULES];
    let mut outlets = [0; Network::MOST_MODULES];
    let mut repeated_inlets = 0;
    let mut repeated_outlets = 0;
    for (row, call) in calls.chunks_exact(CALL_BYTES).enumerate() {
        let input_module = usize::from(call[0]);
        let input_channel = usize::from(call[1]);
        let output_module = usize::from(call[2]);
        let output_channel = usize::from(call[3]);
        if input_module >= net.r
            || output_module >= net.r
            || input_channel >= net.n
            || output_channel >= net.n
        {
            return refuse(5, row);
        }
        repeated_inlets |= take_channel(&mut inlets, input_module, input_channel);
        repeated_outlets |= take_channel(&mut outlets, output_module, output_channel);
    }
    if repeated_inlets != 0 {
        return refuse(6, first_repeated::<INPUT>(calls));
    }
    if repeated_outlets != 0 {
        return refuse(7, first_repeated::<OUTPUT>(calls));
    }
    Ok(())
}

/// The first row whose inlet, or whose outlet, is that of an earlier one, where the calls have passed
/// 5. There is one; without one the answer would be row 0.
fn first_repeated<const SIDE: usize>(calls: &[u8]) -> usize {
    let mut channels = [0; Network::MOST_MODULES];
    calls
        .chunks_exact(CALL_BYTES)
        .position(|call| {
            let [module, channel] = [call[SIDE], call[SIDE + 1]].map(usize::from);
            take_channel(&mut channels, module, channel) != 0
        })
        .unwrap_or(0)
}

/// Refusal 8, by a tally for each module. The calls have passed 5, 6 and 7, so a tally is 16 at
/// most.
fn check_modules(net: Network, calls: &[u8]) -> Result<(), Refusal> {
    if net.n <= net.m {
        return Ok(());
    }
    let mut at_inputs = [0u8; Network::MOST_MODULES];
    let mut at_outputs = [0u8; Network::MOST_MODULES];
    let most = net.m as u8;
    for (row, call) in calls.chunks_exact(CALL_BYTES).enumerate() {
        let at_input = &mut at_inputs[usize::from(call[0])];
        let at_output = &mut at_outputs[usize::from(call[2])];
        *at_input += 1;
        *at_output += 1;
        if *at_input > most || *at_output > most {
            return refuse(8, row);
        }
    }
    Ok(())
}

// The record of centrals.

/// The centrals that are free at a module, each by its bit, the lowest for central 0. The bits from m
/// on are never set, so that no central is found there.
#[derive(Clone, Copy)]
struct Free(u32);

/// One word is enough for all centrals.
const _: () = assert!(Network::MOST_CENTRALS <= u32::BITS as usize);

impl Free {
    /// All of so many centrals, of which there are one at least and 32 at most: what is shifted out is
    /// never the whole word.
    fn all(centrals: usize) -> Free {
        Free(u32::MAX >> (u32::BITS - centrals as u32))
    }

    fn is_none(self) -> bool {
        self.0 == 0
    }

    /// Whether a central, which is below the most, is free.
    fn has(self, central: usize) -> bool {
        self.0 & (1 << central) != 0
    }

    fn in_common(self, other: Free) -> Free {
        Free(self.0 & other.0)
    }

    /// The lowest: as many zeros stand below its bit as there are centrals below it.
    fn lowest(self) -> Option<usize> {
        if self.is_none() {
            None
        } else {
            Some(self.0.trailing_zeros() as usize)
        }
    }

    /// Takes a central, which is below the most; if it isn't free, nothing changes.
    fn take(&mut self, central: usize) {
        self.0 &= !(1 << central);
    }

    /// Of two centrals the one that is free is taken, and the other becomes free.
    fn exchange(&mut self, a: usize, b: usize) {
        self.0 ^= (1 << a) | (1 << b);
    }
}

/// What is free at each module of either side: half a KiB.
struct Record {
    inputs: [Free; Network::MOST_MODULES],
    outputs: [Free; Network::MOST_MODULES],
}

impl Record {
    /// All of so many centrals are free.
    fn new(centrals: usize) -> Record {
        let free = Free::all(centrals);
        Record {
            inputs: [free; Network::MOST_MODULES],
            outputs: [free; Network::MOST_MODULES],
        }
    }

    /// Takes a central at both modules of a call.
    fn take(&mut self, input_module: usize, output_module: usize, central: usize) {
        self.inputs[input_module].take(central);
        self.outputs[output_module].take(central);
    }
}

// Given settings.

/// Refusals 9 to 13, each row tried for them in turn. The calls have passed 5.
fn check_settings(net: Network, calls: &[u8], settings: &[u8]) -> Result<(), Refusal> {
    let cycle = net.cycle();
    let mut record = Record::new(net.m);
    let rows = calls
        .chunks_exact(CALL_BYTES)
        .zip(settings.chunks_exact(SETTING_BYTES));
    for (row, (call, setting)) in rows.enumerate() {
        let input_module = usize::from(call[0]);
        let output_module = usize::from(call[2]);
        let x = usize::from(setting[0]);
        let central = usize::from(setting[1]);
        let y = usize::from(setting[2]);
        if x >= cycle || y >= cycle || central >= net.m {
            return refuse(9, row);
        }
        if difference(x, input_module, cycle) != central {
            return refuse(10, row);
        }
        if difference(y, central, cycle) != output_module {
            return refuse(11, row);
        }
        if !record.inputs[input_module].has(central) {
            return refuse(12, row);
        }
        if !record.outputs[output_module].has(central) {
            return refuse(13, row);
        }
        record.take(input_module, output_module, central);
    }
    Ok(())
}

/// The remainder of a difference of two numbers below the cycle.
fn difference(minuend: usize, subtrahend: usize, cycle: usize) -> usize {
    if minuend >= subtrahend {
        minuend - subtrahend
    } else {
        minuend + cycle - subtrahend
    }
}

/// The remainder of a sum of two numbers below the cycle.
fn sum(left: usize, right: usize, cycle: usize) -> usize {
    let whole = left + right;
    if whole >= cycle {
        whole - cycle
    } else {
        whole
    }
}

// The choice rule.

/// The place of the central in a settings row.
const CENTRAL: usize = 1;

/// Places the calls, which have passed all refusals, in row order, and answers the moved count.
/// `settings` has 3 bytes for each call. While calls are placed only the centrals are written
/// there; the wavelengths follow when all stand fast.
fn place_all(net: Network, calls: &[u8], settings: &mut [u8]) -> usize {
    let mut record = Record::new(net.m);
    let mut moved = 0;
    for (row, call) in calls.chunks_exact(CALL_BYTES).enumerate() {
        let input_module = usize::from(call[INPUT]);
        let output_module = usize::from(call[OUTPUT]);
        let at_input = record.inputs[input_module];
        let at_output = record.outputs[output_module];
        let central = match at_input.in_common(at_output).lowest() {
            Some(central) => central,
            None => {
                let a = lowest_free(at_input);
                let b = lowest_free(at_output);
                let placed = &mut settings[..SETTING_BYTES * row];
                moved += exchange_chain(&mut record, calls, placed, output_module, a, b);
                a
            }
        };
        settings[SETTING_BYTES * row + CENTRAL] = central as u8;
        record.take(input_module, output_module, central);
    }
    fill_wavelengths(net.cycle(), calls, settings);
    moved
}

/// The lowest central that is free at a module. There is one, since a module that still awaits a
/// call has fewer than m; without one the answer would be 0.
fn lowest_free(at_module: Free) -> usize {
    at_module.lowest().unwrap_or(0)
}

/// Changes every call of the chain that starts at an output module between a and b, sets the record
/// right at both of its ends, where one of the two is free, and answers the number of calls changed.
/// At the modules between its ends both centrals stay in use.
fn exchange_chain(
    record: &mut Record,
    calls: &[u8],
    placed: &mut [u8],
    start: usize,
    a: usize,
    b: usize,
) -> usize {
    let mut moved = 0;
    let mut output_module = start;
    let mut row = row_at::<OUTPUT>(calls, placed, output_module, a);
    record.outputs[start].exchange(a, b);
    loop {
        // The row is on a and at the output module; the next is sought before this one changes to
        // b.
        let input_module = usize::from(calls[CALL_BYTES * row + INPUT]);
        moved += 1;
        if record.inputs[input_module].has(b) {
            placed[SETTING_BYTES * row + CENTRAL] = b as u8;
            record.inputs[input_module].exchange(a, b);
            return moved;
        }
        let back = row_at::<INPUT>(calls, placed, input_module, b);
        placed[SETTING_BYTES * row + CENTRAL] = b as u8;
        // The row `back` is on b and at the input module.
        output_module = usize::from(calls[CALL_BYTES * back + OUTPUT]);
        moved += 1;
        if record.outputs[output_module].has(a) {
            placed[SETTING_BYTES * back + CENTRAL] = a as u8;
            record.outputs[output_module].exchange(a, b);
            return moved;
        }
        row = row_at::<OUTPUT>(calls, placed, output_module, a);
        placed[SETTING_BYTES * back + CENTRAL] = a as u8;
    }
}

/// The placed row with a central at a module of one side, by reading the rows from row 0 up. The
/// record says that there is one; without one the answer would be row 0.
fn row_at<const SIDE: usize>(calls: &[u8], placed: &[u8], module: usize, central: usize) -> usize {
    let module = module as u8;
    let central = central as u8;
    calls
        .chunks_exact(CALL_BYTES)
        .zip(placed.chunks_exact(SETTING_BYTES))
        .position(|(call, setting)| call[SIDE] == module && setting[CENTRAL] == central)
        .unwrap_or(0)
}

/// Writes the two wavelengths that each call needs on its central.
fn fill_wavelengths(cycle: usize, calls: &[u8], settings: &mut [u8]) {
    let rows = calls
        .chunks_exact(CALL_BYTES)
        .zip(settings.chunks_exact_mut(SETTING_BYTES));
    for (call, setting) in rows {
        let central = usize::from(setting[CENTRAL]);
        write_setting(cycle, call, setting, central);
    }
}

/// Writes the settings row that a call needs on a central.
fn write_setting(cycle: usize, call: &[u8], setting: &mut [u8], central: usize) {
    setting[0] = sum(usize::from(call[INPUT]), central, cycle) as u8;
    setting[CENTRAL] = central as u8;
    setting[2] = sum(central, usize::from(call[OUTPUT]), cycle) as u8;
}

// A single call.

/// What is free at the input module and at the output module of a new call.
struct Ends {
    at_input: Free,
    at_output: Free,
}

/// Refusals 5, 6, 7 and 8 of a new call, in one pass over the rows for all but 5; without one, what
/// is free at its modules. The rows have been accepted, so a module has as many calls as centrals in
/// use.
fn check_new_call(
    net: Network,
    calls: &[u8],
    settings: &[u8],
    call: &[u8],
) -> Result<Ends, Refusal> {
    let count = calls.len() / CALL_BYTES;
    let modules_inside = usize::from(call[0].max(call[2])) < net.r;
    let channels_inside = usize::from(call[1].max(call[3])) < net.n;
    if !modules_inside || !channels_inside {
        return refuse(5, count);
    }
    let mut ends = Ends {
        at_input: Free::all(net.m),
        at_output: Free::all(net.m),
    };
    let mut inlet_is_used = false;
    let mut outlet_is_used = false;
    let rows = calls
        .chunks_exact(CALL_BYTES)
        .zip(settings.chunks_exact(SETTING_BYTES));
    for (other, setting) in rows {
        let central = usize::from(setting[CENTRAL]);
        if other[INPUT] == call[INPUT] {
            inlet_is_used |= other[INPUT + 1] == call[INPUT + 1];
            ends.at_input.take(central);
        }
        if other[OUTPUT] == call[OUTPUT] {
            outlet_is_used |= other[OUTPUT + 1] == call[OUTPUT + 1];
            ends.at_output.take(central);
        }
    }
    if inlet_is_used {
        return refuse(6, count);
    }
    if outlet_is_used {
        return refuse(7, count);
    }
    if ends.at_input.is_none() || ends.at_output.is_none() {
        return refuse(8, count);
    }
    Ok(ends)
}

/// Places a new call, which has passed all refusals, after the rows given: writes the settings of all
/// rows and the rows moved, and answers how many these are.
fn place_one(
    net: Network,
    calls: &[u8],
    settings: &[u8],
    call: &[u8],
    ends: &Ends,
    rooms: [&mut [u8]; 2],
) -> usize {
    let [settings_after, moved_rows] = rooms;
    append(settings_after, settings);
    let (placed, new_setting) = settings_after.split_at_mut(settings.len());
    if let Some(central) = ends.at_input.in_common(ends.at_output).lowest() {
        write_setting(net.cycle(), call, new_setting, central);
        return 0;
    }
    let a = lowest_free(ends.at_input);
    let b = lowest_free(ends.at_output);
    write_setting(net.cycle(), call, new_setting, a);
    let start = usize::from(call[OUTPUT]);
    let chain = Chain::new(calls, settings, a, b);
    chain.exchange(net.cycle(), calls, start, [placed, moved_rows])
}

/// The rows on the two centrals of a chain, by the module at which the chain enters them: for each
/// output module the row there on a, and for each input module the row there on b.
struct Chain {
    a: usize,
    b: usize,
    at_outputs: [Option<u16>; Network::MOST_MODULES],
    at_inputs: [Option<u16>; Network::MOST_MODULES],
}

impl Chain {
    /// The rows have been accepted, so no two of them are at the same module on the same central.
    fn new(calls: &[u8], settings: &[u8], a: usize, b: usize) -> Chain {
        let mut chain = Chain {
            a,
            b,
            at_outputs: [None; Network::MOST_MODULES],
            at_inputs: [None; Network::MOST_MODULES],
        };
        let rows = calls
            .chunks_exact(CALL_BYTES)
            .zip(settings.chunks_exact(SETTING_BYTES));
        for (row, (call, setting)) in rows.enumerate() {
            let central = usize::from(setting[CENTRAL]);
            if central == a {
                chain.at_outputs[usize::from(call[OUTPUT])] = Some(row as u16);
            } else if central == b {
                chain.at_inputs[usize::from(call[INPUT])] = Some(row as u16);
            }
        }
        chain
    }

    /// Changes every row of the chain that starts at an output module between a and b, tells these
    /// rows in their order, and answers how many they are. The rooms are for settings that hold
    /// those given, and for the rows moved.
    fn exchange(&self, cycle: usize, calls: &[u8], start: usize, rooms: [&mut [u8]; 2]) -> usize {
        let [placed, moved_rows] = rooms;
        let mut moved = 0;
        let mut move_row = |row: usize, central: usize| {
            let call = &calls[CALL_BYTES * row..];
            write_setting(cycle, call, &mut placed[SETTING_BYTES * row..], central);
            append(&mut moved_rows[MOVED_BYTES * moved..], &two_bytes(row));
            moved += 1;
        };
        let mut output_module = start;
        while let Some(row) = self.at_outputs[output_module].map(usize::from) {
            move_row(row, self.b);
            let input_module = usize::from(calls[CALL_BYTES * row + INPUT]);
            match self.at_inputs[input_module].map(usize::from) {
                Some(back) => {
                    move_row(back, self.a);
                    output_module = usize::from(calls[CALL_BYTES * back + OUTPUT]);
                }
                None => break,
            }
        }
        moved
    }
}

#[cfg(test)]
mod tests {
    use super::*;

    /// Takes the lowest as long as there is one.
    fn taken_in_turn(mut free: Free) -> Vec<usize> {
        std::iter::from_fn(|| {
            let lowest = free.lowest()?;
            free.take(lowest);
            Some(lowest)
        })
        .collect()
    }

    /// Also where the bits of all centrals fill the word.
    #[test]
    fn centrals_are_found_from_the_lowest_up_to_m() {
        for m in 1..=Network::MOST_CENTRALS {
            let centrals: Vec<usize> = (0..m).collect();
            assert_eq!(taken_in_turn(Free::all(m)), centrals);
        }
    }

    #[test]
    fn the_two_centrals_of_a_chain_change_places() {
        for a in 0..Network::MOST_CENTRALS {
            for b in (0..Network::MOST_CENTRALS).filter(|&b| b != a) {
                let mut free = Free::all(Network::MOST_CENTRALS);
                free.take(a);
                free.exchange(a, b);
                assert!(free.has(a) && !free.has(b));
            }
        }
    }
}
