//! The answers straight from the documents' sentences: each refusal is sought row by row, by
//! comparison with all earlier rows, and the planner follows the choice rule literally. Obviousness
//! comes before speed.

use crate::{
    Entries, Kind, Network, Planned, Refusal, Told, Verdict, CALL_BYTES, CYCLE_BYTES, LONGEST_FILE,
    LONGEST_NOTE, MARK, MOVED_BYTES, SETTING_BYTES, TRAILER_BYTES,
};

/// The reference implementation.
pub struct Plain;

impl Entries for Plain {
    fn plan(&self, net: Network, calls: &[u8], settings: &mut [u8]) -> Planned {
        match try_plan(net, calls, settings.len()) {
            Ok(plan) => {
                write_front(settings, &settings_bytes(&plan.settings));
                Planned {
                    number: 0,
                    row: plan.settings.len(),
                    moved: plan.moved(),
                }
            }
            Err(refusal) => refused(refusal),
        }
    }

    fn accept(&self, net: Network, calls: &[u8], settings: &[u8]) -> Verdict {
        verdict(try_accept(net, calls, settings))
    }

    fn read(&self, file: &[u8]) -> Told {
        read_taking(&Kind::ALL, file)
    }

    fn write_calls(
        &self,
        net: Network,
        note: &[u8],
        calls: &[u8],
        settings: &[u8],
        out: &mut [u8],
    ) -> Verdict {
        verdict(try_write(Kind::Calls, net, [note, calls, settings], out))
    }

    fn write_planned(
        &self,
        net: Network,
        note: &[u8],
        calls: &[u8],
        settings: &[u8],
        out: &mut [u8],
    ) -> Verdict {
        verdict(try_write(Kind::Planned, net, [note, calls, settings], out))
    }

    fn write_calls_with_cycle(
        &self,
        net: Network,
        note: &[u8],
        calls: &[u8],
        settings: &[u8],
        out: &mut [u8],
    ) -> Verdict {
        let parts = [note, calls, settings];
        verdict(try_write(Kind::CallsWithCycle, net, parts, out))
    }

    fn write_planned_with_cycle(
        &self,
        net: Network,
        note: &[u8],
        calls: &[u8],
        settings: &[u8],
        out: &mut [u8],
    ) -> Verdict {
        let parts = [note, calls, settings];
        verdict(try_write(Kind::PlannedWithCycle, net, parts, out))
    }

    fn convert_to_new(&self, file: &[u8], out: &mut [u8]) -> Verdict {
        verdict(try_convert(&Kind::OLD, file, out))
    }

    fn convert_to_old(&self, file: &[u8], out: &mut [u8]) -> Verdict {
        verdict(try_convert(&Kind::NEW, file, out))
    }

    fn add(
        &self,
        net: Network,
        calls: &[u8],
        settings: &[u8],
        call: &[u8],
        rooms: [&mut [u8]; 3],
    ) -> Planned {
        let [calls_after, settings_after, moved_rows] = rooms;
        let lengths = [calls_after.len(), settings_after.len(), moved_rows.len()];
        match try_add(net, calls, settings, call, lengths) {
            Ok(added) => {
                write_front(calls_after, &[calls, call].concat());
                write_front(settings_after, &settings_bytes(&added.settings));
                write_front(moved_rows, &row_numbers(&added.chain));
                Planned {
                    number: 0,
                    row: added.settings.len(),
                    moved: added.chain.len(),
                }
            }
            Err(refusal) => refused(refusal),
        }
    }

    fn drop(
        &self,
        net: Network,
        calls: &[u8],
        settings: &[u8],
        row: usize,
        rooms: [&mut [u8]; 2],
    ) -> Verdict {
        let [calls_after, settings_after] = rooms;
        let lengths = [calls_after.len(), settings_after.len()];
        let answer = try_drop(net, calls, settings, row, lengths);
        if answer.is_ok() {
            write_front(calls_after, &without_row(calls, CALL_BYTES, row));
            write_front(settings_after, &without_row(settings, SETTING_BYTES, row));
        }
        verdict(answer)
    }
}

/// What a reader tells that takes just these kinds: the reader of today takes all four, that of the
/// first issue 1 and 2, and so meets the others with 14.
pub fn read_taking(kinds: &[Kind], file: &[u8]) -> Told {
    match try_read(kinds, file) {
        Ok(parts) => parts.told(),
        Err(refusal) => Told {
            number: refusal.number,
            row: refusal.row,
            ..Told::default()
        },
    }
}

/// A call row. Its inlet is (input_module, input_channel), its outlet (output_module,
/// output_channel).
struct Call {
    input_module: usize,
    input_channel: usize,
    output_module: usize,
    output_channel: usize,
}

/// A settings row.
struct Setting {
    x: usize,
    central: usize,
    y: usize,
}

/// What the planner finds: the settings, and for each call that needed one the chain, as the rows
/// changed, in their order.
struct Plan {
    settings: Vec<Setting>,
    chains: Vec<Vec<usize>>,
}

impl Plan {
    /// The number of calls changed, summed over all chains.
    fn moved(&self) -> usize {
        self.chains.iter().map(Vec::len).sum()
    }
}

/// What an add finds: the settings of all rows, the new one last, and the chain as the rows changed,
/// in their order; none where a common central was free.
struct Added {
    settings: Vec<Setting>,
    chain: Vec<usize>,
}

/// The number of calls on each chain of a plan, in the order of the chains; none where the planner
/// refuses the calls.
pub fn chain_lengths(net: Network, calls: &[u8]) -> Vec<usize> {
    match try_plan(net, calls, usize::MAX) {
        Ok(plan) => plan.chains.iter().map(Vec::len).collect(),
        Err(_) => Vec::new(),
    }
}

// The entries, each with its refusals in the document's order.

fn try_plan(net: Network, calls: &[u8], room: usize) -> Result<Plan, Refusal> {
    check_sizes(net)?;
    check_calls_length(calls)?;
    let rows = calls_of(calls);
    check_count(rows.len())?;
    check_room(room, SETTING_BYTES * rows.len())?;
    check_calls(net, &rows)?;
    check_modules(net, &rows)?;
    Ok(place_all(net, &rows))
}

fn try_accept(net: Network, calls: &[u8], settings: &[u8]) -> Result<usize, Refusal> {
    check_sizes(net)?;
    check_calls_length(calls)?;
    let rows = calls_of(calls);
    check_settings_length(settings, SETTING_BYTES * rows.len())?;
    check_count(rows.len())?;
    check_calls(net, &rows)?;
    check_settings(net, &rows, &settings_of(settings))?;
    Ok(rows.len())
}

/// Acceptance of what is given, then the refusals of the new call. Rows before it have passed 5, 6
/// and 7, and lawful settings leave no module with more than m calls, so of the table with the new
/// call only the last row can be refused.
fn try_add(
    net: Network,
    calls: &[u8],
    settings: &[u8],
    call: &[u8],
    rooms: [usize; 3],
) -> Result<Added, Refusal> {
    let count = try_accept(net, calls, settings)?;
    if call.len() != CALL_BYTES {
        return refuse(2, 0);
    }
    check_count(count + 1)?;
    check_room(rooms[0], CALL_BYTES * (count + 1))?;
    check_room(rooms[1], SETTING_BYTES * (count + 1))?;
    check_room(rooms[2], MOVED_BYTES * count)?;
    let rows = calls_of(&[calls, call].concat());
    check_calls(net, &rows)?;
    check_modules(net, &rows)?;
    let mut centrals = settings_of(settings)
        .iter()
        .map(|setting| setting.central)
        .collect();
    let chain = place_next(net, &rows, &mut centrals);
    Ok(Added {
        settings: settings_for(net, &rows, &centrals),
        chain: chain.unwrap_or_default(),
    })
}

/// The number of rows that are left.
fn try_drop(
    net: Network,
    calls: &[u8],
    settings: &[u8],
    row: usize,
    rooms: [usize; 2],
) -> Result<usize, Refusal> {
    let count = try_accept(net, calls, settings)?;
    if row >= count {
        return refuse(17, 0);
    }
    check_room(rooms[0], CALL_BYTES * (count - 1))?;
    check_room(rooms[1], SETTING_BYTES * (count - 1))?;
    Ok(count - 1)
}

fn try_write(
    kind: Kind,
    net: Network,
    parts: [&[u8]; 3],
    out: &mut [u8],
) -> Result<usize, Refusal> {
    let [note, calls, settings] = parts;
    check_sizes(net)?;
    check_calls_length(calls)?;
    let rows = calls_of(calls);
    check_settings_length(settings, settings_distance(kind, rows.len()))?;
    check_count(rows.len())?;
    if note.len() > LONGEST_NOTE {
        return refuse(16, 0);
    }
    let file = file_bytes(kind, net, parts);
    check_room(out.len(), file.len())?;
    check_calls(net, &rows)?;
    if kind.has_settings() {
        check_settings(net, &rows, &settings_of(settings))?;
    }
    if !kind.tells_cycle() {
        check_cycle_of_sizes(net)?;
    }
    write_front(out, &file);
    Ok(rows.len())
}

/// Takes a file of these kinds apart.
fn try_read<'a>(kinds: &[Kind], file: &'a [u8]) -> Result<FileParts<'a>, Refusal> {
    let trailer = take_trailer(kinds, file)?;
    check_sizes(trailer.net)?;
    check_count(trailer.count)?;
    let trailer_at = file.len() - trailer.kind.trailer_bytes();
    check_distances(&trailer, trailer_at)?;
    let calls_at = trailer_at - trailer.calls_distance;
    let settings_at = trailer_at - trailer.settings_distance;
    let parts = FileParts {
        net: trailer.net,
        kind: trailer.kind,
        note: &file[..calls_at],
        calls: &file[calls_at..settings_at],
        settings: &file[settings_at..trailer_at],
    };
    let rows = calls_of(parts.calls);
    check_calls(parts.net, &rows)?;
    if parts.kind.has_settings() {
        check_settings(parts.net, &rows, &settings_of(parts.settings))?;
    }
    Ok(parts)
}

/// Writes what a file of these kinds has as a file of the kind that it is converted to.
fn try_convert(kinds: &[Kind], file: &[u8], out: &mut [u8]) -> Result<usize, Refusal> {
    let parts = try_read(kinds, file)?;
    check_cycle_of_sizes(parts.net)?;
    let converted = file_bytes(
        parts.kind.converted(),
        parts.net,
        [parts.note, parts.calls, parts.settings],
    );
    check_room(out.len(), converted.len())?;
    write_front(out, &converted);
    Ok(parts.count())
}

// Answers.

fn refuse<T>(number: usize, row: usize) -> Result<T, Refusal> {
    Err(Refusal { number, row })
}

/// Refuses at the first row that is at fault, where one of `count` rows is.
fn refuse_first(
    number: usize,
    count: usize,
    at_fault: impl Fn(usize) -> bool,
) -> Result<(), Refusal> {
    match (0..count).find(|&row| at_fault(row)) {
        Some(row) => refuse(number, row),
        None => Ok(()),
    }
}

fn refused(refusal: Refusal) -> Planned {
    Planned {
        number: refusal.number,
        row: refusal.row,
        moved: 0,
    }
}

fn verdict(answer: Result<usize, Refusal>) -> Verdict {
    match answer {
        Ok(count) => Verdict {
            number: 0,
            row: count,
        },
        Err(refusal) => Verdict {
            number: refusal.number,
            row: refusal.row,
        },
    }
}

// Rows from bytes, and bytes from rows.

fn calls_of(bytes: &[u8]) -> Vec<Call> {
    bytes
        .chunks_exact(CALL_BYTES)
        .map(|row| Call {
            input_module: usize::from(row[0]),
            input_channel: usize::from(row[1]),
            output_module: usize::from(row[2]),
            output_channel: usize::from(row[3]),
        })
        .collect()
}

fn settings_of(bytes: &[u8]) -> Vec<Setting> {
    bytes
        .chunks_exact(SETTING_BYTES)
        .map(|row| Setting {
            x: usize::from(row[0]),
            central: usize::from(row[1]),
            y: usize::from(row[2]),
        })
        .collect()
}

fn settings_bytes(settings: &[Setting]) -> Vec<u8> {
    let mut bytes = Vec::new();
    for setting in settings {
        bytes.push(setting.x as u8);
        bytes.push(setting.central as u8);
        bytes.push(setting.y as u8);
    }
    bytes
}

/// Rows by their numbers, two bytes each, the high byte first.
fn row_numbers(rows: &[usize]) -> Vec<u8> {
    rows.iter().flat_map(|&row| two_bytes(row)).collect()
}

/// A table of rows of so many bytes without one of them; later rows close up.
fn without_row(table: &[u8], length: usize, dropped: usize) -> Vec<u8> {
    let mut rows: Vec<&[u8]> = table.chunks_exact(length).collect();
    rows.remove(dropped);
    rows.concat()
}

/// Writes bytes to the front of a room that has been checked; the bytes beyond keep their values.
fn write_front(room: &mut [u8], bytes: &[u8]) {
    room[..bytes.len()].copy_from_slice(bytes);
}

// The refusals that are not sought in rows.

fn check_sizes(net: Network) -> Result<(), Refusal> {
    let within = 1 <= net.n
        && net.n <= Network::MOST_CHANNELS
        && 1 <= net.m
        && net.m <= Network::MOST_CENTRALS
        && 1 <= net.r
        && net.r <= Network::MOST_MODULES
        && net.r <= net.w
        && net.m <= net.w
        && net.w <= Network::MOST_WAVELENGTHS;
    if within {
        Ok(())
    } else {
        refuse(1, 0)
    }
}

fn check_calls_length(calls: &[u8]) -> Result<(), Refusal> {
    if calls.len() % CALL_BYTES == 0 {
        Ok(())
    } else {
        refuse(2, 0)
    }
}

fn check_settings_length(settings: &[u8], owed: usize) -> Result<(), Refusal> {
    if settings.len() == owed {
        Ok(())
    } else {
        refuse(2, 0)
    }
}

fn check_count(count: usize) -> Result<(), Refusal> {
    if count <= Network::MOST_ROWS {
        Ok(())
    } else {
        refuse(3, 0)
    }
}

fn check_room(room: usize, needed: usize) -> Result<(), Refusal> {
    if room >= needed {
        Ok(())
    } else {
        refuse(4, 0)
    }
}

/// Refuses a cycle for which a file of kind 1 or 2 has no place.
fn check_cycle_of_sizes(net: Network) -> Result<(), Refusal> {
    if net.w == net.r.max(net.m) {
        Ok(())
    } else {
        refuse(18, 0)
    }
}

// The refusals of call rows, each sought over the whole table before the next.

fn check_calls(net: Network, calls: &[Call]) -> Result<(), Refusal> {
    check_numbers(net, calls)?;
    check_inlets(calls)?;
    check_outlets(calls)
}

fn check_numbers(net: Network, calls: &[Call]) -> Result<(), Refusal> {
    refuse_first(5, calls.len(), |row| {
        let call = &calls[row];
        call.input_module >= net.r
            || call.output_module >= net.r
            || call.input_channel >= net.n
            || call.output_channel >= net.n
    })
}

fn check_inlets(calls: &[Call]) -> Result<(), Refusal> {
    refuse_first(6, calls.len(), |row| {
        let call = &calls[row];
        calls[..row].iter().any(|earlier| {
            earlier.input_module == call.input_module && earlier.input_channel == call.input_channel
        })
    })
}

fn check_outlets(calls: &[Call]) -> Result<(), Refusal> {
    refuse_first(7, calls.len(), |row| {
        let call = &calls[row];
        calls[..row].iter().any(|earlier| {
            earlier.output_module == call.output_module
                && earlier.output_channel == call.output_channel
        })
    })
}

/// Refuses at the first row with which its input module or its output module has more calls than
/// there are centrals.
fn check_modules(net: Network, calls: &[Call]) -> Result<(), Refusal> {
    refuse_first(8, calls.len(), |row| {
        let so_far = &calls[..row + 1];
        let at_input = so_far
            .iter()
            .filter(|call| call.input_module == calls[row].input_module)
            .count();
        let at_output = so_far
            .iter()
            .filter(|call| call.output_module == calls[row].output_module)
            .count();
        at_input > net.m || at_output > net.m
    })
}

// The refusals of settings rows: rows from 0 on, each tried for 9 to 13 in turn.

fn check_settings(net: Network, calls: &[Call], settings: &[Setting]) -> Result<(), Refusal> {
    for row in 0..settings.len() {
        let number = setting_refusal(net, calls, settings, row);
        if number != 0 {
            return refuse(number, row);
        }
    }
    Ok(())
}

/// The first of 9 to 13 that holds of the row, or 0.
fn setting_refusal(net: Network, calls: &[Call], settings: &[Setting], row: usize) -> usize {
    let cycle = net.cycle();
    let call = &calls[row];
    let setting = &settings[row];
    if setting.x >= cycle || setting.y >= cycle || setting.central >= net.m {
        return 9;
    }
    if port(setting.x, call.input_module, cycle) != setting.central {
        return 10;
    }
    if port(setting.y, setting.central, cycle) != call.output_module {
        return 11;
    }
    let same_input = |earlier: usize| calls[earlier].input_module == call.input_module;
    let same_output = |earlier: usize| calls[earlier].output_module == call.output_module;
    let same_central = |earlier: usize| settings[earlier].central == setting.central;
    if (0..row).any(|earlier| same_input(earlier) && same_central(earlier)) {
        return 12;
    }
    if (0..row).any(|earlier| same_central(earlier) && same_output(earlier)) {
        return 13;
    }
    0
}

// The grating rule.

/// The port at which a wavelength that entered a grating at `entered` leaves it: their difference,
/// by the remainder that is never negative. All three numbers are below the cycle or one byte, so
/// none is cut.
fn port(wavelength: usize, entered: usize, cycle: usize) -> usize {
    (wavelength as i64 - entered as i64).rem_euclid(cycle as i64) as usize
}

/// The wavelength that leaves a grating at `port` when it entered at `entered`.
fn wavelength(entered: usize, port: usize, cycle: usize) -> usize {
    (entered + port) % cycle
}

// The choice rule.

/// Places the calls in row order. No module has more calls than there are centrals.
fn place_all(net: Network, calls: &[Call]) -> Plan {
    let mut centrals = Vec::new();
    let mut chains = Vec::new();
    while centrals.len() < calls.len() {
        chains.extend(place_next(net, calls, &mut centrals));
    }
    Plan {
        settings: settings_for(net, calls, &centrals),
        chains,
    }
}

/// One step of the choice rule: places the first call that has no central yet, and answers the chain
/// if one was needed. With that call no module has more calls than there are centrals.
fn place_next(net: Network, calls: &[Call], centrals: &mut Vec<usize>) -> Option<Vec<usize>> {
    let call = &calls[centrals.len()];
    let at_input = centrals_at_input(calls, centrals, call.input_module);
    let at_output = centrals_at_output(calls, centrals, call.output_module);
    let common =
        (0..net.m).find(|central| !at_input.contains(central) && !at_output.contains(central));
    if let Some(central) = common {
        centrals.push(central);
        return None;
    }
    let a = lowest_free(net, &at_input);
    let b = lowest_free(net, &at_output);
    let chain = chain_from(calls, centrals, call.output_module, a, b);
    exchange(centrals, &chain, a, b);
    centrals.push(a);
    Some(chain)
}

/// The centrals of the calls placed so far at an input module.
fn centrals_at_input(calls: &[Call], centrals: &[usize], module: usize) -> Vec<usize> {
    (0..centrals.len())
        .filter(|&row| calls[row].input_module == module)
        .map(|row| centrals[row])
        .collect()
}

/// The centrals of the calls placed so far at an output module.
fn centrals_at_output(calls: &[Call], centrals: &[usize], module: usize) -> Vec<usize> {
    (0..centrals.len())
        .filter(|&row| calls[row].output_module == module)
        .map(|row| centrals[row])
        .collect()
}

/// The lowest central that isn't taken. There is one, since a module that still awaits a call has
/// fewer than m.
fn lowest_free(net: Network, taken: &[usize]) -> usize {
    (0..net.m)
        .find(|central| !taken.contains(central))
        .expect("a module that awaits a call has a free central")
}

/// The chain from an output module, as rows: the call there on a, at its input module the call on
/// b, at its output module the call on a, until none continues it.
fn chain_from(calls: &[Call], centrals: &[usize], start: usize, a: usize, b: usize) -> Vec<usize> {
    let mut chain = Vec::new();
    let mut output_module = start;
    while let Some(row) = row_at_output(calls, centrals, output_module, a) {
        chain.push(row);
        match row_at_input(calls, centrals, calls[row].input_module, b) {
            Some(back) => {
                chain.push(back);
                output_module = calls[back].output_module;
            }
            None => return chain,
        }
    }
    chain
}

fn row_at_input(
    calls: &[Call],
    centrals: &[usize],
    module: usize,
    central: usize,
) -> Option<usize> {
    (0..centrals.len()).find(|&row| calls[row].input_module == module && centrals[row] == central)
}

fn row_at_output(
    calls: &[Call],
    centrals: &[usize],
    module: usize,
    central: usize,
) -> Option<usize> {
    (0..centrals.len()).find(|&row| calls[row].output_module == module && centrals[row] == central)
}

/// Every call on the chain changes between a and b.
fn exchange(centrals: &mut [usize], chain: &[usize], a: usize, b: usize) {
    for &row in chain {
        centrals[row] = if centrals[row] == a { b } else { a };
    }
}

fn settings_for(net: Network, calls: &[Call], centrals: &[usize]) -> Vec<Setting> {
    let cycle = net.cycle();
    calls
        .iter()
        .zip(centrals)
        .map(|(call, &central)| Setting {
            x: wavelength(call.input_module, central, cycle),
            central,
            y: wavelength(central, call.output_module, cycle),
        })
        .collect()
}

// The plan file.

/// A trailer taken apart, with a mark, a kind and a spare byte that are right. Where it states no
/// cycle, the network's is the larger of r and m.
struct Trailer {
    net: Network,
    kind: Kind,
    count: usize,
    settings_distance: usize,
    calls_distance: usize,
}

/// What is in a file that isn't refused.
struct FileParts<'a> {
    net: Network,
    kind: Kind,
    note: &'a [u8],
    calls: &'a [u8],
    settings: &'a [u8],
}

impl FileParts<'_> {
    fn count(&self) -> usize {
        self.calls.len() / CALL_BYTES
    }

    fn told(&self) -> Told {
        Told {
            number: 0,
            row: self.count(),
            n: self.net.n,
            m: self.net.m,
            r: self.net.r,
            w: self.net.w,
            kind: self.kind.number(),
            count: self.count(),
            note_at: 0,
            calls_at: self.note.len(),
            settings_at: self.note.len() + self.calls.len(),
        }
    }
}

/// How far the first settings row stands before the trailer.
fn settings_distance(kind: Kind, count: usize) -> usize {
    if kind.has_settings() {
        SETTING_BYTES * count
    } else {
        0
    }
}

/// How far the first call row stands before the trailer.
fn calls_distance(kind: Kind, count: usize) -> usize {
    CALL_BYTES * count + settings_distance(kind, count)
}

fn two_bytes(number: usize) -> [u8; 2] {
    [(number / 256) as u8, (number % 256) as u8]
}

/// The bytes of a file. Sizes, K and lengths have been checked.
fn file_bytes(kind: Kind, net: Network, parts: [&[u8]; 3]) -> Vec<u8> {
    let [_, calls, _] = parts;
    let count = calls.len() / CALL_BYTES;
    let mut file = parts.concat();
    if kind.tells_cycle() {
        file.extend([net.w as u8, 0]);
    }
    file.extend([net.n as u8, net.m as u8, net.r as u8, kind as u8]);
    file.extend(two_bytes(count));
    file.extend(two_bytes(settings_distance(kind, count)));
    file.extend(two_bytes(calls_distance(kind, count)));
    file.extend(MARK);
    file
}

/// Takes the trailer of a file of these kinds apart. Whatever the kind, its last twelve bytes are
/// alike.
fn take_trailer(kinds: &[Kind], file: &[u8]) -> Result<Trailer, Refusal> {
    if file.len() < TRAILER_BYTES {
        return refuse(14, 0);
    }
    let bytes = &file[file.len() - TRAILER_BYTES..];
    let number_at = |at: usize| 256 * usize::from(bytes[at]) + usize::from(bytes[at + 1]);
    let taken = kinds.iter().find(|&&kind| kind as u8 == bytes[3]);
    let kind = match taken {
        Some(&kind) if bytes[10..] == MARK => kind,
        _ => return refuse(14, 0),
    };
    let [n, m, r] = [bytes[0], bytes[1], bytes[2]].map(usize::from);
    let of_sizes = Network::of_sizes(n, m, r);
    let net = if kind.tells_cycle() {
        of_sizes.with_cycle(take_cycle(file)?)
    } else {
        of_sizes
    };
    Ok(Trailer {
        net,
        kind,
        count: number_at(4),
        settings_distance: number_at(6),
        calls_distance: number_at(8),
    })
}

/// W, which stands with a zero behind it before the last twelve bytes.
fn take_cycle(file: &[u8]) -> Result<usize, Refusal> {
    if file.len() < CYCLE_BYTES + TRAILER_BYTES {
        return refuse(14, 0);
    }
    let cycle_at = file.len() - TRAILER_BYTES - CYCLE_BYTES;
    match file[cycle_at..cycle_at + CYCLE_BYTES] {
        [w, 0] => Ok(usize::from(w)),
        _ => refuse(14, 0),
    }
}

/// Refuses distances that are not as stated, or more than the file holds before its trailer, or
/// that leave a note too long.
fn check_distances(trailer: &Trailer, trailer_at: usize) -> Result<(), Refusal> {
    let as_stated = trailer.settings_distance == settings_distance(trailer.kind, trailer.count)
        && trailer.calls_distance == calls_distance(trailer.kind, trailer.count);
    let held = trailer.calls_distance <= trailer_at;
    if as_stated && held && trailer_at - trailer.calls_distance <= LONGEST_NOTE {
        Ok(())
    } else {
        refuse(15, 0)
    }
}

// The listing program.

/// The text that the listing program prints for a file.
pub fn listing(file: &[u8]) -> Vec<u8> {
    if file.len() > LONGEST_FILE {
        return b"too long\n".to_vec();
    }
    let text = match try_list(file) {
        Ok(text) => text,
        Err(refusal) => format!("refused {} row {}\n", refusal.number, refusal.row),
    };
    text.into_bytes()
}

/// The listing of a file that isn't refused. Calls only are planned, by the cycle that the file
/// tells; a planned file has been accepted when it was read, and is listed with the settings it
/// holds.
fn try_list(file: &[u8]) -> Result<String, Refusal> {
    let parts = try_read(&Kind::ALL, file)?;
    let net = parts.net;
    let (moved, settings) = if parts.kind.has_settings() {
        ("-".to_string(), settings_of(parts.settings))
    } else {
        let plan = try_plan(net, parts.calls, SETTING_BYTES * parts.count())?;
        (plan.moved().to_string(), plan.settings)
    };
    let count = parts.count();
    let mut text = format!("{} {} {} {} {}\n", net.n, net.m, net.r, count, moved);
    for (row, (call, setting)) in calls_of(parts.calls).iter().zip(&settings).enumerate() {
        text.push_str(&row_line(row, call, setting));
    }
    Ok(text)
}

/// The line of a row: its number, then the call's numbers with those of the settings between them.
fn row_line(row: usize, call: &Call, setting: &Setting) -> String {
    format!(
        "{} {} {} {} {} {} {} {}\n",
        row,
        call.input_module,
        call.input_channel,
        setting.x,
        setting.central,
        setting.y,
        call.output_module,
        call.output_channel
    )
}
