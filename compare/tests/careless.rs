//! Careless implementations, each with one error, that the comparison has to tell from the plain
//! one on drawn inputs.

use compare::comparison::compare_all;
use compare::history::compare_history;
use compare::inputs::{drawn, setting_of};
use compare::plain::Plain;
use compare::{Entries, Network, Planned, Told, Verdict};

/// More inputs than these are not drawn to find an error.
const DRAWN: usize = 20_000;

/// The plain implementation with one error.
enum Careless {
    /// Sizes are cut to so many bits.
    CutsSizes(u32),
    /// The cycle is cut to so many bits.
    CutsCycle(u32),
    /// A cycle of 65 is let through.
    LetsOneTooMany,
    /// A cycle below r is let through.
    LetsBelowModules,
    /// A cycle below m is let through.
    LetsBelowCentrals,
    /// The planner takes the sum at a grating by the larger of r and m.
    PlansByLarger(Grating),
    /// Acceptance takes the remainder at a grating by the larger of r and m.
    AcceptsByLarger(Grating),
    /// Acceptance refuses wavelengths from the larger of r and m on.
    LimitsByLarger,
    /// Writers give 18 in place of this number where both apply.
    GivesCycleInPlaceOf(usize),
    /// Writers write a file whatever the cycle.
    WritesAnyCycle,
    /// The length of the planner's room is cut to 16 bits.
    CutsRoom,
    /// A refusing planner has touched the first byte of the room.
    WritesOnRefusal,
    /// A planner with more room than it needs touches its last byte.
    WritesBeyond,
    /// One more call is counted where one was moved.
    CountsTooMany,
    /// Acceptance gives 8 where m is less than n and the table overfills a module.
    AcceptsAsPlanned,
    /// The reader tells sizes of a refused file.
    TellsRefused,
    /// The writer of calls-only files takes settings.
    TakesSettings,
    /// An add or a drop with one error.
    Steps(CarelessStep),
}

/// An error of an add or of a drop.
#[derive(Clone, Copy, PartialEq, Eq)]
enum CarelessStep {
    /// The rows moved are told from the end of the chain to its start.
    ReversesChain,
    /// The rows moved are told in the order of the table.
    SortsChain,
    /// The rows moved are told with the low byte first.
    LowByteFirst,
    /// The last row moved isn't told.
    LeavesOutMoved,
    /// A row is told that did not move.
    TellsUnmoved,
    /// No rows are told as moved.
    TellsNone,
    /// The whole table is planned anew.
    PlansAnew,
    /// The chain starts at the input module: a and b change their parts.
    StartsAtInput,
    /// Only one row of the chain is changed.
    StopsAfterOne,
    /// The highest common free central is taken.
    TakesHighest,
    /// A call longer than 4 bytes is cut.
    CutsCall,
    /// The new call is judged before what is given.
    JudgesNewFirst,
    /// Refusal 8 is given in place of 9 to 13 where the new call's module is full.
    OverfullBeforeLawful,
    /// Room is asked for only as many moved rows as there are.
    AsksForMovedOnly,
    /// Room is asked for K + 1 moved rows.
    AsksForOneMore,
    /// A refused add has already written the calls.
    WritesCallsEarly,
    /// An add zeroes the bytes beyond the rows moved.
    ClearsMovedRoom,
    /// The rows of 5 to 8 are told as 0.
    TellsNoRow,
    /// The last row takes the place of the one dropped.
    FillsWithLast,
    /// The row dropped stays, and the last row goes.
    DropsLast,
    /// The calls close up, but the settings lose their last row.
    KeepsSettings,
    /// The row to be dropped is cut to so many bits.
    CutsRow(u32),
    /// 4 is given in place of 17 where both apply.
    RoomBeforeRow,
    /// The row after the last can be dropped, as the last.
    LetsOneBeyond,
    /// Room is asked for K rows.
    AsksForAllRows,
}

/// The gratings, each by the place in a settings row of the wavelength that enters it.
#[derive(Clone, Copy, PartialEq, Eq)]
enum Grating {
    First = 0,
    Second = 2,
}

/// The number of the port or module that light of a row enters a grating at, and of the one that the
/// row wants it to leave at.
fn ports_of(grating: Grating, call: &[u8], setting: &[u8]) -> (usize, usize) {
    let [input, central, output] = [call[0], setting[1], call[2]].map(usize::from);
    match grating {
        Grating::First => (input, central),
        Grating::Second => (central, output),
    }
}

/// Settings with each wavelength at a grating changed, where it is below the cycle, to what is given
/// for it, the port entered and the port wanted.
fn with_wavelengths(
    net: Network,
    grating: Grating,
    calls: &[u8],
    settings: &[u8],
    change: impl Fn(usize, usize, usize) -> usize,
) -> Vec<u8> {
    let mut changed = settings.to_vec();
    let rows = calls.chunks_exact(4).zip(changed.chunks_exact_mut(3));
    for (call, setting) in rows {
        let (entered, wanted) = ports_of(grating, call, setting);
        let wavelength = usize::from(setting[grating as usize]);
        if wavelength < net.cycle() {
            setting[grating as usize] = change(wavelength, entered, wanted) as u8;
        }
    }
    changed
}

/// The planner's settings with the wavelengths at a grating by the larger of r and m.
fn planned_by_larger(net: Network, grating: Grating, calls: &[u8], settings: &[u8]) -> Vec<u8> {
    with_wavelengths(net, grating, calls, settings, |_, entered, wanted| {
        (entered + wanted) % net.least_cycle()
    })
}

/// Settings that lead light by the cycle to where these lead it by the larger of r and m.
fn led_by_larger(net: Network, grating: Grating, calls: &[u8], settings: &[u8]) -> Vec<u8> {
    let least = net.least_cycle();
    with_wavelengths(net, grating, calls, settings, |wavelength, entered, _| {
        let port = (wavelength + least - entered % least) % least;
        (entered + port) % net.cycle()
    })
}

/// The first row with a wavelength below the cycle, but not below the larger of r and m.
fn first_beyond_larger(net: Network, settings: &[u8]) -> Option<usize> {
    let beyond = net.least_cycle()..net.cycle();
    settings.chunks_exact(3).position(|setting| {
        [setting[0], setting[2]]
            .map(usize::from)
            .iter()
            .any(|wavelength| beyond.contains(wavelength))
    })
}

impl Careless {
    /// The network that the plain implementation is given in place of the one asked about.
    fn network(&self, net: Network) -> Network {
        match self {
            Careless::CutsSizes(bits) => {
                let mask = (1 << bits) - 1;
                Network {
                    n: net.n & mask,
                    m: net.m & mask,
                    r: net.r & mask,
                    w: net.w,
                }
            }
            Careless::CutsCycle(bits) => net.with_cycle(net.w & ((1 << bits) - 1)),
            Careless::LetsOneTooMany if net.w == 65 => net.with_cycle(64),
            Careless::LetsBelowModules if net.w < net.r => net.with_cycle(net.r),
            Careless::LetsBelowCentrals if net.w < net.m => net.with_cycle(net.m),
            _ => net,
        }
    }

    /// The network that the plain implementation is given by a writer.
    fn network_to_write(&self, net: Network) -> Network {
        match self {
            Careless::WritesAnyCycle => net.with_cycle(net.least_cycle()),
            _ => self.network(net),
        }
    }

    /// What a writer answers in place of what the plain implementation answers.
    fn written(&self, net: Network, answer: Verdict) -> Verdict {
        match self {
            Careless::GivesCycleInPlaceOf(number)
                if answer.number == *number && net.cycle() != net.least_cycle() =>
            {
                Verdict { number: 18, row: 0 }
            }
            _ => answer,
        }
    }
}

impl Entries for Careless {
    fn plan(&self, net: Network, calls: &[u8], settings: &mut [u8]) -> Planned {
        let length = settings.len();
        let room = match self {
            Careless::CutsRoom => length & 0xFFFF,
            _ => length,
        };
        let mut answer = Plain.plan(self.network(net), calls, &mut settings[..room]);
        match self {
            Careless::PlansByLarger(grating) if answer.number == 0 => {
                let written = 3 * answer.row;
                let changed = planned_by_larger(net, *grating, calls, &settings[..written]);
                settings[..written].copy_from_slice(&changed);
            }
            Careless::WritesOnRefusal if answer.number != 0 && length > 0 => settings[0] ^= 1,
            Careless::WritesBeyond if answer.number == 0 && length > 3 * answer.row => {
                settings[length - 1] ^= 1;
            }
            Careless::CountsTooMany if answer.moved > 0 => answer.moved += 1,
            _ => {}
        }
        answer
    }

    fn accept(&self, net: Network, calls: &[u8], settings: &[u8]) -> Verdict {
        let answer = Plain.accept(self.network(net), calls, settings);
        let is_of_settings = answer.number == 0 || answer.number >= 9;
        match self {
            Careless::AcceptsAsPlanned if is_of_settings => {
                let mut room = settings.to_vec();
                let planned = Plain.plan(net, calls, &mut room);
                if planned.number == 8 {
                    return Verdict {
                        number: 8,
                        row: planned.row,
                    };
                }
            }
            Careless::AcceptsByLarger(grating) if is_of_settings => {
                return Plain.accept(net, calls, &led_by_larger(net, *grating, calls, settings));
            }
            Careless::LimitsByLarger if is_of_settings => {
                match first_beyond_larger(net, settings) {
                    Some(row) if row <= answer.row => return Verdict { number: 9, row },
                    _ => {}
                }
            }
            _ => {}
        }
        answer
    }

    fn read(&self, file: &[u8]) -> Told {
        let mut told = Plain.read(file);
        if let Careless::TellsRefused = self {
            if told.number == 15 {
                told.n = 1;
            }
        }
        told
    }

    fn write_calls(
        &self,
        net: Network,
        note: &[u8],
        calls: &[u8],
        settings: &[u8],
        out: &mut [u8],
    ) -> Verdict {
        let taken = match self {
            Careless::TakesSettings if settings.len() == 3 * (calls.len() / 4) => &[],
            _ => settings,
        };
        let answer = Plain.write_calls(self.network_to_write(net), note, calls, taken, out);
        self.written(net, answer)
    }

    fn write_planned(
        &self,
        net: Network,
        note: &[u8],
        calls: &[u8],
        settings: &[u8],
        out: &mut [u8],
    ) -> Verdict {
        let answer = Plain.write_planned(self.network_to_write(net), note, calls, settings, out);
        self.written(net, answer)
    }

    fn write_calls_with_cycle(
        &self,
        net: Network,
        note: &[u8],
        calls: &[u8],
        settings: &[u8],
        out: &mut [u8],
    ) -> Verdict {
        Plain.write_calls_with_cycle(self.network(net), note, calls, settings, out)
    }

    fn write_planned_with_cycle(
        &self,
        net: Network,
        note: &[u8],
        calls: &[u8],
        settings: &[u8],
        out: &mut [u8],
    ) -> Verdict {
        Plain.write_planned_with_cycle(self.network(net), note, calls, settings, out)
    }

    fn convert_to_new(&self, file: &[u8], out: &mut [u8]) -> Verdict {
        Plain.convert_to_new(file, out)
    }

    fn convert_to_old(&self, file: &[u8], out: &mut [u8]) -> Verdict {
        Plain.convert_to_old(file, out)
    }

    fn add(
        &self,
        net: Network,
        calls: &[u8],
        settings: &[u8],
        call: &[u8],
        rooms: [&mut [u8]; 3],
    ) -> Planned {
        match self {
            Careless::Steps(step) => step.add(net, calls, settings, call, rooms),
            _ => Plain.add(self.network(net), calls, settings, call, rooms),
        }
    }

    fn drop(
        &self,
        net: Network,
        calls: &[u8],
        settings: &[u8],
        row: usize,
        rooms: [&mut [u8]; 2],
    ) -> Verdict {
        match self {
            Careless::Steps(step) => step.drop(net, calls, settings, row, rooms),
            _ => Plain.drop(self.network(net), calls, settings, row, rooms),
        }
    }
}

impl CarelessStep {
    fn add(
        self,
        net: Network,
        calls: &[u8],
        settings: &[u8],
        call: &[u8],
        rooms: [&mut [u8]; 3],
    ) -> Planned {
        let count = calls.len() / 4;
        let [calls_after, settings_after, moved_rows] = rooms;
        match self {
            CarelessStep::CutsCall if call.len() > 4 => {
                let rooms = [calls_after, settings_after, moved_rows];
                return Plain.add(net, calls, settings, &call[..4], rooms);
            }
            CarelessStep::JudgesNewFirst => {
                if let Some(refused) = new_call_refused(net, calls, call) {
                    return refused;
                }
            }
            CarelessStep::OverfullBeforeLawful => {
                let given = Plain.accept(net, calls, settings).number;
                let refused = new_call_refused(net, calls, call);
                match refused {
                    Some(refused) if (9..=13).contains(&given) && refused.number == 8 => {
                        return refused;
                    }
                    _ => {}
                }
            }
            CarelessStep::AsksForMovedOnly if moved_rows.len() < 2 * count => {
                let rooms = [calls_after, settings_after, moved_rows];
                return add_with_longer_room(net, [calls, settings, call], rooms);
            }
            CarelessStep::AsksForOneMore if moved_rows.len() == 2 * count => {
                let rooms = [&mut calls_after[..0], settings_after, moved_rows];
                return Plain.add(net, calls, settings, call, rooms);
            }
            CarelessStep::WritesCallsEarly if calls_after.len() >= calls.len() => {
                calls_after[..calls.len()].copy_from_slice(calls);
            }
            _ => {}
        }
        let before = moved_rows.to_vec();
        let rooms = [&mut *calls_after, &mut *settings_after, &mut *moved_rows];
        let mut answer = Plain.add(net, calls, settings, call, rooms);
        if answer.number == 0 {
            self.spoil_settings(net, [calls_after, settings], settings_after, &answer);
            let rows = self.told_rows(count, &moved_rows[..2 * answer.moved]);
            answer.moved = rows.len();
            moved_rows.copy_from_slice(&before);
            moved_rows[..2 * rows.len()].copy_from_slice(&rows.concat());
            if self == CarelessStep::ClearsMovedRoom {
                moved_rows[2 * rows.len()..].fill(0);
            }
        } else if self == CarelessStep::TellsNoRow {
            answer.row = 0;
        }
        answer
    }

    /// Changes the settings that a right add has written.
    fn spoil_settings(
        self,
        net: Network,
        given: [&[u8]; 2],
        settings_after: &mut [u8],
        answer: &Planned,
    ) {
        let [calls, settings] = given;
        let calls = &calls[..4 * answer.row];
        let last = answer.row - 1;
        let room = &mut settings_after[..3 * answer.row];
        match self {
            CarelessStep::PlansAnew => {
                Plain.plan(net, calls, room);
            }
            CarelessStep::StopsAfterOne => {
                let first = room
                    .chunks_exact(3)
                    .zip(settings.chunks_exact(3))
                    .position(|(after, before)| after != before);
                for row in (0..last).filter(|&row| Some(row) != first) {
                    room[3 * row..3 * row + 3].copy_from_slice(&settings[3 * row..3 * row + 3]);
                }
            }
            CarelessStep::StartsAtInput if answer.moved > 0 => {
                let turned = |rows: &[u8]| -> Vec<u8> {
                    let turn = |row: &[u8]| [row[2], row[3], row[0], row[1]];
                    rows.chunks_exact(4).flat_map(turn).collect()
                };
                let turn = |row: &[u8]| [row[2], row[1], row[0]];
                let settings: Vec<u8> = settings.chunks_exact(3).flat_map(turn).collect();
                let turned = turned(calls);
                let mut rooms = [4, 3, 2].map(|bytes| vec![0; bytes * answer.row]);
                let [calls_after, settings_after, moved_rows] = &mut rooms;
                Plain.add(
                    net,
                    &turned[..4 * last],
                    &settings,
                    &turned[4 * last..],
                    [calls_after, settings_after, moved_rows],
                );
                let back: Vec<u8> = rooms[1].chunks_exact(3).flat_map(turn).collect();
                room.copy_from_slice(&back);
            }
            CarelessStep::TakesHighest if answer.moved == 0 => {
                let highest = (0..net.m).rev().find(|&central| {
                    let setting = setting_of(net, &calls[4 * last..], central);
                    room[3 * last..].copy_from_slice(&setting);
                    Plain.accept(net, calls, room).number == 0
                });
                assert!(highest.is_some());
            }
            _ => {}
        }
    }

    /// The rows that are told in place of those that a right add tells.
    fn told_rows(self, count: usize, right: &[u8]) -> Vec<[u8; 2]> {
        let mut rows: Vec<[u8; 2]> = right.chunks_exact(2).map(|two| [two[0], two[1]]).collect();
        match self {
            CarelessStep::ReversesChain => rows.reverse(),
            CarelessStep::SortsChain => rows.sort_unstable(),
            CarelessStep::LowByteFirst => rows.iter_mut().for_each(|row| row.reverse()),
            CarelessStep::LeavesOutMoved => drop(rows.pop()),
            CarelessStep::TellsNone => rows.clear(),
            CarelessStep::TellsUnmoved => {
                let unmoved = (0..count as u16)
                    .map(u16::to_be_bytes)
                    .find(|row| !rows.contains(row));
                rows.extend(unmoved);
            }
            _ => {}
        }
        rows
    }

    fn drop(
        self,
        net: Network,
        calls: &[u8],
        settings: &[u8],
        row: usize,
        rooms: [&mut [u8]; 2],
    ) -> Verdict {
        let count = calls.len() / 4;
        let [calls_after, settings_after] = rooms;
        let dropped = match self {
            CarelessStep::CutsRow(bits) => row & ((1 << bits) - 1),
            CarelessStep::LetsOneBeyond if row == count && count > 0 => count - 1,
            CarelessStep::RoomBeforeRow if row >= count && count > 0 => 0,
            _ => row,
        };
        if self == CarelessStep::AsksForAllRows && calls_after.len() < calls.len() {
            return Plain.drop(net, calls, settings, row, [&mut [], settings_after]);
        }
        let before = [calls_after.to_vec(), settings_after.to_vec()];
        let rooms = [&mut *calls_after, &mut *settings_after];
        let answer = Plain.drop(net, calls, settings, dropped, rooms);
        if answer.number != 0 {
            return answer;
        }
        let left = count - 1;
        match self {
            CarelessStep::FillsWithLast if row < left => {
                calls_after[..4 * left].copy_from_slice(&calls[..4 * left]);
                settings_after[..3 * left].copy_from_slice(&settings[..3 * left]);
                calls_after[4 * row..4 * row + 4].copy_from_slice(&calls[4 * left..]);
                settings_after[3 * row..3 * row + 3].copy_from_slice(&settings[3 * left..]);
            }
            CarelessStep::DropsLast => {
                calls_after[..4 * left].copy_from_slice(&calls[..4 * left]);
                settings_after[..3 * left].copy_from_slice(&settings[..3 * left]);
            }
            CarelessStep::KeepsSettings => {
                settings_after[..3 * left].copy_from_slice(&settings[..3 * left]);
            }
            CarelessStep::RoomBeforeRow if row >= count => {
                calls_after.copy_from_slice(&before[0]);
                settings_after.copy_from_slice(&before[1]);
                return Verdict { number: 17, row: 0 };
            }
            _ => {}
        }
        answer
    }
}

/// An add that asks for room only for the rows that are moved.
fn add_with_longer_room(net: Network, given: [&[u8]; 3], rooms: [&mut [u8]; 3]) -> Planned {
    let [calls, settings, call] = given;
    let mut copies = [rooms[0].to_vec(), rooms[1].to_vec(), vec![0; calls.len()]];
    let [calls_after, settings_after, moved_rows] = &mut copies;
    let lent = [&mut calls_after[..], settings_after, moved_rows];
    let answer = Plain.add(net, calls, settings, call, lent);
    let written = 2 * answer.moved;
    if rooms[2].len() < written {
        return Planned {
            number: 4,
            row: 0,
            moved: 0,
        };
    }
    copies[2].truncate(written);
    for (room, copy) in rooms.into_iter().zip(copies) {
        room[..copy.len()].copy_from_slice(&copy);
    }
    answer
}

/// The refusal of a new call by 5 to 8, whatever the settings are, where the calls given have none.
fn new_call_refused(net: Network, calls: &[u8], call: &[u8]) -> Option<Planned> {
    let longer = [calls, call].concat();
    let mut room = vec![0; 3 * (longer.len() / 4)];
    let answer = Plain.plan(net, &longer, &mut room);
    let is_of_new = (5..=8).contains(&answer.number) && answer.row == calls.len() / 4;
    Some(answer).filter(|_| is_of_new && call.len() == 4)
}

/// Finds a difference of this sort from the plain implementation on drawn inputs.
fn assert_found(careless: &Careless, what: &str) {
    let is_found = drawn(21)
        .take(DRAWN)
        .filter_map(|input| compare_all(&Plain, careless, &input).err())
        .any(|difference| difference.what.contains(what));
    assert!(is_found, "{}", what);
}

#[test]
fn cut_numbers_are_found() {
    for bits in [8, 16, 32] {
        assert_found(&Careless::CutsSizes(bits), "answers");
        assert_found(&Careless::CutsCycle(bits), "answers");
    }
    assert_found(&Careless::CutsRoom, "answers");
}

#[test]
fn touched_bytes_are_found() {
    assert_found(&Careless::WritesOnRefusal, "a refusal writes nothing");
    assert_found(&Careless::WritesBeyond, "bytes beyond those written");
}

#[test]
fn wrong_answers_are_found() {
    assert_found(&Careless::CountsTooMany, "answers");
    assert_found(&Careless::AcceptsAsPlanned, "answers");
    assert_found(&Careless::TellsRefused, "a refused read tells zero");
    assert_found(&Careless::TakesSettings, "answers");
}

#[test]
fn cycles_let_through_are_found() {
    assert_found(&Careless::LetsOneTooMany, "answers");
    assert_found(&Careless::LetsBelowModules, "answers");
    assert_found(&Careless::LetsBelowCentrals, "answers");
}

#[test]
fn the_larger_size_for_the_cycle_is_found() {
    for grating in [Grating::First, Grating::Second] {
        assert_found(&Careless::PlansByLarger(grating), "of the room");
        assert_found(&Careless::AcceptsByLarger(grating), "answers");
    }
    assert_found(&Careless::LimitsByLarger, "answers");
}

#[test]
fn another_order_of_18_is_found() {
    for number in [1, 2, 3, 16, 4, 5, 6, 7, 9, 10, 11, 12, 13] {
        assert_found(&Careless::GivesCycleInPlaceOf(number), "answers");
    }
    assert_found(&Careless::WritesAnyCycle, "answers");
}

/// Finds an error of an add or of a drop.
fn assert_step_found(step: CarelessStep, what: &str) {
    assert_found(&Careless::Steps(step), what);
}

#[test]
fn rows_moved_that_are_told_wrongly_are_found() {
    assert_step_found(CarelessStep::ReversesChain, "of the rooms");
    assert_step_found(CarelessStep::SortsChain, "of the rooms");
    assert_step_found(CarelessStep::LowByteFirst, "of the rooms");
    assert_step_found(CarelessStep::LeavesOutMoved, "answers");
    assert_step_found(CarelessStep::TellsNone, "answers");
    assert_step_found(CarelessStep::TellsUnmoved, "answers");
    assert_step_found(CarelessStep::ClearsMovedRoom, "bytes beyond those written");
}

#[test]
fn other_choices_of_an_add_are_found() {
    assert_step_found(CarelessStep::PlansAnew, "of the rooms");
    assert_step_found(CarelessStep::StartsAtInput, "of the rooms");
    assert_step_found(CarelessStep::StopsAfterOne, "of the rooms");
    assert_step_found(CarelessStep::TakesHighest, "of the rooms");
}

#[test]
fn other_refusals_of_an_add_are_found() {
    assert_step_found(CarelessStep::CutsCall, "answers");
    assert_step_found(CarelessStep::JudgesNewFirst, "answers");
    assert_step_found(CarelessStep::OverfullBeforeLawful, "answers");
    assert_step_found(CarelessStep::AsksForMovedOnly, "answers");
    assert_step_found(CarelessStep::AsksForOneMore, "answers");
    assert_step_found(CarelessStep::WritesCallsEarly, "a refusal writes nothing");
    assert_step_found(CarelessStep::TellsNoRow, "answers");
}

#[test]
fn other_drops_are_found() {
    assert_step_found(CarelessStep::FillsWithLast, "of the rooms");
    assert_step_found(CarelessStep::DropsLast, "of the rooms");
    assert_step_found(CarelessStep::KeepsSettings, "of the rooms");
    for bits in [8, 16, 32] {
        assert_step_found(CarelessStep::CutsRow(bits), "answers");
    }
    assert_step_found(CarelessStep::RoomBeforeRow, "answers");
    assert_step_found(CarelessStep::LetsOneBeyond, "answers");
    assert_step_found(CarelessStep::AsksForAllRows, "answers");
}

/// Both sides of the history have the same error, so that only what the history says finds it.
fn assert_found_by_history(step: CarelessStep, what: &str) {
    let careless = Careless::Steps(step);
    let net = Network::of_sizes(2, 2, 16);
    let found = compare_history(&careless, &careless, net, 23, 100).expect_err("it is found");
    assert!(found.what.contains(what), "{}", found.what);
}

#[test]
fn histories_find_errors_by_themselves() {
    let not_those = "the rows told are those that changed";
    assert_found_by_history(CarelessStep::LowByteFirst, not_those);
    assert_found_by_history(CarelessStep::LeavesOutMoved, not_those);
    assert_found_by_history(CarelessStep::TellsNone, "choice rule");
    assert_found_by_history(CarelessStep::TellsUnmoved, "choice rule");
    assert_found_by_history(CarelessStep::TakesHighest, "choice rule");
    assert_found_by_history(CarelessStep::StopsAfterOne, not_those);
    assert_found_by_history(CarelessStep::TellsNoRow, "is owed");
    assert_found_by_history(CarelessStep::FillsWithLast, "added and not dropped");
    assert_found_by_history(CarelessStep::DropsLast, "added and not dropped");
    assert_found_by_history(CarelessStep::KeepsSettings, "what was written is accepted");
    assert_found_by_history(CarelessStep::LetsOneBeyond, "17 with row 0 is owed");
    assert_found_by_history(CarelessStep::CutsRow(32), "17 with row 0 is owed");
    assert_found_by_history(CarelessStep::JudgesNewFirst, "4 with row 0 is owed");
}

#[test]
fn no_difference_is_found_where_there_is_none() {
    for input in drawn(22).take(DRAWN / 10) {
        compare_all(&Plain, &Plain, &input).expect("one answers like itself");
    }
}
