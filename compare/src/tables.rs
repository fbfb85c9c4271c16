//! The tables on which implementations are timed, and the calls that are timed on each. And the full
//! tables in drawn order on which planners alone are timed.

use crate::inputs::{call_of, file_of, settings_length, spread_calls, Random, Running};
use crate::ladders::{
    calls_of_pairs, ladder, largest_ladder, largest_thread, thread_pair, LARGEST_SPARE,
    LARGEST_TIGHT, LONGEST_THREAD,
};
use crate::plain::chain_lengths;
use crate::swift::Swift;
use crate::{Entries, Kind, Network, Planned, Verdict, CALL_BYTES, MOVED_BYTES, SETTING_BYTES};

/// A table with the settings that the planner gives it, how many calls it moves, and its file of each
/// kind; and for adding its last call, the calls before it with settings, and how many of these it
/// moves.
pub struct Table {
    pub name: &'static str,
    pub net: Network,
    pub calls: Vec<u8>,
    pub settings: Vec<u8>,
    pub moved: usize,
    pub moved_by_last: usize,
    calls_file: Vec<u8>,
    planned_file: Vec<u8>,
    calls_file_with_cycle: Vec<u8>,
    planned_file_with_cycle: Vec<u8>,
    before: Running,
}

const NOTE: [u8; 16] = *b"benchmark's note";

/// Twice as many centrals as a module has channels.
const SPREAD: Network = Network::of_sizes(16, 32, 64);

/// Some more centrals than a module has channels, so that a full table hardly ever needs a chain.
const ROOMY: Network = Network::of_sizes(16, 20, 64);

const NARROW: Network = Network::of_sizes(2, 2, 64);

impl Table {
    /// A table whose last call is added to the planner's settings of those before it.
    fn new(name: &'static str, net: Network, mut calls: Vec<u8>) -> Table {
        let call = calls.split_off(calls.len() - CALL_BYTES);
        let mut settings = vec![0; settings_length(&calls)];
        Swift.plan(net, &calls, &mut settings);
        let before = Running {
            net,
            calls,
            settings,
        };
        Table::after(name, before, &call)
    }

    /// A table whose last call is added to settings of any maker.
    fn after(name: &'static str, before: Running, call: &[u8]) -> Table {
        let net = before.net;
        let calls = [&before.calls, call].concat();
        let mut settings = vec![0; settings_length(&calls)];
        let planned = Swift.plan(net, &calls, &mut settings);
        assert_eq!(planned.number, 0, "{} can be planned", name);
        let calls_file = |kind: Kind| file_of(kind, net, &NOTE, &calls, &[]);
        let planned_file = |kind: Kind| file_of(kind, net, &NOTE, &calls, &settings);
        let mut table = Table {
            name,
            net,
            calls_file: calls_file(Kind::Calls),
            planned_file: planned_file(Kind::Planned),
            calls_file_with_cycle: calls_file(Kind::CallsWithCycle),
            planned_file_with_cycle: planned_file(Kind::PlannedWithCycle),
            calls,
            settings,
            moved: planned.moved,
            moved_by_last: 0,
            before,
        };
        table.moved_by_last = add_last(&Swift, &table, &mut [0; LARGEST_ROOM]).moved;
        table
    }

    /// K.
    pub fn count(&self) -> usize {
        self.calls.len() / CALL_BYTES
    }

    /// How many calls are on the longest chain of the plan: 0 where there is no chain.
    pub fn longest_chain(&self) -> usize {
        let lengths = chain_lengths(self.net, &self.calls);
        lengths.into_iter().max().unwrap_or(0)
    }
}

/// The tables: a full one in a drawn order; a ladder, whose chains grow up to the longest that there
/// can be, `LONGEST_THREAD`; a full one that ends in this ladder; one that needs no chain, and the
/// first half of it; one whose last call, added to settings of another maker, needs the longest chain;
/// and two more full ones in a drawn order, with more centrals.
pub fn tables() -> [Table; 8] {
    let spread = spread_calls(&mut Random::seeded(3), SPREAD, 1024);
    let half = spread[..CALL_BYTES * 512].to_vec();
    let pair = thread_pair(LONGEST_THREAD);
    let (threaded, last) = Running::with_new_pair(LARGEST_SPARE, &largest_thread(), pair);
    [
        Table::new(
            "random full 16-16-64",
            LARGEST_TIGHT,
            full_calls(LARGEST_TIGHT, 1),
        ),
        Table::new("ladder 2-2-64", NARROW, calls_of_pairs(&ladder(64))),
        Table::new(
            "rounds and ladder 16-16-64",
            LARGEST_TIGHT,
            largest_ladder(),
        ),
        Table::new("spread 16-32-64", SPREAD, spread),
        Table::new("half of spread 16-32-64", SPREAD, half),
        Table::after("longest thread 16-17-64", threaded, &last),
        Table::new("random full 16-20-64", ROOMY, full_calls(ROOMY, 4)),
        Table::new("random full 16-32-64", SPREAD, full_calls(SPREAD, 5)),
    ]
}

/// The first rows of a full table, so many as are asked for.
pub fn growing(count: usize) -> Table {
    let mut calls = full_calls(LARGEST_TIGHT, 2);
    calls.truncate(CALL_BYTES * count);
    Table::new("first rows of a random full 16-16-64", LARGEST_TIGHT, calls)
}

/// Every channel of every module in use, in a drawn order.
fn full_calls(net: Network, seed: u64) -> Vec<u8> {
    let mut random = Random::seeded(seed);
    let outlets = random.order(net.n * net.r);
    let inlets = random.order(net.n * net.r);
    inlets
        .iter()
        .zip(&outlets)
        .flat_map(|(&inlet, &outlet)| call_of(net, inlet, outlet))
        .collect()
}

/// Networks whose full tables need many chains, fewer, hardly any and none, and smaller ones.
pub const OF_FULL_TABLES: [Network; 7] = [
    LARGEST_TIGHT,
    LARGEST_SPARE,
    ROOMY,
    SPREAD,
    Network::of_sizes(16, 16, 16),
    Network::of_sizes(4, 4, 64),
    NARROW,
];

/// Forty call tables with every channel of every module in use, each in a drawn order.
pub fn full_tables(net: Network) -> Vec<Vec<u8>> {
    (101..=140).map(|seed| full_calls(net, seed)).collect()
}

/// Bytes of the rooms of the largest add, one after the other, which are more than the longest file.
pub const LARGEST_ROOM: usize =
    (CALL_BYTES + SETTING_BYTES) * Network::MOST_ROWS + MOVED_BYTES * (Network::MOST_ROWS - 1);

/// A call that is timed: its name, and the call. The room that it needs is made before.
pub type Timed = (&'static str, fn(&dyn Entries, &Table, &mut [u8]) -> usize);

/// The place of the planner among the calls that are timed.
pub const PLAN: usize = 0;

/// The place of an add among them.
pub const ADD: usize = 6;

/// The calls that are timed. Each answers the number that it was given, and none is refused.
pub const TIMED: [Timed; 15] = [
    ("plan", |entries, table, room| {
        entries.plan(table.net, &table.calls, room).number
    }),
    ("accept", |entries, table, _| {
        entries
            .accept(table.net, &table.calls, &table.settings)
            .number
    }),
    ("read, calls only", |entries, table, _| {
        entries.read(&table.calls_file).number
    }),
    ("read, planned", |entries, table, _| {
        entries.read(&table.planned_file).number
    }),
    ("write_calls", |entries, table, room| {
        entries
            .write_calls(table.net, &NOTE, &table.calls, &[], room)
            .number
    }),
    ("write_planned", |entries, table, room| {
        entries
            .write_planned(table.net, &NOTE, &table.calls, &table.settings, room)
            .number
    }),
    ("add the last call", |entries, table, room| {
        add_last(entries, table, room).number
    }),
    ("drop the first call", |entries, table, room| {
        drop_row(entries, table, 0, room).number
    }),
    ("drop the last call", |entries, table, room| {
        drop_row(entries, table, table.count() - 1, room).number
    }),
    ("read, calls with cycle", |entries, table, _| {
        entries.read(&table.calls_file_with_cycle).number
    }),
    ("read, planned with cycle", |entries, table, _| {
        entries.read(&table.planned_file_with_cycle).number
    }),
    ("write_calls_with_cycle", |entries, table, room| {
        entries
            .write_calls_with_cycle(table.net, &NOTE, &table.calls, &[], room)
            .number
    }),
    ("write_planned_with_cycle", |entries, table, room| {
        entries
            .write_planned_with_cycle(table.net, &NOTE, &table.calls, &table.settings, room)
            .number
    }),
    ("convert_to_new, planned", |entries, table, room| {
        entries.convert_to_new(&table.planned_file, room).number
    }),
    ("convert_to_old, planned", |entries, table, room| {
        entries
            .convert_to_old(&table.planned_file_with_cycle, room)
            .number
    }),
];

/// Adds the last call to those before it. The rooms for calls and settings are exact.
fn add_last(entries: &dyn Entries, table: &Table, room: &mut [u8]) -> Planned {
    let Running {
        net,
        calls,
        settings,
    } = &table.before;
    let call = &table.calls[calls.len()..];
    let (calls_after, rest) = room.split_at_mut(table.calls.len());
    let (settings_after, moved_rows) = rest.split_at_mut(table.settings.len());
    let rooms = [calls_after, settings_after, moved_rows];
    entries.add(*net, calls, settings, call, rooms)
}

/// Drops a row. The room for the calls is one row longer than it has to be.
fn drop_row(entries: &dyn Entries, table: &Table, row: usize, room: &mut [u8]) -> Verdict {
    let (calls_after, settings_after) = room.split_at_mut(table.calls.len());
    let rooms = [calls_after, settings_after];
    entries.drop(table.net, &table.calls, &table.settings, row, rooms)
}

#[cfg(test)]
mod tests {
    use super::*;

    /// How many calls there are, and how many the last one moves.
    #[test]
    fn last_calls_move_none_or_many() {
        let moved = tables().map(|table| (table.count(), table.moved_by_last));
        let owed = [
            (1024, 0),
            (128, 0),
            (1024, 0),
            (1024, 0),
            (512, 0),
            (1024, 125),
            (1024, 0),
            (1024, 0),
        ];
        assert_eq!(moved, owed);
    }

    /// The longest chain that there can be is among those of a plan and among those of an add.
    #[test]
    fn the_longest_chains_are_as_long_as_can_be() {
        let lengths = tables().map(|table| table.longest_chain());
        assert_eq!(
            lengths,
            [106, LONGEST_THREAD, LONGEST_THREAD, 0, 0, 0, 0, 0]
        );
        assert_eq!(tables()[5].moved_by_last, LONGEST_THREAD);
        assert_eq!(LONGEST_THREAD, 125);
    }

    #[test]
    fn calls_stand_in_their_places() {
        assert_eq!(TIMED[PLAN].0, "plan");
        assert_eq!(TIMED[ADD].0, "add the last call");
    }

    /// Forty different tables, none of which is refused.
    #[test]
    fn full_tables_can_be_planned() {
        for net in OF_FULL_TABLES {
            let tables = full_tables(net);
            assert_eq!(tables.len(), 40);
            for (place, calls) in tables.iter().enumerate() {
                let answer = Swift.plan(net, calls, &mut [0; LARGEST_ROOM]);
                assert_eq!((answer.number, answer.row), (0, net.n * net.r));
                assert!(!tables[..place].contains(calls));
            }
        }
    }

    #[test]
    fn no_timed_call_is_refused() {
        for table in tables() {
            for (name, call) in TIMED {
                let number = call(&Swift, &table, &mut [0; LARGEST_ROOM]);
                assert_eq!(number, 0, "{} of {}", name, table.name);
            }
        }
    }
}
