//! Histories: calls added and dropped one after the other on one network, from an empty table, each
//! step given what the last one wrote. Two implementations answer every step and judge every table,
//! and beside that the history itself says, by request 2 of document 02, what the table is: the calls
//! added and not dropped, in order of adding; settings that are lawful by their light; and on each
//! central as many calls as were first placed there or moved in, less those moved away or dropped
//! there.

use crate::comparison::{answer_of_both, Answer, Coverage, Difference, Seen};
use crate::inputs::{filled, Input, Random, Running};
use crate::light::lawful_by_marks;
use crate::refusals::is_sought_in_rows;
use crate::{Entries, Network, CALL_BYTES, MOVED_BYTES, SETTING_BYTES};

/// What happened in a history.
#[derive(Clone, Default, Debug)]
pub struct Events {
    pub adds: usize,
    pub drops: usize,
    /// Steps that were refused.
    pub refused: usize,
    /// Calls moved, summed over all adds.
    pub moved: usize,
    /// The most calls moved by one add.
    pub longest_chain: usize,
    /// Adds at the modules of the call dropped just before that took its central.
    pub taken_again: usize,
    /// The most calls at one time.
    pub most_calls: usize,
    /// The calls of the entries that were compared.
    pub coverage: Coverage,
}

/// The networks on which histories are compared, with the seed of each and the steps between full and
/// empty: small ones of all kinds, with spare wavelengths, with more centrals than channels and with
/// fewer; long ones with few channels; and the largest, up to 1,024 calls.
pub fn histories() -> Vec<(Network, u64, usize)> {
    let of_sizes = Network::of_sizes;
    let small = [
        of_sizes(1, 1, 1),
        of_sizes(2, 2, 2),
        of_sizes(2, 2, 3),
        of_sizes(2, 2, 3).with_cycle(4),
        of_sizes(3, 3, 4),
        of_sizes(3, 3, 4).with_cycle(64),
        of_sizes(4, 4, 2),
        of_sizes(3, 5, 4),
        of_sizes(4, 6, 5).with_cycle(7),
        of_sizes(4, 4, 8),
        of_sizes(5, 5, 5).with_cycle(63),
        // Fewer centrals than channels, down to one.
        of_sizes(3, 2, 4),
        of_sizes(4, 3, 6).with_cycle(7),
        of_sizes(16, 5, 3),
        of_sizes(2, 1, 3),
        of_sizes(16, 1, 5),
        of_sizes(1, 1, 64),
        of_sizes(1, 32, 6),
        // Long chains.
        of_sizes(2, 2, 16),
        of_sizes(2, 2, 40).with_cycle(41),
        of_sizes(3, 3, 24),
    ];
    let large = [
        of_sizes(16, 16, 10),
        of_sizes(16, 31, 4).with_cycle(64),
        of_sizes(2, 2, 64),
        of_sizes(16, 12, 20),
    ];
    let small = (0..3).flat_map(|round| small.map(|net| (net, round, 300)));
    let large = large.map(|net| (net, 3, 100));
    let largest = [of_sizes(16, 16, 64), of_sizes(16, 32, 64)].map(|net| (net, 4, 40));
    small.chain(large).chain(largest).collect()
}

/// Fills the table from empty until no further call can be added, changes calls for so many steps,
/// and empties it; with refused steps in between.
pub fn compare_history(
    left: &dyn Entries,
    right: &dyn Entries,
    net: Network,
    seed: u64,
    changes: usize,
) -> Result<Events, Difference> {
    let mut random = Random::seeded(seed);
    let mut history = History::new(left, right, net);
    history.check_table()?;
    while let Some(call) = history.draw_call(&mut random) {
        history.add(call)?;
        history.draw_aside(&mut random)?;
    }
    for _ in 0..changes {
        match history.draw_call(&mut random) {
            Some(call) if random.once_in(2) => history.add(call)?,
            _ => history.drop_drawn(&mut random)?,
        }
        history.draw_aside(&mut random)?;
    }
    while history.shelf.count() > 0 {
        history.drop_drawn(&mut random)?;
        history.draw_aside(&mut random)?;
    }
    Ok(history.events)
}

/// What came to one central and what left it.
#[derive(Clone, Copy, Default)]
struct Account {
    placed: usize,
    moved_in: usize,
    moved_away: usize,
    dropped: usize,
}

/// A history as far as it has come.
struct History<'a> {
    left: &'a dyn Entries,
    right: &'a dyn Entries,
    /// What the last step wrote.
    shelf: Running,
    /// The calls added and not dropped, in order of adding.
    calls: Vec<[u8; CALL_BYTES]>,
    accounts: [Account; Network::MOST_CENTRALS],
    events: Events,
}

impl<'a> History<'a> {
    fn new(left: &'a dyn Entries, right: &'a dyn Entries, net: Network) -> History<'a> {
        History {
            left,
            right,
            shelf: Running::on_centrals(net, Vec::new(), &[]),
            calls: Vec::new(),
            accounts: [Account::default(); Network::MOST_CENTRALS],
            events: Events::default(),
        }
    }

    /// What both implementations answer.
    fn ask(&mut self, input: &Input) -> Result<(Answer, Vec<u8>), Difference> {
        let (answer, rooms) = answer_of_both(self.left, self.right, input)?;
        self.events.coverage.add(Seen {
            entry: input.entry(),
            number: answer.number(),
        });
        Ok((answer, rooms))
    }

    // Single steps.

    /// Adds a call that nothing speaks against.
    fn add(&mut self, call: [u8; CALL_BYTES]) -> Result<(), Difference> {
        let count = self.shelf.count();
        let input = self.add_input(&call);
        let (answer, rooms) = self.ask(&input)?;
        let moved = match answer {
            Answer::Planned(planned) if planned.number == 0 => planned.moved,
            _ => return differ("a call that can be added is refused", &input),
        };
        let rows = count + 1;
        let (calls, rest) = rooms.split_at(CALL_BYTES * rows + BEYOND);
        let (settings, rest) = rest.split_at(SETTING_BYTES * rows + BEYOND);
        let after = Running {
            net: self.shelf.net,
            calls: calls[..CALL_BYTES * rows].to_vec(),
            settings: settings[..SETTING_BYTES * rows].to_vec(),
        };
        let moved_rows: Vec<usize> = rest[..MOVED_BYTES * moved]
            .chunks_exact(MOVED_BYTES)
            .map(|two| usize::from(u16::from_be_bytes([two[0], two[1]])))
            .collect();
        if answer.row() != rows {
            return differ("an add tells K + 1", &input);
        }
        if central_of(&after, count) != self.choice(&call, moved > 0) {
            return differ("a new call takes the central of the choice rule", &input);
        }
        if !changed_just(&self.shelf, &after, &moved_rows) {
            return differ(
                "the rows told are those that changed, each told once",
                &input,
            );
        }
        for &row in &moved_rows {
            self.accounts[central_of(&self.shelf, row)].moved_away += 1;
            self.accounts[central_of(&after, row)].moved_in += 1;
        }
        self.accounts[central_of(&after, count)].placed += 1;
        self.calls.push(call);
        self.shelf = after;
        self.events.adds += 1;
        self.events.moved += moved;
        self.events.longest_chain = self.events.longest_chain.max(moved);
        self.events.most_calls = self.events.most_calls.max(rows);
        self.check_table()
    }

    /// Drops a row that is there.
    fn drop(&mut self, row: usize) -> Result<(), Difference> {
        let input = self.drop_input(row);
        let (answer, rooms) = self.ask(&input)?;
        let left = self.shelf.count() - 1;
        if (answer.number(), answer.row()) != (0, left) {
            return differ("a drop of a row that is there tells 0 and K - 1", &input);
        }
        let (calls, settings) = rooms.split_at(CALL_BYTES * left + BEYOND);
        self.accounts[central_of(&self.shelf, row)].dropped += 1;
        self.calls.remove(row);
        self.shelf.calls = calls[..CALL_BYTES * left].to_vec();
        self.shelf.settings = settings[..SETTING_BYTES * left].to_vec();
        self.events.drops += 1;
        self.check_table()
    }

    /// Asks for a step that has to be refused with this number, and if it is for the new call with
    /// the row that this would have. What the implementations were lent they left as it was, so the
    /// history goes on from where it stood.
    fn refused(&mut self, input: &Input, number: usize) -> Result<(), Difference> {
        let (answer, _) = self.ask(input)?;
        self.events.refused += 1;
        let row = if is_sought_in_rows(number) {
            self.shelf.count()
        } else {
            0
        };
        if (answer.number(), answer.row()) == (number, row) {
            Ok(())
        } else {
            differ(&format!("{} with row {} is owed", number, row), input)
        }
    }

    // What the history says of its table.

    fn check_table(&mut self) -> Result<(), Difference> {
        let count = self.shelf.count();
        let input = Input::Accept {
            net: self.shelf.net,
            calls: self.shelf.calls.clone(),
            settings: self.shelf.settings.clone(),
        };
        let (answer, _) = self.ask(&input)?;
        if (answer.number(), answer.row()) != (0, count) {
            return differ("what was written is accepted", &input);
        }
        if self.shelf.calls != self.calls.concat() {
            return differ("the table is the calls added and not dropped", &input);
        }
        if !lawful_by_marks(self.shelf.net, &self.shelf.calls, &self.shelf.settings) {
            return differ("the settings are lawful", &input);
        }
        let mut on_centrals = [0; Network::MOST_CENTRALS];
        for row in 0..count {
            on_centrals[central_of(&self.shelf, row)] += 1;
        }
        let is_accounted = self
            .accounts
            .iter()
            .zip(on_centrals)
            .all(|(account, on_it)| {
                account.placed + account.moved_in == on_it + account.moved_away + account.dropped
            });
        if !is_accounted {
            return differ("the calls on each central are those of the history", &input);
        }
        Ok(())
    }

    /// The central that a new call takes: the lowest that is free at both of its modules, or where
    /// rows are moved for it, since there is none, the lowest that was free at its input module.
    /// The central that there isn't where rows are moved without need, or none although there is.
    fn choice(&self, call: &[u8], is_moved_for: bool) -> usize {
        let mut common = vec![true; self.shelf.net.m];
        let mut at_input = common.clone();
        for (row, other) in self.shelf.calls.chunks_exact(CALL_BYTES).enumerate() {
            let central = central_of(&self.shelf, row);
            at_input[central] &= other[0] != call[0];
            common[central] &= other[0] != call[0] && other[2] != call[2];
        }
        let lowest = |free: &[bool]| free.iter().position(|&is_free| is_free);
        match (lowest(&common), is_moved_for) {
            (Some(central), false) => central,
            (None, true) => lowest(&at_input).unwrap_or(self.shelf.net.m),
            _ => self.shelf.net.m,
        }
    }

    // Inputs of single steps.

    /// The input that adds a call, with room for all and some bytes more.
    fn add_input(&self, call: &[u8]) -> Input {
        let rows = self.shelf.count() + 1;
        Input::Add {
            net: self.shelf.net,
            calls: self.shelf.calls.clone(),
            settings: self.shelf.settings.clone(),
            call: call.to_vec(),
            calls_after: filled(CALL_BYTES * rows + BEYOND),
            settings_after: filled(SETTING_BYTES * rows + BEYOND),
            moved_rows: filled(MOVED_BYTES * (rows - 1) + BEYOND),
        }
    }

    /// The input that drops a row, with room for what is left and some bytes more.
    fn drop_input(&self, row: usize) -> Input {
        let left = self.shelf.count().saturating_sub(1);
        Input::Drop {
            net: self.shelf.net,
            calls: self.shelf.calls.clone(),
            settings: self.shelf.settings.clone(),
            row,
            calls_after: filled(CALL_BYTES * left + BEYOND),
            settings_after: filled(SETTING_BYTES * left + BEYOND),
        }
    }

    // Drawn steps.

    /// A call that can be added, if there is one.
    fn draw_call(&self, random: &mut Random) -> Option<[u8; CALL_BYTES]> {
        let [inlets, outlets] = [0, 2].map(|side| self.shelf.free_ends(side));
        if inlets.is_empty() || outlets.is_empty() || self.shelf.count() == Network::MOST_ROWS {
            return None;
        }
        let [module, channel] = random.pick(&inlets);
        let [output_module, output_channel] = random.pick(&outlets);
        Some([module, channel, output_module, output_channel])
    }

    /// Drops the first row, the last, or any; none of an empty table.
    fn drop_drawn(&mut self, random: &mut Random) -> Result<(), Difference> {
        let count = self.shelf.count();
        if count == 0 {
            return Ok(());
        }
        let any = random.below(count);
        self.drop(random.pick(&[0, count - 1, any, any]))
    }

    /// Now and then something aside: a call dropped and added again, or a step that is refused.
    fn draw_aside(&mut self, random: &mut Random) -> Result<(), Difference> {
        match random.below(8) {
            0 => self.drop_and_add_again(random),
            1 => self.add_refused(random),
            2 => self.drop_refused(random),
            _ => Ok(()),
        }
    }

    /// Drops a call and adds it again, often with the lowest common free central at its modules the
    /// one that it was on.
    fn drop_and_add_again(&mut self, random: &mut Random) -> Result<(), Difference> {
        if self.shelf.count() == 0 {
            return Ok(());
        }
        let row = random.below(self.shelf.count());
        let call = self.calls[row];
        let central = central_of(&self.shelf, row);
        self.drop(row)?;
        let is_lowest = self.choice(&call, false) == central;
        self.add(call)?;
        let last = self.shelf.count() - 1;
        if is_lowest && central_of(&self.shelf, last) == central {
            self.events.taken_again += 1;
        }
        Ok(())
    }

    /// An add that is refused: without a call, with a room too short, or with a call that has a
    /// module outside, the ends of another call, or one module full.
    fn add_refused(&mut self, random: &mut Random) -> Result<(), Difference> {
        let count = self.shelf.count();
        if count == Network::MOST_ROWS {
            return self.refused(&self.add_input(&[0, 0, 0, 0]), 3);
        }
        let outside = [self.shelf.net.r as u8, 0, 0, 0];
        match random.below(5) {
            0 => self.refused(&self.add_input(&[]), 2),
            1 => self.refused(&with_short_room(random, self.add_input(&outside)), 4),
            2 => self.refused(&self.add_input(&outside), 5),
            3 if count > 0 => {
                let used = self.calls[random.below(count)];
                self.refused(&self.add_input(&used), 6)
            }
            _ => self.add_at_full(random),
        }
    }

    /// An add at an input module that is full, where there is one with a channel left, and an outlet.
    fn add_at_full(&mut self, random: &mut Random) -> Result<(), Difference> {
        let inlets = self.shelf.ends_at_full(0);
        let outlets = self.shelf.free_ends(2);
        if inlets.is_empty() || outlets.is_empty() {
            return Ok(());
        }
        let call = [random.pick(&inlets), random.pick(&outlets)].concat();
        self.refused(&self.add_input(&call), 8)
    }

    /// A drop that is refused: of a row that isn't there, or with a room too short.
    fn drop_refused(&mut self, random: &mut Random) -> Result<(), Difference> {
        let count = self.shelf.count();
        if count < 2 || random.once_in(2) {
            let row = random.pick(&[count, (1 << 32) + count / 2, usize::MAX]);
            self.refused(&self.drop_input(row), 17)
        } else {
            let input = self.drop_input(random.below(count));
            self.refused(&with_short_room(random, input), 4)
        }
    }
}

/// How many bytes of a room are beyond what is needed.
const BEYOND: usize = 3;

/// The input with one of its rooms a byte too short, or without bytes.
fn with_short_room(random: &mut Random, mut input: Input) -> Input {
    let mut rooms: Vec<&mut Vec<u8>> = match &mut input {
        Input::Add {
            calls_after,
            settings_after,
            moved_rows,
            ..
        } => vec![calls_after, settings_after, moved_rows],
        Input::Drop {
            calls_after,
            settings_after,
            ..
        } => vec![calls_after, settings_after],
        _ => Vec::new(),
    };
    // The third room of an empty table needs no bytes.
    rooms.retain(|room| room.len() > BEYOND);
    if !rooms.is_empty() {
        let room = random.below(rooms.len());
        let short = rooms[room].len() - BEYOND - 1;
        rooms[room].truncate(random.pick(&[0, short]));
    }
    input
}

fn central_of(shelf: &Running, row: usize) -> usize {
    usize::from(shelf.settings[SETTING_BYTES * row + 1])
}

/// Whether just these rows, each told once, have other settings than before.
fn changed_just(before: &Running, after: &Running, rows: &[usize]) -> bool {
    let mut changed: Vec<usize> = before
        .settings
        .chunks_exact(SETTING_BYTES)
        .zip(after.settings.chunks_exact(SETTING_BYTES))
        .enumerate()
        .filter(|(_, (before, after))| before != after)
        .map(|(row, _)| row)
        .collect();
    let mut told = rows.to_vec();
    changed.sort_unstable();
    told.sort_unstable();
    changed == told
}

fn differ<T>(what: &str, input: &Input) -> Result<T, Difference> {
    Err(Difference::new(format!("history: {}", what), input))
}
