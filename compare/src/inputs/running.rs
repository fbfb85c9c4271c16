//! Shelves that run: calls with lawful settings, of the planner or of another maker. What these
//! makers do leaves settings lawful by itself: renamed centrals, calls through any common free
//! central, two centrals exchanged on all calls that hang together by them, rows taken out.

use super::{
    draw_dense, draw_full, draw_ladder, draw_largest, draw_overfull, draw_path, draw_small_full,
    draw_sound, draw_table_cycle, setting_of, settings_length, CallTable, Random,
};
use crate::ladders::{calls_of_pairs, thread, thread_modules, thread_pair, Placed, LONGEST_THREAD};
use crate::plain::Plain;
use crate::{Entries, Network, CALL_BYTES, SETTING_BYTES};

/// A network, calls and settings of them: lawful ones, unless a fault has been put in.
#[derive(Clone, PartialEq, Eq, Debug)]
pub struct Running {
    pub net: Network,
    pub calls: Vec<u8>,
    pub settings: Vec<u8>,
}

impl Running {
    /// K.
    pub fn count(&self) -> usize {
        self.calls.len() / CALL_BYTES
    }

    /// The calls with the settings that they need on these centrals.
    pub fn on_centrals(net: Network, calls: Vec<u8>, centrals: &[usize]) -> Running {
        let settings = calls
            .chunks_exact(CALL_BYTES)
            .zip(centrals)
            .flat_map(|(call, &central)| setting_of(net, call, central))
            .collect();
        Running {
            net,
            calls,
            settings,
        }
    }

    /// The calls placed, on the next channels of their modules, and after them the call between two
    /// modules that is to be added.
    pub fn with_new_pair(
        net: Network,
        placed: &[Placed],
        new: (usize, usize),
    ) -> (Running, Vec<u8>) {
        let mut pairs: Vec<(usize, usize)> =
            placed.iter().map(|placed| (placed.0, placed.1)).collect();
        pairs.push(new);
        let mut calls = calls_of_pairs(&pairs);
        let call = calls.split_off(CALL_BYTES * placed.len());
        let centrals: Vec<usize> = placed.iter().map(|placed| placed.2).collect();
        (Running::on_centrals(net, calls, &centrals), call)
    }

    fn centrals(&self) -> Vec<usize> {
        self.settings
            .chunks_exact(SETTING_BYTES)
            .map(|setting| usize::from(setting[1]))
            .collect()
    }

    /// The same calls with each central renamed.
    pub fn renamed(self, name: impl Fn(usize) -> usize) -> Running {
        let centrals: Vec<usize> = self.centrals().into_iter().map(name).collect();
        Running::on_centrals(self.net, self.calls, &centrals)
    }

    /// The rows for which it is said that they are kept.
    fn kept(self, is_kept: impl Fn(usize) -> bool) -> Running {
        let rows = |bytes: &[u8], length: usize| -> Vec<u8> {
            bytes
                .chunks_exact(length)
                .enumerate()
                .filter(|(row, _)| is_kept(*row))
                .flat_map(|(_, bytes)| bytes.to_vec())
                .collect()
        };
        Running {
            net: self.net,
            calls: rows(&self.calls, CALL_BYTES),
            settings: rows(&self.settings, SETTING_BYTES),
        }
    }

    /// The ends of one side that no row uses, as module and channel, at modules that can take one
    /// more call.
    pub fn free_ends(&self, side: usize) -> Vec<[u8; 2]> {
        self.unused_ends(side, |calls| calls < self.net.m)
    }

    /// The ends of one side that no row uses, at modules that have a call on every central.
    pub fn ends_at_full(&self, side: usize) -> Vec<[u8; 2]> {
        self.unused_ends(side, |calls| calls >= self.net.m)
    }

    /// The ends of one side that no row uses, at modules chosen by how many calls they have.
    fn unused_ends(&self, side: usize, is_chosen: impl Fn(usize) -> bool) -> Vec<[u8; 2]> {
        let mut at_modules = vec![0; self.net.r];
        let mut used = vec![false; self.net.r * self.net.n];
        for call in self.calls.chunks_exact(CALL_BYTES) {
            let [module, channel] = [call[side], call[side + 1]].map(usize::from);
            at_modules[module] += 1;
            used[self.net.n * module + channel] = true;
        }
        (0..self.net.r * self.net.n)
            .filter(|&end| !used[end] && is_chosen(at_modules[end / self.net.n]))
            .map(|end| [(end / self.net.n) as u8, (end % self.net.n) as u8])
            .collect()
    }
}

// Shelves of all makers.

/// Draws a shelf that runs.
pub fn draw_running(random: &mut Random) -> Running {
    let table = draw_running_table(random);
    let table = draw_table_cycle(random, table);
    let running = planned_or_guided(random, table);
    let running = match random.below(5) {
        0 => running,
        1 => draw_names(random, running),
        2 => {
            let highest = running.net.m - 1;
            running.renamed(|central| highest - central)
        }
        _ => draw_exchanges(random, running),
    };
    if random.once_in(2) {
        draw_gaps(random, running)
    } else {
        running
    }
}

/// Draws a call table without a number outside or an end used twice; most are small.
fn draw_running_table(random: &mut Random) -> CallTable {
    match random.below(100) {
        0 => draw_largest(random),
        1 | 2 => draw_full(random),
        3..=5 => draw_ladder(random),
        6 | 7 => draw_path(random),
        8..=20 => draw_overfull(random),
        21..=24 => {
            let net = Network::of_sizes(16, 16, random.between(2, 12));
            draw_dense(random, net)
        }
        25..=39 => draw_sound(random),
        _ => draw_small_full(random),
    }
}

/// The planner's settings, three times of four and where it gives some; otherwise each call in turn
/// on a drawn one of the centrals that are free at both of its modules, without the calls that find
/// none.
fn planned_or_guided(random: &mut Random, table: CallTable) -> Running {
    let mut settings = vec![0; settings_length(&table.calls)];
    let answer = Plain.plan(table.net, &table.calls, &mut settings);
    if answer.number == 0 && !random.once_in(4) {
        return Running {
            net: table.net,
            calls: table.calls,
            settings,
        };
    }
    let mut calls = Vec::new();
    let mut placed: Vec<Placed> = Vec::new();
    for call in table.calls.chunks_exact(CALL_BYTES) {
        let [input, output] = [call[0], call[2]].map(usize::from);
        let free: Vec<usize> = (0..table.net.m)
            .filter(|&central| is_free(&placed, input, output, central))
            .collect();
        if !free.is_empty() {
            placed.push((input, output, random.pick(&free)));
            calls.extend(call);
        }
    }
    let centrals: Vec<usize> = placed.iter().map(|placed| placed.2).collect();
    Running::on_centrals(table.net, calls, &centrals)
}

fn is_free(placed: &[Placed], input: usize, output: usize, central: usize) -> bool {
    !placed
        .iter()
        .any(|other| other.2 == central && (other.0 == input || other.1 == output))
}

/// The centrals renamed in a drawn way.
fn draw_names(random: &mut Random, running: Running) -> Running {
    let names = random.order(running.net.m);
    running.renamed(|central| names[central])
}

/// Two drawn centrals exchanged on all calls that hang together with a drawn one, a few times or
/// many.
fn draw_exchanges(random: &mut Random, running: Running) -> Running {
    if running.count() == 0 || running.net.m == 1 {
        return running;
    }
    let mut centrals = running.centrals();
    for _ in 0..random.pick(&[1, 2, 10, 30]) {
        let row = random.below(centrals.len());
        let one = centrals[row];
        let other = (one + random.between(1, running.net.m - 1)) % running.net.m;
        for row in hanging_together(&running.calls, &centrals, row, other) {
            centrals[row] = if centrals[row] == one { other } else { one };
        }
    }
    Running::on_centrals(running.net, running.calls, &centrals)
}

/// The rows on the central of a row or on another that are reached from it over modules that they
/// share, the row itself among them.
fn hanging_together(calls: &[u8], centrals: &[usize], row: usize, other: usize) -> Vec<usize> {
    let mut rest: Vec<usize> = (0..centrals.len())
        .filter(|&at| at != row && (centrals[at] == centrals[row] || centrals[at] == other))
        .collect();
    let module = |row: usize, side: usize| calls[CALL_BYTES * row + side];
    let mut reached = vec![row];
    let mut next = 0;
    while next < reached.len() {
        let from = reached[next];
        let shares =
            |&at: &usize| module(at, 0) == module(from, 0) || module(at, 2) == module(from, 2);
        let (sharing, others): (Vec<usize>, Vec<usize>) = rest.into_iter().partition(shares);
        reached.extend(sharing);
        rest = others;
        next += 1;
    }
    reached
}

/// One row taken out, or some.
pub fn draw_gaps(random: &mut Random, running: Running) -> Running {
    let count = running.count();
    if count == 0 {
        return running;
    }
    let most = random.pick(&[1, 1, 2, count / 4 + 1]).min(count);
    let order = random.order(count);
    running.kept(|row| !order[..most].contains(&row))
}

// Shelves with a thread.

/// Draws a shelf, and a call whose chain has a drawn length.
pub fn draw_thread(random: &mut Random) -> (Running, Vec<u8>) {
    let length = match random.below(8) {
        0 => random.between(1, LONGEST_THREAD),
        1 => LONGEST_THREAD,
        2 => random.between(1, 40),
        _ => random.between(1, 9),
    };
    let least = thread_modules(length);
    let modules = least
        + random
            .pick(&[0, 0, 1, 5])
            .min(Network::MOST_MODULES - least);
    let centrals = random.pick(&[2, 2, 2, 3, 4, 5, 8, 28]);
    let pair = draw_two_below(random, if centrals == 28 { 4 } else { centrals });
    let mut placed = thread(length, pair[0], pair[1]);
    placed.extend(draw_surroundings(random, centrals, modules, length, pair));
    random.shuffle(&mut placed);
    lay_out(random, &placed, centrals, modules, thread_pair(length))
}

/// Two numbers below the limit, which is above 1.
fn draw_two_below(random: &mut Random, limit: usize) -> [usize; 2] {
    let one = random.below(limit);
    [one, (one + random.between(1, limit - 1)) % limit]
}

/// Calls on the other centrals that leave a and b the lowest free ones at the ends of the thread,
/// with no common one: below a at the new call's input module, below b at its output module, and
/// others at one of the two. Some more calls stand elsewhere.
fn draw_surroundings(
    random: &mut Random,
    centrals: usize,
    modules: usize,
    length: usize,
    pair: [usize; 2],
) -> Vec<Placed> {
    let [a, b] = pair;
    let (input, output) = thread_pair(length);
    let mut placed: Vec<Placed> = Vec::new();
    for central in (0..centrals).filter(|&central| central != a && central != b) {
        let elsewhere = 1 + random.below(modules - 1);
        let to_input = central < a || central % 2 == 0;
        let to_output = central < b || !to_input;
        if to_input {
            placed.push((input, (output + elsewhere) % modules, central));
        }
        if to_output {
            placed.push(((input + elsewhere) % modules, output, central));
        }
    }
    for _ in 0..random.pick(&[0, 0, 3, 20]) {
        let [from, to] = [input, output].map(|end| (end + 1 + random.below(modules - 1)) % modules);
        let central = random.below(centrals);
        let is_of_thread = central == a || central == b;
        let is_at_most = |end: fn(&Placed) -> usize, module: usize| {
            placed.iter().filter(|placed| end(placed) == module).count() < 10
        };
        if !is_of_thread
            && is_free(&placed, from, to, central)
            && is_at_most(|placed| placed.0, from)
            && is_at_most(|placed| placed.1, to)
        {
            placed.push((from, to, central));
        }
    }
    placed
}

/// The calls placed, with modules renamed and channels given one after the other, and the new call.
fn lay_out(
    random: &mut Random,
    placed: &[Placed],
    centrals: usize,
    modules: usize,
    new: (usize, usize),
) -> (Running, Vec<u8>) {
    let inputs = random.order(modules);
    let outputs = random.order(modules);
    let renamed: Vec<Placed> = placed
        .iter()
        .map(|&(input, output, central)| (inputs[input], outputs[output], central))
        .collect();
    let new = (inputs[new.0], outputs[new.1]);
    let table = CallTable {
        net: Network::of_sizes(channels_for(&renamed, new), centrals, modules),
        calls: Vec::new(),
    };
    let net = draw_table_cycle(random, table).net;
    Running::with_new_pair(net, &renamed, new)
}

/// The most calls at one module, with the new one.
fn channels_for(placed: &[Placed], new: (usize, usize)) -> usize {
    let mut at_inputs = [0; Network::MOST_MODULES];
    let mut at_outputs = [0; Network::MOST_MODULES];
    let pairs = placed.iter().map(|placed| (placed.0, placed.1));
    for (input, output) in pairs.chain([new]) {
        at_inputs[input] += 1;
        at_outputs[output] += 1;
    }
    at_inputs.into_iter().chain(at_outputs).fold(0, usize::max)
}
