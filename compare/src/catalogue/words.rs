//! Inputs for records of use that are words, one for each module, with a bit for each central or each
//! channel: the lowest bits and the highest, the modules at the ends and at the half, bits of centrals
//! that aren't there, and chains after which a word has to tell what was exchanged. The tables are
//! written out here; threads are those of `ladders.rs`. The answers that are meant stand in the tests.
//!
//! No module has more than 16 channels, so a new call finds at most 15 others at either of its
//! modules. Hence a and b are at most 15, the lowest common free central is at most 30, and with 31
//! centrals or more there always is one. Neither the planner nor an add ever chooses central 31: it
//! comes with settings of other makers. Chains need 30 centrals or fewer.

use super::builders::{accept, add_roomy, drop_roomy, network, plan_roomy};
use crate::inputs::{Input, Running};
use crate::ladders::{calls_of_pairs, thread, thread_pair, Placed};
use crate::{Network, CALL_BYTES, SETTING_BYTES};

/// The largest network. Its cycle is 64.
const LARGEST: Network = Network::of_sizes(16, 32, 64);
/// As many modules as centrals, and a cycle of 64.
const SPARE: Network = Network::of_sizes(16, 32, 32).with_cycle(64);
/// The centrals at the ends of a word and of its halves, and the last but one.
const CENTRALS: [usize; 5] = [0, 15, 16, 30, 31];
/// The modules at the ends and at the half.
const MODULES: [usize; 4] = [0, 31, 32, 63];

/// All of them.
pub fn words() -> Vec<Input> {
    [
        used_twice(),
        used_apart(),
        beyond_a_word(),
        beyond_the_centrals(),
        ends_used_twice(),
        ends_apart(),
        ends_added(),
        meetings(),
        full_modules(),
        after_chains(),
        second_chains(),
        after_chains_with_three(),
        lowest_common(),
        threads(),
        after_threads(),
        drops(),
    ]
    .concat()
}

/// The calls placed, on the next channels of their modules.
fn shelf(net: Network, placed: &[Placed]) -> Running {
    let pairs: Vec<(usize, usize)> = placed.iter().map(|placed| (placed.0, placed.1)).collect();
    let centrals: Vec<usize> = placed.iter().map(|placed| placed.2).collect();
    Running::on_centrals(net, calls_of_pairs(&pairs), &centrals)
}

/// Acceptance of the calls placed.
fn accept_placed(net: Network, placed: &[Placed]) -> Input {
    let given = shelf(net, placed);
    accept(net, &given.calls, &given.settings)
}

// Acceptance.

/// A central that row 2 uses again at the input module of row 0, by 12, and at its output module, by
/// 13; in between another central is used there. Each central at the last module, and the last
/// central at each module.
fn used_twice() -> Vec<Input> {
    let mut list = Vec::new();
    let mut use_twice = |net: Network, module: usize, central: usize, other: usize| {
        let rows = [(8, central), (9, other), (10, central)];
        list.push(accept_placed(net, &rows.map(|(at, on)| (module, at, on))));
        list.push(accept_placed(net, &rows.map(|(at, on)| (at, module, on))));
    };
    for place in 0..CENTRALS.len() {
        let other = CENTRALS[(place + 1) % CENTRALS.len()];
        use_twice(LARGEST, 63, CENTRALS[place], other);
    }
    for module in [0, 31, 32] {
        use_twice(LARGEST, module, 31, 0);
    }
    use_twice(SPARE, 31, 31, 30);
    list
}

/// Rows without a pair used twice, all accepted.
fn used_apart() -> Vec<Input> {
    let every_pair: Vec<Placed> = MODULES
        .iter()
        .flat_map(|&module| CENTRALS.map(|central| (module, module, central)))
        .collect();
    let at_one_module = |centrals: Vec<usize>| -> Input {
        let placed: Vec<Placed> = centrals.into_iter().map(|on| (63, 31, on)).collect();
        accept_placed(LARGEST, &placed)
    };
    vec![
        accept_placed(LARGEST, &every_pair),
        // Central 31 alone.
        accept_placed(LARGEST, &[(63, 63, 31)]),
        accept_placed(LARGEST, &[(31, 32, 31)]),
        // Rows that differ in the modules alone: neighbours, and half of all apart.
        accept_placed(LARGEST, &[(0, 0, 31), (1, 1, 31)]),
        accept_placed(LARGEST, &[(31, 31, 31), (32, 32, 31)]),
        accept_placed(LARGEST, &[(0, 0, 0), (32, 32, 0)]),
        accept_placed(LARGEST, &[(31, 31, 31), (63, 63, 31)]),
        // The last bit of a word, and the first of the next.
        accept_placed(LARGEST, &[(0, 0, 31), (1, 1, 0)]),
        // Rows that differ in the central alone.
        accept_placed(LARGEST, &[(63, 63, 0), (63, 63, 31)]),
        accept_placed(LARGEST, &[(0, 0, 15), (0, 0, 31)]),
        accept_placed(LARGEST, &[(32, 31, 31), (32, 31, 30)]),
        accept_placed(SPARE, &[(31, 31, 31), (31, 31, 0)]),
        // As many centrals as a module can have: the upper half of the word, every second bit, and
        // the others.
        at_one_module((16..32).collect()),
        at_one_module((0..32).step_by(2).collect()),
        at_one_module((1..32).step_by(2).rev().collect()),
    ]
}

/// Centrals for which a word has no bit, by 9. A distance cut to 5 bits would find the bit of the row
/// before.
fn beyond_a_word() -> Vec<Input> {
    vec![
        accept_placed(LARGEST, &[(31, 32, 32)]),
        accept_placed(LARGEST, &[(63, 63, 0), (63, 63, 32)]),
        accept_placed(LARGEST, &[(0, 0, 31), (0, 0, 63)]),
        accept_placed(LARGEST, &[(32, 31, 0), (32, 31, 64)]),
    ]
}

/// Fewer centrals than a word has bits: the highest central, and in row 1 the one beyond it, by 9.
fn beyond_the_centrals() -> Vec<Input> {
    [31, 30, 17, 16, 2, 1]
        .map(|m| accept_placed(network(16, m, 64), &[(63, 63, m - 1), (63, 63, m)]))
        .to_vec()
}

// Inlets and outlets.

/// An inlet that row 2 uses again, by 6, and an outlet, by 7; in between another channel of the
/// module is used.
fn ends_used_twice() -> Vec<Input> {
    let mut list = Vec::new();
    for module in [31, 32, 63] {
        for channel in [0, 15] {
            let ends = [(8, channel), (9, 15 - channel), (10, channel)];
            let inlets = ends.map(|(at, channel)| [module, channel, at, 0]);
            let outlets = ends.map(|(at, channel)| [at, 0, module, channel]);
            list.push(plan_roomy(LARGEST, &inlets.concat()));
            list.push(plan_roomy(LARGEST, &outlets.concat()));
        }
    }
    list
}

/// Ends that are not the same: the last of a module and the first of the next, the same channel of
/// neighbours, and neighbouring channels. Then one call at each of 64 modules, and all channels of
/// the modules at the half.
fn ends_apart() -> Vec<Input> {
    let apart = [
        [[31, 15], [32, 0]],
        [[62, 15], [63, 0]],
        [[31, 15], [32, 15]],
        [[63, 14], [63, 15]],
    ];
    let one_each: Vec<u8> = (0..64)
        .flat_map(|module| [module, 0, 63 - module, 0])
        .collect();
    let all_channels: Vec<u8> = (0..16)
        .flat_map(|channel| [31, channel, 32, channel, 32, channel, 31, channel])
        .collect();
    let mut list: Vec<Input> = apart
        .iter()
        .map(|ends| plan_roomy(LARGEST, &ends.map(|end| [end, end].concat()).concat()))
        .collect();
    list.push(plan_roomy(network(1, 1, 64), &one_each));
    list.push(plan_roomy(network(16, 16, 64), &all_channels));
    list
}

/// Adds from an inlet in use, by 6, to an outlet in use, by 7, and between the ends next to them.
fn ends_added() -> Vec<Input> {
    let calls = vec![31, 15, 31, 15, 63, 15, 63, 15];
    let given = Running::on_centrals(LARGEST, calls, &[31, 31]);
    vec![
        add_roomy(&given, &[63, 15, 0, 0]),
        add_roomy(&given, &[0, 0, 63, 15]),
        add_roomy(&given, &[32, 0, 32, 0]),
    ]
}

// Plans.

/// Calls of which the last finds the lowest centrals, as many as `below`, in use at its input module,
/// and the next ones, as many as `above`, at its output module. Rounds put the lowest at that input
/// module and at as many others as there are next ones; then each of the others has a call to the
/// output module.
fn meeting(below: usize, above: usize) -> Vec<u8> {
    let inputs = above + 1;
    let mut pairs = Vec::new();
    for round in 0..below {
        pairs.extend((0..inputs).map(|input| (63 - input, 31 + (input + round) % inputs)));
    }
    pairs.extend((1..inputs).map(|input| (63 - input, 63)));
    pairs.push((63, 63));
    calls_of_pairs(&pairs)
}

/// Meetings with a central to spare, which the last call takes, since there is no other below; and
/// with none, where it needs a chain, though the word has bits to spare.
fn meetings() -> Vec<Input> {
    [
        (32, [15, 15]),
        (31, [15, 15]),
        (30, [15, 15]),
        (17, [8, 8]),
        (16, [8, 8]),
        (3, [1, 1]),
        (2, [1, 1]),
    ]
    .map(|(m, [below, above])| plan_roomy(network(16, m, 64), &meeting(below, above)))
    .to_vec()
}

/// Modules with a call on every central, and one call more: elsewhere, at the input module, and at
/// the output module, which is 8 at the last row. With 16 centrals no channel is left for it.
fn full_modules() -> Vec<Input> {
    let one_more = |n: usize, m: usize, last: (usize, usize)| {
        let mut pairs = vec![(63, 63); m];
        pairs.push(last);
        plan_roomy(network(n, m, 64), &calls_of_pairs(&pairs))
    };
    vec![
        one_more(16, 15, (0, 0)),
        one_more(16, 15, (63, 0)),
        one_more(16, 15, (0, 63)),
        one_more(3, 2, (63, 0)),
        one_more(3, 2, (0, 63)),
        one_more(2, 1, (63, 63)),
    ]
}

// Plans with a chain, and calls after it.

/// The output module at which the chains below begin.
const CHAIN_START: usize = 61;
/// An input module and an output module that have no call before.
const FRESH: [usize; 2] = [63, 30];

/// Calls of a plan whose last needs a chain over the first ones, as many as `length`, which are on
/// centrals 0 and 1 in turn. Its input module has calls on all others than 0.
fn with_chain(length: usize, m: usize) -> Vec<(usize, usize)> {
    let mut pairs: Vec<(usize, usize)> = (0..length)
        .map(|place| (31 + place / 2, CHAIN_START + (place + 1) / 2))
        .collect();
    for central in 1..m {
        pairs.extend([(central + 1, central), (1, central)]);
    }
    pairs.push((1, CHAIN_START));
    pairs
}

/// A call between the last module of such a chain and another module, of two the one on the other
/// side: a chain of an odd number of calls ends at an input module.
fn at_chain_end(length: usize, others: [usize; 2]) -> (usize, usize) {
    if length % 2 == 1 {
        (31 + length / 2, others[1])
    } else {
        (others[0], CHAIN_START + length / 2)
    }
}

fn plan_pairs(m: usize, pairs: &[(usize, usize)]) -> Input {
    plan_roomy(network(3, m, 64), &calls_of_pairs(pairs))
}

/// A chain, and then a call between its last module and a fresh one: the central that was in use
/// there is free, and the other is not.
fn after_chains() -> Vec<Input> {
    (1..=4)
        .map(|length| {
            let mut pairs = with_chain(length, 2);
            pairs.push(at_chain_end(length, FRESH));
            plan_pairs(2, &pairs)
        })
        .collect()
}

/// The same with a module in the place of the fresh one at which the central that has come free is
/// in use: that takes a second chain.
fn second_chains() -> Vec<Input> {
    (1..=2)
        .map(|length| {
            let mut pairs = with_chain(length, 2);
            // Output module 10 gets a call on 0, and input module 12 one on 1.
            pairs.extend([(10, 10), (11, 11), (12, 11)]);
            pairs.push(at_chain_end(length, [12, 10]));
            plan_pairs(2, &pairs)
        })
        .collect()
}

/// A chain with a third central to spare at its modules, and then calls at its last module, at its
/// first, and at the one after that, each with a fresh module.
fn after_chains_with_three() -> Vec<Input> {
    (1..=4)
        .map(|length| {
            let mut pairs = with_chain(length, 3);
            pairs.push(at_chain_end(length, FRESH));
            pairs.extend([(62, CHAIN_START), (31, 29)]);
            plan_pairs(3, &pairs)
        })
        .collect()
}

// Adds.

/// An add of a call between input module 63 and output module 31, with centrals in use at either.
fn add_between(
    m: usize,
    at_input: impl IntoIterator<Item = usize>,
    at_output: impl IntoIterator<Item = usize>,
) -> Input {
    let mut placed: Vec<Placed> = Vec::new();
    placed.extend(at_input.into_iter().map(|central| (63, 0, central)));
    placed.extend(at_output.into_iter().map(|central| (0, 31, central)));
    let (given, call) = Running::with_new_pair(network(16, m, 64), &placed, (63, 31));
    add_roomy(&given, &call)
}

/// Adds from settings that the planner doesn't give, with the highest centrals in use and free.
fn lowest_common() -> Vec<Input> {
    let odd = (3..32).step_by(2).rev();
    let even = (2..31).step_by(2).rev();
    vec![
        // The highest central in use at one module.
        add_between(32, [31], []),
        add_between(32, [0], [31]),
        // All but two in use. Free are the two highest, 15 and 16, 15 and 31, 0 and 31, 0 and 1.
        add_between(32, 0..15, 15..30),
        add_between(32, 17..32, 0..15),
        add_between(32, 16..31, 0..15),
        add_between(32, 1..16, 16..31),
        add_between(32, odd, even),
        // All but one in use, the highest.
        add_between(31, 0..15, 15..30),
        add_between(30, 0..15, 15..29),
        add_between(17, 0..8, 8..16),
        add_between(16, 0..8, 8..15),
        add_between(2, [0], []),
        // All but one in use, 15.
        add_between(31, 16..31, 0..15),
        // All in use: a chain, and no central beyond them.
        add_between(17, 0..8, 8..17),
    ]
}

/// A call to be added whose chain is a thread on a and b, with other centrals in use at its modules
/// so that these are the lowest free ones and none is common.
struct Threaded {
    m: usize,
    a: usize,
    b: usize,
    length: usize,
    at_input: Vec<usize>,
    at_output: Vec<usize>,
}

impl Threaded {
    /// The calls placed before, the thread first, and the modules of the new call.
    fn placed(&self) -> (Vec<Placed>, (usize, usize)) {
        let (input, output) = thread_pair(self.length);
        let mut placed = thread(self.length, self.a, self.b);
        let others_at_input = self.at_input.iter().filter(|&&central| central != self.b);
        placed.extend(others_at_input.map(|&central| (input, 9, central)));
        let others_at_output = self.at_output.iter().filter(|&&central| central != self.a);
        placed.extend(others_at_output.map(|&central| (9, output, central)));
        let named = |(input, output): (usize, usize)| (31 + input, 63 - output);
        let placed = placed
            .into_iter()
            .map(|(input, output, central)| {
                let (input, output) = named((input, output));
                (input, output, central)
            })
            .collect();
        (placed, named((input, output)))
    }

    fn net(&self) -> Network {
        network(16, self.m, 64)
    }

    fn input(&self) -> Input {
        let (placed, new) = self.placed();
        let (given, call) = Running::with_new_pair(self.net(), &placed, new);
        add_roomy(&given, &call)
    }

    /// What the add is meant to leave: the thread has changed between a and b, and the new call has
    /// taken a.
    fn placed_after(&self) -> Vec<Placed> {
        let (mut placed, new) = self.placed();
        for thread in &mut placed[..self.length] {
            thread.2 = self.a + self.b - thread.2;
        }
        placed.push((new.0, new.1, self.a));
        placed
    }

    /// A second add, between the last module of the thread and one that has no calls.
    fn input_after(&self) -> Input {
        let new = if self.length % 2 == 1 {
            (31 + self.length / 2, 0)
        } else {
            (0, 63 - self.length / 2)
        };
        let (given, call) = Running::with_new_pair(self.net(), &self.placed_after(), new);
        add_roomy(&given, &call)
    }
}

/// Chains that end at an input module and at an output module, with a and b as far apart as they can
/// be, and both as high as they can be.
fn threaded() -> Vec<Threaded> {
    let mut list = Vec::new();
    for length in 1..=2 {
        let mut push =
            |m: usize, [a, b]: [usize; 2], at_input: Vec<usize>, at_output: Vec<usize>| {
                list.push(Threaded {
                    m,
                    a,
                    b,
                    length,
                    at_input,
                    at_output,
                });
            };
        let [lower, upper]: [Vec<usize>; 2] = [(0..15).collect(), (15..30).collect()];
        push(30, [15, 0], lower.clone(), upper.clone());
        push(30, [0, 15], upper, lower.clone());
        let without_14: Vec<usize> = (0..16).filter(|&central| central != 14).collect();
        push(16, [14, 15], without_14.clone(), lower.clone());
        push(16, [15, 14], lower, without_14);
    }
    list
}

fn threads() -> Vec<Input> {
    threaded().iter().map(Threaded::input).collect()
}

/// Second adds where they tell whether the exchange was made: one of a and b is 0.
fn after_threads() -> Vec<Input> {
    let chosen = |threaded: &&Threaded| threaded.a == 0 || threaded.b == 0;
    let list = threaded();
    list.iter()
        .filter(chosen)
        .map(Threaded::input_after)
        .collect()
}

// Drops.

/// Row 0 dropped, and its call added again to what is left.
fn dropped_and_added(m: usize, placed: &[Placed]) -> [Input; 2] {
    let given = shelf(network(16, m, 64), placed);
    let (call, calls) = given.calls.split_at(CALL_BYTES);
    let left = Running {
        net: given.net,
        calls: calls.to_vec(),
        settings: given.settings[SETTING_BYTES..].to_vec(),
    };
    [drop_roomy(&given, 0), add_roomy(&left, call)]
}

/// A call on the highest central dropped and added again: among calls on 30 and on 0, and where all
/// below 30 are in use at its modules, so that it gets 30, its own if there are 31.
fn drops() -> Vec<Input> {
    let crowded = |highest: usize| {
        let mut placed = vec![(63, 31, highest)];
        placed.extend((0..15).map(|central| (63, 0, central)));
        placed.extend((15..30).map(|central| (0, 31, central)));
        dropped_and_added(highest + 1, &placed)
    };
    [
        dropped_and_added(32, &[(63, 63, 31), (63, 63, 30), (63, 63, 0)]),
        crowded(31),
        crowded(30),
    ]
    .concat()
}

#[cfg(test)]
mod tests {
    use super::*;
    use crate::comparison::answer_of;
    use crate::plain::Plain;

    fn numbers(input: &Input) -> Vec<usize> {
        answer_of(&Plain, input).0.numbers()
    }

    /// The centrals that a plan or an add writes.
    fn centrals(input: &Input) -> Vec<usize> {
        let (answer, rooms) = answer_of(&Plain, input);
        assert_eq!(answer.number(), 0, "{:?}", input);
        let settings_at = match input {
            Input::Add { calls_after, .. } => calls_after.len(),
            _ => 0,
        };
        rooms[settings_at..settings_at + SETTING_BYTES * answer.row()]
            .chunks_exact(SETTING_BYTES)
            .map(|setting| usize::from(setting[1]))
            .collect()
    }

    /// The central of the last row that a plan or an add writes, and how many calls it moves.
    fn last_and_moved(input: &Input) -> (usize, usize) {
        let centrals = centrals(input);
        (centrals[centrals.len() - 1], numbers(input)[2])
    }

    #[test]
    fn settings_are_accepted_and_refused_as_meant() {
        for inputs in used_twice().chunks_exact(2) {
            assert_eq!(numbers(&inputs[0]), [12, 2]);
            assert_eq!(numbers(&inputs[1]), [13, 2]);
        }
        let accepted: Vec<Vec<usize>> = used_apart().iter().map(numbers).collect();
        let counts = [20, 1, 1, 2, 2, 2, 2, 2, 2, 2, 2, 2, 16, 16, 16];
        assert_eq!(accepted, counts.map(|count| vec![0, count]));
        let beyond: Vec<Vec<usize>> = beyond_a_word().iter().map(numbers).collect();
        assert_eq!(beyond, [[9, 0], [9, 1], [9, 1], [9, 1]]);
        for input in beyond_the_centrals() {
            assert_eq!(numbers(&input), [9, 1]);
        }
    }

    #[test]
    fn ends_are_told_apart() {
        for inputs in ends_used_twice().chunks_exact(2) {
            assert_eq!(numbers(&inputs[0]), [6, 2, 0]);
            assert_eq!(numbers(&inputs[1]), [7, 2, 0]);
        }
        let apart: Vec<Vec<usize>> = ends_apart().iter().map(centrals).collect();
        assert_eq!(apart[..4], [[0, 0], [0, 0], [0, 0], [0, 1]]);
        assert_eq!(apart[4], [0; 64]);
        let in_pairs: Vec<usize> = (0..16).flat_map(|central| [central, central]).collect();
        assert_eq!(apart[5], in_pairs);
        let added: Vec<Vec<usize>> = ends_added().iter().map(numbers).collect();
        assert_eq!(added, [[6, 2, 0], [7, 2, 0], [0, 3, 0]]);
    }

    #[test]
    fn meetings_have_the_highest_central_or_a_chain() {
        let last: Vec<(usize, usize)> = meetings().iter().map(last_and_moved).collect();
        let owed = [(30, 0), (30, 0), (15, 2), (16, 0), (8, 2), (2, 0), (1, 2)];
        assert_eq!(last, owed);
    }

    #[test]
    fn full_modules_take_no_more() {
        let inputs = full_modules();
        let first: Vec<usize> = (0..15).chain([0]).collect();
        assert_eq!(centrals(&inputs[0]), first);
        let refused: Vec<Vec<usize>> = inputs[1..].iter().map(numbers).collect();
        let rows = [15, 15, 2, 2, 1];
        assert_eq!(refused, rows.map(|row| vec![8, row, 0]));
    }

    /// After a chain an input module that it ends at has its call on 1, and an output module on 0.
    #[test]
    fn calls_after_a_chain_take_what_it_has_freed() {
        for (input, length) in after_chains().iter().zip(1..) {
            assert_eq!(last_and_moved(input), ((length + 1) % 2, length));
        }
        let second: Vec<(usize, usize)> = second_chains().iter().map(last_and_moved).collect();
        // The second chain of the other goes back over the first, and three calls further.
        assert_eq!(second, [(0, 1 + 1), (0, 2 + 5)]);
        for (input, length) in after_chains_with_three().iter().zip(1..) {
            let centrals = centrals(input);
            assert_eq!(centrals[centrals.len() - 3..], [(length + 1) % 2, 2, 2]);
            assert_eq!(numbers(input)[2], length);
        }
    }

    #[test]
    fn adds_take_the_lowest_common_central() {
        let owed = [0, 1, 30, 15, 15, 0, 0, 30, 29, 16, 15, 1, 15].map(|central| (central, 0));
        let added: Vec<(usize, usize)> = lowest_common().iter().map(last_and_moved).collect();
        assert_eq!(added[..13], owed);
        assert_eq!(added[13..], [(8, 1)]);
    }

    #[test]
    fn threads_are_exchanged() {
        for threaded in threaded() {
            let input = threaded.input();
            let owed: Vec<usize> = threaded
                .placed_after()
                .iter()
                .map(|placed| placed.2)
                .collect();
            assert_eq!(centrals(&input), owed);
            assert_eq!(numbers(&input)[2], threaded.length);
        }
        let after: Vec<(usize, usize)> = after_threads().iter().map(last_and_moved).collect();
        assert_eq!(after, [(1, 0), (0, 0), (0, 0), (1, 0)]);
    }

    #[test]
    fn dropped_calls_are_added_on_the_lowest() {
        let inputs = drops();
        let dropped: Vec<Vec<usize>> = inputs.iter().step_by(2).map(numbers).collect();
        assert_eq!(dropped, [[0, 2], [0, 30], [0, 30]]);
        let added: Vec<(usize, usize)> = inputs
            .iter()
            .skip(1)
            .step_by(2)
            .map(last_and_moved)
            .collect();
        assert_eq!(added, [(1, 0), (30, 0), (30, 0)]);
    }
}
