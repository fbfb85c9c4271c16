//! Call tables made so that chains are long: paths of calls on two centrals in turn, and ladders,
//! which join shorter paths to a longer one. And threads: calls on their centrals, placed so that the
//! chain of one more call has the length that is asked for. That the chains are so long follows from
//! the choice rule of document 01; nothing here asks a planner.

use crate::Network;

/// Calls by pairs of an input module and an output module; a call takes the next channel of each,
/// also where a module has no further channel.
pub fn calls_of_pairs(pairs: &[(usize, usize)]) -> Vec<u8> {
    let mut at_inputs = [0u8; 256];
    let mut at_outputs = [0u8; 256];
    let mut calls = Vec::new();
    for &(input_module, output_module) in pairs {
        calls.extend([
            input_module as u8,
            at_inputs[input_module],
            output_module as u8,
            at_outputs[output_module],
        ]);
        at_inputs[input_module] += 1;
        at_outputs[output_module] += 1;
    }
    calls
}

/// A ladder with two calls at each module, where the number of modules is 1 more than a multiple of
/// 3: a path of calls on two centrals in turn, to whose end at an output module each step joins a
/// shorter path. The joining call finds the two ends without a common free central, so the chain
/// runs over the whole path built before it.
pub fn ladder(modules: usize) -> Vec<(usize, usize)> {
    let mut pairs = vec![(0, 0)];
    let mut end = 0;
    let mut next = 1;
    while next + 3 <= modules {
        // The end is on the lower central: a path of three calls, of which the middle one is on the
        // lower.
        pairs.extend([(next, next), (next + 1, next), (next, next + 1)]);
        pairs.push((next + 1, end));
        // Now the end is on the upper central: a single call, on the lower.
        pairs.push((next + 2, next + 2));
        pairs.push((next + 2, next + 1));
        end = next + 2;
        next += 3;
    }
    // The path is closed to a ring, so that every module has two calls.
    pairs.push((0, end));
    pairs
}

/// A path of calls to and fro, on two centrals in turn, from output module 0 over all but two input
/// modules, and then a call to output module 0 from an input module that has its one call on the
/// upper central: one chain over the path.
pub fn path(modules: usize) -> Vec<(usize, usize)> {
    let last = modules - 1;
    let mut pairs = Vec::new();
    for module in 0..modules - 2 {
        pairs.push((module, module));
        pairs.push((module, module + 1));
    }
    pairs.extend([(last - 1, last), (last, last)]);
    pairs.push((last, 0));
    pairs
}

/// So many rounds with one call at each module, which take the lowest centrals one after the other,
/// and then a ladder, which has the next two for itself if there are no others. The modules are
/// renamed by the orders given.
pub fn rounds_and_ladder(rounds: usize, inputs: &[usize], outputs: &[usize]) -> Vec<u8> {
    let modules = inputs.len();
    let mut pairs = Vec::new();
    for round in 0..rounds {
        pairs.extend((0..modules).map(|module| (module, (module + round) % modules)));
    }
    pairs.extend(ladder(modules));
    let renamed: Vec<(usize, usize)> = pairs
        .iter()
        .map(|&(input, output)| (inputs[input], outputs[output]))
        .collect();
    calls_of_pairs(&renamed)
}

/// The largest network with as many centrals as channels: a full table has no central to spare.
pub const LARGEST_TIGHT: Network = Network::of_sizes(16, 16, 64);

/// 1,024 calls of it: fourteen rounds of 64 that fill the lower centrals, then a ladder on the upper
/// two. The rows of its chains stand at the end of the table.
pub fn largest_ladder() -> Vec<u8> {
    let modules: Vec<usize> = (0..64).collect();
    rounds_and_ladder(14, &modules, &modules)
}

/// A call on a central: its input module, its output module, the central.
pub type Placed = (usize, usize, usize);

/// So many calls on a and b in turn, one at least, from output module 0 to and fro, and one more,
/// on b, at the input module of `thread_pair`. With no other centrals, a call between these two
/// modules finds only a free at the one and only b at the other, and its chain is the thread, in
/// the order in which it stands here.
pub fn thread(length: usize, a: usize, b: usize) -> Vec<Placed> {
    let mut placed: Vec<Placed> = (0..length)
        .map(|place| {
            let central = if place % 2 == 0 { a } else { b };
            (place / 2, (place + 1) / 2, central)
        })
        .collect();
    let (input, _) = thread_pair(length);
    placed.push((input, length / 2 + 1, b));
    placed
}

/// The input module and the output module of the call whose chain is the thread.
pub fn thread_pair(length: usize) -> (usize, usize) {
    ((length + 1) / 2, 0)
}

/// How many modules a thread takes on either side, with the one call more.
pub fn thread_modules(length: usize) -> usize {
    length / 2 + 2
}

/// The longest thread of the most modules; and no chain can be longer. A chain meets no module twice.
/// It comes to input modules by calls on a, so never to the new call's, where a is free. That module
/// has a call on b, since otherwise b would be free at both ends; and the output module of this call,
/// to which a chain could come on b by this call alone, is never met either. So a chain meets at most
/// all modules but one of each side, and it has one call fewer than it meets modules.
pub const LONGEST_THREAD: usize = 2 * Network::MOST_MODULES - 3;

/// The largest network with one central more than channels. With no more centrals than channels,
/// the last call of a full table always finds a common free central: each central but one is in use
/// at all modules.
pub const LARGEST_SPARE: Network = Network::of_sizes(16, 17, 64);

/// 1,023 calls of it, the longest thread last, on the lowest centrals: the last call that there can
/// be, that of `thread_pair`, finds free at its input module the lowest central and the last of a
/// round, and at its output module the second and the highest.
pub fn largest_thread() -> Vec<Placed> {
    let modules = Network::MOST_MODULES;
    let mut placed = Vec::new();
    for central in 2..16 {
        placed.extend((0..modules).map(|input| (input, (input + central) % modules, central)));
    }
    let (input, _) = thread_pair(LONGEST_THREAD);
    placed.retain(|&other| other != (input, (input + 15) % modules, 15));
    placed.push((input, (input + 15) % modules, 16));
    placed.push((input - 1, modules - 1, 16));
    placed.extend(thread(LONGEST_THREAD, 0, 1));
    placed
}
