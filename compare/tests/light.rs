//! Acceptance, reader and planner of the plain implementation against the light: settings are
//! accepted, and planned files read, exactly when they are lawful, and lawful settings are planned
//! exactly where no module has more calls than there are centrals.

use compare::inputs::{call_of, drawn_of_files, drawn_of_tables, settings_length, Input};
use compare::ladders::calls_of_pairs;
use compare::light::{follow, lawful, lawful_by_marks, shared, Link, Path};
use compare::plain::Plain;
use compare::{Entries, Network, CALL_BYTES, SETTING_BYTES};

/// Fewer inputs where the code is compiled without speed.
const DRAWN: usize = if cfg!(debug_assertions) {
    3_000
} else {
    60_000
};

/// The highest r tried with two rows of settings, and with three.
const HIGHEST_R: usize = if cfg!(debug_assertions) { 2 } else { 3 };

// Everything small.

/// All lists of so many numbers below the limit.
fn lists(length: usize, limit: usize) -> Vec<Vec<usize>> {
    let mut lists = vec![Vec::new()];
    for _ in 0..length {
        lists = lists
            .iter()
            .flat_map(|list| (0..limit).map(move |number| [&list[..], &[number]].concat()))
            .collect();
    }
    lists
}

/// All settings of so many rows with every number below the limit.
fn all_settings(rows: usize, limit: usize) -> Vec<Vec<u8>> {
    let bytes_of = |list: &Vec<usize>| list.iter().map(|&number| number as u8).collect();
    lists(SETTING_BYTES * rows, limit)
        .iter()
        .map(bytes_of)
        .collect()
}

/// All networks up to these sizes, by three sizes alone.
fn networks(n: usize, m: usize, r: usize) -> Vec<Network> {
    let mut networks = Vec::new();
    for n in 1..=n {
        for m in 1..=m {
            for r in 1..=r {
                networks.push(Network::of_sizes(n, m, r));
            }
        }
    }
    networks
}

/// The networks, each also with every cycle above its own up to the most.
fn with_spare_ports(networks: Vec<Network>, most: usize) -> Vec<Network> {
    networks
        .into_iter()
        .flat_map(|net| {
            let least = net.cycle();
            (least..=most.max(least)).map(move |cycle| net.with_cycle(cycle))
        })
        .collect()
}

/// All calls of a network.
fn all_calls(net: Network) -> Vec<[u8; CALL_BYTES]> {
    let mut calls = Vec::new();
    for inlet in 0..net.n * net.r {
        for outlet in 0..net.n * net.r {
            calls.push(call_of(net, inlet, outlet));
        }
    }
    calls
}

/// All tables of two rows that are in order.
fn tables_of_two(net: Network) -> Vec<Vec<u8>> {
    let calls = all_calls(net);
    let mut tables = Vec::new();
    for one in &calls {
        for other in &calls {
            if one[..2] != other[..2] && one[2..] != other[2..] {
                tables.push([*one, *other].concat());
            }
        }
    }
    tables
}

/// Acceptance says 0 of a table in order exactly when the settings are lawful. Answers whether.
fn assert_judged(net: Network, calls: &[u8], settings: &[u8]) -> bool {
    let is_lawful = lawful(net, calls, settings);
    assert_eq!(lawful_by_marks(net, calls, settings), is_lawful);
    let answer = Plain.accept(net, calls, settings);
    assert_eq!(
        answer.number == 0,
        is_lawful,
        "{:?} {:?} {:?}",
        net,
        calls,
        settings
    );
    is_lawful
}

/// All networks up to 2-4-4, with cycles up to 4 and those up to 1-3-3 up to 6, each call alone, all
/// settings with numbers up to 8: past each cycle, and past two cycles of 4.
#[test]
fn one_row_is_accepted_when_its_light_arrives() {
    let settings = all_settings(1, 9);
    let mut accepted = 0;
    let few_cycles = with_spare_ports(networks(2, 4, 4), 4);
    let more_cycles = with_spare_ports(networks(1, 3, 3), 6);
    for net in [few_cycles, more_cycles].concat() {
        for calls in all_calls(net) {
            let lawful_here = settings
                .iter()
                .filter(|row| assert_judged(net, &calls, row))
                .count();
            // One for each central, and no more.
            assert_eq!(lawful_here, net.m);
            accepted += lawful_here;
        }
    }
    assert!(accepted > 0);
}

/// How many rows were lost at each grating, and how many of them would have gone on to the port that
/// they name if that grating took its remainder by the larger of r and m.
#[derive(Default, Debug)]
struct Lost {
    rows: [usize; 2],
    misled: [usize; 2],
}

impl Lost {
    /// Counts a row, if it is lost at the first grating, which acceptance refuses by 10, or at the
    /// second from the central that it names, which it refuses by 11. The numbers of the settings are
    /// below their limits.
    fn count(&mut self, net: Network, call: &[u8], setting: &[u8]) {
        let [input, output] = [call[0], call[2]].map(usize::from);
        let [x, central, y] = [setting[0], setting[1], setting[2]].map(usize::from);
        let path = follow(net, call, setting);
        let (grating, wavelength, needed) = match (path[1], path[3]) {
            (None, _) => (0, x, input + central),
            (Some(reached), None) if reached.port == central => (1, y, central + output),
            _ => return,
        };
        let answer = Plain.accept(net, call, setting);
        assert_eq!((answer.number, answer.row), (10 + grating, 0));
        let least = net.least_cycle();
        self.rows[grating] += 1;
        self.misled[grating] += usize::from(wavelength % least == needed % least);
    }
}

/// Networks up to 1-3-3 with cycles up to 5, each call alone, all settings with wavelengths below W
/// and centrals below m.
#[test]
fn lost_light_is_refused_at_both_gratings() {
    let mut lost = Lost::default();
    for net in with_spare_ports(networks(1, 3, 3), 5) {
        let settings = all_settings(1, net.cycle());
        for call in all_calls(net) {
            for setting in settings.iter().filter(|row| usize::from(row[1]) < net.m) {
                lost.count(net, &call, setting);
            }
        }
    }
    assert!(lost.rows.iter().all(|&rows| rows > 300), "{:?}", lost);
    assert!(lost.misled.iter().all(|&rows| rows > 100), "{:?}", lost);
}

/// Networks up to 2-3-2, or 2-3-3 where that is fast, with cycles up to 3, every table of two rows in
/// order, all settings with numbers up to W.
#[test]
fn two_rows_are_accepted_when_their_light_stays_apart() {
    for net in with_spare_ports(networks(2, 3, HIGHEST_R), 3) {
        let settings = all_settings(2, net.cycle() + 1);
        for calls in tables_of_two(net) {
            let accepted = settings
                .iter()
                .filter(|rows| assert_judged(net, &calls, rows))
                .count();
            // Each row has its choice of m centrals, but another one where a module is shared.
            let is_shared = calls[0] == calls[4] || calls[2] == calls[6];
            let choices = if is_shared { net.m - 1 } else { net.m };
            assert_eq!(accepted, net.m * choices);
        }
    }
}

/// No calls with no settings are lawful. A row too many or too few is not.
#[test]
fn settings_have_a_row_for_each_call() {
    let net = Network::of_sizes(2, 2, 2);
    let calls = [0, 0, 0, 0, 1, 0, 1, 0];
    let settings = [0, 0, 0, 1, 0, 1, 0, 0, 0];
    for rows in 0..=2 {
        for length in 0..=settings.len() {
            let is_lawful = assert_judged(net, &calls[..4 * rows], &settings[..length]);
            assert_eq!(is_lawful, length == 3 * rows);
        }
    }
}

// Which links are shared.

/// The sets of kinds of link that two rows share, over all networks of up to four centrals and four
/// modules with cycles up to 4, with α below what is given for the network, and x and y below two
/// cycles.
fn shared_sets(inputs_below: fn(Network) -> usize) -> Vec<Vec<Link>> {
    let mut sets = Vec::new();
    for net in with_spare_ports(networks(1, 4, 4), 4) {
        let mut paths = Vec::new();
        for input in 0..inputs_below(net) {
            for xy in lists(2, 2 * net.cycle()) {
                let call = [input as u8, 0, 0, 0];
                paths.push(follow(net, &call, &[xy[0] as u8, 0, xy[1] as u8]));
            }
        }
        for (row, path) in paths.iter().enumerate() {
            for earlier in &paths[..=row] {
                let links = shared(earlier, path);
                if !sets.contains(&links) {
                    sets.push(links);
                }
            }
        }
    }
    sets
}

fn assert_same_sets(found: &[Vec<Link>], owed: &[&[Link]]) {
    assert_eq!(found.len(), owed.len());
    assert!(owed.iter().all(|&set| found.contains(&set.to_vec())));
}

/// Links are shared from a beginning of the first two kinds, and of the last two: the second of
/// either is missing only where the light was lost between them. Where α can be outside, light can
/// meet at a central for the first time. At an output module it never does.
#[test]
fn light_that_meets_has_met_before() {
    use Link::{
        CentralToSecondGrating as Third, FirstGratingToCentral as Second,
        InputToFirstGrating as First, SecondGratingToOutput as Fourth,
    };
    let inside: [&[Link]; 7] = [
        &[],
        &[First],
        &[First, Second],
        &[Third],
        &[Third, Fourth],
        &[First, Second, Third],
        &[First, Second, Third, Fourth],
    ];
    assert_same_sets(&shared_sets(|net| net.r), &inside);
    let only_outside: [&[Link]; 3] = [&[Second], &[Second, Third], &[Second, Third, Fourth]];
    let all = [&inside[..], &only_outside].concat();
    assert_same_sets(&shared_sets(|net| 2 * net.cycle()), &all);
}

// Drawn.

/// Whether light of some row ends at a spare port of either grating: at the first before it reaches a
/// central, at the second before it reaches an output module.
fn ends_at_spare_port(net: Network, calls: &[u8], settings: &[u8]) -> [bool; 2] {
    let rows = calls
        .chunks_exact(CALL_BYTES)
        .zip(settings.chunks_exact(SETTING_BYTES));
    let paths: Vec<Path> = rows
        .map(|(call, setting)| follow(net, call, setting))
        .collect();
    let is_spare = net.cycle() > net.least_cycle();
    [
        is_spare && paths.iter().any(|path| path[1].is_none()),
        is_spare
            && paths
                .iter()
                .any(|path| path[2].is_some() && path[3].is_none()),
    ]
}

#[test]
fn drawn_settings_are_accepted_when_they_are_lawful() {
    let mut accepted = 0;
    let mut with_spare_ports = 0;
    let mut refused = 0;
    let mut lost = [0; 2];
    for input in drawn_of_tables(11).take(DRAWN) {
        if let Input::Accept {
            net,
            calls,
            settings,
        } = input
        {
            match Plain.accept(net, &calls, &settings).number {
                0 => {
                    assert!(lawful(net, &calls, &settings));
                    assert!(lawful_by_marks(net, &calls, &settings));
                    accepted += 1;
                    with_spare_ports += usize::from(net.cycle() > net.least_cycle());
                }
                9..=13 => {
                    assert!(!lawful(net, &calls, &settings));
                    assert!(!lawful_by_marks(net, &calls, &settings));
                    refused += 1;
                    let ends = ends_at_spare_port(net, &calls, &settings);
                    for (count, is_lost) in lost.iter_mut().zip(ends) {
                        *count += usize::from(is_lost);
                    }
                }
                _ => {}
            }
        }
    }
    assert!(accepted > DRAWN / 50 && refused > DRAWN / 50);
    assert!(with_spare_ports > DRAWN / 100, "{}", with_spare_ports);
    assert!(lost.iter().all(|&count| count > DRAWN / 200), "{:?}", lost);
}

/// The settings of a file of kind 2 or 4 are judged by the light with the cycle that the file tells.
#[test]
fn planned_files_are_read_when_their_settings_are_lawful() {
    let mut read = [0; 2];
    let mut with_spare_ports = 0;
    let mut refused = 0;
    for input in drawn_of_files(13).take(DRAWN) {
        let file = match input {
            Input::Read { file } | Input::ConvertToOld { file, .. } => file,
            _ => continue,
        };
        let told = Plain.read(&file);
        match told.number {
            0 if told.kind == 2 || told.kind == 4 => {
                let net = Network {
                    n: told.n,
                    m: told.m,
                    r: told.r,
                    w: told.w,
                };
                let calls = &file[told.calls_at..told.settings_at];
                let settings = &file[told.settings_at..][..SETTING_BYTES * told.count];
                assert!(lawful_by_marks(net, calls, settings));
                read[told.kind / 2 - 1] += 1;
                with_spare_ports += usize::from(net.cycle() > net.least_cycle());
            }
            9..=13 => {
                let (net, calls, settings) = planned_parts(&file);
                assert!(!lawful_by_marks(net, calls, settings));
                refused += 1;
            }
            _ => {}
        }
    }
    assert!(read.iter().all(|&count| count > DRAWN / 200), "{:?}", read);
    assert!(with_spare_ports > DRAWN / 100, "{}", with_spare_ports);
    assert!(refused > DRAWN / 50, "{}", refused);
}

/// The network and the rows of a planned file whose trailer and distances are in order, by its bytes
/// from the end.
fn planned_parts(file: &[u8]) -> (Network, &[u8], &[u8]) {
    let (front, twelve) = file.split_at(file.len() - 12);
    let [n, m, r] = [twelve[0], twelve[1], twelve[2]].map(usize::from);
    let of_sizes = Network::of_sizes(n, m, r);
    let (body, net) = match twelve[3] {
        4 => {
            let (body, two) = front.split_at(front.len() - 2);
            (body, of_sizes.with_cycle(usize::from(two[0])))
        }
        _ => (front, of_sizes),
    };
    let count = usize::from(u16::from_be_bytes([twelve[4], twelve[5]]));
    let rows = &body[body.len() - (CALL_BYTES + SETTING_BYTES) * count..];
    let (calls, settings) = rows.split_at(CALL_BYTES * count);
    (net, calls, settings)
}

// Overfull modules.

/// Whether some module of either side has more calls than there are centrals.
fn is_overfull(net: Network, calls: &[u8]) -> bool {
    (0..net.r).any(|module| {
        [0, 2].iter().any(|&side| {
            calls
                .chunks_exact(CALL_BYTES)
                .filter(|call| usize::from(call[side]) == module)
                .count()
                > net.m
        })
    })
}

#[test]
fn planned_settings_are_lawful_unless_a_module_is_overfull() {
    let mut planned = 0;
    let mut with_spare_ports = 0;
    for input in drawn_of_tables(12).take(DRAWN) {
        if let Input::Plan { net, calls, .. } = input {
            let mut settings = vec![0; settings_length(&calls)];
            match Plain.plan(net, &calls, &mut settings).number {
                0 => {
                    assert!(!is_overfull(net, &calls));
                    assert_eq!(Plain.accept(net, &calls, &settings).number, 0);
                    assert!(lawful(net, &calls, &settings));
                    planned += 1;
                    with_spare_ports += usize::from(net.cycle() > net.least_cycle());
                }
                8 => assert!(is_overfull(net, &calls)),
                _ => {}
            }
        }
    }
    assert!(planned > DRAWN / 10 && with_spare_ports > DRAWN / 20);
}

/// All tables of so many calls, up to the channels, which come one after the other at each module.
fn tables_by_modules(rows: usize, modules: usize) -> Vec<Vec<u8>> {
    lists(2 * rows, modules)
        .iter()
        .map(|list| {
            let pairs: Vec<(usize, usize)> =
                list.chunks_exact(2).map(|two| (two[0], two[1])).collect();
            calls_of_pairs(&pairs)
        })
        .collect()
}

/// Where some module has m + 1 calls no settings are lawful, and elsewhere the planner's are: all
/// tables of m + 1 calls, and all settings with numbers below W. A row with another number is
/// unlawful by itself.
fn assert_overfull_or_planned(net: Network) {
    let count = net.m + 1;
    let settings = all_settings(count, net.cycle());
    let mut overfull = 0;
    for calls in tables_by_modules(count, net.r) {
        let mut planned = vec![0; SETTING_BYTES * count];
        let answer = Plain.plan(net, &calls, &mut planned);
        if is_overfull(net, &calls) {
            assert!(!settings.iter().any(|rows| lawful(net, &calls, rows)));
            assert_eq!(answer.number, 8);
            overfull += 1;
        } else {
            assert_eq!(answer.number, 0);
            assert!(lawful(net, &calls, &planned));
        }
    }
    assert!(overfull > 0);
}

/// With one central and cycles up to 4, and with two: these with a cycle of 3 for one module, and by
/// the three sizes alone for more.
#[test]
fn no_settings_of_an_overfull_table_are_lawful() {
    for r in 1..=3 {
        for net in with_spare_ports(vec![Network::of_sizes(2, 1, r)], 4) {
            assert_overfull_or_planned(net);
        }
    }
    assert_overfull_or_planned(Network::of_sizes(3, 2, 1).with_cycle(3));
    for r in 1..=HIGHEST_R {
        assert_overfull_or_planned(Network::of_sizes(3, 2, r));
    }
}
