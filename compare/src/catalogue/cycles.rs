//! Inputs whose network has a cycle of its own, as request 1 of document 02 allows: with spare ports,
//! at the limits, and outside them. They are written out here, but for a few tables of `ladders.rs`
//! and drawn ones, and for the settings of these, which are the planner's.

use super::builders::{
    accept, network, plan, plan_roomy, planned, read_of, write_calls, write_planned,
};
use super::from_documents::{CASE_3, EIGHT_MODULES, TABLE_ONE};
use crate::inputs::{setting_of, spread_calls, Input, Random};
use crate::ladders::{calls_of_pairs, ladder};
use crate::{Kind, Network, CALL_BYTES, SETTING_BYTES, TRAILER_BYTES};

/// Cycles that are not the larger of r and m, within the limits and outside.
pub fn own_cycles() -> Vec<Input> {
    [
        case_3(),
        without_rows(),
        refused_cycles(),
        refused_sizes(),
        most_wavelengths(),
        tables_with_spare_ports(),
    ]
    .concat()
}

/// The settings of case 3 as the bench table has them, and those by three wavelengths.
pub const BY_TWO: [u8; 12] = [0, 0, 0, 1, 0, 1, 0, 1, 1, 1, 1, 0];
pub const BY_THREE: [u8; 12] = [0, 0, 0, 1, 0, 1, 2, 1, 1, 1, 1, 2];

/// The calls of case 3 with two wavelengths and with three.
fn case_3() -> Vec<Input> {
    let two = network(2, 2, 2);
    let three = two.with_cycle(3);
    vec![
        plan_roomy(three, &CASE_3),
        plan(three, &CASE_3, 11),
        // Settings by either cycle are accepted with it, and refused with the other.
        accept(three, &CASE_3, &BY_THREE),
        accept(three, &CASE_3, &BY_TWO),
        accept(two, &CASE_3, &BY_THREE),
        // No file of three wavelengths is written, but other checks come first.
        write_calls(three, &[], &CASE_3, 28),
        write_calls(three, &[], &CASE_3, 27),
        write_planned(three, &[], &CASE_3, &BY_THREE, 40),
        write_planned(three, &[], &CASE_3, &BY_THREE, 39),
        write_planned(three, &[], &CASE_3, &BY_TWO, 40),
        // A file is written and read with two.
        write_planned(two, &[], &CASE_3, &BY_TWO, 40),
        write_planned(two, &[], &CASE_3, &BY_THREE, 40),
        read_of(Kind::Planned, two, &[], &CASE_3, &BY_TWO),
        read_of(Kind::Planned, two, &[], &CASE_3, &BY_THREE),
    ]
}

/// No rows, so that nothing but the cycle can be refused.
fn without_rows() -> Vec<Input> {
    let net = network(2, 2, 3).with_cycle(4);
    vec![
        plan(net, &[], 2),
        accept(net, &[], &[]),
        write_calls(net, &[], &[], 14),
        write_planned(net, &[], &[], &[], 14),
    ]
}

/// The four entries that are given a network, with a row that would be right by any cycle.
fn all_with(net: Network) -> Vec<Input> {
    let call = [0, 0, 0, 0];
    let setting = [0, 0, 0];
    vec![
        plan_roomy(net, &call),
        accept(net, &call, &setting),
        write_calls(net, &[9], &call, 20),
        write_planned(net, &[9], &call, &setting, 23),
    ]
}

/// Cycles below r, below m, below both, and above 64; and those that would be within their limits, or
/// 0, if they were cut to 8, 16 or 32 bits. All are refused by 1.
fn refused_cycles() -> Vec<Input> {
    let small = network(2, 2, 2);
    let nets = [
        // Below r alone; below m alone; below both.
        network(2, 2, 3).with_cycle(2),
        network(1, 1, 64).with_cycle(63),
        network(2, 3, 2).with_cycle(2),
        network(1, 32, 1).with_cycle(31),
        small.with_cycle(1),
        small.with_cycle(0),
        // Above 64, also where r is 64.
        small.with_cycle(65),
        network(16, 32, 64).with_cycle(65),
        // Between m and r, one below r.
        network(16, 32, 64).with_cycle(63),
        // Wide.
        small.with_cycle((1 << 8) + 2),
        small.with_cycle((1 << 16) + 2),
        small.with_cycle(1 << 32),
        small.with_cycle((1 << 32) + 2),
        small.with_cycle((1 << 32) + 3),
        small.with_cycle((1 << 63) + 2),
        small.with_cycle(usize::MAX),
    ];
    nets.map(all_with).concat()
}

/// Sizes outside their limits, with a cycle that is within its own. All are refused by 1.
fn refused_sizes() -> Vec<Input> {
    let nets = [
        network(0, 2, 2).with_cycle(3),
        network(2, 0, 2).with_cycle(3),
        network(2, 2, 0).with_cycle(3),
        network(17, 2, 2).with_cycle(3),
        network(2, 33, 2).with_cycle(64),
        network(2, 2, 65).with_cycle(64),
    ];
    nets.map(all_with).concat()
}

/// 64 wavelengths: with small sizes, with large ones, where sums of module and central go beyond, and
/// with the largest, where the larger of r and m is 64.
fn most_wavelengths() -> Vec<Input> {
    let small = network(2, 2, 2).with_cycle(64);
    let mut list = vec![
        plan_roomy(small, &CASE_3),
        accept(small, &CASE_3, &BY_THREE),
        write_calls(small, &[], &CASE_3, 28),
        write_planned(small, &[], &CASE_3, &BY_THREE, 40),
        // The last wavelength there is, whose light is lost, and the first there isn't.
        accept(small, &[0, 0, 0, 0], &[63, 0, 0]),
        accept(small, &[0, 0, 0, 0], &[0, 0, 63]),
        accept(small, &[0, 0, 0, 0], &[64, 0, 0]),
        accept(small, &[0, 0, 0, 0], &[0, 0, 64]),
    ];
    for r in [40, 63, 64] {
        let by_sizes = network(16, 32, r);
        let net = by_sizes.with_cycle(64);
        let module = (r - 1) as u8;
        let call = [module, 15, module, 15];
        let setting = setting_of(net, &call, 31);
        list.extend([
            plan_roomy(net, &call),
            accept(net, &call, &setting),
            accept(net, &call, &setting_of(by_sizes, &call, 31)),
            write_calls(net, &[], &call, CALL_BYTES + TRAILER_BYTES),
            write_planned(
                net,
                &[],
                &call,
                &setting,
                CALL_BYTES + SETTING_BYTES + TRAILER_BYTES,
            ),
        ]);
    }
    list
}

/// The networks with spare ports, where m is the larger, where r is, and where they are equal, and
/// full tables of them.
fn full_tables() -> Vec<(Network, Vec<u8>)> {
    let mut random = Random::seeded(32);
    let nets = [
        network(4, 4, 2).with_cycle(5),
        network(3, 3, 3).with_cycle(4),
        network(4, 4, 5).with_cycle(7),
        network(5, 5, 9).with_cycle(10),
        network(16, 16, 30).with_cycle(32),
    ];
    nets.iter()
        .map(|&net| (net, spread_calls(&mut random, net, net.n * net.r)))
        .collect()
}

/// Full and long tables, tables of the documents among them, planned with spare ports, and their
/// settings accepted.
fn tables_with_spare_ports() -> Vec<Input> {
    let mut tables = vec![
        (network(4, 4, 3).with_cycle(5), TABLE_ONE.to_vec()),
        (network(2, 2, 8).with_cycle(32), EIGHT_MODULES.to_vec()),
        (
            network(2, 2, 31).with_cycle(32),
            calls_of_pairs(&ladder(31)),
        ),
        (
            network(2, 2, 31).with_cycle(64),
            calls_of_pairs(&ladder(31)),
        ),
    ];
    tables.extend(full_tables());
    tables
        .iter()
        .flat_map(|(net, calls)| {
            [
                plan_roomy(*net, calls),
                accept(*net, calls, &planned(*net, calls)),
            ]
        })
        .collect()
}

#[cfg(test)]
mod tests {
    use super::*;
    use crate::comparison::answer_of;
    use crate::inputs::filled;
    use crate::plain::Plain;

    fn assert_answered(inputs: &[Input], owed: &[(usize, usize)]) {
        assert_eq!(inputs.len(), owed.len());
        for (input, owed) in inputs.iter().zip(owed) {
            let (answer, _) = answer_of(&Plain, input);
            assert_eq!((answer.number(), answer.row()), *owed, "{:?}", input);
        }
    }

    #[test]
    fn case_3_has_other_wavelengths_by_three() {
        let accepted = [(0, 4), (4, 0), (0, 4), (10, 2), (9, 2)];
        let written = [(18, 0), (4, 0), (18, 0), (4, 0), (10, 2)];
        let by_two = [(0, 4), (9, 2), (0, 4), (9, 2)];
        assert_answered(&case_3(), &[&accepted[..], &written, &by_two].concat());
        let (answer, room) = answer_of(&Plain, &case_3()[0]);
        assert_eq!(answer.numbers(), [0, 4, 0]);
        assert_eq!(room, [&BY_THREE[..], &filled(14)[12..]].concat());
    }

    #[test]
    fn without_rows_only_writers_refuse() {
        assert_answered(&without_rows(), &[(0, 0), (0, 0), (18, 0), (18, 0)]);
    }

    #[test]
    fn cycles_and_sizes_outside_are_refused() {
        for input in [refused_cycles(), refused_sizes()].concat() {
            assert_answered(&[input], &[(1, 0)]);
        }
    }

    #[test]
    fn most_wavelengths_are_not_too_many() {
        let small = [(0, 4), (0, 4), (18, 0), (18, 0)];
        let one_row = [(10, 0), (11, 0), (9, 0), (9, 0)];
        let spare = [(0, 1), (0, 1), (10, 0), (18, 0), (18, 0)];
        let largest = [(0, 1); 5];
        let owed = [&small[..], &one_row, &spare, &spare, &largest].concat();
        assert_answered(&most_wavelengths(), &owed);
    }

    /// Every table is planned, with chains in some, and accepted.
    #[test]
    fn tables_are_planned_with_spare_ports() {
        let mut moved = 0;
        for input in tables_with_spare_ports() {
            let (answer, _) = answer_of(&Plain, &input);
            assert_eq!(answer.number(), 0, "{:?}", input);
            moved += answer.numbers()[2..].iter().sum::<usize>();
        }
        assert!(moved > 500, "{}", moved);
    }
}
