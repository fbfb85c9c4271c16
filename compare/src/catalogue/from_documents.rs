//! Inputs that stand in the documents: the bench table and the example file of document 01, and call
//! tables of document 004. All is written out here but the settings of these tables, which are the
//! planner's.

use super::builders::{accept, network, plan, plan_roomy, planned};
use crate::inputs::Input;

/// The calls of the bench table's case 3, and of its case 4.
pub const CASE_3: [u8; 16] = [0, 0, 0, 0, 1, 0, 1, 0, 1, 1, 0, 1, 0, 1, 1, 1];
pub const CASE_4: [u8; 16] = [0, 0, 0, 0, 0, 1, 1, 0, 1, 0, 2, 0, 1, 1, 1, 1];

/// The file of document 01's example: the calls of case 4, no note.
pub fn example_file() -> Vec<u8> {
    let trailer = [2, 2, 3, 1, 0, 4, 0, 0, 0, 0x10, 0x41, 0x57];
    [&CASE_4[..], &trailer].concat()
}

/// The twelve cases of the bench table, in their order.
pub fn bench_table() -> Vec<Input> {
    let two_at_one_module = [0, 0, 0, 0, 0, 1, 0, 1];
    vec![
        // 1, 2.
        plan_roomy(network(1, 1, 1), &[]),
        plan_roomy(network(1, 1, 1), &[0, 0, 0, 0]),
        // 3, 4.
        plan_roomy(network(2, 2, 2), &CASE_3),
        plan_roomy(network(2, 2, 3), &CASE_4),
        // 5, both networks.
        plan_roomy(network(2, 1, 1), &two_at_one_module),
        plan_roomy(network(2, 2, 1), &two_at_one_module),
        // 6, 7, 8.
        plan_roomy(network(2, 2, 1), &[0, 0, 0, 0, 0, 0, 0, 1]),
        plan_roomy(network(2, 2, 1), &[0, 0, 0, 0, 0, 1, 0, 0]),
        plan_roomy(network(1, 1, 1), &[1, 0, 0, 0]),
        // 9, accepted and refused by 9, 10 and 11.
        accept(network(2, 2, 2), &[0, 0, 1, 0], &[1, 1, 0]),
        accept(network(2, 2, 2), &[0, 0, 1, 0], &[2, 1, 0]),
        accept(network(2, 2, 2), &[0, 0, 1, 0], &[1, 0, 0]),
        accept(network(2, 2, 2), &[0, 0, 1, 0], &[1, 1, 1]),
        // 10, 11.
        accept(
            network(2, 2, 2),
            &[0, 0, 0, 0, 0, 1, 1, 0],
            &[0, 0, 0, 0, 0, 1],
        ),
        accept(
            network(2, 2, 2),
            &[0, 0, 0, 0, 1, 0, 0, 1],
            &[0, 0, 0, 1, 0, 0],
        ),
        // 12, the limit of m, and room that is exact and one byte short.
        plan_roomy(network(1, 32, 1), &[]),
        plan_roomy(network(1, 33, 1), &[]),
        plan(network(2, 2, 2), &CASE_3, 12),
        plan(network(2, 2, 2), &CASE_3, 11),
    ]
}

/// The calls of document 004's Table I, 4-4-3, with the output modules that its wavelengths lead to:
/// planned without a chain, with the settings that stand there.
pub const TABLE_ONE: [u8; 48] = [
    0, 0, 0, 0, 0, 1, 1, 0, 0, 2, 0, 1, 0, 3, 2, 0, 1, 0, 1, 1, 1, 1, 0, 2, 1, 2, 2, 1, 1, 3, 0, 3,
    2, 0, 2, 2, 2, 1, 2, 3, 2, 2, 1, 2, 2, 3, 1, 3,
];

/// A table of 2-2-8 that is full, with ten calls moved.
pub const EIGHT_MODULES: [u8; 64] = [
    0, 0, 7, 0, 0, 1, 6, 0, 1, 0, 3, 0, 1, 1, 0, 0, 2, 0, 4, 0, 2, 1, 4, 1, 3, 0, 3, 1, 3, 1, 5, 0,
    4, 0, 5, 1, 4, 1, 7, 1, 5, 0, 2, 0, 5, 1, 2, 1, 6, 0, 1, 0, 6, 1, 0, 1, 7, 0, 1, 1, 7, 1, 6, 1,
];

/// Tables known from elsewhere, planned, and their settings accepted.
pub fn document_004_tables() -> Vec<Input> {
    let first = network(4, 4, 3);
    let second = network(2, 2, 8);
    vec![
        plan_roomy(first, &TABLE_ONE),
        accept(first, &TABLE_ONE, &planned(first, &TABLE_ONE)),
        plan_roomy(second, &EIGHT_MODULES),
        accept(second, &EIGHT_MODULES, &planned(second, &EIGHT_MODULES)),
    ]
}

#[cfg(test)]
mod tests {
    use super::*;
    use crate::inputs::settings_length;
    use crate::plain::Plain;
    use crate::{Entries, Network, SETTING_BYTES};

    /// The planner's three numbers and the centrals of its settings.
    fn plan_centrals(net: Network, calls: &[u8]) -> ([usize; 3], Vec<u8>) {
        let mut settings = vec![0; settings_length(calls)];
        let answer = Plain.plan(net, calls, &mut settings);
        let centrals = settings
            .chunks_exact(SETTING_BYTES)
            .map(|row| row[1])
            .collect();
        ([answer.number, answer.row, answer.moved], centrals)
    }

    #[test]
    fn table_one_of_document_004() {
        let net = network(4, 4, 3);
        let mut settings = [0; 36];
        let answer = Plain.plan(net, &TABLE_ONE, &mut settings);
        assert_eq!((answer.number, answer.row, answer.moved), (0, 12, 0));
        let owed = [
            0, 0, 0, 1, 1, 2, 2, 2, 2, 3, 3, 1, 1, 0, 1, 2, 1, 1, 3, 2, 0, 0, 3, 3, 2, 0, 2, 3, 1,
            3, 0, 2, 3, 1, 3, 0,
        ];
        assert_eq!(settings, owed);
    }

    #[test]
    fn eight_modules() {
        let (answer, centrals) = plan_centrals(network(2, 2, 8), &EIGHT_MODULES);
        assert_eq!(answer, [0, 16, 10]);
        assert_eq!(centrals, [0, 1, 1, 0, 0, 1, 0, 1, 0, 1, 0, 1, 0, 1, 1, 0]);
    }
}
