//! Inputs at the limits and outside them: sizes, numbers of rows, lengths and rooms. Their numbers
//! are written out here; only the table of 1,024 rows is from `ladders.rs`.

use super::builders::{
    accept, network, plan, plan_roomy, planned, read_of, write, write_calls, write_planned,
};
use super::from_documents::CASE_3;
use crate::inputs::{settings_length, Input};
use crate::ladders::{largest_ladder, LARGEST_TIGHT};
use crate::{Kind, Network, CALL_BYTES};

/// Each size at its limits and outside them, K at and above 1,024, lengths that are no whole rows,
/// rooms.
pub fn limits_and_lengths() -> Vec<Input> {
    let mut list = Vec::new();
    let sizes = [
        network(0, 1, 1),
        network(1, 0, 1),
        network(1, 1, 0),
        network(16, 32, 64),
        network(17, 32, 64),
        network(16, 33, 64),
        network(16, 32, 65),
        network(255, 255, 255),
    ];
    for net in sizes {
        list.push(plan_roomy(net, &[0, 0, 0, 0]));
        list.push(accept(net, &[0, 0, 0, 0], &[0, 0, 0]));
        list.push(accept(net, &[], &[]));
        list.push(write_calls(net, &[9], &[0, 0, 0, 0], 20));
        list.push(write_planned(net, &[9], &[0, 0, 0, 0], &[0, 0, 0], 23));
        list.push(read_of(Kind::Calls, net, &[9], &[0, 0, 0, 0], &[]));
        list.push(read_of(Kind::Planned, net, &[9], &[0, 0, 0, 0], &[0, 0, 0]));
    }
    // One to three bytes beyond whole rows; settings of no bytes, one less, one more, and a row more.
    for surplus in 1..=3 {
        let calls = &CASE_3[..4 + surplus];
        list.push(plan_roomy(network(2, 2, 2), calls));
        list.push(accept(network(2, 2, 2), calls, &[0, 0, 0]));
        list.push(write_calls(network(2, 2, 2), &[], calls, 40));
    }
    for length in [0, 2, 4, 6] {
        list.push(accept(network(2, 2, 2), &CASE_3[..4], &[0; 6][..length]));
    }
    // A calls-only file is refused settings even of the right length.
    let parts = [&[][..], &CASE_3[..4], &[0, 0, 0]];
    list.push(write(Kind::Calls, network(2, 2, 2), parts, 30));
    // 1,025 rows without a number outside: a row of 1,024 comes twice, which is 6 and 7 as well.
    let mut too_many = largest_ladder();
    too_many.extend_from_within(..CALL_BYTES);
    list.push(plan_roomy(LARGEST_TIGHT, &too_many));
    list.push(plan(LARGEST_TIGHT, &too_many, 0));
    // The last of 1,024 rows at fault: by 5 on either side, by 6 and by 7.
    let last = CALL_BYTES * (Network::MOST_ROWS - 1);
    for (place, byte) in [(0, 64), (3, 16)] {
        let mut calls = largest_ladder();
        calls[last + place] = byte;
        list.push(plan(LARGEST_TIGHT, &calls, settings_length(&calls)));
    }
    for side in [0, 2] {
        let mut calls = largest_ladder();
        calls.copy_within(side..side + 2, last + side);
        list.push(accept(
            LARGEST_TIGHT,
            &calls,
            &planned(LARGEST_TIGHT, &largest_ladder()),
        ));
    }
    // Rooms of the planner: none, one byte short, exact, and long.
    for room in [0, 5, 6, 7, 100] {
        list.push(plan(network(2, 2, 2), &CASE_3[..8], room));
    }
    list
}

/// Sizes that would be within their limits, or 0, if they were cut to 8, 16 or 32 bits, and the
/// highest numbers: each size in turn, the others small. All are refused by 1.
pub fn wide_sizes() -> Vec<Input> {
    let wide = [256, 257, (1 << 16) + 1, (1 << 32) + 1, 1 << 63, usize::MAX];
    let mut list = Vec::new();
    for size in wide {
        for net in [
            network(size, 2, 2),
            network(2, size, 2),
            network(2, 2, size),
        ] {
            let call = [0, 0, 0, 0];
            let setting = [0, 0, 0];
            list.push(plan_roomy(net, &call));
            list.push(accept(net, &call, &setting));
            list.push(write_calls(net, &[9], &call, 20));
            list.push(write_planned(net, &[9], &call, &setting, 23));
        }
    }
    list
}

#[cfg(test)]
mod tests {
    use super::*;
    use crate::comparison::answer_of;
    use crate::plain::Plain;

    #[test]
    fn wide_sizes_are_refused() {
        for input in wide_sizes() {
            let (answer, _) = answer_of(&Plain, &input);
            assert_eq!((answer.number(), answer.row()), (1, 0), "{:?}", input);
        }
    }
}
