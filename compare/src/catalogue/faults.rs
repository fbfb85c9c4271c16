//! Inputs with one fault, with two, and with several in one row. What `faulty.rs` makes is checked
//! before it is taken: by the refusals that `refusals.rs` finds, and by the answer of `plain.rs`.

use super::builders::{accept, network, plan_roomy};
use crate::comparison::answer_of;
use crate::faulty::{input_with, input_with_in_one_row, Fault};
use crate::inputs::Input;
use crate::plain::Plain;
use crate::refusals::{applying_refusals, first_in_order, is_sought_in_rows, Asked};
use crate::Kind;

/// The fault of a cycle that isn't the larger of r and m.
const OTHER_CYCLE: Fault = Fault { number: 18, way: 0 };

/// Each refusal of each entry alone, in each way that it is made; but 3 never comes alone where
/// sizes are inside their limits, so it stands among the pairs.
pub fn single_faults() -> Vec<Input> {
    let mut list = Vec::new();
    for asked in Asked::OF_TABLES {
        for &number in asked.order().iter().filter(|&&number| number != 3) {
            for &way in asked.ways(number) {
                let input = input_with(asked, &[Fault { number, way }]);
                list.push(checked(asked, &[number], input));
            }
        }
    }
    list
}

/// Each pair of refusals that one entry can give. Where both are sought in rows the pair comes
/// twice, with either of them in the earlier row.
pub fn pairs_of_faults() -> Vec<Input> {
    let mut list = Vec::new();
    for asked in Asked::OF_TABLES {
        let order = asked.order();
        for (place, &first) in order.iter().enumerate() {
            for &second in &order[place + 1..] {
                add_pair(&mut list, asked, first, second);
            }
        }
    }
    list
}

/// Adds a pair in each way that its faults are made; with 1,025 rows only ways that differ in the
/// lengths given.
fn add_pair(list: &mut Vec<Input>, asked: Asked, first: usize, second: usize) {
    let has_many_rows = first == 3 || second == 3;
    for &first_way in asked.ways(first) {
        for &second_way in asked.ways(second) {
            if has_many_rows && first != 2 && first_way + second_way > 0 {
                continue;
            }
            let one = Fault {
                number: first,
                way: first_way,
            };
            let other = Fault {
                number: second,
                way: second_way,
            };
            let numbers = [first, second];
            let input = input_with(asked, &[other, one]);
            list.push(checked(asked, &numbers, input));
            if is_sought_in_rows(first) && is_sought_in_rows(second) {
                let input = input_with(asked, &[one, other]);
                list.push(checked(asked, &numbers, input));
            }
        }
    }
}

/// Each pair of refusals that a writer can give before 18, together with 18. Where both are sought in
/// rows the pair comes twice, with either of them in the earlier row; and two of 9 to 13, or more of
/// them, come in one row too.
pub fn pairs_before_another_cycle() -> Vec<Input> {
    let mut list = Vec::new();
    for asked in [Asked::Write(Kind::Calls), Asked::Write(Kind::Planned)] {
        let before: Vec<usize> = asked
            .order()
            .iter()
            .copied()
            .take_while(|&number| number != 18)
            .collect();
        for (place, &first) in before.iter().enumerate() {
            for &second in &before[place + 1..] {
                add_pair_before_another_cycle(&mut list, asked, first, second);
            }
        }
    }
    for numbers in sets_for_one_row() {
        let input = input_with_in_one_row(Asked::Write(Kind::Planned), &numbers, &[OTHER_CYCLE]);
        let all = [&numbers[..], &[18]].concat();
        list.push(checked(Asked::Write(Kind::Planned), &all, input));
    }
    list
}

fn add_pair_before_another_cycle(list: &mut Vec<Input>, asked: Asked, first: usize, second: usize) {
    let one = Fault {
        number: first,
        way: 0,
    };
    let other = Fault {
        number: second,
        way: 0,
    };
    let numbers = [first, second, 18];
    let input = input_with(asked, &[OTHER_CYCLE, other, one]);
    list.push(checked(asked, &numbers, input));
    if is_sought_in_rows(first) && is_sought_in_rows(second) {
        let input = input_with(asked, &[OTHER_CYCLE, one, other]);
        list.push(checked(asked, &numbers, input));
    }
}

/// All ten pairs of 9 to 13, each of which can hold of one row, and one to five of them up to 13.
pub fn sets_for_one_row() -> Vec<Vec<usize>> {
    let mut sets: Vec<Vec<usize>> = Vec::new();
    for first in 9..=13 {
        for second in first + 1..=13 {
            sets.push(vec![first, second]);
        }
        sets.push((first..=13).collect());
    }
    sets
}

/// Two of 9 to 13 in one row, for all ten pairs: each can hold together with each other. Then three
/// to five in one row, and a whole row given twice, so that 6, 7, 12 and 13 are all there.
pub fn faults_in_one_row() -> Vec<Input> {
    let mut list = Vec::new();
    for asked in [
        Asked::Accept,
        Asked::Read(Kind::Planned),
        Asked::Write(Kind::Planned),
    ] {
        for numbers in sets_for_one_row() {
            let input = input_with_in_one_row(asked, &numbers, &[]);
            list.push(checked(asked, &numbers, input));
        }
    }
    // The earlier row shares both modules, so that 12 and 13 point to the same one.
    let net = network(2, 2, 2);
    list.push(accept(net, &[0, 0, 1, 0, 0, 1, 1, 1], &[0, 0, 1, 0, 0, 1]));
    let twice = [0, 0, 1, 0, 0, 0, 1, 0];
    list.push(plan_roomy(net, &twice));
    list.push(accept(net, &twice, &[0, 0, 1, 0, 0, 1]));
    list
}

/// The input, made sure of: all the named refusals apply, each judged alone, and the answer is the
/// first of those that apply in the entry's order.
pub fn checked(asked: Asked, numbers: &[usize], input: Input) -> Input {
    let applying = applying_refusals(&input);
    for number in numbers {
        assert!(
            applying.iter().any(|refusal| refusal.number == *number),
            "{:?}: {} of {:?} doesn't apply",
            asked,
            number,
            numbers
        );
    }
    // Without 3, which seldom comes alone, no other refusal applies.
    if !numbers.contains(&3) {
        assert_eq!(applying.len(), numbers.len(), "{:?}: {:?}", asked, numbers);
    }
    let owed = first_in_order(asked.order(), &applying).expect("a refusal applies");
    let (answer, _) = answer_of(&Plain, &input);
    assert_eq!(
        (answer.number(), answer.row()),
        (owed.number, owed.row),
        "{:?}: {:?}",
        asked,
        numbers
    );
    input
}
