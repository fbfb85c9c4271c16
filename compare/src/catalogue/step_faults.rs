//! Inputs for single calls with one fault and with two: of what is given, of the step itself, and
//! of both. What `faulty.rs` makes is checked before it is taken: by the refusals that
//! `refusals.rs` finds, and by the answer of `plain.rs`.

use super::faults::sets_for_one_row;
use crate::comparison::answer_of;
use crate::faulty::{step_with, step_with_in_one_row, Fault};
use crate::inputs::Input;
use crate::plain::Plain;
use crate::refusals::{
    applying_after_acceptance, applying_refusals, is_sought_in_rows, owed_refusal, Asked, Step,
};
use crate::Refusal;

/// Each refusal of an add and of a drop, and each pair of them.
pub fn step_faults() -> Vec<Input> {
    let mut list = Vec::new();
    for step in Step::ALL {
        list.extend(single_faults(step));
        list.extend(pairs_of_given(step));
        list.extend(pairs_of_given_and_own(step));
        list.extend(pairs_of_own(step));
    }
    list
}

fn fault(number: usize) -> Fault {
    Fault { number, way: 0 }
}

/// Each refusal alone, those of the step itself in each way that they are made; but 3 never comes
/// alone, so it stands among the pairs.
fn single_faults(step: Step) -> Vec<Input> {
    let mut list = Vec::new();
    for &number in Asked::Accept.order().iter().filter(|&&number| number != 3) {
        list.push(checked(step, &[fault(number)], &[]));
    }
    for &number in step.order().iter().filter(|&&number| number != 3) {
        for way in 0..step.ways(number) {
            list.push(checked(step, &[], &[Fault { number, way }]));
        }
    }
    list
}

/// Each pair of refusals of what is given. Where both are sought in rows the pair comes twice, with
/// either of them in the earlier row; and two of 9 to 13 come in one row too.
fn pairs_of_given(step: Step) -> Vec<Input> {
    let mut list = Vec::new();
    let order = Asked::Accept.order();
    for (place, &first) in order.iter().enumerate() {
        for &second in &order[place + 1..] {
            list.push(checked(step, &[fault(second), fault(first)], &[]));
            if is_sought_in_rows(first) && is_sought_in_rows(second) {
                list.push(checked(step, &[fault(first), fault(second)], &[]));
            }
        }
    }
    for numbers in sets_for_one_row()
        .iter()
        .filter(|numbers| numbers.len() == 2)
    {
        let input = step_with_in_one_row(step, numbers);
        assert_applies(&applying_refusals(&input), numbers);
        list.push(input);
    }
    list
}

/// Each refusal of what is given with each of the step itself. 1,025 rows are more than 1,024, so 3
/// is not paired with 3.
fn pairs_of_given_and_own(step: Step) -> Vec<Input> {
    let mut list = Vec::new();
    for &given in Asked::Accept.order() {
        for &own in step.order().iter().filter(|&&own| own != 3 || given != 3) {
            list.push(checked(step, &[fault(given)], &[fault(own)]));
        }
    }
    list
}

/// Each pair of refusals of the step itself.
fn pairs_of_own(step: Step) -> Vec<Input> {
    let mut list = Vec::new();
    for (place, &first) in step.order().iter().enumerate() {
        for &second in &step.order()[place + 1..] {
            list.push(checked(step, &[], &own_pair(first, second)));
        }
    }
    list
}

/// Two faults of the step itself. 5 is made by a number that leaves the other fault as it is: by a
/// channel of the input module, or of the output module where the inlet is in use.
fn own_pair(first: usize, second: usize) -> [Fault; 2] {
    let five = Fault {
        number: 5,
        way: if second == 6 { 3 } else { 1 },
    };
    [first, second].map(|number| if number == 5 { five } else { fault(number) })
}

/// The input with these faults, made sure of: all the named refusals apply, each judged alone, and
/// but for those that come with 3 no others.
fn checked(step: Step, given: &[Fault], own: &[Fault]) -> Input {
    let input = step_with(step, given, own);
    let numbers =
        |faults: &[Fault]| -> Vec<usize> { faults.iter().map(|fault| fault.number).collect() };
    let (given, own) = (numbers(given), numbers(own));
    let of_given = applying_refusals(&input);
    let of_own = applying_after_acceptance(&input);
    assert_applies(&of_given, &given);
    assert_applies(&of_own, &own);
    if !given.contains(&3) && !own.contains(&3) {
        assert_eq!(
            of_given.len(),
            given.len(),
            "{:?}: {:?} {:?}",
            step,
            given,
            own
        );
        assert_eq!(of_own.len(), own.len(), "{:?}: {:?} {:?}", step, given, own);
    }
    let owed = owed_refusal(&input).expect("a refusal applies");
    let (answer, _) = answer_of(&Plain, &input);
    assert_eq!(
        (answer.number(), answer.row()),
        (owed.number, owed.row),
        "{:?}: {:?} {:?}",
        step,
        given,
        own
    );
    input
}

fn assert_applies(applying: &[Refusal], numbers: &[usize]) {
    for number in numbers {
        assert!(
            applying.iter().any(|refusal| refusal.number == *number),
            "{} of {:?} doesn't apply",
            number,
            numbers
        );
    }
}

#[cfg(test)]
mod tests {
    use super::*;

    /// What a pair has to answer: the number that comes first in the order.
    #[test]
    fn the_earlier_of_two_is_told() {
        for step in Step::ALL {
            for &given in Asked::Accept.order() {
                for &own in step.order().iter().filter(|&&own| own != 3 || given != 3) {
                    let input = step_with(step, &[fault(given)], &[fault(own)]);
                    let (answer, _) = answer_of(&Plain, &input);
                    assert_eq!(answer.number(), given, "{:?} {} {}", step, given, own);
                }
            }
            for (place, &first) in step.order().iter().enumerate() {
                for &second in &step.order()[place + 1..] {
                    let input = step_with(step, &[], &own_pair(first, second));
                    let (answer, _) = answer_of(&Plain, &input);
                    assert_eq!(answer.number(), first, "{:?} {} {}", step, first, second);
                }
            }
        }
    }
}
