//! Files of kinds 3 and 4 to be read, what writes them, and conversions: with one fault, with two,
//! with several in one row, and with more than 1,024 rows. What `faulty.rs` makes is checked before it
//! is taken.

use super::faults::{checked, sets_for_one_row};
use crate::faulty::{input_with, input_with_in_one_row, Fault};
use crate::inputs::Input;
use crate::refusals::Asked;
use crate::Kind;

/// Each refusal of each entry for new files, and each pair of them.
pub fn file_faults() -> Vec<Input> {
    let mut list = Vec::new();
    for asked in Asked::OF_NEW_FILES {
        list.extend(single_faults(asked));
        list.extend(pairs_of_faults(asked));
        list.extend(pairs_in_one_row(asked));
        list.extend(too_many_rows(asked));
    }
    list
}

/// The input with these faults, in the order of their rows, made sure of.
fn with_faults(asked: Asked, faults: &[Fault]) -> Input {
    let mut numbers: Vec<usize> = faults.iter().map(|fault| fault.number).collect();
    // A cycle outside its limits is one that would be lost, too.
    let loses_cycle = asked.order().contains(&18) && !numbers.contains(&18);
    if loses_cycle && faults.iter().any(|fault| fault.is_of_cycle()) {
        numbers.push(18);
    }
    checked(asked, &numbers, input_with(asked, faults))
}

/// Each refusal in each way that it is made; but 3 never comes alone.
fn single_faults(asked: Asked) -> Vec<Input> {
    let mut list = Vec::new();
    for &number in asked.order().iter().filter(|&&number| number != 3) {
        for &way in asked.ways(number) {
            list.push(with_faults(asked, &[Fault { number, way }]));
        }
    }
    list
}

/// Each pair of refusals but those with 3. Where both are sought in rows the one that is tried first
/// stands in the later row; but of 9 to 13, which have one turn together, in the earlier, and for
/// reader and writer the other way round too.
fn pairs_of_faults(asked: Asked) -> Vec<Input> {
    let mut list = Vec::new();
    let order: Vec<usize> = without_3(asked.order());
    for (place, &first) in order.iter().enumerate() {
        for &second in &order[place + 1..] {
            for one in faults_of(asked, first) {
                for other in faults_of(asked, second) {
                    add_pair(&mut list, asked, one, other);
                }
            }
        }
    }
    list
}

fn without_3(order: &[usize]) -> Vec<usize> {
    order
        .iter()
        .copied()
        .filter(|&number| number != 3)
        .collect()
}

/// A fault in each way that it is made together with others.
fn faults_of(asked: Asked, number: usize) -> Vec<Fault> {
    let ways = asked.ways_in_pairs(number).iter();
    ways.map(|&way| Fault { number, way }).collect()
}

fn add_pair(list: &mut Vec<Input>, asked: Asked, one: Fault, mut other: Fault) {
    if one.is_of_kind_made() {
        // Of such a file only what a reader says can be judged, and that by its own kind.
        if other.number == 18 || other.number == 4 {
            return;
        }
        if other.is_of_cycle() {
            other.way = 0;
        }
    }
    let is_of_settings = [one, other]
        .iter()
        .all(|fault| (9..=13).contains(&fault.number));
    let is_conversion = matches!(asked, Asked::Convert(_));
    if is_of_settings {
        list.push(with_faults(asked, &[one, other]));
    }
    if !is_of_settings || !is_conversion {
        list.push(with_faults(asked, &[other, one]));
    }
}

/// Two of 9 to 13 in one row, for all ten pairs: read and written.
fn pairs_in_one_row(asked: Asked) -> Vec<Input> {
    let mut list = Vec::new();
    if !asked.order().contains(&9) || matches!(asked, Asked::Convert(_)) {
        return list;
    }
    let sets = sets_for_one_row();
    for numbers in sets.iter().filter(|numbers| numbers.len() == 2) {
        let input = input_with_in_one_row(asked, numbers, &[]);
        list.push(checked(asked, numbers, input));
    }
    list
}

/// 1,025 rows with all refusals that come after 3 in the order; and for the writers, which can't be
/// told that there are more rows than given, with each of those before 3. Files that tell of 1,025
/// rows without holding them are in `with_cycle.rs`.
fn too_many_rows(asked: Asked) -> Vec<Input> {
    let fault = |number: usize| Fault { number, way: 0 };
    let order = asked.order();
    let at = order.iter().position(|&number| number == 3);
    let (before, from_3) = order.split_at(at.unwrap_or(order.len()));
    let all: Vec<Fault> = from_3.iter().map(|&number| fault(number)).collect();
    let mut list = vec![with_faults(asked, &all)];
    if matches!(
        asked,
        Asked::Write(Kind::CallsWithCycle | Kind::PlannedWithCycle)
    ) {
        for &number in before {
            list.push(with_faults(asked, &[fault(number), fault(3)]));
        }
    }
    list
}

#[cfg(test)]
mod tests {
    use super::*;
    use crate::catalogue::file_inputs;
    use crate::comparison::answer_of;
    use crate::inputs::{with_kind_byte, Entry};
    use crate::plain::Plain;
    use crate::refusals::applying_refusals;
    use crate::TRAILER_BYTES;

    /// Whether an input asks this.
    fn asks(asked: Asked, input: &Input) -> bool {
        let has_kind = |file: &[u8], kind: Kind| {
            file.len() >= TRAILER_BYTES && with_kind_byte(file.to_vec(), kind as u8) == file
        };
        match (asked, input) {
            (Asked::Read(kind), Input::Read { file }) => has_kind(file, kind),
            (Asked::Convert(kind), Input::ConvertToNew { file, .. }) => {
                !kind.tells_cycle() && has_kind(file, kind)
            }
            (Asked::Convert(kind), Input::ConvertToOld { file, .. }) => {
                kind.tells_cycle() && has_kind(file, kind)
            }
            (Asked::Write(kind), _) => input.entry() == Entry::writer_of(kind),
            _ => false,
        }
    }

    /// Of every two refusals of an entry some stored input has both, and the earlier is told.
    #[test]
    fn every_pair_is_stored_and_the_earlier_is_told() {
        let stored = file_inputs();
        for asked in Asked::OF_NEW_FILES {
            let own: Vec<(usize, Vec<usize>)> = stored
                .iter()
                .filter(|input| asks(asked, input))
                .map(|input| {
                    let applying = applying_refusals(input);
                    let numbers = applying.iter().map(|refusal| refusal.number).collect();
                    (answer_of(&Plain, input).0.number(), numbers)
                })
                .collect();
            let order = asked.order();
            for (place, first) in order.iter().enumerate() {
                let is_told = |(told, applying): &(usize, Vec<usize>)| {
                    told == first && applying.contains(first)
                };
                assert!(own.iter().any(is_told), "{:?} {}", asked, first);
                for second in &order[place + 1..] {
                    // Of two faults in rows 9 to 13 the earlier row decides, or in one row the order.
                    let has_both =
                        |one: &(usize, Vec<usize>)| is_told(one) && one.1.contains(second);
                    assert!(own.iter().any(has_both), "{:?} {} {}", asked, first, second);
                }
            }
        }
    }
}
