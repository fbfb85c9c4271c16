//! Which inputs are stored, and in which order. The groups stand in the files of `catalogue/`:
//! written by hand, built from `ladders.rs` or made by `faulty.rs`; a few are drawn by `inputs.rs`.
//! How they are stored is the matter of `stored_form.rs`.

mod builders;
mod by_light;
mod chains;
mod cycles;
mod faults;
mod file_faults;
mod files;
mod from_documents;
mod limits;
mod listed;
mod step_faults;
mod steps;
mod with_cycle;
mod words;
mod worked;

use crate::inputs::{drawn_of_files, drawn_of_sizes, drawn_of_tables, drawn_steps, Input};
use crate::stored_form::{stored_input, Stored};

/// All stored inputs: those of the entries for whole tables, then the files to be listed, then those
/// that add a call or drop one; and then those of files that tell the cycle, and of conversions, and
/// such files to be listed; and last those for records that are words.
pub fn stored_inputs() -> Vec<Stored> {
    let groups = [
        of_entries(table_inputs()),
        to_be_listed(listed::listed_files()),
        of_entries(step_inputs()),
        of_entries(file_inputs()),
        to_be_listed(listed::listed_with_cycle()),
        of_entries(word_inputs()),
    ];
    groups.concat()
}

fn of_entries(inputs: Vec<Input>) -> Vec<Stored> {
    inputs.into_iter().map(Stored::Input).collect()
}

fn to_be_listed(files: Vec<Vec<u8>>) -> Vec<Stored> {
    files
        .into_iter()
        .map(|file| Stored::List { file })
        .collect()
}

/// The stored inputs for records of use that are words.
pub fn word_inputs() -> Vec<Input> {
    without_repeats(words::words())
}

/// The stored inputs of files that tell the cycle, and of conversions.
fn file_inputs() -> Vec<Input> {
    let groups = [
        with_cycle::files_with_cycle(),
        file_faults::file_faults(),
        short_of(drawn_of_files(155), 30),
    ];
    without_repeats(groups.concat())
}

/// The stored inputs of the entries for single calls.
fn step_inputs() -> Vec<Input> {
    let groups = [
        steps::steps(),
        step_faults::step_faults(),
        short_of(drawn_steps(154), 60),
    ];
    without_repeats(groups.concat())
}

/// The stored inputs of the entries for whole tables.
fn table_inputs() -> Vec<Input> {
    let groups = [
        from_documents::bench_table(),
        from_documents::document_004_tables(),
        chains::long_chains(),
        limits::limits_and_lengths(),
        faults::single_faults(),
        faults::pairs_of_faults(),
        faults::faults_in_one_row(),
        files::files(),
        files::damaged_files(),
        by_light::by_light(),
        limits::wide_sizes(),
        worked::worked(),
        short_of(drawn_of_sizes(150), 150),
        cycles::own_cycles(),
        by_light::by_light_at_spare_ports(),
        faults::pairs_before_another_cycle(),
        short_of(drawn_of_tables(151), 60),
    ];
    without_repeats(groups.concat())
}

/// The list without inputs that stand in it before in just the same form.
fn without_repeats(inputs: Vec<Input>) -> Vec<Input> {
    let mut kept: Vec<Input> = Vec::new();
    for input in inputs {
        if !kept.contains(&input) {
            kept.push(input);
        }
    }
    kept
}

/// So many of these inputs, those of no more than 620 bytes with their heads.
fn short_of(inputs: impl Iterator<Item = Input>, count: usize) -> Vec<Input> {
    let is_short = |input: &Input| {
        let stored = stored_input(&Stored::Input(input.clone()));
        stored.map_or(false, |bytes| bytes.len() <= 620)
    };
    inputs.filter(is_short).take(count).collect()
}

#[cfg(test)]
mod tests {
    use super::*;
    use crate::comparison::answer_of;
    use crate::inputs::drawn;
    use crate::plain::Plain;
    use crate::refusals::owed_refusal;
    use crate::stored_form::stored_files;

    #[test]
    fn stored_files_keep_to_their_sizes() {
        let inputs = stored_inputs();
        let (questions, answers) = stored_files(&inputs);
        assert_eq!(answers.lines().count(), inputs.len());
        assert!(questions.len() < 2_000_000, "{}", questions.len());
        assert!(answers.len() < 1_200_000, "{}", answers.len());
    }

    /// The refusals that apply decide every stored answer, and those of drawn inputs.
    #[test]
    fn refusals_that_apply_decide_the_answers() {
        let stored = [table_inputs(), step_inputs(), file_inputs(), word_inputs()].concat();
        for input in stored.into_iter().chain(drawn(7).take(4000)) {
            let (answer, _) = answer_of(&Plain, &input);
            match owed_refusal(&input) {
                Some(owed) => {
                    assert_eq!((answer.number(), answer.row()), (owed.number, owed.row));
                }
                None => assert_eq!(answer.number(), 0),
            }
        }
    }
}
