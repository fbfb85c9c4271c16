//! Writes COUNT drawn inputs and their answers as the files `many.in` and `many.out` of a
//! directory. Inputs with a length that doesn't fit two bytes are drawn anew, and of the files to be
//! read one in two is listed instead.

use compare::inputs::{draw, Input, Random};
use compare::stored_form::{stored_answer, stored_input, Stored};
use std::fs::File;
use std::io::{BufWriter, Write};
use std::path::Path;

fn main() -> std::io::Result<()> {
    let arguments: Vec<String> = std::env::args().collect();
    match &arguments[1..] {
        [seed, count, directory] => match (seed.parse(), count.parse()) {
            (Ok(seed), Ok(count)) => write_many(seed, count, Path::new(directory)),
            _ => end_with_usage(),
        },
        _ => end_with_usage(),
    }
}

fn end_with_usage() -> ! {
    eprintln!("usage: many SEED COUNT DIR");
    std::process::exit(2);
}

fn write_many(seed: u64, count: usize, directory: &Path) -> std::io::Result<()> {
    let mut random = Random::seeded(seed);
    let mut questions = BufWriter::new(File::create(directory.join("many.in"))?);
    let mut answers = BufWriter::new(File::create(directory.join("many.out"))?);
    let mut written = 0;
    while written < count {
        let stored = draw_stored(&mut random);
        if let Some(bytes) = stored_input(&stored) {
            questions.write_all(&bytes)?;
            answers.write_all(stored_answer(&stored).as_bytes())?;
            written += 1;
        }
    }
    questions.flush()?;
    answers.flush()
}

/// A drawn input of an entry, or a file that was drawn for the reader and is to be listed.
fn draw_stored(random: &mut Random) -> Stored {
    match draw(random) {
        Input::Read { file } if random.once_in(2) => Stored::List { file },
        input => Stored::Input(input),
    }
}
