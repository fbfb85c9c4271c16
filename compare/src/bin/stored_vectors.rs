//! Writes the stored inputs and their answers as the files `stdin` and `stdout` of a directory.

use compare::catalogue::stored_inputs;
use compare::stored_form::stored_files;
use std::path::Path;

fn main() -> std::io::Result<()> {
    let arguments: Vec<String> = std::env::args().collect();
    if arguments.len() != 2 {
        eprintln!("usage: stored_vectors DIR");
        std::process::exit(2);
    }
    let directory = Path::new(&arguments[1]);
    let (questions, answers) = stored_files(&stored_inputs());
    std::fs::write(directory.join("stdin"), questions)?;
    std::fs::write(directory.join("stdout"), answers)
}
