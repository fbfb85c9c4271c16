//! Compares the proved library with the plain implementation: every small input, histories of adds
//! and drops, then COUNT drawn inputs. Files that the library has read, written or converted have to
//! go there and back by it. Ends with a line that tells how many calls were compared, or stops at the
//! first difference.

use compare::comparison::{compare_all, compare_exhaustively, Coverage, Difference};
use compare::history::{compare_history, histories};
use compare::inputs::{draw, Entry, Random};
use compare::library::Library;
use compare::plain::Plain;
use compare::HIGHEST_NUMBER;

fn main() {
    let arguments: Vec<String> = std::env::args().skip(1).collect();
    let numbers: Vec<u64> = arguments
        .iter()
        .filter_map(|word| word.parse().ok())
        .collect();
    let (seed, count) = match numbers[..] {
        [] if arguments.is_empty() => (1, 600_000),
        [seed, count] if arguments.len() == 2 => (seed, count),
        _ => {
            eprintln!("usage: compare [SEED COUNT]");
            std::process::exit(2);
        }
    };
    match compare_many(seed, count) {
        Ok(compared) => println!("{} calls compared, nothing differs", compared),
        Err(difference) => {
            println!("{}\n{:?}", difference.what, difference.input);
            std::process::exit(1);
        }
    }
}

/// Compares, prints what was seen, and answers how many calls of the library were compared.
fn compare_many(seed: u64, count: u64) -> Result<usize, Difference> {
    let small = compare_exhaustively(&Plain, &Library)?;
    println!("every small input: {} calls", small.total());
    let histories = compare_histories()?;
    println!("histories of adds and drops: {} calls", histories.total());
    let mut drawn = Coverage::default();
    let mut random = Random::seeded(seed);
    for _ in 0..count {
        drawn.add(compare_all(&Plain, &Library, &draw(&mut random))?);
    }
    println!("drawn with seed {}: {} calls", seed, drawn.total());
    let mut all = small;
    all.add_all(&histories);
    all.add_all(&drawn);
    for entry in Entry::ALL {
        println!("{:?}: {}", entry, numbers_seen(&all, entry));
    }
    Ok(all.total())
}

/// Compares on all histories, and answers what was seen.
fn compare_histories() -> Result<Coverage, Difference> {
    let mut seen = Coverage::default();
    for (net, seed, changes) in histories() {
        let events = compare_history(&Plain, &Library, net, seed, changes)?;
        seen.add_all(&events.coverage);
    }
    Ok(seen)
}

/// The numbers that an entry answered, each with how often.
fn numbers_seen(seen: &Coverage, entry: Entry) -> String {
    let words: Vec<String> = (0..=HIGHEST_NUMBER)
        .map(|number| (number, seen.count(entry, number)))
        .filter(|&(_, times)| times > 0)
        .map(|(number, times)| format!("{} x{}", number, times))
        .collect();
    words.join(", ")
}
