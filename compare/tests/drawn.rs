//! Swift against Plain, on drawn inputs and on every small one.

use compare::comparison::{compare_all, compare_exhaustively, Coverage};
use compare::inputs::{drawn, Entry};
use compare::plain::Plain;
use compare::swift::Swift;
use compare::HIGHEST_NUMBER;

/// Fewer inputs where the code is compiled without speed.
const DRAWN: usize = if cfg!(debug_assertions) {
    9_000
} else {
    200_000
};

/// The numbers that each entry can give.
const GIVEN: [(Entry, &[usize]); 11] = [
    (Entry::Plan, &[0, 1, 2, 3, 4, 5, 6, 7, 8]),
    (Entry::Accept, &[0, 1, 2, 3, 5, 6, 7, 9, 10, 11, 12, 13]),
    (Entry::Read, &[0, 14, 1, 3, 15, 5, 6, 7, 9, 10, 11, 12, 13]),
    (Entry::WriteCalls, &[0, 1, 2, 3, 16, 4, 5, 6, 7, 18]),
    (
        Entry::WritePlanned,
        &[0, 1, 2, 3, 16, 4, 5, 6, 7, 9, 10, 11, 12, 13, 18],
    ),
    (Entry::Add, &[0, 1, 2, 3, 5, 6, 7, 9, 10, 11, 12, 13, 4, 8]),
    (
        Entry::Drop,
        &[0, 1, 2, 3, 5, 6, 7, 9, 10, 11, 12, 13, 17, 4],
    ),
    (Entry::WriteCallsWithCycle, &[0, 1, 2, 3, 16, 4, 5, 6, 7]),
    (
        Entry::WritePlannedWithCycle,
        &[0, 1, 2, 3, 16, 4, 5, 6, 7, 9, 10, 11, 12, 13],
    ),
    (
        Entry::ConvertToNew,
        &[0, 14, 1, 3, 15, 5, 6, 7, 9, 10, 11, 12, 13, 4],
    ),
    (
        Entry::ConvertToOld,
        &[0, 14, 1, 3, 15, 5, 6, 7, 9, 10, 11, 12, 13, 18, 4],
    ),
];

fn print_coverage(coverage: &Coverage) {
    for entry in Entry::ALL {
        let counts: Vec<String> = (0..=HIGHEST_NUMBER)
            .filter(|&number| coverage.count(entry, number) > 0)
            .map(|number| format!("{}: {}", number, coverage.count(entry, number)))
            .collect();
        println!("{:?}: {}", entry, counts.join(", "));
    }
    println!("total {}", coverage.total());
}

#[test]
fn drawn_inputs() {
    let mut coverage = Coverage::default();
    for input in drawn(1).take(DRAWN) {
        let seen = compare_all(&Plain, &Swift, &input).expect("both answer alike");
        coverage.add(seen);
    }
    print_coverage(&coverage);
    for (entry, numbers) in GIVEN {
        for number in 0..=HIGHEST_NUMBER {
            assert_eq!(
                coverage.count(entry, number) > 0,
                numbers.contains(&number),
                "{:?} {}",
                entry,
                number
            );
        }
    }
}

#[test]
fn every_small_input() {
    let coverage = compare_exhaustively(&Plain, &Swift).expect("both answer alike");
    print_coverage(&coverage);
    assert!(coverage.total() > 2_000_000);
}
