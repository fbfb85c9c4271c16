//! Times the proved library against the implementation written for speed by the same method, and its
//! planner against the one in C that keeps an index, on the same inputs in the same run. The two take
//! turns, and the least time of many turns counts for each. Prints, in Markdown, the times, the growth
//! of the planner with K, the planner beside the one in C, and the stack that a call touches below its
//! caller's frame: on each table for the calls that follow a chain, and the most over all tables.
//!
//! `benchmark stack` prints the stack alone, and ends with status 1 where a call of the library takes
//! more than the shelf controller has.
//!
//! `benchmark count SIDE CALL TABLE TIMES` makes one call so often and prints nothing else: for a
//! counter of instructions, by the difference of two runs. SIDE is `library` or `rust`, or for the
//! planner `c`; CALL and TABLE are places in the lists of `tables.rs`.

use compare::functions::{Nothing, EMPTY, LIBRARY};
use compare::indexed::Planner;
use compare::library::Library;
use compare::stack::below_caller;
use compare::swift::Swift;
use compare::tables::{
    full_tables, growing, tables, Table, Timed, ADD, LARGEST_ROOM, OF_FULL_TABLES, PLAN, TIMED,
};
use compare::Entries;
use std::process::exit;
use std::time::{Duration, Instant};

/// How often the two take turns on an input.
const TURNS: usize = 60;

/// How often the two planners take turns on full tables.
const TURNS_ON_FULL_TABLES: usize = 12;

/// The least time of one turn: short calls are repeated until it is reached.
const TURN: Duration = Duration::from_micros(2000);

fn main() {
    let arguments: Vec<String> = std::env::args().skip(1).collect();
    let words: Vec<&str> = arguments.iter().map(String::as_str).collect();
    match words[..] {
        [] => {
            show_times();
            show_growth();
            show_full_tables();
            show_stack();
        }
        ["stack"] => {
            let most = show_stack();
            if !is_within_stack(&most) {
                exit(1);
            }
        }
        ["count", side, call, table, times] if count(side, [call, table, times]).is_some() => {}
        _ => {
            eprintln!("usage: benchmark [stack | count library|rust|c CALL TABLE TIMES]");
            exit(2);
        }
    }
}

/// Makes one call so often, if the words name one.
fn count(side: &str, words: [&str; 3]) -> Option<()> {
    let [call, table, times] = words.map(|word| word.parse::<usize>().ok());
    let (place, times) = (call?, times?);
    let timed = TIMED.get(place)?;
    let tables = tables();
    let table = tables.get(table?)?;
    match side {
        "library" => repeat(times, |room| timed.1(&Library, table, room)),
        "rust" => repeat(times, |room| timed.1(&Swift, table, room)),
        "c" if place == PLAN => repeat(times, |room| plan_by(&Planner::INDEXED, table, room)),
        _ => return None,
    }
    Some(())
}

/// The number that a planner in C answers to a table.
fn plan_by(planner: &Planner, table: &Table, room: &mut [u8]) -> usize {
    planner.plan(table.net, &table.calls, room).number
}

/// Makes a call so often, which answers a number. None is refused.
fn repeat(times: usize, call: impl Fn(&mut [u8]) -> usize) {
    let mut room = [0; LARGEST_ROOM];
    for _ in 0..times {
        assert_eq!(call(&mut room), 0, "no call is refused");
    }
}

// Times.

fn show_times() {
    println!("| call | input | K | moved | by the last | library | Rust | ratio |");
    println!("|---|---|---|---|---|---|---|---|");
    for table in &tables() {
        for timed in TIMED {
            let (library, swift) = time_both(timed, table);
            println!(
                "| {} | {} | {} | {} | {} | {} | {} | {:.2} |",
                timed.0,
                table.name,
                table.count(),
                table.moved,
                table.moved_by_last,
                shown(library),
                shown(swift),
                ratio(library, swift)
            );
        }
    }
    println!();
}

fn show_growth() {
    println!("| K | moved | library | Rust | ratio |");
    println!("|---|---|---|---|---|");
    for count in (64..=1024).step_by(64) {
        let table = growing(count);
        let (library, swift) = time_both(TIMED[PLAN], &table);
        println!(
            "| {} | {} | {} | {} | {:.2} |",
            count,
            table.moved,
            shown(library),
            shown(swift),
            ratio(library, swift)
        );
    }
    println!();
}

/// The planner beside the one in C, on full tables in drawn order: the mean over all tables of a
/// network of the calls moved and of the time. A turn is over all of them.
fn show_full_tables() {
    println!("| table | moved | library | indexed C | ratio |");
    println!("|---|---|---|---|---|");
    for net in OF_FULL_TABLES {
        let tables = full_tables(net);
        let count = tables.len() as u32;
        let plan = |calls: &[u8], room: &mut [u8]| Library.plan(net, calls, room);
        let plan_by_index = |calls: &[u8], room: &mut [u8]| Planner::INDEXED.plan(net, calls, room);
        let moved = total(&tables, |calls| {
            plan_by_index(calls, &mut [0; LARGEST_ROOM]).moved
        });
        let (library, indexed) = take_turns(
            TURNS_ON_FULL_TABLES,
            |room| total(&tables, |calls| plan(calls, room).number),
            |room| total(&tables, |calls| plan_by_index(calls, room).number),
        );
        println!(
            "| {}-{}-{}, K = {} | {:.2} | {} | {} | {:.2} |",
            net.n,
            net.m,
            net.r,
            net.n * net.r,
            moved as f64 / f64::from(count),
            shown(library / count),
            shown(indexed / count),
            ratio(library, indexed)
        );
    }
    println!();
}

/// The sum over all tables of a number that is answered to each.
fn total(tables: &[Vec<u8>], answer: impl FnMut(&Vec<u8>) -> usize) -> usize {
    tables.iter().map(answer).sum()
}

/// The least time of one call, of the library and of the other.
fn time_both(timed: Timed, table: &Table) -> (Duration, Duration) {
    take_turns(
        TURNS,
        |room| timed.1(&Library, table, room),
        |room| timed.1(&Swift, table, room),
    )
}

/// The least time of one call of each, where the two take so many turns. Both make as many calls in a
/// turn as the other one needs to fill its own.
fn take_turns(
    turns: usize,
    library: impl Fn(&mut [u8]) -> usize,
    other: impl Fn(&mut [u8]) -> usize,
) -> (Duration, Duration) {
    let mut repeats = 1;
    while turn(repeats, &other) < TURN {
        repeats *= 2;
    }
    let mut least = (Duration::MAX, Duration::MAX);
    for _ in 0..turns {
        least.0 = least.0.min(turn(repeats, &library));
        least.1 = least.1.min(turn(repeats, &other));
    }
    (least.0 / repeats, least.1 / repeats)
}

fn turn(repeats: u32, call: impl Fn(&mut [u8]) -> usize) -> Duration {
    let began = Instant::now();
    repeat(repeats as usize, call);
    began.elapsed()
}

fn ratio(library: Duration, other: Duration) -> f64 {
    library.as_secs_f64() / other.as_secs_f64()
}

fn shown(time: Duration) -> String {
    format!("{:.1} µs", time.as_secs_f64() * 1e6)
}

// The stack.

/// The stack that the shelf controller has.
const MOST_STACK: usize = 4096;

/// How far a call reaches below its caller's frame: of the library by its functions for C, of the
/// other by its functions in Rust, and where it plans of the planner in C.
#[derive(Clone, Copy, Default)]
struct Stack {
    library: usize,
    swift: usize,
    indexed: Option<usize>,
}

/// An implementation of the entries.
type Side = &'static (dyn Entries + Sync);

impl Stack {
    /// The stack of the call at a place of the list.
    fn of_call(place: usize, table: &Table) -> Stack {
        let timed = TIMED[place];
        let call = |side: Side, room: &mut [u8]| timed.1(side, table, room);
        let plan = |planner: &Planner, room: &mut [u8]| plan_by(planner, table, room);
        let indexed = || stack_below_caller([&Planner::INDEXED, &Planner::EMPTY], plan);
        Stack {
            library: stack_below_caller([&LIBRARY as Side, &EMPTY], call),
            swift: stack_below_caller([&Swift as Side, &Nothing], call),
            indexed: if place == PLAN { Some(indexed()) } else { None },
        }
    }

    /// For each side the larger of the two.
    fn most(self, other: Stack) -> Stack {
        Stack {
            library: self.library.max(other.library),
            swift: self.swift.max(other.swift),
            indexed: self.indexed.max(other.indexed),
        }
    }

    /// The columns of a table.
    fn shown(&self) -> String {
        let indexed = self.indexed.map_or("-".to_string(), bytes);
        [bytes(self.library), bytes(self.swift), indexed].join(" | ")
    }
}

fn bytes(number: usize) -> String {
    format!("{} bytes", number)
}

/// The most stack of a call over all tables, and the table on which the library takes it.
#[derive(Clone, Copy, Default)]
struct Most {
    stack: Stack,
    table: &'static str,
}

/// Shows the stack on each table of the calls that follow a chain, with the longest chain that they
/// follow there, and then the most over all tables of every call, which is answered.
fn show_stack() -> [Most; TIMED.len()] {
    println!("| input | call | longest chain | library | Rust | indexed C |");
    println!("|---|---|---|---|---|---|");
    let mut most = [Most::default(); TIMED.len()];
    for table in &tables() {
        for (place, most) in most.iter_mut().enumerate() {
            let stack = Stack::of_call(place, table);
            if let Some(chain) = longest_chain(place, table) {
                let [input, call] = [table.name, TIMED[place].0];
                println!("| {} | {} | {} | {} |", input, call, chain, stack.shown());
            }
            if stack.library > most.stack.library {
                most.table = table.name;
            }
            most.stack = most.stack.most(stack);
        }
    }
    println!();
    show_most_stack(&most);
    most
}

fn show_most_stack(most: &[Most]) {
    println!("| call | library | Rust | indexed C |");
    println!("|---|---|---|---|");
    for (timed, most) in TIMED.into_iter().zip(most) {
        println!("| {} | {} |", timed.0, most.stack.shown());
    }
}

/// How many calls are on the longest chain that a call follows, where it is one that follows chains.
fn longest_chain(place: usize, table: &Table) -> Option<usize> {
    match place {
        PLAN => Some(table.longest_chain()),
        ADD => Some(table.moved_by_last),
        _ => None,
    }
}

/// Whether no call of the library takes more stack than there is. Those that do are told.
fn is_within_stack(most: &[Most]) -> bool {
    let mut is_within = true;
    for (timed, most) in TIMED.into_iter().zip(most) {
        if most.stack.library > MOST_STACK {
            println!(
                "{} takes {} of stack on {}, more than {}",
                timed.0,
                bytes(most.stack.library),
                most.table,
                MOST_STACK
            );
            is_within = false;
        }
    }
    is_within
}

/// How far a call of the first of two sides reaches below its caller's frame. The second does nothing
/// in its place, and both are called by the same code.
fn stack_below_caller<S: Copy + Send>(
    [called, empty]: [S; 2],
    call: impl Fn(S, &mut [u8]) -> usize + Copy + Send,
) -> usize {
    // Once before, so that nothing is left to be done at a first call.
    repeat(1, |room| call(called, room));
    let mut rooms = [[0; LARGEST_ROOM]; 2];
    let [room, other_room] = &mut rooms;
    let mut one = call_with(called, call, room);
    let mut other = call_with(empty, call, other_room);
    below_caller(&mut one, &mut other)
}

/// A call with all that is handed to it.
fn call_with<'a, S: Copy + Send + 'a>(
    side: S,
    call: impl Fn(S, &mut [u8]) -> usize + Send + 'a,
    room: &'a mut [u8],
) -> impl FnMut() + Send + 'a {
    move || {
        call(side, room);
    }
}
