//! The shelf's control for Rust: plans settings, judges settings, adds and drops single calls,
//! reads, writes and converts plan files. The answers come from a library that is proved right for
//! all inputs; here slices are handed over and nothing else happens. The numbers are those of the
//! table in `README.md`; 0 is success, and any other number is a refusal, which changes no byte of
//! any buffer.
//!
//! The library is for x86-64 Linux. It allocates nothing and keeps nothing between calls. A call
//! takes stack, at most 1,344 bytes as today's kit compiles it (`docs/BENCHMARKS.md`).

/// A network: n channels of each module, m central modules, r input modules and as many output
/// modules, and w, the cycle of both gratings, which is the number of wavelengths inside the shelf.
/// Numbers of any value may be given: those outside the limits are refused.
#[derive(Clone, Copy, PartialEq, Eq, Debug)]
#[repr(C)]
pub struct Network {
    pub n: usize,
    pub m: usize,
    pub r: usize,
    pub w: usize,
}

impl Network {
    /// The network of these sizes with the least cycle, the larger of r and m: what a plan file of
    /// kind 1 or 2 stands for. Nothing is refused here.
    pub const fn of_sizes(n: usize, m: usize, r: usize) -> Network {
        let w = if r < m { m } else { r };
        Network { n, m, r, w }
    }
}

/// A number and a row: 0 and K, or a refusal and the row that it tells.
#[derive(Clone, Copy, PartialEq, Eq, Debug)]
#[repr(C)]
pub struct Verdict {
    pub number: usize,
    pub row: usize,
}

/// A number and a row, and how many calls were moved to make room for others.
#[derive(Clone, Copy, PartialEq, Eq, Debug)]
#[repr(C)]
pub struct Planned {
    pub number: usize,
    pub row: usize,
    pub moved: usize,
}

/// What a plan file tells: the network with its cycle, the kind, K, and where note, calls and
/// settings begin. The kinds are 1 (calls only), 2 (planned), and 3 and 4, the same with the cycle
/// in the file; for kinds 1 and 2 w is the larger of r and m. A refused file tells 0 for all but
/// number and row.
#[derive(Clone, Copy, PartialEq, Eq, Debug)]
#[repr(C)]
pub struct Told {
    pub number: usize,
    pub row: usize,
    pub n: usize,
    pub m: usize,
    pub r: usize,
    pub w: usize,
    pub kind: usize,
    pub count: usize,
    pub note_at: usize,
    pub calls_at: usize,
    pub settings_at: usize,
}

mod library {
    use super::{Network, Planned, Told, Verdict};

    // The functions of include/bolikwaru.h.
    extern "C" {
        pub fn bolikwaru_plan(
            net: Network,
            calls: *const u8,
            calls_length: usize,
            settings: *mut u8,
            settings_length: usize,
        ) -> Planned;

        pub fn bolikwaru_accept(
            net: Network,
            calls: *const u8,
            calls_length: usize,
            settings: *const u8,
            settings_length: usize,
        ) -> Verdict;

        pub fn bolikwaru_add(
            net: Network,
            calls: *const u8,
            calls_length: usize,
            settings: *const u8,
            settings_length: usize,
            call: *const u8,
            call_length: usize,
            calls_after: *mut u8,
            calls_after_length: usize,
            settings_after: *mut u8,
            settings_after_length: usize,
            moved_rows: *mut u8,
            moved_rows_length: usize,
        ) -> Planned;

        pub fn bolikwaru_drop(
            net: Network,
            calls: *const u8,
            calls_length: usize,
            settings: *const u8,
            settings_length: usize,
            row: usize,
            calls_after: *mut u8,
            calls_after_length: usize,
            settings_after: *mut u8,
            settings_after_length: usize,
        ) -> Verdict;

        pub fn bolikwaru_read(file: *const u8, file_length: usize) -> Told;

        pub fn bolikwaru_write_calls(
            net: Network,
            note: *const u8,
            note_length: usize,
            calls: *const u8,
            calls_length: usize,
            settings: *const u8,
            settings_length: usize,
            out: *mut u8,
            out_length: usize,
        ) -> Verdict;

        pub fn bolikwaru_write_planned(
            net: Network,
            note: *const u8,
            note_length: usize,
            calls: *const u8,
            calls_length: usize,
            settings: *const u8,
            settings_length: usize,
            out: *mut u8,
            out_length: usize,
        ) -> Verdict;

        pub fn bolikwaru_write_calls_with_cycle(
            net: Network,
            note: *const u8,
            note_length: usize,
            calls: *const u8,
            calls_length: usize,
            settings: *const u8,
            settings_length: usize,
            out: *mut u8,
            out_length: usize,
        ) -> Verdict;

        pub fn bolikwaru_write_planned_with_cycle(
            net: Network,
            note: *const u8,
            note_length: usize,
            calls: *const u8,
            calls_length: usize,
            settings: *const u8,
            settings_length: usize,
            out: *mut u8,
            out_length: usize,
        ) -> Verdict;

        pub fn bolikwaru_convert_to_new(
            file: *const u8,
            file_length: usize,
            out: *mut u8,
            out_length: usize,
        ) -> Verdict;

        pub fn bolikwaru_convert_to_old(
            file: *const u8,
            file_length: usize,
            out: *mut u8,
            out_length: usize,
        ) -> Verdict;
    }
}

// Why the calls below are sound: each function reads only the bytes of the slices it is handed, and
// writes only those that are `&mut`, which overlap no other since each is borrowed alone; it asks
// nothing else of its input. That is what the library's contracts say.

/// Plans the calls, and writes their settings to the first 3K bytes of `settings`; the bytes beyond
/// keep their values. Refusals are tried in the order 1, 2, 3, 4, 5, 6, 7, 8.
pub fn plan(net: Network, calls: &[u8], settings: &mut [u8]) -> Planned {
    unsafe {
        library::bolikwaru_plan(
            net,
            calls.as_ptr(),
            calls.len(),
            settings.as_mut_ptr(),
            settings.len(),
        )
    }
}

/// Judges settings from any planner: for calls in order the number is 0 exactly when the settings
/// are lawful. Refusals are tried in the order 1, 2, 3, 5, 6, 7, then row by row 9 to 13.
pub fn accept(net: Network, calls: &[u8], settings: &[u8]) -> Verdict {
    unsafe {
        library::bolikwaru_accept(
            net,
            calls.as_ptr(),
            calls.len(),
            settings.as_ptr(),
            settings.len(),
        )
    }
}

/// Adds one call to lawful settings: the table with the call in its last row, K, goes to the front
/// of `calls_after`, settings for it to the front of `settings_after`, and the rows that had to
/// change their central to the front of `moved_rows`, by two bytes each, the high byte first, in
/// the order in which the chain met them. Every other row keeps its settings. Success tells K + 1
/// and the number of rows moved; the bytes beyond what is written keep their values. Refusals are
/// tried in the order of [`accept`] for what is given; then 2 for a call that is not 4 bytes, 3 for
/// a table of 1,024 calls, 4 (room is for K + 1 calls, K + 1 settings and K moved rows), then 5, 6,
/// 7 and 8 with the row K.
pub fn add(
    net: Network,
    calls: &[u8],
    settings: &[u8],
    call: &[u8],
    calls_after: &mut [u8],
    settings_after: &mut [u8],
    moved_rows: &mut [u8],
) -> Planned {
    unsafe {
        library::bolikwaru_add(
            net,
            calls.as_ptr(),
            calls.len(),
            settings.as_ptr(),
            settings.len(),
            call.as_ptr(),
            call.len(),
            calls_after.as_mut_ptr(),
            calls_after.len(),
            settings_after.as_mut_ptr(),
            settings_after.len(),
            moved_rows.as_mut_ptr(),
            moved_rows.len(),
        )
    }
}

/// Drops one call: the table and its settings without that row go to the front of `calls_after` and
/// `settings_after`. Later rows close up, and no call is moved. Success tells K - 1; the bytes
/// beyond keep their values. Refusals are tried in the order of [`accept`] for what is given; then
/// 17 for a row that is not below K, then 4.
pub fn drop(
    net: Network,
    calls: &[u8],
    settings: &[u8],
    row: usize,
    calls_after: &mut [u8],
    settings_after: &mut [u8],
) -> Verdict {
    unsafe {
        library::bolikwaru_drop(
            net,
            calls.as_ptr(),
            calls.len(),
            settings.as_ptr(),
            settings.len(),
            row,
            calls_after.as_mut_ptr(),
            calls_after.len(),
            settings_after.as_mut_ptr(),
            settings_after.len(),
        )
    }
}

/// Reads a plan file of any kind. Refusals are tried in the order 14, 1, 3, 15, 5, 6, 7, then for a
/// planned file row by row 9 to 13.
pub fn read(file: &[u8]) -> Told {
    unsafe { library::bolikwaru_read(file.as_ptr(), file.len()) }
}

/// Writes a calls-only file, of kind 1, to the front of `out`; `settings` has no bytes. Refusals
/// are tried in the order 1, 2, 3, 16, 4, 5, 6, 7, then 18: a file of this kind has no place for a
/// cycle that is not the larger of r and m.
pub fn write_calls(
    net: Network,
    note: &[u8],
    calls: &[u8],
    settings: &[u8],
    out: &mut [u8],
) -> Verdict {
    unsafe {
        library::bolikwaru_write_calls(
            net,
            note.as_ptr(),
            note.len(),
            calls.as_ptr(),
            calls.len(),
            settings.as_ptr(),
            settings.len(),
            out.as_mut_ptr(),
            out.len(),
        )
    }
}

/// Writes a planned file, of kind 2, to the front of `out`. Refusals are tried in the order 1, 2,
/// 3, 16, 4, 5, 6, 7, then row by row 9 to 13, then 18 as above.
pub fn write_planned(
    net: Network,
    note: &[u8],
    calls: &[u8],
    settings: &[u8],
    out: &mut [u8],
) -> Verdict {
    unsafe {
        library::bolikwaru_write_planned(
            net,
            note.as_ptr(),
            note.len(),
            calls.as_ptr(),
            calls.len(),
            settings.as_ptr(),
            settings.len(),
            out.as_mut_ptr(),
            out.len(),
        )
    }
}

/// Writes a calls-only file that tells the cycle, of kind 3, to the front of `out`; `settings` has
/// no bytes. Refusals are tried in the order 1, 2, 3, 16, 4, 5, 6, 7.
pub fn write_calls_with_cycle(
    net: Network,
    note: &[u8],
    calls: &[u8],
    settings: &[u8],
    out: &mut [u8],
) -> Verdict {
    unsafe {
        library::bolikwaru_write_calls_with_cycle(
            net,
            note.as_ptr(),
            note.len(),
            calls.as_ptr(),
            calls.len(),
            settings.as_ptr(),
            settings.len(),
            out.as_mut_ptr(),
            out.len(),
        )
    }
}

/// Writes a planned file that tells the cycle, of kind 4, to the front of `out`. Refusals are tried
/// in the order 1, 2, 3, 16, 4, 5, 6, 7, then row by row 9 to 13.
pub fn write_planned_with_cycle(
    net: Network,
    note: &[u8],
    calls: &[u8],
    settings: &[u8],
    out: &mut [u8],
) -> Verdict {
    unsafe {
        library::bolikwaru_write_planned_with_cycle(
            net,
            note.as_ptr(),
            note.len(),
            calls.as_ptr(),
            calls.len(),
            settings.as_ptr(),
            settings.len(),
            out.as_mut_ptr(),
            out.len(),
        )
    }
}

/// Converts a file of kind 1 or 2 to one of kind 3 or 4, at the front of `out`; the bytes beyond
/// keep their values, and success tells K. Refusals are tried in the order of [`read`], where 14 is
/// given for any kind but 1 and 2; then 18, which no such file is refused, then 4.
pub fn convert_to_new(file: &[u8], out: &mut [u8]) -> Verdict {
    unsafe {
        library::bolikwaru_convert_to_new(file.as_ptr(), file.len(), out.as_mut_ptr(), out.len())
    }
}

/// Converts a file of kind 3 or 4 to one of kind 1 or 2, at the front of `out`; the bytes beyond
/// keep their values, and success tells K. Refusals are tried in the order of [`read`], where 14 is
/// given for any kind but 3 and 4; then 18 for a cycle that is not the larger of r and m, then 4.
pub fn convert_to_old(file: &[u8], out: &mut [u8]) -> Verdict {
    unsafe {
        library::bolikwaru_convert_to_old(file.as_ptr(), file.len(), out.as_mut_ptr(), out.len())
    }
}
