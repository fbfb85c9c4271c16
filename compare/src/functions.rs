//! The library's functions for C behind pointers, and what does nothing in their place and in that
//! of an implementation in Rust. Something and nothing are called by the very same code, so that
//! measured side by side they tell what a function uses by itself.

use crate::{Entries, Network, Planned, Told, Verdict};

type Plan = unsafe extern "C" fn(Network, *const u8, usize, *mut u8, usize) -> Planned;
type Accept = unsafe extern "C" fn(Network, *const u8, usize, *const u8, usize) -> Verdict;
type Read = unsafe extern "C" fn(*const u8, usize) -> Told;
type Write = unsafe extern "C" fn(
    Network,
    *const u8,
    usize,
    *const u8,
    usize,
    *const u8,
    usize,
    *mut u8,
    usize,
) -> Verdict;

type Convert = unsafe extern "C" fn(*const u8, usize, *mut u8, usize) -> Verdict;
type Add = unsafe extern "C" fn(
    Network,
    *const u8,
    usize,
    *const u8,
    usize,
    *const u8,
    usize,
    *mut u8,
    usize,
    *mut u8,
    usize,
    *mut u8,
    usize,
) -> Planned;
type Drop = unsafe extern "C" fn(
    Network,
    *const u8,
    usize,
    *const u8,
    usize,
    usize,
    *mut u8,
    usize,
    *mut u8,
    usize,
) -> Verdict;

/// Eleven functions of the forms that include/bolikwaru.h has. They ask no more of their input than is
/// said there, so that any slices may be handed over.
pub struct Functions {
    plan: Plan,
    accept: Accept,
    read: Read,
    write_calls: Write,
    write_planned: Write,
    add: Add,
    drop: Drop,
    write_calls_with_cycle: Write,
    write_planned_with_cycle: Write,
    convert_to_new: Convert,
    convert_to_old: Convert,
}

/// The library's functions.
pub const LIBRARY: Functions = Functions {
    plan: bolikwaru_plan,
    accept: bolikwaru_accept,
    read: bolikwaru_read,
    write_calls: bolikwaru_write_calls,
    write_planned: bolikwaru_write_planned,
    add: bolikwaru_add,
    drop: bolikwaru_drop,
    write_calls_with_cycle: bolikwaru_write_calls_with_cycle,
    write_planned_with_cycle: bolikwaru_write_planned_with_cycle,
    convert_to_new: bolikwaru_convert_to_new,
    convert_to_old: bolikwaru_convert_to_old,
};

/// Functions that do nothing.
pub const EMPTY: Functions = Functions {
    plan: plan_nothing,
    accept: accept_nothing,
    read: read_nothing,
    write_calls: write_nothing,
    write_planned: write_nothing,
    add: add_nothing,
    drop: drop_nothing,
    write_calls_with_cycle: write_nothing,
    write_planned_with_cycle: write_nothing,
    convert_to_new: convert_nothing,
    convert_to_old: convert_nothing,
};

extern "C" {
    fn bolikwaru_plan(
        net: Network,
        calls: *const u8,
        calls_length: usize,
        settings: *mut u8,
        settings_length: usize,
    ) -> Planned;
    fn bolikwaru_accept(
        net: Network,
        calls: *const u8,
        calls_length: usize,
        settings: *const u8,
        settings_length: usize,
    ) -> Verdict;
    fn bolikwaru_read(file: *const u8, file_length: usize) -> Told;
    fn bolikwaru_write_calls(
        net: Network,
        note: *const u8,
        note_length: usize,
        calls: *const u8,
        calls_length: usize,
        settings: *const u8,
        settings_length: usize,
        out: *mut u8,
        out_length: usize,
    ) -> Verdict;
    fn bolikwaru_write_planned(
        net: Network,
        note: *const u8,
        note_length: usize,
        calls: *const u8,
        calls_length: usize,
        settings: *const u8,
        settings_length: usize,
        out: *mut u8,
        out_length: usize,
    ) -> Verdict;
    fn bolikwaru_add(
        net: Network,
        calls: *const u8,
        calls_length: usize,
        settings: *const u8,
        settings_length: usize,
        call: *const u8,
        call_length: usize,
        calls_after: *mut u8,
        calls_after_length: usize,
        settings_after: *mut u8,
        settings_after_length: usize,
        moved_rows: *mut u8,
        moved_rows_length: usize,
    ) -> Planned;
    fn bolikwaru_drop(
        net: Network,
        calls: *const u8,
        calls_length: usize,
        settings: *const u8,
        settings_length: usize,
        row: usize,
        calls_after: *mut u8,
        calls_after_length: usize,
        settings_after: *mut u8,
        settings_after_length: usize,
    ) -> Verdict;
    fn bolikwaru_write_calls_with_cycle(
        net: Network,
        note: *const u8,
        note_length: usize,
        calls: *const u8,
        calls_length: usize,
        settings: *const u8,
        settings_length: usize,
        out: *mut u8,
        out_length: usize,
    ) -> Verdict;
    fn bolikwaru_write_planned_with_cycle(
        net: Network,
        note: *const u8,
        note_length: usize,
        calls: *const u8,
        calls_length: usize,
        settings: *const u8,
        settings_length: usize,
        out: *mut u8,
        out_length: usize,
    ) -> Verdict;
    fn bolikwaru_convert_to_new(
        file: *const u8,
        file_length: usize,
        out: *mut u8,
        out_length: usize,
    ) -> Verdict;
    fn bolikwaru_convert_to_old(
        file: *const u8,
        file_length: usize,
        out: *mut u8,
        out_length: usize,
    ) -> Verdict;
}

extern "C" fn plan_nothing(_: Network, _: *const u8, _: usize, _: *mut u8, _: usize) -> Planned {
    Planned::default()
}

extern "C" fn accept_nothing(
    _: Network,
    _: *const u8,
    _: usize,
    _: *const u8,
    _: usize,
) -> Verdict {
    Verdict::default()
}

extern "C" fn read_nothing(_: *const u8, _: usize) -> Told {
    Told::default()
}

extern "C" fn write_nothing(
    _: Network,
    _: *const u8,
    _: usize,
    _: *const u8,
    _: usize,
    _: *const u8,
    _: usize,
    _: *mut u8,
    _: usize,
) -> Verdict {
    Verdict::default()
}

extern "C" fn add_nothing(
    _: Network,
    _: *const u8,
    _: usize,
    _: *const u8,
    _: usize,
    _: *const u8,
    _: usize,
    _: *mut u8,
    _: usize,
    _: *mut u8,
    _: usize,
    _: *mut u8,
    _: usize,
) -> Planned {
    Planned::default()
}

extern "C" fn drop_nothing(
    _: Network,
    _: *const u8,
    _: usize,
    _: *const u8,
    _: usize,
    _: usize,
    _: *mut u8,
    _: usize,
    _: *mut u8,
    _: usize,
) -> Verdict {
    Verdict::default()
}

extern "C" fn convert_nothing(_: *const u8, _: usize, _: *mut u8, _: usize) -> Verdict {
    Verdict::default()
}

impl Entries for Functions {
    fn plan(&self, net: Network, calls: &[u8], settings: &mut [u8]) -> Planned {
        unsafe {
            (self.plan)(
                net,
                calls.as_ptr(),
                calls.len(),
                settings.as_mut_ptr(),
                settings.len(),
            )
        }
    }

    fn accept(&self, net: Network, calls: &[u8], settings: &[u8]) -> Verdict {
        unsafe {
            (self.accept)(
                net,
                calls.as_ptr(),
                calls.len(),
                settings.as_ptr(),
                settings.len(),
            )
        }
    }

    fn read(&self, file: &[u8]) -> Told {
        unsafe { (self.read)(file.as_ptr(), file.len()) }
    }

    fn write_calls(
        &self,
        net: Network,
        note: &[u8],
        calls: &[u8],
        settings: &[u8],
        out: &mut [u8],
    ) -> Verdict {
        write(self.write_calls, net, [note, calls, settings], out)
    }

    fn write_planned(
        &self,
        net: Network,
        note: &[u8],
        calls: &[u8],
        settings: &[u8],
        out: &mut [u8],
    ) -> Verdict {
        write(self.write_planned, net, [note, calls, settings], out)
    }

    fn write_calls_with_cycle(
        &self,
        net: Network,
        note: &[u8],
        calls: &[u8],
        settings: &[u8],
        out: &mut [u8],
    ) -> Verdict {
        let parts = [note, calls, settings];
        write(self.write_calls_with_cycle, net, parts, out)
    }

    fn write_planned_with_cycle(
        &self,
        net: Network,
        note: &[u8],
        calls: &[u8],
        settings: &[u8],
        out: &mut [u8],
    ) -> Verdict {
        let parts = [note, calls, settings];
        write(self.write_planned_with_cycle, net, parts, out)
    }

    fn convert_to_new(&self, file: &[u8], out: &mut [u8]) -> Verdict {
        convert(self.convert_to_new, file, out)
    }

    fn convert_to_old(&self, file: &[u8], out: &mut [u8]) -> Verdict {
        convert(self.convert_to_old, file, out)
    }

    fn add(
        &self,
        net: Network,
        calls: &[u8],
        settings: &[u8],
        call: &[u8],
        rooms: [&mut [u8]; 3],
    ) -> Planned {
        let [calls_after, settings_after, moved_rows] = rooms;
        unsafe {
            (self.add)(
                net,
                calls.as_ptr(),
                calls.len(),
                settings.as_ptr(),
                settings.len(),
                call.as_ptr(),
                call.len(),
                calls_after.as_mut_ptr(),
                calls_after.len(),
                settings_after.as_mut_ptr(),
                settings_after.len(),
                moved_rows.as_mut_ptr(),
                moved_rows.len(),
            )
        }
    }

    fn drop(
        &self,
        net: Network,
        calls: &[u8],
        settings: &[u8],
        row: usize,
        rooms: [&mut [u8]; 2],
    ) -> Verdict {
        let [calls_after, settings_after] = rooms;
        unsafe {
            (self.drop)(
                net,
                calls.as_ptr(),
                calls.len(),
                settings.as_ptr(),
                settings.len(),
                row,
                calls_after.as_mut_ptr(),
                calls_after.len(),
                settings_after.as_mut_ptr(),
                settings_after.len(),
            )
        }
    }
}

fn write(function: Write, net: Network, parts: [&[u8]; 3], out: &mut [u8]) -> Verdict {
    let [note, calls, settings] = parts;
    unsafe {
        function(
            net,
            note.as_ptr(),
            note.len(),
            calls.as_ptr(),
            calls.len(),
            settings.as_ptr(),
            settings.len(),
            out.as_mut_ptr(),
            out.len(),
        )
    }
}

fn convert(function: Convert, file: &[u8], out: &mut [u8]) -> Verdict {
    unsafe { function(file.as_ptr(), file.len(), out.as_mut_ptr(), out.len()) }
}

/// Entries in Rust that do nothing.
pub struct Nothing;

impl Entries for Nothing {
    fn plan(&self, _: Network, _: &[u8], _: &mut [u8]) -> Planned {
        Planned::default()
    }

    fn accept(&self, _: Network, _: &[u8], _: &[u8]) -> Verdict {
        Verdict::default()
    }

    fn read(&self, _: &[u8]) -> Told {
        Told::default()
    }

    fn write_calls(&self, _: Network, _: &[u8], _: &[u8], _: &[u8], _: &mut [u8]) -> Verdict {
        Verdict::default()
    }

    fn write_planned(&self, _: Network, _: &[u8], _: &[u8], _: &[u8], _: &mut [u8]) -> Verdict {
        Verdict::default()
    }

    fn add(&self, _: Network, _: &[u8], _: &[u8], _: &[u8], _: [&mut [u8]; 3]) -> Planned {
        Planned::default()
    }

    fn drop(&self, _: Network, _: &[u8], _: &[u8], _: usize, _: [&mut [u8]; 2]) -> Verdict {
        Verdict::default()
    }

    fn write_calls_with_cycle(
        &self,
        _: Network,
        _: &[u8],
        _: &[u8],
        _: &[u8],
        _: &mut [u8],
    ) -> Verdict {
        Verdict::default()
    }

    fn write_planned_with_cycle(
        &self,
        _: Network,
        _: &[u8],
        _: &[u8],
        _: &[u8],
        _: &mut [u8],
    ) -> Verdict {
        Verdict::default()
    }

    fn convert_to_new(&self, _: &[u8], _: &mut [u8]) -> Verdict {
        Verdict::default()
    }

    fn convert_to_old(&self, _: &[u8], _: &mut [u8]) -> Verdict {
        Verdict::default()
    }
}
