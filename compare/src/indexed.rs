//! The planner in C of `c/indexed.c`, which keeps an index of the rows, behind a safe function; and
//! what does nothing in its place, called by the very same code.

use crate::{Network, Planned};

/// n, m, r and w, the calls, the room for their settings, and where the answer goes.
type Plan = unsafe extern "C" fn(
    usize,
    usize,
    usize,
    usize,
    *const u8,
    usize,
    *mut u8,
    usize,
    *mut Planned,
);

/// A planner behind a function in C.
pub struct Planner {
    plan: Plan,
}

extern "C" {
    fn indexed_plan(
        n: usize,
        m: usize,
        r: usize,
        w: usize,
        calls: *const u8,
        calls_length: usize,
        settings: *mut u8,
        settings_length: usize,
        answer: *mut Planned,
    );
}

extern "C" fn plan_nothing(
    _: usize,
    _: usize,
    _: usize,
    _: usize,
    _: *const u8,
    _: usize,
    _: *mut u8,
    _: usize,
    _: *mut Planned,
) {
}

impl Planner {
    /// The planner with an index.
    pub const INDEXED: Planner = Planner { plan: indexed_plan };

    /// A planner that does nothing.
    pub const EMPTY: Planner = Planner { plan: plan_nothing };

    /// Plans a call table, and writes its settings to the first 3K bytes of `settings`. Numbers of any
    /// size and slices of any length and content are answered.
    ///
    /// Why this is sound. There are no planners but the two above, and the other one touches nothing.
    /// This one reads `calls` and writes `settings` within the lengths that it is given, which are
    /// theirs, and writes the answer, whose form is the same on both sides; the three do not overlap.
    /// It keeps no pointer, and what it looks up in its own records is below their limits by its
    /// checks.
    pub fn plan(&self, net: Network, calls: &[u8], settings: &mut [u8]) -> Planned {
        let mut answer = Planned::default();
        unsafe {
            (self.plan)(
                net.n,
                net.m,
                net.r,
                net.w,
                calls.as_ptr(),
                calls.len(),
                settings.as_mut_ptr(),
                settings.len(),
                &mut answer,
            );
        }
        answer
    }
}
