//! How far down the stack a call reaches.
//!
//! The call is made on a thread whose stack is memory of our own. That memory is painted before, and
//! afterwards the deepest byte that isn't paint is sought.
//!
//! Why this is sound. The memory is a live allocation, aligned to pages, which nothing else touches
//! from the thread's creation until it has been joined. It has no guard page below; it is far larger
//! than what a call here takes, and its lowest page is looked at afterwards. The thread is handed a
//! pointer to the task, which stands in the frame that waits for it, and the call may be sent to
//! another thread. No panic leaves the thread. The declarations are those of POSIX, with records that
//! are as large as the system's or larger.

use std::os::raw::{c_int, c_void};
use std::panic::{catch_unwind, resume_unwind, AssertUnwindSafe};

/// A call to be measured.
pub type Call<'a> = &'a mut (dyn FnMut() + Send);

/// Bytes of a return address.
const RETURN_ADDRESS: usize = std::mem::size_of::<usize>();

/// How many bytes a call touches below the stack pointer that its caller has when it calls: the
/// return address, the frame of the function and the frames of all that it calls, down to the deepest
/// byte changed.
///
/// `empty` takes the very same way to its call, but to a function that does nothing: compiled for
/// speed, that one touches the return address and no more. What is used on the way is thereby left
/// out.
pub fn below_caller(call: Call, empty: Call) -> usize {
    reach(call) + RETURN_ADDRESS - reach(empty)
}

/// How many bytes lie between an address in the frame from which `call` is called and the deepest
/// byte changed. Two paints are tried, since what is written could look like one of them.
fn reach(call: Call) -> usize {
    reach_in(0xa5, call).max(reach_in(0x5a, call))
}

const PAGE: usize = 4096;

/// Pages of the thread's stack.
const PAGES: usize = 256;

#[derive(Clone)]
#[repr(C, align(4096))]
struct Page([u8; PAGE]);

fn reach_in(paint: u8, call: Call) -> usize {
    let mut stack = vec![Page([paint; PAGE]); PAGES];
    let lowest = stack.as_mut_ptr();
    let mut task = Task {
        call,
        caller: 0,
        outcome: Ok(()),
    };
    run(&mut task, lowest);
    if let Err(panic) = task.outcome {
        resume_unwind(panic);
    }
    let kept = stack
        .iter()
        .flat_map(|page| &page.0)
        .take_while(|&&byte| byte == paint)
        .count();
    assert!(kept > PAGE, "the stack was large enough");
    task.caller - (lowest as usize + kept)
}

/// What the thread is to do, an address in the frame from which it did so, and what came of it.
struct Task<'a> {
    call: Call<'a>,
    caller: usize,
    outcome: std::thread::Result<()>,
}

/// Carries out a task on a thread with a stack of `PAGES` pages, and waits for its end.
fn run(task: &mut Task, stack: *mut Page) {
    let mut attributes = Attributes([0; 16]);
    let mut thread: Thread = 0;
    let task: *mut Task = task;
    unsafe {
        done(pthread_attr_init(&mut attributes));
        done(pthread_attr_setstack(
            &mut attributes,
            stack.cast(),
            PAGE * PAGES,
        ));
        done(pthread_create(&mut thread, &attributes, begin, task.cast()));
        done(pthread_join(thread, std::ptr::null_mut()));
        done(pthread_attr_destroy(&mut attributes));
    }
}

fn done(error: c_int) {
    assert_eq!(error, 0, "threads can be made");
}

/// Where the thread begins. The argument is a task.
extern "C" fn begin(task: *mut c_void) -> *mut c_void {
    let task = unsafe { &mut *task.cast::<Task>() };
    task.outcome = catch_unwind(AssertUnwindSafe(|| {
        call_further_down(task.call, &mut task.caller)
    }));
    std::ptr::null_mut()
}

/// Makes the call below a page that is left free, so that what the thread itself does before and
/// after, above that page, never reaches as deep as the call. Tells the page's address.
#[inline(never)]
fn call_further_down(call: Call, caller: &mut usize) {
    let mut free = std::mem::MaybeUninit::<[u8; PAGE]>::uninit();
    let first: *mut u8 = free.as_mut_ptr().cast();
    *caller = first as usize;
    call();
    // Written here, the page is in use until now.
    unsafe { std::ptr::write_volatile(first, 0) };
}

/// A thread's name, and what a thread is made by.
type Thread = usize;

#[repr(C)]
struct Attributes([u64; 16]);

extern "C" {
    fn pthread_attr_init(attributes: *mut Attributes) -> c_int;
    fn pthread_attr_setstack(
        attributes: *mut Attributes,
        lowest: *mut c_void,
        length: usize,
    ) -> c_int;
    fn pthread_attr_destroy(attributes: *mut Attributes) -> c_int;
    fn pthread_create(
        thread: *mut Thread,
        attributes: *const Attributes,
        begin: extern "C" fn(*mut c_void) -> *mut c_void,
        argument: *mut c_void,
    ) -> c_int;
    fn pthread_join(thread: Thread, answer: *mut *mut c_void) -> c_int;
}

#[cfg(test)]
mod tests {
    use super::*;

    /// Writes so many bytes of its own frame.
    #[inline(never)]
    fn touch<const LENGTH: usize>() {
        let mut bytes = [0u8; LENGTH];
        for byte in &mut bytes {
            unsafe { std::ptr::write_volatile(byte, 0xa5) };
        }
    }

    fn nothing() {}

    /// What a function reaches, called by its pointer.
    fn reach_of(function: fn()) -> usize {
        let mut called = || function();
        reach(&mut called)
    }

    #[test]
    fn bytes_of_a_frame_are_counted() {
        let small = reach_of(touch::<1000>);
        let large = reach_of(touch::<9000>);
        assert!((7984..=8016).contains(&(large - small)));
        assert!((1000..1300).contains(&(small + RETURN_ADDRESS - reach_of(nothing))));
    }

    #[test]
    fn an_empty_call_touches_its_return_address() {
        assert_eq!(below_caller(&mut nothing, &mut nothing), RETURN_ADDRESS);
    }

    #[test]
    #[should_panic(expected = "on the other thread")]
    fn a_panic_comes_back() {
        reach(&mut || panic!("on the other thread"));
    }
}
