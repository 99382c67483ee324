//! Stands in for the C library's clock, so that the timing program linked with it says bytes of stack, not time.
#![no_std]

#[path = "../src/pace/stack.rs"]
mod stack;

/// # Safety
/// As the C library's: `time` has room for seconds and nanoseconds.
#[no_mangle]
pub unsafe extern "C" fn clock_gettime(_clock: i32, time: *mut [i64; 2]) -> i32 {
    // All of it counts as nanoseconds: it is small.
    unsafe { *time = [0, stack::stack_clock() as i64] };
    0
}
