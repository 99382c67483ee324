//! A clock that counts the bytes of stack that calls need, not time.

use core::sync::atomic::{AtomicU64, Ordering::Relaxed};

/// Bytes below the caller that are looked at.
const WATCHED: usize = 65_536;
/// The next bytes may be this function's own: less than this is not told apart.
pub const OWN: usize = 256;
const PAINT: u8 = 0xC9;

static USED: AtomicU64 = AtomicU64::new(0);

/// Goes on by the stack used below here since the reading before, from the same depth: there the paint is gone.
#[inline(never)]
pub fn stack_clock() -> u64 {
    let here = 0u64;
    let top = &raw const here as usize;
    // Volatile, as the compiler knows nothing of what calls that have returned left there.
    let lowest = (top - WATCHED..top - OWN).find(|at| unsafe { (*at as *const u8).read_volatile() } != PAINT);
    for at in top - WATCHED..top - OWN {
        unsafe { (at as *mut u8).write_volatile(PAINT) };
    }
    let used = top - lowest.unwrap_or(top - OWN);
    USED.fetch_add(used as u64, Relaxed) + used as u64
}
