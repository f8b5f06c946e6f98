//! One processor for the threads of a run, of which one goes at a time.
//!
//! A thread hands the turn on in a fraction of the time if the next one is on its processor, above all if the machine
//! is busy.

use std::os::raw::c_int;
use std::process;
use std::sync::atomic::{AtomicUsize, Ordering};

/// Processors, a bit each: as many as C's `cpu_set_t` has.
type Set = [u64; 16];

extern "C" {
    fn sched_getaffinity(thread: c_int, size: usize, set: *mut Set) -> c_int;
    fn sched_setaffinity(thread: c_int, size: usize, set: *const Set) -> c_int;
}

const SIZE: usize = std::mem::size_of::<Set>();

/// While this is there, its thread and those that it starts are on one processor. If the system has no such thing,
/// nothing changes.
pub(crate) struct OneProcessor {
    before: Option<Set>,
}

impl OneProcessor {
    /// The next processor of those that this thread may use. So threads that run side by side have others.
    pub(crate) fn next() -> OneProcessor {
        static NEXT: AtomicUsize = AtomicUsize::new(0);
        let before = of_this_thread().filter(|before| {
            let number = NEXT.fetch_add(1, Ordering::Relaxed).wrapping_add(process::id() as usize);
            set_for_this_thread(&one_of(before, number))
        });
        OneProcessor { before }
    }
}

impl Drop for OneProcessor {
    fn drop(&mut self) {
        if let Some(before) = &self.before {
            set_for_this_thread(before);
        }
    }
}

fn of_this_thread() -> Option<Set> {
    let mut set = [0; 16];
    // SAFETY: it writes at most so many bytes into the set; 0 is the calling thread.
    let status = unsafe { sched_getaffinity(0, SIZE, &mut set) };
    Some(set).filter(|_| status == 0)
}

fn set_for_this_thread(set: &Set) -> bool {
    // SAFETY: it reads so many bytes of the set; 0 is the calling thread.
    unsafe { sched_setaffinity(0, SIZE, set) == 0 }
}

/// One processor of a set, by a number of any size.
fn one_of(set: &Set, number: usize) -> Set {
    let bits: Vec<usize> = (0..SIZE * 8).filter(|bit| set[bit / 64] >> (bit % 64) & 1 == 1).collect();
    let mut one = [0; 16];
    if let Some(bit) = bits.get(number % bits.len().max(1)) {
        one[bit / 64] = 1 << (bit % 64);
    }
    one
}

#[cfg(test)]
mod tests {
    use super::*;

    #[test]
    fn one_of_a_set() {
        let mut set = [0; 16];
        (set[0], set[2]) = (0b1010, 1);
        let ones: Vec<Set> = (0..4).map(|number| one_of(&set, number)).collect();
        assert_eq!((ones[0][0], ones[1][0], ones[2][0], ones[2][2]), (0b10, 0b1000, 0, 1));
        assert_eq!(ones[3], ones[0]);
        assert_eq!(one_of(&[0; 16], 5), [0; 16]);
    }

    /// It is one of those before, and they come back.
    #[test]
    fn and_back() {
        let before = of_this_thread().unwrap();
        let one = OneProcessor::next();
        let now = of_this_thread().unwrap();
        assert_eq!(now.iter().map(|word| word.count_ones()).sum::<u32>(), 1);
        assert!(now.iter().zip(&before).all(|(now, before)| now & before == *now));
        drop(one);
        assert_eq!(of_this_thread().unwrap(), before);
    }
}
