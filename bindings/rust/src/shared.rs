//! A list of numbers that its clones share. `Arc` counts so too, but aborts if memory runs out.
use crate::out_of_memory::OutOfMemory;
use crate::room::room_for;
use alloc::vec::Vec;
use core::ops::Deref;
use core::ptr::NonNull;
use core::sync::atomic::{fence, AtomicUsize, Ordering};

/// The numbers, and how many clones share them.
struct Head {
    owners: AtomicUsize,
    numbers: Vec<usize>,
}

pub(crate) struct Shared {
    head: NonNull<Head>,
}

// SAFETY: the numbers are never written to, and the owners are counted by atomics. The last one alone
// drops both.
unsafe impl Send for Shared {}
// SAFETY: as above.
unsafe impl Sync for Shared {}

impl Shared {
    pub fn of(numbers: Vec<usize>) -> Result<Shared, OutOfMemory> {
        let mut block = room_for(1)?;
        block.push(Head { owners: AtomicUsize::new(1), numbers });
        Ok(Shared { head: NonNull::from(&mut block.leak()[0]) })
    }

    fn head(&self) -> &Head {
        // SAFETY: the head is there as long as an owner is, and is only read.
        unsafe { self.head.as_ref() }
    }
}

impl Deref for Shared {
    type Target = [usize];

    fn deref(&self) -> &[usize] {
        &self.head().numbers
    }
}

impl Clone for Shared {
    fn clone(&self) -> Self {
        // An owner is cloned, so the count is not 0 in the meantime, and nothing is read by it.
        let owners = self.head().owners.fetch_add(1, Ordering::Relaxed);
        // They are as many only if clones are forgotten again and again.
        assert!(owners <= isize::MAX as usize, "too many clones");
        Shared { head: self.head }
    }
}

impl Drop for Shared {
    fn drop(&mut self) {
        if self.head().owners.fetch_sub(1, Ordering::Release) != 1 {
            return;
        }
        // What other owners did comes before what is done here.
        fence(Ordering::Acquire);
        // SAFETY: it is the list of one head that `of` made, and this was its last owner.
        drop(unsafe { Vec::from_raw_parts(self.head.as_ptr(), 1, 1) });
    }
}

impl PartialEq for Shared {
    fn eq(&self, other: &Self) -> bool {
        self.head == other.head || self[..] == other[..]
    }
}

impl Eq for Shared {}

#[cfg(test)]
mod tests {
    use super::*;

    fn owners(shared: &Shared) -> usize {
        shared.head().owners.load(Ordering::Relaxed)
    }

    #[test]
    fn clones_share_the_numbers_and_the_last_one_drops_them() {
        let one = Shared::of(Vec::from([1, 2, 3])).unwrap();
        let other = one.clone();
        assert_eq!((one.as_ptr(), owners(&one)), (other.as_ptr(), 2));
        drop(one);
        assert_eq!((&other[..], owners(&other)), (&[1, 2, 3][..], 1));
    }

    #[test]
    fn lists_are_equal_if_their_numbers_are() {
        let of = |numbers: &[usize]| Shared::of(Vec::from(numbers)).unwrap();
        assert!(of(&[1, 2]) == of(&[1, 2]) && of(&[1, 2]) != of(&[1, 3]));
    }
}
