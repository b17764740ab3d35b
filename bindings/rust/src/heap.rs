//! The heap of the library, over Rust's own allocator. That wants the size of a block again when the
//! block goes, which the library does not say; so the size stands before each block.
use alloc::alloc::{alloc, dealloc, realloc};
use core::alloc::Layout;
use core::ffi::c_void;
use core::ptr;
use core::sync::atomic::{AtomicUsize, Ordering};

/// How many blocks were refused, and the bytes of the last one.
static REFUSALS: AtomicUsize = AtomicUsize::new(0);
static LAST_REFUSED: AtomicUsize = AtomicUsize::new(0);

/// How many blocks were refused so far.
#[inline]
pub(crate) fn refusals() -> usize {
    REFUSALS.load(Ordering::Acquire)
}

/// The bytes of the block that was refused last. Where several threads run out of memory at once, it
/// may be that of another.
pub(crate) fn last_refused() -> usize {
    LAST_REFUSED.load(Ordering::Relaxed)
}

/// A block, or where `ok` is false anything but null.
#[repr(C)]
pub struct Block {
    ok: bool,
    at: *mut c_void,
}

/// What stands before a block. The library asks for no alignment above this one, and the block keeps
/// it, as it stands right behind.
#[repr(C, align(16))]
struct Head {
    /// The bytes of the block.
    size: usize,
}

/// The layout of a block with its head, unless no allocation can have the size.
fn with_head(size: usize) -> Option<Layout> {
    let size = size.checked_add(size_of::<Head>())?;
    Layout::from_size_align(size, align_of::<Head>()).ok()
}

/// The answer to a request of so many bytes, where null refuses it.
///
/// # Safety
///
/// Unless it is null, `head` leads to as many bytes as `with_head` says, which nothing else uses.
unsafe fn block_behind(head: *mut Head, size: usize) -> Block {
    if head.is_null() {
        LAST_REFUSED.store(size, Ordering::Relaxed);
        REFUSALS.fetch_add(1, Ordering::Release);
        return Block { ok: false, at: ptr::NonNull::<Head>::dangling().as_ptr().cast() };
    }
    // SAFETY: the head lies within these bytes, and the block right behind it.
    unsafe {
        head.write(Head { size });
        Block { ok: true, at: head.add(1).cast() }
    }
}

/// Where the head of a block stands, and the layout of both.
///
/// # Safety
///
/// The block is one that was given out, and that was not handed back since.
unsafe fn head_of(block: *mut c_void) -> (*mut Head, Layout) {
    // SAFETY: the head was written right before the block, with a size that has a layout.
    unsafe {
        let head = block.cast::<Head>().sub(1);
        let layout = with_head((*head).size).unwrap_unchecked();
        (head, layout)
    }
}

/// The functions that the library calls, by a convention of calls.
macro_rules! heap {
    ($convention:tt) => {
        #[no_mangle]
        extern $convention fn rattle_alloc(size: usize, align: usize) -> Block {
            debug_assert!(align <= align_of::<Head>());
            // SAFETY: a layout has at least the bytes of the head.
            let head = with_head(size).map_or(ptr::null_mut(), |layout| unsafe { alloc(layout) });
            // SAFETY: it was allocated by that layout.
            unsafe { block_behind(head.cast(), size) }
        }

        #[no_mangle]
        unsafe extern $convention fn rattle_realloc(
            block: *mut c_void,
            _kept: usize,
            size: usize,
            align: usize,
        ) -> Block {
            debug_assert!(align <= align_of::<Head>());
            // SAFETY: the library hands in a block that it was given.
            let (head, layout) = unsafe { head_of(block) };
            let longer = with_head(size).map_or(ptr::null_mut(), |wanted| {
                // SAFETY: the head was allocated by its layout, and both layouts have one alignment.
                unsafe { realloc(head.cast(), layout, wanted.size()) }
            });
            // SAFETY: it has as many bytes as the wanted layout.
            unsafe { block_behind(longer.cast(), size) }
        }

        #[no_mangle]
        unsafe extern $convention fn rattle_dealloc(block: *mut c_void) {
            // SAFETY: the library hands back a block that it was given, and does not use it again.
            unsafe {
                let (head, layout) = head_of(block);
                dealloc(head.cast(), layout);
            }
        }
    };
}

#[cfg(not(windows))]
heap!("C");
// On Windows too they are called as on Linux.
#[cfg(windows)]
heap!("sysv64");

#[cfg(test)]
mod tests {
    use super::*;
    use core::hint::black_box;

    #[test]
    fn the_last_size_that_was_refused_is_told() {
        let size = isize::MAX as usize;
        assert!(!black_box(rattle_alloc(size, 1)).ok);
        assert_eq!((refusals(), last_refused()), (1, size));
        let block = black_box(rattle_alloc(8, 1));
        // SAFETY: the block is one of `rattle_alloc`, and stays as it is where more is refused.
        unsafe {
            assert!(!black_box(rattle_realloc(block.at, 8, size - 1, 1)).ok);
            rattle_dealloc(block.at);
        }
        assert_eq!((refusals(), last_refused()), (2, size - 1));
    }

    #[test]
    fn blocks_are_aligned_and_keep_what_is_in_them() {
        for size in [0, 1, 15, 16, 17, 4096] {
            let block = rattle_alloc(size, 16);
            assert!(block.ok && block.at.cast::<u128>().is_aligned(), "{size}");
            // SAFETY: what is written and read lies within the block, before and after it grows.
            unsafe {
                block.at.cast::<u8>().write_bytes(7, size);
                let longer = rattle_realloc(block.at, size, 3 * size + 1, 16);
                assert!(longer.ok && longer.at.cast::<u128>().is_aligned(), "{size}");
                let kept = core::slice::from_raw_parts(longer.at.cast::<u8>(), size);
                assert!(kept.iter().all(|&byte| byte == 7), "{size}");
                rattle_dealloc(longer.at);
            }
        }
    }
}
