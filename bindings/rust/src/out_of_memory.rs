//! What is said where memory runs out, and how a call that has no error ends.
use alloc::alloc::handle_alloc_error;
use core::alloc::Layout;
use core::error::Error;
use core::fmt;

/// The most bytes that an allocation can have.
const MOST: usize = isize::MAX as usize;

/// Memory ran out. Nothing was changed.
///
/// The error names the size that was asked for, for whoever reads a log. To a program all are one:
/// two of them are equal, whatever size they name. So a test compares with `OutOfMemory::default()`,
/// which names none, and a pattern is `OutOfMemory { .. }`.
///
/// # Examples
///
/// ```
/// use textwrap_proved::display::{fallible, Alignment};
/// use textwrap_proved::OutOfMemory;
///
/// let refused = fallible::align("foo", usize::MAX, Alignment::Right);
/// assert_eq!(refused, Err(OutOfMemory::default()));
/// let error = OutOfMemory::of_size(4096);
/// assert_eq!(error.to_string(), "out of memory: 4096 bytes were asked for");
/// ```
#[derive(Clone, Copy, Debug, Default)]
pub struct OutOfMemory {
    size: Option<usize>,
}

impl OutOfMemory {
    /// The error of a request for so many bytes.
    pub const fn of_size(size: usize) -> Self {
        OutOfMemory { size: Some(size) }
    }

    /// The bytes that were asked for at once. Any number above `isize::MAX` stands for a size that no
    /// allocation can have. It is `None` where the size is not known: where a library ran out of
    /// memory that is installed for C, with a heap of its own.
    ///
    /// ```
    /// use textwrap_proved::OutOfMemory;
    ///
    /// assert_eq!(OutOfMemory::of_size(4096).size(), Some(4096));
    /// assert_eq!(OutOfMemory::default().size(), None);
    /// ```
    pub const fn size(&self) -> Option<usize> {
        self.size
    }

    /// The error of a request for room for so many items.
    pub(crate) fn for_items<T>(count: usize) -> Self {
        OutOfMemory::of_size(count.saturating_mul(size_of::<T>()))
    }
}

/// All are equal.
impl PartialEq for OutOfMemory {
    fn eq(&self, _: &Self) -> bool {
        true
    }
}

impl Eq for OutOfMemory {}

impl fmt::Display for OutOfMemory {
    fn fmt(&self, f: &mut fmt::Formatter<'_>) -> fmt::Result {
        match self.size {
            Some(size) if size > MOST => {
                write!(f, "out of memory: more than {MOST} bytes were asked for")
            }
            Some(size) => write!(f, "out of memory: {size} bytes were asked for"),
            None => f.write_str("out of memory"),
        }
    }
}

impl Error for OutOfMemory {}

/// What is known before a call of the library, so that it can be told what the call was refused.
#[derive(Clone, Copy)]
pub(crate) struct BeforeCall {
    #[cfg(not(library_has_heap))]
    refusals: usize,
}

impl BeforeCall {
    #[inline]
    pub fn now() -> Self {
        BeforeCall {
            #[cfg(not(library_has_heap))]
            refusals: crate::heap::refusals(),
        }
    }

    /// The error of the call, which ran out of memory.
    #[cfg(library_has_heap)]
    pub fn out_of_memory(self) -> OutOfMemory {
        OutOfMemory::default()
    }

    /// The error of the call, which ran out of memory. If the heap has refused nothing since, it was
    /// not asked, as no allocation can have the size.
    #[cfg(not(library_has_heap))]
    pub fn out_of_memory(self) -> OutOfMemory {
        let was_asked = crate::heap::refusals() != self.refusals;
        OutOfMemory::of_size(if was_asked { crate::heap::last_refused() } else { usize::MAX })
    }
}

/// The answer, or the end of the program as the standard library ends it if memory runs out: it
/// aborts, and at a size that no allocation can have it panics. Where the size is not known, the
/// message of the abort names 0 bytes.
#[inline]
pub(crate) fn or_abort<T>(result: Result<T, OutOfMemory>) -> T {
    result.unwrap_or_else(|refused| abort(refused))
}

#[cold]
fn abort(refused: OutOfMemory) -> ! {
    match Layout::from_size_align(refused.size.unwrap_or(0), 1) {
        Ok(layout) => handle_alloc_error(layout),
        Err(_) => panic!("{refused}"),
    }
}
