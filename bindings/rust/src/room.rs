//! Room that the library writes to, and what it says if it does not.
//!
//! The room is not initialised before a call: by the header the library does not read it, and if it
//! is done, it has written as much to its front as it reports.
use crate::out_of_memory::BeforeCall;
use crate::sys;
use crate::wrap_algorithms::OverflowError;
use alloc::alloc::alloc;
use alloc::borrow::Cow;
use alloc::string::String;
use alloc::vec::Vec;
use core::alloc::Layout;
use core::mem::ManuallyDrop;

pub(crate) use crate::out_of_memory::OutOfMemory;

/// Why a call gave nothing.
#[derive(Debug)]
pub(crate) enum Refusal {
    OutOfMemory(OutOfMemory),
    Overflow,
    WrongPlaces,
    WrongPatterns,
}

impl From<OutOfMemory> for Refusal {
    fn from(refused: OutOfMemory) -> Self {
        Refusal::OutOfMemory(refused)
    }
}

/// The refusal of a call that has no other. An overflow panics.
impl From<Refusal> for OutOfMemory {
    #[cold]
    fn from(refusal: Refusal) -> Self {
        match refusal {
            Refusal::OutOfMemory(refused) => refused,
            Refusal::Overflow => panic!("{OverflowError}"),
            Refusal::WrongPlaces => unreachable!("the places are the library's own"),
            Refusal::WrongPatterns => unreachable!("the patterns are those that the library read"),
        }
    }
}

/// Nothing if the room of a call did not suffice, or why else the call gave nothing.
#[cold]
fn refused(status: u32, before: BeforeCall) -> Result<(), Refusal> {
    match status {
        sys::TOO_SMALL => Ok(()),
        sys::OUT_OF_MEMORY => Err(Refusal::OutOfMemory(before.out_of_memory())),
        sys::OVERFLOW => Err(Refusal::Overflow),
        sys::WRONG_PLACES => Err(Refusal::WrongPlaces),
        sys::WRONG_PATTERNS => Err(Refusal::WrongPatterns),
        _ => unreachable!("texts are UTF-8, and the options are known"),
    }
}

/// Room for so many items. (`try_reserve_exact` makes it too, but takes longer, since it also makes
/// lists longer that have items.)
pub(crate) fn room_for<T>(len: usize) -> Result<Vec<T>, OutOfMemory> {
    let refused = || OutOfMemory::for_items::<T>(len);
    let layout = Layout::array::<T>(len).map_err(|_| refused())?;
    if layout.size() == 0 {
        return Ok(Vec::new());
    }
    // SAFETY: the layout has bytes.
    let room = unsafe { alloc(layout) };
    if room.is_null() {
        return Err(refused());
    }
    // SAFETY: it is a block for so many items, and has none yet.
    Ok(unsafe { Vec::from_raw_parts(room.cast(), 0, len) })
}

/// What is made of each of the items.
pub(crate) fn mapped<T, U>(items: &[T], make: impl Fn(&T) -> U) -> Result<Vec<U>, OutOfMemory> {
    let mut list = room_for(items.len())?;
    list.extend(items.iter().map(make));
    Ok(list)
}

/// The texts as C has them.
pub(crate) fn texts_of<S: AsRef<str>>(texts: &[S]) -> Result<Vec<sys::Text>, OutOfMemory> {
    mapped(texts, |text| sys::Text::from(text.as_ref()))
}

/// Makes room for so many more items, and for further ones if there is memory for them.
pub(crate) fn reserve<T>(list: &mut Vec<T>, more: usize) -> Result<(), OutOfMemory> {
    list.try_reserve(more)
        .or_else(|_| list.try_reserve_exact(more))
        .map_err(|_| OutOfMemory::for_items::<T>(list.len().saturating_add(more)))
}

/// Adds to a text.
pub(crate) fn push(text: &mut String, more: &str) -> Result<(), OutOfMemory> {
    let len = text.len().saturating_add(more.len());
    text.try_reserve_exact(more.len()).map_err(|_| OutOfMemory::for_items::<u8>(len))?;
    text.push_str(more);
    Ok(())
}

/// Room for as many items as is guessed, or for none if there is no memory for a guess.
fn guessed<T>(guess: usize) -> Vec<T> {
    room_for(guess).unwrap_or_default()
}

/// The items that a call writes to room of this length, or if that does not suffice, to room of the
/// length that it reports.
///
/// # Safety
/// If the call returns `DONE`, it has written as many items to the front of the room as it reports,
/// and these are no more than the room's length.
// It is compiled anew for each closure as it is.
#[inline(always)]
pub(crate) unsafe fn listed<T>(
    guess: usize,
    mut call: impl FnMut(*mut T, usize, &mut usize) -> u32,
) -> Result<Vec<T>, Refusal> {
    let mut room = guessed(guess);
    let mut count = 0;
    let before = BeforeCall::now();
    loop {
        let status = call(room.as_mut_ptr(), room.capacity(), &mut count);
        if status == sys::DONE {
            // SAFETY: the call has written so many items.
            unsafe { room.set_len(count) };
            return Ok(room);
        }
        refused(status, before)?;
        room = room_for(count)?;
    }
}

/// The same for a text.
///
/// # Safety
/// As for `listed`, and what the call writes is UTF-8.
#[inline(always)]
pub(crate) unsafe fn written(
    guess: usize,
    call: impl FnMut(*mut u8, usize, &mut usize) -> u32,
) -> Result<String, OutOfMemory> {
    // SAFETY: what the caller of this function owes.
    unsafe { Ok(String::from_utf8_unchecked(listed(guess, call)?)) }
}

/// The number that a call writes.
pub(crate) fn numbered(call: impl FnOnce(&mut usize) -> u32) -> Result<usize, OutOfMemory> {
    let (mut number, before) = (0, BeforeCall::now());
    let status = call(&mut number);
    if status != sys::DONE {
        // It takes no room, so memory ran out.
        refused(status, before)?;
    }
    Ok(number)
}

/// What a call of the library writes to room at its end, by a guess of how much that is:
/// `list_by!(guess, call(lists; what else it takes))`. Each list, or text, is handed over as its pointer
/// and its length. So `list_by` gives items, `text_by` a text, and `lines_by` lines, for which a guess of
/// the bytes of built ones follows that of the lines.
macro_rules! list_by {
    ($guess:expr, $call:ident($($list:expr),+ $(; $($other:expr),+)?)) => {
        // SAFETY: each list and the room are handed over with their lengths, each text is a `str` and so
        // UTF-8, nothing else borrows what is written to, and by the header the call writes what it reports.
        unsafe {
            $crate::room::listed($guess, |room, room_len, count| {
                $crate::sys::$call($($list.as_ptr(), $list.len(),)+ $($($other,)+)? room, room_len, count)
            })
        }
    };
}

macro_rules! text_by {
    ($guess:expr, $call:ident($($list:expr),+ $(; $($other:expr),+)?)) => {
        // SAFETY: as in `list_by`, and by the header what the call writes is UTF-8.
        unsafe {
            $crate::room::written($guess, |room, room_len, len| {
                $crate::sys::$call($($list.as_ptr(), $list.len(),)+ $($($other,)+)? room, room_len, len)
            })
        }
    };
}

macro_rules! lines_by {
    ($lines:expr, $bytes:expr, $call:ident($($list:expr),+ $(; $($other:expr),+)?)) => {
        // SAFETY: as in `text_by`.
        unsafe {
            $crate::room::Reported::by($lines, $bytes, |r| {
                $crate::sys::$call(
                    $($list.as_ptr(), $list.len(),)+ $($($other,)+)? r.lines, r.lines_len,
                    &mut r.count, r.room, r.room_len, &mut r.len,
                )
            })
        }
    };
}

/// The value that a call writes, which always does: `value_by!(call(lists; what else it takes))`.
macro_rules! value_by {
    ($call:ident($($list:expr),* $(; $($other:expr),+)?)) => {{
        let mut value = Default::default();
        // SAFETY: each list is handed over with its length, each text is a `str` and so UTF-8, and nothing
        // else borrows the value.
        let status = unsafe {
            $crate::sys::$call($($list.as_ptr(), $list.len(),)* $($($other,)+)? &mut value)
        };
        assert_eq!(status, $crate::sys::DONE, "texts are UTF-8, and the options are known");
        value
    }};
}

/// The number that a call writes which may run out of memory: `number_by!(call(lists; what else it takes))`.
macro_rules! number_by {
    ($call:ident($($list:expr),+ $(; $($other:expr),+)?)) => {
        // SAFETY: as in `value_by`.
        $crate::room::numbered(|number| unsafe {
            $crate::sys::$call($($list.as_ptr(), $list.len(),)+ $($($other,)+)? number)
        })
    };
}

pub(crate) use {lines_by, list_by, number_by, text_by, value_by};

/// Room for lines, as it is handed to a call.
pub(crate) struct LineRoom {
    pub lines: *mut sys::Line,
    pub lines_len: usize,
    pub count: usize,
    pub room: *mut u8,
    pub room_len: usize,
    pub len: usize,
}

/// A line: a part of the text that was wrapped, or a text of its own.
pub(crate) enum LineText<'t, 'r> {
    Borrowed(&'t str),
    Built(&'r str),
}

impl LineText<'_, '_> {
    pub fn as_str(&self) -> &str {
        match self {
            LineText::Borrowed(text) | LineText::Built(text) => text,
        }
    }
}

impl<'t> LineText<'t, '_> {
    /// The line, which borrows nothing but the text that was wrapped.
    pub fn into_cow(self) -> Result<Cow<'t, str>, OutOfMemory> {
        match self {
            LineText::Borrowed(text) => Ok(Cow::Borrowed(text)),
            LineText::Built(text) => Ok(Cow::Owned(copied(text)?)),
        }
    }
}

/// Room for a text of so many bytes.
pub(crate) fn text_room(len: usize) -> Result<String, OutOfMemory> {
    // No bytes are UTF-8.
    Ok(String::from_utf8(room_for(len)?).unwrap_or_default())
}

/// A copy of a text.
pub(crate) fn copied(text: &str) -> Result<String, OutOfMemory> {
    let mut copy = text_room(text.len())?;
    copy.push_str(text);
    Ok(copy)
}

/// Where lines stand, and those that are texts of their own.
pub(crate) struct Reported {
    places: Vec<sys::Line>,
    built: String,
}

impl Reported {
    /// The lines that a call reports, with room for so many of them and so many bytes, or if that
    /// does not suffice, with as much as it asks for.
    ///
    /// # Safety
    /// As for `written`, for the lines and for the bytes.
    pub unsafe fn by(
        lines: usize,
        bytes: usize,
        mut call: impl FnMut(&mut LineRoom) -> u32,
    ) -> Result<Reported, OutOfMemory> {
        let (mut places, mut built) = (guessed::<sys::Line>(lines), guessed::<u8>(bytes));
        let before = BeforeCall::now();
        loop {
            let mut room = LineRoom {
                lines: places.as_mut_ptr(),
                lines_len: places.capacity(),
                count: 0,
                room: built.as_mut_ptr(),
                room_len: built.capacity(),
                len: 0,
            };
            let status = call(&mut room);
            let LineRoom { count, len, .. } = room;
            if status == sys::DONE {
                // SAFETY: the call has written so many lines, and so many bytes of UTF-8.
                unsafe {
                    places.set_len(count);
                    built.set_len(len);
                    return Ok(Reported { places, built: String::from_utf8_unchecked(built) });
                }
            }
            refused(status, before)?;
            (places, built) = (room_for(count)?, room_for(len)?);
        }
    }

    /// The lines of a call whose lines are all texts of their own.
    pub fn texts(self) -> Result<Vec<String>, OutOfMemory> {
        in_place(self.places, |line| copied(line_at(line, "", &self.built).as_str()))
    }

    /// The lines of this text, which borrow nothing else.
    pub fn cows(self, text: &str) -> Result<Vec<Cow<'_, str>>, OutOfMemory> {
        in_place(self.places, |line| line_at(line, text, &self.built).into_cow())
    }
}

/// The line at a place of the text that was wrapped, or of what was built.
#[inline]
fn line_at<'t, 'r>(line: sys::Line, text: &'t str, built: &'r str) -> LineText<'t, 'r> {
    let place = line.offset..line.offset + line.len;
    if line.is_built == 0 {
        LineText::Borrowed(&text[place])
    } else {
        LineText::Built(&built[place])
    }
}

/// What is made of each item, in the room of the items. So nothing is asked for but what is made of
/// them; `collect` mostly does the same, but does not promise it, and aborts if memory runs out.
pub(crate) fn in_place<S: Copy, T>(
    items: Vec<S>,
    mut make: impl FnMut(S) -> Result<T, OutOfMemory>,
) -> Result<Vec<T>, OutOfMemory> {
    const { assert!(size_of::<S>() == size_of::<T>() && align_of::<S>() == align_of::<T>()) };
    let mut items = ManuallyDrop::new(items);
    let (start, len) = (items.as_mut_ptr(), items.len());
    // SAFETY: it is the room of a list that is not dropped, and both kinds of items have one layout.
    let mut made = unsafe { Vec::from_raw_parts(start.cast::<T>(), 0, items.capacity()) };
    for i in 0..len {
        // SAFETY: the items from this place on are as they were.
        let item = make(unsafe { start.add(i).read() })?;
        // SAFETY: the room has this place, and what was made stands before it.
        unsafe {
            start.cast::<T>().add(i).write(item);
            made.set_len(i + 1);
        }
    }
    Ok(made)
}

#[cfg(test)]
mod tests {
    use super::*;
    use alloc::rc::Rc;

    #[test]
    fn what_was_made_is_dropped_where_making_fails() {
        let shared = Rc::new(());
        let made = in_place(Vec::from([0, 1, 2_usize]), |item| {
            if item < 2 { Ok(shared.clone()) } else { Err(OutOfMemory::default()) }
        });
        assert_eq!(made, Err(OutOfMemory::default()));
        assert_eq!(Rc::strong_count(&shared), 1);
        let made = in_place(Vec::from([0, 1, 2_usize]), |_| Ok(shared.clone()));
        assert_eq!(made.map(|list| list.len()), Ok(3));
    }
}
