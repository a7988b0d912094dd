//! Buffers of words or bytes to lend: guards round each, and at one end often a page that may not be touched at
//! all, so that reading outside is seen as well as writing.

use crate::random::Random;
use std::ffi::c_void;

const PAGE_BYTES: usize = 4_096;
const GUARDS: usize = 48;

unsafe extern "C" {
    fn mmap(at: *mut c_void, bytes: usize, protection: i32, flags: i32, file: i32, offset: i64) -> *mut c_void;
    fn mprotect(at: *mut c_void, bytes: usize, protection: i32) -> i32;
}

/// Fresh zeroed memory, used only where it is touched. None if the system gives so much to nobody.
pub fn map(bytes: usize) -> Option<*mut u8> {
    const READ_WRITE: i32 = 3;
    const PRIVATE_ANONYMOUS_NORESERVE: i32 = 0x4022;
    // SAFETY: a new mapping at an address of the system's choice overlaps nothing.
    let at = unsafe { mmap(std::ptr::null_mut(), bytes, READ_WRITE, PRIVATE_ANONYMOUS_NORESERVE, -1, 0) };
    (at as isize != -1).then_some(at as *mut u8)
}

/// Where words or bytes lie, and how many.
#[derive(Clone, Copy)]
pub struct Lies<T> {
    pub at: *mut T,
    pub len: usize,
}

pub type Words = Lies<u32>;

/// What is lent: words or bytes.
pub trait Item: Copy + PartialEq {
    fn guard(at: usize) -> Self;
}

impl Item for u32 {
    fn guard(at: usize) -> u32 {
        (at as u32).wrapping_mul(0x9E37_79B1) | 1
    }
}

impl Item for u8 {
    fn guard(at: usize) -> u8 {
        (u32::guard(at) >> 24) as u8 | 1
    }
}

pub struct Guarded<T = u32> {
    room: *mut T,
    room_len: usize,
    from: usize,
    len: usize,
    /// Where the whole lies while only a part of it is lent.
    whole: Option<(usize, usize)>,
}

impl<T: Item> Guarded<T> {
    /// Room for so many, whole pages.
    pub fn new(room_len: usize) -> Guarded<T> {
        let bytes = room_len * size_of::<T>() + 2 * PAGE_BYTES;
        let base = map(bytes).expect("memory for the buffers");
        for page in [base, base.wrapping_add(bytes - PAGE_BYTES)] {
            // SAFETY: both pages lie inside the mapping made above.
            let done = unsafe { mprotect(page as *mut c_void, PAGE_BYTES, 0) };
            assert_eq!(done, 0, "pages that may not be touched");
        }
        let room = base.wrapping_add(PAGE_BYTES) as *mut T;
        Guarded { room, room_len, from: GUARDS, len: 0, whole: None }
    }

    fn room(&self) -> &[T] {
        // SAFETY: the room is mapped for the program's life, and the library is not running now.
        unsafe { std::slice::from_raw_parts(self.room, self.room_len) }
    }

    fn room_mut(&mut self) -> &mut [T] {
        // SAFETY: as above, and self is borrowed alone.
        unsafe { std::slice::from_raw_parts_mut(self.room, self.room_len) }
    }

    /// Puts these between guards, at the room's beginning, its end or in its midst.
    pub fn lend(&mut self, items: &[T], random: &mut Random) {
        assert!(items.len() + 2 * GUARDS <= self.room_len);
        self.whole = None;
        self.len = items.len();
        self.from = match random.below(4) {
            0 => 0,
            1 => self.room_len - items.len(),
            _ => GUARDS + random.below(8),
        };
        let (from, len) = (self.from, self.len);
        for at in self.guarded_places() {
            self.room_mut()[at] = T::guard(at);
        }
        self.room_mut()[from..from + len].copy_from_slice(items);
    }

    fn guarded_places(&self) -> impl Iterator<Item = usize> + use<T> {
        let end = self.from + self.len;
        (self.from.saturating_sub(GUARDS)..self.from).chain(end..self.room_len.min(end + GUARDS))
    }

    /// While a part is lent, what lies round it is the whole's and is looked at with it.
    pub fn guards_stand(&self) -> bool {
        let room = self.room();
        self.whole.is_some() || self.guarded_places().all(|at| room[at] == T::guard(at))
    }

    pub fn narrow(&mut self, part: std::ops::Range<usize>) {
        self.whole = Some((self.from, self.len));
        self.from += part.start;
        self.len = part.len();
    }

    pub fn widen(&mut self) {
        if let Some((from, len)) = self.whole.take() {
            (self.from, self.len) = (from, len);
        }
    }

    pub fn contents(&self) -> &[T] {
        &self.room()[self.from..self.from + self.len]
    }

    pub fn contents_mut(&mut self) -> &mut [T] {
        let (from, len) = (self.from, self.len);
        &mut self.room_mut()[from..from + len]
    }

    pub fn lies(&self) -> Lies<T> {
        Lies { at: self.room.wrapping_add(self.from), len: self.len }
    }
}
