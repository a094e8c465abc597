//! Memory between pages that can't be touched, to lend to the library: a read or write outside of it ends the program.

use std::ffi::{c_int, c_void};
use std::ops::Range;
use std::ptr;
use std::slice;

unsafe extern "C" {
    fn mmap(
        address: *mut c_void,
        length: usize,
        protection: c_int,
        flags: c_int,
        file: c_int,
        offset: i64,
    ) -> *mut c_void;
    fn mprotect(address: *mut c_void, length: usize, protection: c_int) -> c_int;
    fn signal(number: c_int, handler: usize) -> usize;
}

// As on x86-64 Linux, for which the library is built.
const PAGE: usize = 4_096;
const NONE: c_int = 0;
const READ_WRITE: c_int = 3;
const PRIVATE_ANONYMOUS: c_int = 0x22;
const SEGMENT_FAULT: c_int = 11;

/// The most bytes lent at once: past every limit.
pub const SPACE: usize = 18 * PAGE;

/// Where in its room a lent slice stands: against which page that can't be touched.
#[derive(Clone, Copy)]
pub enum Side {
    Start,
    End,
}

impl Side {
    fn range(self, length: usize) -> Range<usize> {
        assert!(length <= SPACE, "{length} bytes are more than a room has");
        match self {
            Side::Start => 0..length,
            Side::End => SPACE - length..SPACE,
        }
    }
}

/// `SPACE` bytes with a page that can't be touched on either side.
pub struct Room(&'static mut [u8]);

impl Room {
    pub fn new() -> Room {
        // SAFETY: a new mapping, of which the part between the two pages is lent as a slice once and never given back.
        unsafe {
            let all = mmap(
                ptr::null_mut(),
                SPACE + 2 * PAGE,
                READ_WRITE,
                PRIVATE_ANONYMOUS,
                -1,
                0,
            );
            assert_ne!(all as isize, -1, "no memory");
            let lower = mprotect(all, PAGE, NONE);
            let upper = mprotect(all.byte_add(PAGE + SPACE), PAGE, NONE);
            assert_eq!((lower, upper), (0, 0), "pages can't be protected");
            let room = all.byte_add(PAGE).cast();
            Room(slice::from_raw_parts_mut(room, SPACE))
        }
    }

    /// A copy of the bytes.
    pub fn copy(&mut self, bytes: &[u8], side: Side) -> &[u8] {
        let room = &mut self.0[side.range(bytes.len())];
        room.copy_from_slice(bytes);
        room
    }
}

/// A buffer for a result, with guard bytes at the side that has no page.
pub struct Buffer(Room);

const GUARD: usize = 64;

/// What stands in a buffer before a call.
fn fill(at: usize) -> u8 {
    (at as u8).wrapping_mul(167) ^ 0x5A
}

fn is_filled(bytes: &[u8], from: usize) -> bool {
    bytes.iter().zip(from..).all(|(byte, at)| *byte == fill(at))
}

impl Buffer {
    pub fn new() -> Buffer {
        let room = Room::new();
        room.0
            .iter_mut()
            .enumerate()
            .for_each(|(at, byte)| *byte = fill(at));
        Buffer(room)
    }

    /// Calls with a buffer of that length. The bytes written, once it was seen that no others changed.
    pub fn lend<R>(
        &mut self,
        length: usize,
        side: Side,
        call: impl FnOnce(&mut [u8]) -> Result<usize, R>,
    ) -> Result<Result<Vec<u8>, R>, &'static str> {
        let room = &mut *self.0.0;
        let range = side.range(length);
        let guarded = range.start.saturating_sub(GUARD)..SPACE.min(range.end + GUARD);
        let answer = call(&mut room[range.clone()]);
        let written = *answer.as_ref().unwrap_or(&0);
        if written > length {
            return Err("the length is more than the buffer's");
        }
        let result = room[range.start..range.start + written].to_vec();
        for (byte, at) in room[range.start..]
            .iter_mut()
            .zip(range.start..)
            .take(written)
        {
            *byte = fill(at);
        }
        match is_filled(&room[guarded.clone()], guarded.start) {
            true => Ok(answer.map(|_| result)),
            false => Err("a byte outside of the result was written"),
        }
    }
}

/// Calls the function, which should end the program, where memory is touched that can't be.
pub fn on_fault(handler: extern "C" fn(c_int)) {
    // SAFETY: the handler runs on this thread's stack, where none of the program's work goes on after it.
    unsafe {
        signal(SEGMENT_FAULT, handler as usize);
    }
}

#[cfg(test)]
mod tests {
    use super::*;

    const SIDES: [Side; 2] = [Side::Start, Side::End];

    #[test]
    fn what_is_written_comes_back() {
        let mut buffer = Buffer::new();
        for (side, length) in SIDES.into_iter().zip([3, SPACE]) {
            let given = buffer.lend(length, side, |out| {
                out[..3].copy_from_slice(b"abc");
                Ok::<_, ()>(3)
            });
            assert_eq!(given, Ok(Ok(b"abc".to_vec())));
            assert_eq!(buffer.lend(length, side, |_| Err(())), Ok(Err(())));
        }
    }

    #[test]
    fn other_bytes_are_seen() {
        for side in SIDES {
            let after = |out: &mut [u8]| {
                out[4] ^= 1;
                Ok::<_, ()>(4)
            };
            assert!(Buffer::new().lend(5, side, after).is_err());
            let refused = |out: &mut [u8]| {
                out[0] ^= 1;
                Err(())
            };
            assert!(Buffer::new().lend(5, side, refused).is_err());
            assert!(Buffer::new().lend(5, side, |_| Ok::<_, ()>(6)).is_err());
        }
    }
}
