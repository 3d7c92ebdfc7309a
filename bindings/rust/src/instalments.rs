//! A scan in instalments (document 02, A.8): a row is posted and waits, a scan begins with it, is advanced by so many steps at a time and
//! finished. [`Paused`] owns the numbers that lie between the calls; the functions take them as a slice.

use crate::{parts, Parts, ScanRefusal};

/// Numbers of a paused scan and its waiting row.
pub const PAUSED: usize = 640;

const UNFINISHED: u8 = 254;
const IDLE: u8 = 255;

/// What a call answers.
#[derive(Clone, Copy, Debug, PartialEq, Eq)]
pub enum Response {
    /// Done: the steps of an instalment, the total steps of a finish, 0 of a post and a start.
    Done(u32),
    Refused(ScanRefusal),
    /// The scan is not finished.
    Unfinished(u32),
    /// Neither scan nor row is there.
    Idle,
}

mod archive {
    extern "C" {
        pub fn rolvenko_post(
            paused: *mut i32,
            paused_len: usize,
            image: *const u8,
            image_len: usize,
            row: *const i32,
            row_len: usize,
        ) -> u64;
        pub fn rolvenko_begin(
            paused: *mut i32,
            paused_len: usize,
            image: *const u8,
            image_len: usize,
            state: *const i32,
            state_len: usize,
        ) -> u64;
        pub fn rolvenko_advance(paused: *mut i32, paused_len: usize, image: *const u8, image_len: usize, steps: usize) -> u64;
        pub fn rolvenko_finish(paused: *mut i32, paused_len: usize, state: *mut i32, state_len: usize) -> u64;
    }
}

/// The response that an answer of the archive stands for.
pub(crate) fn response(answer: u64) -> Response {
    let Parts {
        number,
        place,
        count,
    } = parts(answer);
    match number {
        0 => Response::Done(count),
        UNFINISHED => Response::Unfinished(count),
        IDLE => Response::Idle,
        _ => Response::Refused(ScanRefusal {
            number,
            place,
            steps: count,
        }),
    }
}

/// Posts a row for the next scan, in place of one that waits. Refusals (9, 11, 12) replace nothing. With another length than
/// [`PAUSED`] it is idle, as every call is, and nothing moves.
pub fn post(paused: &mut [i32], image: &[u8], row: &[i32]) -> Response {
    // The function reads and writes `paused_len` numbers at `paused`, and reads `image_len` bytes at `image` and `row_len` numbers at `row`.
    response(unsafe {
        archive::rolvenko_post(paused.as_mut_ptr(), paused.len(), image.as_ptr(), image.len(), row.as_ptr(), row.len())
    })
}

/// Starts a scan of the waiting row. Unfinished before the last scan is over; idle without a row. Else the row is taken and the tests
/// before the code are made (9, 11, 12, 18, 13).
pub fn begin(paused: &mut [i32], image: &[u8], state: &[i32]) -> Response {
    // As for `post`, with `state` for `row`.
    response(unsafe {
        archive::rolvenko_begin(paused.as_mut_ptr(), paused.len(), image.as_ptr(), image.len(), state.as_ptr(), state.len())
    })
}

/// At most so many steps of the scan, with the image that it began with; how many were done. Idle without a scan.
pub fn advance(paused: &mut [i32], image: &[u8], steps: usize) -> Response {
    // The function reads and writes `paused_len` numbers at `paused`, and reads `image_len` bytes at `image`.
    response(unsafe { archive::rolvenko_advance(paused.as_mut_ptr(), paused.len(), image.as_ptr(), image.len(), steps) })
}

/// Asks for the end of the scan: idle without one, unfinished too early, the scan's refusal (14 to 17, 22), 24 for another state than at the
/// start, or the total steps; then, and only then, the state is the next one.
pub fn finish(paused: &mut [i32], state: &mut [i32]) -> Response {
    // The function reads and writes `paused_len` numbers at `paused` and `state_len` numbers at `state`.
    response(unsafe { archive::rolvenko_finish(paused.as_mut_ptr(), paused.len(), state.as_mut_ptr(), state.len()) })
}

/// A paused scan and the row that waits; at first there is neither.
///
/// The latch L2 of document 01, 7 instructions, three steps at a time:
///
/// ```
/// use rolvenko::{Paused, Response};
/// let text = b"var v 0..1; v: GX(~(v = _v) -> [_v = 0] & v = (1)); v: GX(v = _v -> ~([_v = 0]));";
/// let mut image = [0; 64];
/// let length = rolvenko::translate(text, &mut image)?;
/// let image = &image[..length];
/// let (mut paused, mut state) = (Paused::new(), [0]);
/// assert_eq!(paused.begin(image, &state), Response::Idle);
/// assert_eq!(paused.post(image, &[]), Response::Done(0));
/// assert_eq!(paused.begin(image, &state), Response::Done(0));
/// let mut steps = Vec::new();
/// while let Response::Unfinished(_) = paused.finish(&mut state) {
///     steps.push(paused.advance(image, 3)); // and serve the port
/// }
/// assert_eq!(steps, [3, 3, 1].map(Response::Done));
/// assert_eq!(state, [1]);
/// assert_eq!(paused.finish(&mut state), Response::Idle);
/// # Ok::<(), rolvenko::Refusal>(())
/// ```
#[derive(Clone, Debug, PartialEq, Eq, Hash)]
pub struct Paused([i32; PAUSED]);

impl Default for Paused {
    fn default() -> Paused {
        Paused([0; PAUSED])
    }
}

impl Paused {
    /// Neither scan nor row.
    pub fn new() -> Paused {
        Paused::default()
    }

    /// What [`Paused::numbers`] gave, or any other numbers: no content is unsafe, but only those that the calls left mean a scan.
    pub fn from_numbers(numbers: [i32; PAUSED]) -> Paused {
        Paused(numbers)
    }

    pub fn numbers(&self) -> &[i32; PAUSED] {
        &self.0
    }

    pub fn post(&mut self, image: &[u8], row: &[i32]) -> Response {
        post(&mut self.0, image, row)
    }

    pub fn begin(&mut self, image: &[u8], state: &[i32]) -> Response {
        begin(&mut self.0, image, state)
    }

    pub fn advance(&mut self, image: &[u8], steps: usize) -> Response {
        advance(&mut self.0, image, steps)
    }

    pub fn finish(&mut self, state: &mut [i32]) -> Response {
        finish(&mut self.0, state)
    }
}
