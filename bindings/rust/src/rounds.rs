//! Shares for several rule sets (document 02, A.9): a visit starts a waiting row if no scan is unfinished, gives that scan its share and asks
//! for its finish; a round visits 1 to 8 sets in order.

use crate::instalments::{response, Response, PAUSED};
use crate::{parts, Refusal};

/// Rule sets of a round.
pub const SETS: usize = 8;
/// Steps of a share, at most.
pub const SHARE_LIMIT: usize = 65_536;

mod archive {
    extern "C" {
        pub fn rolvenko_visit(
            paused: *mut i32,
            paused_len: usize,
            image: *const u8,
            image_len: usize,
            state: *mut i32,
            state_len: usize,
            share: usize,
        ) -> u64;
        pub fn rolvenko_round(
            paused: *mut i32,
            paused_len: usize,
            images: *const u8,
            images_len: usize,
            states: *mut i32,
            states_len: usize,
            sets: *const usize,
            sets_len: usize,
            answers: *mut u64,
            answers_len: usize,
        ) -> u64;
    }
}

/// One visit: the steps of this visit with what the finish answered, or a refused start. 25 for a share outside 1 to 65,536.
pub fn visit(paused: &mut [i32], image: &[u8], state: &mut [i32], share: usize) -> Response {
    // The function reads and writes `paused_len` numbers at `paused` and `state_len` at `state`, and reads `image_len` bytes at `image`.
    response(unsafe {
        archive::rolvenko_visit(
            paused.as_mut_ptr(),
            paused.len(),
            image.as_ptr(),
            image.len(),
            state.as_mut_ptr(),
            state.len(),
            share,
        )
    })
}

/// The part of one set in the memory that is lent for all of them together.
#[derive(Clone, Copy, Debug, PartialEq, Eq)]
#[repr(C)]
pub struct RuleSet {
    /// Bytes of its image.
    pub image_len: usize,
    /// Numbers of its state.
    pub state_len: usize,
    pub share: usize,
}

/// One round over joined memory: the sets' images one behind the other, their states, and [`PAUSED`] numbers a set. The answers of the visits
/// in order; 25, before any visit, where there are not 1 to 8 sets or a share is out of limit.
///
/// ```
/// use rolvenko::rounds::{round, RuleSet};
/// use rolvenko::{instalments, Response};
/// let text = b"var v 0..1; v: GX(~(v = _v) -> [_v = 0] & v = (1)); v: GX(v = _v -> ~([_v = 0]));";
/// let mut image = [0; 64];
/// let length = rolvenko::translate(text, &mut image)?;
/// let images = [&image[..length], &image[..length]].concat();
/// let set = |share| RuleSet { image_len: length, state_len: 1, share };
/// let (mut paused, mut states) = ([0; 2 * instalments::PAUSED], [0, 0]);
/// for memory in paused.chunks_mut(instalments::PAUSED) {
///     instalments::post(memory, &image[..length], &[]);
/// }
/// let mut turn = || round(&mut paused, &images, &mut states, &[set(4), set(9)]);
/// assert_eq!(turn()?, [Response::Unfinished(4), Response::Done(7)]);
/// assert_eq!(turn()?, [Response::Done(3), Response::Idle]);
/// assert_eq!(states, [1, 1]);
/// # Ok::<(), rolvenko::Refusal>(())
/// ```
pub fn round(paused: &mut [i32], images: &[u8], states: &mut [i32], sets: &[RuleSet]) -> Result<Vec<Response>, Refusal> {
    let table: Vec<usize> = sets.iter().flat_map(|set| [set.image_len, set.state_len, set.share]).collect();
    let mut answers = vec![0; sets.len()];
    // The function reads and writes `paused_len` numbers at `paused`, `states_len` at `states` and `answers_len` at `answers`, and reads
    // `images_len` bytes at `images` and `sets_len` numbers at `sets`.
    let answer = parts(unsafe {
        archive::rolvenko_round(
            paused.as_mut_ptr(),
            paused.len(),
            images.as_ptr(),
            images.len(),
            states.as_mut_ptr(),
            states.len(),
            table.as_ptr(),
            table.len(),
            answers.as_mut_ptr(),
            answers.len(),
        )
    });
    match answer.number {
        0 => Ok(answers.into_iter().map(response).collect()),
        number => Err(Refusal {
            number,
            place: answer.place,
        }),
    }
}

/// Numbers of the memory that a round of so many sets is lent.
pub const fn paused_len(sets: usize) -> usize {
    sets * PAUSED
}
