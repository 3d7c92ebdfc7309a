//! A whole list of rows in one call.

use crate::{counted, Refusal};

mod archive {
    extern "C" {
        pub fn rolvenko_replay(
            text: *const u8,
            text_len: usize,
            image: *mut u8,
            image_len: usize,
            state: *mut i32,
            state_len: usize,
            cells: *const i32,
            cells_len: usize,
            lengths: *const usize,
            rows: usize,
            numbers: *mut u8,
            numbers_len: usize,
            steps: *mut usize,
            steps_len: usize,
            trace: *mut i32,
            trace_len: usize,
        ) -> u64;
    }
}

/// Memory for what a replay records, each part written as far as there is room: of each row 0 or the number of its refusal, and its steps;
/// and the states of the trace, one behind the other.
#[derive(Debug, PartialEq, Eq)]
pub struct Records<'a> {
    pub numbers: &'a mut [u8],
    pub steps: &'a mut [usize],
    pub trace: &'a mut [i32],
}

/// A whole list of rows: translates a text into `image`, starts `state` and scans the rows in turn without a check of the image at each. Row k is the
/// next `lengths[k]` numbers of `cells`, as many of them as there are. A refused row leaves the state, and the next one goes on from there.
/// Answers the image's length; `state` ends as the state after the last row. A refusal of the text (1 to 10, 23, 30) leaves all memory as it was, a
/// state of the wrong length (12) all but the image.
///
/// ```
/// let text = b"input go 0..1; var runs 0..9; runs: GX(runs = (_runs + go));";
/// let (mut image, mut state) = ([0; 64], [0; 2]);
/// let (mut numbers, mut steps, mut trace) = ([99; 3], [99; 3], [99; 8]);
/// let records = rolvenko::Records { numbers: &mut numbers, steps: &mut steps, trace: &mut trace };
/// let length = rolvenko::replay(text, &mut image, &mut state, &[1, 2, 1], &[1, 1, 1], records)?;
/// assert_eq!(length, 15);
/// assert_eq!(numbers, [0, 13, 0]);
/// assert_eq!(steps, [4, 0, 4]);
/// assert_eq!(trace, [0, 0, 1, 1, 1, 2, 99, 99]);
/// assert_eq!(state, [1, 2]);
/// # Ok::<(), rolvenko::Refusal>(())
/// ```
pub fn replay(
    text: &[u8],
    image: &mut [u8],
    state: &mut [i32],
    cells: &[i32],
    lengths: &[usize],
    records: Records,
) -> Result<usize, Refusal> {
    let Records { numbers, steps, trace } = records;
    // The function reads `text`, `cells` and `lengths`, and reads and writes the others, each as many elements as its length says.
    let answer = unsafe {
        archive::rolvenko_replay(
            text.as_ptr(),
            text.len(),
            image.as_mut_ptr(),
            image.len(),
            state.as_mut_ptr(),
            state.len(),
            cells.as_ptr(),
            cells.len(),
            lengths.as_ptr(),
            lengths.len(),
            numbers.as_mut_ptr(),
            numbers.len(),
            steps.as_mut_ptr(),
            steps.len(),
            trace.as_mut_ptr(),
            trace.len(),
        )
    };
    counted(answer).map(|length| length as usize)
}
