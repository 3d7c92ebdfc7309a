//! The plain C services, with the signatures of `rolvenko`.

use rolvenko::{Refusal, ScanRefusal};

/// c/baseline.h: struct answer.
#[repr(C)]
struct Answer {
    number: u32,
    place: u32,
    count: u32,
}

extern "C" {
    fn baseline_translate(text: *const u8, text_len: usize, image: *mut u8, image_len: usize) -> Answer;
    fn baseline_check(image: *const u8, image_len: usize) -> Answer;
    fn baseline_start(image: *const u8, image_len: usize, state: *mut i32, state_len: usize) -> Answer;
    fn baseline_scan(image: *const u8, image_len: usize, state: *mut i32, state_len: usize, row: *const i32, row_len: usize)
        -> Answer;
}

impl Answer {
    fn counted(self) -> Result<u32, Refusal> {
        if self.number == 0 {
            return Ok(self.count);
        }
        Err(Refusal {
            number: self.number as u8,
            place: self.place as usize,
        })
    }
}

pub fn translate(text: &[u8], image: &mut [u8]) -> Result<usize, Refusal> {
    let answer = unsafe { baseline_translate(text.as_ptr(), text.len(), image.as_mut_ptr(), image.len()) };
    answer.counted().map(|length| length as usize)
}

pub fn check(image: &[u8]) -> Result<(), Refusal> {
    unsafe { baseline_check(image.as_ptr(), image.len()) }.counted().map(|_| ())
}

pub fn start(image: &[u8], state: &mut [i32]) -> Result<(), Refusal> {
    unsafe { baseline_start(image.as_ptr(), image.len(), state.as_mut_ptr(), state.len()) }.counted().map(|_| ())
}

pub fn scan(image: &[u8], state: &mut [i32], row: &[i32]) -> Result<u32, ScanRefusal> {
    let answer =
        unsafe { baseline_scan(image.as_ptr(), image.len(), state.as_mut_ptr(), state.len(), row.as_ptr(), row.len()) };
    let steps = answer.count;
    answer.counted().map_err(|Refusal { number, place }| ScanRefusal { number, place, steps })
}
