//! A service that writes bytes for a text into a lent buffer, against the model's: answer, place, every byte of the buffer and around it.

use crate::compare::{fence, hex, Table};
use crate::shrink::{shrink, smaller_bytes};

/// The count of bytes written, or number and place.
pub type Answer = Result<usize, (u8, usize)>;

/// The service by the archive and by the model.
#[derive(Clone, Copy)]
pub struct Writer {
    pub archive: fn(&[u8], &mut [u8]) -> Answer,
    pub model: fn(&[u8], &mut [u8]) -> Answer,
}

/// What both leave in buffers of the same length and contents.
struct Both {
    archive: Answer,
    model: Answer,
    same_memory: bool,
}

impl Both {
    fn differ(&self) -> bool {
        self.archive != self.model || !self.same_memory
    }
}

impl Writer {
    /// Writes into a buffer of `room` bytes, filled with a byte that tells untouched places. The text must stay as it is too.
    fn both(&self, source: &[u8], room: usize) -> Both {
        let lent = fence(source, 0x5A);
        let mut written = fence(&vec![0xA5; room], 0x5A);
        let mut wanted = written.clone();
        let archive = (self.archive)(lent.read(source.len()), written.write(room));
        let model = (self.model)(source, wanted.write(room));
        Both {
            archive,
            model,
            same_memory: written == wanted && lent == fence(source, 0x5A),
        }
    }

    pub fn compare(&self, source: &[u8], room: usize, table: &mut Table) -> Result<(), String> {
        let found = self.both(source, room);
        if found.differ() {
            let small = shrink(&source.to_vec(), |t| smaller_bytes(t), |t| self.both(t, room).differ());
            let b = self.both(&small, room);
            return Err(format!(
                "text {:?}\nbytes {}\nbuffer of {room} bytes, same memory: {}\narchive {:?}\nmodel   {:?}",
                String::from_utf8_lossy(&small),
                hex(&small),
                b.same_memory,
                b.archive,
                b.model
            ));
        }
        table.count(match found.model {
            Ok(_) => " 0".to_owned(),
            Err((number, _)) => format!("{number:>2}"),
        });
        Ok(())
    }

    /// Every buffer length around that of what is written, and none.
    pub fn around(&self, source: &[u8], length: usize, table: &mut Table) -> Result<(), String> {
        for room in length.saturating_sub(3)..length + 4 {
            self.compare(source, room, table)?;
        }
        self.compare(source, 0, table)
    }
}
